//! Frames whose geometry is degenerate, or nearly.

use super::scenes::any_realistic;
use super::{Frame, frame, part, put, seen};
use crate::random::{Random, Vector, minus, nudge, plus, power, times, turn, unit};

pub(super) fn collinear(r: &mut Random) -> Frame {
    let mut f = any_realistic(r);
    let (start, step) = (part(&f, 0), minus(part(&f, 1), part(&f, 0)));
    let along = if r.chance(2) { r.whole(2, 5) } else { r.range(-2.0, 2.0) };
    put(&mut f, 2, plus(start, times(step, along)));
    if r.chance(3) {
        let off = plus(part(&f, 2), times(r.cube(), power(r.between(-40, -10))));
        put(&mut f, 2, off);
    }
    f
}

pub(super) fn coincident(r: &mut Random) -> Frame {
    let mut f = any_realistic(r);
    let (from, to) = (r.index(), r.index());
    let point = part(&f, from);
    put(&mut f, to, point);
    if r.chance(4) {
        for index in 0..3 {
            put(&mut f, index, point);
        }
    }
    if r.chance(2) {
        let bearing = part(&f, 3 + from);
        put(&mut f, 3 + to, bearing);
    }
    f
}

/// An equilateral plate at three equal angles, squared edges and cosines equal as
/// computed (answer 2); every third one a little off.
pub(super) fn equal_angles(r: &mut Random) -> Frame {
    let size = if r.chance(2) { r.whole(1, 9) } else { r.range(0.1, 4.0) };
    let q = if r.chance(2) { r.whole(-8, 8) * 0.125 } else { r.range(-0.4, 0.9) };
    let cycle = |v: Vector| [v, [v[2], v[0], v[1]], [v[1], v[2], v[0]]];
    let world = cycle([size, 0.0, 0.0]);
    let mut bearings = cycle([1.0, q, q]);
    if r.chance(2) {
        let length = (1.0 + q * q + q * q).sqrt();
        bearings = bearings.map(|b| b.map(|x| x / length));
    }
    let mut f = frame(world, bearings, [0.5 * size, 0.25 * size, 0.0], unit([1.0, 0.5, 0.2]));
    if r.chance(3) {
        let at = r.pick(&[0, 4, 8, 9, 13, 17]);
        let places = r.places(30);
        f[at] = nudge(f[at], places);
    }
    f
}

/// The camera on or near the cylinder over the circle through the three points.
pub(super) fn danger(r: &mut Random) -> Frame {
    let circle = [
        [3.0, 4.0],
        [-3.0, 4.0],
        [0.0, -5.0],
        [5.0, 0.0],
        [-4.0, 3.0],
        [4.0, -3.0],
        [-4.0, -3.0],
        [0.0, 5.0],
    ];
    let at = |r: &mut Random| {
        let [x, y] = r.pick(&circle);
        [x, y, 0.0]
    };
    let (p, q, s) = (at(r), at(r), at(r));
    let camera = at(r);
    let height = r.pick(&[0.5, 1.0, 2.0, 5.0, 7.5]) * r.sign();
    let off = if r.chance(2) { 0.0 } else { power(r.between(-40, -6)) };
    let camera = plus([camera[0], camera[1], height], times(r.cube(), off));
    let rotation = r.rotation();
    let translation = times(turn(&rotation, camera), -1.0);
    seen([p, q, s, [1.5, 0.5, 0.0]], &rotation, translation)
}

pub(super) fn pair(r: &mut Random) -> Frame {
    let mut points: [Vector; 4] = std::array::from_fn(|_| r.cube());
    let (from, to) = (r.index(), r.index());
    points[to] = plus(points[from], times(r.cube(), power(r.between(-52, -8))));
    let rotation = r.rotation();
    let away = r.range(2.0, 6.0);
    seen(points, &rotation, [0.0, 0.0, away])
}

/// Two points mirrored in a plane through the camera, the third in it: the leading
/// coefficient vanishes exactly in one ordering at least.
pub(super) fn retry(r: &mut Random) -> Frame {
    let (x, y, z) = (r.range(0.1, 1.0), r.range(-1.0, 1.0), r.range(-1.0, 1.0));
    let apex = [0.0, r.range(-1.0, 1.0), r.range(-1.0, 1.0)];
    let points = [[x, y, z], [-x, y, z], apex, r.cube()];
    let away = [0.0, r.range(-0.5, 0.5), r.range(1.1, 4.0)];
    let f = seen(points, &[[1.0, 0.0, 0.0], [0.0, 1.0, 0.0], [0.0, 0.0, 1.0]], away);
    let order = r.pick(&[[0, 1, 2], [0, 2, 1], [1, 0, 2], [1, 2, 0], [2, 0, 1], [2, 1, 0]]);
    reorder(&f, order)
}

fn reorder(f: &Frame, order: [usize; 3]) -> Frame {
    let mut result = *f;
    for (to, from) in order.into_iter().enumerate() {
        put(&mut result, to, part(f, from));
        put(&mut result, 3 + to, part(f, 3 + from));
    }
    result
}

pub(super) fn retry_near(r: &mut Random) -> Frame {
    let mut f = retry(r);
    if r.chance(2) {
        let stretch = power(r.between(-14, 14));
        for at in 0..9 {
            f[at] *= stretch;
        }
    }
    for _ in 0..r.between(1, 3) {
        let at = r.below(18) as usize;
        if f[at] != 0.0 {
            let places = r.places(20);
            f[at] = nudge(f[at], places);
        }
    }
    f
}
