//! Frames that a camera could see: plates, points in space, near and far.

use super::{Frame, frame, part, put, seen};
use crate::random::{Random, Vector, cross, dot, plus, power, times, turn, unit};

/// A plate of targets, in metres to a tenth of a millimetre or in counts of 4,096 to the
/// metre, at the shaft's own zero or at national grid offsets.
pub(super) fn realistic(r: &mut Random, counts: bool, grid: bool) -> Frame {
    let steps = if counts { 4096.0 } else { 10000.0 };
    let points: [Vector; 4] =
        std::array::from_fn(|_| [r.whole(-4000, 4000), r.whole(-4000, 4000), r.whole(-60, 60)]);
    let offset = if grid {
        [
            r.sign() * r.whole(200_000, 800_000),
            r.sign() * r.whole(3_000_000, 6_000_000),
            r.whole(0, 4000),
        ]
        .map(|x| x * steps)
    } else {
        [0.0; 3]
    };
    let rotation = r.rotation();
    let distance = r.range(0.5, 6.0) * steps;
    let translation = times([r.range(-0.4, 0.4), r.range(-0.4, 0.4), 1.0], distance);
    let mut result = seen(points, &rotation, translation);
    for (index, &point) in points.iter().enumerate() {
        let world = plus(point, offset);
        let world = if counts { world } else { world.map(|x| x / steps) };
        put(&mut result, if index == 3 { 6 } else { index }, world);
    }
    result
}

pub(super) fn any_realistic(r: &mut Random) -> Frame {
    let (counts, grid) = (r.chance(2), r.chance(3));
    realistic(r, counts, grid)
}

pub(super) fn noisy(r: &mut Random) -> Frame {
    let mut f = any_realistic(r);
    let noise = power(r.between(-30, -8));
    for index in [3, 4, 5, 7] {
        let moved = plus(part(&f, index), times(r.cube(), noise));
        put(&mut f, index, unit(moved));
    }
    f
}

pub(super) fn random(r: &mut Random) -> Frame {
    let world = std::array::from_fn(|_| r.cube());
    let bearings = std::array::from_fn(|_| r.direction());
    frame(world, bearings, r.cube(), r.direction())
}

/// Points in space around a camera, so that up to four poses fit.
pub(super) fn posed(r: &mut Random) -> Frame {
    let points = std::array::from_fn(|_| r.cube());
    let away = r.range(0.0, 3.0);
    seen(points, &r.rotation(), times(r.direction(), away))
}

pub(super) fn close(r: &mut Random) -> Frame {
    let points: [Vector; 4] = std::array::from_fn(|_| r.cube());
    let rotation = r.rotation();
    let near = times(turn(&rotation, points[r.index()]), -1.0);
    let away = power(r.between(-20, -1));
    seen(points, &rotation, plus(near, times(r.direction(), away)))
}

pub(super) fn whole(r: &mut Random) -> Frame {
    let mut point = |n: i64| -> Vector { std::array::from_fn(|_| r.whole(-n, n)) };
    let parts: [Vector; 8] =
        std::array::from_fn(|index| if index < 3 { point(4) } else { point(2) });
    let raw = r.chance(2);
    let bearing = |v: Vector| if raw || dot(v, v) == 0.0 { v } else { unit(v) };
    frame(
        [parts[0], parts[1], parts[2]],
        [bearing(parts[3]), bearing(parts[4]), bearing(parts[5])],
        parts[6],
        bearing(parts[7]),
    )
}

/// A plate seen along its own plane, or nearly.
pub(super) fn edge_on(r: &mut Random) -> Frame {
    let points: [Vector; 4] =
        std::array::from_fn(|_| [r.whole(-4000, 4000), r.whole(-4000, 4000), 0.0]);
    let rotation = r.rotation();
    let tilt = power(r.between(-24, -4)) * r.sign();
    let view = unit([r.range(-1.0, 1.0), r.range(-1.0, 1.0), tilt]);
    let away = r.range(3.0, 8.0) * 4096.0;
    seen(points, &rotation, times(turn(&rotation, view), away))
}

/// Far away, so that the three bearings all but coincide and depths need refining.
pub(super) fn parallel(r: &mut Random) -> Frame {
    let points = std::array::from_fn(|_| r.cube());
    let away = power(r.between(4, 26)) * r.range(1.0, 2.0);
    let direction = r.direction();
    seen(points, &r.rotation(), times(direction, away))
}

/// The checking parts: zeros, numbers that are not finite, a target at the camera.
pub(super) fn checking(r: &mut Random) -> Frame {
    let mut f = any_realistic(r);
    match r.below(5) {
        0 => put(&mut f, 6, [0.0; 3]),
        1 => put(&mut f, 7, [0.0; 3]),
        2 => f[18 + r.below(6) as usize] = r.special(),
        3 => {
            let aside = cross(part(&f, 7), [1.0, 0.0, 0.0]);
            put(&mut f, 7, aside);
        }
        _ => {
            for at in 18..24 {
                f[at] = r.special();
            }
        }
    }
    f
}
