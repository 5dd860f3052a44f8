//! Frames for the solve about the first world point (document 02, §1): the differences from it
//! overflow, round, or meet zeros and subnormal numbers.

use super::scenes::{any_realistic, posed};
use super::{Frame, part, put, seen};
use crate::random::{Random, Vector, nudge, plus, power, times};

/// A coordinate of the first point and of another, far apart: the difference overflows, or all but.
pub(super) fn overflow(r: &mut Random) -> Frame {
    let mut f = any_realistic(r);
    let (at, sign) = (r.index(), r.sign());
    let half_place = power(970); // of the largest number
    let ends = [r.scaled(1021, 1022).abs(), power(1023), f64::MAX];
    let small = [nudge(half_place, -1), half_place, nudge(half_place, 1)];
    let (one, other) = match r.below(4) {
        0 => (f64::MAX, r.pick(&small)),
        1 => (r.pick(&small), f64::MAX),
        _ => (r.pick(&ends), r.pick(&ends)),
    };
    f[at] = sign * one;
    for index in 1..3 {
        if index == 1 || r.chance(2) {
            f[3 * index + at] = -sign * other;
        }
    }
    if r.chance(4) {
        let (first, second) = (part(&f, 1), part(&f, 2));
        put(&mut f, 1, second);
        put(&mut f, 2, first);
    }
    f
}

/// Four points seen from some way off.
fn viewed(r: &mut Random, points: [Vector; 4], away: f64) -> Frame {
    let rotation = r.rotation();
    let direction = times([r.range(-0.4, 0.4), r.range(-0.4, 0.4), 1.0], away);
    seen(points, &rotation, direction)
}

/// Zeros of both signs in the first point, and here and there in the others.
pub(super) fn origin_zeros(r: &mut Random) -> Frame {
    let mut points: [Vector; 4] = std::array::from_fn(|_| r.cube());
    for (index, point) in points.iter_mut().enumerate() {
        for x in point {
            if r.chance(if index == 0 { 2 } else { 4 }) {
                *x = 0.0 * r.sign();
            }
        }
    }
    let away = r.range(1.0, 4.0);
    viewed(r, points, away)
}

/// Subnormal numbers in the first point, perhaps in all.
pub(super) fn origin_subnormal(r: &mut Random) -> Frame {
    let all = r.chance(4);
    let subnormal = |r: &mut Random| f64::from_bits(r.word() >> r.between(12, 63)) * r.sign();
    let mut points: [Vector; 4] = std::array::from_fn(|_| r.cube());
    for (index, point) in points.iter_mut().enumerate() {
        for x in point {
            if index == 0 && !r.chance(4) || all {
                *x = subnormal(r);
            }
        }
    }
    let away = r.range(1.0, 4.0);
    viewed(r, points, away)
}

/// Points that are the same bit for bit, or but for the sign of a zero.
pub(super) fn same_points(r: &mut Random) -> Frame {
    let mut f = if r.chance(2) { any_realistic(r) } else { posed(r) };
    if r.chance(3) {
        f[r.index()] = 0.0;
    }
    let (from, to) = r.pick(&[(0, 1), (0, 2), (1, 2), (0, 1)]);
    let mut point = part(&f, from);
    put(&mut f, to, point);
    if r.chance(3) {
        point = point.map(|x| if x == 0.0 { -x } else { x });
        put(&mut f, to, point);
    }
    if r.chance(6) {
        put(&mut f, 2, point);
    }
    f
}

/// Coordinates of other magnitudes than the first point's, so that the differences round.
pub(super) fn rounded(r: &mut Random) -> Frame {
    let low = r.between(-30, 0);
    let points = std::array::from_fn(|_| std::array::from_fn(|_| r.scaled(low, 2)));
    let away = r.range(4.0, 20.0);
    viewed(r, points, away)
}

/// A scene at an offset that costs the coordinates their last bits.
pub(super) fn offset(r: &mut Random) -> Frame {
    let mut f = if r.chance(2) { any_realistic(r) } else { posed(r) };
    let far = r.between(8, 56);
    let offset = std::array::from_fn(|_| r.scaled(far - 6, far));
    for index in [0, 1, 2, 6] {
        let point = plus(part(&f, index), offset);
        put(&mut f, index, point);
    }
    f
}
