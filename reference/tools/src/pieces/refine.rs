//! Depths, squared edges and cosines to refine.

use super::{Input, words};
use crate::random::{Random, Vector, dot, minus, plus, power, times, unit};

fn refine_input(depths: Vector, edges: Vector, cosines: Vector, limit: u64) -> Input {
    let mut input = words(&[depths, edges, cosines].concat());
    input.push(limit);
    input
}

pub(super) fn hand_refine() -> Vec<Input> {
    let all = |x: f64| [x; 3];
    vec![
        refine_input(all(2.0), all(2.0), all(0.0), 1),
        refine_input(all(1.0), all(2.0), all(0.0), 1),
        refine_input(all(2.0), all(2.0), all(0.0), 0),
        refine_input(all(2.0), all(2.0), all(0.0), 5),
        refine_input(all(1.0), all(0.0), all(1.0), 5),
        refine_input(all(1.0), all(2.0), all(1.0), 5),
        refine_input(all(1e200), all(2.0), all(0.0), 5),
        refine_input(all(1e-200), all(2.0), all(0.0), 5),
        refine_input(all(1e150), all(1e300), all(0.25), 5),
        refine_input([1.0, 1.0, 2.0], [f64::NAN, 2.0, 2.0], all(0.0), 5),
        refine_input(all(1.0), all(f64::NAN), all(0.0), 5),
        refine_input(all(1.0), all(f64::INFINITY), all(0.0), 5),
        refine_input(all(-0.0), all(-0.0), all(0.5), 5),
        refine_input([f64::NAN, 1.0, 1.0], all(2.0), all(0.0), 5),
        refine_input([1.0, 2.0, 4.0], all(1.0), [0.5, 0.25, 0.5], 5),
    ]
}

/// Depths of three points, moved off by a little or much.
fn moved_off(r: &mut Random, limit: u64) -> Input {
    let bearings: [Vector; 3] = if r.chance(4) {
        let base = r.direction();
        let spread = power(r.between(-16, -3));
        std::array::from_fn(|_| unit(plus(base, times(r.cube(), spread))))
    } else {
        std::array::from_fn(|_| r.direction())
    };
    let depths: Vector = std::array::from_fn(|_| r.range(0.3, 5.0));
    let points: [Vector; 3] = std::array::from_fn(|i| times(bearings[i], depths[i]));
    let edge = |i: usize, j: usize| {
        let d = minus(points[i], points[j]);
        dot(d, d)
    };
    let cosine = |i: usize, j: usize| dot(bearings[i], bearings[j]);
    let off = power(r.between(-45, 1));
    let start = depths.map(|d| d * (1.0 + off * r.range(-1.0, 1.0)));
    let scale = if r.chance(4) { r.between(-40, 40) } else { 0 };
    refine_input(
        times(start, power(scale)),
        times([edge(0, 1), edge(0, 2), edge(1, 2)], power(2 * scale)),
        [cosine(0, 1), cosine(0, 2), cosine(1, 2)],
        limit,
    )
}

pub(super) fn refine(r: &mut Random) -> Input {
    let limit = if r.chance(5) { r.below(6) } else { 5 };
    match r.below(8) {
        0..=3 => moved_off(r, limit),
        4 => {
            let d = std::array::from_fn(|_| r.range(0.1, 4.0));
            let a = std::array::from_fn(|_| r.range(0.1, 9.0));
            let m = std::array::from_fn(|_| r.range(-1.0, 1.0));
            refine_input(d, a, m, limit)
        }
        5 => {
            let d = std::array::from_fn(|_| r.whole(0, 3));
            let a = std::array::from_fn(|_| r.whole(0, 5));
            let m = std::array::from_fn(|_| r.whole(-4, 4) * 0.25);
            refine_input(d, a, m, limit)
        }
        6 => {
            let (k, n) = (r.between(-360, 360), r.between(-720, 720));
            let d = std::array::from_fn(|_| r.range(1.0, 2.0) * power(k));
            let a = std::array::from_fn(|_| r.range(1.0, 2.0) * power(n));
            let m = std::array::from_fn(|_| r.range(-1.0, 1.0));
            refine_input(d, a, m, limit)
        }
        _ => {
            let mut x: [f64; 9] = std::array::from_fn(|_| r.range(0.1, 1.0));
            for _ in 0..r.between(1, 3) {
                x[r.below(9) as usize] = if r.chance(3) { r.bits() } else { r.special() };
            }
            refine_input([x[0], x[1], x[2]], [x[3], x[4], x[5]], [x[6], x[7], x[8]], limit)
        }
    }
}
