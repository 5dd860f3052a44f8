//! Inputs of the solve and of the choice about the first world point (document 02, §1).

use super::poses::{altered, unturned};
use super::{Input, any_checked, words};
use crate::frames::{self, Frame, part};
use crate::random::{Random, Vector, nudge, power, times};
use crate::table;

/// A frame of any kind, half of them of the kinds for this solve.
fn any_about(r: &mut Random) -> Frame {
    if r.chance(2) { any_checked(r) } else { r.pick(frames::ABOUT).2(r) }
}

pub(super) fn about(r: &mut Random) -> Input {
    words(&any_about(r)[..18])
}

/// A plate of targets seen straight on from above, and the same with other coordinates here and
/// there.
fn plate(changes: &[(usize, f64)]) -> Input {
    let mut frame = [
        [0.0, 0.0, 0.0],
        [1.0, 0.0, 0.0],
        [0.0, 2.0, 0.0],
        [0.0, 0.0, 1.0],
        [0.24, 0.0, 0.970_772_9],
        [0.0, 0.447_213_6, 0.894_427_2],
    ]
    .concat();
    for &(at, x) in changes {
        frame[at] = x;
    }
    words(&frame)
}

/// The first point's zeros of either sign; each difference at the edge of overflow and beyond it;
/// each number not finite in turn.
pub(super) fn hand_about() -> Vec<Input> {
    let mut list = vec![
        plate(&[]),
        plate(&[(0, -0.0), (1, -0.0), (2, -0.0)]),
        plate(&[(0, -0.0), (4, -0.0), (6, -0.0), (8, -0.0)]),
        plate(&[(2, 5e-324), (5, 5e-324), (8, 5e-324)]),
        plate(&[(2, -5e-324), (5, 5e-324), (8, 1e-310)]),
    ];
    let half_place = power(970); // of the largest number: added to it, the tie goes to infinity
    for at in 0..6 {
        let (first, other) = (at % 3, 3 + at);
        for (x, y) in [(f64::MAX, half_place), (f64::MAX, nudge(half_place, -1))] {
            let sign = if at < 3 { 1.0 } else { -1.0 };
            list.push(plate(&[(first, sign * x), (other, sign * -y)]));
        }
    }
    for at in 0..18 {
        let x = [f64::INFINITY, f64::NEG_INFINITY, f64::NAN][at % 3];
        list.push(plate(&[(at, x)]));
    }
    list
}

/// Four poses that do not turn, about a point.
fn unturned_about(translations: [Vector; 4], origin: Vector, target: Vector) -> Input {
    about_point(unturned(translations, 4, target, [0.0, 0.0, 1.0]), origin)
}

/// The input of a choice, with a point before its target.
fn about_point(mut choice: Input, origin: Vector) -> Input {
    choice.splice(49..49, words(&origin));
    choice
}

/// Targets at the point and near it, differences that round, overflow or are no numbers.
pub(super) fn hand_choices_about() -> Vec<Input> {
    let still = [0.0; 3];
    let (ahead, back) = ([0.0, 0.0, 1.0], [0.0, 0.0, -2.0]);
    let aside = [[0.5, 0.0, 1.0], [0.0, 0.25, 1.0], back, ahead];
    let grid = [487_213.0, -5_120_344.0, 412.0];
    let (largest, far, half_place) = (f64::MAX, power(54), power(970));
    let (infinite, nan) = (f64::INFINITY, f64::NAN);
    let mut list = Vec::new();
    for (origin, target) in [
        (still, still),
        ([-0.0; 3], [0.0; 3]),
        ([0.0; 3], [-0.0; 3]),
        (grid, grid),
        (grid, [487_213.5, -5_120_343.75, 413.0]),
        (grid, [487_213.0, -5_120_344.0, 409.0]),
        (grid, still),
        (still, grid),
        ([far, 0.0, 0.0], [1.0, 0.0, 1.0]),
        ([1.0, 0.0, -1.0], [far, 0.0, far]),
        ([0.0, 0.0, -power(-60)], ahead),
        ([largest, 0.0, 0.0], [-half_place, 0.0, 1.0]),
        ([largest, 0.0, 0.0], [-nudge(half_place, -1), 0.0, 1.0]),
        ([0.0, 0.0, -largest], [0.0, 0.0, largest]),
        ([0.0, 0.0, largest], [0.0, 0.0, -largest]),
        ([-largest; 3], [largest; 3]),
        ([infinite, 0.0, 0.0], [infinite, 0.0, 1.0]),
        ([0.0, -infinite, 0.0], ahead),
        ([0.0, 0.0, nan], ahead),
        (ahead, [0.0, nan, 0.0]),
    ] {
        list.push(unturned_about(aside, origin, target));
    }
    for count in [0, 1, 2, 3, 5, u32::MAX as u64] {
        list.push(about_point(unturned(aside, count, grid, ahead), grid));
    }
    list
}

/// Poses of a frame solved about its first point, perhaps altered, that point and a target.
pub(super) fn choice_about(r: &mut Random) -> Input {
    let (f, answer, mut origin) = loop {
        let f = any_about(r);
        let (answer, origin) = table::second::about(&std::array::from_fn(|index| f[index]));
        if answer.count > 0 {
            break (f, answer, origin);
        }
    };
    let mut input = altered(&answer, r);
    let (mut target, mut bearing) = (part(&f, 6), part(&f, 7));
    match r.below(16) {
        0 => target = std::array::from_fn(|_| r.special()),
        1 => bearing = std::array::from_fn(|_| r.special()),
        2 => origin = std::array::from_fn(|_| r.special()),
        3 => target = origin,
        4 => {
            let (at, sign) = (r.index(), r.sign());
            (origin[at], target[at]) = (sign * r.scaled(1021, 1022).abs(), -sign * f64::MAX);
        }
        5 => {
            let size = power(r.between(-600, 600));
            (origin, target) = (times(r.cube(), size), times(r.cube(), size));
        }
        6 => bearing = [0.0; 3],
        _ => {}
    }
    input.extend(words(&[origin, target, bearing].concat()));
    input
}
