//! Poses to choose from.

use super::{Input, any_checked, words};
use crate::frames::part;
use crate::random::{Random, Vector, power, times};
use crate::table;
use copy_second::Answer;

/// Translations of four poses that do not turn, and a target by its bearing.
pub(super) fn unturned(
    translations: [Vector; 4],
    count: u64,
    target: Vector,
    bearing: Vector,
) -> Input {
    let mut input = vec![count];
    for t in translations {
        input.extend(words(&[1.0, 0.0, 0.0, 0.0, 1.0, 0.0, 0.0, 0.0, 1.0]));
        input.extend(words(&t));
    }
    input.extend(words(&[target, bearing].concat()));
    input
}

/// Depths on both sides of zero: a pose has a score only where camera · bearing is above it.
pub(super) fn hand_choices() -> Vec<Input> {
    let still = [0.0; 3];
    let (ahead, back, far) = ([0.0, 0.0, 1.0], [0.0, 0.0, -2.0], [0.0, 0.0, -3.0]);
    let at_camera = [0.0, 0.0, -1.0];
    let mut list = vec![
        // The same score behind and in front; behind lower; all behind; and with a count.
        unturned([back, still, far, back], 4, ahead, ahead),
        unturned([back, [0.5, 0.0, 0.0], still, far], 4, ahead, ahead),
        unturned([back, [0.5, 0.0, 0.0], still, far], 2, ahead, ahead),
        unturned([back, far, back, far], 4, ahead, ahead),
        unturned([back, far, still, still], 2, ahead, ahead),
        // In front of the camera but behind along the bearing, and the other way round.
        unturned([still; 4], 1, [-1.0, 0.0, 0.5], [1.0, 0.0, 0.0]),
        unturned([still; 4], 1, [1.0, 0.0, -0.5], [1.0, 0.0, 0.0]),
        // A depth of either zero.
        unturned([[1.0, 0.0, -1.0], still, back, still], 1, ahead, ahead),
        unturned([at_camera, at_camera, at_camera, still], 4, ahead, ahead),
        unturned([at_camera; 4], 4, ahead, [-1.0; 3]),
        // A depth that overflows is above zero or below it.
        unturned([still; 4], 1, [1e308; 3], [1.0; 3]),
        unturned([still; 4], 1, [1e308; 3], [-1.0; 3]),
        unturned([still; 4], 1, [1e308; 3], [1.0, 1.0, -1e-3]),
    ];
    // Depths whose squares are tiny or vanish, and that are not finite.
    for z in [2f64.powi(-500), 2f64.powi(-540), 2f64.powi(-1074), f64::INFINITY, f64::NAN] {
        for sign in [1.0, -1.0] {
            list.push(unturned([still; 4], 4, [0.0, 0.0, sign * z], ahead));
            list.push(unturned([still; 4], 4, [z, 0.0, sign * z], ahead));
            list.push(unturned([still, at_camera, ahead, back], 4, ahead, [0.0, z, sign * z]));
        }
    }
    list
}

/// The count and the poses of an answer, perhaps altered.
pub(super) fn altered(answer: &Answer, r: &mut Random) -> Input {
    let mut poses: Vec<f64> = answer.poses.concat();
    for slot in answer.count..4 {
        if r.chance(2) {
            let from = r.below(answer.count as u64) as usize;
            poses.copy_within(12 * from..12 * from + 12, 12 * slot);
        }
    }
    if r.chance(3) {
        for _ in 0..r.between(1, 4) {
            poses[r.below(48) as usize] = if r.chance(2) { r.special() } else { r.bits() };
        }
    }
    let count = match r.below(4) {
        0 => r.below(5),
        1 => r.pick(&[5, 6, 255, u32::MAX as u64]),
        _ => answer.count as u64,
    };
    let mut input = vec![count];
    input.extend(words(&poses));
    input
}

/// Poses of a solved frame, perhaps altered, and a target.
pub(super) fn choice(r: &mut Random) -> Input {
    let (f, answer) = loop {
        let f = any_checked(r);
        let (answer, _) = table::second::frame(&f);
        if answer.count > 0 {
            break (f, answer);
        }
    };
    let mut input = altered(&answer, r);
    let (mut target, mut bearing) = (part(&f, 6), part(&f, 7));
    match r.below(8) {
        0 => target = std::array::from_fn(|_| r.special()),
        1 => bearing = std::array::from_fn(|_| r.special()),
        2 => bearing = [0.0; 3],
        3 => (target, bearing) = (times(r.cube(), power(r.between(-600, 600))), r.cube()),
        _ => {}
    }
    input.extend(words(&[target, bearing].concat()));
    input
}
