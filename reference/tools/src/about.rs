//! The solve about the first world point (document 02, §1; not in the Rust): that point is
//! subtracted from all three, one rounding each, a copy solves the differences, and the answer
//! carries the point as it was given. The stub and the flagged copy hold this file too.

use nalgebra::Vector3;

/// A point less another, one rounding each.
pub fn less(point: &[f64], origin: &[f64]) -> [f64; 3] {
    (Vector3::from_column_slice(point) - Vector3::from_column_slice(origin)).into()
}

/// Question 1.
pub fn is_finite(input: &[f64; 18]) -> bool {
    input.iter().all(|x| x.is_finite())
}

/// The frame with the nine differences from a point as its world points.
pub fn differences(input: &[f64; 18], origin: &[f64]) -> [f64; 18] {
    let mut moved = *input;
    for index in 0..3 {
        let at = 3 * index..3 * index + 3;
        moved[at.clone()].copy_from_slice(&less(&input[at], origin));
    }
    moved
}

/// What a copy solves; None where question 1 refuses the frame or the differences.
pub fn moved(input: &[f64; 18]) -> Option<[f64; 18]> {
    let asked = |frame: [f64; 18]| is_finite(&frame).then_some(frame);
    asked(differences(&asked(*input)?, &input[..3]))
}

/// The point that an answer carries: plus zeros where it is a refusal.
pub fn carried(input: &[f64; 18], refusal: u32) -> [f64; 3] {
    if refusal == 0 { [input[0], input[1], input[2]] } else { [0.0; 3] }
}
