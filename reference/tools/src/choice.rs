//! The choice by a fourth target (document 01, module 8, as document 02, §2, amends it; not in the
//! Rust): camera = R × target + t; where camera · bearing is above zero, score =
//! |camera × bearing|² ÷ (camera · bearing)²; the lowest finite score, the earlier on a tie, by the
//! chain of `best_by`. A count above 4 is read as 4. The choice about a point (§1) is this one of
//! the target less that point (about.rs).

use nalgebra::{Matrix3, Vector3};

pub type Poses = [[f64; 12]; 4];

pub fn best(count: u64, poses: &Poses, target: &[f64], bearing: &[f64]) -> Option<(usize, f64)> {
    lowest(count, poses, target, bearing, |depth| depth > 0.0)
}

/// The lowest finite score of the poses whose depth passes `has_score`.
pub fn lowest(
    count: u64,
    poses: &Poses,
    target: &[f64],
    bearing: &[f64],
    has_score: fn(f64) -> bool,
) -> Option<(usize, f64)> {
    poses
        .iter()
        .take(count.min(4) as usize)
        .map(|pose| measured(pose, target, bearing))
        .enumerate()
        .filter(|(_, (depth, score))| has_score(*depth) && score.is_finite())
        .map(|(index, (_, score))| (index, score))
        .min_by(|left, right| left.1.total_cmp(&right.1))
}

/// camera · bearing, and the quotient, whether or not it counts as a score.
pub fn measured(pose: &[f64; 12], target: &[f64], bearing: &[f64]) -> (f64, f64) {
    let rotation = Matrix3::from_column_slice(&pose[..9]);
    let translation = Vector3::from_column_slice(&pose[9..]);
    let bearing = Vector3::from_column_slice(bearing);
    let camera = rotation * Vector3::from_column_slice(target) + translation;
    let depth = camera.dot(&bearing);
    (depth, camera.cross(&bearing).norm_squared() / (depth * depth))
}
