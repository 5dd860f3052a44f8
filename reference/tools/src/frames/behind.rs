//! Frames whose checking target lies, by one of their poses, behind the camera on its bearing's
//! line (document 02, §2).

use super::{Frame, part, put, scenes};
use crate::random::{Random, Vector, plus, power, times, unit};
use crate::table;
use nalgebra::{Matrix3, Vector3};

/// The rotation and the translation of a pose.
fn parts(pose: &[f64; 12]) -> (Matrix3<f64>, Vector3<f64>) {
    (Matrix3::from_column_slice(&pose[..9]), Vector3::from_column_slice(&pose[9..]))
}

/// The point that one pose puts before the camera and the other exactly behind it:
/// R X + t = -s (Q X + u).
fn opposite(one: &[f64; 12], other: &[f64; 12], s: f64) -> Option<Vector> {
    let ((r, t), (q, u)) = (parts(one), parts(other));
    let point = (r + q * s).try_inverse()? * (t + u * s);
    Some((-point).into())
}

/// A target that two poses put on opposite sides of the camera, its bearing off as a camera's is;
/// or one that is seen, its bearing turned round, so that all poses may put it behind.
pub fn behind(r: &mut Random) -> Frame {
    loop {
        let mut f = if r.chance(2) { scenes::any_realistic(r) } else { scenes::posed(r) };
        if r.chance(6) {
            let turned = times(part(&f, 7), -1.0);
            put(&mut f, 7, turned);
            return f;
        }
        let (answer, _) = table::second::frame(&f);
        if answer.count < 2 {
            continue;
        }
        let one = r.below(answer.count as u64) as usize;
        let other = (one + 1 + r.below(answer.count as u64 - 1) as usize) % answer.count;
        let s = r.range(0.25, 4.0);
        let Some(target) = opposite(&answer.poses[one], &answer.poses[other], s) else {
            continue;
        };
        let (rotation, translation) = parts(&answer.poses[one]);
        let camera: Vector = (rotation * Vector3::from(target) + translation).into();
        let noise = power(r.between(-50, -8));
        put(&mut f, 6, target);
        put(&mut f, 7, unit(plus(unit(camera), times(r.cube(), noise))));
        return f;
    }
}
