//! The solve about the first target and the choice among its poses, for coordinates many kilometres
//! from zero (docs/USING.md).

use crate::poses::{Choice, Lent, Pose, Poses};
use crate::refusal::Refusal;
use crate::sys;
use std::array;

/// A pose about an origin. It takes world points as they are: [`apply`](Self::apply) subtracts the
/// origin itself. No [`Pose`] is given out, so that none is applied by mistake to a point from
/// which nothing was subtracted:
///
/// ```compile_fail
/// # let (world, bearings, target, bearing) = ([[0.0; 3]; 3], [[0.0; 3]; 3], [0.0; 3], [0.0; 3]);
/// let poses = p3p::solve_about(&world, &bearings).unwrap();
/// p3p::choose(&poses, &target, &bearing); // takes a slice of `Pose`
/// ```
#[derive(Clone, Copy, Debug, PartialEq)]
pub struct PoseAbout {
    pose: Pose,
    origin: [f64; 3],
}

impl PoseAbout {
    /// Where a world point lies before the camera: rotation × (point - origin) + translation. The
    /// differences are rounded once each, and the products added from left to right, as in the
    /// choice's score.
    pub fn apply(&self, point: &[f64; 3]) -> [f64; 3] {
        self.pose.apply(&array::from_fn(|i| point[i] - self.origin[i]))
    }

    /// The point that was subtracted: the first target, in world coordinates.
    pub fn origin(&self) -> [f64; 3] {
        self.origin
    }

    /// Where the origin lies before the camera: the translation of this pose.
    pub fn origin_in_camera(&self) -> [f64; 3] {
        self.pose.translation
    }

    /// The three columns of the rotation.
    pub fn rotation(&self) -> [[f64; 3]; 3] {
        self.pose.rotation
    }

    /// The three rows of the rotation.
    pub fn rows(&self) -> [[f64; 3]; 3] {
        self.pose.rows()
    }

    /// How many times the depths of this pose were refined: 0 to 5.
    pub fn updates(&self) -> u32 {
        self.pose.updates
    }

    /// Whether it came from a lifted pair, as [`Pose::lifted`].
    pub fn lifted(&self) -> bool {
        self.pose.lifted
    }
}

/// The one to four poses of a solve about the first target, in its order: a slice of poses, all of
/// one origin.
pub type PosesAbout = Poses<PoseAbout>;

/// The poses from which three world points are seen at three bearings, about the first of the
/// points: it is subtracted from all three, and the differences are solved as
/// [`solve`](crate::solve) does. A difference that is not finite is refused as a number of the
/// input is.
pub fn solve_about(world: &[[f64; 3]; 3], bearings: &[[f64; 3]; 3]) -> Result<PosesAbout, Refusal> {
    let [p0, p1, p2] = *world;
    let [f0, f1, f2] = *bearings;
    let input = [p0, p1, p2, f0, f1, f2];
    let (mut lent, mut origin) = (Lent::default(), [0.0; 3]);
    let Lent { slots, updates, lifted, count } = &mut lent;
    // SAFETY: the references are to arrays of this function's own, of the lengths that the C
    // function reads and writes.
    let number =
        unsafe { sys::p3p_solve_about(&input, slots, updates, lifted, count, &mut origin) };
    lent.answer(number, |pose| PoseAbout { pose, origin })
}

/// The choice among poses about the first target, as [`choose`](crate::choose) otherwise. `target`
/// is the checking target as it is: the origin is subtracted here.
pub fn choose_about(
    poses: &PosesAbout,
    target: &[f64; 3],
    bearing: &[f64; 3],
) -> Result<Choice, Refusal> {
    let slots = poses.slots.map(|about| about.pose.to_slot());
    let (count, origin) = (poses.count as u32, poses.slots[0].origin);
    let (mut best, mut score) = (0, 0.0);
    // SAFETY: the references are to arrays of the lengths that the C function reads, and `best` and
    // `score` are this function's own.
    let number = unsafe {
        sys::p3p_choose_about(&slots, count, &origin, target, bearing, &mut best, &mut score)
    };
    // The C function counts from 1; a refusal leaves 0.
    Refusal::unless_zero(number, Choice { index: (best as usize).saturating_sub(1), score })
}
