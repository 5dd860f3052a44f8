//! The solve, its poses and the choice among them.

use crate::refusal::Refusal;
use crate::sys::{self, Slot};
use std::array;
use std::fmt;
use std::iter::Take;
use std::ops::Deref;
use std::slice;

/// A pose that takes world points to camera points: camera = rotation × world + translation.
#[derive(Clone, Copy, Debug, PartialEq)]
pub struct Pose {
    /// The three columns of the rotation.
    pub rotation: [[f64; 3]; 3],
    /// The translation.
    pub translation: [f64; 3],
    /// How many times the depths of this pose were refined: 0 to 5.
    pub updates: u32,
    /// Whether it came from a pair of roots whose discriminant was below zero, within rounding, and
    /// was lifted to zero: two poses have come together as one, which stands twice. What to make
    /// of it is in docs/USING.md.
    pub lifted: bool,
}

impl Pose {
    /// Where a world point lies before the camera: rotation × point + translation. The products are
    /// added from left to right, as in the choice's score.
    pub fn apply(&self, point: &[f64; 3]) -> [f64; 3] {
        let rows = self.rows();
        let turned = rows.map(|row| row[0] * point[0] + row[1] * point[1] + row[2] * point[2]);
        array::from_fn(|i| turned[i] + self.translation[i])
    }

    /// The three rows of the rotation.
    pub fn rows(&self) -> [[f64; 3]; 3] {
        array::from_fn(|i| self.rotation.map(|column| column[i]))
    }

    pub(crate) fn from_slot(
        [first, second, third, translation]: Slot,
        updates: u32,
        lifted: u32,
    ) -> Self {
        Self { rotation: [first, second, third], translation, updates, lifted: lifted != 0 }
    }

    pub(crate) fn to_slot(self) -> Slot {
        let [first, second, third] = self.rotation;
        [first, second, third, self.translation]
    }
}

/// The one to four poses of a solve, in its order: a slice of poses.
#[derive(Clone, Copy)]
pub struct Poses<P = Pose> {
    // those from `count` on are plus zeros and not lifted, and never shown
    pub(crate) slots: [P; 4],
    pub(crate) count: usize,
}

impl<P> Deref for Poses<P> {
    type Target = [P];

    fn deref(&self) -> &[P] {
        &self.slots[..self.count]
    }
}

impl<P: fmt::Debug> fmt::Debug for Poses<P> {
    fn fmt(&self, f: &mut fmt::Formatter<'_>) -> fmt::Result {
        f.debug_list().entries(&**self).finish()
    }
}

impl<P: PartialEq> PartialEq for Poses<P> {
    fn eq(&self, other: &Self) -> bool {
        **self == **other
    }
}

impl<P> IntoIterator for Poses<P> {
    type Item = P;
    type IntoIter = Take<array::IntoIter<P, 4>>;

    fn into_iter(self) -> Self::IntoIter {
        self.slots.into_iter().take(self.count)
    }
}

impl<'a, P> IntoIterator for &'a Poses<P> {
    type Item = &'a P;
    type IntoIter = slice::Iter<'a, P>;

    fn into_iter(self) -> Self::IntoIter {
        self.iter()
    }
}

/// The memory that is lent to a solve of the C interface.
#[derive(Default)]
pub(crate) struct Lent {
    pub(crate) slots: [Slot; 4],
    pub(crate) updates: [u32; 4],
    pub(crate) lifted: [u32; 4],
    pub(crate) count: u32,
}

impl Lent {
    /// The poses that a solve has left here, each made into a `P`, or the refusal of its number.
    pub(crate) fn answer<P>(
        &self,
        number: u32,
        made: impl Fn(Pose) -> P,
    ) -> Result<Poses<P>, Refusal> {
        let pose = |k| made(Pose::from_slot(self.slots[k], self.updates[k], self.lifted[k]));
        let poses = Poses { slots: array::from_fn(pose), count: self.count as usize };
        Refusal::unless_zero(number, poses)
    }
}

/// The poses from which three world points are seen at three bearings, each point and bearing as x,
/// y, z. The bearings are to be unit vectors, normalised in double
/// ([`normalise`](crate::normalise)): the further their lengths are off, the more are refused and
/// the worse are the answers (docs/USING.md).
pub fn solve(world: &[[f64; 3]; 3], bearings: &[[f64; 3]; 3]) -> Result<Poses, Refusal> {
    let [p0, p1, p2] = *world;
    let [f0, f1, f2] = *bearings;
    let input = [p0, p1, p2, f0, f1, f2];
    let mut lent = Lent::default();
    let Lent { slots, updates, lifted, count } = &mut lent;
    // SAFETY: the references are to arrays of this function's own, of the lengths that the C
    // function reads and writes.
    let number = unsafe { sys::p3p_solve(&input, slots, updates, lifted, count) };
    lent.answer(number, |pose| pose)
}

/// The pose that a fourth target confirms.
#[derive(Clone, Copy, Debug, PartialEq)]
pub struct Choice {
    /// Its place among the poses, from 0.
    pub index: usize,
    /// Its score, the squared tangent of the angle between the target and its bearing: the angle is
    /// `score.sqrt().atan()`. The choice is the best of the poses and need not be good: that the
    /// angle is within your measuring error is yours to ask.
    pub score: f64,
}

/// The pose under which a fourth target lies before the camera and nearest to its bearing. A pose
/// has a score only where camera · bearing, as computed, is above zero:
/// |camera × bearing|² / (camera · bearing)². The lowest finite score wins, of equal ones the
/// earliest. Poses after the fourth are not looked at.
pub fn choose(poses: &[Pose], target: &[f64; 3], bearing: &[f64; 3]) -> Result<Choice, Refusal> {
    let mut slots = [Slot::default(); 4];
    for (pose, slot) in poses.iter().zip(&mut slots) {
        *slot = pose.to_slot();
    }
    let count = poses.len().min(slots.len()) as u32;
    let (mut best, mut score) = (0, 0.0);
    // SAFETY: the references are to arrays of the lengths that the C function reads, and `best` and
    // `score` are this function's own.
    let number = unsafe { sys::p3p_choose(&slots, count, target, bearing, &mut best, &mut score) };
    // The C function counts from 1; a refusal leaves 0.
    Refusal::unless_zero(number, Choice { index: (best as usize).saturating_sub(1), score })
}
