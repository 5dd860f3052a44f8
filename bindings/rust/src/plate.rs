//! A plate that serves many frames (docs/USING.md).

use crate::poses::{Lent, Poses};
use crate::refusal::Refusal;
use crate::sys;
use std::array;

/// Three world points, with what a solve works out from them alone: their squared edges, and an
/// inverse matrix. Each operation that is not refused leaves a plate whose stored numbers
/// are, bit for bit, worked out from its points; a refused one leaves the plate as it was. Targets
/// have the numbers 0, 1 and 2.
///
/// ```
/// let mut plate = p3p::Plate::new(&[[-0.2, -0.1, 0.0], [0.3, -0.1, 0.0], [-0.2, 0.25, 0.05]])?;
/// for depth in [1.5, 2.0, 2.5] {
///     let seen = plate.points().map(|[x, y, z]| p3p::normalise(&[x, y, z + depth]).unwrap());
///     // the poses that `p3p::solve` gives of the same points and bearings
///     assert_eq!(plate.solve(&seen), p3p::solve(&plate.points(), &seen));
/// }
/// let again = [-0.2, 0.26, 0.05]; // measured again
/// let seen = plate.points().map(|[x, y, z]| p3p::normalise(&[x, y, z + 2.0]).unwrap());
/// let shown = plate.preview(2, &again, &seen); // what it would do, and the plate is as it was
/// plate.replace(2, &again)?;
/// assert_eq!((plate.solve(&seen), plate.squared_edges()), (shown.poses, shown.squared_edges));
/// assert_eq!(plate.replace(3, &[0.0; 3]), Err(p3p::Refusal::NoSuchTarget));
/// # Ok::<(), p3p::Refusal>(())
/// ```
///
/// The numbers cannot be set one by one, so that none is changed by mistake without the others:
///
/// ```compile_fail
/// let mut plate = p3p::Plate::new(&[[0.0; 3]; 3]).unwrap();
/// plate.stored.numbers[0] = 1.0; // private
/// ```
#[derive(Clone, Copy, Debug, PartialEq)]
pub struct Plate {
    stored: StoredPlate,
}

/// The numbers of a plate, as the C interface holds them: to be kept elsewhere and brought back.
#[derive(Clone, Copy, Debug, PartialEq)]
pub struct StoredPlate {
    /// The three world points, each x, y, z; from 9 on the squared edges between targets 0 and 1,
    /// 0 and 2, 1 and 2; from 12 on the three columns of the inverse that [`Plate::inverse`] has,
    /// or nine plus zeros where there is none.
    pub numbers: [f64; 21],
    /// Whether there is an inverse.
    pub has_inverse: bool,
}

/// What a target at another point would do: see [`Plate::preview`].
#[derive(Clone, Copy, Debug, PartialEq)]
pub struct Preview {
    /// The squared edges that would be stored, between targets 0 and 1, 0 and 2, 1 and 2, also
    /// where the solve alone refuses; three plus zeros where the replacement is refused.
    pub squared_edges: [f64; 3],
    /// What the solve would give, or the refusal of the replacement.
    pub poses: Result<Poses, Refusal>,
}

impl Plate {
    /// The plate of three points. A coordinate that is not finite is refused.
    pub fn new(points: &[[f64; 3]; 3]) -> Result<Self, Refusal> {
        let (mut numbers, mut has_inverse) = ([0.0; 21], 0);
        // SAFETY: the references are to arrays of the lengths that the C function reads and writes,
        // and those that it writes are this function's own.
        let number = unsafe { sys::p3p_plate_make(points, &mut numbers, &mut has_inverse) };
        let stored = StoredPlate { numbers, has_inverse: has_inverse != 0 };
        Refusal::unless_zero(number, Self { stored })
    }

    /// Puts a target at another point. Refused where the point is not finite, then where there is
    /// no such target. The other points are not asked about.
    pub fn replace(&mut self, target: u32, point: &[f64; 3]) -> Result<(), Refusal> {
        // SAFETY: the references are to arrays of the lengths that the C function reads and writes,
        // and those that it writes are lent to this call alone.
        self.change(|numbers, has_inverse| unsafe {
            sys::p3p_plate_replace(numbers, has_inverse, target, point)
        })
    }

    /// Puts each of two targets in the other's place. Refused where there is no such target. A
    /// target may be exchanged with itself: the points stay, and all else is worked out anew.
    pub fn exchange(&mut self, first: u32, second: u32) -> Result<(), Refusal> {
        // SAFETY: as in `replace`.
        self.change(|numbers, has_inverse| unsafe {
            sys::p3p_plate_exchange(numbers, has_inverse, first, second)
        })
    }

    /// Multiplies all coordinates by 2^k, which is exact; zeros keep their sign. Refused where k is
    /// not from -64 to 64, then where a coordinate is not finite, or its exact scaled value has a
    /// magnitude of 2^1024 or more, or is not zero and has one below 2^-1022. So with k = 0, which
    /// works all but the points out anew, a subnormal coordinate is refused.
    pub fn scale(&mut self, k: i32) -> Result<(), Refusal> {
        // SAFETY: as in `replace`.
        self.change(|numbers, has_inverse| unsafe { sys::p3p_plate_scale(numbers, has_inverse, k) })
    }

    /// The poses from which the targets are seen at three bearings: bit for bit what
    /// [`solve`](crate::solve) gives of the plate's points and the bearings, the refusals too, of
    /// every plate that the operations have left, and of one that was brought back with the numbers
    /// that they left. What else a plate brought back may give is told at
    /// [`from_stored`](Self::from_stored).
    pub fn solve(&self, bearings: &[[f64; 3]; 3]) -> Result<Poses, Refusal> {
        let StoredPlate { numbers, has_inverse } = &self.stored;
        let mut lent = Lent::default();
        let Lent { slots, updates, lifted, count } = &mut lent;
        // SAFETY: the references are to arrays of the lengths that the C function reads and writes,
        // and those that it writes are this function's own.
        let number = unsafe {
            sys::p3p_plate_solve(
                numbers,
                u32::from(*has_inverse),
                bearings,
                slots,
                updates,
                lifted,
                count,
            )
        };
        lent.answer(number, |pose| pose)
    }

    /// What a target at another point would do; the plate stays as it is. The questions of
    /// [`replace`](Self::replace) are asked first, then those of the solve. Where the replacement
    /// is not refused, it and then [`solve`](Self::solve) give just what was shown, bit for bit but
    /// for NaNs among the edges, and the solve's refusal too; and whatever squared edges and
    /// inverse the plate holds, the answer is what [`solve`](crate::solve) gives of its points, the
    /// new one among them, and the bearings.
    pub fn preview(&self, target: u32, point: &[f64; 3], bearings: &[[f64; 3]; 3]) -> Preview {
        let StoredPlate { numbers, has_inverse } = &self.stored;
        let (mut lent, mut squared_edges) = (Lent::default(), [0.0; 3]);
        let Lent { slots, updates, lifted, count } = &mut lent;
        // SAFETY: as in `solve`.
        let number = unsafe {
            sys::p3p_plate_preview(
                numbers,
                u32::from(*has_inverse),
                target,
                point,
                bearings,
                slots,
                updates,
                lifted,
                count,
                &mut squared_edges,
            )
        };
        Preview { squared_edges, poses: lent.answer(number, |pose| pose) }
    }

    /// The three world points.
    pub fn points(&self) -> [[f64; 3]; 3] {
        [0, 3, 6].map(|at| self.vector(at))
    }

    /// The squared edges between targets 0 and 1, 0 and 2, 1 and 2.
    pub fn squared_edges(&self) -> [f64; 3] {
        self.vector(9)
    }

    /// The three columns of the inverse of the matrix whose columns are p0 - p1, p0 - p2 and their
    /// cross product. None where it has none, as where the points lie in a line.
    pub fn inverse(&self) -> Option<[[f64; 3]; 3]> {
        self.stored.has_inverse.then(|| [12, 15, 18].map(|at| self.vector(at)))
    }

    /// All numbers of the plate, to be kept elsewhere.
    pub fn to_stored(&self) -> StoredPlate {
        self.stored
    }

    /// A plate of numbers that were kept elsewhere. They are taken as they are: no question is
    /// asked, and nothing is worked out. Where they are not what the points give, the stored
    /// squared edges serve every ordering of the targets in a solve; the stored inverse, or its
    /// lack, serves the given ordering alone, and the others make theirs from the points; and only
    /// points and bearings are asked to be finite.
    ///
    /// Where the numbers may have been changed, `plate.exchange(0, 0)` keeps the points and works
    /// all else out anew. It does not ask whether the points are finite: the solve does.
    pub fn from_stored(stored: &StoredPlate) -> Self {
        Self { stored: *stored }
    }

    /// Does an operation of the C interface on the numbers.
    fn change(
        &mut self,
        operation: impl FnOnce(&mut [f64; 21], &mut u32) -> u32,
    ) -> Result<(), Refusal> {
        let StoredPlate { numbers, has_inverse } = &mut self.stored;
        let mut inverse = u32::from(*has_inverse);
        let number = operation(numbers, &mut inverse);
        *has_inverse = inverse != 0;
        Refusal::unless_zero(number, ())
    }

    /// The three numbers from a place on.
    fn vector(&self, at: usize) -> [f64; 3] {
        array::from_fn(|i| self.stored.numbers[at + i])
    }
}
