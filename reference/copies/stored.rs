//! The numbers of a plate that its solve reads in the place of those worked out from its points
//! (document 02, §4).

use crate::reach;
use nalgebra::Matrix3;

pub type Inverse = Option<Matrix3<f64>>;

pub trait Stored: Copy {
    /// The squared edges 01, 02, 12 of this ordering.
    fn edges(self) -> [f64; 3];

    /// For another ordering of the same points.
    fn ordered(self, permutation: [usize; 3]) -> Self;

    /// The inverse basis of this ordering, or its lack; `made` makes it from the points.
    fn inverse(self, made: impl FnOnce() -> Inverse) -> Inverse;
}

/// What the solve with a plate is asked for: the edges serve every ordering, the inverse the given
/// one (other orderings make theirs).
#[derive(Clone, Copy)]
pub struct Numbers {
    edges: [f64; 3],
    given: Option<Inverse>,
}

impl Numbers {
    pub fn new(edges: [f64; 3], inverse: Option<[f64; 9]>) -> Numbers {
        let inverse = inverse.map(|words| Matrix3::from_column_slice(&words));
        Numbers { edges, given: Some(inverse) }
    }
}

/// The squared edges, given as 01, 02, 12, of the points in another order.
pub fn permuted(edges: [f64; 3], [i, j, k]: [usize; 3]) -> [f64; 3] {
    [(i, j), (i, k), (j, k)].map(|(from, to)| edges[from + to - 1])
}

impl Stored for Numbers {
    fn edges(self) -> [f64; 3] {
        self.edges
    }

    fn ordered(self, permutation: [usize; 3]) -> Numbers {
        Numbers { edges: permuted(self.edges, permutation), given: None }
    }

    fn inverse(self, made: impl FnOnce() -> Inverse) -> Inverse {
        match self.given {
            Some(inverse) => reach::stored(0, inverse),
            None => reach::stored(1, made()),
        }
    }
}
