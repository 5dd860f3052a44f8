//! The functions of plates (document 02, §4). With a feature they use the stored inverse in other
//! orderings, make the one that is lacking, do not permute the stored edges or take those of the
//! points in other orderings, judge a scaled coordinate by the rounded product, ask in another
//! order, work only that out anew which an operation changes, or write where they refuse. The
//! preview of a moved target is in previewed.rs.

use crate::plates::{self, Plate};
use copy_second::stored::{Inverse, Stored, permuted};
use copy_second::{Answer, basis};
use nalgebra::Matrix3;

/// Puts an operation's answer into lent memory; a refusal leaves it.
fn put(
    (number, new): (u32, Plate),
    old: Plate,
    plate: &mut [f64; 21],
    has_inverse: &mut u32,
) -> u32 {
    let writes = cfg!(feature = "wrong-writes") && number != 0;
    if number == 0 || writes {
        let new = if writes { Plate::of(old.points, basis) } else { new };
        (*plate, *has_inverse) = (new.doubles(), new.has_inverse as u32);
    }
    number
}

#[unsafe(no_mangle)]
extern "C" fn p3p_plate_make(
    points: &[[f64; 3]; 3],
    plate: &mut [f64; 21],
    has_inverse: &mut u32,
) -> u32 {
    put(plates::make(*points, basis), Plate::default(), plate, has_inverse)
}

pub fn replaced(old: &Plate, target: u32, point: &[f64; 3]) -> (u32, Plate) {
    if cfg!(feature = "wrong-order") && target > 2 {
        return (11, *old);
    }
    let (number, mut new) = plates::replace(old, target as u64, *point, basis);
    if cfg!(feature = "wrong-changed") && number == 0 {
        new.edges[2 - target as usize] = old.edges[2 - target as usize];
    }
    (number, new)
}

#[unsafe(no_mangle)]
extern "C" fn p3p_plate_replace(
    plate: &mut [f64; 21],
    has_inverse: &mut u32,
    target: u32,
    point: &[f64; 3],
) -> u32 {
    let old = Plate::read(plate, *has_inverse != 0);
    put(replaced(&old, target, point), old, plate, has_inverse)
}

#[unsafe(no_mangle)]
extern "C" fn p3p_plate_exchange(
    plate: &mut [f64; 21],
    has_inverse: &mut u32,
    first: u32,
    second: u32,
) -> u32 {
    let old = Plate::read(plate, *has_inverse != 0);
    let (number, mut new) = plates::exchange(&old, first as u64, second as u64, basis);
    if cfg!(feature = "wrong-changed") && number == 0 {
        let mut order = [0, 1, 2];
        order.swap(first as usize, second as usize);
        new.edges = permuted(old.edges, order);
    }
    put((number, new), old, plate, has_inverse)
}

#[unsafe(no_mangle)]
extern "C" fn p3p_plate_scale(plate: &mut [f64; 21], has_inverse: &mut u32, k: i32) -> u32 {
    let old = Plate::read(plate, *has_inverse != 0);
    let k = k as i64;
    let (mut number, mut new) = plates::scale(&old, k, basis);
    let coordinates = old.points.as_flattened();
    if cfg!(feature = "wrong-order") && !coordinates.iter().all(|&x| plates::scales(x, k)) {
        number = 13;
    }
    if cfg!(feature = "wrong-limit") && number == 13 {
        let power = f64::from_bits(((1023 + k) as u64) << 52);
        let points = old.points.map(|point| point.map(|x| x * power));
        let within = |&x: &f64| x == 0.0 || x.is_finite() && x.abs() >= f64::MIN_POSITIVE;
        let lost =
            coordinates.iter().zip(points.as_flattened()).any(|(x, y)| *x != 0.0 && *y == 0.0);
        if points.as_flattened().iter().all(within) && !lost {
            (number, new) = (0, Plate::of(points, basis));
        }
    }
    if cfg!(feature = "wrong-changed") && number == 0 {
        let power = f64::from_bits(((1023 + 2 * k) as u64) << 52);
        new.edges = old.edges.map(|x| x * power);
    }
    put((number, new), old, plate, has_inverse)
}

/// The numbers that the solve reads.
#[derive(Clone, Copy)]
struct Numbers {
    points: [[f64; 3]; 3],
    edges: [f64; 3],
    inverse: Inverse,
    given: bool,
}

impl Stored for Numbers {
    fn edges(self) -> [f64; 3] {
        self.edges
    }

    fn ordered(self, permutation: [usize; 3]) -> Numbers {
        let edges = if cfg!(feature = "wrong-permuted") {
            self.edges
        } else if cfg!(feature = "wrong-edges") {
            Plate::of(permutation.map(|index| self.points[index]), basis).edges
        } else {
            permuted(self.edges, permutation)
        };
        Numbers { edges, given: false, ..self }
    }

    fn inverse(self, made: impl FnOnce() -> Inverse) -> Inverse {
        let lacking = cfg!(feature = "wrong-lack") && self.inverse.is_none();
        let given = self.given || cfg!(feature = "wrong-inverse");
        if given && !lacking { self.inverse } else { made() }
    }
}

pub fn solved(plate: &Plate, bearings: &[f64; 9]) -> Answer {
    let inverse = plate.stored_inverse().map(|words| Matrix3::from_column_slice(&words));
    let stored = Numbers { points: plate.points, edges: plate.edges, inverse, given: true };
    copy_second::solve_stored(&plate.world(), bearings, stored)
}

#[unsafe(no_mangle)]
extern "C" fn p3p_plate_solve(
    plate: &[f64; 21],
    has_inverse: u32,
    bearings: &[f64; 9],
    poses: &mut [f64; 48],
    updates: &mut [u32; 4],
    lifted: &mut [u32; 4],
    count: &mut u32,
) -> u32 {
    let answer = solved(&Plate::read(plate, has_inverse != 0), bearings);
    crate::write(&answer, poses, updates, lifted, count)
}
