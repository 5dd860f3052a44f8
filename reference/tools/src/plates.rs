//! A plate that knows its edges (document 02, §4; not in the Rust): three world points with the
//! squared edges and the inverse basis that solve_ordered would work out from them in the given
//! order. An operation answers 0 or its refusal number, and the plate then. The stub holds this
//! file too.

use nalgebra::Vector3;

#[derive(Clone, Copy, PartialEq, Debug, Default)]
pub struct Plate {
    pub points: [[f64; 3]; 3],
    /// 01, 02, 12.
    pub edges: [f64; 3],
    pub has_inverse: bool,
    /// By columns.
    pub inverse: [f64; 9],
}

/// A copy's world_basis_inverse.
pub type Basis = fn(&[f64; 3], &[f64; 3]) -> Option<[f64; 9]>;

impl Plate {
    /// All that is stored, worked out from the points; without inverse nine plus zeros.
    pub fn of(points: [[f64; 3]; 3], basis: Basis) -> Plate {
        let [p0, p1, p2] = points.map(Vector3::from);
        let (d01, d02, d12) = (p0 - p1, p0 - p2, p1 - p2);
        let inverse = basis(&d01.into(), &d02.into());
        Plate {
            points,
            edges: [d01.norm_squared(), d02.norm_squared(), d12.norm_squared()],
            has_inverse: inverse.is_some(),
            inverse: inverse.unwrap_or([0.0; 9]),
        }
    }

    /// From 21 doubles: points, edges, inverse.
    pub fn read(doubles: &[f64], has_inverse: bool) -> Plate {
        Plate {
            points: std::array::from_fn(|at| [0, 1, 2].map(|entry| doubles[3 * at + entry])),
            edges: std::array::from_fn(|at| doubles[9 + at]),
            has_inverse,
            inverse: std::array::from_fn(|at| doubles[12 + at]),
        }
    }

    pub fn doubles(&self) -> [f64; 21] {
        std::array::from_fn(|at| match at {
            0..9 => self.points[at / 3][at % 3],
            9..12 => self.edges[at - 9],
            _ => self.inverse[at - 12],
        })
    }

    pub fn world(&self) -> [f64; 9] {
        std::array::from_fn(|at| self.points[at / 3][at % 3])
    }

    /// The stored inverse, or its lack.
    pub fn stored_inverse(&self) -> Option<[f64; 9]> {
        self.has_inverse.then_some(self.inverse)
    }
}

pub fn is_finite(point: &[f64; 3]) -> bool {
    point.iter().all(|x| x.is_finite())
}

pub fn make(points: [[f64; 3]; 3], basis: Basis) -> (u32, Plate) {
    if !points.iter().all(is_finite) {
        return (1, Plate::default());
    }
    (0, Plate::of(points, basis))
}

pub fn replace(plate: &Plate, target: u64, point: [f64; 3], basis: Basis) -> (u32, Plate) {
    if !is_finite(&point) {
        return (1, *plate);
    }
    if target > 2 {
        return (11, *plate);
    }
    let mut points = plate.points;
    points[target as usize] = point;
    (0, Plate::of(points, basis))
}

pub fn exchange(plate: &Plate, first: u64, second: u64, basis: Basis) -> (u32, Plate) {
    if first > 2 || second > 2 {
        return (11, *plate);
    }
    let mut points = plate.points;
    points.swap(first as usize, second as usize);
    (0, Plate::of(points, basis))
}

pub fn scale(plate: &Plate, k: i64, basis: Basis) -> (u32, Plate) {
    if !(-64..=64).contains(&k) {
        return (12, *plate);
    }
    if !plate.points.iter().flatten().all(|&x| scales(x, k)) {
        return (13, *plate);
    }
    // A power of two within 2^-64 to 2^64, and products that are exact.
    let power = f64::from_bits(((1023 + k) as u64) << 52);
    (0, Plate::of(plate.points.map(|point| point.map(|x| x * power)), basis))
}

/// What a moved target would do (document 02, §5), from its replacement on a copy: the refusal, or
/// the solve with the copy; and the squared edges that would be stored, plus zeros where the
/// replacement is refused.
pub fn preview<A>(
    (number, copy): (u32, Plate),
    solve: impl FnOnce(&Plate) -> A,
) -> (Result<A, u32>, [f64; 3]) {
    if number != 0 {
        return (Err(number), [0.0; 3]);
    }
    (Ok(solve(&copy)), copy.edges)
}

/// Whether x is zero, or finite and the exact x × 2^k of magnitude from 2^-1022 to below 2^1024.
pub fn scales(x: f64, k: i64) -> bool {
    x == 0.0 || x.is_finite() && (-1022..=1023).contains(&(leading(x) + k))
}

/// The exponent of the leading bit of a number that is finite and not zero: its magnitude is from
/// two to this power to below twice that.
pub fn leading(x: f64) -> i64 {
    let magnitude = x.abs().to_bits();
    match magnitude >> 52 {
        0 => magnitude.ilog2() as i64 - 1074,
        field => field as i64 - 1023,
    }
}
