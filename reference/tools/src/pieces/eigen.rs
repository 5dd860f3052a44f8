//! Matrices for the eigenvectors, and orderings for the leading coefficient.

use super::{Input, any_frame, words};
use crate::frames::{Frame, part};
use crate::random::{Random, Vector, dot, minus, power};

/// The monic cubic of a frame's given ordering, and its matrix by columns if the cubic
/// has a root: formulas of solve_ordered, here only to make inputs.
pub(super) fn stages(f: &Frame) -> (Vector, Option<[f64; 9]>) {
    let p = |i: usize| part(f, i);
    let squared = |a: Vector, b: Vector| {
        let d = minus(a, b);
        dot(d, d)
    };
    let (a01, a02, a12) = (squared(p(0), p(1)), squared(p(0), p(2)), squared(p(1), p(2)));
    let cosine = |i: usize, j: usize| dot(p(3 + i), p(3 + j)).clamp(-1.0, 1.0);
    let (c01, c12, c20) = (cosine(0, 1), cosine(1, 2), cosine(2, 0));
    let triple = c01 * c12 * c20 - 1.0;
    let (s20, s12, s01) = (1.0 - c20 * c20, 1.0 - c12 * c12, 1.0 - c01 * c01);
    let leading = a02 * (a12 * s20 - a02 * s12);
    let c2 = 2.0 * triple * a12 * a02 + a02 * (2.0 * a01 + a02) * s12 + a12 * (a12 - a01) * s20;
    let c1 = a12 * (a02 - a12) * s01 - a01 * a01 * s12 - 2.0 * a01 * (triple * a12 + a02 * s12);
    let c0 = a01 * (a01 * s12 - a12 * s01);
    let monic = [c2 / leading, c1 / leading, c0 / leading];
    let matrix = copy_second::cubic(monic[0], monic[1], monic[2]).ok().map(|g| {
        let (x01, x02, x12) = (-a12 * c01, a12 * c20 * g, -c12 * (a02 * g - a01));
        let diagonal = [a12 * (1.0 - g), a12 - a01 + a02 * g, g * (a02 - a12) - a01];
        [diagonal[0], x01, x02, x01, diagonal[1], x12, x02, x12, diagonal[2]]
    });
    (monic, matrix)
}

pub(super) fn hand_eig() -> Vec<Input> {
    let m = |x: [f64; 6]| words(&[x[0], x[1], x[2], x[1], x[3], x[4], x[2], x[4], x[5]]);
    let big = 1.3e154;
    vec![
        m([0.0; 6]),
        m([1.0; 6]),
        m([-0.0, 1.0, 0.0, -0.0, 0.0, -0.0]),
        m([1.0, 0.0, 0.0, -1.0, 0.0, 0.0]),
        m([1.0, 0.0, 0.0, 1.0, 0.0, 0.0]),
        m([0.0, 0.0, 0.0, 1.0, 0.0, 2.0]),
        m([2.0, 0.0, 0.0, 0.0, 0.0, -3.0]),
        m([0.0, 1.0, 0.0, 0.0, 1.0, 0.0]),
        m([1.0, 1.0, 0.0, 1.0, 0.0, -2.0]),
        m([big, 1.0, 0.0, -big, 0.0, 0.0]),
        m([1e-170, 0.0, 0.0, -1e-170, 0.0, 0.0]),
        m([f64::NAN, 0.0, 0.0, 1.0, 0.0, 0.0]),
        m([1.0, 2.0, f64::INFINITY, 1.0, 0.0, 0.0]),
        m([1e100, 0.0, 0.0, -1e100, 0.0, 0.0]),
        m([1e80, 1e79, 0.0, -1e80, 1e78, 0.0]),
        m([1e-80, 1e-81, 0.0, -1e-80, 1e-82, 0.0]),
        // A lifted pair: the discriminant is -2^-46, within the band.
        m([1.0, 0.0, 0.0, 1.0, 0.0, power(-48)]),
        // Not symmetric, as no frame's matrix is: both eigenvalues zero; a denominator that is not
        // a number.
        words(&[0.0, 1.0, 2.0, 0.0, 0.0, 3.0, 0.0, 0.0, 0.0]),
        words(&[
            1.125 * power(512),
            0.1875 * power(524),
            0.0,
            1.125 * power(500),
            0.1875 * power(512),
            power(-100),
            0.0,
            0.0,
            0.0,
        ]),
    ]
}

fn eig_matrix(r: &mut Random) -> [f64; 9] {
    let symmetric = |x: [f64; 6]| [x[0], x[1], x[2], x[1], x[3], x[4], x[2], x[4], x[5]];
    match r.below(8) {
        0..=3 => loop {
            let f = any_frame(r);
            if let Some(m) = stages(&f).1 {
                break m;
            }
        },
        4 => symmetric(std::array::from_fn(|_| r.whole(-2, 2))),
        5 => {
            // Two nonzero eigenvalues along a random pair of directions.
            let (u, v) = (r.cube(), r.cube());
            let (s, t) = (r.range(-2.0, 2.0), r.range(-2.0, 2.0));
            std::array::from_fn(|i| s * u[i / 3] * u[i % 3] + t * v[i / 3] * v[i % 3])
        }
        6 => {
            let k = r.pick(&[-540, -270, -135, 85, 128, 170, 255, 256, 511]) + r.between(-4, 4);
            let x: [f64; 6] = std::array::from_fn(|_| r.range(-2.0, 2.0) * power(k));
            symmetric(x)
        }
        _ => {
            let mut x: [f64; 6] = std::array::from_fn(|_| r.whole(-2, 2));
            x[r.below(6) as usize] = if r.chance(2) { r.special() } else { r.scaled(-1000, 1000) };
            symmetric(x)
        }
    }
}

pub(super) fn eig(r: &mut Random) -> Input {
    if r.chance(12) {
        // Entries of any magnitude, symmetric or not.
        let (low, high) = r.pick(&[(-540, 511), (-60, 60), (400, 511), (-540, -400)]);
        let mut m: [f64; 9] =
            std::array::from_fn(|_| if r.chance(3) { 0.0 } else { r.scaled(low, high) });
        if r.chance(2) {
            (m[3], m[6], m[7]) = (m[1], m[2], m[5]);
        }
        return words(&m);
    }
    words(&eig_matrix(r))
}

pub(super) fn row_crosses(r: &mut Random) -> Input {
    let mut m = eig_matrix(r);
    if r.chance(5) {
        m = std::array::from_fn(|_| r.whole(-3, 3));
    } else if r.chance(6) {
        let k = r.between(-300, 300);
        m = std::array::from_fn(|_| r.scaled(k, k + 60));
    } else if r.chance(8) {
        // Squared norms that are not numbers.
        m = std::array::from_fn(|_| r.scaled(200, 520));
    }
    let value = match copy_second::eig(&m) {
        Some((_, values, _)) if !r.chance(4) => values[r.index()],
        _ if r.chance(2) => 0.0,
        _ => r.whole(-2, 2),
    };
    words(&[&m[..], &[value]].concat())
}

pub(super) fn condition(r: &mut Random) -> Input {
    let f = any_frame(r);
    words(&f[..18])
}
