//! Operations with matrices.

use super::{
    BIG, H, Operation, T, TOP, dot, dot_from_zero, dot_fused, dot_right, m, sum, sum_bare,
    sum_right, v,
};
use nalgebra::{Matrix3, RowVector3};

/// A matrix by columns whose first row is given, and the vector beside it.
fn first_row(r: [f64; 3], x: [f64; 3]) -> Vec<f64> {
    vec![r[0], 0.0, 0.0, r[1], 0.0, 0.0, r[2], 0.0, 0.0, x[0], x[1], x[2]]
}

/// The same with a matrix whose first column is the vector.
fn first_row_twice(r: [f64; 3], x: [f64; 3]) -> Vec<f64> {
    [first_row(r, x), vec![0.0; 6]].concat()
}

/// Row i of a matrix by columns.
fn row(x: &[f64], i: usize) -> [f64; 3] {
    [x[i], x[3 + i], x[6 + i]]
}

fn by_rows(x: &[f64], with: &[f64], each: fn(&[f64], &[f64]) -> f64) -> Vec<f64> {
    (0..3).map(|i| each(&row(x, i), with)).collect()
}

fn by_columns(x: &[f64], each: fn(&[f64], &[f64]) -> f64) -> Vec<f64> {
    (0..3).flat_map(|j| by_rows(&x[..9], &x[9 + 3 * j..12 + 3 * j], each)).collect()
}

pub(super) fn operations() -> Vec<Operation> {
    vec![
        Operation {
            name: "m.column(0).dot(&m.column(1))",
            reading: "as a.dot(&b)",
            takes: 9,
            nalgebra: |x| vec![m(x).column(0).dot(&m(x).column(1))],
            plain: |x| vec![dot(x, &x[3..])],
            wrong: vec![(
                "right to left",
                |x| vec![dot_right(x, &x[3..])],
                [1.0, BIG, -BIG, 1.0, 1.0, 1.0, 0.0, 0.0, 0.0].to_vec(),
                0,
            )],
        },
        Operation {
            name: "matrix.norm_squared()",
            reading: "the columns' squared lengths, added left to right",
            takes: 9,
            nalgebra: |x| vec![m(x).norm_squared()],
            plain: |x| vec![(dot(x, x) + dot(&x[3..], &x[3..])) + dot(&x[6..], &x[6..])],
            wrong: vec![
                (
                    "one running sum",
                    |x| vec![x.iter().fold(0.0, |sum, x| sum + x * x)],
                    [TOP, 0.0, 0.0, 1.25, 1.25, 0.0, 0.0, 0.0, 0.0].to_vec(),
                    0,
                ),
                (
                    "by rows",
                    |x| {
                        let each = |i: usize| dot(&row(x, i), &row(x, i));
                        vec![(each(0) + each(1)) + each(2)]
                    },
                    [TOP, 0.0, 0.0, 1.25, 1.25, 0.0, 0.0, 0.0, 0.0].to_vec(),
                    0,
                ),
            ],
        },
        Operation {
            name: "matrix * vector",
            reading: "columns added left to right: (m_i0 x0 + m_i1 x1) + m_i2 x2, the first a bare product",
            takes: 12,
            nalgebra: |x| (m(x) * v(&x[9..])).iter().copied().collect(),
            plain: |x| by_rows(&x[..9], &x[9..], dot),
            wrong: vec![
                (
                    "right to left",
                    |x| by_rows(&x[..9], &x[9..], dot_right),
                    first_row([1.0, BIG, -BIG], [1.0; 3]),
                    0,
                ),
                (
                    "start from +0",
                    |x| by_rows(&x[..9], &x[9..], dot_from_zero),
                    first_row([-0.0; 3], [1.0; 3]),
                    0,
                ),
                (
                    "fused",
                    |x| by_rows(&x[..9], &x[9..], dot_fused),
                    first_row([1.0, H, 0.0], [-T, H, 0.0]),
                    0,
                ),
            ],
        },
        Operation {
            name: "&matrix * &vector",
            reading: "as matrix * vector",
            takes: 12,
            nalgebra: |x| (&m(x) * &v(&x[9..])).iter().copied().collect(),
            plain: |x| by_rows(&x[..9], &x[9..], dot),
            wrong: vec![(
                "right to left",
                |x| by_rows(&x[..9], &x[9..], dot_right),
                first_row([1.0, BIG, -BIG], [1.0; 3]),
                0,
            )],
        },
        Operation {
            name: "matrix * &matrix",
            reading: "matrix * vector for each column",
            takes: 18,
            nalgebra: |x| (m(x) * &m(&x[9..])).iter().copied().collect(),
            plain: |x| by_columns(x, dot),
            wrong: vec![
                (
                    "right to left",
                    |x| by_columns(x, dot_right),
                    first_row_twice([1.0, BIG, -BIG], [1.0; 3]),
                    0,
                ),
                (
                    "start from +0",
                    |x| by_columns(x, dot_from_zero),
                    first_row_twice([-0.0; 3], [1.0; 3]),
                    0,
                ),
                (
                    "fused",
                    |x| by_columns(x, dot_fused),
                    first_row_twice([1.0, H, 0.0], [-T, H, 0.0]),
                    0,
                ),
            ],
        },
        Operation {
            name: "matrix.trace()",
            reading: "((+0 + m00) + m11) + m22",
            takes: 9,
            nalgebra: |x| vec![m(x).trace()],
            plain: |x| vec![sum(x[0], x[4], x[8])],
            wrong: vec![
                ("no start from +0", |x| vec![sum_bare(x[0], x[4], x[8])], vec![-0.0; 9], 0),
                (
                    "right to left",
                    |x| vec![sum_right(x[0], x[4], x[8])],
                    [1.0, 0.0, 0.0, 0.0, BIG, 0.0, 0.0, 0.0, -BIG].to_vec(),
                    0,
                ),
            ],
        },
        Operation {
            name: "m.column(0) - sign * m.column(1)",
            reading: "the product rounded, then the difference",
            takes: 10,
            nalgebra: |x| (m(x).column(0) - x[9] * m(x).column(1)).iter().copied().collect(),
            plain: |x| (0..3).map(|i| x[i] - x[9] * x[3 + i]).collect(),
            wrong: vec![(
                "fused",
                |x| (0..3).map(|i| (-x[9]).mul_add(x[3 + i], x[i])).collect(),
                vec![T, 0.0, 0.0, H, 0.0, 0.0, 0.0, 0.0, 0.0, H],
                0,
            )],
        },
        Operation {
            name: "rotation * world + translation",
            reading: "matrix * vector, then one addition an entry",
            takes: 15,
            nalgebra: |x| (m(x) * v(&x[9..]) + v(&x[12..])).iter().copied().collect(),
            plain: |x| {
                by_rows(&x[..9], &x[9..12], dot).iter().zip(&x[12..]).map(|(a, b)| a + b).collect()
            },
            wrong: vec![(
                "the translation first",
                |x| {
                    (0..3)
                        .map(|i| ((x[12 + i] + x[i] * x[9]) + x[3 + i] * x[10]) + x[6 + i] * x[11])
                        .collect()
                },
                [first_row([1.0, 1.0, -1.0], [BIG, 0.0, BIG]), vec![1.0, 0.0, 0.0]].concat(),
                0,
            )],
        },
        Operation {
            name: "Matrix3::new, from_rows, from_columns, transpose, iter",
            reading: "copies: `new` and `from_rows` by rows, `from_columns` and `iter` by columns",
            takes: 9,
            nalgebra: |x| {
                let new = Matrix3::new(x[0], x[1], x[2], x[3], x[4], x[5], x[6], x[7], x[8]);
                let rows: [RowVector3<f64>; 3] =
                    std::array::from_fn(|i| v(&x[3 * i..]).transpose());
                let columns = Matrix3::from_columns(&[v(x), v(&x[3..]), v(&x[6..])]);
                let at = |i: usize| new[(i / 3, i % 3)];
                new.iter()
                    .chain(Matrix3::from_rows(&rows).iter())
                    .chain(columns.iter())
                    .copied()
                    .chain((0..9).map(at))
                    .collect()
            },
            plain: |x| {
                let turned: Vec<f64> = (0..9).map(|i| x[3 * (i % 3) + i / 3]).collect();
                [&turned[..], &turned[..], x, x].concat()
            },
            wrong: vec![(
                "by columns throughout",
                |x| [x, x, x, x].concat(),
                (0..9).map(f64::from).collect(),
                1,
            )],
        },
    ]
}
