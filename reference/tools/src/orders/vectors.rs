//! Operations on vectors.

use super::{
    BIG, H, Operation, T, TOP, dot, dot_from_zero, dot_fused, dot_right, sum, sum_bare, sum_right,
    v,
};
use crate::random::power;

pub(super) fn operations() -> Vec<Operation> {
    vec![
        Operation {
            name: "a.dot(&b)",
            reading: "(a0 b0 + a1 b1) + a2 b2, no start from zero",
            takes: 6,
            nalgebra: |x| vec![v(x).dot(&v(&x[3..]))],
            plain: |x| vec![dot(x, &x[3..])],
            wrong: vec![
                (
                    "right to left",
                    |x| vec![dot_right(x, &x[3..])],
                    [1.0, BIG, -BIG, 1.0, 1.0, 1.0].to_vec(),
                    0,
                ),
                (
                    "start from +0",
                    |x| vec![dot_from_zero(x, &x[3..])],
                    [-0.0, -0.0, -0.0, 1.0, 1.0, 1.0].to_vec(),
                    0,
                ),
                ("fused", |x| vec![dot_fused(x, &x[3..])], [1.0, H, 0.0, -T, H, 0.0].to_vec(), 0),
            ],
        },
        Operation {
            name: "v.norm_squared()",
            reading: "the dot with itself",
            takes: 3,
            nalgebra: |x| vec![v(x).norm_squared()],
            plain: |x| vec![dot(x, x)],
            wrong: vec![("right to left", |x| vec![dot_right(x, x)], vec![TOP, 1.25, 1.25], 0)],
        },
        Operation {
            name: "v.norm()",
            reading: "the square root of norm_squared, no scaling",
            takes: 3,
            nalgebra: |x| vec![v(x).norm()],
            plain: |x| vec![dot(x, x).sqrt()],
            wrong: vec![(
                "scaled",
                |x| {
                    let most = x[0].abs().max(x[1].abs()).max(x[2].abs());
                    let y: Vec<f64> = x.iter().map(|x| x / most).collect();
                    vec![most * dot(&y, &y).sqrt()]
                },
                vec![1e200, 0.0, 0.0],
                0,
            )],
        },
        Operation {
            name: "v.sum()",
            reading: "((+0 + x) + y) + z",
            takes: 3,
            nalgebra: |x| vec![v(x).sum()],
            plain: |x| vec![sum(x[0], x[1], x[2])],
            wrong: vec![
                ("no start from +0", |x| vec![sum_bare(x[0], x[1], x[2])], vec![-0.0; 3], 0),
                ("right to left", |x| vec![sum_right(x[0], x[1], x[2])], vec![1.0, BIG, -BIG], 0),
            ],
        },
        Operation {
            name: "v.abs().sum()",
            reading: "((+0 + |x|) + |y|) + |z|",
            takes: 3,
            nalgebra: |x| vec![v(x).abs().sum()],
            plain: |x| vec![sum(x[0].abs(), x[1].abs(), x[2].abs())],
            wrong: vec![(
                "right to left",
                |x| vec![sum_right(x[0].abs(), x[1].abs(), x[2].abs())],
                vec![power(54), -1.25, -1.25],
                0,
            )],
        },
        Operation {
            name: "a.cross(&b)",
            reading: "a1 b2 - a2 b1, a2 b0 - a0 b2, a0 b1 - a1 b0",
            takes: 6,
            nalgebra: |x| v(x).cross(&v(&x[3..])).iter().copied().collect(),
            plain: |x| {
                vec![
                    x[1] * x[5] - x[2] * x[4],
                    x[2] * x[3] - x[0] * x[5],
                    x[0] * x[4] - x[1] * x[3],
                ]
            },
            wrong: vec![
                (
                    "the middle as -(a0 b2 - a2 b0)",
                    |x| {
                        vec![
                            x[1] * x[5] - x[2] * x[4],
                            -(x[0] * x[5] - x[2] * x[3]),
                            x[0] * x[4] - x[1] * x[3],
                        ]
                    },
                    vec![1.0, 0.0, 1.0, 1.0, 0.0, 1.0],
                    1,
                ),
                (
                    "fused",
                    |x| {
                        vec![
                            x[1].mul_add(x[5], -(x[2] * x[4])),
                            x[2].mul_add(x[3], -(x[0] * x[5])),
                            x[0].mul_add(x[4], -(x[1] * x[3])),
                        ]
                    },
                    vec![0.0, H, 1.0, 0.0, T, H],
                    0,
                ),
            ],
        },
        Operation {
            name: "v / s, v /= s",
            reading: "one division an entry",
            takes: 4,
            nalgebra: |x| {
                let mut assigned = v(x);
                assigned /= x[3];
                (v(x) / x[3]).iter().chain(assigned.iter()).copied().collect()
            },
            plain: |x| [0, 1, 2, 0, 1, 2].map(|i| x[i] / x[3]).to_vec(),
            wrong: vec![(
                "times the reciprocal",
                |x| [0, 1, 2, 0, 1, 2].map(|i| x[i] * (1.0 / x[3])).to_vec(),
                vec![49.0, 0.0, 0.0, 49.0],
                0,
            )],
        },
        Operation {
            name: "v * s, s * v",
            reading: "one product an entry",
            takes: 4,
            nalgebra: |x| (v(x) * x[3]).iter().chain((x[3] * v(x)).iter()).copied().collect(),
            plain: |x| [0, 1, 2, 0, 1, 2].map(|i| x[i] * x[3]).to_vec(),
            wrong: vec![(
                "added to +0",
                |x| [0, 1, 2, 0, 1, 2].map(|i| 0.0 + x[i] * x[3]).to_vec(),
                vec![-1.0, 0.0, 0.0, 0.0],
                0,
            )],
        },
        Operation {
            name: "a - b, a + b",
            reading: "one operation an entry, left and right as written",
            takes: 6,
            nalgebra: |x| {
                (v(x) - v(&x[3..])).iter().chain((v(x) + v(&x[3..])).iter()).copied().collect()
            },
            plain: |x| {
                (0..3).map(|i| x[i] - x[3 + i]).chain((0..3).map(|i| x[i] + x[3 + i])).collect()
            },
            wrong: vec![(
                "-(b - a)",
                |x| {
                    (0..3)
                        .map(|i| -(x[3 + i] - x[i]))
                        .chain((0..3).map(|i| x[i] + x[3 + i]))
                        .collect()
                },
                vec![1.0, 0.0, 0.0, 1.0, 0.0, 0.0],
                0,
            )],
        },
    ]
}
