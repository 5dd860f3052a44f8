//! Coefficients for the quadratic and the cubic.

use super::{Input, any_frame, eigen::stages, words};
use crate::random::{Random, nudge, power};

pub(super) fn hand_quadratics() -> Vec<Input> {
    let e = power(-52);
    [
        [-3.0, 2.0],
        [2.0, 1.0],
        [0.0, 1.0],
        [0.0, -4.0],
        [-0.0, -4.0],
        [0.0, 0.0],
        [-0.0, 0.0],
        [0.0, -0.0],
        [-0.0, -0.0],
        [2.0, 1.0 + power(-46)],
        [2.0, 1.0 + power(-46) + e],
        [1e154, 4e307],
        [0.0, power(-1071)],
        [0.0, 9.0 * power(-1074)],
        [0.0, power(1022)],
        [0.0, -power(1022)],
        [1e154, -4e307],
        [1.4e154, 4.4e307],
        [1e200, 1.0],
        [1e155, 1.0],
        [f64::INFINITY, 1.0],
        [1.0, f64::NEG_INFINITY],
        [f64::NAN, 1.0],
        [1.0, f64::NAN],
        [f64::NAN, f64::INFINITY],
        [1e-200, 0.0],
        [-1e-200, 1e-320],
        [4.9e-324, 4.9e-324],
    ]
    .iter()
    .map(|x| words(x))
    .collect()
}

pub(super) fn quadratic(r: &mut Random) -> Input {
    let (b, c) = match r.below(10) {
        0 => (r.range(-10.0, 10.0), r.range(-10.0, 10.0)),
        1 => {
            let (p, q) = (r.whole(-20, 20), r.whole(-20, 20));
            (-(p + q), p * q)
        }
        2 | 3 => {
            let b = r.scaled(-4, 4);
            (b, nudge(b * b / 4.0, r.between(-150, 150)))
        }
        4 => (r.scaled(480, 514), r.scaled(960, 1023)),
        5 => {
            let b = r.scaled(507, 512);
            (b, b * 0.25 * b * r.range(0.9, 1.1))
        }
        6 => (r.scaled(-560, -500), f64::from_bits(r.word() >> r.between(12, 62)) * r.sign()),
        7 => (0.0 * r.sign(), r.scaled(-1060, 1020)),
        8 => (r.bits(), r.bits()),
        _ if r.chance(3) => (r.special(), r.special()),
        _ => (r.scaled(-2, 30), r.scaled(-30, 2)),
    };
    words(&[b, c])
}

pub(super) fn hand_cubics() -> Vec<Input> {
    let t = power(-1074);
    let mut list = vec![
        [0.0, 0.0, 0.0],
        [-0.0, 0.0, -0.0],
        [3.0, 3.0, 1.0],
        [0.0, 1.0, 0.0],
        [0.0, 1.0, -0.0],
        [0.0, -t, 0.0],
        [-6.0, 11.0, -6.0],
        [6.0, 11.0, 6.0],
        [-3.0, 3.0, -1.0],
        [0.0, -1.0, 0.0],
        [0.0, 0.0, 1.0],
        [0.0, 0.0, -8.0],
        [1e60, 0.0, 0.0],
        [0.0, 1e120, 0.0],
        [0.0, 0.0, 1e160],
        [1e-60, 1e-120, 1e-160],
        [0.0, 1e-120, 0.0],
        [0.0, 0.0, 1e-160],
        [0.0, 0.0, t],
        [t, t, t],
        [f64::MAX, 1.0, 1.0],
        [1.0, f64::MAX, 1.0],
        [1.0, 1.0, f64::MAX],
        [f64::MAX, f64::MAX, f64::MAX],
        [-1.0, 0.0, 0.0],
        [0.0, -3.0, 2.0],
        [0.0, -3.0, -2.0],
        [0.0, 3.0, 0.0],
        [1e-51, 1e-101, 0.0],
    ];
    for at in 0..3 {
        for x in [f64::INFINITY, f64::NEG_INFINITY, f64::NAN] {
            let mut c = [1.0, -2.0, 3.0];
            c[at] = x;
            list.push(c);
        }
    }
    list.iter().map(|x| words(x)).collect()
}

pub(super) fn cubic(r: &mut Random) -> Input {
    let of_roots = |p: f64, q: f64, s: f64| [-(p + q + s), p * q + q * s + s * p, -(p * q * s)];
    let c = match r.below(14) {
        0 => [r.range(-5.0, 5.0), r.range(-5.0, 5.0), r.range(-5.0, 5.0)],
        1 => of_roots(r.whole(-9, 9), r.whole(-9, 9), r.whole(-9, 9)),
        2 => of_roots(r.range(-3.0, 3.0), r.range(-3.0, 3.0), r.range(-3.0, 3.0)),
        3 => {
            let p = if r.chance(2) { r.whole(-9, 9) } else { r.range(-3.0, 3.0) };
            of_roots(p, p, r.whole(-9, 9))
        }
        4 => {
            // Near a triple root.
            let p = match r.below(3) {
                0 => r.whole(-99, 99),
                1 => r.range(-3.0, 3.0),
                _ => r.scaled(-20, 40),
            };
            let all = r.chance(2);
            let mut c = of_roots(p, p, p);
            for x in &mut c {
                if *x != 0.0 && (all || r.chance(3)) {
                    *x = nudge(*x, r.between(-3, 3));
                }
            }
            c
        }
        5 => [r.whole(-6, 6), r.whole(-6, 6), r.whole(-6, 6)],
        6 => [r.scaled(160, 700), r.scaled(320, 1000), r.scaled(490, 1020)],
        7 => [r.scaled(-400, -160), r.scaled(-700, -330), r.scaled(-1060, -490)],
        8 => [0.0 * r.sign(), r.scaled(-1074, 1000), 0.0 * r.sign()],
        9 => [r.scaled(-30, 30), r.scaled(-60, 60), r.scaled(-90, 90)],
        10 => [r.bits(), r.bits(), r.bits()],
        11 if r.chance(3) => [r.special(), r.special(), r.special()],
        11 => {
            let mut c = [0.0; 3];
            c[r.index()] = r.scaled(-1060, 1020);
            c[r.index()] = r.scaled(-60, 170);
            c
        }
        _ => {
            let f = any_frame(r);
            stages(&f).0
        }
    };
    words(&c)
}
