//! Arguments of the single operations and of the cube root by steps.

use super::{Input, words};
use crate::random::{Random, nudge, power};

const SPECIAL: [f64; 14] = [
    0.0,
    -0.0,
    1.0,
    -1.0,
    f64::MIN_POSITIVE,
    -f64::MIN_POSITIVE,
    f64::MAX,
    -f64::MAX,
    f64::INFINITY,
    f64::NEG_INFINITY,
    f64::NAN,
    4.9e-324,
    -4.9e-324,
    1.5,
];

pub(super) fn every_two() -> Vec<Input> {
    let negative = f64::from_bits(0xfff8_0000_0000_0000);
    let list = SPECIAL.into_iter().chain([negative]);
    list.clone().flat_map(|a| list.clone().map(move |b| words(&[a, b]))).collect()
}

pub(super) fn two(r: &mut Random) -> Input {
    let a = r.bits();
    let b = match r.below(3) {
        0 => r.bits(),
        1 => -a,
        _ => f64::from_bits(a.to_bits() ^ 1 << r.below(64)),
    };
    words(&[a, b])
}

pub(super) fn clamp(r: &mut Random) -> Input {
    let x = match r.below(4) {
        0 => r.bits(),
        1 => r.special(),
        2 => r.range(-2.0, 2.0),
        _ => nudge(r.sign(), r.between(-3, 3)),
    };
    words(&[x, -1.0, 1.0])
}

pub(super) fn square_root(r: &mut Random) -> Input {
    let x = match r.below(5) {
        0 => r.bits(),
        1 => r.scaled(-1022, 1023).abs(),
        2 => f64::from_bits(r.word() >> r.between(12, 63)),
        3 => {
            let q = r.range(1.0, 2.0);
            let square = q * q * power(r.between(-500, 500));
            nudge(square, r.between(-2, 2))
        }
        _ => r.whole(0, 1 << 30),
    };
    words(&[x])
}

pub(super) fn hand_cube_roots() -> Vec<Input> {
    let mut list: Vec<f64> = SPECIAL.to_vec();
    list.extend([
        2.0,
        8.0,
        27.0,
        -27.0,
        1e300,
        3.4e-310,
        -2e-320,
        f64::from_bits(0x000f_ffff_ffff_ffff),
    ]);
    list.extend((0..60).map(|k| f64::MAX * (1.0 - k as f64 * 0.004)));
    list.extend((0..40).map(|k| power(25 * k - 500) * -3.0));
    list.iter().map(|&x| words(&[x])).collect()
}

pub(super) fn cube_root(r: &mut Random) -> Input {
    let x = match r.below(6) {
        0 => r.bits(),
        1 => r.scaled(-1022, 1022),
        2 => f64::from_bits(r.word() >> r.between(12, 63)) * r.sign(),
        3 => {
            let q = r.whole(1, 200_000);
            nudge(q * q * q, r.between(-2, 2)) * r.sign()
        }
        4 => r.range(0.5, 1.0) * f64::MAX * r.sign(),
        _ => r.range(-30.0, 30.0),
    };
    words(&[x])
}

pub(super) fn hand_fma() -> Vec<Input> {
    let mut list = vec![
        [-1e-200, 1e-200, 0.0],
        [1e-200, -1e-200, -0.0],
        [1e-200, 1e-200, -0.0],
        [0.0, -1.0, 0.0],
        [-0.0, 1.0, -0.0],
        [f64::INFINITY, 0.0, 1.0],
        [f64::INFINITY, 1.0, f64::NEG_INFINITY],
        [f64::MAX, 2.0, f64::NEG_INFINITY],
        [f64::MAX, f64::MAX, -f64::MAX],
        [f64::MAX, 1.0, f64::MAX],
        [1.0, 1.0, -1.0],
        [-1.0, 1.0, 1.0],
    ];
    for a in [0.0, 1.0, 4.9e-324, f64::MAX, f64::INFINITY, f64::NAN] {
        for b in [-0.0, -1.0, 0.5, f64::MIN_POSITIVE] {
            for c in [0.0, -0.0, -4.9e-324, f64::NAN] {
                list.push([a, b, c]);
            }
        }
    }
    list.iter().map(|x| words(x)).collect()
}

pub(super) fn fma(r: &mut Random) -> Input {
    let (a, b) = match r.below(4) {
        0 => (r.bits(), r.bits()),
        1 => (r.scaled(-560, -450), r.scaled(-570, -520)),
        2 => (r.scaled(480, 512), r.scaled(480, 511)),
        _ => (r.scaled(-20, 20), r.scaled(-20, 20)),
    };
    let product = a * b;
    let c = match r.below(5) {
        0 => r.bits(),
        1 => -product,
        2 if product.is_finite() && product != 0.0 => -nudge(product, r.between(-2, 2)),
        3 => product * power(r.between(-110, 110)) * r.sign(),
        _ => product * power(r.pick(&[-54, -53, -52, 52, 53, 54])) * -1.0,
    };
    words(&[a, b, c])
}
