//! Frames whose numbers are extreme: magnitudes, zeros, infinities, NaN.

use super::degenerate::retry;
use super::scenes::{any_realistic, posed, whole};
use super::{Frame, part, put};
use crate::random::{Random, power, times};

pub(super) fn zero_bearing(r: &mut Random) -> Frame {
    let mut f = any_realistic(r);
    let zero = [0.0 * r.sign(), 0.0 * r.sign(), 0.0 * r.sign()];
    let first = 3 + r.index();
    put(&mut f, first, zero);
    if r.chance(3) {
        let second = 3 + r.index();
        put(&mut f, second, zero);
    }
    f
}

/// Bearings of other lengths than one.
pub(super) fn length(r: &mut Random) -> Frame {
    let mut f = if r.chance(2) { any_realistic(r) } else { posed(r) };
    let common = r.scaled(-3, 1).abs();
    let own = r.chance(2);
    let close = r.chance(3);
    for index in 3..6 {
        let factor = if close {
            1.0 + power(r.between(-50, -20)) * r.sign()
        } else if own {
            r.scaled(-3, 1).abs()
        } else {
            common
        };
        let b = times(part(&f, index), factor);
        put(&mut f, index, b);
    }
    f
}

pub(super) fn magnitude(r: &mut Random, low: i64, high: i64) -> Frame {
    let mut f = if r.chance(2) { posed(r) } else { any_realistic(r) };
    let k = r.between(low, high);
    for at in (0..9).chain(18..21) {
        f[at] = f[at] * power(k / 2) * power(k - k / 2);
    }
    if f.iter().any(|x| !x.is_finite()) {
        for at in (0..9).chain(18..21) {
            f[at] = f[at].clamp(-f64::MAX, f64::MAX);
        }
    }
    f
}

/// Where a power of a coordinate comes to the edge of the format.
pub(super) fn brink(r: &mut Random) -> Frame {
    let mut f = if r.chance(2) { posed(r) } else { whole(r) };
    let k = r.pick(&[
        -538, -512, -358, -341, -268, -256, -170, -135, -128, -85, 85, 127, 128, 170, 200, 252,
        254, 255, 256, 340, 511,
    ]) + r.between(-3, 3);
    for at in (0..9).chain(18..21) {
        f[at] *= power(k);
    }
    f
}

pub(super) fn subnormal(r: &mut Random) -> Frame {
    let mut f = any_realistic(r);
    let all = r.chance(2);
    for at in 0..9 {
        if all || r.chance(3) {
            f[at] = f64::from_bits(r.word() >> r.between(12, 63)) * r.sign();
        }
    }
    if r.chance(4) {
        let at = 9 + r.below(9) as usize;
        f[at] = f64::from_bits(r.word() >> 12);
    }
    f
}

pub(super) fn signed_zeros(r: &mut Random) -> Frame {
    let mut f = match r.below(3) {
        0 => whole(r),
        1 => retry(r),
        _ => posed(r),
    };
    for x in &mut f {
        if *x == 0.0 {
            *x *= r.sign();
        } else if r.chance(6) {
            *x = 0.0 * r.sign();
        }
    }
    f
}

pub(super) fn not_finite(r: &mut Random) -> Frame {
    let mut f = any_realistic(r);
    let x = r.pick(&[
        f64::INFINITY,
        f64::NEG_INFINITY,
        f64::NAN,
        f64::from_bits(0xfff8_0000_0000_0001),
        f64::from_bits(0x7ff0_0000_0000_0001),
    ]);
    let at = r.below(18) as usize;
    f[at] = x;
    f
}

pub(super) fn bits(r: &mut Random) -> Frame {
    let mut f = any_realistic(r);
    let upto = r.pick(&[9, 18, 24]);
    for x in &mut f[..upto] {
        *x = r.bits();
    }
    f
}

pub(super) fn mixed(r: &mut Random) -> Frame {
    let mut f = posed(r);
    for index in 0..6 {
        if r.chance(2) {
            let factor =
                if index < 3 { power(r.between(-300, 300)) } else { power(r.between(-40, 40)) };
            let v = times(part(&f, index), factor);
            put(&mut f, index, v);
        }
    }
    f
}

/// Bearings so long that a dot product is infinity minus infinity.
pub(super) fn nan_cosine(r: &mut Random) -> Frame {
    let mut f = if r.chance(2) { posed(r) } else { retry(r) };
    let big = r.scaled(1000, 1020).abs();
    let (one, other) = (3 + r.index(), 3 + r.index());
    let far = r.pick(&[[1.0, 1.0, 0.0], [1.0, -1.0, 0.0], [0.0, 1.0, -1.0]]);
    put(&mut f, one, times([1.0, 1.0, 0.0], big));
    put(&mut f, other, times(far, big));
    f
}
