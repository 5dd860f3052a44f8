//! Document 01's three listed calls, as the second copy makes them.

use crate::reach;
use std::cmp::Ordering;

pub trait Listed: Sized {
    fn listed_cbrt(self) -> Self;
    fn listed_total_cmp(&self, other: &Self) -> Ordering;
    fn listed_max(self, other: Self) -> Self;
}

impl Listed for f64 {
    /// The cube root rounded to nearest; zeros, infinities and NaN return themselves.
    fn listed_cbrt(self) -> f64 {
        reach::listed(0);
        if self == 0.0 || !self.is_finite() {
            return self;
        }
        nearest_cube_root(self.abs()).copysign(self)
    }

    /// NaN is above every number and equal to itself; numbers go by totalOrder.
    fn listed_total_cmp(&self, other: &f64) -> Ordering {
        match (self.is_nan(), other.is_nan()) {
            (false, false) => self.total_cmp(other),
            (left, right) => {
                reach::listed(1);
                left.cmp(&right)
            }
        }
    }

    /// Of two zeros of opposite sign plus zero; a NaN beside a number is passed over.
    fn listed_max(self, other: f64) -> f64 {
        if self == 0.0 && other == 0.0 {
            if self.is_sign_positive() != other.is_sign_positive() {
                reach::listed(2);
            }
            return if self.is_sign_positive() { self } else { other };
        }
        self.max(other)
    }
}

/// x = m × 2^e with m of 53 bits; N = m × 2^s with s from 104 to 106 and e - s a
/// multiple of three. q is the largest whole number with q^3 at most N, found bit by
/// bit; the root is nearer to q + 1 where (2q + 1)^3 is below 8N (never equal: odd, even).
fn nearest_cube_root(x: f64) -> f64 {
    let bits = x.to_bits();
    let field = (bits >> 52) as i64;
    let fraction = bits & ((1 << 52) - 1);
    let (mut m, mut e) =
        if field == 0 { (fraction, -1074) } else { (fraction | 1 << 52, field - 1075) };
    while m >> 52 == 0 {
        m <<= 1;
        e -= 1;
    }
    let s = 104 + (e - 104).rem_euclid(3);
    let n = shifted(m, s as u32);
    let mut q = 0u64;
    for bit in (0..53).rev() {
        if cube(q | 1 << bit) <= n {
            q |= 1 << bit;
        }
    }
    if cube(2 * q + 1) < shifted(m, s as u32 + 3) {
        q += 1;
    }
    // q is from 2^52 to 2^53; the power is far inside the normal range.
    q as f64 * f64::from_bits(((e - s) / 3 + 1023 << 52) as u64)
}

/// Whole numbers below 2^192, high word first (so the order of arrays is theirs).
type Wide = [u64; 3];

fn shifted(m: u64, by: u32) -> Wide {
    let at = |word: u32| -> u64 {
        let low = 64 * word;
        let m = m as u128;
        if by >= low + 64 {
            0
        } else if by >= low {
            (m << (by - low)) as u64
        } else if low - by < 128 {
            (m >> (low - by)) as u64
        } else {
            0
        }
    };
    [at(2), at(1), at(0)]
}

fn cube(q: u64) -> Wide {
    let square = q as u128 * q as u128;
    let low = (square as u64) as u128 * q as u128;
    let high = (square >> 64) * q as u128 + (low >> 64);
    [(high >> 64) as u64, high as u64, low as u64]
}
