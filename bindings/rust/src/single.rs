//! The single operations. A NaN that comes out has no promised sign or payload.

use crate::sys;
use std::cmp::Ordering;

/// The square root, rounded to nearest; of minus zero minus zero, of other negatives NaN.
pub fn sqrt(x: f64) -> f64 {
    // SAFETY: only numbers are passed, here and below.
    unsafe { sys::p3p_sqrt(x) }
}

/// The cube root, rounded to nearest, ties to even; zeros, infinities and NaN return themselves.
pub fn cbrt(x: f64) -> f64 {
    unsafe { sys::p3p_cbrt(x) }
}

/// x·y + z with one rounding.
pub fn fma(x: f64, y: f64, z: f64) -> f64 {
    unsafe { sys::p3p_fma(x, y, z) }
}

/// The magnitude of x with the sign of y, plus where y is a NaN.
pub fn copysign(x: f64, y: f64) -> f64 {
    unsafe { sys::p3p_copysign(x, y) }
}

/// The greater of two numbers; a NaN beside a number is skipped, and plus zero is above minus zero.
pub fn max(x: f64, y: f64) -> f64 {
    unsafe { sys::p3p_max(x, y) }
}

/// IEEE 754 totalOrder on numbers; NaN is above every number and equal to NaN.
pub fn total_cmp(x: f64, y: f64) -> Ordering {
    unsafe { sys::p3p_total_cmp(x, y) }.cmp(&0)
}
