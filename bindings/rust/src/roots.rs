//! The root finders.

use crate::refusal::Refusal;
use crate::sys;

/// The kind of a quadratic's pair, by its discriminant as computed.
#[derive(Clone, Copy, Debug, PartialEq, Eq)]
pub enum Kind {
    /// The discriminant is above zero.
    TwoRoots,
    /// It is exactly zero: one root, twice.
    ZeroDiscriminant,
    /// It is below zero by no more than rounding, and was lifted to zero: one root, twice.
    Lifted,
}

/// The two real roots of x² + b·x + c, not sorted; where the discriminant is zero, or below it by
/// no more than rounding, -b/2 twice.
pub fn quadratic(b: f64, c: f64) -> Result<[f64; 2], Refusal> {
    let (mut first, mut second) = (0.0, 0.0);
    // SAFETY: both references are to doubles of this function's own.
    let number = unsafe { sys::p3p_quadratic(b, c, &mut first, &mut second) };
    Refusal::unless_zero(number, [first, second])
}

/// The same roots, and their kind.
pub fn quadratic_kind(b: f64, c: f64) -> Result<(Kind, [f64; 2]), Refusal> {
    let (mut first, mut second, mut kind) = (0.0, 0.0, 0);
    // SAFETY: the references are to numbers of this function's own.
    let number = unsafe { sys::p3p_quadratic_kind(b, c, &mut first, &mut second, &mut kind) };
    let kind = match kind {
        0 => Kind::TwoRoots,
        1 => Kind::ZeroDiscriminant,
        _ => Kind::Lifted,
    };
    Refusal::unless_zero(number, (kind, [first, second]))
}

/// One real root of x³ + b·x² + c·x + d, polished by Newton's method.
pub fn cubic(b: f64, c: f64, d: f64) -> Result<f64, Refusal> {
    let mut root = 0.0;
    // SAFETY: the reference is to a double of this function's own.
    let number = unsafe { sys::p3p_cubic(b, c, d, &mut root) };
    Refusal::unless_zero(number, root)
}

/// The approximate cube root from which the cubic starts: two steps of Halley's method, or the
/// cube root where these would leave the normal range. Of minus zero it is plus zero.
pub fn fast_cbrt(x: f64) -> f64 {
    // SAFETY: only numbers are passed.
    unsafe { sys::p3p_fast_cbrt(x) }
}
