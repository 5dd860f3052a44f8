//! The root finders, the single operations and the refusals of a solve, on cases whose answers were
//! worked out by hand.

use p3p::{Kind, Refusal};
use std::cmp::Ordering;

#[test]
fn quadratic_gives_two_roots_or_a_refusal() {
    assert_eq!(p3p::quadratic(-3.0, 2.0), Ok([2.0, 1.0]));
    assert_eq!(p3p::quadratic(2.0, 1.0), Ok([-1.0, -1.0]));
    assert_eq!(p3p::quadratic(0.0, -4.0), Ok([-2.0, 2.0]));
    assert_eq!(p3p::quadratic(-0.0, -4.0), Ok([2.0, -2.0]));
    assert_eq!(p3p::quadratic(0.0, 0.0).unwrap().map(f64::to_bits), [1 << 63, 1 << 63]);
    assert_eq!(p3p::quadratic(0.0, 1.0), Err(Refusal::NoRealRoots));
    assert_eq!(p3p::quadratic(f64::NAN, 1.0), Err(Refusal::CoefficientNotFinite));
}

#[test]
fn quadratic_tells_its_pair_apart() {
    // with c = 1 + 2^-46 the discriminant, -2^-44, is just within the band; one step further not
    let within = 1.0 + 64.0 * f64::EPSILON;
    assert_eq!(p3p::quadratic_kind(-3.0, 2.0), Ok((Kind::TwoRoots, [2.0, 1.0])));
    assert_eq!(p3p::quadratic_kind(2.0, 1.0), Ok((Kind::ZeroDiscriminant, [-1.0, -1.0])));
    assert_eq!(p3p::quadratic_kind(2.0, within), Ok((Kind::Lifted, [-1.0, -1.0])));
    assert_eq!(p3p::quadratic_kind(2.0, within + f64::EPSILON), Err(Refusal::NoRealRoots));
    assert_eq!(p3p::quadratic_kind(1.0, f64::NAN), Err(Refusal::CoefficientNotFinite));
}

#[test]
fn cubic_gives_a_root_or_a_refusal() {
    assert_eq!(p3p::cubic(0.0, 0.0, 0.0).unwrap().to_bits(), 0);
    assert_eq!(p3p::cubic(3.0, 3.0, 1.0), Err(Refusal::NoRoot));
    assert_eq!(p3p::cubic(0.0, f64::INFINITY, 0.0), Err(Refusal::CoefficientNotFinite));
    let root = p3p::cubic(0.0, 1.0, -10.0).unwrap();
    assert!((root - 2.0).abs() < 1e-12);
}

#[test]
fn cube_roots_of_minus_zero_and_of_the_least_number() {
    assert!((p3p::fast_cbrt(-27.0) + 3.0).abs() < 1e-12);
    assert_eq!(p3p::fast_cbrt(-0.0).to_bits(), 0);
    assert_eq!(p3p::cbrt(-0.0).to_bits(), 1 << 63);
    assert_eq!(p3p::fast_cbrt(-5e-324), p3p::cbrt(-5e-324));
}

#[test]
fn single_operations_on_special_values() {
    assert_eq!(p3p::sqrt(2.0), std::f64::consts::SQRT_2);
    assert_eq!(p3p::sqrt(-0.0).to_bits(), 1 << 63);
    assert!(p3p::sqrt(-1.0).is_nan());
    assert_eq!(p3p::cbrt(-27.0), -3.0);
    let above = 1.0 + f64::EPSILON;
    assert_eq!(p3p::fma(above, above, -1.0 - 2.0 * f64::EPSILON), f64::EPSILON * f64::EPSILON);
    assert_eq!(p3p::copysign(1.0, -0.0), -1.0);
    assert_eq!(p3p::max(f64::NAN, 1.0), 1.0);
    assert_eq!(p3p::max(-0.0, 0.0).to_bits(), 0);
    assert_eq!(p3p::total_cmp(-0.0, 0.0), Ordering::Less);
    assert_eq!(p3p::total_cmp(f64::NAN, f64::INFINITY), Ordering::Greater);
    assert_eq!(p3p::total_cmp(1.0, 1.0), Ordering::Equal);
}

const AXES: [[f64; 3]; 3] = [[1.0, 0.0, 0.0], [0.0, 1.0, 0.0], [0.0, 0.0, 1.0]];

#[test]
fn refused_solves_say_why() {
    let mut broken = AXES;
    broken[2][1] = f64::NAN;
    assert_eq!(p3p::solve(&broken, &AXES), Err(Refusal::InputNotFinite));
    assert_eq!(p3p::solve(&AXES, &AXES), Err(Refusal::NoUsableOrdering));
    let line = [[0.0; 3], [1.0, 0.0, 0.0], [2.0, 0.0, 0.0]];
    assert_eq!(p3p::solve(&line, &AXES), Err(Refusal::NoPose));
}

#[test]
fn choice_of_no_pose_is_refused() {
    assert_eq!(p3p::choose(&[], &[0.0; 3], &[0.0, 0.0, 1.0]), Err(Refusal::NoFiniteScore));
}

#[test]
fn refusals_have_their_numbers() {
    assert_eq!(Refusal::NoFiniteScore.number(), 10);
    assert_eq!(Refusal::RecordLength.number(), 7);
    assert_eq!(Refusal::RecordVersion.number(), 8);
    assert_eq!(Refusal::RecordCutShort.number(), 9);
    assert_eq!(Refusal::NoSuchTarget.number(), 11);
    assert_eq!(Refusal::PowerOutOfRange.number(), 12);
    assert_eq!(Refusal::CoordinateOutOfRange.number(), 13);
    assert_eq!(Refusal::InputNotFinite.to_string(), "a number of the input is not finite");
    assert_eq!(Refusal::RecordVersion.to_string(), "the record's version is not 1");
}
