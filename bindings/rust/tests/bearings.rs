//! Bearings from directions of every size.

use p3p::normalise;

#[test]
fn an_ordinary_direction_is_divided_by_its_length() {
    assert_eq!(normalise(&[3.0, 0.0, -4.0]), Some([0.6, 0.0, -0.8]));
    let [x, y, z] = [-0.25, -0.125, 2.0f64];
    let length = (x * x + y * y + z * z).sqrt();
    assert_eq!(normalise(&[x, y, z]), Some([x / length, y / length, z / length]));
}

/// A power of two more or less changes no bit, as far as the numbers reach.
#[test]
fn squares_neither_overflow_nor_vanish() {
    let (direction, unit) = ([3.0, -5.0, 7.0], normalise(&[3.0, -5.0, 7.0]));
    for power in [-1074, -1070, -600, -500, -400, -300, 0, 300, 500, 501, 1000, 1021] {
        // in two steps, since 2^-1074 is no double's reciprocal
        let (half, rest) = (power / 2, power - power / 2);
        let scaled = direction.map(|x| x * 2f64.powi(half) * 2f64.powi(rest));
        assert_eq!(normalise(&scaled), unit, "2^{power}");
    }
    let third = (1.0f64 / 3.0).sqrt();
    let [x, y, z] = normalise(&[f64::MAX; 3]).unwrap();
    assert!([x, y, z].iter().all(|entry| (entry - third).abs() < 1e-15));
}

#[test]
fn what_has_no_direction_has_no_bearing() {
    for direction in [[0.0, -0.0, 0.0], [f64::INFINITY, 0.0, 1.0], [1.0, f64::NAN, 1.0]] {
        assert_eq!(normalise(&direction), None);
    }
}

/// The power of two changes no bit where the entries lie less than 277 powers of ten apart.
#[test]
fn a_small_entry_beside_a_huge_one_vanishes_late() {
    assert_eq!(normalise(&[2e150, 2e-126, 0.0]), Some([1.0, 2e-126 / 2e150, 0.0]));
    assert_eq!(normalise(&[2e150, 1e-150, 0.0]), Some([1.0, 0.0, 0.0]));
}
