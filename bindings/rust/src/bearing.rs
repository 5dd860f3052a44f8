//! Bearings from directions.

/// A direction of any length as a bearing: divided by its length, in double. None where the
/// direction is zero, or has an entry that is not finite.
pub fn normalise(direction: &[f64; 3]) -> Option<[f64; 3]> {
    if !direction.iter().all(|entry| entry.is_finite()) {
        return None;
    }
    let scale = scale(direction);
    let [x, y, z] = direction.map(|entry| entry * scale);
    let length = (x * x + y * y + z * z).sqrt();
    (length > 0.0).then_some([x / length, y / length, z / length])
}

/// The factor with which the square of the largest entry stays in the normal range: a power of two.
/// It changes no bit of the bearing, unless the entries lie 277 or more powers of ten apart: then
/// the smallest can become zero.
fn scale(direction: &[f64; 3]) -> f64 {
    let largest = direction.iter().fold(0.0, |largest: f64, entry| largest.max(entry.abs()));
    if largest > 1e150 {
        2f64.powi(-600)
    } else if largest < 1e-120 {
        2f64.powi(600)
    } else {
        1.0
    }
}
