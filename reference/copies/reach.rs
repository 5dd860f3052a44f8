//! Counters at branches: which outcomes of which tests one run reached.

use std::cell::RefCell;

/// Every label of this copy (none but in copy-counted), in the order of the edits.
pub const LABELS: &[&str] = include!(concat!(env!("OUT_DIR"), "/labels.rs"));

thread_local! {
    static REACHED: RefCell<Vec<(&'static str, bool)>> = const { RefCell::new(Vec::new()) };
}

/// A test under its label; its outcome goes on.
pub fn at(label: &'static str, outcome: bool) -> bool {
    REACHED.with(|list| {
        let mut list = list.borrow_mut();
        if !list.contains(&(label, outcome)) {
            list.push((label, outcome));
        }
    });
    outcome
}

/// A place.
pub fn here(label: &'static str) {
    at(label, true);
}

/// The listed calls' labels, which stand in copies/listed.rs and not in the edits.
pub const LISTED: [&str; 3] = [
    "listed call: cbrt",
    "listed call: total_cmp on a NaN",
    "listed call: max of zeros of opposite sign",
];

/// A listed call is made (noted in copy-counted alone).
pub fn listed(index: usize) {
    if !LABELS.is_empty() {
        here(LISTED[index]);
    }
}

/// The inverse bases' labels, which stand in copies/stored.rs.
pub const STORED: [&str; 2] =
    ["plate, given ordering: inverse stored", "plate, other ordering: inverse made"];

/// An inverse basis or its lack is taken (noted in copy-counted alone).
pub fn stored<T>(index: usize, inverse: Option<T>) -> Option<T> {
    if !LABELS.is_empty() {
        at(STORED[index], inverse.is_some());
    }
    inverse
}

/// What was reached since the last call.
pub fn take() -> Vec<(&'static str, bool)> {
    REACHED.with(|list| std::mem::take(&mut *list.borrow_mut()))
}
