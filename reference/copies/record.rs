//! What the test copy tells: pushed pairs, update counts, refusal numbers, lifted pairs of roots.

use crate::Answer;
use nalgebra::{Matrix3, Vector3};
use std::cell::RefCell;

#[derive(Default)]
struct Record {
    answer: Answer,
    updates: u32,
    lifts: Lifts,
}

#[derive(Default)]
struct Lifts {
    /// The kind of the last quadratic's pair: 0 two roots, 1 a discriminant of zero, 2 lifted.
    kind: u32,
    eigenvalues: bool,
    depth_ratios: bool,
    candidates: [bool; 4],
    /// How many candidates have had their turn, and the mark of the last.
    turns: usize,
    mark: bool,
}

thread_local! {
    static RECORD: RefCell<Record> = RefCell::default();
}

fn with<T>(change: impl FnOnce(&mut Record) -> T) -> T {
    RECORD.with(|record| change(&mut record.borrow_mut()))
}

pub(crate) fn start() {
    with(|record| *record = Record::default());
}

/// A list with so many poses, before a push of depths with so many updates.
pub(crate) fn holding(count: usize, updates: u32) {
    with(|record| {
        *record = Record { updates, ..Record::default() };
        record.answer.count = count;
    });
}

/// What was pushed, once the list has grown from one count to another.
pub(crate) fn grown(from: usize, to: usize) -> Option<(u32, [f64; 12])> {
    with(|record| {
        assert_eq!(record.answer.count, to);
        (from < to).then(|| (record.answer.updates[from], record.answer.poses[from]))
    })
}

pub(crate) fn refused(number: u32) {
    with(|record| record.answer.refusal = number);
}

pub(crate) fn refining() {
    with(|record| record.updates = 0);
}

pub(crate) fn updated() {
    with(|record| record.updates += 1);
}

pub(crate) fn updates() -> u32 {
    with(|record| record.updates)
}

/// The discriminant of a pair of roots, before it is cut to zero.
pub(crate) fn computed(discriminant: f64) {
    let kind = if discriminant > 0.0 {
        0
    } else if discriminant == 0.0 {
        1
    } else {
        2
    };
    with(|record| record.lifts.kind = kind);
}

pub(crate) fn kind() -> u32 {
    with(|record| record.lifts.kind)
}

/// The last pair was the eigenvalues'.
pub(crate) fn eigenvalues() {
    with(|record| record.lifts.eigenvalues = record.lifts.kind == 2);
}

/// Whether the eigenvalues of the last solve were a lifted pair.
pub fn eigenvalues_lifted() -> bool {
    with(|record| record.lifts.eigenvalues)
}

/// The last pair was a sign's depth ratios.
pub(crate) fn depth_ratios() {
    with(|record| record.lifts.depth_ratios = record.lifts.kind == 2);
}

/// A candidate was made of them.
pub(crate) fn candidate(index: usize) {
    with(|record| {
        record.lifts.candidates[index] = record.lifts.eigenvalues || record.lifts.depth_ratios;
    });
}

/// The next candidate's turn.
pub(crate) fn turn() {
    with(|record| {
        record.lifts.mark = record.lifts.candidates[record.lifts.turns];
        record.lifts.turns += 1;
    });
}

pub(crate) fn pushed(rotation: &Matrix3<f64>, translation: &Vector3<f64>) {
    with(|record| {
        let slot = record.answer.count;
        if slot == 4 {
            return; // as try_push into the full container
        }
        record.answer.poses[slot][..9].copy_from_slice(rotation.as_slice());
        record.answer.poses[slot][9..].copy_from_slice(translation.as_slice());
        record.answer.updates[slot] = record.updates;
        record.answer.lifted[slot] = record.lifts.mark;
        record.answer.count += 1;
    });
}

/// The whole answer, once the solve has come back with `count` poses.
pub(crate) fn answer(count: usize) -> Answer {
    with(|record| {
        assert_eq!(record.answer.count, count);
        if count == 0 && record.answer.refusal == 0 {
            record.answer.refusal = 3;
        }
        assert!(count == 0 || record.answer.refusal == 0);
        record.answer
    })
}
