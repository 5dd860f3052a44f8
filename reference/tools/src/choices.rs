//! Which tests of the choice an input reaches; and what document 02, §2, changes in the choices of
//! random frames: the choice that asks for the target before the camera, beside document 01's,
//! which did not.

use crate::choice::{self, Poses};
use crate::frames::{self, Frame};
use crate::random::Random;
use crate::table;
use std::collections::BTreeSet;

/// The tests, as the table of what stored vectors reach names them.
pub const TESTS: [&str; 5] = [
    "choice: depth above zero",
    "choice: depth a NaN",
    "choice: score finite",
    "choice: below the lowest so far",
    "choice: equal to the lowest so far",
];

/// The outcomes that a choice reaches, each once.
pub fn reached(
    count: u64,
    poses: &Poses,
    target: &[f64],
    bearing: &[f64],
) -> BTreeSet<(&'static str, bool)> {
    let [above, nan, finite, below, equal] = TESTS;
    let mut outcomes = BTreeSet::new();
    let mut lowest = None;
    for pose in poses.iter().take(count.min(4) as usize) {
        let (depth, score) = choice::measured(pose, target, bearing);
        outcomes.extend([(above, depth > 0.0), (nan, depth.is_nan())]);
        if depth > 0.0 {
            outcomes.insert((finite, score.is_finite()));
            if !score.is_finite() {
                continue;
            }
            if let Some(lowest) = lowest {
                outcomes.extend([(below, score < lowest), (equal, score == lowest)]);
            }
            lowest = Some(lowest.map_or(score, |lowest| score.min(lowest)));
        }
    }
    outcomes
}

struct Row {
    solved: u64,
    other: u64,
    refused: u64,
    /// The least score that document 01's choice had where it was another.
    least: f64,
}

impl Row {
    fn note(&mut self, frame: &Frame) {
        let (answer, now) = table::second::frame(frame);
        if answer.count == 0 {
            return;
        }
        self.solved += 1;
        let (target, bearing) = (&frame[18..21], &frame[21..24]);
        let before = choice::lowest(answer.count as u64, &answer.poses, target, bearing, |_| true);
        let Some((_, score)) = before.filter(|(index, _)| *index as u64 + 1 != now) else {
            return;
        };
        self.other += (now != 0) as u64;
        self.refused += (now == 0) as u64;
        self.least = self.least.min(score);
    }
}

pub fn run(count: u64, seed: u64) -> Result<(), String> {
    println!("seed {seed}, {count} frames of each kind\n");
    println!("| kind | solved | another pose | refused with 10 now | least score before |");
    println!("|---|---:|---:|---:|---:|");
    let mut seeds = Random::new(seed);
    for (kind, _, make) in frames::KINDS {
        let mut r = Random::new(seeds.word());
        let mut row = Row { solved: 0, other: 0, refused: 0, least: f64::INFINITY };
        for _ in 0..count {
            row.note(&make(&mut r));
        }
        let least =
            if row.least.is_finite() { format!("{:.2e}", row.least) } else { String::new() };
        println!("| {kind} | {} | {} | {} | {least} |", row.solved, row.other, row.refused);
    }
    Ok(())
}
