//! Which branches of the Rust, of the choice and of plates the stored vectors reach, as a table.

use crate::about;
use crate::choices;
use crate::reached;
use crate::stored;
use crate::table;
use copy_counted::reach;
use std::collections::BTreeMap;
use std::path::Path;

/// How many inputs reached each outcome of each test.
#[derive(Default)]
pub struct Counts(pub BTreeMap<(&'static str, bool), usize>);

impl Counts {
    /// Runs one input through the counted copy; what it reached, of the choice too, is noted and
    /// returned.
    pub fn run(&mut self, name: &str, input: &[u64]) -> Vec<(&'static str, bool)> {
        reach::take();
        table::counted::answer(name, input);
        let mut reached = reach::take();
        if let Some((count, poses, target, bearing)) = table::counted::chosen_from(name, input) {
            reached.extend(choices::reached(count, &poses, &target, &bearing));
        }
        reached.extend(reached_about(name, input));
        let of_plates = reached::reached(name, input, &reached);
        reached.extend(of_plates);
        for &outcome in &reached {
            *self.0.entry(outcome).or_default() += 1;
        }
        reached
    }

    pub fn of(&self, label: &str, outcome: bool) -> usize {
        self.0.get(&(label, outcome)).copied().unwrap_or(0)
    }
}

/// The tests of the solve and of the choice about the first point, which no stored frame asks. The
/// last is none of the port's: it tells whether the difference is finite.
const ABOUT: [&str; 3] = [
    "about: input finite",
    "about: differences finite",
    "choice about: target less the point finite",
];

/// The outcomes of these that an input reaches.
fn reached_about(name: &str, input: &[u64]) -> Vec<(&'static str, bool)> {
    let d = |at: usize| f64::from_bits(input[at]);
    match name {
        "about" => {
            let frame: [f64; 18] = std::array::from_fn(d);
            let given = about::is_finite(&frame);
            let mut outcomes = vec![(ABOUT[0], given)];
            if given {
                outcomes.push((ABOUT[1], about::moved(&frame).is_some()));
            }
            outcomes
        }
        "choice_about" => {
            let [origin, target] = [49, 52].map(|at| [d(at), d(at + 1), d(at + 2)]);
            let finite = about::less(&target, &origin).iter().all(|x| x.is_finite());
            vec![(ABOUT[2], finite)]
        }
        _ => vec![],
    }
}

/// The tests that no stored frame asks.
fn is_own(label: &str) -> bool {
    let [tests, ordered, stored] = [&reached::TESTS[..], &reached::ORDERED, &reach::STORED];
    [&ABOUT, tests, ordered, stored].iter().any(|labels| labels.contains(&label))
}

/// Labels of places, which have no false side.
pub fn is_place(label: &str) -> bool {
    PLACES.contains(&label) || reach::LISTED.contains(&label)
}

const PLACES: &[&str] = &[
    "push_pose_with_cheirality: no projection",
    "solve_solver_minimal: input not finite",
    "solve_ordered: no cubic root",
    "solve_ordered: no eigenvectors",
    "first chart: no depth ratio",
    "second chart: no depth ratio",
    "solve_ordered: no inverse basis",
    "retry: no permutation",
];

const UNREACHABLE: &str = include_str!("unreachable.txt");

/// How far an outcome is from being reached, and why, where unreachable.txt names it.
fn reason(label: &str, side: &str) -> Option<(&'static str, &'static str)> {
    UNREACHABLE.lines().filter(|line| !line.starts_with('#')).find_map(|line| {
        let parts: Vec<&str> = line.split(" | ").collect();
        assert!(
            parts.len() == 4 && ["never", "by no frame", "none found"].contains(&parts[0]),
            "{line}"
        );
        (parts[1] == side && parts[2] == label).then_some((parts[0], parts[3]))
    })
}

/// What the frames alone reach and what all vectors do, with how many there are of each.
fn count(folder: &Path) -> Result<[(Counts, usize); 2], String> {
    let mut frames = (Counts::default(), 0);
    let mut all = (Counts::default(), 0);
    for function in table::FUNCTIONS {
        for record in stored::read(folder, function)? {
            let input = &record[..function.takes];
            if function.name == "frame" {
                frames.0.run("frame", input);
                frames.1 += 1;
            }
            all.0.run(function.name, input);
            all.1 += 1;
        }
    }
    Ok([frames, all])
}

/// Why one side of a test is not reached, where it is not; an error where it is reached and named
/// as unreachable.
fn note(
    frames: &Counts,
    all: &Counts,
    label: &str,
    outcome: bool,
) -> Result<Option<String>, String> {
    let side = if outcome { "yes" } else { "no" };
    let reason = reason(label, side);
    let claimed = reason.is_some_and(|(far, _)| far != "by no frame");
    let (by_frames, by_all) = (frames.of(label, outcome), all.of(label, outcome));
    if claimed && by_all > 0 || reason.is_some() && by_frames > 0 {
        return Err(format!("{label}, {side}: named as unreachable, but reached"));
    }
    Ok(match reason {
        Some((far, why)) if claimed || by_all > 0 => Some(format!("{side}: {far}: {why}")),
        _ if by_all == 0 => Some(format!("{side}: {NOT_REACHED}")),
        _ if by_frames == 0 && !is_own(label) => Some(format!("{side}: by no stored frame")),
        _ => None,
    })
}

const NOT_REACHED: &str = "NOT REACHED";

pub fn print(folder: &Path) -> Result<(), String> {
    let [(frames, frame_count), (all, total)] = count(folder)?;
    println!("\n## Tests of the Rust, of the choice and of plates, and which way they came out\n");
    println!("{frame_count} frames, {total} vectors in all\n");
    println!("| test | frames: yes | frames: no | all vectors: yes | all vectors: no | |");
    println!("|---|---:|---:|---:|---:|---|");
    let mut missing = 0;
    let plates = reached::TESTS.iter().chain(&reached::ORDERED).chain(&reach::STORED);
    let own = choices::TESTS.iter().chain(&ABOUT).chain(plates);
    for &label in reach::LABELS.iter().chain(own).chain(&reach::LISTED) {
        let outcomes: &[bool] = if is_place(label) { &[true] } else { &[true, false] };
        let notes: Vec<Option<String>> = outcomes
            .iter()
            .map(|&outcome| note(&frames, &all, label, outcome))
            .collect::<Result<_, _>>()?;
        let notes: Vec<String> = notes.into_iter().flatten().collect();
        missing += notes.iter().filter(|note| note.ends_with(NOT_REACHED)).count();
        let shown = |counts: &Counts, outcome: bool| {
            if !outcome && is_place(label) {
                String::new()
            } else {
                counts.of(label, outcome).to_string()
            }
        };
        let [frames_yes, frames_no] = [true, false]
            .map(|outcome| if is_own(label) { String::new() } else { shown(&frames, outcome) });
        let [all_yes, all_no] = [true, false].map(|outcome| shown(&all, outcome));
        println!(
            "| {label} | {frames_yes} | {frames_no} | {all_yes} | {all_no} | {} |",
            notes.join(". ")
        );
    }
    println!("\nOutcomes neither reached nor named as unreachable: {missing}");
    Ok(())
}
