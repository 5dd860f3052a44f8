//! Makes the stored vectors: the same bytes from the same seed.

use crate::coverage::Counts;
use crate::frames::{self, Frame};
use crate::pieces;
use crate::random::{Random, power};
use crate::stored;
use crate::table::{self, FUNCTIONS};
use std::path::Path;

pub const SEED: u64 = 0x2018_0003_0052_7754;

/// Frames that random ones seldom match: document 01's cases, those for document 02, §2, and
/// those found by search for a branch. A line: kind, 24 words.
const KEPT: &str = include_str!("../../inputs/frames.txt");

/// The scaled frames' exponents.
const POWERS: [i64; 4] = [-40, -12, 12, 40];

/// Inputs for each function draw from a generator of their own, so that one can grow
/// without changing the others.
fn random(part: u64) -> Random {
    let mut mixed = Random::new(SEED);
    for _ in 0..part {
        mixed.word();
    }
    Random::new(mixed.word())
}

/// Inputs of other functions, found by search. A line: function, words.
const PIECES: &str = include_str!("../../inputs/pieces.txt");

fn lines(text: &'static str) -> impl Iterator<Item = (&'static str, Vec<u64>)> {
    text.lines().filter(|line| !line.is_empty() && !line.starts_with('#')).map(|line| {
        let mut words = line.split(' ');
        let label = words.next().unwrap();
        (label, words.map(|word| u64::from_str_radix(word, 16).unwrap()).collect())
    })
}

fn kept() -> impl Iterator<Item = (String, Frame)> {
    lines(KEPT).map(|(kind, words)| {
        let frame: Vec<f64> = words.into_iter().map(f64::from_bits).collect();
        (kind.to_string(), frame.try_into().expect("24 words"))
    })
}

/// Every stored frame with its kind. The realistic kinds come first, and each of their
/// frames is followed by its scaled ones.
pub fn frames() -> Vec<(String, Frame)> {
    let mut list = Vec::new();
    for (index, &(kind, count, make)) in frames::KINDS.iter().enumerate() {
        let mut r = random(100 + index as u64);
        for _ in 0..count {
            let frame = make(&mut r);
            list.push((kind.to_string(), frame));
            if index < 4 {
                list.extend(POWERS.map(|k| (format!("{kind}, scaled"), frames::scaled(&frame, k))));
            }
        }
    }
    list.extend(kept());
    list
}

/// How many frames of a kind are stored for the solve about the first point: more of the two at
/// national grid offsets, which that solve is for, and of those with updates and lifted poses.
fn solved_about(kind: &str) -> usize {
    match kind {
        "grid-metres" | "grid-counts" => 16,
        "parallel" => 12,
        _ => 4,
    }
}

/// The stored frames that are solved about their first point, with their kinds; hand-made ones
/// and those found by search come after them.
fn frames_about() -> Vec<(String, Vec<u64>)> {
    let mut list = Vec::new();
    let solved = frames::KINDS[..frames::SOLVED].iter();
    let kinds = solved.map(|&(kind, _, make)| (kind, solved_about(kind), make));
    for (index, (kind, count, make)) in kinds.chain(frames::ABOUT.iter().copied()).enumerate() {
        let mut r = random(200 + index as u64);
        for _ in 0..count {
            list.push((kind.to_string(), make(&mut r)[..18].iter().map(|x| x.to_bits()).collect()));
        }
    }
    list.extend(others("about").into_iter().map(|input| ("by hand or search".to_string(), input)));
    list
}

/// Inputs of a function: hand-made ones, random ones, and those found by search.
fn others(name: &str) -> Vec<Vec<u64>> {
    let index = FUNCTIONS.iter().position(|function| function.name == name).unwrap();
    let mut list = pieces::inputs(name, &mut random(index as u64));
    list.extend(lines(PIECES).filter(|(label, _)| *label == name).map(|(_, words)| words));
    list
}

/// Every stored input of a function.
fn inputs(name: &str) -> Vec<Vec<u64>> {
    match name {
        "frame" => frames().iter().map(|(_, frame)| frame.map(f64::to_bits).to_vec()).collect(),
        "about" => frames_about().into_iter().map(|(_, input)| input).collect(),
        _ => others(name),
    }
}

pub fn write(folder: &Path) -> Result<(), String> {
    std::fs::create_dir_all(folder).map_err(|e| format!("{}: {e}", folder.display()))?;
    println!("## Vectors and frames\n");
    println!("| file | records | bytes | the unchanged copy differs on | answers |");
    println!("|---|---:|---:|---:|---|");
    for function in FUNCTIONS {
        let records: Vec<Vec<u64>> = inputs(function.name)
            .into_iter()
            .map(|input| {
                let answer = table::second::answer(function.name, &input);
                assert_eq!(
                    (input.len(), answer.len()),
                    (function.takes, function.gives),
                    "{}",
                    function.name
                );
                [input, answer].concat()
            })
            .collect();
        let size = stored::write(folder, function, &records)?;
        let differ = records
            .iter()
            .filter(|record| {
                table::asis::answer(function.name, &record[..function.takes])
                    != record[function.takes..]
            })
            .count();
        println!(
            "| {}.bin | {} | {size} | {differ} | {} |",
            function.name,
            records.len(),
            summary(function.name, &records)
        );
    }
    println!("\n- seed 0x{SEED:016x}");
    println!("- scaled frames: {}, each answer exactly scaled", scaled_exactly()?);
    all_kinds();
    Ok(())
}

/// The kinds of stored frames, then of those that are solved about their first point.
fn all_kinds() {
    let list = frames();
    kinds("kind", list.iter().map(|(kind, frame)| (kind, table::second::frame(frame).0)));
    let about = |input: &Vec<u64>| {
        table::second::about(&std::array::from_fn(|index| f64::from_bits(input[index]))).0
    };
    let list = frames_about();
    kinds("about the first point", list.iter().map(|(kind, input)| (kind, about(input))));
}

/// Requires of each scaled frame the answer of its frame, the translation times 2^k.
fn scaled_exactly() -> Result<usize, String> {
    let mut count = 0;
    let list = frames();
    for group in list.chunks(1 + POWERS.len()).take_while(|group| group[1].0.ends_with(", scaled"))
    {
        let (answer, best) = table::second::frame(&group[0].1);
        for (k, (_, frame)) in POWERS.into_iter().zip(&group[1..]) {
            let mut expected = answer;
            for pose in &mut expected.poses[..answer.count] {
                pose[9..].iter_mut().for_each(|x| *x *= power(k));
            }
            if table::second::frame(frame) != (expected, best) {
                return Err(format!("not scaled by 2^{k}: {frame:?}"));
            }
            count += 1;
        }
    }
    Ok(count)
}

/// What the answers are, in a few words.
fn summary(name: &str, records: &[Vec<u64>]) -> String {
    let takes = table::find(name).takes;
    let tally_where = |at: usize, counted: fn(&[u64]) -> bool| {
        let mut counts = std::collections::BTreeMap::<u64, usize>::new();
        for record in records.iter().filter(|record| counted(&record[takes..])) {
            *counts.entry(record[takes + at]).or_default() += 1;
        }
        counts
            .iter()
            .map(|(value, count)| format!("{value}: {count}"))
            .collect::<Vec<_>>()
            .join(", ")
    };
    let tally = |at: usize| tally_where(at, |_| true);
    match name {
        "frame" => {
            let poses = pose_summary(records, takes, 3);
            format!("refusals {}; poses {}; best {}; {poses}", tally(0), tally(1), tally(2))
        }
        "about" | "plate_preview" => {
            let poses = pose_summary(records, takes, 5);
            format!("refusals {}; poses {}; {poses}", tally(0), tally(1))
        }
        "quadratic" => {
            let kinds = tally_where(1, |answer| answer[0] == 0);
            format!("numbers {}; kinds {kinds}", tally(0))
        }
        "cubic" => format!("numbers {}", tally(0)),
        "refine" => format!("updates {}", tally(0)),
        "choice" | "choice_about" => format!("numbers {}; best {}", tally(0), tally(1)),
        "plate_make" | "plate_replace" | "plate_exchange" | "plate_scale" => {
            let inverse = tally_where(22, |answer| answer[0] == 0);
            format!("numbers {}; inverse {inverse}", tally(0))
        }
        "plate_solve" => {
            let poses = pose_summary(records, takes, 2);
            format!("refusals {}; poses {}; {poses}", tally(0), tally(1))
        }
        "push" => {
            let pushed = records.iter().filter(|record| record[takes] > record[takes - 1]).count();
            format!("pushed 0: {}, 1: {pushed}; poses {}", records.len() - pushed, tally(0))
        }
        "eig" => format!("answers {}; lifted {}", tally(0), tally(13)),
        "ray_fits" | "near" | "project" | "basis" | "row_crosses" => {
            format!("answers {}", tally(0))
        }
        _ => String::new(),
    }
}

/// The updates and marks of all poses, the slots being `at` words from the answer's start.
fn pose_summary(records: &[Vec<u64>], takes: usize, at: usize) -> String {
    let mut updates = [0; 6];
    let mut lifted = 0;
    for record in records {
        for slot in 0..record[takes + 1] as usize {
            updates[record[takes + at + 14 * slot] as usize] += 1;
            lifted += record[takes + at + 1 + 14 * slot];
        }
    }
    let updates: Vec<String> =
        updates.iter().enumerate().map(|(value, count)| format!("{value}: {count}")).collect();
    format!("updates {}; lifted {lifted}", updates.join(", "))
}

/// Kinds of frames, with the answers of each.
fn kinds<'a>(title: &str, answers: impl Iterator<Item = (&'a String, copy_second::Answer)>) {
    let mut rows: Vec<(&String, [usize; 10])> = Vec::new();
    for (kind, answer) in answers {
        if rows.iter().all(|(name, _)| *name != kind) {
            rows.push((kind, [0; 10]));
        }
        let row = &mut rows.iter_mut().find(|(name, _)| *name == kind).unwrap().1;
        row[0] += 1;
        row[if answer.count == 0 { answer.refusal as usize } else { 3 + answer.count }] += 1;
        row[8] += answer.updates.iter().any(|&updates| updates > 0) as usize;
        row[9] += answer.lifted.contains(&true) as usize;
    }
    println!(
        "\n| {title} | frames | refused 1 | 2 | 3 | 1 pose | 2 | 3 | 4 | with updates | lifted |"
    );
    println!("|---|---:|---:|---:|---:|---:|---:|---:|---:|---:|---:|");
    for (kind, row) in rows {
        println!("| {kind} | {} |", row.map(|count| count.to_string()).join(" | "));
    }
}

/// Inputs that reach an outcome which fewer than `enough` stored vectors of that function
/// reach: random ones, or those of a file. Lines for inputs/.
pub fn search(name: &str, source: Source, enough: usize) {
    let mut counts = Counts::default();
    for input in inputs(name) {
        counts.run(name, &input);
    }
    let mut consider = |label: &str, input: Vec<u64>| {
        let reached = Counts::default().run(name, &input);
        if reached.iter().any(|(label, outcome)| counts.of(label, *outcome) < enough) {
            counts.run(name, &input);
            println!(
                "{label} {}",
                input.iter().map(|word| format!("{word:016x}")).collect::<Vec<_>>().join(" ")
            );
        }
    };
    match source {
        Source::Random { seed, count } => {
            let mut r = Random::new(seed);
            for _ in 0..count {
                if name == "frame" {
                    let (kind, _, make) = r.pick(frames::KINDS);
                    consider(&format!("found-{kind}"), make(&mut r).map(f64::to_bits).to_vec());
                } else {
                    consider(name, pieces::random(name, &mut r));
                }
            }
        }
        Source::Text(text) => {
            for (label, input) in crate::check::inputs(&text, name) {
                consider(&label, input);
            }
        }
    }
}

pub enum Source {
    Random { seed: u64, count: u64 },
    Text(String),
}
