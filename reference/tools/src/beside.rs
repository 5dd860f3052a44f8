//! The port and both copies on the same inputs in one process. From the second copy the
//! port may not differ in any bit; how far the unchanged copy is from the second is measured.

use crate::frames;
use crate::pieces;
#[cfg(port)]
use crate::port;
use crate::random::{Random, nudge};
use crate::table;
use std::collections::BTreeMap;

/// Functions asked beside the frames, one input of each for every fourth frame.
const ASKED: &[&str] = &[
    "quadratic",
    "cubic",
    "fast_cbrt",
    "choice",
    "sqrt",
    "cbrt",
    "fma",
    "copysign",
    "max",
    "totalorder",
    "about",
    "choice_about",
    "plate_make",
    "plate_replace",
    "plate_exchange",
    "plate_scale",
    "plate_solve",
    "plate_preview",
];

/// Functions that are only compared between the copies.
const COPIES: &[&str] = &["refine", "basis", "project", "eig", "row_crosses", "condition"];

/// Functions in which a listed call decides between answers and rounds nothing.
const DECIDED: &[&str] = &["row_crosses", "totalorder", "copysign"];

#[derive(Default)]
struct Distance {
    asked: u64,
    differ: u64,
    /// The most doubles that lie from one answer's word to the other's.
    places: u64,
}

pub fn run(count: u64, seed: u64) -> Result<(), String> {
    println!("seed {seed}, {count} frames");
    let mut r = Random::new(seed);
    let mut distances = BTreeMap::<&str, Distance>::new();
    let mut answers = [0u64; 8];
    for turn in 0..count {
        let frame = next_frame(&mut r).map(f64::to_bits);
        let second = compare("frame", &frame, &mut distances)?;
        compare("about", &frame[..18], &mut distances)?;
        answers[if second[0] != 0 { second[0] as usize } else { 3 + second[1] as usize }] += 1;
        for name in ASKED.iter().chain(COPIES).filter(|_| turn % 4 == 0) {
            compare(name, &pieces::random(name, &mut r), &mut distances)?;
        }
    }
    println!(
        "refused 1: {}, 2: {}, 3: {}; with 1 pose: {}, 2: {}, 3: {}, 4: {}",
        answers[1], answers[2], answers[3], answers[4], answers[5], answers[6], answers[7]
    );
    print(&distances);
    Ok(())
}

/// Random inputs of each of the functions named.
pub fn pieces(count: u64, seed: u64, names: &[&str]) -> Result<(), String> {
    println!("seed {seed}, {count} inputs of each function");
    let mut r = Random::new(seed);
    let mut distances = BTreeMap::<&str, Distance>::new();
    for name in names {
        for _ in 0..count {
            compare(name, &pieces::random(name, &mut r), &mut distances)?;
        }
    }
    print(&distances);
    Ok(())
}

fn print(distances: &BTreeMap<&str, Distance>) {
    println!("\nThe unchanged copy beside the second:");
    println!("| function | inputs | differ | at most places apart |");
    println!("|---|---:|---:|---:|");
    for (name, d) in distances {
        let far = match d.differ {
            0 => String::new(),
            _ if DECIDED.contains(name) => "another answer".to_string(),
            _ => d.places.to_string(),
        };
        println!("| {name} | {} | {} | {far} |", d.asked, d.differ);
    }
    println!();
    #[cfg(port)]
    println!("The port: no difference from the second copy.");
    #[cfg(not(port))]
    println!("Built without the port (set P3P_PORT to its static library).");
}

/// A frame of any kind; every fourth is altered in a few places.
fn next_frame(r: &mut Random) -> frames::Frame {
    let mut frame = pieces::any_checked(r);
    if r.chance(8) {
        frame = frames::scaled(&frame, r.between(-64, 64));
    }
    if r.chance(4) {
        for _ in 0..r.between(1, 4) {
            let at = r.below(24) as usize;
            frame[at] = match r.below(8) {
                0 => r.special(),
                1 => frame[r.below(24) as usize],
                2 => -frame[at],
                _ if frame[at] == 0.0 || !frame[at].is_finite() => frame[at],
                _ => nudge(frame[at], r.places(40)),
            };
        }
    }
    frame
}

/// Asks the copies, and the port where it is linked; the second copy's answer.
fn compare<'a>(
    name: &'a str,
    input: &[u64],
    distances: &mut BTreeMap<&'a str, Distance>,
) -> Result<Vec<u64>, String> {
    let second = table::second::answer(name, input);
    #[cfg(port)]
    if port::OFFERED.contains(&name) {
        let ported = port::answer(name, input);
        if ported != second {
            return Err(difference(name, input, &second, &ported));
        }
    }
    let asis = table::asis::answer(name, input);
    let distance = distances.entry(name).or_default();
    distance.asked += 1;
    if asis != second {
        distance.differ += 1;
        for (&a, &b) in asis.iter().zip(&second) {
            distance.places = distance.places.max(places(a, b));
        }
    }
    Ok(second)
}

/// How many doubles lie from one word to another (0 if either is not a number).
fn places(a: u64, b: u64) -> u64 {
    let order = |word: u64| if word >> 63 == 0 { word as i64 } else { i64::MIN - word as i64 };
    if f64::from_bits(a).is_nan() || f64::from_bits(b).is_nan() {
        0
    } else {
        order(a).abs_diff(order(b))
    }
}

#[cfg(port)]
pub fn difference(name: &str, input: &[u64], second: &[u64], ported: &[u64]) -> String {
    let words =
        |list: &[u64]| list.iter().map(|word| format!("{word:016x}")).collect::<Vec<_>>().join(" ");
    format!(
        "The port differs from the second copy.\n{name} {}\nsecond copy {}\nport        {}",
        words(input),
        words(second),
        words(ported)
    )
}
