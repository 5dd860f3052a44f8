//! How long a solve takes: the port, the unchanged copy and other solvers (peers) in one process,
//! on the same frames.

use crate::coverage::Counts;
use crate::frames;
use crate::peers;
use crate::pieces;
use crate::port;
use crate::random::Random;
use nalgebra::{Matrix3, Vector3};
use std::hint::black_box;

type Input = [f64; 18];

/// Sorts of frames: a kind by its name, or whatever reaches a branch whose label begins so.
enum Sort {
    Kind(&'static str),
    Reaches(&'static str),
}

const SORTS: &[(&str, Sort)] = &[
    ("plate in metres", Sort::Kind("metres")),
    ("plate in counts", Sort::Kind("counts")),
    ("plate in metres at grid offsets", Sort::Kind("grid-metres")),
    ("plate in counts at grid offsets", Sort::Kind("grid-counts")),
    ("reaches the retry", Sort::Reaches("retry")),
    ("reaches the projection", Sort::Reaches("project_to_rotation")),
];

/// Frames are timed in parts, and of each part the least of so many passes counts: what else
/// the machine does in between then matters little.
const PART: usize = 64;
const PASSES: usize = 40;

/// How near a right pose is.
const NEAR: f64 = 1e-6;

unsafe extern "C" {
    /// C's, with a timespec of two whole numbers.
    fn clock_gettime(clock: i32, time: &mut [i64; 2]) -> i32;
}

/// The processor time of this thread, in nanoseconds.
fn spent() -> f64 {
    const CLOCK_THREAD_CPUTIME_ID: i32 = 3;
    let mut time = [0; 2];
    unsafe { clock_gettime(CLOCK_THREAD_CPUTIME_ID, &mut time) };
    time[0] as f64 * 1e9 + time[1] as f64
}

pub fn run(count: u64, seed: u64) -> Result<(), String> {
    println!(
        "seed {seed}, {count} frames of each sort; of each {PART} frames the least of {PASSES} passes"
    );
    let peers = peers::names();
    let heads: String = peers.iter().map(|name| format!(" {name}, ns |")).collect();
    println!("| frames | port / Rust | port, ns | about, ns | Rust, ns |{heads} poses a frame |");
    println!("|---|{}", "---:|".repeat(5 + peers.len()));
    let sorts: Vec<_> =
        SORTS.iter().map(|(name, sort)| (name, inputs(sort, count, seed))).collect();
    for (name, inputs) in &sorts {
        let times = times(inputs);
        let cells: String = times.iter().map(|time| format!(" {time:.0} |")).collect();
        let (poses, _) = found(inputs, ported);
        println!("| {name} | {:.2} |{cells} {poses:.2} |", times[0] / times[2]);
    }
    if !peers.is_empty() {
        println!();
        println!("Poses a frame, and how many of them are right: the matrix is a rotation and the");
        println!("three points lie at their bearings, both within {NEAR:.0e}.");
        println!();
        println!("| frames | port | {} |", peers.join(" | "));
        println!("|---|{}", "---:|".repeat(1 + peers.len()));
        for (name, inputs) in &sorts {
            let mut list = vec![found(inputs, ported)];
            list.extend((0..peers.len()).map(|p| found(inputs, |input| peers::solve(p, input))));
            let cells: String =
                list.iter().map(|(poses, right)| format!(" {poses:.2}, {right:.2} |")).collect();
            println!("| {name} |{cells}");
        }
    }
    println!();
    println!("| frames in one run | ns a frame |");
    println!("|---:|---:|");
    let inputs = &sorts[0].1;
    for power in 3..=6 {
        let frames = 10usize.pow(power);
        let one_run = || pass(inputs.iter().cycle().take(frames), |input| port::solve(input).count);
        let least = (0..3).map(|_| one_run()).fold(f64::INFINITY, f64::min);
        println!("| {frames} | {:.0} |", least / frames as f64);
    }
    Ok(())
}

fn inputs(sort: &Sort, count: u64, seed: u64) -> Vec<Input> {
    let mut r = Random::new(seed);
    let mut counts = Counts::default();
    let mut list = Vec::new();
    while (list.len() as u64) < count {
        let frame = match sort {
            Sort::Kind(name) => {
                frames::KINDS.iter().find(|kind| kind.0 == *name).unwrap().2(&mut r)
            }
            Sort::Reaches(label) => {
                let frame = pieces::any_frame(&mut r);
                let reached = counts.run("frame", &frame.map(f64::to_bits));
                if !reached.iter().any(|outcome| outcome.0.starts_with(label)) {
                    continue;
                }
                frame
            }
        };
        list.push(std::array::from_fn(|index| frame[index]));
    }
    list
}

/// Nanoseconds a solve: the port's, plain and about the first target, the unchanged copy's and the
/// peers'.
fn times(inputs: &[Input]) -> Vec<f64> {
    let parts = inputs.chunks(PART);
    let peers = peers::names().len();
    let mut least = vec![vec![f64::INFINITY; 3 + peers]; parts.len()];
    for _ in 0..PASSES {
        for (part, least) in parts.clone().zip(&mut least) {
            least[0] = least[0].min(pass(part.iter(), |input| port::solve(input).count));
            least[1] = least[1].min(pass(part.iter(), |input| port::solve_about(input).0.count));
            least[2] = least[2].min(pass(part.iter(), |input| copy_asis::solve(input).count));
            for (p, least) in least[3..].iter_mut().enumerate() {
                *least = least.min(pass(part.iter(), |input| peers::solve(p, input).0));
            }
        }
    }
    let mean = |solver| least.iter().map(|part| part[solver]).sum::<f64>() / inputs.len() as f64;
    (0..3 + peers).map(mean).collect()
}

fn ported(input: &Input) -> (usize, [f64; 48]) {
    let port::Solve { number, poses, count, .. } = port::solve(input);
    let count = if number == 0 { count } else { 0 };
    (count as usize, poses)
}

/// Poses a frame, and how many of them are right.
fn found(inputs: &[Input], solve: impl Fn(&Input) -> (usize, [f64; 48])) -> (f64, f64) {
    let (mut poses, mut right) = (0, 0);
    for input in inputs {
        let (count, slots) = solve(input);
        poses += count;
        right += slots.chunks(12).take(count).filter(|pose| is_right(input, pose)).count();
    }
    (poses as f64 / inputs.len() as f64, right as f64 / inputs.len() as f64)
}

/// Whether a pose is a rotation and a translation under which each point lies at its bearing.
fn is_right(input: &Input, pose: &[f64]) -> bool {
    let vector = |words: &[f64]| Vector3::from_column_slice(words);
    let rotation = Matrix3::from_column_slice(&pose[..9]);
    let product = rotation.transpose() * rotation - Matrix3::identity();
    product.iter().all(|x| x.abs() <= NEAR)
        && rotation.determinant() > 0.0
        && (0..3).all(|k| {
            let camera = rotation * vector(&input[3 * k..3 * k + 3]) + vector(&pose[9..]);
            let bearing = vector(&input[9 + 3 * k..12 + 3 * k]);
            camera.cross(&bearing).norm() <= NEAR * camera.dot(&bearing)
        })
}

fn pass<'a, T>(inputs: impl Iterator<Item = &'a Input>, solve: impl Fn(&Input) -> T) -> f64 {
    let before = spent();
    for input in inputs {
        black_box(solve(black_box(input)));
    }
    spent() - before
}
