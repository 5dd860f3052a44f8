//! nalgebra's order of operations, decided by runs: each operation that the Rust uses, the
//! reading it is held against on random inputs, and for each nearest wrong reading an input
//! that tells the two apart.

mod matrices;
mod vectors;

use crate::random::Random;
use crate::table::word;
use nalgebra::{Matrix3, Vector3};

type Formula = fn(&[f64]) -> Vec<f64>;

struct Operation {
    name: &'static str,
    /// What document 01's working reading says, in words.
    reading: &'static str,
    takes: usize,
    nalgebra: Formula,
    plain: Formula,
    /// Wrong readings: name, formula, witness, and which entry of the result is shown.
    wrong: Vec<(&'static str, Formula, Vec<f64>, usize)>,
}

fn v(x: &[f64]) -> Vector3<f64> {
    Vector3::new(x[0], x[1], x[2])
}

fn m(x: &[f64]) -> Matrix3<f64> {
    Matrix3::from_column_slice(&x[..9])
}

fn dot(a: &[f64], b: &[f64]) -> f64 {
    (a[0] * b[0] + a[1] * b[1]) + a[2] * b[2]
}

fn dot_right(a: &[f64], b: &[f64]) -> f64 {
    a[0] * b[0] + (a[1] * b[1] + a[2] * b[2])
}

fn dot_from_zero(a: &[f64], b: &[f64]) -> f64 {
    ((0.0 + a[0] * b[0]) + a[1] * b[1]) + a[2] * b[2]
}

fn dot_fused(a: &[f64], b: &[f64]) -> f64 {
    a[2].mul_add(b[2], a[1].mul_add(b[1], a[0] * b[0]))
}

fn sum(a: f64, b: f64, c: f64) -> f64 {
    ((0.0 + a) + b) + c
}

fn sum_bare(a: f64, b: f64, c: f64) -> f64 {
    (a + b) + c
}

fn sum_right(a: f64, b: f64, c: f64) -> f64 {
    a + (b + c)
}

/// Numbers for witnesses: BIG + 1 rounds back to BIG; H × H is T and a little more.
const BIG: f64 = 9007199254740992.0; // 2^53
const H: f64 = 1.0 + 1.0 / 134217728.0; // 1 + 2^-27
const T: f64 = 1.0 + 1.0 / 67108864.0; // 1 + 2^-26
const TOP: f64 = 134217728.0; // 2^27

/// Numbers that round against each other, now and then at the edges of the format.
fn number(r: &mut Random) -> f64 {
    match r.below(12) {
        0 => r.whole(-3, 3),
        1 => 0.0 * r.sign(),
        2 => r.special(),
        3 => r.bits(),
        _ => r.scaled(-4, 4),
    }
}

pub fn print(seed: u64) -> Result<(), String> {
    const RUNS: usize = 300_000;
    println!(
        "seed {seed}; each operation equals its reading on {RUNS} random inputs, NaNs counted as one value\n"
    );
    println!(
        "| operation | order of operations | nearest wrong reading | input | nalgebra | wrong reading |"
    );
    println!("|---|---|---|---|---|---|");
    let mut r = Random::new(seed);
    let words = |list: Vec<f64>| -> Vec<u64> { list.into_iter().map(word).collect() };
    for op in vectors::operations().into_iter().chain(matrices::operations()) {
        for _ in 0..RUNS {
            let x: Vec<f64> = (0..op.takes).map(|_| number(&mut r)).collect();
            let (found, expected) = (words((op.nalgebra)(&x)), words((op.plain)(&x)));
            if found != expected {
                return Err(format!(
                    "{}: {x:?} gives {found:x?}, the reading {expected:x?}",
                    op.name
                ));
            }
        }
        for (place, (name, wrong, witness, entry)) in op.wrong.iter().enumerate() {
            let found = words((op.nalgebra)(witness))[*entry];
            let other = words(wrong(witness))[*entry];
            if found == other || found != words((op.plain)(witness))[*entry] {
                return Err(format!("{}: the witness does not tell {name}", op.name));
            }
            let (operation, reading) = if place == 0 {
                (format!("`{}`", op.name), op.reading)
            } else {
                Default::default()
            };
            let shown: Vec<String> = witness.iter().map(|x| format!("{x:?}")).collect();
            println!(
                "| {} | {} | {name} | {} | {found:016x} | {other:016x} |",
                operation.replace('|', "\\|"),
                reading.replace('|', "\\|"),
                shown.join(", ")
            );
        }
    }
    Ok(())
}
