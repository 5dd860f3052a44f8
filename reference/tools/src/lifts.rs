//! How often a pair of roots is lifted (document 02, §8), in random frames of each kind.

use crate::frames;
use crate::random::Random;

#[derive(Default)]
struct Row {
    solved: u64,
    frames: u64,
    poses: u64,
    /// Of the marked poses, those that stand twice, bit for bit.
    twice: u64,
    eigenvalues: u64,
}

impl Row {
    fn note(&mut self, input: &[f64; 18]) -> Result<(), String> {
        let answer = copy_second::solve(input);
        let eigenvalues = copy_second::record::eigenvalues_lifted();
        self.eigenvalues += eigenvalues as u64;
        if eigenvalues && answer.count != 0 {
            return Err(format!("a pose of lifted eigenvalues: {input:?}"));
        }
        let marked = (0..answer.count).filter(|&slot| answer.lifted[slot]);
        let twice = |slot: usize| {
            let bits = answer.poses[slot].map(f64::to_bits);
            let same = |other: &&[f64; 12]| other.map(f64::to_bits) == bits;
            answer.poses[..answer.count].iter().filter(same).count() > 1
        };
        self.solved += (answer.count != 0) as u64;
        self.frames += answer.lifted.contains(&true) as u64;
        self.poses += marked.clone().count() as u64;
        self.twice += marked.filter(|&slot| twice(slot)).count() as u64;
        Ok(())
    }
}

pub fn run(count: u64, seed: u64) -> Result<(), String> {
    println!("seed {seed}, {count} frames of each kind\n");
    let columns = ["solved", "with a lifted pose", "lifted poses", ".. that stand twice"];
    println!("| kind | {} | eigenvalues lifted |", columns.join(" | "));
    println!("|---|---:|---:|---:|---:|---:|");
    let mut seeds = Random::new(seed);
    for (kind, _, make) in frames::KINDS {
        let mut r = Random::new(seeds.word());
        let mut row = Row::default();
        for _ in 0..count {
            let frame = make(&mut r);
            row.note(&std::array::from_fn(|index| frame[index]))?;
        }
        println!(
            "| {kind} | {} | {} | {} | {} | {} |",
            row.solved, row.frames, row.poses, row.twice, row.eigenvalues
        );
    }
    Ok(())
}
