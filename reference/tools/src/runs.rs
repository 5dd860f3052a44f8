//! Runs of operations on plates (document 02, §4), each on the plate that the one before it left,
//! the port beside the second copy; solves with these plates, and previews of a moved target (§5).
//! Now and then a plate is altered by hand; the solve with one that is not must equal the plain
//! solve of its points. Every other preview is followed by the replacement and the solve that it
//! showed.

use crate::frames::part;
use crate::pieces::plates::{
    any_plated, at_limit, exponent, new_point, plate_words, tampered, target,
};
use crate::plates::{self, Plate};
#[cfg(port)]
use crate::port;
use crate::random::{Random, Vector};
use crate::table;
use std::collections::BTreeMap;

/// What a run holds: the plate, whether nobody altered it, the bearing of each of its targets, and
/// a fourth target with its bearing.
struct Run {
    plate: Plate,
    own: bool,
    bearings: [Vector; 3],
    fourth: (Vector, Vector),
}

#[derive(Default)]
struct Counts {
    /// By operation and by its refusal number.
    numbers: BTreeMap<(&'static str, u64), u64>,
    altered: u64,
    without_inverse: u64,
    poses: u64,
    plain: u64,
    /// Previews that were followed, and those of them whose replacement was refused.
    followed: u64,
    not_replaced: u64,
}

impl Counts {
    /// Asks for one operation; what the second copy answers.
    fn ask(&mut self, name: &'static str, input: &[u64]) -> Result<Vec<u64>, String> {
        let second = table::second::answer(name, input);
        #[cfg(port)]
        {
            let ported = port::answer(name, input);
            if ported != second {
                return Err(crate::beside::difference(name, input, &second, &ported));
            }
        }
        *self.numbers.entry((name, second[0])).or_default() += 1;
        Ok(second)
    }
}

fn bits(list: &[f64]) -> Vec<u64> {
    list.iter().map(|x| x.to_bits()).collect()
}

impl Run {
    /// A plate made of a frame's points, here and there one that is not finite.
    fn make(r: &mut Random, counts: &mut Counts) -> Result<Run, String> {
        let mut f = any_plated(r);
        if r.chance(16) {
            f[r.below(9) as usize] = r.special();
        }
        let left = counts.ask("plate_make", &bits(&f[..9]))?;
        Ok(Run {
            plate: table::plate(&left[1..]),
            own: left[0] == 0,
            bearings: [3, 4, 5].map(|index| part(&f, index)),
            fourth: (part(&f, 6), part(&f, 7)),
        })
    }

    /// An operation on the plate; whether it was accepted.
    fn operate(
        &mut self,
        name: &'static str,
        rest: &[u64],
        counts: &mut Counts,
    ) -> Result<bool, String> {
        let left = counts.ask(name, &[&plate_words(&self.plate), rest].concat())?;
        let accepted = left[0] == 0;
        if accepted {
            self.plate = table::plate(&left[1..]);
            self.own = true;
            counts.without_inverse += !self.plate.has_inverse as u64;
        }
        Ok(accepted)
    }

    /// A target and a point for it.
    fn any_move(&self, r: &mut Random) -> (u64, Vector) {
        let target = target(r);
        (target, new_point(&self.plate, target, self.fourth.0, r))
    }

    /// The fourth target and one of the plate's change places, or the target is moved; whether it
    /// was accepted.
    fn replace(
        &mut self,
        (target, point): (u64, Vector),
        counts: &mut Counts,
    ) -> Result<bool, String> {
        let old = self.plate.points[target.min(2) as usize];
        let rest = [vec![target], bits(&point)].concat();
        let accepted = self.operate("plate_replace", &rest, counts)?;
        if accepted && point == self.fourth.0 {
            let bearing = &mut self.bearings[target as usize];
            self.fourth = (old, std::mem::replace(bearing, self.fourth.1));
        }
        Ok(accepted)
    }

    fn exchange(&mut self, r: &mut Random, counts: &mut Counts) -> Result<(), String> {
        let (first, second) = (target(r), target(r));
        if self.operate("plate_exchange", &[first, second], counts)? {
            self.bearings.swap(first as usize, second as usize);
        }
        Ok(())
    }

    /// Times 2^k; every fourth time a coordinate was brought near a limit of number 13 for it.
    fn scale(&mut self, r: &mut Random, counts: &mut Counts) -> Result<(), String> {
        let k = exponent(r);
        if r.chance(4) {
            let target = r.index();
            let mut point = self.plate.points[target];
            point[r.index()] = at_limit(k.clamp(-64, 64), r);
            self.operate("plate_replace", &[vec![target as u64], bits(&point)].concat(), counts)?;
        }
        if self.operate("plate_scale", &[k as u64], counts)? {
            let power = crate::random::power(k);
            self.fourth.0 = self.fourth.0.map(|x| x * power);
        }
        Ok(())
    }

    /// The bearings, with another for the target that is moved to the fourth.
    fn bearings(&self, moved: Option<(u64, Vector)>, r: &mut Random) -> Vec<u64> {
        let mut bearings = self.bearings;
        if let Some((target, point)) = moved
            && point == self.fourth.0
        {
            bearings[target.min(2) as usize] = self.fourth.1;
        }
        if r.chance(32) {
            bearings[r.index()][r.index()] = r.special();
        }
        bits(bearings.as_flattened())
    }

    fn solve(&self, bearings: &[u64], counts: &mut Counts) -> Result<Vec<u64>, String> {
        let input = [&plate_words(&self.plate), bearings].concat();
        let answer = counts.ask("plate_solve", &input)?;
        counts.poses += answer[1];
        if self.own {
            // As a frame, without its checking target: number, count, best, slots.
            let frame = [&bits(&self.plate.world()), bearings, &[0; 6]].concat();
            let mut plain = table::second::answer("frame", &frame);
            plain.remove(2);
            if plain != answer {
                return Err(format!(
                    "Not the plain solve of its points.\nplate_solve {input:016x?}\n\
                     plain {plain:016x?}\nplate {answer:016x?}"
                ));
            }
            counts.plain += 1;
        }
        Ok(answer)
    }

    /// A preview, and every other time what it showed.
    fn preview(&mut self, r: &mut Random, counts: &mut Counts) -> Result<(), String> {
        let moved = self.any_move(r);
        let bearings = self.bearings(Some(moved), r);
        let input = [plate_words(&self.plate), vec![moved.0], bits(&moved.1), bearings.clone()];
        let shown = counts.ask("plate_preview", &input.concat())?;
        if r.chance(2) {
            return Ok(());
        }
        counts.followed += 1;
        let found = if self.replace(moved, counts)? {
            let mut answer = self.solve(&bearings, counts)?;
            answer.splice(2..2, self.plate.edges.map(table::word));
            answer
        } else {
            counts.not_replaced += 1;
            let number = if plates::is_finite(&moved.1) { 11 } else { 1 };
            [vec![number], vec![0; 60]].concat()
        };
        if shown != found {
            return Err(format!(
                "Not what the preview showed.\nplate_preview {:016x?}\n\
                 shown {shown:016x?}\nfound {found:016x?}",
                input.concat()
            ));
        }
        Ok(())
    }
}

pub fn run(count: u64, seed: u64) -> Result<(), String> {
    println!("seed {seed}, {count} operations");
    let mut r = Random::new(seed);
    let mut counts = Counts::default();
    let mut run = Run::make(&mut r, &mut counts)?;
    for _ in 1..count {
        match r.below(16) {
            0..2 => run = Run::make(&mut r, &mut counts)?,
            2..4 => {
                let moved = run.any_move(&mut r);
                run.replace(moved, &mut counts)?;
            }
            4..6 => run.exchange(&mut r, &mut counts)?,
            6..8 => run.scale(&mut r, &mut counts)?,
            8..11 => run.preview(&mut r, &mut counts)?,
            _ => {
                let bearings = run.bearings(None, &mut r);
                run.solve(&bearings, &mut counts)?;
            }
        }
        if r.chance(8) {
            run.plate = tampered(&run.plate, &mut r);
            run.own = false;
            counts.altered += 1;
        }
    }
    print(&counts);
    Ok(())
}

fn print(counts: &Counts) {
    println!("\n| operation | not refused | refused |");
    println!("|---|---:|---|");
    for name in table::FUNCTIONS.iter().map(|function| function.name) {
        if !name.starts_with("plate_") {
            continue;
        }
        let of = |number: u64| counts.numbers.get(&(name, number)).copied().unwrap_or(0);
        let refused: Vec<String> = [1, 2, 3, 11, 12, 13]
            .into_iter()
            .filter(|&number| of(number) > 0)
            .map(|number| format!("{number}: {}", of(number)))
            .collect();
        println!("| {name} | {} | {} |", of(0), refused.join(", "));
    }
    println!("\nplates altered by hand: {}", counts.altered);
    println!("operations that left a plate without inverse: {}", counts.without_inverse);
    println!("poses: {}", counts.poses);
    println!("solves equal to the plain solve of the points: {}", counts.plain);
    println!(
        "previews followed by what they showed: {}, of them refused replacements: {}",
        counts.followed, counts.not_replaced
    );
    #[cfg(port)]
    println!("The port: no difference from the second copy.");
    #[cfg(not(port))]
    println!("Built without the port (set P3P_PORT to its static library).");
}
