//! The second copy behind the port's C interface: it stands in for the port to try the comparison
//! itself. With a feature it is wrong in a last bit now and then, scores a target behind the
//! camera, takes a discriminant of zero for a lifted one, marks a pose because it stands twice,
//! solves about the second point or carries it, moves the translation back to the world, does not
//! move the checking target, or is wrong about plates (plated.rs, previewed.rs), which must be
//! found.

#[path = "../../tools/src/about.rs"]
mod about;
#[path = "../../tools/src/choice.rs"]
mod choice;
mod plated;
#[path = "../../tools/src/plates.rs"]
mod plates;
mod previewed;

use copy_second::Answer;
use copy_second::listed::Listed;

#[unsafe(no_mangle)]
extern "C" fn p3p_sqrt(x: f64) -> f64 {
    x.sqrt()
}

#[unsafe(no_mangle)]
extern "C" fn p3p_cbrt(x: f64) -> f64 {
    x.listed_cbrt()
}

#[unsafe(no_mangle)]
extern "C" fn p3p_fma(a: f64, b: f64, c: f64) -> f64 {
    a.mul_add(b, c)
}

#[unsafe(no_mangle)]
extern "C" fn p3p_copysign(x: f64, sign: f64) -> f64 {
    // A NaN has no sign here (docs/DIFFERENCES.md).
    if sign.is_nan() { x.abs() } else { x.copysign(sign) }
}

#[unsafe(no_mangle)]
extern "C" fn p3p_max(a: f64, b: f64) -> f64 {
    a.listed_max(b)
}

#[unsafe(no_mangle)]
extern "C" fn p3p_total_cmp(a: f64, b: f64) -> i32 {
    a.listed_total_cmp(&b) as i32
}

#[unsafe(no_mangle)]
extern "C" fn p3p_quadratic_kind(
    b: f64,
    c: f64,
    first: &mut f64,
    second: &mut f64,
    kind: &mut u32,
) -> u32 {
    match copy_second::quadratic(b, c) {
        Ok((found, roots)) => {
            [*first, *second] = roots;
            *kind = if cfg!(feature = "wrong-kind") && found == 1 { 2 } else { found };
            0
        }
        Err(number) => number,
    }
}

#[unsafe(no_mangle)]
extern "C" fn p3p_quadratic(b: f64, c: f64, first: &mut f64, second: &mut f64) -> u32 {
    p3p_quadratic_kind(b, c, first, second, &mut 0)
}

#[unsafe(no_mangle)]
extern "C" fn p3p_cubic(b: f64, c: f64, d: f64, root: &mut f64) -> u32 {
    match copy_second::cubic(b, c, d) {
        Ok(found) => {
            *root = found;
            0
        }
        Err(number) => number,
    }
}

#[unsafe(no_mangle)]
extern "C" fn p3p_fast_cbrt(x: f64) -> f64 {
    let mut root = copy_second::fast_cbrt(x);
    if cfg!(feature = "wrong-root") && x.to_bits() % 1024 == 5 {
        change_last_bit(&mut root);
    }
    root
}

#[unsafe(no_mangle)]
extern "C" fn p3p_solve(
    input: &[f64; 18],
    poses: &mut [f64; 48],
    updates: &mut [u32; 4],
    lifted: &mut [u32; 4],
    count: &mut u32,
) -> u32 {
    let answer = copy_second::solve(input);
    let number = write(&answer, poses, updates, lifted, count);
    if cfg!(feature = "wrong-mark") && number == 0 {
        *lifted = std::array::from_fn(|slot| {
            let pose = answer.poses[slot];
            let twice = answer.poses.iter().filter(|other| **other == pose).count() > 1;
            (slot < answer.count && twice) as u32
        });
    }
    if cfg!(feature = "wrong-pose") && answer.count == 3 && answer.updates[2] == 5 {
        change_last_bit(&mut poses[24]);
    }
    number
}

#[unsafe(no_mangle)]
extern "C" fn p3p_solve_about(
    input: &[f64; 18],
    poses: &mut [f64; 48],
    updates: &mut [u32; 4],
    lifted: &mut [u32; 4],
    count: &mut u32,
    origin: &mut [f64; 3],
) -> u32 {
    let Some(mut moved) = about::moved(input) else { return 1 };
    if cfg!(feature = "wrong-about") {
        moved = about::differences(input, &input[3..6]);
    }
    let number = write(&copy_second::solve(&moved), poses, updates, lifted, count);
    if number == 0 {
        *origin = about::carried(input, number);
        if cfg!(feature = "wrong-origin") {
            origin.copy_from_slice(&input[3..6]);
        }
        if cfg!(feature = "wrong-world") {
            poses.chunks_mut(12).take(*count as usize).for_each(|pose| to_world(pose, origin));
        }
    }
    number
}

/// The translation of the points as they are: t - R p0.
fn to_world(pose: &mut [f64], p0: &[f64; 3]) {
    for i in 0..3 {
        pose[9 + i] -= pose[i] * p0[0] + pose[3 + i] * p0[1] + pose[6 + i] * p0[2];
    }
}

/// An answer into lent memory; a refusal leaves it.
fn write(
    answer: &Answer,
    poses: &mut [f64; 48],
    updates: &mut [u32; 4],
    lifted: &mut [u32; 4],
    count: &mut u32,
) -> u32 {
    if answer.refusal != 0 {
        return answer.refusal;
    }
    *poses = std::array::from_fn(|index| answer.poses[index / 12][index % 12]);
    *updates = answer.updates;
    *lifted = answer.lifted.map(u32::from);
    *count = answer.count as u32;
    0
}

#[unsafe(no_mangle)]
extern "C" fn p3p_choose(
    poses: &[f64; 48],
    count: u32,
    target: &[f64; 3],
    bearing: &[f64; 3],
    best: &mut u32,
    score: &mut f64,
) -> u32 {
    let slots = std::array::from_fn(|slot| std::array::from_fn(|index| poses[12 * slot + index]));
    let chosen = if cfg!(feature = "wrong-behind") {
        choice::lowest(count as u64, &slots, target, bearing, |_| true)
    } else {
        choice::best(count as u64, &slots, target, bearing)
    };
    match chosen {
        Some((index, value)) => {
            *best = index as u32 + 1;
            *score = value;
            if cfg!(feature = "wrong-score") && index == 3 {
                change_last_bit(score);
            }
            0
        }
        None => 10,
    }
}

#[unsafe(no_mangle)]
extern "C" fn p3p_choose_about(
    poses: &[f64; 48],
    count: u32,
    origin: &[f64; 3],
    target: &[f64; 3],
    bearing: &[f64; 3],
    best: &mut u32,
    score: &mut f64,
) -> u32 {
    let moved = if cfg!(feature = "wrong-target") { *target } else { about::less(target, origin) };
    p3p_choose(poses, count, &moved, bearing, best, score)
}

fn change_last_bit(x: &mut f64) {
    *x = f64::from_bits(x.to_bits() ^ 1);
}
