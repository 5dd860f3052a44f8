//! Frames of all kinds: world points 0 1 2, bearings 0 1 2, checking target, checking
//! bearing, each x y z.

mod behind;
mod degenerate;
mod extreme;
mod origins;
mod scenes;

pub use behind::behind;

use crate::random::{Random, Vector, plus, power, turn, unit};

pub type Frame = [f64; 24];

/// Kinds by name, with how many of each the stored vectors hold.
pub const KINDS: &[(&str, usize, fn(&mut Random) -> Frame)] = &[
    ("metres", 50, |r| scenes::realistic(r, false, false)),
    ("counts", 50, |r| scenes::realistic(r, true, false)),
    ("grid-metres", 50, |r| scenes::realistic(r, false, true)),
    ("grid-counts", 50, |r| scenes::realistic(r, true, true)),
    ("noisy", 60, scenes::noisy),
    ("random", 60, scenes::random),
    ("posed", 90, scenes::posed),
    ("close", 50, scenes::close),
    ("whole", 60, scenes::whole),
    ("collinear", 30, degenerate::collinear),
    ("coincident", 30, degenerate::coincident),
    ("equal-angles", 40, degenerate::equal_angles),
    ("edge-on", 50, scenes::edge_on),
    ("zero-bearing", 24, extreme::zero_bearing),
    ("length", 50, extreme::length),
    ("huge", 30, |r| extreme::magnitude(r, 100, 1020)),
    ("tiny", 30, |r| extreme::magnitude(r, -1060, -100)),
    ("brink", 60, extreme::brink),
    ("subnormal", 30, extreme::subnormal),
    ("signed-zeros", 40, extreme::signed_zeros),
    ("not-finite", 36, extreme::not_finite),
    ("bits", 30, extreme::bits),
    ("mixed", 30, extreme::mixed),
    ("parallel", 60, scenes::parallel),
    ("retry", 70, degenerate::retry),
    ("retry-near", 50, degenerate::retry_near),
    ("danger", 60, degenerate::danger),
    ("pair", 30, degenerate::pair),
    ("nan-cosine", 24, extreme::nan_cosine),
    ("checking", 30, scenes::checking),
    ("behind", 60, behind),
];

/// Further kinds for the solve about the first world point, with how many its vectors hold.
pub const ABOUT: &[(&str, usize, fn(&mut Random) -> Frame)] = &[
    ("overflow", 20, origins::overflow),
    ("origin-zeros", 16, origins::origin_zeros),
    ("origin-subnormal", 12, origins::origin_subnormal),
    ("same-points", 12, origins::same_points),
    ("rounded", 20, origins::rounded),
    ("offset", 20, origins::offset),
];

/// All kinds but the last, `behind`, whose points and bearings are those of other kinds.
pub const SOLVED: usize = KINDS.len() - 1;

/// A frame whose solve goes on to another ordering, or nearly.
pub fn retried(r: &mut Random) -> Frame {
    if r.chance(2) { degenerate::retry(r) } else { degenerate::retry_near(r) }
}

fn frame(world: [Vector; 3], bearings: [Vector; 3], target: Vector, bearing: Vector) -> Frame {
    let parts =
        [world[0], world[1], world[2], bearings[0], bearings[1], bearings[2], target, bearing];
    std::array::from_fn(|index| parts[index / 3][index % 3])
}

pub fn part(frame: &Frame, index: usize) -> Vector {
    [frame[3 * index], frame[3 * index + 1], frame[3 * index + 2]]
}

fn put(frame: &mut Frame, index: usize, v: Vector) {
    frame[3 * index..3 * index + 3].copy_from_slice(&v);
}

/// Four points seen by a camera: X_camera = R X + t.
fn seen(points: [Vector; 4], rotation: &[Vector; 3], translation: Vector) -> Frame {
    let b = points.map(|point| unit(plus(turn(rotation, point), translation)));
    frame([points[0], points[1], points[2]], [b[0], b[1], b[2]], points[3], b[3])
}

/// So many random frames of each kind but the last into a file, eighteen words a frame, big-endian.
pub fn write(count: u64, seed: u64, path: &str) -> Result<(), String> {
    let mut bytes = Vec::new();
    let mut seeds = Random::new(seed);
    for (_, _, make) in &KINDS[..SOLVED] {
        let mut r = Random::new(seeds.word());
        for _ in 0..count {
            bytes.extend(make(&mut r)[..18].iter().flat_map(|x| x.to_bits().to_be_bytes()));
        }
    }
    std::fs::write(path, bytes).map_err(|e| format!("{path}: {e}"))
}

/// World and target times 2^k, which here is exact.
pub fn scaled(f: &Frame, k: i64) -> Frame {
    std::array::from_fn(
        |at| if at < 9 || (18..21).contains(&at) { f[at] * power(k) } else { f[at] },
    )
}
