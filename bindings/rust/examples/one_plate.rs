//! One plate for many frames, with one target measured again, and kept as bytes between two jobs,
//! as include/plate.c.
//!
//!     cargo run --example one_plate

use p3p::{Plate, Refusal, StoredPlate};
use std::array;

// The targets in metres, the third as it was measured again, the checking target, and the hole.
const POINTS: [[f64; 3]; 3] = [[0.0, 0.0, 0.0], [0.5, 0.0, 0.0], [0.0, 0.375, 0.0]];
const AGAIN: [f64; 3] = [0.0, 0.376, 0.001];
const CHECKING: [f64; 3] = [0.5, 0.375, 0.125];
const HOLE: [f64; 3] = [0.25, -0.5, 0.0];

// The directions in which the camera sees the targets, the last for checking, in three frames of
// the plate as it was made and one of it with its third target as measured again.
const FRAMES: [[[f64; 3]; 4]; 4] = [
    [[-0.25, -0.125, 2.0], [0.15, -0.125, 2.3], [-0.25, 0.25, 2.0], [0.075, 0.25, 2.4]],
    [[0.1, -0.2, 1.5], [0.6, -0.2, 1.5], [0.1, 0.175, 1.5], [0.6, 0.175, 1.625]],
    [[-0.2, -0.1, 3.0], [0.1, -0.1, 2.6], [-0.2, 0.275, 3.0], [0.2, 0.275, 2.675]],
    [[0.1, -0.2, 1.5], [0.6, -0.2, 1.5], [0.1, 0.176, 1.501], [0.6, 0.175, 1.625]],
];

/// Solves a frame with a plate, and prints where the hole is; plate.rs asks more of the choice.
fn find_hole(plate: &Plate, frame: usize) -> Result<(), Refusal> {
    let [f0, f1, f2, bearing] = FRAMES[frame].map(|d| p3p::normalise(&d).expect("a direction"));
    let poses = plate.solve(&[f0, f1, f2])?; // as p3p::solve of the plate's points
    let choice = p3p::choose(&poses, &CHECKING, &bearing)?;
    let [x, y, z] = poses[choice.index].apply(&HOLE);
    let (number, best, count) = (frame + 1, choice.index + 1, poses.len());
    println!("frame {number}: best {best} of {count}, hole at camera {x:.6} {y:.6} {z:.6}");
    Ok(())
}

fn print_edges(plate: &Plate) {
    let [e01, e02, e12] = plate.squared_edges().map(f64::sqrt);
    println!("edges {e01:.6} {e02:.6} {e12:.6} m");
}

/// A plate's twenty-one numbers, and a byte that says whether there is an inverse.
fn to_bytes(stored: &StoredPlate) -> Vec<u8> {
    let numbers = stored.numbers.iter().flat_map(|number| number.to_be_bytes());
    numbers.chain([u8::from(stored.has_inverse)]).collect()
}

fn from_bytes(bytes: &[u8]) -> StoredPlate {
    let number = |k: usize| f64::from_be_bytes(array::from_fn(|i| bytes[8 * k + i]));
    StoredPlate { numbers: array::from_fn(number), has_inverse: bytes[168] != 0 }
}

fn main() -> Result<(), Refusal> {
    let mut plate = Plate::new(&POINTS)?; // made once, for all frames
    for frame in 0..3 {
        find_hole(&plate, frame)?;
    }
    print_edges(&plate);

    plate.replace(2, &AGAIN)?; // targets have the numbers 0, 1 and 2
    print_edges(&plate);

    // there is no target 3: refused, and the plate is as it was
    if let Err(refusal) = plate.replace(3, &AGAIN) {
        println!("target 3 refused {}", refusal.number());
    }

    // kept between two jobs, and taken as it was stored
    let kept = to_bytes(&plate.to_stored());
    let plate = Plate::from_stored(&from_bytes(&kept));
    find_hole(&plate, 3)
}
