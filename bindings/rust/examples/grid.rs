//! The plate of plate.rs far from zero, in the metres of a national grid, as include/grid.c.
//!
//!     cargo run --example grid

use std::error::Error;

// Easting, northing and height of the targets, the last for checking, and of the hole.
const PLATE: [[f64; 3]; 4] = [
    [691000.25, 5334000.5, 512.125],
    [691000.75, 5334000.5, 512.125],
    [691000.25, 5334000.875, 512.125],
    [691000.75, 5334000.875, 512.25],
];
const HOLE: [f64; 3] = [691000.5, 5334000.0, 512.125];

// The directions in which the camera sees the targets (x right, y down, z forward).
const DIRECTIONS: [[f64; 3]; 4] =
    [[-0.25, -0.125, 2.0], [0.15, -0.125, 2.3], [-0.25, 0.25, 2.0], [0.075, 0.25, 2.4]];

fn main() -> Result<(), Box<dyn Error>> {
    let [p0, p1, p2, target] = PLATE;
    let [f0, f1, f2, bearing] = DIRECTIONS.map(|d| p3p::normalise(&d).expect("a direction"));
    let poses = p3p::solve_about(&[p0, p1, p2], &[f0, f1, f2])?; // about the first target, p0
    let choice = p3p::choose_about(&poses, &target, &bearing)?;
    let [x, y, z] = poses[choice.index].apply(&HOLE); // rotation × (point - p0) + translation
    let [east, north, height] = poses[choice.index].origin();
    println!("origin {east:.3} {north:.3} {height:.3}");
    println!("best {} of {}, score {:.1e}", choice.index + 1, poses.len(), choice.score);
    println!("hole at camera {x:.6} {y:.6} {z:.6}");
    Ok(())
}
