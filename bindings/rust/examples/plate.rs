//! A plate from the directions to its targets to the place of a hole, as include/example.c.
//!
//!     cargo run --example plate

use p3p::Pose;
use std::error::Error;
use std::process::ExitCode;

// The plate's targets in metres, the last for checking, and the hole.
const PLATE: [[f64; 3]; 4] =
    [[0.0, 0.0, 0.0], [0.5, 0.0, 0.0], [0.0, 0.375, 0.0], [0.5, 0.375, 0.125]];
const HOLE: [f64; 3] = [0.25, -0.5, 0.0];

// The directions in which the camera sees them (x right, y down, z forward), of any length.
const DIRECTIONS: [[f64; 3]; 4] =
    [[-0.25, -0.125, 2.0], [0.15, -0.125, 2.3], [-0.25, 0.25, 2.0], [0.075, 0.25, 2.4]];

// How far off its bearing the checking target may be, in degrees: your measuring error.
const LIMIT: f64 = 0.01;

fn print_poses(poses: &[Pose], best: usize) {
    for (k, pose) in poses.iter().enumerate() {
        let lifted = if pose.lifted { ", lifted" } else { "" };
        println!("pose {}{lifted}, rotation by rows and translation", k + 1);
        for ([a, b, c], t) in pose.rows().iter().zip(&pose.translation) {
            println!("{a:10.6} {b:9.6} {c:9.6} {t:12.6}");
        }
    }
    println!("best {}", best + 1);
}

/// Whether the checking target is seen where the best pose puts it: the score tells how far it is
/// off its bearing.
fn confirmed(score: f64) -> bool {
    let angle = score.sqrt().atan().to_degrees();
    println!("checking target {angle:.6} degrees off its bearing");
    angle <= LIMIT
}

fn find_hole() -> Result<(), Box<dyn Error>> {
    let [p0, p1, p2, target] = PLATE;
    let [f0, f1, f2, bearing] = DIRECTIONS.map(|d| p3p::normalise(&d).expect("a direction"));
    let poses = p3p::solve(&[p0, p1, p2], &[f0, f1, f2])?; // one to four, or the refusal
    let choice = p3p::choose(&poses, &target, &bearing)?; // by the fourth target
    print_poses(&poses, choice.index);
    if poses[choice.index].lifted {
        eprintln!("the pose is lifted: move the camera aside and measure again");
    }
    if !confirmed(choice.score) {
        return Err("not confirmed".into());
    }
    let [x, y, z] = poses[choice.index].apply(&HOLE); // rotation × point + translation
    println!("hole at camera {x:.6} {y:.6} {z:.6}");
    Ok(())
}

fn main() -> ExitCode {
    if let Err(error) = find_hole() {
        eprintln!("{error}");
        return ExitCode::FAILURE;
    }
    ExitCode::SUCCESS
}
