//! Inputs for the functions below the solve: hand-made ones first, then random ones by kind.

mod eigen;
mod gates;
mod origins;
pub mod plates;
mod poses;
mod previews;
mod push;
mod refine;
mod roots;
mod single;

use crate::frames::{self, Frame};
use crate::random::Random;

pub type Input = Vec<u64>;

fn words(list: &[f64]) -> Input {
    list.iter().map(|x| x.to_bits()).collect()
}

/// The inputs stored for a function.
pub fn inputs(name: &str, r: &mut Random) -> Vec<Input> {
    let (made, count, random) = kinds(name);
    made.into_iter().chain((0..count).map(|_| random(r))).collect()
}

pub fn random(name: &str, r: &mut Random) -> Input {
    kinds(name).2(r)
}

/// Hand-made inputs, how many random ones are stored, and what makes those.
fn kinds(name: &str) -> (Vec<Input>, usize, fn(&mut Random) -> Input) {
    match name {
        "quadratic" => (roots::hand_quadratics(), 1400, roots::quadratic),
        "cubic" => (roots::hand_cubics(), 1400, roots::cubic),
        "fast_cbrt" => (single::hand_cube_roots(), 1400, single::cube_root),
        "refine" => (refine::hand_refine(), 1400, refine::refine),
        "ray_fits" => (gates::hand_rays(), 170, gates::ray),
        "near" => (gates::hand_near(), 170, gates::rotation_like),
        "project" => (gates::hand_project(), 170, gates::rotation_like),
        "basis" => (gates::hand_basis(), 180, gates::basis),
        "edges" => (vec![], 160, gates::edges),
        "eig" => (eigen::hand_eig(), 200, eigen::eig),
        "row_crosses" => (vec![], 200, eigen::row_crosses),
        "condition" => (vec![], 180, eigen::condition),
        "choice" => (poses::hand_choices(), 180, poses::choice),
        "sqrt" => (single::hand_cube_roots(), 600, single::square_root),
        "cbrt" => (single::hand_cube_roots(), 400, single::cube_root),
        "fma" => (single::hand_fma(), 1200, single::fma),
        "copysign" | "totalorder" => (single::every_two(), 100, single::two),
        "max" => (single::every_two(), 100, single::two),
        "clamp" => (vec![], 160, single::clamp),
        "push" => (push::hand_push(), 930, push::push),
        // vectors.rs stores frames of each kind beside the hand-made ones.
        "about" => (origins::hand_about(), 0, origins::about),
        "choice_about" => (origins::hand_choices_about(), 94, origins::choice_about),
        "plate_make" => (plates::hand_make(), 150, plates::make),
        "plate_replace" => (plates::hand_replace(), 150, plates::replace),
        "plate_exchange" => (plates::hand_exchange(), 100, plates::exchange),
        "plate_scale" => (plates::hand_scale(), 150, plates::scale),
        "plate_solve" => (plates::hand_solve(), 200, plates::solve),
        "plate_preview" => (previews::hand_preview(), 200, previews::preview),
        _ => panic!("no function {name}"),
    }
}

/// A frame of any kind but the last.
pub fn any_frame(r: &mut Random) -> Frame {
    frames::KINDS[r.below(frames::SOLVED as u64) as usize].2(r)
}

/// A frame of any kind, those with a target behind the camera more often than others.
pub fn any_checked(r: &mut Random) -> Frame {
    if r.chance(8) { frames::behind(r) } else { any_frame(r) }
}
