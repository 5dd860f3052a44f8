//! The solve about the first target: a plate on the national grid, its choice, and its refusals.

use p3p::{Pose, PoseAbout, Refusal};

const PLATE: [[f64; 3]; 4] =
    [[0.0, 0.0, 0.0], [0.5, 0.0, 0.0], [0.0, 0.375, 0.0], [0.5, 0.375, 0.125]];
const HOLE: [f64; 3] = [0.25, -0.5, 0.0];
/// Easting, northing and height: with it the plate's coordinates are doubles still.
const PLACE: [f64; 3] = [691_000.25, 5_334_000.5, 512.125];
const TRUE_POSE: Pose = Pose {
    rotation: [[0.8, 0.0, 0.6], [0.0, 1.0, 0.0], [-0.6, 0.0, 0.8]],
    translation: [-0.25, -0.125, 2.0],
    updates: 0,
    lifted: false,
};

fn placed(point: [f64; 3]) -> [f64; 3] {
    [point[0] + PLACE[0], point[1] + PLACE[1], point[2] + PLACE[2]]
}

fn seen(point: [f64; 3]) -> [f64; 3] {
    p3p::normalise(&TRUE_POSE.apply(&point)).unwrap()
}

fn world(place: impl Fn([f64; 3]) -> [f64; 3]) -> [[f64; 3]; 3] {
    [place(PLATE[0]), place(PLATE[1]), place(PLATE[2])]
}

fn bearings() -> [[f64; 3]; 3] {
    [seen(PLATE[0]), seen(PLATE[1]), seen(PLATE[2])]
}

fn parts(pose: &PoseAbout) -> ([[f64; 3]; 3], [f64; 3], u32, bool) {
    (pose.rotation(), pose.origin_in_camera(), pose.updates(), pose.lifted())
}

/// The differences are the plate at its own zero, so every bit is that of its plain solve.
#[test]
fn a_plate_far_from_zero_has_the_poses_of_the_plate_at_zero() {
    let near = p3p::solve(&world(|p| p), &bearings()).unwrap();
    let far = p3p::solve_about(&world(placed), &bearings()).unwrap();
    assert_eq!(far.len(), near.len());
    for (a, b) in far.iter().zip(&near) {
        assert_eq!(parts(a), (b.rotation, b.translation, b.updates, b.lifted));
        assert_eq!(a.rows(), b.rows());
        assert_eq!(a.origin(), PLACE);
        assert_eq!(a.apply(&placed(HOLE)), b.apply(&HOLE));
    }
    let target = PLATE[3];
    let choice = p3p::choose_about(&far, &placed(target), &seen(target)).unwrap();
    assert_eq!(Ok(choice), p3p::choose(&near, &target, &seen(target)));
    // an unmoved target is elsewhere
    assert_ne!(Ok(choice), p3p::choose_about(&far, &target, &seen(target)));
    // the plain solve of the same points has this rotation and a translation of thousands of km
    let plain = p3p::solve(&world(placed), &bearings()).unwrap()[choice.index];
    assert_eq!(plain.rotation, far[choice.index].rotation());
    assert!(plain.translation[1] < -5e6);
    let (hole, known) = (far[choice.index].apply(&placed(HOLE)), TRUE_POSE.apply(&HOLE));
    assert!((0..3).all(|i| (hole[i] - known[i]).abs() < 1e-14), "{hole:?}");
}

#[test]
fn a_difference_that_is_not_finite_is_refused() {
    let far = [[-1e308, 0.0, 0.0], [1e308, 0.0, 0.0], [0.0, 1e308, 0.0]];
    assert_eq!(p3p::solve_about(&far, &bearings()), Err(Refusal::InputNotFinite));
    assert_eq!(p3p::solve(&far, &bearings()), Err(Refusal::NoUsableOrdering));
    let nowhere = [[f64::NAN, 0.0, 0.0], [0.0; 3], [0.0; 3]];
    assert_eq!(p3p::solve_about(&nowhere, &bearings()), Err(Refusal::InputNotFinite));
    let line = [[7.0, 0.0, 0.0], [8.0, 0.0, 0.0], [9.0, 0.0, 0.0]];
    assert_eq!(p3p::solve_about(&line, &bearings()), Err(Refusal::NoPose));
    // the checking target's difference is not tested, and has no finite score
    let poses = p3p::solve_about(&world(placed), &bearings()).unwrap();
    let choice = p3p::choose_about(&poses, &[f64::INFINITY, 0.0, 0.0], &[0.0, 0.0, 1.0]);
    assert_eq!(choice, Err(Refusal::NoFiniteScore));
}
