//! The poses of a plate whose pose is given, the choice among them, and a pose applied to a point.

use p3p::{Choice, Pose, Refusal};

const WORLD: [[f64; 3]; 3] = [[0.0, 0.0, 0.0], [0.4, 0.0, 0.0], [0.0, 0.3, 0.05]];
const TARGET: [f64; 3] = [0.35, 0.28, 0.1];
const TRUE_POSE: Pose = Pose {
    rotation: [[0.96, 0.0, -0.28], [0.0, 1.0, 0.0], [0.28, 0.0, 0.96]],
    translation: [0.3, -0.2, 2.5],
    updates: 0,
    lifted: false,
};

fn seen(point: [f64; 3]) -> [f64; 3] {
    p3p::normalise(&TRUE_POSE.apply(&point)).unwrap()
}

fn solved() -> p3p::Poses {
    p3p::solve(&WORLD, &WORLD.map(seen)).unwrap()
}

fn near(found: &[f64; 3], known: &[f64; 3]) -> bool {
    found.iter().zip(known).all(|(a, b)| (a - b).abs() < 1e-9)
}

#[test]
fn a_plate_gives_its_pose_and_the_fourth_target_chooses_it() {
    let poses = solved();
    assert!((2..=4).contains(&poses.len()));
    assert!(poses.iter().all(|pose| pose.updates <= 5));
    let choice = p3p::choose(&poses, &TARGET, &seen(TARGET)).unwrap();
    assert!(choice.score.sqrt().atan() < 1e-9, "{choice:?}");
    let best = &poses[choice.index];
    assert!(near(&best.translation, &TRUE_POSE.translation), "{best:?}");
    for (found, known) in best.rotation.iter().zip(&TRUE_POSE.rotation) {
        assert!(near(found, known), "{best:?}");
    }
    // the other poses see the fourth target elsewhere
    for (k, pose) in poses.iter().enumerate().filter(|(k, _)| *k != choice.index) {
        let other = p3p::choose(&[*pose], &TARGET, &seen(TARGET)).unwrap();
        assert!(other.index == 0 && other.score.sqrt().atan() > 1e-3, "{k}: {other:?}");
    }
}

#[test]
fn the_choice_looks_at_four_poses_and_takes_the_earliest_of_equals() {
    let wrong = Pose { translation: [5.0, 0.0, 1.0], ..TRUE_POSE };
    let index = |poses: &[Pose]| p3p::choose(poses, &TARGET, &seen(TARGET)).unwrap().index;
    assert_eq!(index(&[wrong, TRUE_POSE, TRUE_POSE]), 1);
    assert_eq!(index(&[wrong, wrong, wrong, TRUE_POSE]), 3);
    assert_eq!(index(&[wrong, wrong, wrong, wrong, TRUE_POSE]), 0);
}

/// A plate in counts of which one pose puts the checking target behind the camera, nearer to the
/// line of its bearing than the true pose puts it before the camera.
#[test]
fn a_pose_that_puts_the_target_behind_the_camera_is_not_chosen() {
    let world = [[640.0, 1456.0, 28.0], [860.0, -1383.0, -18.0], [-670.0, -1162.0, 14.0]];
    let bearings = [
        [-0.46312317865702335, 0.38682879503143963, 0.7974210962378279],
        [0.16106887445024037, -0.00861093844096056, 0.9869056030961111],
        [0.5146826172219185, -0.020526160783105322, 0.8571350420167769],
    ];
    let target = [2825.0, -2917.0, 1080.0];
    let bearing = [-0.0205646369319681, -0.23639375514755645, 0.9714396987127372];
    let reversed = |bearing: [f64; 3]| bearing.map(|x| -x);

    let poses = p3p::solve(&world, &bearings).unwrap();
    let [behind, ahead] = [0, 1].map(|k| score(poses[k].apply(&target), bearing));
    assert!(poses.len() == 2 && behind < ahead && ahead < 3e-10);
    let choose = |target, bearing| p3p::choose(&poses, &target, &bearing);
    assert_eq!(choose(target, bearing), Ok(Choice { index: 1, score: ahead }));
    assert_eq!(choose(target, reversed(bearing)), Ok(Choice { index: 0, score: behind }));
    // Both poses put the plate's own target before the camera.
    assert!(choose(world[0], bearings[0]).is_ok());
    assert_eq!(choose(world[0], reversed(bearings[0])), Err(Refusal::NoFiniteScore));
}

/// A camera over the circle of the plate's targets: of three poses the last two are one, and
/// marked.
#[test]
fn a_lifted_pair_is_marked() {
    let world = [[-5.0, 0.0, 0.0], [-4.0, -3.0, 0.0], [-4.0, 3.0, 0.0]];
    let seen_from = |radius: f64| {
        world.map(|[x, y, z]| {
            p3p::normalise(&[x + 0.6 * radius, y + 0.8 * radius, z + 8.0]).unwrap()
        })
    };
    let poses = p3p::solve(&world, &seen_from(5.0)).unwrap();
    assert_eq!(poses.iter().map(|pose| pose.lifted).collect::<Vec<_>>(), [false, true, true]);
    assert_eq!(poses[1], poses[2]);
    // farther out they are two
    let poses = p3p::solve(&world, &seen_from(5.01)).unwrap();
    assert!(poses.iter().all(|pose| !pose.lifted) && poses[1] != poses[2]);
}

#[test]
fn poses_are_iterated_compared_and_shown_up_to_their_count() {
    let poses = solved();
    let mut number = 0;
    for pose in &poses {
        assert_eq!(*pose, poses[number]);
        number += 1;
    }
    assert_eq!(number, poses.len());
    assert_eq!(poses.into_iter().collect::<Vec<_>>(), poses.to_vec());
    assert_eq!(format!("{poses:?}"), format!("{:?}", poses.to_vec()));
    assert_eq!(poses, solved());
    let moved = p3p::solve(&WORLD.map(|p| p.map(|x| x * 2.0)), &WORLD.map(seen)).unwrap();
    assert_ne!(poses, moved);
}

#[test]
fn rows_are_the_rotation_by_rows() {
    let rotation = [[1.0, 2.0, 3.0], [4.0, 5.0, 6.0], [7.0, 8.0, 9.0]];
    let pose = Pose { rotation, ..TRUE_POSE };
    assert_eq!(pose.rows(), [[1.0, 4.0, 7.0], [2.0, 5.0, 8.0], [3.0, 6.0, 9.0]]);
    assert_eq!(pose.apply(&[1.0, 10.0, 100.0]), [741.3, 851.8, 965.5]);
}

/// The score's formula at a camera point, operation by operation as the library's.
fn score(c: [f64; 3], b: [f64; 3]) -> f64 {
    let cross = [c[1] * b[2] - c[2] * b[1], c[2] * b[0] - c[0] * b[2], c[0] * b[1] - c[1] * b[0]];
    let dot = |a: [f64; 3], b: [f64; 3]| a[0] * b[0] + a[1] * b[1] + a[2] * b[2];
    dot(cross, cross) / (dot(c, b) * dot(c, b))
}

/// The same point with the translation added first.
fn applied_otherwise(pose: &Pose, p: &[f64; 3]) -> [f64; 3] {
    let (rows, t) = (pose.rows(), pose.translation);
    std::array::from_fn(|i| t[i] + rows[i][0] * p[0] + rows[i][1] * p[1] + rows[i][2] * p[2])
}

/// Numbers from -1 to 1, the same in each run.
struct Numbers(u64);

impl Numbers {
    fn next(&mut self) -> f64 {
        self.0 = self.0.wrapping_mul(6364136223846793005).wrapping_add(1442695040888963407);
        (self.0 >> 11) as f64 / (1u64 << 52) as f64 - 1.0
    }

    fn vector(&mut self) -> [f64; 3] {
        [self.next(), self.next(), self.next()]
    }
}

/// What `apply` gives has the bits of the library's own camera point, as the scores tell.
#[test]
fn apply_has_the_bits_of_the_librarys_camera_point() {
    let (mut numbers, mut differ) = (Numbers(1), 0);
    for _ in 0..1000 {
        let rotation = [numbers.vector(), numbers.vector(), numbers.vector()];
        let pose = Pose { rotation, translation: numbers.vector(), updates: 0, lifted: false };
        let (target, mut bearing) = (numbers.vector(), numbers.vector());
        // A target behind the camera has no score: then the bearing is reversed.
        let choice = p3p::choose(&[pose], &target, &bearing).unwrap_or_else(|_| {
            bearing = bearing.map(|x| -x);
            p3p::choose(&[pose], &target, &bearing).unwrap()
        });
        assert_eq!(choice, Choice { index: 0, score: score(pose.apply(&target), bearing) });
        differ += (choice.score != score(applied_otherwise(&pose, &target), bearing)) as u32;
    }
    assert!(differ > 500, "another order of operations would hardly be noticed: {differ}");
}
