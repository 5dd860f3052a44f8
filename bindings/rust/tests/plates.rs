//! Plates: their operations, the solve with them, previews, and plates that were kept elsewhere.

use p3p::{Plate, Poses, Preview, Refusal, StoredPlate};

type Points = [[f64; 3]; 3];

const POINTS: Points = [[0.0, 0.0, 0.0], [0.4, 0.0, 0.0], [0.0, 0.3, 0.05]];
const LINE: Points = [[0.0, 0.0, 0.0], [1.0, 0.0, 0.0], [2.0, 0.0, 0.0]];
/// From this place the given ordering of these points is not usable, and another one has poses.
const TURNED: Points = [[3.0, -3.0, 0.0], [0.0, 0.0, 0.0], [3.0, 0.0, 0.0]];
const BEFORE_TURNED: [f64; 3] = [-4.0, -1.0, 3.0];

fn made(points: &Points) -> Plate {
    Plate::new(points).unwrap()
}

/// The bearings from a camera that sees each point, unturned, at a shift.
fn seen(points: &Points, shift: [f64; 3]) -> Points {
    points.map(|[x, y, z]| p3p::normalise(&[x + shift[0], y + shift[1], z + shift[2]]).unwrap())
}

/// Every number of a plate by its bits.
fn plate_bits(plate: &Plate) -> (Vec<u64>, bool) {
    let stored = plate.to_stored();
    (stored.numbers.iter().map(|x| x.to_bits()).collect(), stored.has_inverse)
}

/// What a solve gives, by its bits.
type Bits = Result<Vec<(Vec<u64>, u32, bool)>, Refusal>;

fn solve_bits(solved: Result<Poses, Refusal>) -> Bits {
    let bits = |v: &[f64; 3]| v.map(f64::to_bits);
    Ok(solved?
        .iter()
        .map(|pose| {
            let entries = pose.rotation.iter().chain([&pose.translation]).flat_map(bits).collect();
            (entries, pose.updates, pose.lifted)
        })
        .collect())
}

/// The solve with a plate, which must be that of its points.
fn solved(plate: &Plate, bearings: &Points) -> Bits {
    let found = solve_bits(plate.solve(bearings));
    assert_eq!(found, solve_bits(p3p::solve(&plate.points(), bearings)));
    found
}

/// What a preview shows, by its bits; of NaNs, whose bits nobody promises, by those of one.
fn preview_bits(shown: &Preview) -> ([u64; 3], Bits) {
    let bits = |x: f64| if x.is_nan() { f64::NAN } else { x }.to_bits();
    (shown.squared_edges.map(bits), solve_bits(shown.poses))
}

/// A preview, which must be what replacing the target on a copy and solving with it give, and leave
/// the plate as it was.
fn previewed(plate: &Plate, target: u32, point: &[f64; 3], bearings: &Points) -> Preview {
    let before = plate_bits(plate);
    let shown = plate.preview(target, point, bearings);
    assert_eq!(plate_bits(plate), before);
    let mut copy = *plate;
    let replaced = copy.replace(target, point);
    let squared_edges = replaced.map_or([0.0; 3], |()| copy.squared_edges());
    let expected = Preview { squared_edges, poses: replaced.and_then(|()| copy.solve(bearings)) };
    assert_eq!(preview_bits(&shown), preview_bits(&expected));
    shown
}

/// The plate with one of its numbers changed.
fn altered(plate: &Plate, at: usize, number: f64) -> Plate {
    let mut stored = plate.to_stored();
    stored.numbers[at] = number;
    Plate::from_stored(&stored)
}

fn without_inverse(plate: &Plate) -> Plate {
    Plate::from_stored(&StoredPlate { has_inverse: false, ..plate.to_stored() })
}

#[test]
fn a_plate_has_the_edges_and_the_inverse_of_its_points() {
    let plate = made(&[[0.0, 0.0, 0.0], [0.5, 0.0, 0.0], [0.0, 0.25, 0.0]]);
    assert_eq!(plate.points()[1], [0.5, 0.0, 0.0]);
    assert_eq!(plate.squared_edges(), [0.25, 0.0625, 0.3125]);
    // the basis is p0 - p1, p0 - p2 and their cross product
    let [first, second, third] = plate.inverse().unwrap();
    assert_eq!([first, second], [[-2.0, 0.0, 0.0], [0.0, -4.0, 0.0]]);
    assert_eq!(third, [0.0, 0.0, 8.0]);
    let line = made(&LINE);
    assert_eq!((line.squared_edges(), line.inverse()), ([1.0, 4.0, 1.0], None));
    assert_eq!(line.to_stored().numbers[12..].iter().map(|x| x.to_bits()).max(), Some(0));
}

#[test]
fn a_solve_with_a_plate_is_the_solve_of_its_points() {
    let plate = made(&POINTS);
    let mut poses = 0;
    for step in 0..100 {
        let aside = f64::from(step) / 50.0 - 1.0;
        let bearings = seen(&POINTS, [aside, 0.3 - aside / 2.0, 1.5 + aside.abs()]);
        poses += solved(&plate, &bearings).unwrap().len();
    }
    assert!(poses > 100);
    assert!(solved(&made(&TURNED), &seen(&TURNED, BEFORE_TURNED)).is_ok());
    let axes = [[1.0, 0.0, 0.0], [0.0, 1.0, 0.0], [0.0, 0.0, 1.0]];
    assert_eq!(solved(&made(&axes), &axes), Err(Refusal::NoUsableOrdering));
    assert_eq!(solved(&made(&LINE), &axes), Err(Refusal::NoPose));
    let nowhere = [[f64::NAN, 0.0, 0.0], axes[1], axes[2]];
    assert_eq!(solved(&plate, &nowhere), Err(Refusal::InputNotFinite));
}

/// After each operation all numbers are those of a plate that is made of the new points, also where
/// those before were not.
#[test]
fn operations_leave_the_plate_of_the_new_points() {
    let [p0, p1, p2] = POINTS;
    let moved = [0.1, 0.2, 0.3];
    let times = |k: i32| POINTS.map(|p| p.map(|x| x * 2f64.powi(k)));
    let plate = made(&POINTS);
    for old in [plate, altered(&plate, 10, 7.0), altered(&plate, 12, 7.0), without_inverse(&plate)]
    {
        let is = |points: Points, operation: &dyn Fn(&mut Plate) -> Result<(), Refusal>| {
            let mut plate = old;
            assert_eq!(operation(&mut plate), Ok(()));
            assert_eq!(plate_bits(&plate), plate_bits(&made(&points)));
        };
        is([moved, p1, p2], &|plate| plate.replace(0, &moved));
        is([p0, moved, p2], &|plate| plate.replace(1, &moved));
        is([p0, p1, moved], &|plate| plate.replace(2, &moved));
        is([p1, p0, p2], &|plate| plate.exchange(0, 1));
        is([p2, p1, p0], &|plate| plate.exchange(2, 0));
        is([p0, p2, p1], &|plate| plate.exchange(1, 2));
        is(POINTS, &|plate| plate.exchange(1, 1));
        is(POINTS, &|plate| plate.scale(0));
        for k in [-64, -10, 1, 64] {
            is(times(k), &|plate| plate.scale(k));
        }
    }
}

#[test]
fn a_refused_operation_leaves_the_plate_as_it_was() {
    let least = f64::MIN_POSITIVE; // 2^-1022
    let nan = f64::NAN;
    let refused = |x: f64, refusal, operation: &dyn Fn(&mut Plate) -> Result<(), Refusal>| {
        let mut plate = altered(&made(&POINTS), 0, x);
        let before = plate_bits(&plate);
        assert_eq!(operation(&mut plate), Err(refusal));
        assert_eq!(plate_bits(&plate), before);
    };
    // the point is asked about before the target's number
    refused(0.0, Refusal::InputNotFinite, &|plate| plate.replace(3, &[0.0, nan, 0.0]));
    refused(0.0, Refusal::NoSuchTarget, &|plate| plate.replace(3, &[0.0; 3]));
    refused(0.0, Refusal::NoSuchTarget, &|plate| plate.exchange(0, 3));
    refused(0.0, Refusal::NoSuchTarget, &|plate| plate.exchange(u32::MAX, 0));
    // k is asked about before the coordinates
    refused(nan, Refusal::PowerOutOfRange, &|plate| plate.scale(65));
    refused(0.0, Refusal::PowerOutOfRange, &|plate| plate.scale(i32::MIN));
    refused(nan, Refusal::CoordinateOutOfRange, &|plate| plate.scale(0));
    refused(f64::MAX, Refusal::CoordinateOutOfRange, &|plate| plate.scale(1));
    refused(least, Refusal::CoordinateOutOfRange, &|plate| plate.scale(-1));
    refused(least / 2.0, Refusal::CoordinateOutOfRange, &|plate| plate.scale(0));

    let infinite = [[0.0; 3], [0.0, f64::INFINITY, 0.0], [0.0; 3]];
    assert_eq!(Plate::new(&infinite), Err(Refusal::InputNotFinite));
}

#[test]
fn scaling_keeps_signs_and_reaches_the_ends_of_the_range() {
    let mut plate = made(&[[-0.0, f64::MIN_POSITIVE / 2.0, 1.0], [f64::MAX / 2.0; 3], [0.0; 3]]);
    assert_eq!(plate.scale(1), Ok(()));
    assert_eq!(
        plate.points()[0].map(f64::to_bits),
        [-0.0, f64::MIN_POSITIVE, 2.0].map(f64::to_bits)
    );
    assert_eq!(plate.points()[1], [f64::MAX; 3]);
    assert_eq!(plate.squared_edges()[0], f64::INFINITY);
}

/// Only the given point is asked about: a NaN in another stays, and a solve tells.
#[test]
fn a_nan_in_another_point_does_not_stop_a_replacement() {
    let mut plate = altered(&made(&POINTS), 0, f64::NAN);
    let bearings = seen(&POINTS, [0.0, 0.0, 2.0]);
    assert_eq!(plate.replace(1, &POINTS[1]), Ok(()));
    assert!(plate.points()[0][0].is_nan() && plate.inverse().is_none());
    assert_eq!(plate.solve(&bearings), Err(Refusal::InputNotFinite));
    assert_eq!(plate.replace(0, &POINTS[0]), Ok(()));
    assert_eq!(plate_bits(&plate), plate_bits(&made(&POINTS)));
}

/// The stored squared edges and inverse have no part in a preview.
#[test]
fn a_preview_is_the_solve_of_the_moved_points() {
    let plate = made(&POINTS);
    let wrong = [altered(&plate, 10, 7.0), altered(&plate, 12, f64::NAN), without_inverse(&plate)];
    for old in [&[plate][..], &wrong].concat() {
        for target in 0..3 {
            let mut points = POINTS;
            points[target as usize] = [0.1, -0.2, 0.3];
            for depth in [1.0, 2.0, 3.0] {
                let bearings = seen(&points, [0.1, -0.2, depth]);
                let shown = previewed(&old, target, &points[target as usize], &bearings);
                assert_eq!(solve_bits(shown.poses), solved(&made(&points), &bearings));
                assert_eq!(shown.squared_edges, made(&points).squared_edges());
                assert!(shown.poses.is_ok());
                // at its old place it has others
                let stays = previewed(&old, target, &POINTS[target as usize], &bearings);
                assert_ne!(solve_bits(stays.poses), solve_bits(shown.poses));
                assert_ne!(stays.squared_edges, shown.squared_edges);
            }
        }
    }
    // in another ordering than the given one
    let moved = altered(&made(&TURNED), 6, 7.0);
    assert!(previewed(&moved, 2, &TURNED[2], &seen(&TURNED, BEFORE_TURNED)).poses.is_ok());
}

#[test]
fn a_preview_of_a_refused_replacement_shows_zeros() {
    let (plate, bearings) = (made(&POINTS), seen(&POINTS, [0.1, -0.2, 2.0]));
    let nowhere = [[f64::NAN; 3]; 3];
    let refused = |target, point: [f64; 3], bearings, refusal| {
        let shown = previewed(&plate, target, &point, bearings);
        assert_eq!(preview_bits(&shown), ([0; 3], Err(refusal)));
    };
    refused(2, [0.0, f64::NAN, 0.0], &bearings, Refusal::InputNotFinite);
    refused(3, [0.0; 3], &bearings, Refusal::NoSuchTarget);
    refused(u32::MAX, [0.0; 3], &bearings, Refusal::NoSuchTarget);
    // the point is asked about before the target's number, and both before the bearings
    refused(3, [f64::INFINITY, 0.0, 0.0], &bearings, Refusal::InputNotFinite);
    refused(3, [0.0; 3], &nowhere, Refusal::NoSuchTarget);
}

#[test]
fn a_preview_of_a_refused_solve_shows_the_edges() {
    let bearings = seen(&POINTS, [0.1, -0.2, 2.0]);
    let axes = [[1.0, 0.0, 0.0], [0.0, 1.0, 0.0], [0.0, 0.0, 1.0]];
    let refused = |points: &Points, point, bearings, edges, refusal| {
        let shown = previewed(&made(points), 2, &point, bearings);
        assert_eq!(shown, Preview { squared_edges: edges, poses: Err(refusal) });
    };
    let [p0, p1, _] = LINE;
    refused(&[p0, p1, POINTS[2]], LINE[2], &bearings, [1.0, 4.0, 1.0], Refusal::NoPose);
    refused(&[p0, p1, p1], p0, &[[f64::NAN; 3]; 3], [1.0, 0.0, 1.0], Refusal::InputNotFinite);
    refused(&[axes[0], axes[1], p0], axes[2], &axes, [2.0; 3], Refusal::NoUsableOrdering);
    // a NaN in another point: its edges are NaNs, and the third is the new one
    let shown = previewed(&altered(&made(&LINE), 0, f64::NAN), 2, &[3.0, 0.0, 0.0], &bearings);
    assert_eq!(shown.poses, Err(Refusal::InputNotFinite));
    assert_eq!(shown.squared_edges.map(f64::is_nan), [true, true, false]);
    assert_eq!(shown.squared_edges[2], 4.0);
}

#[test]
fn a_plate_is_brought_back_as_it_was_stored() {
    for plate in [made(&POINTS), made(&LINE)] {
        let StoredPlate { numbers, has_inverse } = plate.to_stored();
        let bytes: Vec<u8> = numbers.iter().flat_map(|x| x.to_be_bytes()).collect();
        let mut read = [0.0; 21];
        for (number, bytes) in read.iter_mut().zip(bytes.chunks_exact(8)) {
            *number = f64::from_be_bytes(bytes.try_into().unwrap());
        }
        let back = Plate::from_stored(&StoredPlate { numbers: read, has_inverse });
        assert_eq!(plate_bits(&back), plate_bits(&plate));
        assert_eq!(back, plate);
    }
}

/// The stored edges serve every ordering; the stored inverse, or its lack, the given one alone.
#[test]
fn a_plate_brought_back_is_taken_as_it_is() {
    let (plate, bearings) = (made(&POINTS), seen(&POINTS, [0.1, -0.2, 2.0]));
    let (turned, to_turned) = (made(&TURNED), seen(&TURNED, BEFORE_TURNED));
    let expected = solve_bits(plate.solve(&bearings));
    let turned_expected = solve_bits(turned.solve(&to_turned));
    assert!(expected.is_ok() && turned_expected.is_ok());
    for at in 9..12 {
        let longer = |plate: &Plate| altered(plate, at, plate.to_stored().numbers[at] * 1.25);
        assert_ne!(solve_bits(longer(&plate).solve(&bearings)), expected);
        assert_ne!(solve_bits(longer(&turned).solve(&to_turned)), turned_expected);
    }
    assert_eq!(altered(&plate, 12, f64::NAN).solve(&bearings), Err(Refusal::NoPose));
    assert_eq!(without_inverse(&plate).solve(&bearings), Err(Refusal::NoPose));
    assert_eq!(solve_bits(altered(&turned, 12, f64::NAN).solve(&to_turned)), turned_expected);
    assert_eq!(solve_bits(without_inverse(&turned).solve(&to_turned)), turned_expected);
    // exchanging a target with itself works all but the points out anew
    let mut mended = altered(&without_inverse(&plate), 11, 7.0);
    assert_ne!(plate_bits(&mended), plate_bits(&plate));
    assert_eq!(mended.exchange(0, 0), Ok(()));
    assert_eq!(plate_bits(&mended), plate_bits(&plate));
}

/// A plate of the targets less the first has the poses of the solve about the first target.
#[test]
fn a_plate_of_differences_serves_grid_jobs() {
    let place = [691_000.3, 5_334_000.7, 512.1];
    let world = POINTS.map(|p| [p[0] + place[0], p[1] + place[1], p[2] + place[2]]);
    let [p0, ..] = world;
    let plate = made(&world.map(|p| [p[0] - p0[0], p[1] - p0[1], p[2] - p0[2]]));
    let bearings = seen(&POINTS, [0.1, -0.2, 2.0]);
    let (poses, about) =
        (plate.solve(&bearings).unwrap(), p3p::solve_about(&world, &bearings).unwrap());
    assert_eq!(poses.len(), about.len());
    for (a, b) in poses.iter().zip(&about) {
        assert_eq!((a.rotation, a.translation), (b.rotation(), b.origin_in_camera()));
    }
}

/// Of a plate times 2^k the rotations are the same and the translations times 2^k.
#[test]
fn a_scaled_plate_has_scaled_translations() {
    let (mut plate, bearings) = (made(&POINTS), seen(&POINTS, [0.1, -0.2, 2.0]));
    let metres = plate.solve(&bearings).unwrap();
    plate.scale(12).unwrap(); // counts of 4,096 to the metre
    let counts = plate.solve(&bearings).unwrap();
    assert_eq!(counts.len(), metres.len());
    for (a, b) in counts.iter().zip(&metres) {
        assert_eq!((a.rotation, a.translation), (b.rotation, b.translation.map(|x| x * 4096.0)));
    }
}
