//! The tests of the operations on plates and of the solve with one (document 02, §4), and of the
//! preview of a moved target (§5), that an input reaches.

use crate::plates::{self, Plate};
use crate::table::{self, doubles};

type Outcome = (&'static str, bool);

const POINTS_FINITE: &str = "plate make: points finite";
const POINT_FINITE: &str = "plate replace: point finite";
const TARGET: &str = "plate replace: target at most 2";
const FIRST: &str = "plate exchange: first target at most 2";
const SECOND: &str = "plate exchange: second target at most 2";
const SAME: &str = "plate exchange: one target";
const K_LOW: &str = "plate scale: k at least -64";
const K_HIGH: &str = "plate scale: k at most 64";
const ZERO: &str = "plate scale: coordinate zero";
const FINITE: &str = "plate scale: coordinate finite";
const BELOW: &str = "plate scale: scaled below 2^1024";
const ABOVE: &str = "plate scale: scaled at least 2^-1022";
const OLD: &str = "plate operation: old numbers those of the points";
const EDGES: &str = "plate solve: stored edges those of the points";
const INVERSE: &str = "plate solve: stored inverse that of the points";
const PREVIEW_FINITE: &str = "plate preview: point finite";
const PREVIEW_TARGET: &str = "plate preview: target at most 2";
const PREVIEW_OLD: &str = "plate preview: old numbers those of the points";
const PREVIEW_SAME: &str = "plate preview: point that of the target";
const GAINED: &str = "plate preview: no inverse before, one then";
const KEPT: &str = "plate preview: an inverse before and then";
const OVERFLOW: &str = "plate preview: points finite and an edge not";
const REFUSED: [&str; 3] = [
    "plate preview: solve refuses with 1",
    "plate preview: solve refuses with 2",
    "plate preview: solve refuses with 3",
];
const ZEROS: &str = "plate preview: solve refuses, edges plus zeros";
const LIFTED: &str = "plate preview: poses, one of them lifted";

/// Whether there are poses in an ordering that a solve took by stored edges which are not those of
/// the points.
pub const ORDERED: [&str; 5] = [
    "plate solve: poses in [0, 2, 1] by other edges",
    "plate solve: poses in [1, 0, 2] by other edges",
    "plate solve: poses in [1, 2, 0] by other edges",
    "plate solve: poses in [2, 0, 1] by other edges",
    "plate solve: poses in [2, 1, 0] by other edges",
];

/// The Rust's labels of the same orderings.
const TAKEN: [&str; 5] = [
    "retry: [0, 2, 1] taken",
    "retry: [1, 0, 2] taken",
    "retry: [1, 2, 0] taken",
    "retry: [2, 0, 1] taken",
    "retry: [2, 1, 0] taken",
];

pub const TESTS: [&str; 27] = [
    POINTS_FINITE,
    POINT_FINITE,
    TARGET,
    FIRST,
    SECOND,
    SAME,
    K_LOW,
    K_HIGH,
    ZERO,
    FINITE,
    BELOW,
    ABOVE,
    OLD,
    EDGES,
    INVERSE,
    PREVIEW_FINITE,
    PREVIEW_TARGET,
    PREVIEW_OLD,
    PREVIEW_SAME,
    GAINED,
    KEPT,
    OVERFLOW,
    REFUSED[0],
    REFUSED[1],
    REFUSED[2],
    ZEROS,
    LIFTED,
];

/// The outcomes that an input reaches; `solved` are those of the Rust in its solve.
pub fn reached(name: &str, input: &[u64], solved: &[Outcome]) -> Vec<Outcome> {
    if name == "plate_make" {
        let finite = doubles::<9>(input).iter().all(|x| x.is_finite());
        return vec![(POINTS_FINITE, finite)];
    }
    if !name.starts_with("plate_") {
        return vec![];
    }
    let plate = table::plate(input);
    let own = Plate::of(plate.points, copy_second::basis);
    let mut outcomes = match name {
        "plate_replace" => asked(&[
            (POINT_FINITE, plates::is_finite(&doubles(&input[23..]))),
            (TARGET, input[22] <= 2),
        ]),
        "plate_exchange" => asked(&[(FIRST, input[22] <= 2), (SECOND, input[23] <= 2)]),
        "plate_scale" => scaled(&plate, input[22] as i64),
        "plate_preview" => return previewed(&plate, &own, input),
        _ => {
            let poses = table::second::answer(name, input)[1];
            return of_solve(&plate, &own, solved, poses);
        }
    };
    if outcomes.iter().all(|(label, outcome)| *outcome || *label == ZERO) {
        outcomes.push((OLD, same(&plate, &own)));
        if name == "plate_exchange" {
            outcomes.push((SAME, input[22] == input[23]));
        }
    }
    outcomes
}

/// Tests up to the first that fails.
fn asked(tests: &[Outcome]) -> Vec<Outcome> {
    let fails = tests.iter().position(|(_, outcome)| !outcome);
    tests[..fails.map_or(tests.len(), |at| at + 1)].to_vec()
}

fn scaled(plate: &Plate, k: i64) -> Vec<Outcome> {
    let mut tests = asked(&[(K_LOW, k >= -64), (K_HIGH, k <= 64)]);
    if tests.iter().any(|(_, outcome)| !outcome) {
        return tests;
    }
    for &x in plate.points.as_flattened() {
        tests.push((ZERO, x == 0.0));
        if x != 0.0 {
            let leading = || plates::leading(x) + k;
            let finite = x.is_finite();
            tests.extend(asked(&[
                (FINITE, finite),
                (BELOW, finite && leading() < 1024),
                (ABOVE, finite && leading() >= -1022),
            ]));
        }
        if !plates::scales(x, k) {
            break;
        }
    }
    tests.sort();
    tests.dedup();
    tests
}

fn of_solve(plate: &Plate, own: &Plate, solved: &[Outcome], poses: u64) -> Vec<Outcome> {
    let edges = plate.edges.map(f64::to_bits) == own.edges.map(f64::to_bits);
    let inverse = plate.stored_inverse().map(|words| words.map(f64::to_bits));
    let own_inverse = own.stored_inverse().map(|words| words.map(f64::to_bits));
    let mut outcomes = vec![(EDGES, edges), (INVERSE, inverse == own_inverse)];
    if !edges {
        let taken = TAKEN.iter().position(|label| solved.contains(&(*label, true)));
        outcomes.extend(taken.map(|at| (ORDERED[at], poses > 0)));
    }
    outcomes
}

fn previewed(plate: &Plate, own: &Plate, input: &[u64]) -> Vec<Outcome> {
    let (target, point) = (input[22], doubles(&input[23..]));
    let (number, copy) = plates::replace(plate, target, point, copy_second::basis);
    let mut outcomes =
        asked(&[(PREVIEW_FINITE, plates::is_finite(&point)), (PREVIEW_TARGET, target <= 2)]);
    if number != 0 {
        return outcomes;
    }
    let old = plate.points[target as usize];
    outcomes.extend([
        (PREVIEW_OLD, same(plate, own)),
        (PREVIEW_SAME, old.map(f64::to_bits) == point.map(f64::to_bits)),
        (if own.has_inverse { KEPT } else { GAINED }, copy.has_inverse),
    ]);
    if copy.points.iter().all(plates::is_finite) {
        outcomes.push((OVERFLOW, !plates::is_finite(&copy.edges)));
    }
    let answer = table::second::answer("plate_preview", input);
    outcomes.extend((1..).zip(REFUSED).map(|(number, label)| (label, answer[0] == number)));
    outcomes.push(if answer[0] != 0 {
        (ZEROS, copy.edges.map(f64::to_bits) == [0; 3])
    } else {
        (LIFTED, answer[5..].chunks(14).any(|slot| slot[1] == 1))
    });
    outcomes
}

fn same(plate: &Plate, own: &Plate) -> bool {
    let bits = |plate: &Plate| (plate.doubles().map(table::word), plate.has_inverse);
    bits(plate) == bits(own)
}
