//! Inputs of the operations on plates and of the solve with one (document 02, §4). Of the random
//! plates about half are worked out from their points, and half are made otherwise.

use super::{Input, any_frame, words};
use crate::frames::{self, Frame, part};
use crate::plates::Plate;
use crate::random::{Random, Vector, nudge, plus, power, times};

pub(super) fn of(points: [Vector; 3]) -> Plate {
    Plate::of(points, copy_second::basis)
}

pub fn plate_words(plate: &Plate) -> Input {
    let mut list = words(&plate.doubles());
    list.push(plate.has_inverse as u64);
    list
}

/// A frame of any kind, those whose solve goes on to another ordering more often than others.
pub fn any_plated(r: &mut Random) -> Frame {
    if r.chance(3) { frames::retried(r) } else { any_frame(r) }
}

pub(super) fn plate_of(f: &Frame) -> Plate {
    of([0, 1, 2].map(|index| part(f, index)))
}

/// A plate made otherwise: the points' own numbers, altered in a way or two.
pub fn tampered(plate: &Plate, r: &mut Random) -> Plate {
    let mut plate = *plate;
    for _ in 0..r.between(1, 2) {
        tamper(&mut plate, r);
    }
    plate
}

fn tamper(plate: &mut Plate, r: &mut Random) {
    let (edge, entry) = (r.index(), r.below(9) as usize);
    match r.below(16) {
        0 => plate.edges[edge] = 0.0 * r.sign(),
        1 => plate.edges[edge] = r.special(),
        2 => plate.edges[edge] = plate.edges[r.index()],
        3 if plate.edges[edge].is_finite() && plate.edges[edge] != 0.0 => {
            plate.edges[edge] = nudge(plate.edges[edge], r.places(50));
        }
        4 => plate.edges[edge] *= power(r.between(-20, 20)) * r.sign(),
        5 => plate.edges.swap(edge, r.index()),
        6 => plate.edges = std::array::from_fn(|_| r.range(0.1, 4.0)),
        7 => plate.has_inverse = false,
        8 => (plate.has_inverse, plate.inverse) = (false, [0.0; 9]),
        9 => plate.has_inverse = true,
        10 => plate.inverse[entry] = r.special(),
        11 => plate.inverse[entry] *= r.range(-2.0, 2.0),
        12 => plate.inverse = std::array::from_fn(|_| r.bits()),
        // What belongs to the points in another order, or to other points.
        13 => plate.edges = of(reordered(plate.points, r)).edges,
        14 => {
            let other = of(reordered(plate.points, r));
            (plate.has_inverse, plate.inverse) = (other.has_inverse, other.inverse);
        }
        _ => {
            let other = plate_of(&any_frame(r));
            (plate.edges, plate.has_inverse, plate.inverse) =
                (other.edges, other.has_inverse, other.inverse);
        }
    }
}

fn reordered(points: [Vector; 3], r: &mut Random) -> [Vector; 3] {
    r.pick(&[[0, 2, 1], [1, 0, 2], [1, 2, 0], [2, 0, 1], [2, 1, 0]]).map(|index| points[index])
}

pub(super) fn perhaps_tampered(plate: Plate, r: &mut Random) -> Plate {
    if r.chance(2) { tampered(&plate, r) } else { plate }
}

/// A plate whose points may be of any bits, as an operation need not ask.
fn any_plate(r: &mut Random) -> Plate {
    let mut plate = plate_of(&any_plated(r));
    if r.chance(8) {
        plate.points[r.index()][r.index()] = r.special();
    }
    perhaps_tampered(plate, r)
}

pub(super) fn make(r: &mut Random) -> Input {
    let mut points: Input = words(&any_plated(r)[..9]);
    if r.chance(6) {
        points[r.below(9) as usize] = r.special().to_bits();
    }
    points
}

/// Mostly 0, 1 or 2; else the first numbers beyond and huge ones.
pub fn target(r: &mut Random) -> u64 {
    if r.chance(4) { r.pick(&[3, 4, 255, 256, 1 << 31, u32::MAX as u64]) } else { r.below(3) }
}

/// A point for a target: the frame's fourth, the old one or one near it, or of any numbers.
pub fn new_point(plate: &Plate, target: u64, fourth: Vector, r: &mut Random) -> Vector {
    let old = plate.points[target.min(2) as usize];
    match r.below(8) {
        0 => old,
        1 => plate.points[r.index()],
        2 => old.map(|x| if x.is_finite() && x != 0.0 { nudge(x, r.places(40)) } else { x }),
        3 => std::array::from_fn(|_| r.special()),
        4 => {
            let mut point = fourth;
            point[r.index()] = r.pick(&[f64::NAN, f64::INFINITY, f64::NEG_INFINITY]);
            point
        }
        _ => fourth,
    }
}

pub(super) fn replace(r: &mut Random) -> Input {
    let plate = any_plate(r);
    let target = target(r);
    let fourth = part(&any_frame(r), 6);
    let point = new_point(&plate, target, fourth, r);
    [plate_words(&plate), vec![target], words(&point)].concat()
}

pub(super) fn exchange(r: &mut Random) -> Input {
    let plate = any_plate(r);
    [plate_words(&plate), vec![target(r), target(r)]].concat()
}

/// From -64 to 64, its ends and zero often, and beyond them.
pub fn exponent(r: &mut Random) -> i64 {
    match r.below(8) {
        0 => r.pick(&[-65, 65, -100, 100, i32::MIN as i64, i32::MAX as i64]),
        1 => r.pick(&[-64, -63, 63, 64]),
        2 => r.pick(&[-1, 0, 0, 1]),
        3 => r.between(50, 54),
        _ => r.between(-64, 64),
    }
}

/// A coordinate that times 2^k comes to a limit of number 13, or a little to one side of it.
pub fn at_limit(k: i64, r: &mut Random) -> f64 {
    let near = |limit: f64, r: &mut Random| {
        let places = r.pick(&[-2, -1, -1, 0, 0, 0, 1]);
        f64::from_bits((limit.to_bits() as i64 + places).max(0) as u64)
    };
    let x = if r.chance(2) {
        near(power((-1022 - k).max(-1074)), r)
    } else if k > 0 {
        near(power(1024 - k), r)
    } else {
        f64::MAX
    };
    x * r.sign()
}

pub(super) fn scale(r: &mut Random) -> Input {
    let mut plate = plate_of(&any_plated(r));
    let k = exponent(r);
    if r.chance(2) {
        for _ in 0..r.between(1, 3) {
            let x = if r.chance(6) { r.special() } else { at_limit(k.clamp(-64, 64), r) };
            plate.points[r.index()][r.index()] = x;
        }
        plate = of(plate.points);
    }
    let plate = perhaps_tampered(plate, r);
    [plate_words(&plate), vec![k as u64]].concat()
}

/// Of the plates made otherwise some are whole plates moved aside, with the numbers from before.
pub(super) fn solve(r: &mut Random) -> Input {
    let f = any_plated(r);
    let mut plate = plate_of(&f);
    if r.chance(6) {
        let aside = times(r.cube(), power(r.between(-30, 4)));
        plate.points = plate.points.map(|point| plus(point, aside));
    } else {
        plate = perhaps_tampered(plate, r);
    }
    [plate_words(&plate), words(&f[9..18])].concat()
}

/// Three targets of a plate that a camera sees straight on, by whole numbers.
const POINTS: [Vector; 3] = [[-4.0, 1.0, -2.0], [4.0, -3.0, 3.0], [-2.0, 4.0, 3.0]];

pub(super) fn with(points: [Vector; 3], at: usize, x: f64) -> [Vector; 3] {
    let mut points = points;
    points[at / 3][at % 3] = x;
    points
}

pub(super) const NOT_FINITE: [f64; 3] = [f64::INFINITY, f64::NEG_INFINITY, f64::NAN];

/// A plate whose stored numbers are none of its points'.
fn otherwise(points: [Vector; 3]) -> Plate {
    Plate {
        points,
        edges: [f64::NAN, -1.0, f64::INFINITY],
        has_inverse: true,
        inverse: std::array::from_fn(|at| if at == 4 { f64::NAN } else { at as f64 - 3.5 }),
    }
}

/// Lies about the inverse: none where there is one, and numbers without the flag.
fn lacking(points: [Vector; 3]) -> Plate {
    Plate { has_inverse: false, ..of(points) }
}

/// Plates of all sorts that hold the same points.
pub(super) fn sorts(points: [Vector; 3]) -> [Plate; 3] {
    [of(points), otherwise(points), lacking(points)]
}

/// Each coordinate not finite in turn, zeros of both signs, subnormal numbers, points on a line or
/// in one place, edges that overflow or vanish.
pub(super) fn hand_make() -> Vec<Input> {
    let mut list = vec![
        POINTS,
        [[0.0; 3]; 3],
        [[-0.0; 3]; 3],
        [[0.0; 3], [-0.0; 3], [0.0, -0.0, 0.0]],
        [[0.0; 3], [1.0, 0.0, 0.0], [0.0, 2.0, 0.0]],
        [[-0.0; 3], [1.0, -0.0, 0.0], [-0.0, 2.0, 0.0]],
        [[5e-324; 3], [-5e-324, 0.0, 1e-310], [0.0, 2e-308, 0.0]],
        [[1.0, 2.0, 3.0]; 3],
        [[0.0; 3], [1.0, 2.0, 3.0], [2.0, 4.0, 6.0]],
        [[0.0; 3], [1.0, 2.0, 3.0], [2.0, 4.0, nudge(6.0, 1)]],
        [[0.0; 3], [1.0, 2.0, 3.0], [2.0, 4.0, nudge(6.0, 1 << 28)]],
        [POINTS[0], POINTS[0], POINTS[2]],
        [POINTS[0], POINTS[1], POINTS[0]],
        [POINTS[0], POINTS[1], POINTS[1]],
        [[f64::MAX; 3], [-f64::MAX; 3], [0.0; 3]],
        [[f64::MAX, 0.0, 0.0], [0.0, f64::MAX, 0.0], [0.0, 0.0, f64::MAX]],
    ];
    for k in [-600, -512, -400, -270, -256, -130, 126, 127, 128, 255, 256, 511, 512, 1000] {
        list.push(POINTS.map(|point| point.map(|x| x * power(k))));
    }
    for at in 0..9 {
        list.extend(NOT_FINITE.map(|x| with(POINTS, at, x)));
        list.push(with(POINTS, at, -0.0));
        list.push(with(POINTS, at, f64::MAX));
    }
    list.iter().map(|points| words(&points.concat())).collect()
}

fn replaced(plate: &Plate, target: u64, point: Vector) -> Input {
    [plate_words(plate), vec![target], words(&point)].concat()
}

/// Each target by another point, by its own and by one that is not finite; targets that are none;
/// both refusals at once; all on plates made otherwise too, and on one that holds a NaN.
pub(super) fn hand_replace() -> Vec<Input> {
    let fourth = [1.0, -2.0, 0.5];
    let mut list = Vec::new();
    for plate in sorts(POINTS) {
        for target in 0..3 {
            let at = target as usize;
            list.push(replaced(&plate, target, fourth));
            list.push(replaced(&plate, target, POINTS[at]));
            list.push(replaced(&plate, target, POINTS[(at + 1) % 3]));
            list.push(replaced(&plate, target, [1.0, NOT_FINITE[at], 0.5]));
        }
        for target in [3, 4, 255, 1 << 31, u32::MAX as u64] {
            list.push(replaced(&plate, target, fourth));
        }
        list.push(replaced(&plate, 3, [f64::NAN, 0.0, 0.0]));
        list.push(replaced(&plate, u32::MAX as u64, [0.0, 0.0, f64::INFINITY]));
    }
    for entry in 0..3 {
        for x in NOT_FINITE {
            let mut point = fourth;
            point[entry] = x;
            list.push(replaced(&of(POINTS), entry as u64, point));
        }
    }
    let nan = of(with(POINTS, 4, f64::NAN));
    list.extend((0..3).map(|target| replaced(&nan, target, fourth)));
    for point in [[0.0; 3], [-0.0; 3], [5e-324, -0.0, 0.0], [f64::MAX, 0.0, 1.0], [1e200; 3]] {
        list.extend((0..3).map(|target| replaced(&of(POINTS), target, point)));
    }
    list
}

/// Every two targets and numbers that are none, on plates of all sorts, and on one that holds a
/// number that is not finite.
pub(super) fn hand_exchange() -> Vec<Input> {
    let exchanged =
        |plate: &Plate, first: u64, second: u64| [plate_words(plate), vec![first, second]].concat();
    let mut list = Vec::new();
    for plate in sorts(POINTS) {
        for first in 0..4 {
            list.extend((0..4).map(|second| exchanged(&plate, first, second)));
        }
        for huge in [4, 255, 1 << 31, u32::MAX as u64] {
            list.extend([exchanged(&plate, huge, 1), exchanged(&plate, 2, huge)]);
        }
    }
    for points in [with(POINTS, 0, f64::NAN), with(POINTS, 5, f64::INFINITY), [[-0.0; 3]; 3]] {
        list.extend([(0, 1), (2, 0), (1, 1)].map(|(i, j)| exchanged(&of(points), i, j)));
    }
    list
}

/// Both sides of each limit of number 13 at several k, signed zeros, subnormal numbers, numbers
/// that are not finite; k beyond its range, with and without such coordinates.
pub(super) fn hand_scale() -> Vec<Input> {
    let scaled = |plate: &Plate, k: i64| [plate_words(plate), vec![k as u64]].concat();
    let mut list = Vec::new();
    for k in [-65, -64, -63, -1, 0, 1, 63, 64, 65, i32::MIN as i64, i32::MAX as i64] {
        list.extend(sorts(POINTS).map(|plate| scaled(&plate, k)));
        list.push(scaled(&of([[0.0; 3], [-0.0; 3], [1.0, -0.0, 0.0]]), k));
    }
    for k in [-64, -1, 0, 1, 52, 53, 64] {
        let low = power((-1022 - k).max(-1074));
        let mut edge = vec![low, nudge(low, 1), f64::from_bits(1), f64::MAX];
        if low > f64::from_bits(1) {
            edge.push(nudge(low, -1));
        }
        if k > 0 {
            let high = power(1024 - k);
            edge.extend([high, nudge(high, -1), nudge(high, 1)]);
        }
        for (at, &x) in edge.iter().enumerate() {
            list.push(scaled(&of(with(POINTS, at % 9, x)), k));
            list.push(scaled(&of(with([[0.0; 3]; 3], (at + 4) % 9, -x)), k));
        }
    }
    for k in [0, 3, 64, 65] {
        list.extend(NOT_FINITE.map(|x| scaled(&of(with(POINTS, 8, x)), k)));
    }
    for at in 0..9 {
        list.push(scaled(&of(with(POINTS, at, f64::from_bits(1))), 0));
        list.push(scaled(&of(with(POINTS, at, f64::MAX)), 1));
    }
    list
}

/// A plate of whole numbers before a camera that does not turn, and its bearings.
pub(super) fn seen() -> (Plate, [f64; 9]) {
    let points = [[0.0, 0.0, 0.0], [1.0, 0.0, 0.0], [0.0, 2.0, 0.5]];
    let bearings = points.map(|p| crate::random::unit([p[0] + 0.25, p[1] - 0.5, p[2] + 3.0]));
    (of(points), std::array::from_fn(|at| bearings[at / 3][at % 3]))
}

/// One plate before one camera, made in many ways; numbers that are not finite in its points, in
/// what it stores and in the bearings.
pub(super) fn hand_solve() -> Vec<Input> {
    let solved = |plate: &Plate, bearings: &[f64]| [plate_words(plate), words(bearings)].concat();
    let (plate, bearings) = seen();
    let mut others = vec![
        plate,
        otherwise(plate.points),
        lacking(plate.points),
        Plate { has_inverse: false, inverse: [0.0; 9], ..plate },
        Plate { inverse: [0.0; 9], ..plate },
        Plate { inverse: plate.inverse.map(|x| -x), ..plate },
        Plate { edges: [0.0; 3], ..plate },
        Plate { edges: [1.0; 3], ..plate },
        Plate { edges: plate.edges.map(|x| -x), ..plate },
        Plate { edges: plate.edges.map(|x| x * 4.0), ..plate },
        Plate { edges: plate.edges.map(|x| nudge(x, 1)), ..plate },
    ];
    for at in 0..3 {
        for x in [0.0, -0.0, f64::NAN, f64::INFINITY, f64::NEG_INFINITY, f64::MAX, 5e-324] {
            let mut other = plate;
            other.edges[at] = x;
            others.push(other);
        }
    }
    for at in 0..9 {
        for x in [f64::NAN, f64::INFINITY, 0.0] {
            let mut other = plate;
            other.inverse[at] = x;
            others.push(other);
        }
        others.push(of(with(plate.points, at, NOT_FINITE[at % 3])));
        others.push(Plate { points: with(plate.points, at, NOT_FINITE[at % 3]), ..plate });
    }
    let mut list: Vec<Input> = others.iter().map(|plate| solved(plate, &bearings)).collect();
    for at in 0..9 {
        let mut bearings = bearings;
        bearings[at] = NOT_FINITE[at % 3];
        list.push(solved(&plate, &bearings));
        list.push(solved(&otherwise(plate.points), &bearings));
    }
    list
}
