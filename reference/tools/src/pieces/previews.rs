//! Inputs of the preview of a moved target (document 02, §5): plates as in plates.rs, and cameras
//! that see them as they are or as they would be.

use super::plates::{
    NOT_FINITE, any_plated, new_point, of, perhaps_tampered, plate_of, plate_words, seen, sorts,
    target, with,
};
use super::{Input, words};
use crate::frames::part;
use crate::plates::Plate;
use crate::random::{Random, Vector, plus, times};

fn previewed(plate: &Plate, target: u64, point: Vector, bearings: &[f64]) -> Input {
    [plate_words(plate), vec![target], words(&point), words(bearings)].concat()
}

/// Every other time the camera sees the plate with the new point; what the target was before is
/// then whatever the new one may be otherwise.
pub(super) fn preview(r: &mut Random) -> Input {
    let f = any_plated(r);
    let (mut plate, fourth) = (plate_of(&f), part(&f, 6));
    let mut bearings = [3, 4, 5].map(|index| part(&f, index));
    let target = target(r);
    let at = target.min(2) as usize;
    let mut point = new_point(&plate, target, fourth, r);
    if r.chance(2) {
        std::mem::swap(&mut plate.points[at], &mut point);
    } else if point == fourth {
        bearings[at] = part(&f, 7);
    }
    if r.chance(16) {
        plate.points[r.index()][r.index()] = r.special();
    }
    if r.chance(16) {
        bearings[r.index()][r.index()] = r.special();
    }
    previewed(&perhaps_tampered(of(plate.points), r), target, point, &bearings.concat())
}

/// One plate before one camera, each time with a target moved.
pub(super) fn hand_preview() -> Vec<Input> {
    [moved(), not_finite(), mended(), edges()].concat()
}

const ANOTHER: Vector = [0.25, 0.75, -0.5];

/// The point halfway between the other two targets.
fn halfway(points: &[Vector; 3], at: usize) -> Vector {
    times(plus(points[(at + 1) % 3], points[(at + 2) % 3]), 0.5)
}

/// Of plates of all sorts each target by another point, by its own, by one that leaves no inverse
/// and by one that is not finite; targets that are none; both refusals at once.
fn moved() -> Vec<Input> {
    let (Plate { points, .. }, bearings) = seen();
    let mut list = Vec::new();
    for plate in sorts(points) {
        let mut push = |target, point| list.push(previewed(&plate, target, point, &bearings));
        for at in 0..3 {
            let target = at as u64;
            push(target, ANOTHER);
            push(target, points[at]);
            push(target, points[(at + 1) % 3]);
            push(target, halfway(&points, at));
            push(target, [1.0, NOT_FINITE[at], 0.5]);
        }
        for target in [3, 4, 255, 1 << 31, u32::MAX as u64] {
            push(target, ANOTHER);
        }
        push(3, [f64::NAN, 0.0, 0.0]);
        push(u32::MAX as u64, [0.0, 0.0, f64::INFINITY]);
    }
    list
}

/// Numbers that are not finite in the new point, in a stored point that stays or goes, and in a
/// bearing, there also beside a refused replacement.
fn not_finite() -> Vec<Input> {
    let (plate, bearings) = seen();
    let mut list = Vec::new();
    for at in 0..9 {
        let (own, x) = (at / 3, NOT_FINITE[at % 3]);
        let mut point = ANOTHER;
        point[own] = x;
        list.push(previewed(&plate, (at % 3) as u64, point, &bearings));
        let holding = of(with(plate.points, at, x));
        for target in [own, (own + 1) % 3] {
            list.push(previewed(&holding, target as u64, plate.points[target], &bearings));
        }
        let mut bearings = bearings;
        bearings[at] = x;
        list.push(previewed(&plate, own as u64, ANOTHER, &bearings));
        list.push(previewed(&plate, 3, ANOTHER, &bearings));
        list.push(previewed(&plate, own as u64, point, &bearings));
    }
    list
}

/// Plates without inverse, by two equal points and by points on a line, that the new point mends,
/// and that it does not: all points in one place, or still on the line.
fn mended() -> Vec<Input> {
    let (Plate { points, .. }, bearings) = seen();
    let mut list = Vec::new();
    for at in 0..3 {
        let mut push = |point, new| {
            let mut singular = points;
            singular[at] = point;
            for plate in [of(singular), Plate { points: singular, ..of(points) }] {
                list.push(previewed(&plate, at as u64, new, &bearings));
            }
        };
        push(points[(at + 1) % 3], points[at]);
        push(halfway(&points, at), points[at]);
        push(halfway(&points, at), points[(at + 2) % 3]);
        let mut together = [points[at]; 3];
        together[at] = ANOTHER;
        list.push(previewed(&of(together), at as u64, points[at], &bearings));
    }
    list
}

/// Minus zeros, edges that overflow or vanish.
fn edges() -> Vec<Input> {
    let (plate, bearings) = seen();
    let zeros = of([[-0.0; 3], [1.0, -0.0, 0.0], [-0.0, 2.0, 0.5]]);
    let mut list = Vec::new();
    for target in 0..3 {
        for point in [[0.0; 3], [-0.0; 3], [5e-324, -0.0, 0.0], [f64::MAX, 0.0, 1.0], [1e200; 3]] {
            list.push(previewed(&plate, target, point, &bearings));
        }
        let own = zeros.points[target as usize];
        list.push(previewed(&zeros, target, own, &bearings));
        list.push(previewed(&zeros, target, own.map(|x| -x), &bearings));
    }
    list
}
