//! Poses to push: rotations, exact or disturbed, with three points and bearings that they fit
//! or miss, onto lists with and without room.

use super::gates::{IDENTITY, flat, hand_near, hand_project, rotation_like};
use super::{Input, words};
use crate::random::{Random, Vector, cross, dot, minus, nudge, plus, power, times, turn, unit};

/// What a push takes.
struct Push {
    world: [Vector; 3],
    bearings: [Vector; 3],
    matrix: [f64; 9],
    translation: Vector,
    updates: u64,
    count: u64,
}

impl Push {
    fn words(&self) -> Input {
        let mut input = words(&[self.world.concat(), self.bearings.concat()].concat());
        input.extend(words(&self.matrix));
        input.extend(words(&self.translation));
        input.extend([self.updates, self.count]);
        input
    }

    /// The bearings of the points under the pose that a projection of the matrix gives, so
    /// that it fits (where there is none, under the pose itself).
    fn aim(&mut self) {
        let raw = columns(&self.matrix);
        let rotation = copy_second::project(&self.matrix).map_or(raw, |m| columns(&m));
        let camera = plus(turn(&raw, self.world[0]), self.translation);
        let kept = minus(camera, turn(&rotation, self.world[0]));
        self.bearings = self.world.map(|point| unit(plus(turn(&rotation, point), kept)));
    }

    fn disturb(&mut self, r: &mut Random, low: i64, high: i64) {
        let off = power(r.between(low, high));
        for x in &mut self.matrix {
            *x += off * r.range(-1.0, 1.0);
        }
    }

    /// One entry moved away from zero: to the last double with which the columns pass for a
    /// rotation's, or to the next.
    fn to_the_limit(&mut self, r: &mut Random) {
        let (at, m) = (r.below(9) as usize, self.matrix);
        let moved = |places: i64| {
            let mut moved = m;
            moved[at] = nudge(moved[at], places);
            moved
        };
        let (mut near, mut far) = (0, 1 << 40);
        while far - near > 1 {
            let middle = (near + far) / 2;
            *(if copy_second::near(&moved(middle)) { &mut near } else { &mut far }) = middle;
        }
        self.matrix = moved(if r.chance(2) { near } else { far });
    }

    /// World and translation times 2^k.
    fn scale(&mut self, k: i64) {
        self.world = self.world.map(|point| times(point, power(k)));
        self.translation = times(self.translation, power(k));
    }

    /// One bearing aside, near the limit of the rays.
    fn bearing_aside(&mut self, r: &mut Random) {
        self.disturb(r, -33, -30);
        let bearing = &mut self.bearings[r.index()];
        let aside = unit(cross(*bearing, r.direction()));
        let off = if r.chance(2) {
            1.0 + power(r.between(-20, -8)) * r.sign()
        } else {
            r.range(0.5, 1.5)
        };
        *bearing = unit(plus(*bearing, times(aside, power(-20) * off)));
    }

    /// One point behind the camera, or a bearing that tells nothing.
    fn bearing_spoilt(&mut self, r: &mut Random) {
        self.disturb(r, -33, -24);
        let bearing = &mut self.bearings[r.index()];
        *bearing = times(*bearing, r.pick(&[-1.0, -1.0, 0.0, f64::MAX]));
    }

    fn not_finite(&mut self, r: &mut Random) {
        if r.chance(3) {
            self.disturb(r, -33, -24);
        }
        self.translation[r.index()] = r.pick(&[f64::NAN, f64::INFINITY, -f64::INFINITY]);
    }

    fn other_matrix(&mut self, r: &mut Random) {
        let matrix = rotation_like(r);
        self.matrix = std::array::from_fn(|at| f64::from_bits(matrix[at]));
        if r.chance(2) {
            self.aim();
        }
    }

    /// A column or all turned round, which the columns' test does not see.
    fn turn_round(&mut self, r: &mut Random) {
        let at = r.below(4) as usize;
        for (index, x) in self.matrix.iter_mut().enumerate() {
            *x *= if at == 3 || index / 3 == at { -1.0 } else { 1.0 };
        }
        if r.chance(2) {
            self.disturb(r, -33, -24);
            self.aim();
        }
    }

    /// Whole numbers, with zeros of both signs: the axes in some order, turned round or not,
    /// and perhaps one entry disturbed.
    fn whole(&mut self, r: &mut Random) {
        let first = r.index();
        let second = (first + 1 + r.below(2) as usize) % 3;
        let axis = |r: &mut Random, at: usize| -> Vector {
            std::array::from_fn(|index| if index == at { r.sign() } else { 0.0 * r.sign() })
        };
        let (a, b) = (axis(r, first), axis(r, second));
        let rotation = [a, b, cross(a, b)];
        self.matrix = flat(&rotation);
        self.world = std::array::from_fn(|_| std::array::from_fn(|_| r.whole(0, 2) * r.sign()));
        self.translation = std::array::from_fn(|_| r.whole(0, 3) * r.sign());
        self.bearings = self.world.map(|point| {
            let camera = plus(turn(&rotation, point), self.translation);
            if dot(camera, camera) == 0.0 { camera } else { unit(camera) }
        });
        if r.chance(2) {
            self.matrix[r.below(9) as usize] += power(r.between(-33, -22)) * r.sign();
        }
    }

    /// Any of the thirty doubles.
    fn entry(&mut self, at: usize) -> &mut f64 {
        match at {
            0..9 => &mut self.world[at / 3][at % 3],
            9..18 => &mut self.bearings[at / 3 - 3][at % 3],
            18..27 => &mut self.matrix[at - 18],
            _ => &mut self.translation[at - 27],
        }
    }
}

fn columns(m: &[f64; 9]) -> [Vector; 3] {
    std::array::from_fn(|index| [m[3 * index], m[3 * index + 1], m[3 * index + 2]])
}

/// The matrices at the limits of the gate and of the projection, each with bearings that its
/// projection fits; and a push of each outcome onto each count.
pub(super) fn hand_push() -> Vec<Input> {
    let plain = || Push {
        world: [[1.0, 2.0, 3.0], [-2.0, 1.0, 1.0], [0.5, -1.0, 2.0]],
        bearings: [[0.0; 3]; 3],
        matrix: IDENTITY,
        translation: [0.25, -0.5, 4.0],
        updates: 0,
        count: 0,
    };
    let mut list = Vec::new();
    for (index, matrix) in hand_near().into_iter().chain(hand_project()).enumerate() {
        let mut push = plain();
        push.matrix = std::array::from_fn(|at| f64::from_bits(matrix[at]));
        (push.updates, push.count) = (index as u64 % 6, index as u64 % 4);
        push.aim();
        list.push(push.words());
    }
    for count in 0..=4 {
        for off in [0.0, power(-30), power(-10)] {
            let mut push = plain();
            push.aim();
            push.matrix[3] = off;
            (push.updates, push.count) = (5 - count, count);
            list.push(push.words());
        }
    }
    list
}

pub(super) fn push(r: &mut Random) -> Input {
    let mut push = seen(r);
    match r.below(12) {
        0 => push.disturb(r, -54, -36),
        1 => push.disturb(r, -54, -3),
        2 => push.disturb(r, -32, -22),
        3 => push.bearing_aside(r),
        4 => push.bearing_spoilt(r),
        5 => push.not_finite(r),
        6 => push.other_matrix(r),
        7 => push.to_the_limit(r),
        8 => push.turn_round(r),
        9 => {
            push.disturb(r, -36, -22);
            push.scale(r.between(-1074, 1020));
        }
        10 => push.whole(r),
        _ => {
            push.disturb(r, -50, -22);
            *push.entry(r.below(30) as usize) = r.special();
        }
    }
    push.words()
}

/// Three points before a camera and its pose, exact but for rounding.
fn seen(r: &mut Random) -> Push {
    let rotation = r.rotation();
    let world: [Vector; 3] = std::array::from_fn(|_| r.cube());
    let translation = times(r.direction(), r.range(0.0, 4.0));
    Push {
        world,
        bearings: world.map(|point| unit(plus(turn(&rotation, point), translation))),
        matrix: flat(&rotation),
        translation,
        updates: r.pick(&[0, 0, 1, 2, 3, 4, 5, u32::MAX as u64]),
        count: r.pick(&[0, 0, 1, 2, 3, 4]),
    }
}
