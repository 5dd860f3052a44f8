//! Rays, matrices near rotations, and edges.

use super::{Input, any_frame, words};
use crate::frames::part;
use crate::random::{Random, Vector, cross, dot, minus, nudge, plus, power, times, unit};

pub(super) fn hand_rays() -> Vec<Input> {
    let mut list = Vec::new();
    let limit = power(-20);
    for k in [-600, -520, -300, -40, 0, 1, 40, 400, 530] {
        for places in [-1, 0, 1] {
            let x = nudge(limit, places);
            list.push(words(&[x * power(k), 0.0, power(k), 0.0, 0.0, 1.0]));
        }
    }
    list.extend(
        [
            [limit + power(-72), 0.0, 1.0, 0.0, 0.0, 1.0],
            [1e161, 0.0, 1e162, 0.0, 0.0, 1.0],
            [0.0, 0.0, -1.0, 0.0, 0.0, 1.0],
            [0.0, 0.0, 0.0, 0.0, 0.0, 1.0],
            [0.0, 0.0, 1.0, 0.0, 0.0, 0.0],
            [f64::NAN, 0.0, 1.0, 0.0, 0.0, 1.0],
            [0.0, 0.0, f64::INFINITY, 0.0, 0.0, 1.0],
            [f64::MAX, f64::MAX, 1.0, f64::MAX, -f64::MAX, 1.0],
        ]
        .iter()
        .map(|x| words(x)),
    );
    list
}

pub(super) fn ray(r: &mut Random) -> Input {
    let bearing =
        if r.chance(3) { times(r.direction(), r.scaled(-6, 6).abs()) } else { r.direction() };
    let depth = r.scaled(-4, 8).abs();
    let mut camera = times(bearing, depth);
    match r.below(4) {
        0 => {}
        1 => camera = times(r.direction(), depth),
        2 => camera = times(camera, -1.0),
        _ => {
            let length = dot(camera, camera).sqrt();
            let aside = unit(cross(camera, r.direction()));
            let off = if r.chance(2) {
                1.0 + power(r.between(-52, -20)) * r.sign()
            } else {
                r.range(0.5, 1.5)
            };
            camera = plus(camera, times(aside, length * power(-20) * off));
        }
    }
    words(&[camera, bearing].concat())
}

pub(super) const IDENTITY: [f64; 9] = [1.0, 0.0, 0.0, 0.0, 1.0, 0.0, 0.0, 0.0, 1.0];

pub(super) fn flat(m: &[Vector; 3]) -> [f64; 9] {
    std::array::from_fn(|index| m[index / 3][index % 3])
}

pub(super) fn hand_near() -> Vec<Input> {
    let mut list = vec![words(&IDENTITY), words(&IDENTITY.map(|x| -x))];
    for places in -8..=8 {
        let mut m = IDENTITY;
        m[4] = 1.0 + 5e-11;
        m[4] = nudge(m[4], places * 2);
        list.push(words(&m));
        let mut m = IDENTITY;
        m[3] = nudge(1e-10, places);
        list.push(words(&m));
    }
    for x in [f64::NAN, f64::INFINITY, 1e200] {
        let mut m = IDENTITY;
        m[5] = x;
        list.push(words(&m));
    }
    list
}

pub(super) fn hand_project() -> Vec<Input> {
    let mut list = vec![words(&IDENTITY), words(&[0.0; 9]), words(&[1.0; 9])];
    for places in [-2, -1, 0, 1, 2] {
        let x = nudge(power(-26), places);
        let mut m = IDENTITY;
        m[0] = x;
        list.push(words(&m));
        let mut m = IDENTITY;
        m[4] = x;
        list.push(words(&m));
    }
    for at in 0..9 {
        let mut m = IDENTITY;
        m[at] = if at % 2 == 0 { f64::NAN } else { f64::INFINITY };
        list.push(words(&m));
    }
    list.push(words(&IDENTITY.map(|x| x * 1e200)));
    list.push(words(&IDENTITY.map(|x| x * 1e-170)));
    list
}

pub(super) fn rotation_like(r: &mut Random) -> Input {
    let mut m = flat(&r.rotation());
    match r.below(6) {
        0 => {}
        1 => {
            let off = power(r.between(-40, -30));
            for x in &mut m {
                *x += off * r.range(-1.0, 1.0);
            }
        }
        2 => {
            let off = r.range(1e-11, 4e-11);
            for x in &mut m {
                *x *= 1.0 + off * r.sign();
            }
        }
        3 => {
            let off = power(r.between(-30, 0));
            for x in &mut m {
                *x += off * r.range(-1.0, 1.0);
            }
        }
        4 => {
            // Second column along the first, or nearly.
            let off = power(r.between(-60, -20));
            for at in 0..3 {
                m[3 + at] = m[at] * 2.0 + off * r.range(-1.0, 1.0);
            }
        }
        _ => {
            let k = r.between(-560, 520);
            m = m.map(|x| x * power(k));
        }
    }
    words(&m)
}

pub(super) fn hand_basis() -> Vec<Input> {
    let mut list = vec![words(&[1.0, 0.0, 0.0, 0.0, 1.0, 0.0]), words(&[0.0; 6])];
    for places in -6..=6 {
        list.push(words(&[1.0, 0.0, 0.0, 0.0, nudge(power(-23), places), 0.0]));
        list.push(words(&[1.0, 0.0, 0.0, 1.0, nudge(power(-23), places), 0.0]));
    }
    for x in [1e80, 1e100, 1e160, 1e-80, 1e-82, 1e-160, f64::NAN, f64::INFINITY] {
        list.push(words(&[x, 0.0, 0.0, 0.0, x, 0.0]));
        list.push(words(&[x, 1.0, 0.0, 0.0, 1.0, x]));
    }
    list
}

pub(super) fn basis(r: &mut Random) -> Input {
    let (a, b) = match r.below(5) {
        0 => (r.cube(), r.cube()),
        1 => {
            let f = any_frame(r);
            (minus(part(&f, 0), part(&f, 1)), minus(part(&f, 0), part(&f, 2)))
        }
        2 => {
            let a = r.cube();
            (a, plus(times(a, r.range(-2.0, 2.0)), times(r.cube(), power(r.between(-27, -20)))))
        }
        3 => {
            let k = r.between(-300, 300);
            (times(r.cube(), power(k)), times(r.cube(), power(k + r.between(-20, 20))))
        }
        _ => (std::array::from_fn(|_| r.whole(-3, 3)), std::array::from_fn(|_| r.whole(-3, 3))),
    };
    words(&[a, b].concat())
}

pub(super) fn edges(r: &mut Random) -> Input {
    let f = any_frame(r);
    let (a, b) = if r.chance(2) {
        let camera: [Vector; 3] =
            std::array::from_fn(|i| times(part(&f, 3 + i), r.range(0.5, 3.0)));
        (minus(camera[0], camera[1]), minus(camera[0], camera[2]))
    } else {
        (r.cube(), r.cube())
    };
    let inverse =
        copy_second::basis(&minus(part(&f, 0), part(&f, 1)), &minus(part(&f, 0), part(&f, 2)));
    let m = match inverse {
        Some(m) if !r.chance(4) => m,
        _ => std::array::from_fn(|_| if r.chance(20) { r.special() } else { r.range(-1.0, 1.0) }),
    };
    words(&[&a[..], &b[..], &m[..]].concat())
}
