//! The port by its C interface (crate p3p, include/p3p.h), asked as the copies are:
//! a function's name and words in, words out.

use crate::table::word;

unsafe extern "C" {
    fn p3p_sqrt(x: f64) -> f64;
    fn p3p_cbrt(x: f64) -> f64;
    fn p3p_fma(a: f64, b: f64, c: f64) -> f64;
    fn p3p_copysign(x: f64, sign: f64) -> f64;
    fn p3p_max(a: f64, b: f64) -> f64;
    fn p3p_total_cmp(a: f64, b: f64) -> i32;
    fn p3p_fast_cbrt(x: f64) -> f64;
    fn p3p_quadratic(b: f64, c: f64, first: *mut f64, second: *mut f64) -> u32;
    fn p3p_quadratic_kind(b: f64, c: f64, first: *mut f64, second: *mut f64, kind: *mut u32)
    -> u32;
    fn p3p_cubic(b: f64, c: f64, d: f64, root: *mut f64) -> u32;
    fn p3p_solve(
        input: *const f64,
        poses: *mut f64,
        updates: *mut u32,
        lifted: *mut u32,
        count: *mut u32,
    ) -> u32;
    fn p3p_choose(
        poses: *const f64,
        count: u32,
        target: *const f64,
        bearing: *const f64,
        best: *mut u32,
        score: *mut f64,
    ) -> u32;
    fn p3p_solve_about(
        input: *const f64,
        poses: *mut f64,
        updates: *mut u32,
        lifted: *mut u32,
        count: *mut u32,
        origin: *mut f64,
    ) -> u32;
    fn p3p_choose_about(
        poses: *const f64,
        count: u32,
        origin: *const f64,
        target: *const f64,
        bearing: *const f64,
        best: *mut u32,
        score: *mut f64,
    ) -> u32;
    fn p3p_plate_make(points: *const f64, plate: *mut f64, has_inverse: *mut u32) -> u32;
    fn p3p_plate_replace(
        plate: *mut f64,
        has_inverse: *mut u32,
        target: u32,
        point: *const f64,
    ) -> u32;
    fn p3p_plate_exchange(plate: *mut f64, has_inverse: *mut u32, first: u32, second: u32) -> u32;
    fn p3p_plate_scale(plate: *mut f64, has_inverse: *mut u32, k: i32) -> u32;
    fn p3p_plate_solve(
        plate: *const f64,
        has_inverse: u32,
        bearings: *const f64,
        poses: *mut f64,
        updates: *mut u32,
        lifted: *mut u32,
        count: *mut u32,
    ) -> u32;
    fn p3p_plate_preview(
        plate: *const f64,
        has_inverse: u32,
        target: u32,
        point: *const f64,
        bearings: *const f64,
        poses: *mut f64,
        updates: *mut u32,
        lifted: *mut u32,
        count: *mut u32,
        edges: *mut f64,
    ) -> u32;
}

/// What lent memory holds before a call: a refusal must leave it.
const LENT: f64 = -1.234_567_890_123e-77;
const LENT_WHOLE: u32 = 0xdead_beef;

/// A word that no answer has, for a refusal that wrote.
const WROTE: u64 = 0xbad0_bad0_bad0_bad0;

/// The functions that the port offers.
pub const OFFERED: &[&str] = &[
    "frame",
    "quadratic",
    "cubic",
    "fast_cbrt",
    "choice",
    "sqrt",
    "cbrt",
    "fma",
    "copysign",
    "max",
    "totalorder",
    "about",
    "choice_about",
    "plate_make",
    "plate_replace",
    "plate_exchange",
    "plate_scale",
    "plate_solve",
    "plate_preview",
];

pub fn answer(name: &str, input: &[u64]) -> Vec<u64> {
    let d = |index: usize| f64::from_bits(input[index]);
    match name {
        "frame" => frame(&std::array::from_fn(d)),
        "quadratic" => quadratic(d(0), d(1)),
        "cubic" => {
            let mut root = LENT;
            let number = unsafe { p3p_cubic(d(0), d(1), d(2), &mut root) };
            result(number, &[root])
        }
        "fast_cbrt" => vec![word(unsafe { p3p_fast_cbrt(d(0)) })],
        "choice" => {
            let poses: [f64; 48] = std::array::from_fn(|index| d(1 + index));
            let [target, bearing] = [49, 52].map(|at| std::array::from_fn(|index| d(at + index)));
            choose(&poses, whole(input[0]), &target, &bearing).to_vec()
        }
        "about" => about(&std::array::from_fn(d)),
        "choice_about" => {
            let poses: [f64; 48] = std::array::from_fn(|index| d(1 + index));
            let [origin, target, bearing] =
                [49, 52, 55].map(|at| std::array::from_fn(|index| d(at + index)));
            choose_about(&poses, whole(input[0]), &origin, &target, &bearing).to_vec()
        }
        "plate_make" | "plate_replace" | "plate_exchange" | "plate_scale" => operate(name, input),
        "plate_solve" => plate_solve(input),
        "plate_preview" => plate_preview(input),
        "sqrt" => vec![word(unsafe { p3p_sqrt(d(0)) })],
        "cbrt" => vec![word(unsafe { p3p_cbrt(d(0)) })],
        "fma" => vec![word(unsafe { p3p_fma(d(0), d(1), d(2)) })],
        "copysign" => vec![word(unsafe { p3p_copysign(d(0), d(1)) })],
        "max" => vec![word(unsafe { p3p_max(d(0), d(1)) })],
        "totalorder" => vec![unsafe { p3p_total_cmp(d(0), d(1)) } as i64 as u64],
        _ => panic!("not offered: {name}"),
    }
}

fn whole(word: u64) -> u32 {
    word.min(u32::MAX as u64) as u32
}

/// A solve over lent memory, which it fills whole or, where it refuses, leaves.
pub struct Solve {
    pub number: u32,
    pub poses: [f64; 48],
    pub updates: [u32; 4],
    pub lifted: [u32; 4],
    pub count: u32,
}

impl Solve {
    fn lent() -> Solve {
        Solve {
            number: 0,
            poses: [LENT; 48],
            updates: [LENT_WHOLE; 4],
            lifted: [LENT_WHOLE; 4],
            count: LENT_WHOLE,
        }
    }

    fn left(&self) -> bool {
        let wholes = self.updates.iter().chain(&self.lifted).chain([&self.count]);
        is_lent(&self.poses) && wholes.copied().all(|x| x == LENT_WHOLE)
    }

    /// Four slots of updates, mark and twelve words.
    fn slots(&self) -> impl Iterator<Item = u64> {
        (0..4).flat_map(|slot| {
            let marks = [self.updates[slot] as u64, self.lifted[slot] as u64];
            let pose = &self.poses[12 * slot..12 * slot + 12];
            marks.into_iter().chain(pose.iter().map(|&x| word(x)))
        })
    }
}

fn is_lent(list: &[f64]) -> bool {
    list.iter().all(|x| x.to_bits() == LENT.to_bits())
}

/// A refusal's words: its number, and nothing else unless it wrote.
fn refused(number: u32, left: bool, gives: usize) -> Vec<u64> {
    let mut words = vec![0; gives];
    (words[0], words[1]) = (number as u64, if left { 0 } else { WROTE });
    words
}

pub fn solve(input: &[f64]) -> Solve {
    assert!(input.len() >= 18);
    let mut s = Solve::lent();
    let [updates, lifted] = [s.updates.as_mut_ptr(), s.lifted.as_mut_ptr()];
    s.number =
        unsafe { p3p_solve(input.as_ptr(), s.poses.as_mut_ptr(), updates, lifted, &mut s.count) };
    s
}

/// The solve about the first target, and what it leaves in the origin.
pub fn solve_about(input: &[f64; 18]) -> (Solve, [f64; 3]) {
    let (mut s, mut origin) = (Solve::lent(), [LENT; 3]);
    let [updates, lifted] = [s.updates.as_mut_ptr(), s.lifted.as_mut_ptr()];
    let [poses, point] = [s.poses.as_mut_ptr(), origin.as_mut_ptr()];
    s.number =
        unsafe { p3p_solve_about(input.as_ptr(), poses, updates, lifted, &mut s.count, point) };
    (s, origin)
}

fn about(input: &[f64; 18]) -> Vec<u64> {
    let (s, origin) = solve_about(input);
    if s.number != 0 {
        return refused(s.number, s.left() && is_lent(&origin), 61);
    }
    [0, s.count as u64].into_iter().chain(origin.map(word)).chain(s.slots()).collect()
}

/// The number, the kind and the two roots, by both functions.
fn quadratic(b: f64, c: f64) -> Vec<u64> {
    let (mut first, mut second, mut kind) = (LENT, LENT, LENT_WHOLE);
    let number = unsafe { p3p_quadratic_kind(b, c, &mut first, &mut second, &mut kind) };
    let mut words = result(number, &[first, second]);
    let kind = match number {
        0 => kind as u64,
        _ if kind == LENT_WHOLE => 0,
        _ => WROTE,
    };
    let (mut first, mut second) = (LENT, LENT);
    let number = unsafe { p3p_quadratic(b, c, &mut first, &mut second) };
    let alike = words == result(number, &[first, second]);
    words.insert(1, if alike { kind } else { WROTE });
    words
}

fn result(number: u32, roots: &[f64]) -> Vec<u64> {
    let words = roots.iter().map(|&root| match number {
        0 => word(root),
        _ if root.to_bits() == LENT.to_bits() => 0,
        _ => WROTE,
    });
    std::iter::once(number as u64).chain(words).collect()
}

/// The number, the best from 1, and its score.
fn choose(poses: &[f64; 48], count: u32, target: &[f64; 3], bearing: &[f64; 3]) -> [u64; 3] {
    let (mut best, mut score) = (LENT_WHOLE, LENT);
    let [poses, target, bearing] = [poses.as_ptr(), target.as_ptr(), bearing.as_ptr()];
    let number = unsafe { p3p_choose(poses, count, target, bearing, &mut best, &mut score) };
    chosen(number, best, score)
}

/// The same of the poses about a point.
fn choose_about(
    poses: &[f64; 48],
    count: u32,
    origin: &[f64; 3],
    target: &[f64; 3],
    bearing: &[f64; 3],
) -> [u64; 3] {
    let (mut best, mut score) = (LENT_WHOLE, LENT);
    let [origin, target, bearing] = [origin, target, bearing].map(|v| v.as_ptr());
    let poses = poses.as_ptr();
    let number =
        unsafe { p3p_choose_about(poses, count, origin, target, bearing, &mut best, &mut score) };
    chosen(number, best, score)
}

fn chosen(number: u32, best: u32, score: f64) -> [u64; 3] {
    match number {
        0 => [0, best as u64, word(score)],
        _ if best == LENT_WHOLE && is_lent(&[score]) => [number as u64, 0, 0],
        _ => [number as u64, WROTE, WROTE],
    }
}

fn frame(input: &[f64; 24]) -> Vec<u64> {
    let s = solve(input);
    if s.number != 0 {
        return refused(s.number, s.left(), 59);
    }
    let target: [f64; 3] = std::array::from_fn(|index| input[18 + index]);
    let bearing: [f64; 3] = std::array::from_fn(|index| input[21 + index]);
    let [_, best, _] = choose(&s.poses, s.count, &target, &bearing);
    [0, s.count as u64, best].into_iter().chain(s.slots()).collect()
}

/// A plate in lent memory: points, squared edges, inverse, and whether there is one.
#[derive(Clone, Copy)]
struct Lent {
    plate: [f64; 21],
    has_inverse: u32,
}

impl Lent {
    /// Any number but 0 says that there is an inverse; the plate's first word picks one.
    fn read(words: &[u64]) -> Lent {
        let yes = [1, 2, 1 << 31, u32::MAX][words[0] as usize % 4];
        Lent {
            plate: std::array::from_fn(|at| f64::from_bits(words[at])),
            has_inverse: if words[21] == 0 { 0 } else { yes },
        }
    }

    fn bits(&self) -> ([u64; 21], u32) {
        (self.plate.map(f64::to_bits), self.has_inverse)
    }
}

/// The number and the plate then. A refusal must leave the memory as it was, bit for bit; a refused
/// making stands for a plate of plus zeros without inverse.
fn operate(name: &str, input: &[u64]) -> Vec<u64> {
    let making = name == "plate_make";
    let old = if making {
        Lent { plate: [LENT; 21], has_inverse: LENT_WHOLE }
    } else {
        Lent::read(input)
    };
    let mut new = old;
    let (plate, flag) = (new.plate.as_mut_ptr(), &raw mut new.has_inverse);
    let point = |at: usize| -> [f64; 3] { [0, 1, 2].map(|i| f64::from_bits(input[at + i])) };
    let number = unsafe {
        match name {
            "plate_make" => p3p_plate_make([0, 3, 6].map(point).as_ptr().cast(), plate, flag),
            "plate_replace" => p3p_plate_replace(plate, flag, whole(input[22]), point(23).as_ptr()),
            "plate_exchange" => p3p_plate_exchange(plate, flag, whole(input[22]), whole(input[23])),
            _ => p3p_plate_scale(plate, flag, signed(input[22])),
        }
    };
    if number != 0 && new.bits() != old.bits() {
        return refused(number, false, 23);
    }
    if number != 0 && making {
        return refused(number, true, 23);
    }
    let flag = if number == 0 { new.has_inverse as u64 } else { input[21] };
    [number as u64].into_iter().chain(new.plate.map(word)).chain([flag]).collect()
}

fn signed(word: u64) -> i32 {
    (word as i64).clamp(i32::MIN as i64, i32::MAX as i64) as i32
}

fn plate_solve(input: &[u64]) -> Vec<u64> {
    let lent = Lent::read(input);
    let bearings: [f64; 9] = std::array::from_fn(|at| f64::from_bits(input[22 + at]));
    let mut s = Solve::lent();
    let [updates, lifted] = [s.updates.as_mut_ptr(), s.lifted.as_mut_ptr()];
    let [plate, bearings] = [lent.plate.as_ptr(), bearings.as_ptr()];
    let (flag, poses) = (lent.has_inverse, s.poses.as_mut_ptr());
    s.number =
        unsafe { p3p_plate_solve(plate, flag, bearings, poses, updates, lifted, &mut s.count) };
    if s.number != 0 {
        return refused(s.number, s.left(), 58);
    }
    [0, s.count as u64].into_iter().chain(s.slots()).collect()
}

/// The plate is only read. The edges are written by every call: one that leaves them answers with
/// what they held.
fn plate_preview(input: &[u64]) -> Vec<u64> {
    let old = Lent::read(input);
    let (mut lent, mut s, mut edges) = (old, Solve::lent(), [LENT; 3]);
    let point: [f64; 3] = std::array::from_fn(|at| f64::from_bits(input[23 + at]));
    let bearings: [f64; 9] = std::array::from_fn(|at| f64::from_bits(input[26 + at]));
    s.number = unsafe {
        p3p_plate_preview(
            lent.plate.as_mut_ptr(),
            lent.has_inverse,
            whole(input[22]),
            point.as_ptr(),
            bearings.as_ptr(),
            s.poses.as_mut_ptr(),
            s.updates.as_mut_ptr(),
            s.lifted.as_mut_ptr(),
            &mut s.count,
            edges.as_mut_ptr(),
        )
    };
    let mut words = if s.number != 0 {
        refused(s.number, s.left(), 61)
    } else {
        [0, s.count as u64, 0, 0, 0].into_iter().chain(s.slots()).collect()
    };
    words[2..5].copy_from_slice(&edges.map(word));
    if lent.bits() != old.bits() {
        words[1] = WROTE;
    }
    words
}
