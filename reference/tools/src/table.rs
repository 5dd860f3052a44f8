//! The functions that have vectors: their names, the words they take and give, and their
//! answers by each copy. A word is a double's bits or a whole number; a NaN among
//! results is 7ff8000000000000; what a refused answer does not have is zero.

use crate::about;
use crate::choice;
use crate::plates::{self, Plate};

pub struct Function {
    pub name: &'static str,
    pub takes: usize,
    pub gives: usize,
}

const fn function(name: &'static str, takes: usize, gives: usize) -> Function {
    Function { name, takes, gives }
}

/// The place decides which generator the inputs come from (vectors.rs), so a new one goes last.
pub const FUNCTIONS: &[Function] = &[
    function("frame", 24, 59), // -> number, count, best, 4 x (updates, lifted, 12)
    function("quadratic", 2, 4), // b c -> number, kind, root, root
    function("cubic", 3, 2),   // b c d -> number, root
    function("fast_cbrt", 1, 1), // x -> root
    function("refine", 10, 4), // depths, squared edges, cosines, limit -> updates, depths
    function("ray_fits", 6, 1), // camera, bearing -> 0 or 1
    function("near", 9, 1),    // m -> 0 or 1
    function("project", 9, 10), // m -> 0 or 1, m
    function("basis", 6, 10),  // edge, edge -> 0 or 1, m
    function("edges", 15, 9),  // edge, edge, m -> m
    function("eig", 9, 14),    // m -> 0 or 1, vectors, values, lifted
    function("row_crosses", 10, 4), // m, value -> 0 or 1, vector
    function("condition", 18, 1), // world, bearings -> condition
    function("choice", 55, 3), // count, 4 x 12, target, bearing -> number, best, score
    function("sqrt", 1, 1),
    function("cbrt", 1, 1),
    function("fma", 3, 1), // a b c -> a × b + c
    function("copysign", 2, 1),
    function("max", 2, 1),
    function("clamp", 3, 1),      // x low high
    function("totalorder", 2, 1), // -1, 0 or 1 in two's complement
    // world, bearings, m, translation, updates, count -> count, updates, 12
    function("push", 32, 14),
    // world, bearings -> number, count, origin, 4 x (updates, lifted, 12)
    function("about", 18, 61),
    // count, 4 x 12, origin, target, bearing -> number, best, score
    function("choice_about", 58, 3),
    // A plate: points (9), squared edges (3), inverse (9), 0 or 1 (has an inverse).
    function("plate_make", 9, 23),      // points -> number, plate
    function("plate_replace", 26, 23),  // plate, target, point -> number, plate
    function("plate_exchange", 24, 23), // plate, target, target -> number, plate
    function("plate_scale", 23, 23),    // plate, k in two's complement -> number, plate
    // plate, bearings -> number, count, 4 x (updates, lifted, 12)
    function("plate_solve", 31, 58),
    // plate, target, point, bearings -> number, count, squared edges, 4 x (updates, lifted, 12)
    function("plate_preview", 35, 61),
];

pub fn find(name: &str) -> &'static Function {
    FUNCTIONS
        .iter()
        .find(|function| function.name == name)
        .unwrap_or_else(|| panic!("no function {name}"))
}

/// A result's word: every NaN is one value.
pub fn word(x: f64) -> u64 {
    if x.is_nan() { 0x7ff8_0000_0000_0000 } else { x.to_bits() }
}

pub fn doubles<const N: usize>(words: &[u64]) -> [f64; N] {
    std::array::from_fn(|index| f64::from_bits(words[index]))
}

fn found<const N: usize>(answer: Option<[f64; N]>) -> Vec<u64> {
    let mut words = vec![answer.is_some() as u64];
    words.extend(answer.unwrap_or([0.0; N]).map(word));
    words
}

/// The plate that an input begins with.
pub fn plate(words: &[u64]) -> Plate {
    Plate::read(&doubles::<21>(words), words[21] != 0)
}

/// What an operation on a plate answers.
fn operated((number, plate): (u32, Plate)) -> Vec<u64> {
    let mut words = vec![number as u64];
    words.extend(plate.doubles().map(word));
    words.push(plate.has_inverse as u64);
    words
}

fn chosen(best: Option<(usize, f64)>) -> Vec<u64> {
    best.map_or(vec![10, 0, 0], |(index, score)| vec![0, index as u64 + 1, word(score)])
}

macro_rules! answers {
    ($module:ident, $copy:ident) => {
        answers!(
            $module,
            $copy,
            $copy::listed::Listed::listed_cbrt,
            $copy::listed::Listed::listed_max,
            $copy::listed::Listed::listed_total_cmp,
            plus_if_nan
        );
    };
    ($module:ident, $copy:ident, $cbrt:expr, $max:expr, $order:expr, $sign:expr) => {
        pub mod $module {
            use super::*;

            pub fn frame(input: &[f64; 24]) -> ($copy::Answer, u64) {
                let answer = $copy::solve(&std::array::from_fn(|index| input[index]));
                let (target, bearing) = (&input[18..21], &input[21..24]);
                let best = choice::best(answer.count as u64, &answer.poses, target, bearing);
                (answer, best.map_or(0, |(index, _)| index as u64 + 1))
            }

            /// The solve about the first world point, and the point that the answer carries.
            pub fn about(input: &[f64; 18]) -> ($copy::Answer, [f64; 3]) {
                let refused = $copy::Answer { refusal: 1, ..Default::default() };
                let answer = about::moved(input).map_or(refused, |moved| $copy::solve(&moved));
                (answer, about::carried(input, answer.refusal))
            }

            /// The solve with a plate.
            pub fn plate_solve(plate: &Plate, bearings: &[f64; 9]) -> $copy::Answer {
                let stored = $copy::stored::Numbers::new(plate.edges, plate.stored_inverse());
                $copy::solve_stored(&plate.world(), bearings, stored)
            }

            /// An operation on a plate, by its name.
            fn operate(name: &str, input: &[u64]) -> (u32, Plate) {
                let basis = $copy::basis;
                match name {
                    "plate_make" => plates::make([0, 3, 6].map(|at| doubles(&input[at..])), basis),
                    "plate_replace" => {
                        plates::replace(&plate(input), input[22], doubles(&input[23..]), basis)
                    }
                    "plate_exchange" => {
                        plates::exchange(&plate(input), input[22], input[23], basis)
                    }
                    _ => plates::scale(&plate(input), input[22] as i64, basis),
                }
            }

            /// The solve with the plate that a replacement would leave, and its squared edges. The
            /// input begins as the replacement's does.
            fn plate_preview(input: &[u64]) -> ($copy::Answer, [f64; 3]) {
                let solve = |moved: &Plate| plate_solve(moved, &doubles(&input[26..]));
                let (answer, edges) = plates::preview(operate("plate_replace", input), solve);
                let refused = |refusal| $copy::Answer { refusal, ..Default::default() };
                (answer.unwrap_or_else(refused), edges)
            }

            /// The words of an answer with three numbers beside it.
            fn beside((answer, numbers): ($copy::Answer, [f64; 3])) -> Vec<u64> {
                let head = [answer.refusal as u64, answer.count as u64];
                head.into_iter().chain(numbers.map(word)).chain(slots(&answer)).collect()
            }

            /// Four slots of updates, mark and twelve words.
            fn slots(answer: &$copy::Answer) -> impl Iterator<Item = u64> {
                (0..4).flat_map(|slot| {
                    let marks = [answer.updates[slot] as u64, answer.lifted[slot] as u64];
                    marks.into_iter().chain(answer.poses[slot].map(word))
                })
            }

            /// What a frame or a choice chooses from: the count, the poses, target and bearing.
            /// The choice about a point takes the target less that point (document 02, §1).
            pub fn chosen_from(
                name: &str,
                input: &[u64],
            ) -> Option<(u64, choice::Poses, [f64; 3], [f64; 3])> {
                match name {
                    "frame" => {
                        let answer = $copy::solve(&doubles(input));
                        let (target, bearing) = (doubles(&input[18..]), doubles(&input[21..]));
                        Some((answer.count as u64, answer.poses, target, bearing))
                    }
                    "choice" => {
                        let poses = std::array::from_fn(|slot| doubles(&input[1 + 12 * slot..]));
                        Some((input[0], poses, doubles(&input[49..]), doubles(&input[52..])))
                    }
                    "choice_about" => {
                        let poses = std::array::from_fn(|slot| doubles(&input[1 + 12 * slot..]));
                        let [origin, target, bearing] =
                            [49, 52, 55].map(|at| doubles::<3>(&input[at..]));
                        Some((input[0], poses, about::less(&target, &origin), bearing))
                    }
                    _ => None,
                }
            }

            pub fn answer(name: &str, input: &[u64]) -> Vec<u64> {
                let d = |index: usize| f64::from_bits(input[index]);
                match name {
                    "frame" => {
                        let (answer, best) = frame(&doubles(input));
                        let head = [answer.refusal as u64, answer.count as u64, best];
                        head.into_iter().chain(slots(&answer)).collect()
                    }
                    "about" => beside(about(&doubles(input))),
                    "plate_preview" => beside(plate_preview(input)),
                    "plate_make" | "plate_replace" | "plate_exchange" | "plate_scale" => {
                        operated(operate(name, input))
                    }
                    "plate_solve" => {
                        let answer = plate_solve(&plate(input), &doubles(&input[22..]));
                        let head = [answer.refusal as u64, answer.count as u64];
                        head.into_iter().chain(slots(&answer)).collect()
                    }
                    "quadratic" => match $copy::quadratic(d(0), d(1)) {
                        Ok((kind, roots)) => {
                            vec![0, kind as u64, word(roots[0]), word(roots[1])]
                        }
                        Err(number) => vec![number as u64, 0, 0, 0],
                    },
                    "cubic" => match $copy::cubic(d(0), d(1), d(2)) {
                        Ok(root) => vec![0, word(root)],
                        Err(number) => vec![number as u64, 0],
                    },
                    "fast_cbrt" => vec![word($copy::fast_cbrt(d(0)))],
                    "refine" => {
                        let (updates, depths) = $copy::refine(
                            doubles(input),
                            doubles(&input[3..]),
                            doubles(&input[6..]),
                            input[9] as usize,
                        );
                        [vec![updates as u64], depths.map(word).to_vec()].concat()
                    }
                    "ray_fits" => {
                        vec![$copy::ray_fits(&doubles(input), &doubles(&input[3..])) as u64]
                    }
                    "near" => vec![$copy::near(&doubles(input)) as u64],
                    "project" => found($copy::project(&doubles(input))),
                    "basis" => found($copy::basis(&doubles(input), &doubles(&input[3..]))),
                    "edges" => {
                        $copy::edges(&doubles(input), &doubles(&input[3..]), &doubles(&input[6..]))
                            .map(word)
                            .to_vec()
                    }
                    "push" => {
                        let (count, pushed) = $copy::push(
                            &doubles(input),
                            &doubles(&input[18..]),
                            &doubles(&input[27..]),
                            input[30] as u32,
                            input[31] as usize,
                        );
                        let (updates, pose) = pushed.unwrap_or((0, [0.0; 12]));
                        [vec![count as u64, updates as u64], pose.map(word).to_vec()].concat()
                    }
                    "eig" => match $copy::eig(&doubles(input)) {
                        Some((vectors, values, lifted)) => {
                            let entries = vectors.into_iter().chain(values).map(word);
                            let mut words = vec![1];
                            words.extend(entries);
                            words.push(lifted as u64);
                            words
                        }
                        None => vec![0; 14],
                    },
                    "row_crosses" => found($copy::row_crosses(&doubles(input), d(9))),
                    "condition" => vec![word($copy::condition(&doubles(input)))],
                    "choice" | "choice_about" => {
                        let (count, poses, target, bearing) = chosen_from(name, input).unwrap();
                        chosen(choice::best(count, &poses, &target, &bearing))
                    }
                    "sqrt" => vec![word(d(0).sqrt())],
                    "cbrt" => vec![word($cbrt(d(0)))],
                    "fma" => vec![word(d(0).mul_add(d(1), d(2)))],
                    "copysign" => vec![word(d(0).copysign($sign(d(1))))],
                    "max" => vec![word($max(d(0), d(1)))],
                    "clamp" => vec![word(d(0).clamp(d(1), d(2)))],
                    "totalorder" => vec![$order(&d(0), &d(1)) as i64 as u64],
                    _ => panic!("no function {name}"),
                }
            }
        }
    };
}

/// The sign of a NaN is open; where a single operation shows it, it is plus here. No solve
/// reaches that.
fn plus_if_nan(x: f64) -> f64 {
    if x.is_nan() { 1.0 } else { x }
}

answers!(asis, copy_asis, f64::cbrt, f64::max, f64::total_cmp, f64::from);
answers!(second, copy_second);
answers!(counted, copy_counted);
