//! The preview of a moved target (document 02, §5). With a feature it shows plus zeros where only
//! the solve refuses, the old plate's edges, or these where the replacement is refused, solves with
//! the old inverse, leaves the lent edges where it refuses, or writes to the plate; of what
//! plated.rs is wrong about it shares the replacement, the solve and what a refusal writes.

use crate::plated::{replaced, solved};
use crate::plates::{self, Plate};
use copy_second::Answer;

#[unsafe(no_mangle)]
extern "C" fn p3p_plate_preview(
    plate: &mut [f64; 21],
    has_inverse: u32,
    target: u32,
    point: &[f64; 3],
    bearings: &[f64; 9],
    poses: &mut [f64; 48],
    updates: &mut [u32; 4],
    lifted: &mut [u32; 4],
    count: &mut u32,
    edges: &mut [f64; 3],
) -> u32 {
    let old = Plate::read(plate, has_inverse != 0);
    let (refusal, copy) = replaced(&old, target, point);
    let (answer, stored) = plates::preview((refusal, copy), |copy| {
        let stale = Plate { has_inverse: old.has_inverse, inverse: old.inverse, ..*copy };
        solved(if cfg!(feature = "wrong-stale") { &stale } else { copy }, bearings)
    });
    let answer = answer.unwrap_or_else(|refusal| Answer { refusal, ..Default::default() });
    let number = crate::write(&answer, poses, updates, lifted, count);
    if cfg!(feature = "wrong-writes") && number != 0 {
        *count = 0;
    }
    if cfg!(feature = "wrong-stores") {
        *plate = copy.doubles();
    }
    if !(cfg!(feature = "wrong-unset") && number != 0) {
        *edges = shown(stored, &old, refusal, number);
    }
    number
}

/// The edges shown, by the numbers of the replacement and of the preview.
fn shown(stored: [f64; 3], old: &Plate, refusal: u32, number: u32) -> [f64; 3] {
    if cfg!(feature = "wrong-zeros") && number != 0 {
        [0.0; 3]
    } else if cfg!(feature = "wrong-old") && refusal == 0
        || cfg!(feature = "wrong-held") && refusal != 0
    {
        old.edges
    } else {
        stored
    }
}
