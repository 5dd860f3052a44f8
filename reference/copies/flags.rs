//! The processor's exception flags, the low six bits of MXCSR on x86-64: an operation that meets
//! an exception raises its flag, and none lowers it.
//!
//! Only the flagged copy asks for them. It is compiled without optimisation (Cargo.toml): the
//! optimiser takes flags for nothing, so it may make an operation that the text does not reach,
//! and leave out one whose result is not used.

// Its subtractions must be compiled with this copy, without optimisation.
#[path = "../tools/src/about.rs"]
mod about;

use crate::Answer;
use std::arch::asm;

/// Invalid 1, denormal operand 2, division by zero 4, overflow 8, underflow 16, inexact 32.
const FLAGS: u32 = 0x3f;

fn word() -> u32 {
    let mut word = 0;
    unsafe { asm!("stmxcsr [{}]", in(reg) &raw mut word, options(nostack)) };
    word
}

pub fn raised() -> u32 {
    word() & FLAGS
}

pub fn put(flags: u32) {
    let word = word() & !FLAGS | flags;
    unsafe { asm!("ldmxcsr [{}]", in(reg) &raw const word, options(nostack)) };
}

/// x × y + z by one instruction. The caller has seen that the processor has it.
pub(crate) fn mul_add(x: f64, y: f64, z: f64) -> f64 {
    let mut result = x;
    unsafe {
        asm!("vfmadd213sd {}, {}, {}", inout(xmm_reg) result, in(xmm_reg) y, in(xmm_reg) z,
            options(nomem, nostack));
    }
    result
}

fn raised_by<T>(run: impl FnOnce() -> T) -> (T, u32) {
    assert!(std::arch::is_x86_feature_detected!("fma"), "this processor has no fused multiply-add");
    put(0);
    let result = run();
    (result, raised())
}

/// A solve's answer, and the flags that it raised.
pub fn solve(input: &[f64; 18]) -> (Answer, u32) {
    raised_by(|| crate::solve(input))
}

/// The same of the solve about the first world point, with that point; the nine subtractions are
/// among what raises flags.
pub fn solve_about(input: &[f64; 18]) -> (Answer, [f64; 3], u32) {
    let refused = Answer { refusal: 1, ..Answer::default() };
    let (answer, flags) =
        raised_by(|| about::moved(input).map_or(refused, |moved| crate::solve(&moved)));
    (answer, about::carried(input, answer.refusal), flags)
}
