//! What a solve raises of the processor's exception flags, for frames of a file. A frame is
//! eighteen words, big-endian.

use crate::table::word;
use std::fs;
use std::io::{self, BufWriter, Write};

/// A line a frame: the flags (copies/flags.rs) in two hexadecimal digits, the refusal number, the
/// count, of the solve about the first point the three words that it carries, and for each pose its
/// updates, 1 where it is lifted and twelve words.
pub fn run(path: &str, about: bool) -> Result<(), String> {
    let bytes = fs::read(path).map_err(|e| format!("{path}: {e}"))?;
    if bytes.len() % 144 != 0 {
        return Err(format!("{path}: not a row of frames of 144 bytes"));
    }
    let mut out = BufWriter::new(io::stdout().lock());
    for frame in bytes.chunks(144) {
        let input = std::array::from_fn(|index| {
            f64::from_bits(u64::from_be_bytes(frame[8 * index..][..8].try_into().unwrap()))
        });
        line(&mut out, &input, about).map_err(|e| e.to_string())?;
    }
    out.flush().map_err(|e| e.to_string())
}

fn line(out: &mut impl Write, input: &[f64; 18], about: bool) -> io::Result<()> {
    let (answer, origin, flags) = if about {
        let (answer, origin, flags) = copy_flags::flags::solve_about(input);
        (answer, origin.to_vec(), flags)
    } else {
        let (answer, flags) = copy_flags::flags::solve(input);
        (answer, vec![], flags)
    };
    write!(out, "{flags:02x} {} {}", answer.refusal, answer.count)?;
    for entry in origin {
        write!(out, " {:016x}", word(entry))?;
    }
    for slot in 0..answer.count {
        write!(out, " {} {}", answer.updates[slot], answer.lifted[slot] as u32)?;
        for entry in answer.poses[slot] {
            write!(out, " {:016x}", word(entry))?;
        }
    }
    writeln!(out)
}
