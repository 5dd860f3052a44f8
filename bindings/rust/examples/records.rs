//! Lists the records of standard input: of each how many poses it has and the best, or the refusal,
//! as include/records.c.
//!
//!     cargo run --example records < ../../samples/frames.bin

use p3p::{Choice, Frame, Refusal};
use std::io::{self, Read, Write};
use std::process::ExitCode;

/// What is listed of a frame.
fn listed(frame: &Frame) -> Result<String, Refusal> {
    let poses = p3p::solve(&frame.world, &frame.bearings)?;
    let choice = match p3p::choose(&poses, &frame.target, &frame.bearing) {
        Ok(Choice { index, score }) => {
            let angle = score.sqrt().atan().to_degrees();
            let lifted = if poses[index].lifted { " (lifted)" } else { "" };
            format!(
                "best {}{lifted}, checking target {angle:.6} degrees off its bearing",
                index + 1
            )
        }
        Err(refusal) => format!("choice refused {}", refusal.number()),
    };
    Ok(format!("poses {}, {choice}", poses.len()))
}

/// Lists one record after another, and tells whether it came to the end of the input.
fn list_records(input: &[u8], out: &mut impl Write) -> io::Result<bool> {
    let mut whole = true;
    // It goes on after 8, a record of another version, and ends after 7 and 9.
    for (k, record) in p3p::records(input).enumerate() {
        whole = !matches!(record, Err(Refusal::RecordLength | Refusal::RecordCutShort));
        match record.and_then(|frame| listed(&frame)) {
            Ok(text) => writeln!(out, "{} {text}", k + 1)?,
            Err(refusal) => writeln!(out, "{} refused {}", k + 1, refusal.number())?,
        }
    }
    Ok(whole)
}

/// Says what could not be done, and why.
fn failed(what: &str, error: &io::Error) -> ExitCode {
    eprintln!("records: {what}: {error}");
    ExitCode::FAILURE
}

fn main() -> ExitCode {
    let mut input = Vec::new();
    if let Err(error) = io::stdin().read_to_end(&mut input) {
        return failed("cannot read the input", &error);
    }
    match list_records(&input, &mut io::stdout().lock()) {
        Ok(true) => ExitCode::SUCCESS,
        Ok(false) => ExitCode::FAILURE,
        Err(error) => failed("cannot write the listing", &error),
    }
}
