//! The Rust beside the port. `reference` alone lists the commands.

mod about;
#[cfg(port)]
mod bench;
mod beside;
mod check;
mod choice;
mod choices;
mod coverage;
#[cfg(target_arch = "x86_64")]
mod flags;
mod frames;
mod lifts;
mod orders;
#[cfg(port)]
mod peers;
mod pieces;
mod plates;
#[cfg(port)]
mod port;
mod random;
mod reached;
mod runs;
mod stored;
mod table;
mod vectors;

use std::path::Path;

const USAGE: &str = "\
reference check FILE..           the copies, and the port where it is linked, over vectors written
                                 as text, every answer required
reference vectors FOLDER         write the stored vectors
reference coverage FOLDER        which branches of the Rust, of the choice and of plates the stored
                                 vectors reach
reference orders                 nalgebra's orders of operations, with a witness for each
reference beside [COUNT [SEED]]  the port and both copies on the same random inputs
reference pieces COUNT FUNCTION..  the same on COUNT random inputs of each function named
reference choices COUNT [SEED]   how many choices document 02, §2, changes, of COUNT random frames
                                 of each kind
reference lifts COUNT [SEED]     how many poses are lifted, of COUNT random frames of each kind
reference plates COUNT [SEED]    COUNT operations on plates, solves with them and previews of moved
                                 targets, in runs, by the port and the second copy
reference bench [COUNT]          how long a solve takes, the port beside the unchanged copy and,
                                 where P3P_PEERS was set, other solvers (COUNT frames of a sort)
reference frames COUNT FILE      COUNT random frames of each kind but the last, eighteen words a
                                 frame
reference flags FILE             the exception flags that the processor raises in the solve of each
                                 frame of a file, and the answers (x86-64 only)
reference flags-about FILE       the same of the solve about the first world point, the nine
                                 subtractions among what raises flags
reference search FUNCTION N SEED COUNT | FILE
                                 inputs that reach what fewer than N stored ones reach";

fn main() {
    let arguments: Vec<String> = std::env::args().skip(1).collect();
    let words: Vec<&str> = arguments.iter().map(String::as_str).collect();
    let number = |text: &str| text.parse::<u64>().map_err(|e| format!("{text}: {e}"));
    let outcome = match words[..] {
        ["check", ..] => check::run(&arguments[1..]),
        ["vectors", folder] => vectors::write(Path::new(folder)),
        ["coverage", folder] => coverage::print(Path::new(folder)),
        ["orders"] => orders::print(vectors::SEED),
        ["beside"] => beside::run(100_000, vectors::SEED),
        ["beside", count] => number(count).and_then(|count| beside::run(count, vectors::SEED)),
        ["beside", count, seed] => {
            number(count).and_then(|count| number(seed).and_then(|seed| beside::run(count, seed)))
        }
        ["pieces", count, ref names @ ..] => {
            number(count).and_then(|count| beside::pieces(count, vectors::SEED, names))
        }
        ["choices", count] => number(count).and_then(|count| choices::run(count, vectors::SEED)),
        ["choices", count, seed] => {
            number(count).and_then(|count| number(seed).and_then(|seed| choices::run(count, seed)))
        }
        ["lifts", count] => number(count).and_then(|count| lifts::run(count, vectors::SEED)),
        ["lifts", count, seed] => {
            number(count).and_then(|count| number(seed).and_then(|seed| lifts::run(count, seed)))
        }
        ["plates", count] => number(count).and_then(|count| runs::run(count, vectors::SEED)),
        ["plates", count, seed] => {
            number(count).and_then(|count| number(seed).and_then(|seed| runs::run(count, seed)))
        }
        #[cfg(port)]
        ["bench"] => bench::run(4096, vectors::SEED),
        #[cfg(port)]
        ["bench", count] => number(count).and_then(|count| bench::run(count, vectors::SEED)),
        #[cfg(not(port))]
        ["bench", ..] => {
            Err("built without the port (set P3P_PORT to its static library)".to_string())
        }
        ["frames", count, path] => {
            number(count).and_then(|count| frames::write(count, vectors::SEED, path))
        }
        #[cfg(target_arch = "x86_64")]
        ["flags", path] => flags::run(path, false),
        #[cfg(target_arch = "x86_64")]
        ["flags-about", path] => flags::run(path, true),
        ["search", name, enough, seed, count] => (|| {
            let source = vectors::Source::Random { seed: number(seed)?, count: number(count)? };
            vectors::search(name, source, number(enough)? as usize);
            Ok(())
        })(),
        ["search", name, enough, file] => (|| {
            let text = std::fs::read_to_string(file).map_err(|e| format!("{file}: {e}"))?;
            vectors::search(name, vectors::Source::Text(text), number(enough)? as usize);
            Ok(())
        })(),
        _ => Err(USAGE.to_string()),
    };
    if let Err(message) = outcome {
        eprintln!("{message}");
        std::process::exit(1);
    }
}
