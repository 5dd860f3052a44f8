//! Runs the copies, and the port where it is linked, over vectors written as text and requires
//! every answer.
//!
//! A line: `LABEL words -> answer`, and where the unchanged Rust differs ` | asis answer`.
//! LABEL is a function's name, or for a frame its kind. A line of `about` has eighteen words, or
//! twenty-four and then the best by the choice about the first point, as a frame has. Of a plate
//! (points, edges, inverse, 0 or 1) an operation answers `number N` and a plate, a solve as a frame
//! does but without a best; target numbers and k are decimal. A line of `preview` (plate, target,
//! point, bearings) answers `edges`, three words, and as a solve with a plate does.

#[cfg(port)]
use crate::port;
use crate::table::{self, FUNCTIONS};

pub fn run(files: &[String]) -> Result<(), String> {
    let mut total = 0;
    for path in files {
        let text = std::fs::read_to_string(path).map_err(|e| format!("{path}: {e}"))?;
        let (mut differ, mut asked) = (0, 0);
        for (number, line) in text.lines().enumerate() {
            let (left, right) = line.split_once(" -> ").ok_or(format!("{path}: line {number}"))?;
            let (second, asis) = right.split_once(" | asis ").unwrap_or((right, right));
            let (label, words) = left.split_once(' ').ok_or(format!("{path}: line {number}"))?;
            let name = function(label);
            let input = parse_input(name, words);
            let ported = port_answer(name, &input);
            asked += ported.is_some() as usize;
            for (whose, expected, found) in [
                ("the second copy", second, Some(ask(table::second::answer, name, &input))),
                ("the counted copy", second, Some(ask(table::counted::answer, name, &input))),
                ("the unchanged copy", asis, Some(ask(table::asis::answer, name, &input))),
                ("the port", second, ported),
            ] {
                let Some(found) = found else { continue };
                if parse_answer(name, expected, found.len()) != found {
                    return Err(format!(
                        "{path}, line {}: {whose}\n{line}\nfound {found:x?}",
                        number + 1
                    ));
                }
            }
            differ += (second != asis) as usize;
            total += 1;
        }
        println!(
            "{path}: {} lines, the copies differ on {differ}, as it says; the port asked on {asked}",
            text.lines().count()
        );
    }
    println!("{total} answers equal");
    Ok(())
}

/// The function that a label stands for.
fn function(label: &str) -> &'static str {
    match label {
        "preview" => "plate_preview",
        _ => FUNCTIONS.iter().map(|f| f.name).find(|name| *name == label).unwrap_or("frame"),
    }
}

/// The words of an answer. After those of `about` on twenty-four words comes the best (from 1; 0
/// where the choice refuses or the solve did).
fn ask(answer: fn(&str, &[u64]) -> Vec<u64>, name: &str, input: &[u64]) -> Vec<u64> {
    let mut words = answer(name, &input[..table::find(name).takes]);
    if name == "about" && input.len() == 24 {
        let poses = words[5..].chunks(14).flat_map(|slot| &slot[2..]);
        let choice: Vec<u64> = words[1..2]
            .iter()
            .chain(poses)
            .chain(&words[2..5])
            .chain(&input[18..])
            .copied()
            .collect();
        words.push(answer("choice_about", &choice)[1]);
    }
    words
}

/// None where the port is not linked or does not offer the function.
#[cfg(port)]
fn port_answer(name: &str, input: &[u64]) -> Option<Vec<u64>> {
    port::OFFERED.contains(&name).then(|| ask(port::answer, name, input))
}

#[cfg(not(port))]
fn port_answer(_: &str, _: &[u64]) -> Option<Vec<u64>> {
    None
}

fn hex(word: &str) -> u64 {
    u64::from_str_radix(word, 16).unwrap_or_else(|e| panic!("{word}: {e}"))
}

fn parse_input(name: &str, words: &str) -> Vec<u64> {
    let decimal: &[usize] = match name {
        "refine" => &[9],
        "choice" | "choice_about" => &[0],
        "plate_solve" => &[21],
        "plate_replace" | "plate_scale" | "plate_preview" => &[21, 22],
        "plate_exchange" => &[21, 22, 23],
        _ => &[],
    };
    let whole = |word: &str| word.parse::<i64>().unwrap() as u64;
    let input: Vec<u64> = words
        .split(' ')
        .enumerate()
        .map(|(index, word)| if decimal.contains(&index) { whole(word) } else { hex(word) })
        .collect();
    let with_target = name == "about" && input.len() == 24;
    assert!(with_target || input.len() == table::find(name).takes, "{name}");
    input
}

/// The slots of poses, each a text `updates U`, twelve words, `plain` or `lifted`.
fn parse_poses(tokens: &[&str]) -> Vec<u64> {
    let mut words = Vec::new();
    for pose in tokens.chunks(15) {
        let mark = ["plain", "lifted"].iter().position(|mark| *mark == pose[14]).unwrap();
        words.extend([pose[1].parse().unwrap(), mark as u64]);
        words.extend(pose[2..14].iter().map(|word| hex(word)));
    }
    words
}

/// `about`, three words, and a frame's answer, in which the best stands where it was asked for.
fn parse_about(tokens: &[&str], gives: usize) -> Vec<u64> {
    let number = |index: usize| tokens[index].parse::<u64>().unwrap();
    let with_best = gives > table::find("about").gives;
    let solved = tokens[4] == "poses";
    assert_eq!((tokens[0], tokens[6..].contains(&"best")), ("about", solved && with_best));
    let (head, best, poses) = match tokens[4] {
        "refused" => ([number(5), 0], 0, vec![]),
        _ if with_best => ([0, number(5)], number(7), parse_poses(&tokens[8..])),
        _ => ([0, number(5)], 0, parse_poses(&tokens[6..])),
    };
    let origin = tokens[1..4].iter().map(|word| hex(word));
    let mut words: Vec<u64> = head.into_iter().chain(origin).chain(poses).collect();
    words.resize(gives, 0);
    if with_best {
        words[gives - 1] = best;
    }
    words
}

/// `edges`, three words, and the answer of a solve with a plate; all in the order of `about`.
fn parse_preview(tokens: &[&str], gives: usize) -> Vec<u64> {
    assert_eq!(tokens[0], "edges");
    let mut words = parse_answer("plate_solve", &tokens[4..].join(" "), gives - 3);
    words.splice(2..2, tokens[1..4].iter().map(|word| hex(word)));
    words
}

/// The words of an answer in the order of the stored vectors, so many as the function gave.
fn parse_answer(name: &str, answer: &str, gives: usize) -> Vec<u64> {
    let tokens: Vec<&str> = answer.split(' ').collect();
    let number = |index: usize| tokens[index].parse::<u64>().unwrap();
    let words = |from: usize| tokens[from..].iter().map(|word| hex(word));
    let mut result = match (name, tokens[0]) {
        ("about", _) => return parse_about(&tokens, gives),
        ("plate_preview", _) => return parse_preview(&tokens, gives),
        (_, "refused") => vec![number(1)],
        (_, "none") => vec![0],
        ("plate_solve", _) => [vec![0, number(1)], parse_poses(&tokens[2..])].concat(),
        ("plate_make" | "plate_replace" | "plate_exchange" | "plate_scale", _) => {
            let doubles = tokens[2..23].iter().map(|word| hex(word));
            [number(1)].into_iter().chain(doubles).chain([number(23)]).collect()
        }
        ("frame", _) => [vec![0, number(1), number(3)], parse_poses(&tokens[4..])].concat(),
        ("quadratic", kind) => {
            let kind = ["two", "zero", "lifted"].iter().position(|name| *name == kind).unwrap();
            [0, kind as u64].into_iter().chain(words(1)).collect()
        }
        ("cubic", _) => std::iter::once(0).chain(words(1)).collect(),
        ("refine", _) => std::iter::once(number(1)).chain(words(2)).collect(),
        ("ray_fits" | "near", _) => vec![number(1)],
        // A text of `eig` has no mark: it stands for one that is not lifted.
        ("project" | "basis" | "eig" | "row_crosses", _) => {
            std::iter::once(1).chain(words(0)).collect()
        }
        ("choice" | "choice_about", _) => vec![0, number(1), hex(tokens[2])],
        ("totalorder", word) => vec![word.parse::<i64>().unwrap() as u64],
        _ => words(0).collect(),
    };
    result.resize(gives, 0);
    result
}

/// The inputs of one function in a text of vectors, with their labels.
pub fn inputs(text: &str, name: &str) -> Vec<(String, Vec<u64>)> {
    text.lines()
        .filter_map(|line| line.split(" -> ").next()?.split_once(' '))
        .filter(|(label, _)| function(label) == name)
        .map(|(label, words)| {
            let mut input = parse_input(name, words);
            input.truncate(table::find(name).takes);
            (label.to_string(), input)
        })
        .collect()
}
