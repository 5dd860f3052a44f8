//! Makes one copy of the Rust out of the original sources and the edits.
//!
//! P3P_SOURCES names the folder of the originals: a checkout of openMVG/openmvg-rs
//! at fce50650ac, or a folder with the three files under their flattened names.
//! copy-asis is the test copy; copy-second the second copy, made from the first;
//! copy-counted the second copy with a counter at each branch; copy-flags the second copy
//! for reading the processor's exception flags. Each has beside its lambdatwist.rs a further
//! copy of it, plates.rs, which plates.edit makes for the solve with a plate.
//!
//! An edit: a line `@ FILE FUNCTION [K/N | all/N]`, then lines `- old`, then lines
//! `+ new`. Within that function (`*`: within the file) the old text must stand
//! exactly N times (1 if unsaid); its Kth place, or all, takes the new text.
//! `@ FILE append` puts the new text at the end. Places are counted in the text
//! before the edits of that script, and anything that does not fit ends the build.

use std::path::{Path, PathBuf};
use std::{env, fs};

const FILES: [(&str, &str); 3] = [
    ("polynomial.rs", "crates/openmvg-geometry/src/shared/polynomial.rs"),
    ("common.rs", "crates/openmvg-geometry/src/pose/p3p/common.rs"),
    ("lambdatwist.rs", "crates/openmvg-geometry/src/pose/p3p/lambdatwist.rs"),
];

fn main() {
    println!("cargo:rerun-if-env-changed=P3P_SOURCES");
    let sources = PathBuf::from(env::var("P3P_SOURCES").unwrap_or_else(|_| {
        panic!("set P3P_SOURCES to the folder of the original sources (reference/README.md)")
    }));
    let out = PathBuf::from(env::var("OUT_DIR").unwrap());
    let edits = Path::new("../../edits");
    let scripts: &[&str] = match env::var("CARGO_PKG_NAME").unwrap().as_str() {
        "copy-asis" => &["test-copy"],
        "copy-second" => &["test-copy", "second-copy"],
        "copy-counted" => &["test-copy", "second-copy", "counters"],
        "copy-flags" => &["test-copy", "second-copy", "flags"],
        name => panic!("no copy is named {name}"),
    };

    let mut texts: Vec<String> = FILES.iter().map(|(_, path)| read(&sources, path)).collect();
    let mut labels = Vec::new();
    for name in scripts {
        let list = parse(&script(&edits.join(format!("{name}.edit"))));
        for (index, (name, _)) in FILES.iter().enumerate() {
            texts[index] = apply(&texts[index], name, &list);
        }
        labels.extend(list.iter().flat_map(labels_of));
    }
    for ((name, _), text) in FILES.iter().zip(&texts) {
        fs::write(out.join(name), text).unwrap();
    }
    let list = parse(&script(&edits.join("plates.edit")));
    assert!(list.iter().all(|edit| edit.file == "lambdatwist.rs"), "plates.edit");
    fs::write(out.join("plates.rs"), apply(&texts[2], "lambdatwist.rs", &list)).unwrap();
    let module =
        |name: &str| format!("#[path = {:?}]\npub mod {name};\n", out.join(format!("{name}.rs")));
    fs::write(out.join("shared.rs"), module("polynomial")).unwrap();
    let p3p = ["common", "lambdatwist", "plates"].map(module).concat();
    fs::write(out.join("p3p.rs"), p3p).unwrap();
    fs::write(out.join("labels.rs"), format!("&{labels:?}")).unwrap();
}

fn script(path: &Path) -> String {
    println!("cargo:rerun-if-changed={}", path.display());
    fs::read_to_string(path).unwrap_or_else(|e| panic!("{path:?}: {e}"))
}

fn read(sources: &Path, path: &str) -> String {
    let flat = format!("src--{}.txt", path.replace('/', "--"));
    for candidate in [sources.join(path), sources.join(flat)] {
        if let Ok(text) = fs::read_to_string(&candidate) {
            println!("cargo:rerun-if-changed={}", candidate.display());
            return text;
        }
    }
    panic!("{path} is not in {}", sources.display())
}

struct Edit {
    file: String,
    function: String,
    place: Option<usize>,
    places: usize,
    old: String,
    new: String,
}

fn parse(script: &str) -> Vec<Edit> {
    let mut list: Vec<Edit> = Vec::new();
    for line in script.lines() {
        if let Some(head) = line.strip_prefix("@ ") {
            let mut words = head.split(' ');
            let file = words.next().unwrap().to_string();
            let function = words.next().unwrap().to_string();
            let (place, places) = match words.next().map(|word| word.split_once('/').unwrap()) {
                None => (Some(1), 1),
                Some(("all", n)) => (None, n.parse().unwrap()),
                Some((k, n)) => (Some(k.parse().unwrap()), n.parse().unwrap()),
            };
            list.push(Edit {
                file,
                function,
                place,
                places,
                old: String::new(),
                new: String::new(),
            });
        } else if let Some((side, text)) =
            line.split_once(' ').filter(|(side, _)| matches!(*side, "-" | "+"))
        {
            let edit = list.last_mut().expect("an edit begins with @");
            let into = if side == "-" { &mut edit.old } else { &mut edit.new };
            if !into.is_empty() {
                into.push('\n');
            }
            into.push_str(text);
        } else {
            assert!(line.is_empty() || line.starts_with('#'), "not an edit: {line}");
        }
    }
    list
}

fn apply(text: &str, file: &str, list: &[Edit]) -> String {
    let mut changes = Vec::new();
    let mut tail = String::new();
    for edit in list.iter().filter(|edit| edit.file == file) {
        if edit.function == "append" {
            tail += &format!("\n{}\n", edit.new);
            continue;
        }
        let (start, end) =
            if edit.function == "*" { (0, text.len()) } else { function(text, &edit.function) };
        let found: Vec<usize> =
            text[start..end].match_indices(&edit.old).map(|(at, _)| start + at).collect();
        assert!(
            found.len() == edit.places,
            "{file}, {}: {:?} stands {} times, not {}",
            edit.function,
            edit.old,
            found.len(),
            edit.places
        );
        for (index, &at) in found.iter().enumerate() {
            if edit.place.is_none_or(|place| place == index + 1) {
                changes.push((at, at + edit.old.len(), &edit.new));
            }
        }
    }
    changes.sort();
    let mut result = String::new();
    let mut done = 0;
    for (start, end, new) in changes {
        assert!(start >= done, "{file}: two edits overlap at {new}");
        result += &text[done..start];
        result += new;
        done = end;
    }
    result + &text[done..] + &tail
}

/// From `fn NAME` to the closing brace that stands under its line.
fn function(text: &str, name: &str) -> (usize, usize) {
    let heads: Vec<usize> = text
        .match_indices(&format!("fn {name}"))
        .map(|(at, found)| (at, text.as_bytes()[at + found.len()]))
        .filter(|(_, next)| matches!(next, b'(' | b'<'))
        .map(|(at, _)| at)
        .collect();
    assert!(heads.len() == 1, "fn {name} stands {} times", heads.len());
    let line = text[..heads[0]].rfind('\n').map_or(0, |at| at + 1);
    let indent = text[line..].len() - text[line..].trim_start_matches(' ').len();
    let close = format!("\n{}}}\n", " ".repeat(indent));
    let end = heads[0] + text[heads[0]..].find(&close).expect("a closing brace") + close.len();
    (line, end)
}

/// The counters' labels: the first string in each call of crate::reach.
fn labels_of(edit: &Edit) -> Vec<String> {
    edit.new
        .split("crate::reach::")
        .skip(1)
        .map(|call| call.split('"').nth(1).expect("a label").to_string())
        .collect()
}
