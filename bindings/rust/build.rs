//! Links the static library that `rt lib` in crates/p3p writes: the file that P3P_LIBRARY names,
//! or, where the variable is unset or empty, the repository's own.

use std::env;
use std::path::{Path, PathBuf};
use std::process::exit;

/// The repository's own library, from the crate's folder.
const OWN: &str = "../../crates/p3p/out/libp3p.a";

fn main() {
    println!("cargo:rerun-if-env-changed=P3P_LIBRARY");
    // asked at each run, since cargo runs one script for the crate and for its packaged copy
    let folder = PathBuf::from(env::var_os("CARGO_MANIFEST_DIR").unwrap_or_default());
    let named = env::var_os("P3P_LIBRARY").filter(|name| !name.is_empty());
    let file = folder.join(named.unwrap_or_else(|| OWN.into()));
    if let Err(fault) = link(&file) {
        eprintln!(
            "error: {}: {fault}: run rt lib in crates/p3p, or set P3P_LIBRARY",
            file.display()
        );
        exit(1);
    }
}

/// Tells cargo where the library is, or says what is wrong with it.
fn link(file: &Path) -> Result<(), String> {
    let file = file.canonicalize().map_err(|error| error.to_string())?;
    println!("cargo:rerun-if-changed={}", file.display());
    let name = file.file_name().and_then(|name| name.to_str());
    let name = name.and_then(|name| name.strip_prefix("lib")?.strip_suffix(".a"));
    let name = name.ok_or("not a library's name, libNAME.a")?;
    let folder = file.parent().ok_or("in no folder")?;
    println!("cargo:rustc-link-search=native={}", folder.display());
    println!("cargo:rustc-link-lib=static={name}");
    Ok(())
}
