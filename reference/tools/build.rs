//! Links the port where P3P_PORT names its static library, and other solvers where P3P_PEERS names
//! the library of bench/peers.

fn main() {
    for (variable, cfg) in [("P3P_PORT", "port"), ("P3P_PEERS", "peers")] {
        println!("cargo:rustc-check-cfg=cfg({cfg})");
        println!("cargo:rerun-if-env-changed={variable}");
        if let Ok(path) = std::env::var(variable) {
            let path =
                std::fs::canonicalize(&path).unwrap_or_else(|e| panic!("{variable}, {path}: {e}"));
            println!("cargo:rerun-if-changed={}", path.display());
            println!("cargo:rustc-link-arg-bins={}", path.display());
            println!("cargo:rustc-cfg={cfg}");
        }
    }
}
