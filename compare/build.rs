//! Copies the published sewing.rs into the build folder, without its leading
//! `//!` lines (they cannot stand inside a module) and with `reference/open.rs`
//! appended as a child module, which may call the private functions.

use std::path::{Path, PathBuf};

const INSIDE: &str = "crates/catallax-boolean/src/sewing.rs";

fn main() {
    println!("cargo:rerun-if-env-changed=CATALLAX");
    println!("cargo:rerun-if-changed=reference/open.rs");
    let Some(folder) = std::env::var_os("CATALLAX") else {
        stop("set CATALLAX to a checkout of catallax (see compare/README.md)");
    };
    let path = PathBuf::from(folder).join(INSIDE);
    println!("cargo:rerun-if-changed={}", path.display());
    let published = read(&path);
    let body: String = published
        .lines()
        .skip_while(|line| line.starts_with("//!"))
        .flat_map(|line| [line, "\n"])
        .collect();
    let open = read(Path::new("reference/open.rs"));
    let out = PathBuf::from(std::env::var_os("OUT_DIR").expect("cargo names OUT_DIR"));
    let text = format!("{body}\npub(crate) mod open {{\n{open}\n}}\n");
    std::fs::write(out.join("sewing.rs"), text).expect("the build folder can be written");
}

fn read(path: &Path) -> String {
    std::fs::read_to_string(path)
        .unwrap_or_else(|error| stop(&format!("cannot read {}: {error}", path.display())))
}

fn stop(line: &str) -> ! {
    eprintln!("judge: {line}");
    std::process::exit(1)
}
