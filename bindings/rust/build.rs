//! Links the archive that `tools/build sewing_c` writes.
use std::env;
use std::path::PathBuf;
use std::process::exit;

fn main() {
    println!("cargo::rerun-if-env-changed=ZAXCLOVER_LIB");
    let folder = match env::var_os("ZAXCLOVER_LIB") {
        Some(folder) => PathBuf::from(folder),
        None => PathBuf::from(env!("CARGO_MANIFEST_DIR")).join("../../target/staticlib"),
    };
    let archive = folder.join("libsewing_c.a");
    println!("cargo::rerun-if-changed={}", archive.display());
    let Ok(found) = folder.canonicalize() else {
        absent(&archive)
    };
    if !archive.is_file() {
        absent(&archive);
    }
    println!("cargo::rustc-link-search=native={}", found.display());
    println!("cargo::rustc-link-lib=static=sewing_c");
}

fn absent(archive: &std::path::Path) -> ! {
    eprintln!(
        "{} is not there: run `tools/build sewing_c` first, or set ZAXCLOVER_LIB to the folder that has it",
        archive.display()
    );
    exit(1);
}
