//! Links libembankery.a, which `make archive` writes to target/staticlib of this
//! repository. EMBANKERY_ARCHIVE_DIR, if set, names another folder that has it.

use std::path::{Path, PathBuf};

fn main() {
    println!("cargo:rerun-if-changed=build.rs");
    println!("cargo:rerun-if-env-changed=EMBANKERY_ARCHIVE_DIR");
    let here = std::env::var("CARGO_MANIFEST_DIR").unwrap();
    let folder = match std::env::var_os("EMBANKERY_ARCHIVE_DIR") {
        Some(folder) => PathBuf::from(folder),
        None => Path::new(&here).join("../../target/staticlib"),
    };
    let archive = folder.join("libembankery.a");
    println!("cargo:rerun-if-changed={}", archive.display());
    if !archive.is_file() {
        eprintln!("error: {} is not there.", archive.display());
        eprintln!("error: run `make archive` at the top of the repository, or `make`.");
        std::process::exit(1);
    }
    println!("cargo:rustc-link-search=native={}", folder.display());
    println!("cargo:rustc-link-lib=static=embankery");
    // For the test that links a C program with the same archive.
    println!("cargo:rustc-env=EMBANKERY_ARCHIVE={}", archive.display());
}
