//! Copies the reference's text to OUT_DIR, each edit of the list in it as a switch.

#[path = "src/faults.rs"]
mod faults;
#[allow(dead_code)] // what a fault does and breaks is said by the library
#[path = "src/switches.rs"]
mod switches;

use std::fs;
use std::path::{Path, PathBuf};

fn main() {
    println!("cargo:rerun-if-changed=build.rs");
    println!("cargo:rerun-if-changed=src/faults.rs");
    println!("cargo:rerun-if-changed=src/switches.rs");
    let reference = Path::new(env!("CARGO_MANIFEST_DIR")).join("../reference/src");
    println!("cargo:rerun-if-changed={}", reference.display());

    let mut files: Vec<PathBuf> = fs::read_dir(&reference)
        .unwrap()
        .map(|file| file.unwrap().path())
        .filter(|path| !path.ends_with("lib.rs"))
        .collect();
    files.sort();

    let mut copy = String::new();
    let mut wrong = vec![];
    for path in &files {
        let file = path.file_name().unwrap().to_str().unwrap();
        let module = file.strip_suffix(".rs").unwrap();
        match switches::switched(file, &fs::read_to_string(path).unwrap(), faults::FAULTS) {
            // The calls are all that is used from outside; the rest is there for them.
            Ok(text) => {
                let lints = "dead_code, unused_parens, unused_variables, clippy::all";
                copy += &format!("#[allow({lints})]\npub mod {module} {{\n{text}}}\n");
            }
            Err(errors) => wrong.extend(errors),
        }
    }
    for fault in faults::FAULTS {
        if !files.iter().any(|path| path.ends_with(fault.file)) {
            wrong.push(format!("{}: there is no {}", fault.name, fault.file));
        }
    }
    if !wrong.is_empty() {
        for error in wrong {
            eprintln!("error: src/faults.rs: {error}");
        }
        std::process::exit(1);
    }
    let to = PathBuf::from(std::env::var_os("OUT_DIR").unwrap()).join("reference.rs");
    fs::write(to, copy).unwrap();
}
