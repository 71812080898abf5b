//! README.md's programs are the files in examples/, and print what README.md says.

use std::path::{Path, PathBuf};
use std::process::Command;

fn top() -> PathBuf {
    Path::new(env!("CARGO_MANIFEST_DIR")).join("../..")
}

fn read(path: &str) -> String {
    std::fs::read_to_string(top().join(path)).unwrap_or_else(|error| panic!("{path}: {error}"))
}

/// Runs a command to its end; it must succeed. Gives what it printed.
fn run(command: &mut Command) -> String {
    let output = command.output().unwrap();
    let errors = String::from_utf8_lossy(&output.stderr);
    assert!(output.status.success(), "{command:?}\n{errors}");
    String::from_utf8(output.stdout).unwrap()
}

/// README.md has this text as a block of its own.
fn shown(language: &str, text: &str) {
    let block = format!("\n```{language}\n{text}```\n");
    assert!(
        read("README.md").contains(&block),
        "README.md does not show:{block}"
    );
}

/// The example of this name is in README.md, and so is what it prints.
fn c_example(name: &str) {
    let file = format!("examples/{name}.c");
    shown("c", &read(&file));
    let program = Path::new(env!("CARGO_TARGET_TMPDIR")).join(name);
    run(Command::new("gcc")
        .args(["-std=c99", "-Wall", "-Wextra", "-Werror", "-pedantic"])
        .arg("-I")
        .arg(top().join("include"))
        .arg(top().join(file))
        .arg(env!("EMBANKERY_ARCHIVE"))
        .arg("-o")
        .arg(&program));
    shown("text", &run(&mut Command::new(program)));
}

#[test]
fn in_c() {
    c_example("first");
}

#[test]
fn with_prepared_tables() {
    c_example("prepared");
}

/// Likewise in Rust.
fn rust_example(name: &str) {
    shown("rust", &read(&format!("examples/{name}.rs")));
    let printed = run(Command::new(env!("CARGO"))
        .args(["run", "--offline", "--locked", "--quiet", "--example", name])
        .current_dir(env!("CARGO_MANIFEST_DIR")));
    shown("text", &printed);
}

#[test]
fn in_rust() {
    rust_example("first");
}

#[test]
fn by_tcp_md5() {
    rust_example("md5");
}
