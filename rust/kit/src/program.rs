//! The program `desk`, which `make` puts into target/bin.

use std::io::Write;
use std::path::{Path, PathBuf};
use std::process::{Command, Stdio};

/// The program `desk`. Where it is not there, nothing; in the gate, which makes it before the tests, that is a failure.
pub fn desk() -> Option<PathBuf> {
    let top = Path::new(env!("CARGO_MANIFEST_DIR")).join("../..");
    let program = top.join("target/bin/desk");
    let is_there = program.is_file();
    let must_be = std::env::var_os("GATE").is_some() && top.join("crates/desk").is_dir();
    assert!(is_there || !must_be, "target/bin/desk is not there");
    is_there.then_some(program)
}

/// What the program prints for a recording on its standard input, which comes in pieces of this length.
pub fn printed(program: &Path, recording: &[u8], piece: usize) -> String {
    let mut child = Command::new(program)
        .stdin(Stdio::piped())
        .stdout(Stdio::piped())
        .stderr(Stdio::piped())
        .spawn()
        .unwrap();
    let mut input = child.stdin.take().unwrap();
    // Both ways at once: neither side may wait for the other. The program may end before it has read all.
    let output = std::thread::scope(|scope| {
        scope.spawn(move || {
            for piece in recording.chunks(piece) {
                if input.write_all(piece).is_err() {
                    break;
                }
            }
        });
        child.wait_with_output().unwrap()
    });
    said(output)
}

/// What the program prints for a recording in a file.
pub fn printed_of(program: &Path, file: &Path) -> String {
    said(Command::new(program).arg(file).output().unwrap())
}

fn said(output: std::process::Output) -> String {
    assert!(output.status.success(), "desk ended with {}", output.status);
    assert!(output.stderr.is_empty(), "desk said {:?}", output.stderr);
    String::from_utf8(output.stdout).unwrap()
}
