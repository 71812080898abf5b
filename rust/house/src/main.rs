//! `cargo run -p house` prints what the checks say; `cargo run -p house -- picture` draws the picture of
//! the crates anew into docs/HOUSE.md.

use house::{picture, Tree};
use std::process::ExitCode;

fn main() -> ExitCode {
    let tree = Tree::read();
    let good = match std::env::args().nth(1).as_deref() {
        None => house::run(&tree),
        Some("picture") => picture::write(&tree),
        Some(other) => {
            eprintln!("house: {other} is not known; the only word is picture");
            false
        }
    };
    if good {
        ExitCode::SUCCESS
    } else {
        ExitCode::FAILURE
    }
}
