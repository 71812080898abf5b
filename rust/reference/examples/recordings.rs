//! `recordings FOLDER` writes the demonstration's recordings there, as they stand in crates/desk/data, and prints what
//! the program `desk` prints for them.

use kit::{calls_of, Boundary};
use std::path::PathBuf;

fn main() -> std::io::Result<()> {
    let folder = PathBuf::from(std::env::args().nth(1).unwrap_or(".".to_string()));
    let reference = calls_of!(Boundary, reference::boundary);
    for (name, bytes) in kit::rollover::recordings(reference) {
        std::fs::write(folder.join(name), &bytes)?;
        print!("{name}\n{}", reference::desk::printed(&bytes));
    }
    Ok(())
}
