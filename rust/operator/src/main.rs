//! The operator's command.

use std::io::{self, BufWriter, Write};

fn main() {
    let arguments: Vec<String> = std::env::args().skip(1).collect();
    let mut out = BufWriter::new(io::stdout().lock());
    let mut status = operator::run(&arguments, &mut out, &mut io::stderr().lock());
    if out.flush().is_err() {
        status = status.max(1);
    }
    // What is left in the buffer was written, or cannot be.
    std::process::exit(i32::from(status));
}
