//! Lines of at most 140 characters in code, definitions, statements and Rust. Proofs are only counted.

use crate::reading::is_laws;
use crate::{Report, Tree};

pub const LONGEST: usize = 140;

/// The numbers of the lines that are longer. An attribute is no line of ours: rt fmt lays it out, and never breaks it.
fn longer(text: &str) -> Vec<usize> {
    let lines = text.lines().enumerate();
    let long = lines.filter(|(_, line)| {
        line.chars().count() > LONGEST && !line.trim_start().starts_with("#[tactic(")
    });
    long.map(|(number, _)| number + 1).collect()
}

pub fn check(tree: &Tree) -> Report {
    let (mut held, mut exempt, mut faults) = (0, 0, Vec::new());
    let rattle = tree.paths("crates/", ".rt");
    for path in rattle
        .chain(tree.paths("crates/", ".antt"))
        .chain(tree.paths("rust/", ".rs"))
    {
        let long = longer(tree.text(path).unwrap_or(""));
        if path.contains("/proofs/") || is_laws(path) {
            exempt += long.len();
            continue;
        }
        held += 1;
        if !long.is_empty() {
            let lines: Vec<String> = long.iter().map(usize::to_string).collect();
            faults.push(format!(
                "{path} has lines above {LONGEST} characters: {}",
                lines.join(", ")
            ));
        }
    }
    Report {
        summary: format!(
            "{held} files; {exempt} lines of proofs are longer than {LONGEST} characters"
        ),
        faults,
    }
}
