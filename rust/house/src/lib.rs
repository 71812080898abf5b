//! Reads the tree and holds its documents to it. Each check gives one line that says what it looked
//! at, and a line for each thing that is wrong.

pub mod antt;
pub mod claims;
pub mod crates;
pub mod layout;
pub mod numbers;
pub mod picture;
pub mod rattle;
pub mod reading;
pub mod tree;

pub use tree::Tree;

/// What a check found.
#[derive(Debug)]
pub struct Report {
    /// What was looked at, with its numbers.
    pub summary: String,
    /// What is wrong; none is wanted.
    pub faults: Vec<String>,
}

/// A check of the whole tree.
pub type Check = fn(&Tree) -> Report;

/// Every check, under the name that is printed before its line.
pub const CHECKS: [(&str, Check); 5] = [
    ("claims", claims::check),
    ("numbers", numbers::check),
    ("picture", picture::check),
    ("reading", reading::check),
    ("layout", layout::check),
];

/// Runs every check and prints its lines. Says whether nothing is wrong.
pub fn run(tree: &Tree) -> bool {
    let mut good = true;
    for (name, check) in CHECKS {
        let report = check(tree);
        for fault in &report.faults {
            println!("house {name}: WRONG: {fault}");
        }
        let verdict = match report.faults.len() {
            0 => "nothing wrong".to_string(),
            wrong => format!("{wrong} WRONG"),
        };
        println!("house {name}: {}, {verdict}", report.summary);
        good &= report.faults.is_empty();
    }
    good
}
