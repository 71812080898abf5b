//! The crates of crates.txt, and who really uses whom.

use crate::{antt, rattle, Tree};
use std::collections::{BTreeMap, BTreeSet};

/// How one crate uses another, the closest way of those found.
#[derive(Clone, Copy, PartialEq, Eq, PartialOrd, Ord, Debug)]
pub enum How {
    /// Only its proofs do.
    Proofs,
    /// Its definitions or contracts cite the other's definitions.
    Definitions,
    /// Its code calls the other's functions or has its types.
    Code,
}

/// A line of crates.txt, with what is found in the crate's files.
#[derive(Debug)]
pub struct Crate {
    pub name: String,
    pub listed: Vec<String>,
    pub uses: BTreeMap<String, How>,
}

/// The crates in the order of crates.txt.
pub fn crates(tree: &Tree) -> Vec<Crate> {
    let lines = tree.text("crates.txt").unwrap_or("").lines();
    let lines = lines.map(|line| line.split('#').next().unwrap_or(""));
    let listed: Vec<(String, Vec<String>)> = lines
        .filter_map(|line| line.split_once(':'))
        .map(|(head, rest)| {
            // behind the name stand words of rt's, as `staticlib`
            let name = head.split_whitespace().next().unwrap_or("");
            (
                name.to_string(),
                rest.split_whitespace().map(str::to_string).collect(),
            )
        })
        .collect();
    let known: BTreeSet<String> = listed
        .iter()
        .flat_map(|(name, rest)| rest.iter().chain([name]))
        .cloned()
        .collect();
    let make = |(name, listed): &(String, Vec<String>)| Crate {
        name: name.clone(),
        listed: listed.clone(),
        uses: uses(tree, name, &known),
    };
    listed.iter().map(make).collect()
}

/// The crates and libraries that a crate's files name.
fn uses(tree: &Tree, name: &str, known: &BTreeSet<String>) -> BTreeMap<String, How> {
    let mut found = BTreeMap::new();
    let mut note = |other: &str, how: How| {
        // a module of its own hides a crate of that name
        let own = tree.has(&format!("crates/{name}/src/{other}.rt"));
        if other != name && known.contains(other) && !own {
            let old = found.entry(other.to_string()).or_insert(how);
            *old = how.max(*old);
        }
    };
    for path in tree.paths(&format!("crates/{name}/"), ".rt") {
        for line in tree.text(path).unwrap_or("").lines().map(rattle::code) {
            rattle::path_starts(line)
                .into_iter()
                .for_each(|other| note(other, How::Code));
            cited(line)
                .into_iter()
                .for_each(|other| note(other, How::Definitions));
        }
    }
    for path in tree.paths(&format!("crates/{name}/"), ".antt") {
        let how = if path.contains("/proofs/") || path.ends_with("Laws.antt") {
            How::Proofs
        } else {
            How::Definitions
        };
        for line in tree.text(path).unwrap_or("").lines().map(antt::code) {
            cited(line).into_iter().for_each(|other| note(other, how));
        }
    }
    found
}

/// The crates that a line names by `Rattle.crate`.
fn cited(line: &str) -> Vec<&str> {
    let is_part = |c: char| c.is_ascii_alphanumeric() || c == '_';
    let rests = line.split("Rattle.").skip(1);
    let name = |rest: &'_ str| rest.find(|c| !is_part(c)).unwrap_or(rest.len());
    rests.map(|rest| &rest[..name(rest)]).collect()
}
