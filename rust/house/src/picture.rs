//! The picture of the crates in docs/HOUSE.md, drawn from what their files use; and crates.txt, which
//! lists what is used and nothing else.

use crate::crates::{crates, Crate, How};
use crate::tree::between;
use crate::{rattle, Report, Tree};
use std::collections::{BTreeMap, BTreeSet};
use std::path::Path;

pub const HOUSE: &str = "docs/HOUSE.md";
const FROM: &str = "<!-- drawn by `cargo run -p house -- picture` -->\n```text\n";
const TO: &str = "```\n<!-- end of what is drawn -->";

/// How far above the ground each crate stands: one more than the highest that it uses.
fn levels(all: &[Crate]) -> BTreeMap<&str, usize> {
    let mut levels: BTreeMap<&str, usize> = all.iter().map(|one| (one.name.as_str(), 0)).collect();
    for _ in 0..all.len() {
        for one in all {
            let below = one
                .uses
                .keys()
                .filter_map(|other| levels.get(other.as_str()));
            let level = below.map(|level| level + 1).max().unwrap_or(0);
            levels.insert(&one.name, level);
        }
    }
    levels
}

/// The layers, and below them who uses whom.
pub fn draw(tree: &Tree) -> String {
    let mut all = crates(tree);
    let order: BTreeMap<String, usize> = levels(&all)
        .into_iter()
        .map(|(name, level)| (name.to_string(), level))
        .collect();
    all.sort_by_key(|one| order[&one.name]);
    layers(&all, &order) + "\n" + &uses(&all)
}

fn layers(all: &[Crate], order: &BTreeMap<String, usize>) -> String {
    let mut text = String::from("Each stands on crates below it alone.\n\n");
    for level in (0..all.len()).rev() {
        let here = all.iter().filter(|one| order[&one.name] == level);
        let boxes: Vec<String> = here.map(|one| format!("[ {} ]", one.name)).collect();
        if !boxes.is_empty() {
            text += &format!("{level:>4}   {}\n", boxes.join(" "));
        }
    }
    text
}

fn uses(all: &[Crate]) -> String {
    let mut text = String::from(
        "The crate of a row uses that of a column: c by its code, d only by definitions that it cites, \
         p only in proofs.\n\n",
    );
    let columns: String = (1..=all.len()).map(|n| format!("{n:>3}")).collect();
    text += &format!("{:<16}{columns}\n", "");
    for (row, one) in all.iter().enumerate() {
        let cell = |other: &Crate| match one.uses.get(&other.name) {
            Some(How::Code) => "  c",
            Some(How::Definitions) => "  d",
            Some(How::Proofs) => "  p",
            None => "  .",
        };
        let cells: String = all.iter().take(row).map(cell).collect();
        let line = format!("{:>3} {:<12}{cells}", row + 1, one.name);
        text += line.trim_end();
        text.push('\n');
    }
    text
}

/// A type of a crate: the crate's name and its own.
type Named = (String, String);

/// The types that a file imports, by their name there.
fn imported(owner: &str, text: &str) -> BTreeMap<String, Named> {
    let types = rattle::imports(text).into_iter().filter(|(path, _)| {
        path.last()
            .is_some_and(|name| name.starts_with(char::is_uppercase))
    });
    let named = |(path, here): (Vec<String>, String)| {
        let of = if path[0] == "crate" { owner } else { &path[0] };
        let name = path[path.len() - 1].to_string();
        (here, (of.to_string(), name))
    };
    types.map(named).collect()
}

/// The structs and enums of a file, each with the types that stand in it.
fn declared(owner: &str, text: &str) -> Vec<(Named, BTreeSet<Named>)> {
    let imported = imported(owner, text);
    let mut found: Vec<(Named, BTreeSet<Named>)> = Vec::new();
    let mut inside = false;
    for line in text.lines().map(rattle::code) {
        let words = || {
            line.split(|c: char| !c.is_alphanumeric() && c != '_')
                .filter(|word| !word.is_empty())
        };
        let rest = line.strip_prefix("pub ").unwrap_or(line);
        if rest.starts_with("struct ") || rest.starts_with("enum ") {
            let name = words()
                .find(|word| word.starts_with(char::is_uppercase))
                .unwrap_or("");
            found.push(((owner.to_string(), name.to_string()), BTreeSet::new()));
            inside = true;
        } else if inside {
            let own = |word: &str| (owner.to_string(), word.to_string());
            let types = words().filter(|word| word.starts_with(char::is_uppercase));
            let types = types.map(|word| imported.get(word).cloned().unwrap_or_else(|| own(word)));
            found.last_mut().unwrap().1.extend(types);
            inside = line.trim_end() != "}";
        }
    }
    found
}

/// The crates of which a type stands, at any depth, in a type that the crate declares or imports. rt asks that they be
/// listed too: the crate holds values of these types, though it has no line that names them.
fn reached(tree: &Tree, name: &str, types: &BTreeMap<Named, BTreeSet<Named>>) -> BTreeSet<String> {
    let mut found: BTreeSet<Named> = types
        .keys()
        .filter(|(owner, _)| owner == name)
        .cloned()
        .collect();
    for path in tree.paths(&format!("crates/{name}/src/"), ".rt") {
        found.extend(imported(name, tree.text(path).unwrap_or("")).into_values());
    }
    loop {
        let more: BTreeSet<Named> = found
            .iter()
            .filter_map(|one| types.get(one))
            .flatten()
            .cloned()
            .collect();
        let before = found.len();
        found.extend(more.into_iter().filter(|one| types.contains_key(one)));
        if found.len() == before {
            return found.into_iter().map(|(owner, _)| owner).collect();
        }
    }
}

/// What crates.txt lists beyond what is used or reached, or leaves out.
fn unused(tree: &Tree) -> Vec<String> {
    let all = crates(tree);
    let mut types = BTreeMap::new();
    for one in &all {
        for path in tree.paths(&format!("crates/{}/src/", one.name), ".rt") {
            types.extend(declared(&one.name, tree.text(path).unwrap_or("")));
        }
    }
    let mut faults = Vec::new();
    for one in &all {
        let reached = reached(tree, &one.name, &types);
        for other in &one.listed {
            if !one.uses.contains_key(other) && !reached.contains(other) {
                faults.push(format!(
                    "crates.txt lists {other} for {}, which does not use it",
                    one.name
                ));
            }
        }
        for other in one.uses.keys() {
            if !one.listed.contains(other) {
                faults.push(format!(
                    "{} uses {other}, which crates.txt does not list for it",
                    one.name
                ));
            }
        }
    }
    faults
}

pub fn check(tree: &Tree) -> Report {
    let mut faults = unused(tree);
    let stored = between(tree.text(HOUSE).unwrap_or(""), FROM, TO);
    if stored != Some(&draw(tree)) {
        faults.push(format!(
            "{HOUSE} does not have the picture of these crates: cargo run -p house -- picture"
        ));
    }
    let all = crates(tree);
    let uses: usize = all.iter().map(|one| one.uses.len()).sum();
    Report {
        summary: format!("{} crates, {uses} uses", all.len()),
        faults,
    }
}

/// Draws the picture anew into docs/HOUSE.md. Says whether its place was found there.
pub fn write(tree: &Tree) -> bool {
    let text = tree.text(HOUSE).unwrap_or("");
    let Some(old) = between(text, FROM, TO) else {
        eprintln!("house: {HOUSE} has no place for the picture:\n{FROM}{TO}");
        return false;
    };
    let at = text.find(FROM).unwrap() + FROM.len();
    let new = format!("{}{}{}", &text[..at], draw(tree), &text[at + old.len()..]);
    let path = Path::new(env!("CARGO_MANIFEST_DIR"))
        .join("../..")
        .join(HOUSE);
    std::fs::write(path, new).is_ok()
}
