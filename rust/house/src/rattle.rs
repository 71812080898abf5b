//! What a file of Rattle or of Rust declares, as far as its layout shows it.

use std::collections::BTreeSet;

/// A line without its comment. No string of ours has two slashes.
pub fn code(line: &str) -> &str {
    line.split("//").next().unwrap_or(line)
}

const KINDS: [&str; 8] = [
    "fn", "struct", "enum", "const", "static", "type", "trait", "mod",
];
const USES: [&str; 3] = ["use ", "pub use ", "pub(crate) use "];
const BEFORE: [&str; 4] = ["pub", "pub(crate)", "extern", "\"C\""];

/// Functions, types and constants, `Type::function` for one of an `impl`, and the names of a contract's clauses.
pub fn declared(text: &str) -> BTreeSet<String> {
    let mut found = BTreeSet::new();
    let mut owner: Option<String> = None;
    for line in text.lines().map(code) {
        if !line.starts_with(' ') && !line.trim().is_empty() && line.trim() != "}" {
            owner = line
                .strip_prefix("impl ")
                .map(|rest| name(rest.rsplit(" for ").next().unwrap_or(rest)));
        }
        let mut words = line
            .split_whitespace()
            .skip_while(|word| BEFORE.contains(word));
        let (Some(kind), Some(next)) = (words.next(), words.next()) else {
            continue;
        };
        if KINDS.contains(&kind) {
            let item = name(next);
            if let Some(owner) = &owner {
                found.insert(format!("{owner}::{item}"));
            }
            found.insert(item);
        } else if kind == "ensures" && next != "{" {
            found.insert(name(next));
        }
    }
    found
}

/// The name that a text begins with.
fn name(text: &str) -> String {
    let other = |c: char| !c.is_alphanumeric() && c != '_';
    text.split(other).next().unwrap_or(text).to_string()
}

/// What a file's use lines bring in: the path of each name, and the name here. Braces are not nested, as `rt fmt` has it.
pub fn imports(text: &str) -> Vec<(Vec<String>, String)> {
    let mut found = Vec::new();
    let mut lines = text.lines().map(code);
    while let Some(line) = lines.next() {
        let rest = USES.iter().find_map(|front| line.strip_prefix(front));
        let Some(mut tree) = rest.map(str::to_string) else {
            continue;
        };
        while !tree.contains(';') {
            let Some(line) = lines.next() else { break };
            tree += line;
        }
        let tree = tree.split(';').next().unwrap_or("");
        let (above, names) = tree.split_once('{').unwrap_or(("", tree));
        let names = names.trim_end_matches('}').split(',').map(str::trim);
        for name in names.filter(|name| !name.is_empty()) {
            let (name, here) = name.split_once(" as ").unwrap_or((name, name));
            let path = format!("{above}{name}");
            let path: Vec<String> = path.split("::").map(str::to_string).collect();
            let here = here.rsplit("::").next().unwrap_or(here).to_string();
            found.push((path, here));
        }
    }
    found
}

/// The first names of the paths `a::b` in a line.
pub fn path_starts(line: &str) -> Vec<&str> {
    let is_part = |c: char| c.is_ascii_alphanumeric() || c == '_';
    let starts = line.match_indices("::").filter_map(|(at, _)| {
        let from = line[..at].trim_end_matches(is_part).len();
        let first = !line[..from].ends_with(':');
        (first && from < at).then(|| &line[from..at])
    });
    starts.collect()
}

#[cfg(test)]
mod tests {
    use super::*;

    #[test]
    fn declarations() {
        let text = "pub struct A {\n    b: u8,\n}\nimpl A {\n    pub fn new() -> A\n        ensures whole { x }\n    {\n}\n}\n\
                    // fn gone()\npub fn f(x: u8) -> u8\n";
        let found = declared(text);
        let wanted = ["A", "A::new", "f", "new", "whole"];
        assert_eq!(found.iter().map(String::as_str).collect::<Vec<_>>(), wanted);
    }

    #[test]
    fn paths() {
        assert_eq!(
            path_starts("use crate::keys::x; keys::table::find(mac::f())"),
            ["crate", "keys", "mac"]
        );
    }

    #[test]
    fn used() {
        let text = "use a::B;\npub use crate::c::{\n    D, e::f, // x\n    H as I,\n};\nghost use k.{L};\n";
        let found: Vec<String> = imports(text)
            .into_iter()
            .map(|(path, here)| path.join("::") + " " + &here)
            .collect();
        let wanted = [
            "a::B B",
            "crate::c::D D",
            "crate::c::e::f f",
            "crate::c::H I",
        ];
        assert_eq!(found, wanted);
    }
}
