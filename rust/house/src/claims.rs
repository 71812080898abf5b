//! docs/CLAIMS.md names only what is there: its first section says how it names things.

use crate::crates::{crates, Crate};
use crate::reading::is_laws;
use crate::{antt, rattle, Report, Tree};
use std::collections::{BTreeMap, BTreeSet};

pub const CLAIMS: &str = "docs/CLAIMS.md";
/// Words of the language, which name nothing of ours.
const LANGUAGE: [&str; 2] = ["requires", "ensures"];

/// What the claims may name, by file.
struct Index<'a> {
    tree: &'a Tree,
    crates: Vec<Crate>,
    names: BTreeMap<String, BTreeSet<String>>,
}

impl<'a> Index<'a> {
    fn new(tree: &'a Tree) -> Index<'a> {
        let mut names = BTreeMap::new();
        for path in tree.paths("crates/", ".antt") {
            let found = antt::declared(tree.text(path).unwrap_or(""));
            let definitions = found
                .definitions
                .into_iter()
                .map(|definition| definition.name);
            names.insert(
                path.to_string(),
                found.types.into_iter().chain(definitions).collect(),
            );
        }
        for path in tree
            .paths("crates/", ".rt")
            .chain(tree.paths("rust/", ".rs"))
        {
            names.insert(
                path.to_string(),
                rattle::declared(tree.text(path).unwrap_or("")),
            );
        }
        Index {
            tree,
            crates: crates(tree),
            names,
        }
    }

    fn is_crate(&self, name: &str) -> bool {
        self.crates.iter().any(|one| one.name == name)
    }

    fn declares(&self, file: &str, name: &str) -> bool {
        self.names
            .get(file)
            .is_some_and(|names| names.contains(name))
    }

    /// `crate::module::item`, `module::item`, `Type::function` or `crate::module`: the file that has it, of
    /// the given crates where the path names none.
    fn path(&self, path: &str, own: &[String]) -> Option<String> {
        let (first, rest) = path.split_once("::")?;
        let (of, rest) = if self.is_crate(first) {
            (vec![first.to_string()], rest)
        } else {
            (own.to_vec(), path)
        };
        of.iter().find_map(|owner| {
            let (module, item) = rest.split_once("::").unwrap_or((rest, ""));
            let file = |module: &str| format!("crates/{owner}/src/{module}.rt");
            if self.names.contains_key(&file(module)) {
                let there = item.is_empty() || self.declares(&file(module), item);
                return there.then(|| file(module));
            }
            let start = format!("crates/{owner}/src/");
            let mut files = self.names.keys().filter(|path| path.starts_with(&start));
            files.find(|path| self.declares(path, rest)).cloned()
        })
    }

    /// The file or folder that a word with a slash, or a file's name alone, stands for.
    fn file(&self, word: &str, own: &[String]) -> Option<String> {
        let below = format!("crates/{word}");
        if word.contains('/') {
            return [word.to_string(), below]
                .into_iter()
                .find(|path| self.tree.has(path));
        }
        let place =
            |folder: &'static str| move |owner: &String| format!("crates/{owner}/{folder}/{word}");
        let laws = own.iter().filter(|_| is_laws(word)).map(place("proofs"));
        let mut places = own.iter().map(place("specs")).chain(laws);
        places.find(|path| self.tree.has(path))
    }
}

fn is_file(word: &str) -> bool {
    word.contains('/')
        || [".antt", ".rt", ".rs", ".md"]
            .iter()
            .any(|end| word.ends_with(end))
}

/// The parts of a text between backticks.
fn quoted(text: &str) -> impl Iterator<Item = &str> {
    text.split('`').skip(1).step_by(2)
}

/// One row of a table: its faults.
fn row(index: &Index, own: &[String], line: &str, faults: &mut Vec<String>) -> usize {
    let files: Vec<String> = quoted(line)
        .filter(|word| is_file(word))
        .filter_map(|word| index.file(word, own))
        .collect();
    let mut count = 0;
    for cell in line.split('|') {
        let mut file: Option<String> = None;
        let mut owner: Option<String> = None;
        for word in quoted(cell) {
            count += 1;
            let bare = word.split('(').next().unwrap_or(word);
            if index.is_crate(word)
                || LANGUAGE.contains(&word)
                || word.starts_with("rt ")
                || word.starts_with("Rattle.std.")
            {
                continue;
            } else if let Some(target) = word.strip_prefix("make") {
                let target = format!(
                    "\n{}:",
                    if target.is_empty() {
                        "all"
                    } else {
                        target.trim()
                    }
                );
                if !index.tree.text("Makefile").unwrap_or("").contains(&target) {
                    faults.push(format!("`{word}` is no target of the Makefile"));
                }
            } else if is_file(word) {
                file = index.file(word, own);
                owner = None;
                if file.is_none() {
                    faults.push(format!("there is no file `{word}` ({})", own.join(", ")));
                }
            } else if bare.contains("::") {
                file = index.path(bare, own);
                owner = bare.rsplit_once("::").map(|(owner, _)| owner.to_string());
                if file.is_none() {
                    faults.push(format!("`{word}` is not in src/ of {}", own.join(", ")));
                }
            } else if !named(index, own, bare, &file, owner.as_deref(), &files) {
                let place = file
                    .as_deref()
                    .map_or_else(|| own.join(", "), str::to_string);
                faults.push(format!("`{word}` is not declared in {place}"));
            }
        }
    }
    count
}

/// Whether a name is declared in the file named before it in its cell; if none is, in one that its row names, or in
/// the crates of its section.
fn named(
    index: &Index,
    own: &[String],
    name: &str,
    file: &Option<String>,
    owner: Option<&str>,
    row: &[String],
) -> bool {
    if let Some(file) = file {
        let method = owner.map(|owner| format!("{owner}::{name}"));
        return index.declares(file, name)
            || method.is_some_and(|method| index.declares(file, &method));
    }
    if row.iter().any(|file| index.declares(file, name)) {
        return true;
    }
    let of_section = |path: &String| {
        own.iter()
            .any(|owner| path.starts_with(&format!("crates/{owner}/")))
    };
    index
        .names
        .keys()
        .filter(|path| of_section(path))
        .any(|path| index.declares(path, name))
}

/// The edits that a line names outside backticks: `crate/a, b` or `crate/*`.
fn edits(line: &str) -> Vec<(String, String)> {
    let is_part = |c: char| c.is_ascii_alphanumeric() || c == '_';
    let mut found = Vec::new();
    for text in line.split('`').step_by(2) {
        for (at, _) in text.match_indices('/') {
            let from = text[..at].trim_end_matches(is_part).len();
            let owner = &text[from..at];
            let mut rest = &text[at + 1..];
            if !owner.starts_with(|c: char| c.is_ascii_lowercase()) || text[..from].ends_with('/') {
                continue;
            }
            loop {
                let length = rest.find(|c| !is_part(c) && c != '*').unwrap_or(rest.len());
                let ends = rest[length..].trim_start().chars().next();
                // a word that goes on as a sentence, or begins another path, is no name of this list
                if length == 0 || !ends.is_none_or(|c| ",;).|:".contains(c)) {
                    break;
                }
                found.push((owner.to_string(), rest[..length].to_string()));
                match rest[length..].strip_prefix(", ") {
                    Some(next) => rest = next,
                    None => break,
                }
            }
        }
    }
    found
}

pub fn check(tree: &Tree) -> Report {
    let index = Index::new(tree);
    let (mut own, mut count, mut faults) = (Vec::new(), 0, Vec::new());
    let mut tried = BTreeSet::new();
    for (number, line) in tree.text(CLAIMS).unwrap_or("").lines().enumerate() {
        let mut wrong = Vec::new();
        if let Some(heading) = line.strip_prefix("## ") {
            own = quoted(heading).map(str::to_string).collect();
            let missing = own.iter().filter(|name| !index.is_crate(name));
            wrong.extend(missing.map(|name| format!("there is no crate `{name}`")));
        } else if line.starts_with('|') {
            count += row(&index, &own, line, &mut wrong);
        } else {
            let files = quoted(line).filter(|word| is_file(word) && !word.ends_with('/'));
            let missing = files.filter(|word| index.file(word, &own).is_none());
            wrong.extend(missing.map(|word| format!("there is no file `{word}`")));
        }
        for (owner, name) in edits(line) {
            let path = format!("crates/{owner}/must-fail/{name}.edit");
            let folder = format!("crates/{owner}/must-fail");
            if !tree.has(if name == "*" { &folder } else { &path }) {
                wrong.push(format!("there is no edit {owner}/{name}"));
            }
            tried.insert((owner, name));
        }
        faults.extend(
            wrong
                .into_iter()
                .map(|fault| format!("{CLAIMS}, line {}: {fault}", number + 1)),
        );
    }
    if count == 0 {
        faults.push(format!("{CLAIMS} names nothing"));
    }
    Report {
        summary: format!("{count} names and {} edits of {CLAIMS}", tried.len()),
        faults,
    }
}
