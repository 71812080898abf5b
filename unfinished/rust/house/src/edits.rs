//! A must-fail edit is worth something only where the prover refuses it at the fact that it makes wrong. So an edit
//! changes operands, and neither a proof nor the shape of a function or a definition, or says why; and what the prover
//! said first of it, in the log that rt leaves, is not about shape: a name that is not there, a text that cannot be read,
//! a definition or contract that has no type.

use crate::antt;
use crate::reading::is_laws;
use crate::{rattle, Report, Tree};
use std::collections::BTreeMap;
use std::fs;
use std::path::Path;

/// An edit, as rt reads it: replacements one after another, each of a text that stands once in its file.
#[derive(Debug, Default)]
pub struct Edit {
    pub owner: String,
    pub label: String,
    pub pairs: Vec<(String, String, String)>,
    /// Whether it says why it changes more than operands.
    pub why: bool,
}

impl Edit {
    fn read(path: &str, text: &str) -> Option<Edit> {
        let rest = path.strip_prefix("crates/")?;
        let (owner, label) = rest.split_once("/must-fail/")?;
        let mut edit = Edit {
            owner: owner.to_string(),
            label: label.strip_suffix(".edit")?.to_string(),
            ..Edit::default()
        };
        let (mut file, mut old) = (String::new(), String::new());
        for line in text.lines() {
            if let Some(path) = line.strip_prefix("file: ") {
                file = path.to_string();
            } else if let Some(text) = line.strip_prefix("old: ") {
                old = text.to_string();
            } else if let Some(text) = line.strip_prefix("new:") {
                let new = text.strip_prefix(' ').unwrap_or(text).to_string();
                edit.pairs
                    .push((file.clone(), std::mem::take(&mut old), new));
            } else if line
                .strip_prefix("why: ")
                .is_some_and(|words| words.split(' ').count() > 3)
            {
                edit.why = true;
            }
        }
        Some(edit)
    }

    pub fn name(&self) -> String {
        format!("{}/{}", self.owner, self.label)
    }

    pub fn changes(&self, file: &str) -> bool {
        self.pairs.iter().any(|(changed, _, _)| changed == file)
    }

    /// The texts of the files that it changes, before and after.
    fn applied(&self, tree: &Tree) -> Result<BTreeMap<String, (String, String)>, String> {
        let mut files: BTreeMap<String, (String, String)> = BTreeMap::new();
        for (file, old, new) in &self.pairs {
            let path = format!("crates/{}/{file}", self.owner);
            let text = tree.text(&path).ok_or(format!("there is no {path}"))?;
            let (_, now) = files
                .entry(file.clone())
                .or_insert((text.to_string(), text.to_string()));
            if old.is_empty() || now.matches(old.as_str()).count() != 1 {
                return Err(format!("`{old}` does not stand once in {file}"));
            }
            *now = now.replacen(old.as_str(), new, 1);
        }
        Ok(files)
    }
}

/// The tree's edits, in the order of their paths.
pub fn edits(tree: &Tree) -> Vec<Edit> {
    tree.paths("crates/", ".edit")
        .filter_map(|path| Edit::read(path, tree.text(path).unwrap_or("")))
        .collect()
}

/// Words of Rattle that make another path through a function.
const PATHS: [&str; 12] = [
    "fn", "if", "else", "while", "loop", "for", "match", "return", "break", "continue", "let", "as",
];
/// Signs that compare, of which one proves like another.
const COMPARES: [&str; 6] = ["==", "!=", "<=", ">=", "<", ">"];
const SIGNS: [&str; 10] = ["=>", "<<", ">>", "->", "==", "!=", "<=", ">=", "&&", "||"];

/// The shape of code: its statements, calls, operators and brackets, without the operands. Each of them is a part of the
/// function's proof.
fn shape(text: &str) -> Vec<String> {
    let mut found = Vec::new();
    for line in text.lines().map(rattle::code) {
        // a length is an operand
        let line = line.replace(".len()", "");
        let mut rest = line.trim_start();
        while let Some(first) = rest.chars().next() {
            let is_name = |c: char| c.is_alphanumeric() || c == '_';
            let length = if is_name(first) {
                rest.find(|c| !is_name(c)).unwrap_or(rest.len())
            } else {
                let double = SIGNS.iter().find(|sign| rest.starts_with(**sign));
                double.map_or(first.len_utf8(), |sign| sign.len())
            };
            let word = &rest[..length];
            if COMPARES.contains(&word) {
                found.push("compare".to_string());
            } else if PATHS.contains(&word) || (!is_name(first) && word != ".") {
                found.push(word.to_string());
            }
            rest = rest[length..].trim_start();
        }
    }
    found
}

/// The names and types of a definition file: what it declares and of which type, without its equations.
fn signatures(text: &str) -> Vec<(String, String)> {
    let lines: Vec<&str> = text.lines().map(antt::code).collect();
    let found = antt::declared(text);
    let mut all: Vec<(String, String)> = found
        .definitions
        .iter()
        .map(|one| (one.name.clone(), lines[one.line - 1].to_string()))
        .collect();
    all.extend(found.types.into_iter().map(|name| (name, String::new())));
    all
}

/// What an edit changes besides operands.
fn changed_shape(file: &str, before: &str, after: &str) -> Option<&'static str> {
    if file.starts_with("proofs/") {
        Some("a proof")
    } else if is_laws(file) {
        Some("a file of laws")
    } else if file.ends_with(".rt") {
        (shape(before) != shape(after)).then_some("the shape of a function")
    } else {
        (signatures(before) != signatures(after)).then_some("the type of a definition")
    }
}

pub fn check(tree: &Tree) -> Report {
    let edits = edits(tree);
    let (mut reasons, mut faults) = (0, Vec::new());
    for edit in &edits {
        let name = edit.name();
        match edit.applied(tree) {
            Err(fault) => faults.push(format!("{name}: {fault}")),
            Ok(files) => {
                let shapes = files.iter().filter_map(|(file, (before, after))| {
                    changed_shape(file, before, after).map(|what| (file, what))
                });
                let shapes: Vec<_> = shapes.collect();
                reasons += usize::from(!shapes.is_empty());
                for (file, what) in shapes.iter().filter(|_| !edit.why) {
                    faults.push(format!(
                        "{name} changes {what} in {file}, and no `why:` line says why"
                    ));
                }
                if edit.why && shapes.is_empty() {
                    faults.push(format!(
                        "{name} has a `why:` line, and changes operands alone"
                    ));
                }
            }
        }
    }
    if edits.is_empty() {
        faults.push("there are no edits".to_string());
    }
    Report {
        summary: format!(
            "{} edits of operands, {reasons} of which change more and say why",
            edits.len()
        ),
        faults,
    }
}

/// What the prover says of a name that is not there, of a text that cannot be read, of a function that its proof is not of.
const OF_SHAPE: [&str; 6] = [
    "is not in scope",
    "that can be named from here",
    "has no field",
    "has no function",
    "has no clause for",
    "is still open",
];
/// What it says of a part that stands in the place of another, which a proof that an edit changes may bring about.
const OF_PLACE: &str = "a tuple is checked against";
/// What follows from another error.
const FOLLOWS: &str = "was not admitted";

/// What the prover said first of an edit: the file, whether it is an error or a note of what is not proved, and the words.
pub fn first_error(edit: &Edit, log: &str) -> Option<(String, bool, String)> {
    let folder = format!("/must-fail/{}/", edit.name());
    log.lines().find_map(|line| {
        let noted = line.strip_prefix("note: ");
        let (place, words) = noted.unwrap_or(line).split_once(": ")?;
        let is_error = noted.is_none();
        let (_, place) = place.split_once(&folder)?;
        if place.contains(' ')
            || words.contains(FOLLOWS)
            || (is_error && !words.starts_with("error"))
        {
            return None;
        }
        let file = place.split(':').next().unwrap_or(place);
        Some((file.to_string(), is_error, words.to_string()))
    })
}

/// What is wrong with a refusal, if something is.
pub fn fault(edit: &Edit, log: &str) -> Option<String> {
    let Some((file, is_error, words)) = first_error(edit, log) else {
        return Some("its log does not say at what it was refused".to_string());
    };
    let shown: String = words.chars().take(200).collect();
    let of_shape = OF_SHAPE.iter().any(|phrase| words.contains(phrase));
    let proves = file.starts_with("proofs/") || is_laws(&file);
    if of_shape || (edit.why && words.contains(OF_PLACE)) {
        Some(format!("refused for its shape, in {file}: {shown}"))
    } else if is_error && !proves {
        Some(format!("refused in {file}, which holds no proof: {shown}"))
    } else if is_error && edit.changes(&file) && !edit.why {
        Some(format!("refused in {file}, which it changes: {shown}"))
    } else {
        None
    }
}

/// Reads the log of every edit that rt tried, and says at what each was refused. Says whether nothing is wrong.
pub fn read_logs(tree: &Tree, target: &Path) -> bool {
    let edits = edits(tree);
    let mut wrong = 0;
    for edit in &edits {
        let folder = target.join("must-fail").join(&edit.owner).join(&edit.label);
        let fault = match fs::read(folder.join(".log")) {
            Err(_) => Some("rt left no log of it".to_string()),
            Ok(log) => fault(edit, &String::from_utf8_lossy(&log)),
        };
        if let Some(fault) = fault {
            println!("house refusals: WRONG: {}: {fault}", edit.name());
            wrong += 1;
        }
    }
    match wrong {
        0 => println!(
            "house refusals: {} edits, each refused at a fact, nothing wrong",
            edits.len()
        ),
        _ => println!("house refusals: {} edits, {wrong} WRONG", edits.len()),
    }
    wrong == 0 && !edits.is_empty()
}
