//! No file of definitions or statements, which docs/READING.md lists, holds a statement that nobody proves. Its section
//! "What is a proof" has the rule in words; this is the rule.
//!
//! A type of a file of specs/ that is not one of laws is data (it holds numbers, truth values, lists of these, types of
//! Rattle, and nothing else), a statement (it has no parameter and is not data) or a predicate (it has parameters and is
//! not data). A statement is proved where a value at the margin of a file of laws has it as its type, or has a
//! conjunction or a record with it, and no premise. A predicate is cited where a contract or the type of a law names it,
//! or a definition that is cited.

use crate::antt::{self, code};
use crate::reading::is_laws;
use crate::{rattle, Report, Tree};
use std::collections::{BTreeMap, BTreeSet};

/// A declaration: where it stands, and its name.
type Place = (String, String);

/// Names of the language and the library that are data, or make data of data.
const DATA: [&str; 9] = ["ℕ", "Bool", "List", "Maybe", "Unit", "→", "×", "Type", "0"];

/// What makes a type say less than its parts.
const CONDITIONAL: [&str; 6] = ["→", "⊎", "Σ", "∃", "λ", ":"];
const BRACKETS: [&str; 4] = ["(", ")", "{", "}"];

/// What a declaration is.
#[derive(Debug, Clone, PartialEq, Eq)]
enum Kind {
    /// `record` or `data`, with its members' types.
    Type { members: Vec<Vec<String>> },
    /// A definition by equations, with the right sides of these.
    Equations { right: Vec<Vec<String>> },
}

#[derive(Debug, Clone)]
struct Declaration {
    name: String,
    line: usize,
    /// Whether it stands at the margin, in no module and no `where`.
    margin: bool,
    /// Its parameters and result, without the name and the colon.
    signature: Vec<String>,
    /// Whether it was declared with parameters before the colon, or in a module that has some.
    parameters: bool,
    /// Its parameters before the colon, and its fields, that are types.
    types: Vec<String>,
    kind: Kind,
    /// All that its lines name.
    named: Vec<String>,
}

/// The words of a text: names, symbols, brackets; no projection.
fn words(text: &str) -> Vec<String> {
    let mut found = Vec::new();
    let mut word = String::new();
    let end = |word: &mut String, found: &mut Vec<String>| {
        let bare = word.trim_end_matches('.');
        if !bare.is_empty() && !bare.starts_with('.') {
            found.push(bare.to_string());
        }
        word.clear();
    };
    for c in text.chars() {
        if c.is_whitespace() || "(){};,".contains(c) {
            end(&mut word, &mut found);
            if !c.is_whitespace() {
                found.push(c.to_string());
            }
        } else {
            word.push(c);
        }
    }
    end(&mut word, &mut found);
    found
}

fn indent(line: &str) -> usize {
    line.len() - line.trim_start().len()
}

/// The places of a symbol outside all brackets.
fn outside(words: &[String], symbol: &str) -> Vec<usize> {
    let mut depth = 0;
    let mut found = Vec::new();
    for (at, word) in words.iter().enumerate() {
        match word.as_str() {
            "(" | "{" => depth += 1,
            ")" | "}" => depth -= 1,
            word if depth == 0 && word == symbol => found.push(at),
            _ => {}
        }
    }
    found
}

/// Splits at a symbol outside all brackets.
fn split<'a>(words: &'a [String], symbol: &str) -> Vec<&'a [String]> {
    let mut from = 0;
    let mut found = Vec::new();
    for at in outside(words, symbol) {
        found.push(&words[from..at]);
        from = at + 1;
    }
    found.push(&words[from..]);
    found
}

/// Without the brackets around the whole.
fn bare(words: &[String]) -> &[String] {
    match words {
        [first, inside @ .., last] if first == "(" && last == ")" => {
            let mut depth = 0i32;
            let whole = inside.iter().all(|word| {
                depth += i32::from(word == "(") - i32::from(word == ")");
                depth >= 0
            });
            if whole {
                bare(inside)
            } else {
                words
            }
        }
        _ => words,
    }
}

/// The bracket that stands at a place, with its bound names and its words behind their colon, if it binds some.
fn binder(words: &[String], at: usize) -> Option<(&[String], &[String])> {
    let mut depth = 0;
    let closes = words[at..].iter().position(|word| {
        depth += i32::from(["(", "{"].contains(&word.as_str()));
        depth -= i32::from([")", "}"].contains(&word.as_str()));
        depth == 0
    })?;
    let inside = words.get(at + 1..at + closes)?;
    let colon = *outside(inside, ":").first()?;
    Some((&inside[..colon], &inside[colon + 1..]))
}

/// Without the names that brackets bind, and their colons.
fn unbound(words: &[String]) -> Vec<String> {
    let mut found = Vec::new();
    let mut at = 0;
    while at < words.len() {
        found.push(words[at].clone());
        if let Some((names, _)) = binder(words, at) {
            at += names.len() + 1;
        }
        at += 1;
    }
    found
}

/// The names that are bound as types.
fn type_parameters(words: &[String]) -> Vec<String> {
    let binders = (0..words.len()).filter_map(|at| binder(words, at));
    let types = binders.filter(|(_, kind)| is_universe(kind));
    types.flat_map(|(names, _)| names.to_vec()).collect()
}

/// Whether these words are `Type n`.
fn is_universe(words: &[String]) -> bool {
    matches!(words, [word, _] if word == "Type")
}

impl Declaration {
    /// Whether it is a type: a record, a data type, or a definition that gives one.
    fn is_type(&self) -> bool {
        match self.kind {
            Kind::Type { .. } => true,
            Kind::Equations { .. } => split(&self.signature, "→")
                .last()
                .is_some_and(|result| is_universe(result)),
        }
    }

    fn is_closed(&self) -> bool {
        !self.parameters && is_universe(&self.signature)
    }

    /// The types that it is made of.
    fn parts(&self) -> &[Vec<String>] {
        match &self.kind {
            Kind::Type { members } => members,
            Kind::Equations { right } => right,
        }
    }
}

/// The block of lines from one on that stand deeper than it.
fn block<'a>(lines: &[(usize, &'a str)], from: usize) -> Vec<(usize, &'a str)> {
    let depth = indent(lines[from].1);
    let below = lines[from + 1..]
        .iter()
        .take_while(|(_, line)| indent(line) > depth);
    std::iter::once(&lines[from])
        .chain(below)
        .copied()
        .collect()
}

fn joined(lines: &[(usize, &str)]) -> String {
    lines
        .iter()
        .map(|(_, line)| *line)
        .collect::<Vec<_>>()
        .join("\n")
}

/// The declarations of a file of antt.
fn declarations(text: &str) -> Vec<Declaration> {
    let lines: Vec<(usize, &str)> = text
        .lines()
        .enumerate()
        .map(|(number, line)| (number + 1, code(line)))
        .filter(|(_, line)| !line.trim().is_empty())
        .collect();
    let mut found: Vec<Declaration> = Vec::new();
    let mut modules: Vec<(usize, bool)> = Vec::new();
    let mut at = 0;
    while at < lines.len() {
        let (number, line) = lines[at];
        let depth = indent(line);
        modules.retain(|(outer, _)| *outer < depth);
        let inside = block(&lines, at);
        let all = words(&joined(&inside));
        let mut front = all.iter().map(String::as_str).peekable();
        let mut skipped = 0;
        while front
            .next_if(|word| ["abbrev", "unfoldable", "pub"].contains(word))
            .is_some()
        {
            skipped += 1;
        }
        let parameters = modules.iter().any(|(_, has)| *has);
        let margin = depth == 0;
        match front.next() {
            Some("use") => at += inside.len(),
            Some("module") => {
                modules.push((
                    depth,
                    words(line).iter().any(|word| word == "(" || word == "{"),
                ));
                at += 1;
            }
            Some("record" | "data") if all.iter().any(|word| word == "where") => {
                let head = all.iter().position(|word| word == "where").unwrap_or(0);
                let colon = outside(&all[..head], ":").first().copied().unwrap_or(head);
                let name = all.get(skipped + 1).cloned().unwrap_or_default();
                let members = members(&inside);
                let mut types = type_parameters(&all[skipped + 2..colon]);
                let are_types = members.iter().filter(|(_, kind)| is_universe(kind));
                types.extend(are_types.flat_map(|(names, _)| names.clone()));
                found.push(Declaration {
                    line: number,
                    margin,
                    signature: all[(colon + 1).min(head)..head].to_vec(),
                    parameters: parameters || colon > skipped + 2,
                    types,
                    kind: Kind::Type {
                        members: members.into_iter().map(|(_, kind)| kind).collect(),
                    },
                    named: all.clone(),
                    name,
                });
                at += inside.len();
            }
            Some(name) if all.get(skipped + 1).is_some_and(|word| word == ":") => {
                let name = name.to_string();
                let mut declaration = Declaration {
                    line: number,
                    margin,
                    signature: all[skipped + 2..].to_vec(),
                    parameters,
                    types: Vec::new(),
                    kind: Kind::Equations { right: Vec::new() },
                    named: all.clone(),
                    name: name.clone(),
                };
                at += inside.len();
                let mut right = Vec::new();
                while at < lines.len() && indent(lines[at].1) == depth {
                    let inside = block(&lines, at);
                    let equation = words(&joined(&inside));
                    if equation.first() != Some(&name)
                        || equation.get(1).is_some_and(|word| word == ":")
                    {
                        break;
                    }
                    let equals = outside(&equation, "=")
                        .first()
                        .map_or(equation.len(), |equals| equals + 1);
                    right.push(equation[equals..].to_vec());
                    declaration.named.extend(equation);
                    at += inside.len();
                }
                declaration.kind = Kind::Equations { right };
                found.push(declaration);
            }
            _ => at += 1,
        }
    }
    found
}

/// The names and types of a record's fields, or of constructors.
fn members(inside: &[(usize, &str)]) -> Vec<(Vec<String>, Vec<String>)> {
    let mut found = Vec::new();
    let mut at = 1;
    while at < inside.len() {
        let member = block(inside, at);
        let all = words(&joined(&member));
        if let Some(colon) = outside(&all, ":").first() {
            found.push((all[..*colon].to_vec(), all[colon + 1..].to_vec()));
        }
        at += member.len();
    }
    found
}

/// What a name means in a file.
#[derive(Default)]
struct Scope {
    names: BTreeMap<String, Place>,
    /// Modules under a name of their own.
    modules: BTreeMap<String, String>,
    /// Types that Rattle code declares.
    rattle: BTreeSet<String>,
}

impl Scope {
    fn of(path: &str, text: &str, own: &[Declaration]) -> Scope {
        let mut scope = Scope::default();
        for line in text.lines().map(code) {
            let line = line.trim_end_matches(';');
            let Some(rest) = line
                .strip_prefix("ghost use ")
                .or(line.strip_prefix("use "))
            else {
                continue;
            };
            scope.take(rest);
        }
        for declaration in own {
            scope.names.insert(
                declaration.name.clone(),
                (path.to_string(), declaration.name.clone()),
            );
        }
        scope
    }

    /// A line `module.{name, name as other}` or `module as other`.
    fn take(&mut self, rest: &str) {
        let Some((module, names)) = rest.split_once(".{") else {
            if let Some((module, other)) = rest.split_once(" as ") {
                if let Some(file) = antt::spec_file(module) {
                    self.modules.insert(other.trim().to_string(), file);
                }
            }
            return;
        };
        for name in names.trim_end_matches('}').split(',') {
            let (name, here) = name.split_once(" as ").unwrap_or((name, name));
            let (name, here) = (name.trim().to_string(), here.trim().to_string());
            if let Some(file) = antt::spec_file(module) {
                self.names.insert(here, (file, name));
            } else if module.contains(".declared.") {
                self.rattle.insert(here);
            }
        }
    }

    fn place(&self, name: &str) -> Option<Place> {
        if let Some(place) = self.names.get(name) {
            return Some(place.clone());
        }
        let (module, name) = name.split_once('.')?;
        Some((self.modules.get(module)?.clone(), name.to_string()))
    }
}

/// A file with what it declares.
struct File {
    declarations: Vec<Declaration>,
    scope: Scope,
}

struct Statements {
    files: BTreeMap<String, File>,
}

impl Statements {
    fn read(tree: &Tree) -> Statements {
        let file = |path: &str| {
            let text = tree.text(path).unwrap_or("");
            let declarations = declarations(text);
            let scope = Scope::of(path, text, &declarations);
            (
                path.to_string(),
                File {
                    declarations,
                    scope,
                },
            )
        };
        let specs = tree
            .paths("crates/", ".antt")
            .filter(|path| path.contains("/specs/"));
        Statements {
            files: specs.map(file).collect(),
        }
    }

    fn find(&self, place: &Place) -> Option<(&File, &Declaration)> {
        let file = self.files.get(&place.0)?;
        let named = file.declarations.iter().find(|one| one.name == place.1)?;
        Some((file, named))
    }

    /// Whether a type expression is data alone, where these names are types.
    fn data(&self, file: &File, words: &[String], types: &[String], open: &mut Vec<Place>) -> bool {
        unbound(words).iter().all(|word| {
            let plain = DATA.contains(&word.as_str()) || BRACKETS.contains(&word.as_str());
            plain
                || types.contains(word)
                || file.scope.rattle.contains(word)
                || file
                    .scope
                    .place(word)
                    .is_some_and(|place| self.data_type(&place, open))
        })
    }

    fn data_type(&self, place: &Place, open: &mut Vec<Place>) -> bool {
        if open.contains(place) {
            return true;
        }
        let Some((file, declaration)) = self.find(place) else {
            return false;
        };
        open.push(place.clone());
        let parts = declaration.parts();
        let known = matches!(declaration.kind, Kind::Type { .. }) || !parts.is_empty();
        declaration.is_type()
            && known
            && parts
                .iter()
                .all(|part| self.data(file, part, &declaration.types, open))
    }

    /// The statements that a value of this type proves.
    fn prove(&self, file: &File, words: &[String], proved: &mut BTreeSet<Place>) {
        let words = bare(words);
        if CONDITIONAL
            .iter()
            .any(|symbol| !outside(words, symbol).is_empty())
        {
            return;
        }
        for part in split(words, "×") {
            let part = bare(part);
            if outside(part, "×").is_empty() {
                let [name] = part else { continue };
                let Some(place) = file.scope.place(name) else {
                    continue;
                };
                let Some((owner, declaration)) = self.find(&place) else {
                    continue;
                };
                let closed = declaration.is_type() && declaration.is_closed();
                if closed && proved.insert(place.clone()) {
                    let parts = declaration.parts().iter();
                    parts.for_each(|part| self.prove(owner, part, proved));
                }
            } else {
                self.prove(file, part, proved);
            }
        }
    }

    /// Every statement that a file of laws has a value of.
    fn proved(&self) -> BTreeSet<Place> {
        let mut proved = BTreeSet::new();
        let laws = self.files.iter().filter(|(path, _)| is_laws(path));
        for (_, file) in laws {
            let values = file.declarations.iter();
            for value in values.filter(|one| one.margin && !one.is_type()) {
                self.prove(file, &value.signature, &mut proved);
            }
        }
        proved
    }

    /// Every declaration that a contract or the type of a law reaches.
    fn cited(&self, tree: &Tree) -> BTreeSet<Place> {
        let mut todo = Vec::new();
        for path in tree.paths("crates/", ".rt") {
            let text: Vec<&str> = tree
                .text(path)
                .unwrap_or("")
                .lines()
                .map(rattle::code)
                .collect();
            let text = text.join("\n");
            let scope = Scope::of(path, &text, &[]);
            let contracts = text.lines().filter(|line| !line.starts_with("ghost use "));
            let words = contracts.flat_map(words);
            todo.extend(words.filter_map(|word| scope.place(&word)));
        }
        for (path, file) in &self.files {
            if !is_laws(path) {
                continue;
            }
            let types = file.declarations.iter().flat_map(|one| &one.signature);
            todo.extend(types.filter_map(|word| file.scope.place(word)));
        }
        let mut cited = BTreeSet::new();
        while let Some(place) = todo.pop() {
            if !cited.insert(place.clone()) {
                continue;
            }
            if let Some((file, declaration)) = self.find(&place) {
                todo.extend(
                    declaration
                        .named
                        .iter()
                        .filter_map(|word| file.scope.place(word)),
                );
            }
        }
        cited
    }
}

pub fn check(tree: &Tree) -> Report {
    let statements = Statements::read(tree);
    let (proved, cited) = (statements.proved(), statements.cited(tree));
    let (mut claims, mut predicates, mut faults) = (0, 0, Vec::new());
    for (path, file) in &statements.files {
        if is_laws(path) {
            continue;
        }
        for declaration in file.declarations.iter().filter(|one| one.is_type()) {
            let place = (path.clone(), declaration.name.clone());
            if statements.data_type(&place, &mut Vec::new()) {
                continue;
            }
            let name = &declaration.name;
            let at = format!("{path}, line {}: {name}", declaration.line);
            if declaration.is_closed() {
                claims += 1;
                if !proved.contains(&place) {
                    faults.push(format!(
                        "{at} is a statement, and no file of laws has a value of it"
                    ));
                }
            } else {
                predicates += 1;
                if !cited.contains(&place) {
                    faults.push(format!("{at} is cited by no contract and by no law"));
                }
            }
        }
    }
    if claims == 0 || predicates == 0 {
        faults.push("no statement was found".to_string());
    }
    Report {
        summary: format!("{claims} statements, each with a value in a file of laws, {predicates} predicates that they or contracts cite"),
        faults,
    }
}
