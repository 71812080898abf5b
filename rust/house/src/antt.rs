//! What a file of antt declares and uses, as far as its layout shows it.

use std::collections::BTreeSet;

/// How far a definition may be seen through; a definition without a mark cannot be opened outside.
#[derive(Clone, Copy, PartialEq, Eq, Debug)]
pub enum Mark {
    Abbrev,
    Unfoldable,
    None,
}

/// A definition by equations: its name, its mark and the line of its signature, from 1.
#[derive(Debug)]
pub struct Definition {
    pub name: String,
    pub mark: Mark,
    pub line: usize,
}

/// A file's declarations.
#[derive(Default, Debug)]
pub struct Declared {
    pub definitions: Vec<Definition>,
    /// Records and data types, and `Type.member` for each field or constructor.
    pub types: BTreeSet<String>,
}

impl Declared {
    pub fn has(&self, name: &str) -> bool {
        self.types.contains(name) || self.definitions.iter().any(|d| d.name == name)
    }
}

/// A line without its comment.
pub fn code(line: &str) -> &str {
    let comment = line
        .match_indices("--")
        .find(|(at, _)| *at == 0 || line[..*at].ends_with(' '));
    match comment {
        Some((at, _)) => line[..at].trim_end(),
        None => line.trim_end(),
    }
}

fn indent(line: &str) -> usize {
    line.len() - line.trim_start().len()
}

/// The words of a signature up to its colon: `[mark] [pub] name :`.
fn signature(line: &str) -> Option<(Mark, &str)> {
    let mut words = line.split_whitespace();
    let mut word = words.next()?;
    let mut mark = Mark::None;
    if word == "abbrev" || word == "unfoldable" {
        mark = if word == "abbrev" {
            Mark::Abbrev
        } else {
            Mark::Unfoldable
        };
        word = words.next()?;
    }
    if word == "pub" {
        word = words.next()?;
    }
    (words.next()? == ":" && !word.starts_with(['(', '{'])).then_some((mark, word))
}

/// `[pub] record NAME` or `[pub] data NAME`.
fn type_name(line: &str) -> Option<&str> {
    let mut words = line.split_whitespace().filter(|word| *word != "pub");
    let kind = words.next()?;
    (kind == "record" || kind == "data").then(|| words.next())?
}

/// The declarations of a file, in modules and `where` blocks too.
pub fn declared(text: &str) -> Declared {
    let mut found = Declared::default();
    let mut inside: Option<(usize, String)> = None;
    for (number, line) in text.lines().enumerate() {
        let line = code(line);
        if line.trim().is_empty() {
            continue;
        }
        let depth = indent(line);
        if inside.as_ref().is_some_and(|(header, _)| depth <= *header) {
            inside = None;
        }
        if let Some((_, name)) = &inside {
            if let Some((_, member)) = signature(line) {
                found.types.insert(format!("{name}.{member}"));
                found.types.insert(member.to_string());
            }
        } else if let Some(name) = type_name(line) {
            found.types.insert(name.to_string());
            inside = Some((depth, name.to_string()));
        } else if let Some((mark, name)) = signature(line) {
            found.definitions.push(Definition {
                name: name.to_string(),
                mark,
                line: number + 1,
            });
        }
    }
    found
}

/// A use line: the module, and the names taken from it.
#[derive(Debug)]
pub struct Use {
    pub module: String,
    pub names: Vec<String>,
}

/// The use lines of a file of antt, or the ghost use lines of one of Rattle; also those that pass their names on.
pub fn uses(text: &str) -> Vec<Use> {
    text.lines().map(code).filter_map(used).collect()
}

fn used(line: &str) -> Option<Use> {
    let line = line.trim_end_matches(';');
    let line = line.strip_prefix("pub ").unwrap_or(line);
    let line = line.strip_prefix("ghost ").unwrap_or(line);
    let line = line.strip_prefix("use ")?;
    let there = |name: &str| name.split(" as ").next().unwrap_or(name).trim().to_string();
    let (module, names) = line.split_once(".{").unwrap_or((line, ""));
    Some(Use {
        module: there(module),
        names: names.trim_end_matches('}').split(',').map(there).collect(),
    })
}

/// The file that a module of a crate stands in: `Rattle.keys.specs.Table`. None of std's modules, and of those that
/// only have the types of a crate's code.
pub fn file(module: &str) -> Option<String> {
    let mut parts = module.strip_prefix("Rattle.")?.split('.');
    let (owner, folder) = (parts.next()?, parts.next().unwrap_or("src"));
    let file = parts.next().unwrap_or("Lib");
    let made = folder == "specs" && file == "declared";
    (owner != "std" && !made).then(|| format!("crates/{owner}/{folder}/{file}.antt"))
}

#[cfg(test)]
mod tests {
    use super::*;

    #[test]
    fn declarations() {
        let text = "use a.{b}\nabbrev pub x : A → B\nx y = z -- q : r\npub record R (n : A) : T where\n  pub f : A\n\n\
                    module _ (a : A) where\n  pub p : a ≡ a\n  p = refl\n";
        let found = declared(text);
        let marks: Vec<_> = found
            .definitions
            .iter()
            .map(|d| (d.name.as_str(), d.mark, d.line))
            .collect();
        assert_eq!(marks, [("x", Mark::Abbrev, 2), ("p", Mark::None, 8)]);
        assert!(found.has("R") && found.has("R.f") && !found.has("q") && !found.has("n"));
    }

    #[test]
    fn used() {
        let text = "use a.b.{c, d as e, f}\npub use a.g\nuse a.h as i\nghost use Rattle.a.specs.B.{◌≡◌};\n-- use j\n";
        let found = uses(text);
        let found: Vec<_> = found
            .iter()
            .map(|used| (used.module.as_str(), used.names.join(" ")))
            .collect();
        let one = |module, names: &str| (module, names.to_string());
        let wanted = [
            one("a.b", "c d f"),
            one("a.g", ""),
            one("a.h", ""),
            one("Rattle.a.specs.B", "◌≡◌"),
        ];
        assert_eq!(found, wanted);
    }

    #[test]
    fn files() {
        assert_eq!(
            file("Rattle.keys.specs.Table").unwrap(),
            "crates/keys/specs/Table.antt"
        );
        assert_eq!(
            file("Rattle.keys.proofs.MatchLaws").unwrap(),
            "crates/keys/proofs/MatchLaws.antt"
        );
        assert_eq!(
            file("Rattle.keys.specs").unwrap(),
            "crates/keys/specs/Lib.antt"
        );
        assert_eq!(file("Rattle.keys.specs.declared.entry.Pair"), None);
        assert_eq!(file("Rattle.std.specs.Prelude"), None);
        assert_eq!(file("lib.Dec"), None);
    }
}
