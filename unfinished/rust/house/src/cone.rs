//! What a promise rests on, by definition: the definitions that it names, those that these name, and so on. A name is looked up as the
//! file's own, then by its use lines. A variable that has the name of a definition is taken for it, so a cone may have a definition too
//! many, and never one too few.

use crate::{antt, rattle, Tree};
use std::collections::{BTreeMap, BTreeSet};

/// What a piece of a file is.
#[derive(Clone, Copy, PartialEq, Eq, Debug)]
pub enum Kind {
    /// A record, a data type or a definition by equations in `specs/`, or a module's line with the parameters of those in it.
    Definition,
    /// A struct, an enum or a constant of Rattle.
    Type,
    /// A function's signature with what it ensures; whether C links it, and whether another crate may call it.
    Contract { exported: bool, public: bool },
}

/// A piece of a file that is read as a whole.
#[derive(Debug)]
pub struct Item {
    pub file: String,
    pub name: String,
    pub kind: Kind,
    /// How many of its lines are neither blank nor a comment.
    pub lines: usize,
    words: Vec<String>,
    /// The words of each field of a record.
    fields: Vec<(String, Vec<String>)>,
    /// The module that it stands in.
    module: Option<usize>,
}

/// The libraries of the kit that definitions use.
const KIT: [&str; 3] = ["Prim", "lib", "mathlib"];

/// Some of the items, by their places in the list of all.
pub type Set = BTreeSet<usize>;

/// Where a name that a file uses comes from.
#[derive(Clone, Debug)]
enum Origin {
    /// A name of another file.
    Name(String, String),
    /// Another file, under a name of its own here.
    File(String),
    /// The kit's library.
    Kit(String),
}

/// What a name means: an item, or a name of the kit.
enum Found<'a> {
    Item(usize),
    Kit(&'a str),
}

/// The names of a file.
#[derive(Default)]
struct Scope {
    own: BTreeMap<String, usize>,
    used: BTreeMap<String, Origin>,
    /// Which of the used names others may take from here.
    handed_on: BTreeSet<String>,
}

/// Every item of the crates, and what each names.
pub struct Items {
    pub all: Vec<Item>,
    names: Vec<Set>,
    scopes: BTreeMap<String, Scope>,
    /// What could not be read.
    pub faults: Vec<String>,
}

/// The words of a text: names, numbers and signs; a bracket, a comma or a semicolon is a word by itself, and `[]` is one.
fn words(text: &str) -> Vec<String> {
    let mut found = Vec::new();
    let mut word = String::new();
    for c in text.chars().chain([' ']) {
        let single = matches!(
            c,
            '(' | ')' | '{' | '}' | '[' | ']' | ';' | ',' | '⌜' | '⌝' | '⟦' | '⟧' | '"'
        );
        if (c.is_whitespace() || single) && !word.is_empty() {
            found.push(std::mem::take(&mut word));
        }
        if c == ']' && found.last().is_some_and(|last| last == "[") {
            found.pop();
            found.push("[]".to_string());
        } else if single {
            found.push(c.to_string());
        } else if !c.is_whitespace() {
            word.push(c);
        }
    }
    found
}

/// A module of this repository: its file, and the type if it is one of Rattle's.
fn place(module: &str) -> Option<(String, Option<String>)> {
    if let Some(file) = antt::spec_file(module) {
        return Some((file, None));
    }
    let (owner, rest) = module.strip_prefix("Rattle·")?.split_once(['.', '·'])?;
    let (_, path) = rest.split_once("declared.")?;
    let mut parts: Vec<&str> = path.split('.').collect();
    parts.retain(|part| *part != "the-variants");
    let name = parts.pop()?.to_string();
    let file = parts.pop().unwrap_or("lib");
    Some((format!("crates/{owner}/src/{file}.rt"), Some(name)))
}

/// What a use line of Rattle brings, where it is a type or a constant of one of the crates.
fn rattle_use(owner: &str, line: &str) -> Option<(String, Origin)> {
    let path = line.strip_prefix("use ")?.trim_end_matches(';');
    let path: Vec<&str> = path.split("::").collect();
    let of = if path[0] == "crate" { owner } else { path[0] };
    let name = path[path.len() - 1].to_string();
    let file = match path[..] {
        [_, .., file, _] => file,
        _ => "lib",
    };
    let big = name.starts_with(char::is_uppercase) && of != "std";
    let file = format!("crates/{of}/src/{file}.rt");
    big.then(|| (name.clone(), Origin::Name(file, name)))
}

impl Scope {
    /// Notes what a use line of antt brings.
    fn take(&mut self, used: &antt::Use) {
        for (name, here) in &used.renamed {
            let origin = match place(&used.module) {
                Some((file, Some(kind))) => Origin::Name(file, kind),
                Some((file, None)) if name.is_empty() => Origin::File(file),
                Some((file, None)) => Origin::Name(file, name.clone()),
                None => Origin::Kit(format!("{}.{name}", used.module)),
            };
            if used.public {
                self.handed_on.insert(here.clone());
            }
            // `_+_` is written `+` between its arguments
            let signs = here.split('_').filter(|sign| !sign.is_empty());
            let signs = signs.filter(|_| here.contains('_') && !here.contains('«'));
            for written in signs.chain([here.as_str()]) {
                self.used.insert(written.to_string(), origin.clone());
            }
        }
    }
}

/// A file while it is read.
struct Reader<'a> {
    items: &'a mut Items,
    file: &'a str,
    scope: Scope,
}

impl Reader<'_> {
    fn fault(&mut self, line: usize, what: &str) {
        let fault = format!("{}, line {}: {what}", self.file, line + 1);
        self.items.faults.push(fault);
    }

    fn begin(&mut self, kind: Kind, name: &str) -> usize {
        self.items.all.push(Item {
            file: self.file.to_string(),
            name: name.to_string(),
            kind,
            lines: 0,
            words: Vec::new(),
            fields: Vec::new(),
            module: None,
        });
        self.items.all.len() - 1
    }

    /// The name is the item's, and nobody else's in this file.
    fn own(&mut self, name: &str, at: usize, line: usize) {
        let old = self.scope.own.insert(name.to_string(), at);
        if old.is_some_and(|old| old != at) {
            self.fault(line, &format!("{name} is declared twice"));
        }
    }

    fn add(&mut self, at: usize, line: &str) {
        let item = &mut self.items.all[at];
        item.lines += 1;
        item.words.extend(words(line));
        if let Some((_, field)) = item.fields.last_mut() {
            field.extend(words(line));
        }
    }

    /// A file of `specs/`.
    fn antt(&mut self, text: &str) {
        let mut item = None;
        let mut modules = Vec::new();
        let mut is_data = false;
        for (number, line) in text.lines().enumerate() {
            let line = antt::code(line);
            if line.trim().is_empty() {
                continue;
            }
            let depth = antt::indent(line);
            // A module's lines stand two further in than its own line; modules may stand in each other.
            modules.truncate(depth / 2);
            if let Some(used) = antt::use_line(line) {
                let start = used.module.split(['.', '·']).next().unwrap_or("");
                if start != "Rattle" && !KIT.contains(&start) {
                    self.fault(number, &format!("{start} is no library that is known here"));
                }
                self.scope.take(&used);
                item = None;
                continue;
            }
            let top = 2 * modules.len();
            let module = modules.last().copied();
            if depth == top && line.trim_start().starts_with("module ") {
                let at = self.begin(Kind::Definition, "module");
                self.items.all[at].module = module;
                self.add(at, line);
                modules.push(at);
                item = None;
                continue;
            }
            let name = match antt::type_name(line) {
                Some(name) => Some(name),
                None => antt::signature(line).map(|(_, name)| name),
            };
            if let Some(name) = name.filter(|_| depth == top) {
                let at = self.begin(Kind::Definition, name);
                self.own(name, at, number);
                self.items.all[at].module = module;
                is_data = line.split_whitespace().any(|word| word == "data");
                item = Some(at);
            } else if let (Some(member), Some(at)) = (name, item) {
                if is_data {
                    self.own(member, at, number);
                }
                let field = (member.to_string(), Vec::new());
                self.items.all[at].fields.push(field);
            } else if depth <= top && line.trim() != "}" {
                let first = words(line).swap_remove(0);
                if item.is_none_or(|at| self.items.all[at].name != first) {
                    self.fault(number, "this belongs to no definition");
                }
            }
            if line.contains("Rattle·") {
                self.fault(number, "a module stands outside a use line");
            }
            match item {
                Some(at) => self.add(at, line),
                None => self.fault(number, "this belongs to no definition"),
            }
        }
    }

    /// A file of `src/`: its types and constants, and its contracts.
    fn rattle(&mut self, owner: &str, text: &str) {
        let mut item: Option<usize> = None;
        let mut impl_of = String::new();
        for (number, line) in text.lines().enumerate() {
            let line = rattle::code(line).trim_end();
            if line.trim().is_empty() || line.trim_start().starts_with('#') {
                continue;
            }
            if line.starts_with("ghost use ") {
                if let Some(used) = antt::use_line(line) {
                    self.scope.take(&used);
                }
                continue;
            }
            if let Some((name, origin)) = rattle_use(owner, line) {
                self.scope.used.insert(name, origin);
                continue;
            }
            if let Some(rest) = line.strip_prefix("impl ") {
                let name = rest.rsplit(" for ").next().unwrap_or(rest);
                impl_of = words(name).swap_remove(0);
            }
            if item.is_none() {
                item = self.rattle_header(line, number, &impl_of);
            }
            let Some(at) = item else { continue };
            if !matches!(self.items.all[at].kind, Kind::Contract { .. }) {
                self.add(at, line);
                item = item.filter(|_| line != "}" && !line.ends_with(';'));
                continue;
            }
            let body = line.ends_with('{') && !line.contains(['λ', '⌜']);
            if line.trim() != "{" {
                self.add(at, line);
            }
            item = item.filter(|_| !body);
        }
    }

    /// Begins a type, a constant or a contract where the line does.
    fn rattle_header(&mut self, line: &str, number: usize, impl_of: &str) -> Option<usize> {
        let inside = line.starts_with(' ');
        if inside && !line.contains("fn ") {
            return None;
        }
        let all = words(line);
        let before = ["pub", "(", "crate", ")", "extern", "\"", "C"];
        let mut rest = all
            .iter()
            .map(String::as_str)
            .skip_while(|word| before.contains(word));
        let (kind, name) = (rest.next()?, rest.next()?.trim_end_matches(':'));
        match kind {
            "struct" | "enum" | "const" if !inside => {
                let at = self.begin(Kind::Type, name);
                self.own(name, at, number);
                Some(at)
            }
            "fn" => {
                let exported = line.contains("extern \"C\"");
                let public = line.trim_start().starts_with("pub fn") || exported;
                let full = match inside {
                    true => format!("{impl_of}::{name}"),
                    false => name.to_string(),
                };
                let at = self.begin(Kind::Contract { exported, public }, &full);
                self.items.all[at]
                    .words
                    .extend(inside.then(|| impl_of.to_string()));
                Some(at)
            }
            _ => None,
        }
    }
}

impl Items {
    /// The definitions of every file of `specs/` that is not one of laws, and the types and contracts of `src/`.
    pub fn of(tree: &Tree) -> Items {
        let paths = tree.paths("crates/", "");
        Items::read(paths.map(|path| (path, tree.text(path).unwrap_or(""))))
    }

    fn read<'a>(files: impl Iterator<Item = (&'a str, &'a str)>) -> Items {
        let mut items = Items {
            all: Vec::new(),
            names: Vec::new(),
            scopes: BTreeMap::new(),
            faults: Vec::new(),
        };
        for (file, text) in files {
            let parts: Vec<&str> = file.split('/').collect();
            let mut reader = Reader {
                items: &mut items,
                file,
                scope: Scope::default(),
            };
            match parts[..] {
                [_, _, "specs", _] if is_definitions(file) => reader.antt(text),
                [_, owner, "src", name] if name.ends_with(".rt") => reader.rattle(owner, text),
                _ => continue,
            }
            let scope = reader.scope;
            items.scopes.insert(file.to_string(), scope);
        }
        let names = |item: &Item| {
            let mut found = items.named(&item.file, &item.words).0;
            found.extend(item.module);
            found
        };
        items.names = items.all.iter().map(names).collect();
        items
    }

    /// The names that the use lines of some files take from other files of the crates and that are not found there, as a definition of
    /// a file of laws is not.
    pub fn unfound(&self, is_asked: impl Fn(&str) -> bool) -> Vec<String> {
        let mut faults = Vec::new();
        for (file, scope) in self.scopes.iter().filter(|(file, _)| is_asked(file)) {
            for origin in scope.used.values() {
                let Origin::Name(from, name) = origin else {
                    continue;
                };
                if self.look_up(from, name).is_none() {
                    faults.push(format!("{file} uses {name}, which is not found in {from}"));
                }
            }
        }
        faults
    }

    /// What a file declares or hands on under a name: an item, or a name of the kit.
    fn look_up(&self, file: &str, name: &str) -> Option<Found<'_>> {
        let scope = self.scopes.get(file)?;
        if let Some(at) = scope.own.get(name) {
            return Some(Found::Item(*at));
        }
        match scope
            .used
            .get(name)
            .filter(|_| scope.handed_on.contains(name))?
        {
            Origin::Name(from, there) => self.look_up(from, there),
            Origin::Kit(name) => Some(Found::Kit(name)),
            Origin::File(_) => None,
        }
    }

    /// What a word means in a file.
    fn meant(&self, file: &str, word: &str) -> Option<Found<'_>> {
        let scope = self.scopes.get(file)?;
        if let Some(at) = scope.own.get(word) {
            return Some(Found::Item(*at));
        }
        match scope.used.get(word) {
            Some(Origin::Name(from, name)) => self.look_up(from, name),
            Some(Origin::Kit(name)) => Some(Found::Kit(name)),
            Some(Origin::File(_)) => None,
            None => {
                let (head, rest) = word.split_once('.')?;
                match scope.used.get(head) {
                    Some(Origin::File(from)) => {
                        self.look_up(from, rest.split('.').next().unwrap_or(rest))
                    }
                    _ => self.meant(file, head),
                }
            }
        }
    }

    /// What some words of a file name: the items, and the names of the kit. A projection names nothing, and neither does the label of a
    /// field in a record's value: the record's type is named elsewhere.
    fn named(&self, file: &str, words: &[String]) -> (Set, BTreeSet<&str>) {
        let (mut items, mut kit) = (Set::new(), BTreeSet::new());
        let owner = file.split('/').nth(1).unwrap_or("");
        let mut braces = 0;
        for (at, word) in words.iter().enumerate() {
            match word.as_str() {
                "{" => braces += 1,
                "}" => braces -= 1,
                _ => {}
            }
            let is_label = braces > 0 && words.get(at + 1).is_some_and(|next| next == "=");
            if is_label || word.starts_with('.') {
                continue;
            }
            let word = word.trim_end_matches(['.', ':']);
            let word = match word.strip_prefix('&') {
                Some(rest) if !rest.starts_with('&') => rest,
                _ => word,
            };
            if word.contains("::") {
                if let Some((_, Origin::Name(from, name))) =
                    rattle_use(owner, &format!("use {word};"))
                {
                    if let Some(Found::Item(at)) = self.look_up(&from, &name) {
                        items.insert(at);
                    }
                }
            }
            for part in word.split("::") {
                match self.meant(file, part) {
                    Some(Found::Item(item)) => drop(items.insert(item)),
                    Some(Found::Kit(name)) => drop(kit.insert(name)),
                    None => {}
                }
            }
        }
        (items, kit)
    }

    /// The roots and all that they rest on.
    pub fn cone(&self, roots: &Set) -> Set {
        let mut found = roots.clone();
        let mut open: Vec<usize> = roots.iter().copied().collect();
        while let Some(at) = open.pop() {
            let new = self.names[at].iter().filter(|next| found.insert(**next));
            open.extend(new);
        }
        found
    }

    /// The items of which something holds.
    pub fn those(&self, holds: impl Fn(&Item) -> bool) -> Set {
        (0..self.all.len())
            .filter(|at| holds(&self.all[*at]))
            .collect()
    }

    /// The fields of a record, each with what it names.
    pub fn fields(&self, at: usize) -> Vec<(&str, Set)> {
        let item = &self.all[at];
        let named = |words| self.named(&item.file, words).0;
        let fields = item.fields.iter();
        fields
            .map(|(name, words)| (name.as_str(), named(words)))
            .collect()
    }

    /// The names of the kit that some items have.
    pub fn kit(&self, items: &Set) -> BTreeSet<&str> {
        let each = items.iter().map(|at| &self.all[*at]);
        each.flat_map(|item| self.named(&item.file, &item.words).1)
            .collect()
    }
}

/// Whether a file of `specs/` has definitions: it is not one of laws, and not the list of the others.
pub fn is_definitions(path: &str) -> bool {
    let other = crate::reading::is_laws(path) || path.ends_with("/specs/Lib.antt");
    path.contains("/specs/") && path.ends_with(".antt") && !other
}

#[cfg(test)]
mod tests {
    use super::*;

    const LOW: &str = "pub use Prim.Native.Nat.{ℕ, _+_}\n\npub record Two : Type 0 where\n  pub one : ℕ\n  -- a word\n  pub other : ℕ\n\n\
                       data Way : Type 0 where\n  left : Way\n  right : ℕ → Way\n\nabbrev pub double : ℕ → ℕ\ndouble n = n + n\n\n\
                       abbrev pub gone : ℕ\ngone = double 3\n";
    const HIGH: &str = "use Rattle·low.specs.Low.{double as twice, right}\nuse Rattle·low.specs.declared.way.Pair.{Pair}\n\
                        use Rattle·low.specs.Low as L\npub use Rattle·low.specs.Low.{Two, ℕ}\n\n\
                        abbrev pub both : Pair → L.Two\nboth p = record { one = twice (p .low); other = 0 }\n\n\
                        module _ (t : Two) where\n  abbrev pub inner : ℕ\n  inner = t .one\n\n\
                        \x20 module _ (u : Two) where\n    abbrev pub deeper : ℕ\n    deeper = u .one\n\n\
                        \x20 abbrev pub last : ℕ\n  last = 0\n";
    const CODE: &str = "ghost use Rattle·high.specs.High.{both};\nuse low::way::Pair;\n// one\n#[no_mangle]\n\
                        pub extern \"C\" fn call(\n    p: Pair,\n) -> u8\n    ensures { λ r. ⌜ both p ≡ r ⌝ }\n{\n    0\n}\n\
                        fn quiet(a: u8) -> u8 {\n    a\n}\n";
    const TYPES: &str =
        "pub const ROOM: usize = 4;\npub struct Pair {\n    pub low: [u8; ROOM],\n}\n";

    fn items() -> Items {
        Items::read(
            [
                ("crates/code/src/lib.rt", CODE),
                ("crates/high/specs/High.antt", HIGH),
                ("crates/low/specs/Low.antt", LOW),
                ("crates/low/src/way.rt", TYPES),
            ]
            .into_iter(),
        )
    }

    fn names(items: &Items, of: &Set) -> Vec<String> {
        let name = |at: &usize| format!("{} {}", items.all[*at].name, items.all[*at].lines);
        of.iter().map(name).collect()
    }

    #[test]
    fn cones() {
        let items = items();
        assert!(items.faults.is_empty(), "{:?}", items.faults);
        let exported = items.those(|item| {
            let kind = item.kind;
            matches!(kind, Kind::Contract { exported: true, .. })
        });
        let wanted = ["call 4", "both 2", "Two 3", "double 2", "ROOM 1", "Pair 3"];
        assert_eq!(names(&items, &items.cone(&exported)), wanted);
        let inner = items.cone(&items.those(|item| item.name == "inner"));
        assert_eq!(names(&items, &inner), ["module 1", "inner 2", "Two 3"]);
        let deeper = items.cone(&items.those(|item| item.name == "deeper"));
        let wanted = ["module 1", "module 1", "deeper 2", "Two 3"];
        assert_eq!(names(&items, &deeper), wanted);
        let last = items.cone(&items.those(|item| item.name == "last"));
        assert_eq!(names(&items, &last), ["module 1", "last 2", "Two 3"]);
        let kit: Vec<&str> = items.kit(&inner).into_iter().collect();
        assert_eq!(kit, ["Prim.Native.Nat.ℕ"]);
    }

    #[test]
    fn faults() {
        let wrong = [
            (
                "use Rattle·low.specs.Low.{none}\n",
                "none, which is not found",
            ),
            (
                "use Rattle·low.specs.Other.{double}\n",
                "double, which is not found",
            ),
            (
                "abbrev pub f : ℕ\ng = 3\n",
                "line 2: this belongs to no definition",
            ),
            (
                "abbrev pub f : ℕ\nf = Rattle·low.specs.Low.double 3\n",
                "line 2: a module stands outside a use line",
            ),
            (
                "use Rattle·low.specs.Low as L\nuse L.{double}\n",
                "line 2: L is no library that is known here",
            ),
            ("f = 3\n", "line 1: this belongs to no definition"),
            (
                "abbrev pub f : ℕ\nf = 3\nabbrev pub f : ℕ\n",
                "f is declared twice",
            ),
        ];
        for (text, words) in wrong {
            let files = [
                ("crates/high/specs/High.antt", text),
                ("crates/low/specs/Low.antt", LOW),
            ];
            let items = Items::read(files.into_iter());
            let faults = [items.faults.clone(), items.unfound(|_| true)].concat();
            assert!(
                faults.iter().any(|fault| fault.contains(words)),
                "{faults:?}"
            );
        }
    }
}
