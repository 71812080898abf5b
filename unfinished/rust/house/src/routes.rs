//! What must be believed, by definition: what the contracts of the exports, the page of promises and the desk's contracts rest on. How many
//! lines that is, promise by promise and file by file, and what stands beside it.

use crate::cone::{is_definitions, Item, Items, Kind, Set};
use crate::Tree;
use std::collections::BTreeSet;

/// The page of promises, and the record on it.
pub const PAGE: (&str, &str) = ("crates/demands/specs/Embankery.antt", "Embankery");
/// The exports, and the calls of the desk.
const EXPORTS: &str = "crates/embankery/src/";
const DESK: &str = "crates/recording/src/";

/// How many lines are read in a minute: at most, at least.
const PACE: (usize, usize) = (25, 15);

/// Something that is promised, with all that it rests on.
pub struct Route {
    pub name: String,
    pub cone: Set,
}

/// What is to be believed, and the rest.
pub struct Routes {
    pub items: Items,
    /// The exports, then the page field by field; the fields `x` and `x-y` are one.
    pub promises: Vec<Route>,
    /// All of it, with the page.
    pub believed: Set,
    /// What the contracts of all functions rest on.
    pub cited: Set,
    /// What is missing for this to say anything.
    pub faults: Vec<String>,
}

fn is_contract(item: &Item, folder: &str) -> bool {
    let public = matches!(item.kind, Kind::Contract { public: true, .. });
    public && item.file.starts_with(folder)
}

fn is_export(item: &Item) -> bool {
    matches!(item.kind, Kind::Contract { exported: true, .. }) && item.file.starts_with(EXPORTS)
}

impl Routes {
    pub fn of(tree: &Tree) -> Routes {
        let items = Items::of(tree);
        let mut faults = items.faults.clone();
        let mut route = |name: &str, roots: &Set| {
            if roots.is_empty() {
                faults.push(format!("{name} names no definition"));
            }
            Route {
                name: name.to_string(),
                cone: items.cone(roots),
            }
        };
        let mut promises = vec![route("exports", &items.those(is_export))];
        let page = items.those(|item| (item.file.as_str(), item.name.as_str()) == PAGE);
        let fields: Vec<(&str, Set)> = page.iter().flat_map(|at| items.fields(*at)).collect();
        let first = |name: &str| -> String {
            let start = name.split('-').next().unwrap_or(name);
            let other = fields.iter().any(|(other, _)| *other == start);
            (if other { start } else { name }).to_string()
        };
        let mut names: Vec<String> = fields.iter().map(|(name, _)| first(name)).collect();
        names.dedup();
        for name in names {
            let here = fields.iter().filter(|(field, _)| first(field) == name);
            let mut roots: Set = here.flat_map(|(_, named)| named.clone()).collect();
            if name == "desk" {
                roots.extend(items.those(|item| is_contract(item, DESK)));
            }
            promises.push(route(&name, &roots));
        }
        for wanted in ["demand2", "demand3", "desk"] {
            if !promises.iter().any(|promise| promise.name == wanted) {
                faults.push(format!("{} has no field {wanted}", PAGE.0));
            }
        }
        let mut believed = items.cone(&page);
        for promise in &promises {
            believed.extend(&promise.cone);
        }
        let files: BTreeSet<&str> = believed
            .iter()
            .map(|at| items.all[*at].file.as_str())
            .collect();
        faults.extend(items.unfound(|file| is_definitions(file) || files.contains(file)));
        let contracts = items.those(|item| matches!(item.kind, Kind::Contract { .. }));
        Routes {
            cited: items.cone(&contracts),
            items,
            promises,
            believed,
            faults,
        }
    }

    /// The cone of the promises of these names.
    pub fn cone(&self, names: &[&str]) -> Set {
        let named = |promise: &&Route| names.contains(&promise.name.as_str());
        let those = self.promises.iter().filter(named);
        those
            .flat_map(|promise| promise.cone.iter().copied())
            .collect()
    }

    fn lines(&self, set: &Set) -> usize {
        set.iter().map(|at| self.items.all[*at].lines).sum()
    }

    fn of_kind(&self, set: &Set, kind: impl Fn(Kind) -> bool) -> Set {
        let is_kind = |at: &&usize| kind(self.items.all[**at].kind);
        set.iter().filter(is_kind).copied().collect()
    }

    /// The files that some items stand in.
    pub fn files(&self, set: &Set) -> BTreeSet<&str> {
        set.iter()
            .map(|at| self.items.all[*at].file.as_str())
            .collect()
    }

    /// The items of a file among some.
    fn in_file(&self, set: &Set, file: &str) -> Set {
        let here = |at: &&usize| self.items.all[**at].file == file;
        set.iter().filter(here).copied().collect()
    }

    fn names(&self, set: &Set) -> String {
        let name = |at: &usize| self.items.all[*at].name.clone();
        set.iter().map(name).collect::<Vec<_>>().join(", ")
    }

    /// How many files and lines must be believed.
    pub fn summary(&self) -> String {
        let contracts = |kind| matches!(kind, Kind::Contract { .. });
        let lines = |kind: &dyn Fn(Kind) -> bool| self.lines(&self.of_kind(&self.believed, kind));
        format!(
            "{} lines to believe in {} files: {} of definitions and statements, {} of types, {} of contracts",
            counted(self.lines(&self.believed)),
            self.files(&self.believed).len(),
            counted(lines(&|kind| kind == Kind::Definition)),
            counted(lines(&|kind| kind == Kind::Type)),
            counted(lines(&contracts)),
        )
    }

    /// What is drawn into docs/READING.md.
    pub fn draw(&self, tree: &Tree) -> String {
        format!(
            "{}.\n\n{}\n{}\n{}",
            self.summary(),
            self.by_promise(),
            self.by_file(tree),
            self.of_the_kit()
        )
    }

    fn by_promise(&self) -> String {
        let mut text = format!(
            "Promise by promise: what it rests on alone, and what it adds to those above it. Minutes at {} and at {} lines a minute.\n\n",
            PACE.0, PACE.1
        );
        text += &format!(
            "{:<22}{:>7}{:>12}{:>7}{:>9}{:>9}{:>12}\n",
            "", "alone", "minutes", "files", "adds", "so far", "minutes"
        );
        let mut so_far = Set::new();
        let page = Route {
            name: "the page itself".to_string(),
            cone: self.believed.clone(),
        };
        for promise in self.promises.iter().chain([&page]) {
            let before = self.lines(&so_far);
            so_far.extend(&promise.cone);
            let (alone, after) = (self.lines(&promise.cone), self.lines(&so_far));
            let is_page = promise.name == page.name;
            let alone_cells = match is_page {
                true => ["", "", ""].map(str::to_string),
                false => [
                    counted(alone),
                    minutes(alone),
                    self.files(&promise.cone).len().to_string(),
                ],
            };
            text += &format!(
                "{:<22}{:>7}{:>12}{:>7}{:>9}{:>9}{:>12}\n",
                promise.name,
                alone_cells[0],
                alone_cells[1],
                alone_cells[2],
                counted(after - before),
                counted(after),
                minutes(after)
            );
        }
        let both = self.cone(&["demand2", "demand3"]);
        let lines = self.lines(&both);
        text + &format!(
            "{:<22}{:>7}{:>12}{:>7}\n",
            "demand2 and demand3",
            counted(lines),
            minutes(lines),
            self.files(&both).len()
        )
    }

    /// The files to believe, in the order of crates.txt and of each crate's Lib.antt; the types and contracts of a crate stand first.
    pub fn in_order(&self, tree: &Tree) -> Vec<&str> {
        let crates = tree.text("crates.txt").unwrap_or("").lines();
        let crates: Vec<&str> = crates
            .filter_map(|line| Some(line.split_once(':')?.0))
            .collect();
        let place = |path: &&str| {
            let owner = path.split('/').nth(1).unwrap_or("");
            let crate_place = crates.iter().position(|name| *name == owner);
            let lib = tree.text(&format!("crates/{owner}/specs/Lib.antt"));
            let name = path.rsplit('/').next().unwrap_or(path);
            let line = format!("pub mod {}", name.trim_end_matches(".antt"));
            let at = lib.and_then(|text| text.lines().position(|one| one == line));
            (crate_place, is_definitions(path), at, path.to_string())
        };
        let mut files: Vec<&str> = self.files(&self.believed).into_iter().collect();
        files.sort_by_key(place);
        files
    }

    fn by_file(&self, tree: &Tree) -> String {
        let mut text = String::from(
            "File by file, a crate behind those that it uses: the lines to believe, and those for each of these alone.\n\
             Behind them, where not all of a file is to be believed: what alone is; or what is not, because only\n\
             contracts inside cite it (working) or none does (checks).\n\n",
        );
        let columns = ["exports", "demand2", "demand3"];
        let heads: String = columns.iter().map(|name| format!("{name:>9}")).collect();
        text += &format!("{:<36}{:>6}{heads}\n", "", "lines");
        for file in self.in_order(tree) {
            let cells = columns.map(|name| {
                let lines = self.lines(&self.in_file(&self.cone(&[name]), file));
                let cell = if lines == 0 {
                    ".".to_string()
                } else {
                    counted(lines)
                };
                format!("{cell:>9}")
            });
            let lines = self.lines(&self.in_file(&self.believed, file));
            let name = file.trim_start_matches("crates/");
            let line = format!(
                "{name:<36}{:>6}{}   {}",
                counted(lines),
                cells.concat(),
                self.beside(file)
            );
            text += line.trim_end();
            text.push('\n');
        }
        text
    }

    /// Which definitions of a file are not to be believed, or which alone are, where they are fewer; of a file with code, which
    /// types and contracts are.
    fn beside(&self, file: &str) -> String {
        let here = self.items.those(|item| item.file == file);
        let outside: Set = here.difference(&self.believed).copied().collect();
        let (working, checks): (Set, Set) = outside.iter().partition(|at| self.cited.contains(at));
        let inside: Set = here.intersection(&self.believed).copied().collect();
        if !is_definitions(file) {
            return format!("only {}", self.names(&inside));
        }
        if inside.len() < outside.len() {
            let rest = match (working.is_empty(), checks.is_empty()) {
                (true, _) => "checks",
                (_, true) => "working",
                _ => "working or checks",
            };
            return format!("only {}; the rest: {rest}", self.names(&inside));
        }
        let mut parts = Vec::new();
        for (kind, set) in [("working", working), ("checks", checks)] {
            if !set.is_empty() {
                parts.push(format!("{kind}: {}", self.names(&set)));
            }
        }
        parts.join("; ")
    }

    fn of_the_kit(&self) -> String {
        let mut modules: Vec<(&str, Vec<&str>)> = Vec::new();
        for name in self.items.kit(&self.believed) {
            let (module, name) = name.rsplit_once('.').unwrap_or(("", name));
            match modules.last_mut() {
                Some((last, names)) if *last == module => names.push(name),
                _ => modules.push((module, vec![name])),
            }
        }
        let mut text = String::from("Of the kit's library they name, with its own meaning:\n\n");
        for (module, names) in modules {
            text += &format!("{module:<20}{}\n", names.join(" "));
        }
        text
    }

    /// Every definition that is to be believed with its lines, and the promises that rest on it; then what stands outside.
    pub fn list(&self, tree: &Tree) -> String {
        let mut text = String::new();
        for file in self.in_order(tree) {
            let here = self.in_file(&self.believed, file);
            text += &format!("{file}: {} lines\n", self.lines(&here));
            for at in &here {
                let item = &self.items.all[*at];
                let on = self
                    .promises
                    .iter()
                    .filter(|promise| promise.cone.contains(at));
                let names: Vec<&str> = on.map(|promise| promise.name.as_str()).collect();
                text += &format!(
                    "  {:<28}{:>4}   {}\n",
                    item.name,
                    item.lines,
                    names.join(" ")
                );
            }
        }
        let states = |item: &Item| item.kind == Kind::Definition;
        let outside: Set = self
            .items
            .those(states)
            .difference(&self.believed)
            .copied()
            .collect();
        let (working, checks): (Set, Set) = outside.iter().partition(|at| self.cited.contains(at));
        for (title, set) in [
            ("Working definitions: contracts inside cite them", working),
            ("Cross-checks: nothing rests on them", checks),
        ] {
            text += &format!("\n{title}; {} lines\n", counted(self.lines(&set)));
            for file in self.files(&set) {
                let here = self.in_file(&set, file);
                text += &format!("  {file}, {}: {}\n", self.lines(&here), self.names(&here));
            }
        }
        text
    }
}

/// A number with a comma before its thousands.
fn counted(number: usize) -> String {
    match number {
        0..=999 => number.to_string(),
        _ => format!("{},{:03}", number / 1000, number % 1000),
    }
}

/// How long so many lines take, from and to.
fn minutes(lines: usize) -> String {
    format!("{} to {}", lines.div_ceil(PACE.0), lines.div_ceil(PACE.1))
}
