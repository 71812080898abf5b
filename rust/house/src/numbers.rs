//! What each number means is said in three places, in the same words: include/embankery.h, which is the
//! one to change first, README.md, and the wrapper's answer.rs.

use crate::tree::between;
use crate::{Report, Tree};
use std::collections::BTreeMap;

/// Number to meaning.
type Meanings = BTreeMap<u8, String>;

pub const HEADER: &str = "include/embankery.h";
pub const README: &str = "README.md";
pub const WRAPPER: &str = "rust/embankery/src/answer.rs";

/// The header's list: number, two spaces or more, words that may go on below at the same indentation.
pub fn header(text: &str) -> Meanings {
    let list = between(text, " *   no.  meaning\n", "\n * The value").unwrap_or("");
    let mut found = Meanings::new();
    let mut last = None;
    for line in list.lines() {
        let line = line.strip_prefix(" *").unwrap_or(line);
        let (place, words) = line.split_at(line.len().min(8));
        if let Ok(number) = place.trim().parse() {
            found.insert(number, words.trim().to_string());
            last = Some(number);
        } else if place.trim().is_empty() && !words.trim().is_empty() {
            if let Some(meaning) = last.and_then(|number| found.get_mut(&number)) {
                meaning.push(' ');
                meaning.push_str(words.trim());
            }
        } else {
            last = None;
        }
    }
    found
}

/// README's table under "Numbers": `| number | meaning |`.
pub fn readme(text: &str) -> Meanings {
    let section = between(text, "\n## Numbers\n", "\n## ").unwrap_or("");
    let row = |line: &str| {
        let mut cells = line
            .strip_prefix("| ")?
            .strip_suffix(" |")?
            .splitn(2, " | ");
        let number = cells.next()?.parse().ok()?;
        Some((number, cells.next()?.to_string()))
    };
    section.lines().filter_map(row).collect()
}

/// The wrapper's macro: `number Name "meaning"`.
pub fn wrapper(text: &str) -> Meanings {
    let list = between(text, "\nrefusals! {\n", "\n}\n").unwrap_or("");
    let row = |line: &str| {
        let (front, rest) = line.trim().split_once(" \"")?;
        let number = front.split(' ').next()?.parse().ok()?;
        Some((number, rest.strip_suffix('"')?.to_string()))
    };
    list.lines().filter_map(row).collect()
}

pub fn check(tree: &Tree) -> Report {
    let text = |path| tree.text(path).unwrap_or("");
    let header = header(text(HEADER));
    // The wrapper's types stand for accept and pass.
    let refusals = header.iter().filter(|(number, _)| **number >= 10);
    let refusals = refusals
        .map(|(number, words)| (*number, words.clone()))
        .collect();
    let mut faults = Vec::new();
    compare(README, &readme(text(README)), &header, &mut faults);
    compare(WRAPPER, &wrapper(text(WRAPPER)), &refusals, &mut faults);
    if !(10..=37)
        .chain([0, 1, 40, 44, 45, 46, 47])
        .all(|number| header.contains_key(&number))
    {
        faults.push(format!(
            "{HEADER} does not have each of 0, 1, 10 to 37, 40 and 44 to 47"
        ));
    }
    Report {
        summary: format!("{} numbers in header, README and wrapper", header.len()),
        faults,
    }
}

fn compare(path: &str, said: &Meanings, wanted: &Meanings, faults: &mut Vec<String>) {
    for number in 0..=255 {
        let (said, wanted) = (said.get(&number), wanted.get(&number));
        if said != wanted {
            let shown = |words: Option<&String>| {
                words.map_or("nothing".to_string(), |words| format!("\"{words}\""))
            };
            faults.push(format!(
                "{number}: {path} says {}, {HEADER} {}",
                shown(said),
                shown(wanted)
            ));
        }
    }
}
