//! docs/READING.md lists the files that must be believed, and none of them holds a proof. Its section "What is a
//! proof" has the rule in words; this is the rule.

use crate::antt::{self, Mark};
use crate::{Report, Tree};

pub const READING: &str = "docs/READING.md";
const BELIEVED: &str = "## The files to believe";
const WORKING: &str = "## Working definitions";

/// Words that only a proof has. None of them may be imported either.
pub const PROOF_WORDS: [&str; 31] = [
    "omega",
    "arith",
    "cc",
    "search",
    "needs",
    "rw",
    "simp",
    "refl",
    "sym",
    "ap",
    "ap₂",
    "subst",
    "subst₂",
    "subst⁻¹",
    "transport",
    "absurd",
    "∙",
    "◌∙◌",
    "tie",
    "unfolding",
    "unfold",
    "grind",
    "grw",
    "hlevel",
    "assumption",
    "ground",
    "rules",
    "goal",
    "of_calls",
    "ruleset",
    "axiom",
];

/// Where the whole path of a name begins; a listed file names others by its use lines alone.
const MODULES: [&str; 5] = ["Rattle.", "package.", "mathlib.", "native.", "lib."];
/// Modules of the kit that only a proof uses, and all below them.
const PROOF_MODULES: [&str; 3] = ["Rattle.std.proofs", "native.Mathlib.Omega", "borrow.Author"];
/// Modules of laws, with the definitions that stand among them.
const LAW_MODULES: [(&str, &str); 3] = [
    ("Rattle.std.proofs.Math.Seq", "paste"),
    ("lib.Seq", "paste"),
    ("mathlib.Core.Path", "◌≡◌"),
];

/// The paths of the bullets under a heading of READING, up to the next heading of its kind.
fn listed(text: &str, heading: &str) -> Vec<String> {
    let lines = text.lines().skip_while(|line| *line != heading).skip(1);
    let lines = lines.take_while(|line| !line.starts_with("## "));
    let path = |line: &str| {
        line.strip_prefix("- `")?
            .split('`')
            .next()
            .map(str::to_string)
    };
    lines.filter_map(path).collect()
}

/// Whether a file is named as one of laws; it stands in specs/ or in proofs/.
pub fn is_laws(path: &str) -> bool {
    path.ends_with("Laws.antt")
}

/// What in a file of antt is a proof, or rests on one: a definition without a mark, a word or a module that only
/// proofs have.
pub fn proofs(text: &str) -> Vec<String> {
    let mut found = Vec::new();
    for definition in antt::declared(text).definitions {
        if definition.mark == Mark::None {
            found.push(format!(
                "line {}: {} is neither `abbrev` nor `unfoldable`",
                definition.line, definition.name
            ));
        }
    }
    for (number, line) in text.lines().enumerate() {
        let line = antt::code(line);
        if line.starts_with("use ") || line.starts_with("pub use ") {
            continue;
        }
        let mut words = line.split(|c: char| c.is_whitespace() || "(){}[];,=".contains(c));
        // a name may be written by its whole path
        let of_proofs = |word: &&str| {
            let last = word.rsplit('.').next().unwrap_or(word);
            PROOF_WORDS.contains(&last) || MODULES.iter().any(|top| word.starts_with(top))
        };
        if let Some(word) = words.find(of_proofs) {
            found.push(format!("line {}: `{word}`", number + 1));
        }
    }
    for used in antt::uses(text) {
        let of_laws = LAW_MODULES
            .iter()
            .find(|(module, _)| *module == used.module);
        let of_proofs = match of_laws {
            Some((_, definition)) => used.names.iter().any(|name| name != definition),
            None => PROOF_MODULES
                .iter()
                .any(|module| used.module.starts_with(module)),
        };
        if of_proofs {
            found.push(format!("it uses {} for proofs", used.module));
        }
        let last = |name: &&String| {
            let word = name.rsplit('.').next().unwrap_or(name);
            PROOF_WORDS.contains(&word)
        };
        if let Some(name) = used.names.iter().find(last) {
            found.push(format!("it uses {name} of {}", used.module));
        }
    }
    found
}

/// The files of the crates' definitions and laws that a file uses.
fn cited(text: &str) -> Vec<String> {
    antt::uses(text)
        .iter()
        .filter_map(|used| antt::file(&used.module))
        .collect()
}

pub fn check(tree: &Tree) -> Report {
    let text = tree.text(READING).unwrap_or("");
    let (believed, working) = (listed(text, BELIEVED), listed(text, WORKING));
    let mut faults = Vec::new();
    for path in believed.iter().chain(&working) {
        if believed
            .iter()
            .chain(&working)
            .filter(|other| *other == path)
            .count()
            > 1
        {
            faults.push(format!("{READING} lists {path} twice"));
        }
        let Some(text) = tree.text(path) else {
            faults.push(format!("{READING} lists {path}, which is not there"));
            continue;
        };
        let place = if path.ends_with(".antt") {
            "/specs/"
        } else {
            "/src/"
        };
        if !path.contains(place) {
            faults.push(format!("{READING} lists {path}, which is not in {place}"));
        }
        let proofs = if path.ends_with(".antt") {
            proofs(text)
        } else {
            Vec::new()
        };
        if is_laws(path) || !proofs.is_empty() {
            let more = proofs.len().saturating_sub(3);
            let first: Vec<String> = proofs.into_iter().take(3).collect();
            faults.push(format!(
                "{path} holds proofs: {}, and {more} more",
                first.join("; ")
            ));
        }
        for used in cited(text) {
            let allowed =
                believed.contains(&used) || (working.contains(path) && working.contains(&used));
            if !allowed {
                faults.push(format!(
                    "{path} rests on {used}, which is not listed with it"
                ));
            }
        }
    }
    for path in tree
        .paths("crates/", ".antt")
        .filter(|path| path.contains("/specs/"))
    {
        let list = [&believed, &working]
            .iter()
            .any(|list| list.iter().any(|one| one == path));
        if !list && !is_laws(path) && !path.ends_with("/specs/Lib.antt") {
            faults.push(format!(
                "{path} is not named Laws, and {READING} does not list it"
            ));
        }
    }
    let lines = |end: &str| -> usize {
        let files = believed.iter().filter(|path| path.ends_with(end));
        files
            .filter_map(|path| tree.text(path))
            .map(|text| text.lines().count())
            .sum()
    };
    if believed.is_empty() || lines(".antt") == 0 {
        faults.push(format!("{READING} lists nothing under \"{BELIEVED}\""));
    }
    Report {
        summary: format!(
            "{} files to believe, {} lines of definitions and statements, {} of types and contracts with their code",
            believed.len(),
            lines(".antt"),
            lines(".rt")
        ),
        faults,
    }
}
