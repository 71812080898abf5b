//! What C links is promised without a condition: each `extern "C" fn` has one `ensures`, which is the equality of what
//! it gives and leaves with its own definition of its own arguments, and no `requires`.

use crate::antt;
use crate::{rattle, Report, Tree};
use std::collections::BTreeSet;

pub const HEADER: &str = "include/embankery.h";
pub const CALLS: &str = "crates/embankery/src/calls.rt";
pub const MACS: &str = "crates/embankery/src/macs.rt";
const MANY: &str = "crates/embankery/src/many.rt";
const EXPORTS: &str = "crates/boundary/specs/Exports.antt";
const DIGESTS: &str = "crates/digests/specs/Digests.antt";
const CONNECTIONS: &str = "crates/connections/specs/Exports.antt";
const TABLES: &str = "crates/tables/specs/Tables.antt";

/// Each call by its name in C, with its definition.
const DEFINITIONS: [(&str, &str); 24] = [
    ("tcpao_check_table", "checkTableExport"),
    ("tcpao_prepare", "prepareExport"),
    ("tcpao_open_active", "openActiveExport"),
    ("tcpmd5_open_active", "openActiveMd5Export"),
    ("tcpao_judge_syn", "judgeSynExport"),
    ("tcpao_open_passive", "openPassiveExport"),
    ("tcpao_judge", "judgeExport"),
    ("tcpao_sign", "signExport"),
    ("tcpao_ask", "askExport"),
    ("mac_sha1", "sha1Into"),
    ("mac_hmac_sha1", "hmacSha1Into"),
    ("mac_sha256", "sha256Into"),
    ("mac_hmac_sha256", "hmacSha256Into"),
    ("mac_md5", "md5Into"),
    ("mac_aes128", "aes128Into"),
    ("mac_aes128_cmac", "cmacInto"),
    ("tcpao_connections_open_active", "openActiveExport"),
    ("tcpmd5_connections_open_active", "openActiveMd5Export"),
    ("tcpao_connections_open_passive", "openPassiveExport"),
    ("tcpao_connections_judge", "judgeExport"),
    ("tcpao_connections_sign", "signExport"),
    ("tcpao_connections_ask", "askExport"),
    ("tcpao_connections_close", "closeExport"),
    ("tcpao_connections_find", "findExport"),
];

/// How a contract gathers the answer and the buffers at exit, by the buffers that are lent for writing.
const GATHERED: [(&str, &[&str], &str); 8] = [
    (EXPORTS, &[], "answers r"),
    (EXPORTS, &["out"], "fills r (now (out .exit))"),
    (EXPORTS, &["state"], "leaves r (now (state .exit))"),
    (
        EXPORTS,
        &["out", "state"],
        "writes r (now (state .exit)) (now (out .exit))",
    ),
    (DIGESTS, &["out"], "gives r (now (out .exit))"),
    (CONNECTIONS, &[], "answers r"),
    (
        CONNECTIONS,
        &["connections"],
        "leaves r (now (connections .exit))",
    ),
    (
        CONNECTIONS,
        &["out", "connections"],
        "writes r (now (connections .exit)) (now (out .exit))",
    ),
];

/// A function for C: its name, and what stands between it and its body.
struct Export {
    name: String,
    head: String,
}

/// A text with one blank where it has one or more, or a new line.
fn spaced(text: &str) -> String {
    text.split_whitespace().collect::<Vec<_>>().join(" ")
}

fn without_comments(text: &str) -> String {
    let lines = text.lines().map(|line| rattle::code(line).trim_end());
    lines.collect::<Vec<_>>().join("\n")
}

fn exports(text: &str) -> Vec<Export> {
    let parts = text.split("pub extern \"C\" fn ").skip(1);
    let export = |part: &str| {
        let head = part.split("\n{").next().unwrap_or(part);
        let name = head.split('(').next().unwrap_or("").to_string();
        Export {
            head: spaced(&head[name.len()..]),
            name,
        }
    };
    parts.map(export).collect()
}

/// Its parameters, as `name: type`.
fn parameters(head: &str) -> Vec<(&str, &str)> {
    let inside = head
        .strip_prefix('(')
        .and_then(|head| head.split(')').next());
    let each = inside.unwrap_or("").split(',').map(str::trim);
    each.filter_map(|one| one.split_once(": ")).collect()
}

/// The parameters as the definition takes them, in their order.
fn arguments(parameters: &[(&str, &str)]) -> Vec<String> {
    let mut found = Vec::new();
    let mut rest = parameters;
    if let [("form", "u8"), ("keys", "&[u8]"), ("md5", "&[u8]"), others @ ..] = rest {
        found.push("(tablesOf form (now (keys .entry)) (now (md5 .entry)))".to_string());
        rest = others;
    }
    for (name, kind) in rest {
        found.push(match *kind {
            "&[u8]" | "&mut [u8]" => format!("(now ({name} .entry))"),
            _ if name.contains('_') => format!("«{name}»"),
            _ => name.to_string(),
        });
    }
    found
}

/// What its head must say behind the parameters, if its definition and its buffers are known.
fn contract(export: &Export) -> Option<String> {
    let parameters = parameters(&export.head);
    let (_, definition) = DEFINITIONS.iter().find(|(name, _)| *name == export.name)?;
    let file = file_of(&export.name);
    let lent: Vec<&str> = parameters
        .iter()
        .filter(|(_, kind)| *kind == "&mut [u8]")
        .map(|(name, _)| *name)
        .collect();
    let of = |(owner, buffers, _): &&(&str, &[&str], &str)| *owner == file && *buffers == lent;
    let (_, _, gathered) = GATHERED.iter().find(of)?;
    let arguments = arguments(&parameters).join(" ");
    Some(format!(
        ") -> u64 ensures {{ λ r. ⌜ {gathered} ≡ {definition} {arguments} ⌝ }}"
    ))
}

/// The definitions that its contract must cite, with their files.
fn cited(export: &Export) -> Vec<(String, &'static str)> {
    let file = file_of(&export.name);
    let contract = contract(export).unwrap_or_default();
    let words = contract.split(|c: char| c.is_whitespace() || "(){}".contains(c));
    let owner = |word: &str| {
        let gathers = GATHERED
            .iter()
            .any(|(_, _, gathered)| gathered.split(' ').next() == Some(word));
        let defines = DEFINITIONS
            .iter()
            .any(|(_, definition)| *definition == word);
        match word {
            "tablesOf" => Some(TABLES),
            _ if gathers && file == CONNECTIONS => Some(EXPORTS),
            _ if gathers || defines => Some(file),
            _ => None,
        }
    };
    words
        .filter_map(|word| Some((word.to_string(), owner(word)?)))
        .collect()
}

/// The file that has the definition of a call.
fn file_of(name: &str) -> &'static str {
    if name.starts_with("mac_") {
        DIGESTS
    } else if name.contains("_connections_") {
        CONNECTIONS
    } else {
        EXPORTS
    }
}

/// The functions that the header declares.
fn declared(header: &str) -> BTreeSet<String> {
    let lines = header
        .lines()
        .filter_map(|line| line.strip_prefix("uint64_t "));
    lines
        .filter_map(|line| line.split_once('(').map(|(name, _)| name.to_string()))
        .collect()
}

fn of_export(tree: &Tree, path: &str, text: &str, export: &Export) -> Vec<String> {
    let name = &export.name;
    let mut faults = Vec::new();
    let words = export.head.split(|c: char| !c.is_alphanumeric());
    let (ensured, required) = words.fold((0, 0), |(e, r), word| {
        (
            e + usize::from(word == "ensures"),
            r + usize::from(word == "requires"),
        )
    });
    if required > 0 {
        faults.push(format!(
            "{path}: {name} has `requires`, and nothing is asked of C"
        ));
    }
    if ensured != 1 {
        faults.push(format!(
            "{path}: {name} has {ensured} `ensures`, and not one"
        ));
    }
    match contract(export) {
        None => faults.push(format!(
            "{path}: {name} has no definition that rust/house knows, or other buffers"
        )),
        Some(wanted) if !export.head.ends_with(&wanted) => faults.push(format!(
            "{path}: the contract of {name} is not `{}`",
            wanted.trim_start_matches(") -> u64 ")
        )),
        Some(_) => {}
    }
    for (cited, file) in cited(export) {
        let uses = antt::uses(text);
        let mut from = uses
            .iter()
            .filter(|used| used.names.contains(&cited))
            .map(|used| antt::spec_file(&used.module));
        let found = from.next().flatten();
        if found.as_deref() != Some(file) || from.next().is_some() {
            faults.push(format!("{path}: `{cited}` is not that of {file}"));
        }
        if !tree
            .text(file)
            .is_some_and(|text| antt::declared(text).has(&cited))
        {
            faults.push(format!("{file} has no definition `{cited}`"));
        }
    }
    faults
}

pub fn check(tree: &Tree) -> Report {
    let mut faults = Vec::new();
    let mut found = BTreeSet::new();
    for path in tree.paths("crates/", ".rt") {
        let text = without_comments(tree.text(path).unwrap_or(""));
        let here = exports(&text);
        let words = |word: &str| text.matches(word).count();
        if words("extern") != here.len() || words("no_mangle") != here.len() {
            faults.push(format!(
                "{path} has `extern` or `no_mangle` elsewhere than before `pub extern \"C\" fn`"
            ));
        }
        if !here.is_empty() && ![CALLS, MACS, MANY].contains(&path) {
            faults.push(format!(
                "{path} has functions for C; only {CALLS}, {MACS} and {MANY} do"
            ));
        }
        // a definition under another name would be read as what it is not
        let renamed = |line: &&str| line.starts_with("ghost use ") && line.contains(" as ");
        if [CALLS, MACS, MANY].contains(&path) && text.lines().any(|line| renamed(&line)) {
            faults.push(format!("{path} renames what its contracts cite"));
        }
        for export in here {
            faults.extend(of_export(tree, path, &text, &export));
            found.insert(export.name);
        }
    }
    let header = declared(tree.text(HEADER).unwrap_or(""));
    if found.is_empty() || header != found {
        faults.push(format!(
            "{HEADER} declares other functions than the archive has: {:?}",
            header.symmetric_difference(&found).collect::<Vec<_>>()
        ));
    }
    Report {
        summary: format!(
            "{} functions for C, each with one `ensures` and no `requires`",
            found.len()
        ),
        faults,
    }
}
