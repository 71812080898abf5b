//! What the desk found, for a person who reads it.

use crate::desk::{Counts, Fate, Line, Report};
use crate::openings::{Direction, Opening, Side};
use embankery::{Refusal, Verdict, Way};
use formats::capture::tcp::Signature;
use formats::capture::{Time, Walked};
use formats::connections::Found;
use std::fmt::Write as _;

/// The list of a capture's connections.
pub fn list(found: &[Found]) -> String {
    let mut text = String::new();
    for (number, found) in (1..).zip(found) {
        let (client, server) = (found.client, found.server);
        let segments = plural(found.segments, "segment", "segments");
        let opening = match (found.syns.first(), found.answers.first()) {
            (Some(syn), Some(answer)) => {
                format!(
                    "SYN in packet {}, SYN+ACK in packet {}",
                    syn.number, answer.number
                )
            }
            (Some(syn), None) => format!("SYN in packet {}, no SYN+ACK", syn.number),
            (None, Some(answer)) => format!("no SYN, SYN+ACK in packet {}", answer.number),
            (None, None) => "no opening in the capture".to_string(),
        };
        let _ = writeln!(
            text,
            "{number:>4}  {client} and {server}: {segments}; {opening}"
        );
    }
    text
}

/// The line above the columns.
pub const COLUMNS: &str =
    " packet          time  conn  dir   index  number  extension  key  what happened";

/// A segment's line under the columns.
pub fn line(line: &Line, first: Option<Time>) -> String {
    let time = match (line.time, first) {
        (Some(time), Some(first)) => time.since(first),
        _ => "-".to_string(),
    };
    let index = line
        .index
        .map_or("-".to_string(), |index| index.to_string());
    let key = match line.signature {
        Signature::None => "-".to_string(),
        Signature::TcpAo { key_id, .. } => key_id.to_string(),
        Signature::TcpMd5 => "MD5".to_string(),
    };
    let (number, extension, happened) = match &line.fate {
        Fate::Judged(verdict) => {
            let (number, extension, words) = verdict_in_words(*verdict);
            (number.to_string(), extension.to_string(), words)
        }
        Fate::NotJudged(why) => (
            "-".to_string(),
            "-".to_string(),
            format!("not judged: {why}"),
        ),
    };
    let note = match line.note.is_empty() {
        true => String::new(),
        false => format!("; {}", line.note),
    };
    format!(
        "{:>7} {time:>13} {:>5}  {:<3} {index:>7} {number:>7} {extension:>10} {key:>4}  {}: {happened}{note}",
        line.packet,
        line.connection,
        line.direction.name(),
        line.what,
    )
}

/// A verdict's number, its extension (0 beside a drop) and its words.
pub fn verdict_in_words(verdict: Verdict) -> (u8, u32, String) {
    match verdict {
        Verdict::Accept { extension } => (0, extension, "accepted".to_string()),
        Verdict::Pass => (1, 0, "passed: no entry matches".to_string()),
        Verdict::Drop(refusal) => (
            refusal.number(),
            0,
            format!("dropped: {}", refusal.meaning()),
        ),
    }
}

/// The capture as a whole, in one line.
pub fn capture(path: &str, walked: &Walked) -> String {
    let links: Vec<&str> = walked.links.iter().copied().collect();
    let links = match links.is_empty() {
        true => String::new(),
        false => format!(", {}", links.join(" and ")),
    };
    let packets = plural(walked.packets, "packet", "packets");
    let first = walked
        .first
        .map_or(String::new(), |first| format!(", the first at {first}"));
    format!("{path}: {}{links}, {packets}{first}", walked.form.name())
}

/// A connection's ends.
pub fn head(opening: &Opening) -> String {
    let end = |side: Side| {
        let whose = if side == opening.ours {
            "ours"
        } else {
            "the peer"
        };
        format!("{} ({whose})", opening.address(side))
    };
    let way = match &opening.at_server.opened {
        Some((_, state)) if state.way() == Way::TcpMd5 => ", by TCP MD5",
        Some(_) => ", by TCP-AO",
        None => "",
    };
    let (client, server) = (end(Side::Client), end(Side::Server));
    let either = match opening.either {
        true => "; the tables fit either end, --local ADDRESS says which is ours",
        false => "",
    };
    let number = opening.number;
    format!("connection {number}: {client} to {server}{way}{either}")
}

/// What happened how often, by connection and direction, and what was not looked at.
pub fn summary(report: &Report) -> String {
    let mut text = String::new();
    let mut all = Counts::default();
    for (opening, counts) in &report.judged {
        let _ = writeln!(text, "{}", head(opening));
        text.push_str(&not_opened(opening));
        for direction in [Direction::In, Direction::Out] {
            let counts = match opening.receiver(direction) {
                Side::Client => &counts[0],
                Side::Server => &counts[1],
            };
            let _ = writeln!(text, "  {:<4}{}", direction.name(), in_numbers(counts));
            text.push_str(&reasons(counts));
            join(&mut all, counts);
        }
    }
    for number in &report.unopened {
        let found = &report.found[number - 1];
        let _ = writeln!(
            text,
            "connection {number}: {} and {}: not judged",
            found.client, found.server
        );
        let seen = plural(found.segments, "segment", "segments");
        let lacks = match found.answers.is_empty() {
            true => "neither its SYN nor its SYN+ACK",
            false => "not its SYN",
        };
        let _ = writeln!(
            text,
            "  {seen}, but the capture has {lacks}, and the MACs depend on both ISNs"
        );
    }
    if report.judged.is_empty() && report.unopened.is_empty() {
        let _ = writeln!(
            text,
            "no connection of the capture matches an entry of the tables"
        );
    }
    not_looked_at(report, &mut text);
    let _ = writeln!(text, "all: {}", in_numbers(&all));
    text
}

/// Why an end was not opened, from which what its segments got follows.
fn not_opened(opening: &Opening) -> String {
    let mut text = String::new();
    for side in [Side::Server, Side::Client] {
        let (end, address) = (opening.end(side), opening.address(side));
        let why = match (end.packet, end.failed) {
            _ if end.opened.is_some() => continue,
            (Some((_, Verdict::Accept { .. })), _) | (None, None) => {
                "the capture has no SYN+ACK".to_string()
            }
            (Some((packet, verdict)), _) => {
                let (number, _, words) = verdict_in_words(verdict);
                format!("packet {packet} got {number}, {words}")
            }
            (None, Some(refusal)) => format!("from its SYN it could not have opened: {refusal}"),
        };
        let _ = writeln!(text, "  not opened at {address}: {why}");
    }
    text
}

fn not_looked_at(report: &Report, text: &mut String) {
    if report.others > 0 {
        let others = plural(
            report.others as u64,
            "other connection",
            "other connections",
        );
        let _ = writeln!(text, "not looked at: {others}, which no entry matches");
    }
    for (why, count) in &report.unread {
        let _ = writeln!(
            text,
            "not read: {}: {why}",
            plural(*count, "packet", "packets")
        );
    }
    if report.walked.unknown > 0 {
        let packets = plural(report.walked.unknown, "packet", "packets");
        let _ = writeln!(text, "not read: {packets} of links that are not known here");
    }
    if report.left_out > 0 {
        let segments = plural(report.left_out, "segment", "segments");
        let _ = writeln!(
            text,
            "not looked at: {segments} of more connections than are kept"
        );
    }
    if let Some(fault) = &report.walked.fault {
        let packets = plural(report.walked.packets, "packet", "packets");
        let _ = writeln!(text, "the reading ended behind {packets}: {fault}");
    }
}

fn in_numbers(counts: &Counts) -> String {
    let dropped: u64 = counts.dropped.values().sum();
    let not_judged: u64 = counts.not_judged.values().sum();
    let mut text = plural(counts.all(), "segment", "segments");
    let _ = write!(text, ": {} accepted, {dropped} dropped", counts.accepted);
    if counts.passed > 0 {
        let _ = write!(text, ", {} passed", counts.passed);
    }
    if not_judged > 0 {
        let _ = write!(text, ", {not_judged} not judged");
    }
    text
}

/// A line for each reason.
fn reasons(counts: &Counts) -> String {
    let mut text = String::new();
    for (number, count) in &counts.dropped {
        let meaning = Refusal::meaning_of(*number).unwrap_or("a number that is not known here");
        let _ = writeln!(
            text,
            "        {count} with {number}: {meaning} (embankery explain {number})"
        );
    }
    for (why, count) in &counts.not_judged {
        let _ = writeln!(text, "        {count} not judged: {why}");
    }
    text
}

fn join(all: &mut Counts, counts: &Counts) {
    all.accepted += counts.accepted;
    all.passed += counts.passed;
    for (number, count) in &counts.dropped {
        *all.dropped.entry(*number).or_default() += count;
    }
    for (why, count) in &counts.not_judged {
        *all.not_judged.entry(why.clone()).or_default() += count;
    }
}

fn plural(count: u64, one: &str, more: &str) -> String {
    match count {
        1 => format!("1 {one}"),
        _ => format!("{count} {more}"),
    }
}

/// A text in lines of at most 90 characters, each indented.
pub fn wrapped(text: &str) -> String {
    const WIDTH: usize = 90;
    let mut lines = vec![String::from("   ")];
    for word in text.split_whitespace() {
        let last = lines.len() - 1;
        if lines[last].chars().count() + 1 + word.chars().count() > WIDTH {
            lines.push(format!("    {word}"));
        } else {
            lines[last].push(' ');
            lines[last].push_str(word);
        }
    }
    lines.join("\n")
}
