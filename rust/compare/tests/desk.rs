//! The program `desk` prints what document 02's Ticket 1, once more in plain Rust, prints: on recordings of one seed, good
//! and damaged, cut anywhere. Every number of a line and every kind of last line is met.
//!
//! Where target/bin/desk is not there, nothing is compared with it, and the test says so; in the gate that is a failure.

use compare::prng::Prng;
use compare::recordings::{recording, table_entries, COUNT, SEED};
use kit::program::{desk, printed, printed_of};
use kit::{calls_of, Boundary};
use std::collections::BTreeMap;
use std::path::Path;

/// Document 02, Ticket 8: "Ticket 1's program stays at 64 entries".
const SIXTY_FOUR: &str = "64 entries, and a line for a segment";
const SIXTY_FIVE: &str = "65 entries that the calls would take, and 12";
const MORE: &str = "more entries that the calls would take, and 12";

/// What a line is: a verdict's number, 38 with an index, or a number alone.
fn kind(line: &str) -> String {
    match line.split(' ').collect::<Vec<_>>()[..] {
        [_, number, _] => format!("line {number}"),
        [number, _] => format!("last line {number} and an index"),
        _ => format!("last line {line}"),
    }
}

#[test]
fn the_program_prints_what_the_reference_does() {
    let program = desk();
    let folder = std::env::temp_dir().join(format!("embankery-desk-{}", std::process::id()));
    std::fs::create_dir_all(&folder).unwrap();
    let mut random = Prng::new(SEED);
    let mut met: BTreeMap<String, usize> = BTreeMap::new();
    for index in 0..COUNT {
        let bytes = recording(&mut random);
        let expected = reference::desk::printed(&bytes);
        expected
            .lines()
            .for_each(|line| *met.entry(kind(line)).or_default() += 1);
        if expected.lines().all(|line| kind(line).starts_with("line")) {
            *met.entry("no last line".to_string()).or_default() += 1;
        }
        let first = expected.lines().next().map(kind);
        let by_entries = match table_entries(&bytes) {
            Some(64) if first.is_some_and(|kind| kind.starts_with("line")) => Some(SIXTY_FOUR),
            Some(65) if expected == "12\n" => Some(SIXTY_FIVE),
            Some(66..) if expected == "12\n" => Some(MORE),
            _ => None,
        };
        by_entries
            .into_iter()
            .for_each(|name| *met.entry(name.to_string()).or_default() += 1);
        let piece = random.pick(&[1 << 16, 1_601, 997, 1 << 20]);
        let Some(program) = &program else { continue };
        let by_program = if index % 2 == 0 {
            printed(program, &bytes, piece)
        } else {
            let file = folder.join("recording");
            std::fs::write(&file, &bytes).unwrap();
            printed_of(program, &file)
        };
        if by_program != expected {
            let kept = std::env::temp_dir().join(format!("embankery-recording-{SEED}-{index}"));
            std::fs::write(&kept, &bytes).unwrap();
            panic!(
                "recording {index} of seed {SEED}, kept as {}: by the program\n{by_program}by the reference\n{expected}",
                kept.display()
            );
        }
    }
    std::fs::remove_dir_all(&folder).unwrap();
    met.iter()
        .for_each(|(kind, times)| println!("{times:>7}  {kind}"));
    let lines =
        [0, 20, 21, 22, 23, 24, 25, 26, 27, 28, 29, 40].map(|number| format!("line {number}"));
    let last = [10, 11, 12, 13, 14, 15, 16, 17, 18, 35].map(|number| format!("last line {number}"));
    let others = ["last line 38 and an index", "no last line"];
    let others = [&others[..], &[SIXTY_FOUR, SIXTY_FIVE, MORE]].concat();
    let others: Vec<String> = others.into_iter().map(String::from).collect();
    for kind in lines.iter().chain(&last).chain(&others) {
        assert!(met.contains_key(kind), "never met: {kind}");
    }
    match program {
        Some(_) => println!("{COUNT} recordings from seed {SEED}: the program desk and the reference print the same"),
        None => println!("target/bin/desk is not there: nothing was compared with it"),
    }
}

/// The verdicts of the demonstration's first run at one end, from its stored output, as the desk prints them.
fn demonstrated(end: &str) -> String {
    let top = Path::new(env!("CARGO_MANIFEST_DIR")).join("../..");
    let output = std::fs::read_to_string(top.join("crates/rollover/stdout")).unwrap();
    let run = output.split("First run").nth(1).unwrap();
    let run = run.split("After the first run").next().unwrap();
    let rows = run
        .lines()
        .filter(|row| row.contains(&format!("to {end} ")));
    let verdicts = rows.map(|row| {
        let number = |behind: &str| {
            let from = row.find(behind)? + behind.len();
            let digits = row[from..].chars().take_while(char::is_ascii_digit);
            digits.collect::<String>().parse::<u32>().ok()
        };
        match (number("accept, extension "), number("drop ")) {
            (Some(extension), None) => (0, extension),
            (None, Some(number)) => (number, 0),
            _ => panic!("{row}"),
        }
    });
    let lines = verdicts.enumerate();
    let lines = lines.map(|(index, (number, extension))| format!("{index} {number} {extension}\n"));
    lines.collect()
}

/// The demonstration's first run, recorded at either end, gets at the desk what it got there: across the rollover, with
/// forgeries and a key change. The same recordings stand in crates/desk/data.
#[test]
fn the_demonstration_at_the_desk() {
    let reference = calls_of!(Boundary, reference::boundary);
    let stored = Path::new(env!("CARGO_MANIFEST_DIR")).join("../../crates/desk/data");
    for (name, bytes) in kit::rollover::recordings(reference) {
        let expected = demonstrated(name.strip_prefix("rollover_to_").unwrap());
        assert!(expected.lines().count() >= 6);
        assert_eq!(reference::desk::printed(&bytes), expected, "{name}");
        if let Some(program) = desk() {
            assert_eq!(printed(&program, &bytes, 1 << 16), expected, "{name}");
        }
        if stored.is_dir() {
            let same = std::fs::read(stored.join(name)).is_ok_and(|stored| stored == bytes);
            let how = "cargo run --package reference --example recordings -- ../crates/desk/data";
            assert!(same, "crates/desk/data/{name} is another: {how} writes it");
        }
    }
}
