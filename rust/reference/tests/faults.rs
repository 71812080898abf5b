//! Each fault that can be planted is one: at least one directed call answers or leaves something
//! else under it, or at least one directed recording gets other lines.

mod common;

use common::*;
use faulty::Fault;

#[test]
fn each_planted_fault_shows() {
    // The largest tables take long, and are only looked at where the others show nothing.
    let large = |(case, _): &(Case, Outcome)| case.call.table.len() + case.call.md5.len() > 50_000;
    let cases = cases().into_iter().map(|case| {
        let right = run(&case);
        (case, right)
    });
    let (large, small): (Vec<_>, Vec<_>) = cases.partition(large);
    let mut nowhere = vec![];
    for fault in Fault::of_calls() {
        let shows = |cases: &[(Case, Outcome)]| -> Vec<String> {
            let wrong = |(case, right): &&(Case, Outcome)| run_with(fault, case) != *right;
            let wrong = cases.iter().filter(wrong);
            wrong
                .map(|(case, _)| format!("{}: {}", case.call.function.name(), case.name))
                .collect()
        };
        let mut seen = shows(&small);
        if seen.is_empty() {
            seen = shows(&large);
        }
        if seen.is_empty() {
            nowhere.push(fault);
        } else {
            println!("{fault:?} shows in {} cases, first {}", seen.len(), seen[0]);
        }
    }
    assert!(nowhere.is_empty(), "they show nowhere: {nowhere:?}");
}

#[test]
fn each_fault_of_the_desk_shows() {
    let recordings = recordings();
    for fault in Fault::of_desk() {
        let shows = |recording: &&Recording| {
            faulty::with(fault, || faulty::desk::printed(&recording.bytes)) != recording.lines
        };
        let seen: Vec<&Recording> = recordings.iter().filter(shows).collect();
        assert!(!seen.is_empty(), "{fault:?} shows nowhere");
        println!(
            "{fault:?} shows in {} recordings, first: {}",
            seen.len(),
            seen[0].name
        );
    }
}

/// The list has each fault once, with what it does and the sentence it breaks.
#[test]
fn the_list_is_whole() {
    for (index, fault) in Fault::ALL.iter().enumerate() {
        let same = |other: &Fault| other.name() == fault.name();
        assert_eq!(Fault::ALL.iter().position(same), Some(index));
        assert!(
            !fault.does().is_empty() && fault.breaks().contains('"'),
            "{fault:?}"
        );
    }
}

/// Without a fault the copy that they are planted in is the reference.
#[test]
fn the_copy_is_the_reference() {
    for case in cases() {
        assert_eq!(run_unplanted(&case), run(&case), "{}", case.name);
    }
}
