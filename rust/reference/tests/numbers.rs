//! Every number of every call, and what each refusal leaves as it was.

mod common;

use common::*;
use kit::State;
use std::collections::{BTreeMap, BTreeSet};

/// Each directed case gives its number and value; a refusal leaves the buffers as they were, "except
/// that drops 20 to 29 on an open connection add one to that number's count", and 40, 46 and 47. An opening
/// whose SYN is only passed leaves the empty state.
#[test]
fn each_case_gives_its_number() {
    for case in cases() {
        let outcome = run(&case);
        let call = case.call.function.name();
        let number = number(case.answer);
        assert_eq!(outcome.word, case.answer, "{call}: {}", case.name);

        if number == 0 {
            continue;
        }
        let mut state = case.call.state.clone();
        if number == 1 && case.call.function == Function::OpenPassive {
            state.fill(0);
        }
        if let Some(mut counted) = judged_state(&case.call) {
            counted.count_drop(number);
            state = counted.bytes();
        }
        assert_eq!(outcome.state, state, "{call}: {}", case.name);
        assert!(outcome.out.iter().all(|byte| *byte == 0xee));
    }
}

/// The state that a segment is judged on.
fn judged_state(call: &Call) -> Option<State> {
    match call.function {
        Function::Judge => State::read(&call.state),
        _ => None,
    }
}

/// The cases meet each number of each call that can give it, and no call gives another.
#[test]
fn each_number_of_each_call_is_met() {
    let mut met: BTreeMap<&str, BTreeSet<u8>> = BTreeMap::new();
    for case in cases() {
        let number = number(run(&case).word);
        met.entry(case.call.function.name())
            .or_default()
            .insert(number);
    }
    let tables: Vec<u8> = (10..=17).chain([45]).collect();
    let both = |others: &[u8]| -> BTreeSet<u8> { tables.iter().chain(others).copied().collect() };
    let set = |others: &[u8]| both(&[others, &[44]].concat());
    assert_eq!(met["prepare"], both(&[0, 37]));
    let syn = [0, 1, 19, 20, 21, 22, 24, 25, 26, 27, 29, 40, 46, 47];
    assert_eq!(met["check_table"], set(&[0]));
    assert_eq!(met["open_active"], set(&[0, 18, 19, 35]));
    assert_eq!(met["md5_open_active"], set(&[0, 18, 19, 35]));
    assert_eq!(met["judge_syn"], set(&syn));
    assert_eq!(met["open_passive"], set(&[&syn[..], &[18]].concat()));
    let judged: Vec<u8> = [0, 40, 46, 47].into_iter().chain(18..=29).collect();
    assert_eq!(met["judge"], set(&judged));
    let signed: Vec<u8> = [0, 18].into_iter().chain(30..=37).collect();
    assert_eq!(met["sign"], set(&signed));
    assert_eq!(met["ask"], set(&[0, 18, 35]));
}

/// The numbers that judging on such a state gives, beside 18, 19 and the tables' own.
fn judged_where(such: impl Fn(&State) -> bool) -> BTreeSet<u8> {
    let mut met = BTreeSet::new();
    for case in cases() {
        if judged_state(&case.call).is_some_and(|state| such(&state)) {
            met.insert(number(run(&case).word));
        }
    }
    met.retain(|number| !(10..=19).contains(number) && ![44, 45].contains(number));
    met
}

/// On each way, opening and open: each number that can be given is met, and no other: while opening no 28, on
/// the MD5 way neither 25 nor 28, on the other neither 46 nor 47.
#[test]
fn numbers_of_a_connection() {
    let both = [0, 20, 21, 22, 23, 24, 26, 27, 29, 40];
    let set = |others: &[u8]| -> BTreeSet<u8> { both.iter().chain(others).copied().collect() };
    let met = |open: bool, md5: bool| {
        judged_where(|state| state.is_open() == open && state.goes_by_md5() == md5)
    };
    assert_eq!(met(false, false), set(&[25]));
    assert_eq!(met(true, false), set(&[25, 28]));
    assert_eq!(met(false, true), set(&[46, 47]));
    assert_eq!(met(true, true), set(&[46, 47]));
}
