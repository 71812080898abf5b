//! "Any bytes may come as segment, key table or state. Every call returns": the directed cases with
//! bytes changed, cut off or put behind, under document 01's rules and under each planted fault.

mod common;

use common::*;
use faulty::Fault;
use kit::segment::summed;
use kit::{Bytes, State};

/// Changes a few bytes, mostly near the front, and now and then the length.
fn disturb(random: &mut Bytes, bytes: &mut Vec<u8>) {
    if bytes.len() > 5000 {
        return;
    }
    for _ in 0..random.below(4) {
        if bytes.is_empty() {
            break;
        }
        let span = if random.below(2) == 0 {
            bytes.len()
        } else {
            bytes.len().min(40)
        };
        let at = random.below(span);
        bytes[at] = match random.below(3) {
            0 => bytes[at] ^ 1 << random.below(8),
            1 => random.below(256) as u8,
            _ => [0, 1, 4, 6, 29, 0xff][random.below(6)],
        };
    }
    match random.below(12) {
        0 => bytes.truncate(random.below(bytes.len() + 1)),
        1 => bytes.extend((0..random.below(20)).map(|i| i as u8)),
        _ => {}
    }
}

fn disturbed(random: &mut Bytes, case: &Case) -> Case {
    let mut case = case.clone();
    let call = &mut case.call;
    disturb(random, &mut call.table);
    disturb(random, &mut call.md5);
    if random.below(50) == 0 {
        call.form = random.below(4) as u8;
    }
    disturb(random, &mut call.state);
    match call.function {
        Function::CheckTable => {}
        Function::Prepare => {
            let room = (call.out.len() + random.below(300)).saturating_sub(150);
            call.out.resize(room, 0xee);
        }
        Function::OpenActive | Function::OpenActiveMd5 => {
            disturb(random, &mut call.source);
            disturb(random, &mut call.destination);
        }
        Function::JudgeSyn | Function::OpenPassive | Function::Judge => {
            if random.below(8) == 0 {
                disturb(random, &mut call.source);
                disturb(random, &mut call.destination);
            }
            disturb(random, &mut call.segment);
            // Else most would end at 40.
            if random.below(4) > 0 {
                call.segment = summed(&call.source, &call.destination, &call.segment);
            }
        }
        Function::Sign => {
            disturb(random, &mut call.segment);
            let room = (call.segment.len() + random.below(40)).saturating_sub(4);
            call.out.resize(room, 0xee);
        }
        Function::Ask => call.byte = random.below(8) as u8,
    }
    case
}

/// Every call returns, with a number that it can give, and leaves the lengths and, when refused,
/// the bytes as they were; a SYN that is only passed leaves the empty state.
#[test]
fn every_call_returns() {
    let cases: Vec<Case> = cases()
        .into_iter()
        .filter(|case| case.call.table.len() < 1000)
        .collect();
    let mut random = Bytes(20_261_115);
    for round in 0..40_000 {
        let case = disturbed(&mut random, &cases[round % cases.len()]);
        let outcome = run(&case);
        let number = number(outcome.word);
        let allowed: Vec<u8> = match case.call.function {
            Function::CheckTable => vec![0],
            Function::Prepare => vec![0, 37],
            Function::OpenActive | Function::OpenActiveMd5 => vec![0, 18, 19, 35],
            Function::JudgeSyn => vec![0, 1, 19, 20, 21, 22, 24, 25, 26, 27, 29, 40, 46, 47],
            Function::OpenPassive => {
                vec![0, 1, 18, 19, 20, 21, 22, 24, 25, 26, 27, 29, 40, 46, 47]
            }
            Function::Judge => [0, 40, 46, 47].into_iter().chain(18..=29).collect(),
            Function::Sign => [0, 18].into_iter().chain(30..=37).collect(),
            Function::Ask => vec![0, 18, 35],
        };
        let of_table = (10..=17).contains(&number) || number == 45;
        let of_prepared = number == 44 && case.call.form != 0 && case.call.function.takes_form();
        assert!(of_table || of_prepared || allowed.contains(&number));
        // Whose entry it is.
        let which = outcome.word as u32 >> 8;
        assert!(which == 0 || which == 1 && of_table);
        assert!(which == 1 || number != 45);
        if number != 0 && !of_table {
            assert_eq!(outcome.word >> 32, 0);
        }
        let counted = State::place(number).is_some() && case.call.function == Function::Judge;
        if number == 1 && case.call.function == Function::OpenPassive {
            assert_eq!(outcome.state, [0; State::BYTES]);
        } else if number != 0 && !counted {
            assert_eq!(outcome.state, case.call.state);
        }
        if counted {
            assert_eq!(outcome.state[..72], case.call.state[..72]);
            assert_eq!(outcome.state[176], case.call.state[176]);
        }
        if number != 0 {
            assert!(outcome.out.iter().all(|byte| *byte == 0xee));
        }

        let fault = Fault::ALL[random.below(Fault::ALL.len())];
        run_with(fault, &case);
    }
}
