//! Data that comes in pieces: Ticket 11. Wherever the data are cut, what the whole call gives; 48 before every other
//! number; and what happens where the state or the tables are others at the end call.

mod common;

use common::pieces::{
    cases, changes, header_bytes, judging, run, signing, tables, Case, Faulty, Scene,
};
use common::{keys, A4, A_ISN, B4, B_ISN};
use faulty::Fault;
use kit::pieces::{play, Outcome, Script, Step};
use kit::segment::{ACK, SYN};
use kit::{number, word, Bytes, End, State};
use reference::pieces::{self, Run};

/// Each directed run gives its answers; a refusal leaves state and output, but for a drop's count; a refused header or part
/// call and every end call leave the run as it was.
#[test]
fn each_case_gives_its_numbers() {
    for case in cases() {
        let outcomes = run(&case);
        let words: Vec<u64> = outcomes.iter().map(|outcome| outcome.word).collect();
        assert_eq!(words, case.answers, "{}", case.name);
        assert!(outcomes.iter().all(|outcome| outcome.kept), "{}", case.name);
        let mut state = case.script.state.clone();
        let mut next = 0;
        for outcome in &outcomes {
            for step in &case.script.steps[next..outcome.step] {
                if let Step::State(bytes) = step {
                    state = bytes.clone();
                }
            }
            next = outcome.step + 1;
            let step = &case.script.steps[outcome.step];
            let ends = matches!(step, Step::JudgeEnd { .. } | Step::SignEnd { .. });
            let number = number(outcome.word);
            if number != 0 && matches!(step, Step::JudgeEnd { .. }) {
                if let Some(mut counted) = State::read(&state) {
                    counted.count_drop(number);
                    state = counted.bytes();
                }
            }
            if number != 0 || !ends {
                assert_eq!(outcome.state, state, "{}", case.name);
                assert!(
                    outcome.out.iter().all(|byte| *byte == 0xee),
                    "{}",
                    case.name
                );
            }
            state = outcome.state.clone();
        }
    }
}

/// What a run gives whose state and tables stay is what the whole call gives: the answer, the state, the signed bytes.
#[test]
fn as_the_whole_call() {
    let mut compared = 0;
    for case in cases() {
        let steps = &case.script.steps;
        let plain = steps.iter().all(|step| step.name().is_some());
        let named = |part: &str| {
            let names = steps.iter().filter_map(Step::name);
            names.filter(|name| name.ends_with(part)).count()
        };
        let one = plain && named("header") == 1 && named("end") == 1;
        if !one || case.answers.contains(&48) {
            continue;
        }
        let outcomes = run(&case);
        let data: Vec<u8> = steps
            .iter()
            .flat_map(|step| match step {
                Step::JudgePart { data, .. } | Step::SignPart { data, .. } => data.clone(),
                _ => vec![],
            })
            .collect();
        let last = outcomes.last().unwrap();
        let mut state = case.script.state.clone();
        match (&steps[0], steps.last().unwrap()) {
            (
                Step::JudgeHeader {
                    tables,
                    source,
                    destination,
                    header,
                    ..
                },
                Step::JudgeEnd { tables: at_end, .. },
            ) if tables == at_end => {
                let segment = [&header[..], &data].concat();
                let word = reference::boundary::tcpao_judge(
                    tables.form,
                    &tables.keys,
                    &tables.md5,
                    source,
                    destination,
                    &segment,
                    &mut state,
                );
                assert_eq!((last.word, &last.state), (word, &state), "{}", case.name);
            }
            (Step::SignHeader { tables, header, .. }, Step::SignEnd { room, .. }) => {
                let segment = [&header[..], &data].concat();
                let mut out = vec![0xee; segment.len() + 40];
                let word = reference::boundary::tcpao_sign(
                    tables.form,
                    &tables.keys,
                    &tables.md5,
                    &segment,
                    &mut out,
                    &mut state,
                );
                if last.word == 37 {
                    continue;
                }
                assert_eq!(last.state, state, "{}", case.name);
                if number(word) == 0 {
                    let length = kit::value(word) as usize - data.len();
                    assert_eq!(last.word, kit::word(0, length as u32));
                    assert_eq!(last.out[..length], out[..length]);
                    assert_eq!(out[length..][..data.len()], data[..]);
                    assert!(last.out[length..].iter().all(|byte| *byte == 0xee));
                    assert!(*room >= length);
                } else {
                    assert_eq!(last.word, word);
                }
            }
            _ => continue,
        }
        compared += 1;
    }
    assert!(compared > 200, "{compared}");
}

fn played(end: &End, steps: Vec<Step>) -> Vec<Outcome> {
    let script = Script {
        state: end.state.clone(),
        runs: 2,
        steps,
    };
    play(&common::pieces::Reference, &script)
}

/// "The state moves and counts only at the end call, as it and the table then stand": on the state that stands there, by
/// the position that the header call's state gives.
#[test]
fn the_state_that_stands_at_the_end_moves() {
    let scene = Scene::new();
    let a = &scene.a;
    let mut asking = scene.b.clone();
    assert_eq!(asking.ask(3), 0);
    let segment = asking.sign(B_ISN + 9, ACK, b"data");
    for (field, changed, refused) in changes(&a.state()) {
        let mut steps = judging(a, 0, &segment, &[]);
        steps.insert(2, Step::State(changed.bytes()));
        let outcomes = played(a, steps);
        let mut expected = changed;
        if !refused {
            let x = u64::from(B_ISN + 9);
            expected.arriving_reference = expected.arriving_reference.max(x);
            expected.accepted += 1;
            expected.outgoing_send_id = 3;
        }
        let last = outcomes.last().unwrap();
        assert_eq!(State::read(&last.state), Some(expected), "{field}");

        let plain = a.segment(A_ISN + 9, ACK, b"data").bytes();
        let mut steps = signing(a, 0, &plain, &[]);
        steps.insert(2, Step::State(changed.bytes()));
        let outcomes = played(a, steps);
        let mut expected = changed;
        if !refused {
            let x = u64::from(A_ISN + 9);
            expected.signing_reference = expected.signing_reference.max(x);
        }
        let last = outcomes.last().unwrap();
        assert_eq!(State::read(&last.state), Some(expected), "{field}");
        if !refused {
            // Under the keys of the header call.
            assert_eq!(last.out[20..24], [29, 16, 1, 2], "{field}");
        }
    }
}

/// The key rule goes by the table at the end call, the verdict by the one at the header call.
#[test]
fn the_table_that_stands_at_the_end() {
    let scene = Scene::new();
    let a = &scene.a;
    let mut asking = scene.b.clone();
    assert_eq!(asking.ask(3), 0);
    let segment = asking.sign(B_ISN + 9, ACK, b"data");
    for (kept, send_id) in [(3, 3), (2, 3), (1, 1), (0, 1)] {
        let mut at_end = tables(a);
        at_end.keys = kit::entry::table(&keys(&A4, &B4)[..kept]);
        let mut steps = judging(a, 0, &segment, &[]);
        steps[2] = Step::JudgeEnd {
            run: 0,
            tables: at_end,
        };
        let outcomes = played(a, steps);
        assert_eq!(outcomes[2].word, 0);
        let state = State::read(&outcomes[2].state).unwrap();
        assert_eq!(state.outgoing_send_id, send_id);
    }
}

/// A signed header with the data behind it is accepted by the other end, in pieces too, wherever both are cut.
#[test]
fn from_end_to_end_in_pieces() {
    let scene = Scene::new();
    let ends = [
        (&scene.a, &scene.b),
        (&scene.a6, &scene.b6),
        (&scene.am, &scene.bm),
    ];
    let mut random = Bytes(20_261_121);
    for (a, b) in ends {
        for length in [0, 1, 2, 3, 15, 16, 17, 63, 64, 65, 127, 128, 129, 1400] {
            let data = random.take(length);
            let mut cuts: Vec<usize> = (0..random.below(16))
                .map(|_| random.below(length + 1))
                .collect();
            cuts.sort_unstable();
            let plain = a.segment(A_ISN + 9, ACK, &data).bytes();
            let signed = played(a, signing(a, 0, &plain, &cuts));
            let last = signed.last().unwrap();
            assert_eq!(number(last.word), 0);
            let header = &last.out[..kit::value(last.word) as usize];
            let segment = [header, &data].concat();
            assert_eq!(header_bytes(&segment), header.len());
            cuts.iter_mut().for_each(|cut| *cut = length - *cut);
            cuts.sort_unstable();
            let judged = played(b, judging(b, 0, &segment, &cuts));
            assert_eq!(judged.last().unwrap().word, 0);
        }
    }
}

/// "so is a run's state with counts that no calls could leave".
#[test]
fn counts_that_no_calls_could_leave() {
    let scene = Scene::new();
    let a = &scene.a;
    let segment = scene.b.clone().sign(B_ISN + 9, ACK, b"seven b");
    let (header, data) = segment.split_at(36);
    let lent = reference::md5_table::Lent::of_bytes(&a.table, &[]);
    let state = reference::State::from_bytes(&a.state).unwrap();
    let begun = pieces::judge_header(&lent, &B4, &A4, header, 7, Some(&state)).unwrap();
    let good = pieces::part(&begun, data).unwrap();
    let answer = |run: &Run| {
        let part = pieces::part(run, b"")
            .map(|_| 0)
            .unwrap_or_else(|refusal| refusal.number);
        let end = pieces::judge_end(&lent, run, Some(&state));
        (
            part,
            end.map(|_| 0).unwrap_or_else(|refusal| refusal.number),
        )
    };
    assert_eq!(answer(&good), (0, 0));
    assert_eq!(answer(&begun), (0, 48));
    let changed = |change: &dyn Fn(&mut Run)| {
        let mut run = good.clone();
        change(&mut run);
        run
    };
    assert_eq!(answer(&changed(&|run| run.parts = 16)), (48, 0));
    for impossible in [
        changed(&|run| run.parts = 17),
        changed(&|run| run.parts = usize::MAX),
        changed(&|run| run.parts = 0),
        changed(&|run| run.announced = 6),
        changed(&|run| run.announced = 0),
        changed(&|run| run.data.push(0)),
        changed(&|run| run.header.push(0)),
        changed(&|run| run.header[12] ^= 0x10),
        changed(&|run| run.header.clear()),
    ] {
        assert_eq!(answer(&impossible), (48, 48));
    }
    // Not impossible, but with fewer bytes than announced.
    assert_eq!(answer(&changed(&|run| run.announced = 8)), (0, 48));
}

/// An opening connection: its SYN is signed and its SYN+ACK judged in pieces, and both ends are open.
#[test]
fn opening_in_pieces() {
    let scene = Scene::new();
    for (opening, syn_ack) in [
        (&scene.opening, &scene.syn_ack),
        (&scene.opening_md5, &scene.syn_ack_md5),
    ] {
        let mut whole = opening.clone();
        assert_eq!(whole.judge(syn_ack), 0);
        let outcomes = played(opening, judging(opening, 0, syn_ack, &[]));
        assert_eq!(outcomes[2].state, whole.state);
        assert!(whole.state().is_open());
        let syn = opening.segment(A_ISN, SYN, b"").bytes();
        let signed = opening.clone().try_sign(&syn).unwrap();
        let outcomes = played(opening, signing(opening, 0, &syn, &[]));
        assert_eq!(outcomes[2].word, word(0, signed.len() as u32));
        assert_eq!(outcomes[2].out[..signed.len()], signed);
    }
}

#[test]
fn each_planted_fault_shows() {
    let cases: Vec<(Case, Vec<Outcome>)> = cases()
        .into_iter()
        .map(|case| {
            let right = run(&case);
            (case, right)
        })
        .collect();
    let mut nowhere = vec![];
    for fault in Fault::of_pieces() {
        let shows = |(case, right): &&(Case, Vec<Outcome>)| {
            faulty::with(fault, || play(&Faulty, &case.script)) != *right
        };
        let seen: Vec<_> = cases.iter().filter(shows).collect();
        match seen.first() {
            Some((first, _)) => println!(
                "{fault:?} shows in {} cases, first {}",
                seen.len(),
                first.name
            ),
            None => nowhere.push(fault),
        }
    }
    assert!(nowhere.is_empty(), "they show nowhere: {nowhere:?}");
    for (case, right) in &cases {
        assert_eq!(play(&Faulty, &case.script), *right, "{}", case.name);
    }
}
