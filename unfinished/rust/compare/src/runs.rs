//! Data in pieces (Ticket 11): scripts of runs on one connection, cut anywhere, several at once, with states and tables that
//! change between header and end call.

use crate::aim::{self, Aim, At};
use crate::beyond::{with_tables, Compared, Sides};
use crate::prng::Prng;
use crate::states::{any_state, distance, number};
use crate::tables;
use crate::world::Stop;
use kit::entry::table;
use kit::pieces::{play, Outcome, Script, Step, Tables};
use kit::{pieces_of, Entry, Pair, State};

pieces_of!(
    /// The reference's calls.
    Reference,
    reference
);
pieces_of!(
    /// Its faulty copy's.
    Faulty,
    faulty
);

/// Until the archive has these calls, the reference stands in its place.
pub const SIDES: Sides<Script, Vec<Outcome>> = Sides {
    archive: |script| play(&Reference, script),
    reference: |script| play(&Reference, script),
    faulty: |script| play(&Faulty, script),
};

/// Which numbers each call can give.
pub fn possible() -> Vec<(&'static str, Vec<u8>)> {
    let judged: Vec<u8> = (18..=18)
        .chain(20..=29)
        .chain([0, 40, 46, 47, 48])
        .collect();
    vec![
        ("judge_header", with_tables(&[0, 18, 19, 48])),
        ("judge_part", vec![0, 48]),
        ("judge_end", with_tables(&judged)),
        ("sign_header", with_tables(&[0, 18, 48])),
        ("sign_part", vec![0, 48]),
        ("sign_end", vec![0, 18, 30, 31, 32, 33, 34, 35, 36, 37, 48]),
    ]
}

/// Plays a script on each side.
pub fn run(random: &mut Prng, compared: &mut Compared<Script, Vec<Outcome>>) -> Result<(), Stop> {
    let script = script(random);
    let outcomes = compared.make(&script)?;
    for outcome in &outcomes {
        let name = script.steps[outcome.step].name().unwrap_or("");
        compared.meet(name, outcome.word);
    }
    Ok(())
}

/// The steps of one run, in order, before they are mixed with others'.
struct Begun {
    steps: Vec<Step>,
}

/// One connection, and one to three runs on it.
pub fn script(random: &mut Prng) -> Script {
    let pair = tables::pair(random);
    let by_md5 = random.one_in(3);
    let (keys, md5) = tables::both_around(random, &pair, by_md5);
    let mut state = any_state(random, &pair, by_md5);
    state.put_pair(&pair);
    let count = random.pick(&[1, 1, 2, 3]);
    let mut runs: Vec<Begun> = vec![];
    let mut first = state.bytes();
    for run in 0..count {
        let (begun, held) = begun(random, run, &keys, &md5, &state);
        if run == 0 && held.len() == State::BYTES {
            // What the aim changed in the state holds for the whole script.
            first = held;
            state = State::read(&first).unwrap_or(state);
        }
        runs.push(begun);
    }
    let mut steps = vec![];
    let mut left: Vec<std::vec::IntoIter<Step>> =
        runs.into_iter().map(|run| run.steps.into_iter()).collect();
    while !left.is_empty() {
        let which = random.below(left.len());
        match left[which].next() {
            Some(step) => {
                steps.extend(between(random, &state, &pair, which, count));
                steps.push(step);
            }
            None => drop(left.swap_remove(which)),
        }
    }
    Script {
        state: first,
        runs: count,
        steps,
    }
}

/// A run of checking or signing, with the state that its aim wants.
fn begun(
    random: &mut Prng,
    run: usize,
    keys: &[Entry],
    md5: &[Entry],
    state: &State,
) -> (Begun, Vec<u8>) {
    let bytes = state.bytes();
    let at = At {
        keys,
        md5,
        state: &bytes,
    };
    let judges = random.one_in(2);
    let function = match judges {
        true => kit::Function::Judge,
        false => kit::Function::Sign,
    };
    let aim = match random.one_in(2) {
        true => Aim::NONE,
        false => Aim::at(random, function),
    };
    let call = match judges {
        true => aim::judge(random, &at, &aim),
        false => aim::sign(random, &at, &aim),
    };
    let (header, data) = cut(random, &call.segment);
    let lent = Tables {
        form: call.form,
        keys: call.table.clone(),
        md5: call.md5.clone(),
    };
    let mut announced = data.len() as u64;
    if random.one_in(12) {
        announced = random.pick(&[0, announced + 1, announced.saturating_sub(1), u64::MAX]);
    }
    let mut steps = vec![];
    steps.push(match judges {
        true => Step::JudgeHeader {
            run,
            tables: lent.clone(),
            source: call.source.clone(),
            destination: call.destination.clone(),
            header,
            announced,
        },
        false => Step::SignHeader {
            run,
            tables: lent.clone(),
            header,
            announced,
        },
    });
    for data in parts(random, &data) {
        // Now and then to a call of the other kind.
        let judges = judges != random.one_in(60);
        steps.push(match judges {
            true => Step::JudgePart { run, data },
            false => Step::SignPart { run, data },
        });
    }
    if random.one_in(20) {
        let bytes = random.pick(&[0, 1, 9]);
        let data = random.bytes(bytes);
        steps.insert(
            1 + random.below(steps.len()),
            match judges {
                true => Step::JudgePart { run, data },
                false => Step::SignPart { run, data },
            },
        );
    }
    if random.one_in(20) && steps.len() > 1 {
        steps.remove(1 + random.below(steps.len() - 1));
    }
    let room = call
        .out
        .len()
        .min(random.pick(&[0, 20, 35, 36, 40, 60, 80, 2000]));
    let room = if random.one_in(2) { 60 } else { room };
    for _ in 0..random.pick(&[1, 1, 1, 2]) {
        let judges = judges != random.one_in(60);
        steps.push(match judges {
            true => Step::JudgeEnd {
                run,
                tables: at_end(random, &lent, keys, md5),
            },
            false => Step::SignEnd { run, room },
        });
    }
    (Begun { steps }, call.state)
}

/// A segment's header and data; now and then cut elsewhere.
fn cut(random: &mut Prng, segment: &[u8]) -> (Vec<u8>, Vec<u8>) {
    let right = segment.get(12).map_or(0, |byte| 4 * usize::from(byte >> 4));
    let wrong = random.pick(&[
        right + 1,
        right.saturating_sub(1),
        right + 4,
        right.saturating_sub(4),
        20,
        0,
    ]);
    let at = if random.one_in(12) { wrong } else { right };
    let (header, data) = segment.split_at(at.min(segment.len()));
    (header.to_vec(), data.to_vec())
}

/// Data in parts: one, a few, sixteen or more, often with empty ones.
fn parts(random: &mut Prng, data: &[u8]) -> Vec<Vec<u8>> {
    let count = match random.below(12) {
        0 => 16,
        1 => 15,
        2 => 17,
        3..=6 => 1,
        _ => 1 + random.below(5),
    };
    if data.is_empty() && random.one_in(4) {
        return vec![];
    }
    let mut cuts: Vec<usize> = (1..count)
        .map(|_| match random.below(4) {
            0 => 0,
            1 => data.len(),
            _ => random.below(data.len() + 1),
        })
        .collect();
    cuts.sort_unstable();
    cuts.push(data.len());
    let mut start = 0;
    cuts.into_iter()
        .map(|end| {
            let part = data[start..end].to_vec();
            start = end;
            part
        })
        .collect()
}

/// The tables at the end call: most times the same, else with entries taken away, all others, prepared or refused.
fn at_end(random: &mut Prng, lent: &Tables, keys: &[Entry], md5: &[Entry]) -> Tables {
    let of = |keys: &[Entry], md5: &[Entry]| Tables {
        form: 0,
        keys: table(keys),
        md5: table(md5),
    };
    match random.below(12) {
        0 => of(&[], md5),
        1 | 2 if !keys.is_empty() => {
            let mut fewer = keys.to_vec();
            fewer.remove(random.below(keys.len()));
            of(&fewer, md5)
        }
        3 => of(&keys[..keys.len() / 2], &[]),
        4 => match random.below(4) {
            0 => Tables {
                form: 1,
                keys: random.bytes(7),
                md5: vec![],
            },
            1 => Tables {
                form: 0,
                keys: table(keys),
                md5: tables::spoilt_md5(random, md5),
            },
            2 => {
                let (mut both, mut all) = (keys.to_vec(), md5.to_vec());
                tables::overlapping(random, &mut both, &mut all);
                of(&both, &all)
            }
            _ => Tables {
                form: 0,
                keys: tables::spoilt(random, keys),
                md5: table(md5),
            },
        },
        5 => of(keys, md5),
        _ => lent.clone(),
    }
}

/// What happens before the next call, now and then: the state changes in one field, gets another length, or a run's buffer
/// is another.
fn between(random: &mut Prng, state: &State, pair: &Pair, run: usize, runs: usize) -> Option<Step> {
    if !random.one_in(6) {
        return None;
    }
    let mut changed = *state;
    match random.below(24) {
        0 => changed.family = random.pick(&[0, 4, 5, 6]),
        1 => changed.local[random.below(16)] ^= 1,
        2 => changed.remote[random.below(16)] ^= 1,
        3 => changed.local_port ^= 1,
        4 => changed.remote_port = changed.remote_port.wrapping_add(1),
        5 => changed.way = random.pick(&[0, 1, 2, 255]),
        6 => changed.stage = random.pick(&[0, 1, 2, 255]),
        7 => changed.our_isn = number(random),
        8 => changed.peer_isn = number(random),
        9 | 10 => changed.outgoing_send_id = tables::id(random),
        11 => changed.asked_recv_id = tables::id(random),
        12 | 13 => {
            let by = distance(random) as u64;
            changed.arriving_reference = changed.arriving_reference.wrapping_add(by);
        }
        14 | 15 => {
            let by = distance(random) as u64;
            changed.signing_reference = changed.signing_reference.wrapping_add(by);
        }
        16 => changed.accepted = random.long(),
        17 => changed.drops[random.below(13)] = u64::MAX,
        18 => changed = any_state(random, pair, changed.goes_by_md5()),
        19 => {
            let length = random.pick(&[0, State::BYTES - 1, State::BYTES + 1]);
            let mut bytes = changed.bytes();
            bytes.resize(length, 4);
            return Some(Step::State(bytes));
        }
        20 => return Some(Step::Blank { run }),
        21 => return Some(Step::OtherLength { run }),
        22 => {
            return Some(Step::Copy {
                run,
                to: random.below(runs),
            })
        }
        _ => {}
    }
    Some(Step::State(changed.bytes()))
}
