//! Records of states (Ticket 12): written, read back, damaged, and among many connections.

use crate::beyond::{Compared, Sides};
use crate::prng::Prng;
use crate::states::any_state;
use crate::tables;
use crate::world::Stop;
use kit::connections::places;
use kit::records::{record, Boundary, Call, Function, Outcome, BYTES};
use kit::{records_of, Pair, State};

const REFERENCE: Boundary = records_of!(kit::records::Boundary, reference::boundary);
const FAULTY: Boundary = records_of!(kit::records::Boundary, faulty::boundary);

/// Until the archive has these calls, the reference stands in its place.
pub const SIDES: Sides<Call, Outcome> = Sides {
    archive: |call| REFERENCE.make(call),
    reference: |call| REFERENCE.make(call),
    faulty: |call| FAULTY.make(call),
};

/// Which numbers each call can give.
pub fn possible() -> Vec<(&'static str, Vec<u8>)> {
    vec![
        (Function::Write.name(), vec![0, 18, 37]),
        (Function::Read.name(), vec![0, 18, 49]),
        (Function::WriteOf.name(), vec![0, 18, 19, 23, 37]),
        (Function::ReadInto.name(), vec![0, 18, 41, 42, 49]),
    ]
}

/// A few calls.
pub fn run(random: &mut Prng, compared: &mut Compared<Call, Outcome>) -> Result<(), Stop> {
    let pairs: Vec<Pair> = (0..3).map(|_| tables::pair(random)).collect();
    for _ in 0..20 {
        let call = call(random, &pairs);
        let outcome = compared.make(&call)?;
        compared.meet(call.function.name(), outcome.word);
    }
    Ok(())
}

fn call(random: &mut Prng, pairs: &[Pair]) -> Call {
    let function = random.pick(&Function::ALL);
    let pair = &pairs[random.below(pairs.len())];
    let held = held(random, pair);
    let places = match function {
        Function::Write | Function::Read => one(random, &held),
        Function::WriteOf | Function::ReadInto => many(random, pairs, &held),
    };
    let mut call = Call::new(function, &places).pair(pair);
    if random.one_in(12) {
        let any = random.below(20);
        let (local, remote) = random.pick(&[(4, 16), (5, 5), (0, 0), (any, 4), (16, any)]);
        call.local.resize(local, 1);
        call.remote.resize(remote, 1);
    }
    let room = random.pick(&[0, BYTES - 1, BYTES, BYTES, BYTES + 1, 300]);
    call.out = random.bytes(room);
    let other = &pairs[random.below(pairs.len())];
    call.record = record(&self::held(random, other));
    if random.one_in(2) {
        damage(random, &mut call.record);
    }
    call
}

/// A state of this pair, now and then of no family.
fn held(random: &mut Prng, pair: &Pair) -> State {
    let by_md5 = random.one_in(3);
    let mut state = any_state(random, pair, by_md5);
    if random.one_in(6) {
        state.family = random.pick(&[0, 1, 5, 7, 255]);
    }
    state
}

/// One state's bytes, now and then of another length.
fn one(random: &mut Prng, state: &State) -> Vec<u8> {
    let mut bytes = state.bytes();
    if random.one_in(8) {
        let length = random.pick(&[0, 1, State::BYTES - 1, State::BYTES + 1, 2 * State::BYTES]);
        bytes.resize(length, 4);
    }
    bytes
}

/// A few places, this state among them, free ones and doubled ones; now and then of another length.
fn many(random: &mut Prng, pairs: &[Pair], state: &State) -> Vec<u8> {
    let mut all = vec![*state];
    for _ in 0..random.below(5) {
        let other = match random.below(4) {
            0 => State::default(),
            1 => *state,
            _ => {
                let pair = &pairs[random.below(pairs.len())];
                held(random, pair)
            }
        };
        all.insert(random.below(all.len() + 1), other);
    }
    if random.one_in(20) {
        all.clear();
    }
    let mut bytes = places(&all);
    if random.one_in(16) {
        bytes.push(4);
    }
    bytes
}

/// Another length, kind, layout or family, or any byte changed.
fn damage(random: &mut Prng, record: &mut Vec<u8>) {
    match random.below(8) {
        0 => record.truncate(random.below(BYTES)),
        1 => record.push(random.byte()),
        2 => record[0] = random.pick(&[0, 1, 32, 34, 33 + 128]),
        3 => record[1] = random.pick(&[0, 2, 255]),
        4 => record[2] = random.pick(&[0, 5, 7, 255]),
        5 => *record = random.bytes(BYTES),
        _ => random.flip(record),
    }
}
