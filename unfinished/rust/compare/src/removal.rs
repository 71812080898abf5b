//! Keys taken away (Ticket 7): tables of all kinds of entries, and connections that hold a key, hold another, or are not
//! looked at.

use crate::beyond::{Compared, Sides};
use crate::prng::Prng;
use crate::states::any_state;
use crate::tables::{self, id, matches};
use crate::world::Stop;
use kit::connections::places;
use kit::entry::table;
use kit::removal::{Boundary, Call, Function, Outcome};
use kit::{removal_of, Entry, Pair, State};

const REFERENCE: Boundary = removal_of!(kit::removal::Boundary, reference::boundary);
const FAULTY: Boundary = removal_of!(kit::removal::Boundary, faulty::boundary);

/// Until the archive has these calls, the reference stands in its place.
pub const SIDES: Sides<Call, Outcome> = Sides {
    archive: |call| REFERENCE.make(call),
    reference: |call| REFERENCE.make(call),
    faulty: |call| FAULTY.make(call),
};

/// Which numbers each call can give.
pub fn possible() -> Vec<(&'static str, Vec<u8>)> {
    let both: Vec<u8> = (10..=18).chain([0, 35]).collect();
    let plain = [&both[..], &[43]].concat();
    vec![
        (Function::Remove.name(), plain),
        (Function::Replace.name(), both),
    ]
}

/// Removals from one table, one after another.
pub fn run(random: &mut Prng, compared: &mut Compared<Call, Outcome>) -> Result<(), Stop> {
    let pair = tables::pair(random);
    let mut keys = tables::around(random, &pair);
    let pairs = some_pairs(random, &pair);
    for _ in 0..10 {
        if keys.is_empty() {
            keys = tables::around(random, &pair);
        }
        let call = call(random, &keys, &pairs);
        let outcome = compared.make(&call)?;
        compared.meet(call.function.name(), outcome.word);
        let index = call.index as usize;
        if outcome.number() == 0 && index < keys.len() && random.one_in(2) {
            keys.remove(index);
        }
    }
    Ok(())
}

/// The pair, and others of the same addresses or beside it.
fn some_pairs(random: &mut Prng, pair: &Pair) -> Vec<Pair> {
    let mut pairs = vec![pair.clone()];
    for _ in 0..3 {
        let mut other = pair.clone();
        match random.below(4) {
            0 => other.local_port = other.local_port.wrapping_add(1),
            1 => other.remote_port = other.remote_port.wrapping_sub(1),
            2 => *other.remote.last_mut().unwrap() ^= 1,
            _ => other = tables::pair(random),
        }
        pairs.push(other);
    }
    pairs
}

fn call(random: &mut Prng, keys: &[Entry], pairs: &[Pair]) -> Call {
    let count = keys.len();
    let any = random.below(count.max(1)) as u32;
    let behind = random.pick(&[count as u32, count as u32 + 1, 256 + any, u32::MAX]);
    let index = if random.one_in(10) { behind } else { any };
    let states: Vec<State> = (0..random.below(6))
        .map(|_| held(random, keys, pairs, index as usize))
        .collect();
    let mut states = states;
    if !states.is_empty() && random.one_in(3) {
        // A place once more, with other IDs.
        let mut again = states[random.below(states.len())];
        again.outgoing_send_id = id(random);
        states.push(again);
    }
    if random.one_in(100) {
        // Far behind.
        let mut far = vec![State::default(); 250];
        far.extend(states);
        states = far;
    }
    let mut call = Call {
        function: random.pick(&Function::ALL),
        keys: table(keys),
        index,
        send_id: replacement(random, keys, true),
        recv_id: replacement(random, keys, false),
        connections: places(&states),
    };
    if random.one_in(6) {
        call.keys = tables::spoilt(random, keys);
    }
    if random.one_in(20) {
        call.connections.push(4);
    }
    if random.one_in(300) {
        call.connections.resize(257 * State::BYTES, 0);
    }
    call
}

/// A connection of one of the pairs, often with an ID of the entry that goes, or of another that matches.
fn held(random: &mut Prng, keys: &[Entry], pairs: &[Pair], index: usize) -> State {
    let mut pair = pairs[random.below(pairs.len())].clone();
    let by_md5 = random.one_in(10);
    let of = |random: &mut Prng, pair: &Pair| {
        let good: Vec<&Entry> = keys.iter().filter(|key| matches(key, pair)).collect();
        match good.is_empty() {
            true => None,
            false => Some(good[random.below(good.len())]),
        }
    };
    let gone = keys.get(index).filter(|key| matches(key, &pair));
    if gone.is_none() && random.one_in(2) {
        pair = pairs[0].clone();
    }
    let gone = keys.get(index);
    let other = of(random, &pair);
    let mut state = any_state(random, &pair, by_md5);
    let pick = |random: &mut Prng| if random.one_in(2) { gone } else { other };
    if let Some(key) = pick(random) {
        state.outgoing_send_id = key.send_id;
    }
    if let Some(key) = pick(random) {
        state.asked_recv_id = key.recv_id;
    }
    if random.one_in(12) {
        std::mem::swap(&mut state.outgoing_send_id, &mut state.asked_recv_id);
    }
    state
}

/// An ID to replace the key's by: some entry's, most times.
fn replacement(random: &mut Prng, keys: &[Entry], send: bool) -> u8 {
    if keys.is_empty() || random.one_in(6) {
        return id(random);
    }
    let key = &keys[random.below(keys.len())];
    if send != random.one_in(20) {
        key.send_id
    } else {
        key.recv_id
    }
}
