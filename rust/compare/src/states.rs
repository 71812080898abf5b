//! States: near where something is about to happen, or with any bytes.

use crate::prng::Prng;
use crate::tables::id;
use kit::{Pair, State};

/// A reference, often near a rollover, near 0, near 2^64, or where 16 or 31 bits end.
pub fn reference(random: &mut Prng) -> u64 {
    let turn = match random.below(4) {
        0 => 0,
        1 => random.pick(&[1, 2, 0x7fff_ffff, u32::MAX - 1]),
        2 => u32::MAX,
        _ => random.word(),
    };
    (turn as u64) << 32 | number(random) as u64
}

/// A sequence number, often near such a place.
pub fn number(random: &mut Prng) -> u32 {
    let near = random.pick(&[
        0,
        0x10,
        0x7ffe,
        0x9000,
        0x7fff_ffff,
        0x8000_0000,
        0xffff_fff0,
    ]);
    match random.below(3) {
        0 => near,
        1 => u32::wrapping_add(near, random.below(8) as u32).wrapping_sub(4),
        _ => random.word(),
    }
}

/// How far a true segment's position lies from the reference: less than 2^31.
pub fn distance(random: &mut Prng) -> i64 {
    const MOST: i64 = (1 << 31) - 1;
    match random.below(8) {
        0 => random.pick(&[0, 1, -1]),
        1 => random.pick(&[MOST, -MOST, MOST - 1, 1 - MOST]),
        2 => random.pick(&[0x7fff, 0x8000, 0x9000, -0x8000]),
        3 => random.word() as i32 as i64 / 2,
        4 => -(random.below(3000) as i64),
        _ => random.below(3000) as i64,
    }
}

fn count(random: &mut Prng) -> u64 {
    match random.below(4) {
        0 => u64::MAX,
        1 => u64::MAX - random.below(3) as u64,
        2 => random.below(10) as u64,
        _ => random.long(),
    }
}

/// The way of a connection, mostly as `by_md5` says.
fn way(random: &mut Prng, by_md5: bool) -> u8 {
    let other = random.pick(&[0, 1, 2, 19, 255]);
    match random.below(8) {
        0 => other,
        1 if !by_md5 && other != 1 => other,
        _ => by_md5 as u8,
    }
}

/// A state of this pair with anything else in it; now and then not even that, but always of a state's length.
pub fn any_state(random: &mut Prng, pair: &Pair, by_md5: bool) -> State {
    let bytes = random.bytes(State::BYTES);
    let mut state = State::read(&bytes).unwrap();
    if !random.one_in(20) {
        state.family = random.pick(&[4, 6]);
    }
    state.stage = random.pick(&[1, 1, 1, 0, 0, 2, 255]);
    (state.outgoing_send_id, state.asked_recv_id) = (id(random), id(random));
    state.our_isn = number(random);
    state.peer_isn = number(random);
    state.signing_reference = reference(random);
    state.arriving_reference = reference(random);
    if random.one_in(3) {
        state.signing_reference = state.our_isn as u64;
    }
    state.accepted = count(random);
    state.drops = state.drops.map(|_| count(random));
    state.way = way(random, by_md5);
    if !random.one_in(20) {
        state.put_pair(pair);
    }
    state
}
