//! Calls that are right but for the numbers aimed at: none, one, or several at once, so that the
//! order of the numbers is tried. What is aimed at is only a hint; the two sides say what it gives.

use crate::numbers::possible;
use crate::prepared;
use crate::prng::Prng;
use crate::segments::{self, any_header};
use crate::states::{distance, number};
use crate::tables::{self, id, matches, md5_matches};
use kit::entry::table;
use kit::segment::{ao, md5, ACK, SYN};
use kit::{Call, Entry, Function, Pair, Segment, State};
use reference::mac::Ends;
use reference::md5_table::Lent;

/// The numbers aimed at. 10 stands for 10 to 17, and 110 for the MD5 table's.
pub struct Aim(Vec<u8>);

impl Aim {
    pub const NONE: Aim = Aim(vec![]);

    pub fn at(random: &mut Prng, function: Function) -> Aim {
        let count = random.pick(&[0, 0, 0, 1, 1, 2, 2, 2, 3, 4]);
        // The tables' own refusals, and 44 in their place, are aimed at by one number each.
        let numbers: Vec<u8> = possible(function)
            .iter()
            .copied()
            .filter(|number| !matches!(number, 0 | 1 | 11..=17 | 111..=117))
            .collect();
        Aim((0..count).map(|_| random.pick(&numbers)).collect())
    }

    fn has(&self, number: u8) -> bool {
        self.0.contains(&number)
    }
}

/// One end as a call sees it.
pub struct At<'a> {
    pub keys: &'a [Entry],
    pub md5: &'a [Entry],
    pub state: &'a [u8],
}

impl At<'_> {
    fn call(&self, function: Function) -> Call {
        let mut call = Call::new(function, &table(self.keys));
        call.md5 = table(self.md5);
        if function.takes_state() {
            call.state = self.state.to_vec();
        }
        call
    }
}

/// A key that matches the pair, if there is one; otherwise any.
fn matching<'k>(random: &mut Prng, keys: &'k [Entry], pair: &Pair) -> Option<&'k Entry> {
    let good: Vec<&Entry> = keys.iter().filter(|key| matches(key, pair)).collect();
    if !good.is_empty() {
        return Some(good[random.below(good.len())]);
    }
    (!keys.is_empty()).then(|| &keys[random.below(keys.len())])
}

/// The MD5 entry that matches the pair, if there is one; otherwise any.
fn md5_matching(random: &mut Prng, md5: &[Entry], pair: &Pair) -> Option<Entry> {
    let good = md5.iter().find(|entry| md5_matches(entry, pair));
    let any = || (!md5.is_empty()).then(|| &md5[random.below(md5.len())]);
    good.or_else(any).cloned()
}

/// The MD5 table without what matches the pair: 26, or 35.
fn without_match(md5: &[Entry], pair: &Pair) -> Vec<u8> {
    let other = |entry: &&Entry| !md5_matches(entry, pair);
    md5.iter().filter(other).flat_map(Entry::bytes).collect()
}

/// A KeyID for 26, most times: one off an entry's RecvID, its SendID, or any.
fn wrong_id(random: &mut Prng, keys: &[Entry], key: Option<&Entry>) -> u8 {
    match key {
        Some(key) if random.one_in(2) => {
            let (before, behind) = (key.recv_id.wrapping_sub(1), key.recv_id.wrapping_add(1));
            random.pick(&[before, behind, key.send_id])
        }
        _ => some_id(random, keys),
    }
}

/// An ID that some entry has, for this pair or another, or none.
fn some_id(random: &mut Prng, keys: &[Entry]) -> u8 {
    if keys.is_empty() || random.one_in(4) {
        return id(random);
    }
    let key = &keys[random.below(keys.len())];
    random.pick(&[key.send_id, key.send_id, key.recv_id])
}

pub fn check_table(random: &mut Prng, at: &At, aim: &Aim) -> Call {
    finished(random, at.call(Function::CheckTable), at, aim)
}

/// Into a buffer that is just long enough, longer or, for 37, shorter.
pub fn prepare(random: &mut Prng, at: &At, aim: &Aim) -> Call {
    let mut call = finished(random, at.call(Function::Prepare), at, aim);
    let length = prepared::of(&call).map_or(1_000, |table| table.len());
    let room = if aim.has(37) {
        let any = random.below(length);
        random.pick(&[0, 3, length - 1, length - 1, any])
    } else {
        length + random.pick(&[0, 0, 1, 129])
    };
    call.out = random.bytes(room);
    call
}

pub fn open_active(random: &mut Prng, at: &At, pair: &Pair, isn: u32, aim: &Aim) -> Call {
    let mut call = at.call(Function::OpenActive);
    call.source = pair.local.clone();
    call.destination = pair.remote.clone();
    call.local_port = pair.local_port;
    call.remote_port = pair.remote_port;
    call.isn = isn;
    call.byte = match matching(random, at.keys, pair) {
        Some(key) if !aim.has(35) => key.send_id,
        _ => some_id(random, at.keys),
    };
    finished(random, call, at, aim)
}

pub fn open_active_md5(random: &mut Prng, at: &At, pair: &Pair, isn: u32, aim: &Aim) -> Call {
    let mut call = at.call(Function::OpenActiveMd5);
    let mut pair = pair.clone();
    if aim.has(35) {
        if random.one_in(2) {
            call.md5 = without_match(at.md5, &pair);
        } else {
            other_pair(random, &mut pair);
        }
    }
    call.source = pair.local;
    call.destination = pair.remote;
    call.local_port = pair.local_port;
    call.remote_port = pair.remote_port;
    call.isn = isn;
    finished(random, call, at, aim)
}

pub fn ask(random: &mut Prng, at: &At, aim: &Aim) -> Call {
    let mut call = at.call(Function::Ask);
    let pair = State::read(at.state).map(|state| state.pair());
    let key = pair.and_then(|pair| matching(random, at.keys, &pair));
    call.byte = match key {
        Some(key) if !aim.has(35) => key.recv_id,
        _ => some_id(random, at.keys),
    };
    finished(random, call, at, aim)
}

/// What an arriving segment is judged by.
struct Arrival {
    pair: Pair,
    /// Whether MD5 is due.
    by_md5: bool,
    sequence: u32,
    extension: u32,
    source_isn: u32,
    destination_isn: u32,
    flags: u8,
}

/// A bare SYN, made from nothing, for `judge_syn` or `open_passive` at this pair.
pub fn syn(random: &mut Prng, function: Function, at: &At, pair: &Pair, aim: &Aim) -> Call {
    let sequence = number(random);
    // Now and then a pair that no entry may match: any, or one just beside this one.
    let mut pair = pair.clone();
    match random.below(12) {
        0 => pair = tables::pair(random),
        1 => other_pair(random, &mut pair),
        _ => {}
    }
    let flags = if aim.has(24) {
        random.pick(&[ACK, SYN | ACK, 0])
    } else {
        SYN
    };
    let arrival = Arrival {
        by_md5: at.md5.iter().any(|entry| md5_matches(entry, &pair)),
        pair,
        sequence,
        extension: 0,
        source_isn: sequence,
        destination_isn: 0,
        flags,
    };
    let mut call = arriving(random, function, at, arrival, aim);
    set_listening(random, &mut call);
    call
}

/// The setting and, for an opening, our ISN.
pub fn set_listening(random: &mut Prng, call: &mut Call) {
    call.byte = random.pick(&[0, 0, 1, 255]);
    if call.function == Function::OpenPassive {
        call.isn = number(random);
    }
}

/// A segment for the connection of this state, made from nothing.
pub fn judge(random: &mut Prng, at: &At, aim: &Aim) -> Call {
    let state = State::read(at.state).unwrap();
    let (x, flags) = if state.is_open() {
        let x = near(random, state.arriving_reference, aim.has(28));
        let right = random.pick(&[ACK, ACK, 0, SYN | ACK]);
        (x, if aim.has(24) { SYN } else { right })
    } else {
        let x = number(random) as u64;
        let wrong = random.pick(&[ACK, SYN, 0]);
        (x, if aim.has(24) { wrong } else { SYN | ACK })
    };
    let sequence = x as u32;
    let arrival = Arrival {
        pair: state.pair(),
        by_md5: state.goes_by_md5(),
        sequence,
        extension: (x >> 32) as u32,
        source_isn: if state.is_open() {
            state.peer_isn
        } else {
            sequence
        },
        destination_isn: state.our_isn,
        flags,
    };
    arriving(random, Function::Judge, at, arrival, aim)
}

/// A position near the reference; or, `outside`, just none: 2^31 away, or below 0 or from 2^64 on,
/// where it wraps.
fn near(random: &mut Prng, reference: u64, outside: bool) -> u64 {
    let way = if !outside {
        distance(random)
    } else {
        let below = reference as i64;
        let above = (u64::MAX - reference) as i64;
        match random.below(3) {
            0 if (0..1 << 31).contains(&below) => -1 - below,
            0 if (0..1 << 31).contains(&above) => 1 + above,
            1 => 1 << 31,
            _ => -(1 << 31),
        }
    };
    reference.wrapping_add(way as u64)
}

/// The options that a segment is signed by, TCP-AO or MD5 or both, and the keys of the MAC and the digest.
struct Signature {
    options: Vec<Vec<u8>>,
    key: Option<Entry>,
    md5: Option<Entry>,
    /// Whether what is in other options makes no difference to them.
    left_out: bool,
}

/// Where TCP-AO is due.
fn signed_by_ao(random: &mut Prng, at: &At, arrival: &Arrival, aim: &Aim) -> Signature {
    let key = matching(random, at.keys, &arrival.pair).cloned();
    let key_id = match &key {
        Some(key) if !aim.has(26) => key.recv_id,
        key => wrong_id(random, at.keys, key.as_ref()),
    };
    // For 27 a length that the entry has not: often one byte off, or that of a 12-byte MAC.
    let right = key.as_ref().map_or(16, Entry::ao_length);
    let length = if aim.has(27) {
        random.pick(&[4, 8, 16, 16, 20, 21, right - 1, right + 1, right + 1])
    } else {
        right
    };
    let rnext_key_id = some_id(random, at.keys);
    let mut options = vec![];
    if !aim.has(25) {
        options.push(ao(length, key_id, rnext_key_id));
    }
    if aim.has(22) {
        let second = if random.one_in(2) {
            segments::md5(random)
        } else {
            ao(random.pick(&[4, 9, 16]), key_id, rnext_key_id)
        };
        options.insert(random.below(options.len() + 1), second);
    } else if aim.has(25) {
        // Or two, which are 22.
        let count = random.pick(&[0, 1, 1, 1, 2]);
        options.extend((0..count).map(|_| segments::md5(random)));
    }
    Signature {
        options,
        left_out: key.as_ref().is_some_and(|key| !key.covers_options()),
        key,
        md5: md5_matching(random, at.md5, &arrival.pair),
    }
}

/// Where MD5 is due.
fn signed_by_md5(random: &mut Prng, at: &At, arrival: &Arrival, aim: &Aim) -> Signature {
    let key = matching(random, at.keys, &arrival.pair).cloned();
    let length = if aim.has(27) {
        random.pick(&[2, 3, 16, 17, 17, 19, 19, 20])
    } else {
        18
    };
    let key_id = key.as_ref().map_or(0, |key| key.recv_id);
    let ao_length = key.as_ref().map_or(16, Entry::ao_length);
    let by_ao = ao(
        random.pick(&[4, 16, ao_length, ao_length]),
        key_id,
        id(random),
    );
    let mut options = vec![];
    if aim.has(46) {
        options.push(by_ao.clone());
    } else if !aim.has(47) {
        options.push(md5(length));
    }
    if aim.has(22) {
        let second = match random.below(3) {
            0 => by_ao,
            1 => md5(2),
            _ => segments::md5(random),
        };
        let room = options.iter().map(Vec::len).sum::<usize>() + second.len() <= 40;
        let second = if room { second } else { md5(2) };
        options.insert(random.below(options.len() + 1), second);
    }
    Signature {
        options,
        key,
        md5: md5_matching(random, at.md5, &arrival.pair),
        left_out: true,
    }
}

/// A call with an arriving segment that carries the MAC, or the digest, of an entry here.
fn arriving(random: &mut Prng, function: Function, at: &At, arrival: Arrival, aim: &Aim) -> Call {
    let mut pair = arrival.pair.clone();
    if aim.has(23) || random.one_in(50) {
        other_pair(random, &mut pair);
    }
    let Signature {
        mut options,
        key,
        md5,
        left_out,
    } = if arrival.by_md5 {
        signed_by_md5(random, at, &arrival, aim)
    } else {
        signed_by_ao(random, at, &arrival, aim)
    };

    // Where the MAC leaves options out, now and then one by which 0000 and FFFF are both right.
    let room = options.iter().map(Vec::len).sum::<usize>() <= 32;
    let balanced = left_out && room && random.one_in(6);
    if balanced && options.len() < 2 {
        options.push(segments::WORD.to_vec());
    }
    let mut area = segments::area(random, &options, 40);
    if aim.has(21) {
        segments::spoil_area(random, &mut area);
    }

    let most = 65_515 - area.len();
    let data = if aim.has(40) && random.one_in(40) {
        // Sums of long segments, too.
        let less = random.below(3);
        random.bytes(most - less)
    } else {
        segments::data(random, most)
    };
    let mut segment = Segment {
        source_port: pair.remote_port,
        destination_port: pair.local_port,
        sequence: arrival.sequence,
        flags: segments::with_others(random, arrival.flags),
        options: area,
        data,
        ..any_header(random)
    }
    .bytes();
    if let Some(key) = &key {
        let mut ends = Ends {
            source: &pair.remote,
            destination: &pair.local,
            source_port: pair.remote_port,
            destination_port: pair.local_port,
            source_isn: arrival.source_isn,
            destination_isn: arrival.destination_isn,
        };
        let mut extension = arrival.extension;
        if aim.has(29) && random.one_in(2) {
            match random.below(3) {
                0 => extension = extension.wrapping_add(random.pick(&[1, u32::MAX])),
                1 => ends.source_isn = ends.source_isn.wrapping_add(1),
                _ => ends.destination_isn = ends.destination_isn.wrapping_add(1),
            }
        }
        segments::seal(&mut segment, key, &ends, extension);
    }
    if let Some(md5) = &md5 {
        segments::seal_md5(&mut segment, md5, &pair.remote, &pair.local);
    }
    if aim.has(29) {
        random.flip(&mut segment[18..]);
    }
    if balanced {
        segments::balance(&mut segment, &pair.remote, &pair.local);
    }
    segments::put_checksum(random, &mut segment, &pair.remote, &pair.local);
    if aim.has(40) {
        segments::spoil_checksum(random, &mut segment);
    }
    if aim.has(20) {
        segments::spoil_length(random, &mut segment);
    }

    let mut call = at.call(function);
    if arrival.by_md5 && aim.has(26) {
        call.md5 = without_match(at.md5, &arrival.pair);
    }
    call.source = pair.remote;
    call.destination = pair.local;
    call.segment = segment;
    finished(random, call, at, aim)
}

/// Another pair, by one of its four parts, by its family, or by its direction.
fn other_pair(random: &mut Prng, pair: &mut Pair) {
    match random.below(6) {
        0 => random.flip(&mut pair.local),
        1 => random.flip(&mut pair.remote),
        2 => pair.local_port = pair.local_port.wrapping_add(1),
        3 => pair.remote_port = pair.remote_port.wrapping_sub(1),
        4 => *pair = pair.mirror(),
        _ => {
            let other = 20 - pair.local.len();
            pair.local.resize(other, 0);
            pair.remote.resize(other, 0);
        }
    }
}

/// A segment to be signed in this state.
pub fn sign(random: &mut Prng, at: &At, aim: &Aim) -> Call {
    let mut state = State::read(at.state).unwrap();
    let pair = state.pair();
    let of_id = |id: u8| move |key: &&Entry| key.send_id == id;
    let mut good = at.keys.iter().filter(|key| matches(key, &pair));
    if aim.has(35) {
        state.outgoing_send_id = some_id(random, at.keys);
    } else if !good.clone().any(|key| of_id(state.outgoing_send_id)(&key)) {
        let any = matching(random, at.keys, &pair);
        state.outgoing_send_id = any.map_or(state.outgoing_send_id, |key| key.send_id);
    }
    let key = good.find(of_id(state.outgoing_send_id));
    let by_md5 = state.goes_by_md5();
    let added = match key {
        _ if by_md5 => 20,
        Some(key) => key.added(),
        None => 16,
    };

    let (sequence, flags) = if state.is_open() {
        let x = near(random, state.signing_reference, aim.has(36));
        let syn_ack = random.one_in(if by_md5 { 3 } else { 6 });
        let sequence = if syn_ack && !aim.has(36) {
            state.our_isn
        } else {
            x as u32
        };
        let right = if syn_ack { SYN | ACK } else { ACK };
        (sequence, if aim.has(34) { SYN } else { right })
    } else {
        let wrong = random.pick(&[ACK, SYN | ACK, 0]);
        let flags = if aim.has(34) { wrong } else { SYN };
        let other = random.pick(&[1, u32::MAX, 1 << 31]);
        // Few SYNs are signed by MD5, so that it is aimed at more often there.
        let wrong_number = aim.has(36) || by_md5 && random.one_in(20);
        let step = if wrong_number { other } else { 0 };
        (state.our_isn.wrapping_add(step), flags)
    };

    let mut options = vec![];
    if aim.has(31) && random.one_in(2) {
        options.push(if random.one_in(2) {
            segments::md5(random)
        } else {
            ao(random.pick(&[4, 16]), 1, 1)
        });
    }
    let free = 40 - added;
    // Where the MAC leaves options out, now and then one by which the checksum will be 0000.
    let left_out = by_md5 || key.is_some_and(|key| !key.covers_options());
    let balanced = left_out && options.is_empty() && random.one_in(8);
    if balanced {
        options.push(segments::WORD.to_vec());
    }
    let mut area = segments::area(random, &options, if aim.has(32) { 40 } else { free });
    if aim.has(31) && options.is_empty() {
        segments::spoil_area(random, &mut area);
    }
    let most = 65_515 - added - area.len();
    let mut data = segments::data(random, most);
    if aim.has(32) {
        if random.one_in(2) {
            // The header has no room, by one word or by more.
            let more = random.below(added / 4);
            area.resize(free + random.pick(&[4, 4 + 4 * more]), 1);
        } else {
            // The result is too long, often by less than what pads TCP-AO or MD5.
            data.resize(most + random.pick(&[1, 1, 1, 2, 3, 16]), 7);
        }
    }
    let mut segment = Segment {
        source_port: pair.local_port,
        destination_port: pair.remote_port,
        sequence,
        flags: segments::with_others(random, flags),
        options: area,
        data,
        ..any_header(random)
    }
    .bytes();
    if balanced {
        balance_signed(&mut segment, &state, at);
    }
    if aim.has(33) {
        random.flip(&mut segment[0..4]);
    }
    if aim.has(30) {
        segments::spoil_length(random, &mut segment);
    }

    let signed = segment.len() + added;
    let room = if aim.has(37) {
        // Often room for TCP-AO or MD5 alone, and not for what pads it.
        let unpadded = match key {
            _ if by_md5 => 18,
            Some(key) => key.ao_length().into(),
            None => 16,
        };
        let any = random.below(signed);
        random.pick(&[0, signed - 1, segment.len() + unpadded.min(added - 1), any])
    } else {
        signed + random.pick(&[0, 0, 1, 40])
    };

    let mut call = at.call(Function::Sign);
    if by_md5 && aim.has(35) {
        call.md5 = without_match(at.md5, &pair);
    }
    call.state = state.bytes();
    call.segment = segment;
    call.out = random.bytes(room.min(70_000));
    finished(random, call, at, aim)
}

/// Chooses the bytes of the option that is there for it so that the checksum of what is signed is 0000: by
/// signing it once, since this only aims.
fn balance_signed(segment: &mut [u8], state: &State, at: &At) {
    let bytes = state.bytes();
    let state = reference::State::from_bytes(&bytes).unwrap();
    let (keys, md5) = (&table(at.keys)[..], &table(at.md5)[..]);
    let tables = Lent::of_bytes(keys, md5);
    let Ok(signed) = reference::calls::sign(&tables, segment, usize::MAX, &state) else {
        return;
    };
    let checksum = u16::from_be_bytes([signed.segment[16], signed.segment[17]]);
    segments::put_word(segment, checksum);
}

/// Spoils the state, the addresses and the table, if they are aimed at, and now and then anything.
fn finished(random: &mut Prng, mut call: Call, at: &At, aim: &Aim) -> Call {
    if aim.has(18) && call.function.takes_state() {
        if random.one_in(2) {
            let length = random.pick(&[0, 1, State::BYTES - 1, State::BYTES + 1, 2 * State::BYTES]);
            call.state.resize(length, 4);
        } else {
            call.state[0] = random.pick(&[0, 1, 5, 7, 255]);
        }
    }
    if aim.has(19) && call.function.takes_addresses() {
        let any = random.below(20);
        let (one, other) = random.pick(&[
            (4, 16),
            (16, 4),
            (0, 0),
            (5, 5),
            (4, any),
            (any, 16),
            (any, any),
        ]);
        call.source.resize(one, 1);
        call.destination.resize(other, 1);
    }
    let (mut keys, mut md5) = (at.keys.to_vec(), at.md5.to_vec());
    if aim.has(45) {
        tables::overlapping(random, &mut keys, &mut md5);
        (call.table, call.md5) = (table(&keys), table(&md5));
    }
    if aim.has(10) {
        call.table = tables::spoilt(random, &keys);
    }
    if aim.has(110) {
        call.md5 = tables::spoilt_md5(random, &md5);
    }
    if random.one_in(500) {
        tables::fill(random, &mut keys, &mut md5);
        (call.table, call.md5) = (table(&keys), table(&md5));
    }
    // More often where it is asked whether any entry matches a bare SYN's pair, since few calls ask that.
    let asks_any = aim.has(25) && call.function != Function::Judge;
    let times = if asks_any { 2 } else { 6 };
    if call.function.takes_form() && (aim.has(44) || random.one_in(times)) {
        prepared::lend(random, &mut call, aim.has(44));
    }
    if random.one_in(30) {
        disturb(random, &mut call);
        if call.function.takes_arrival() && random.one_in(2) {
            let Call {
                source,
                destination,
                segment,
                ..
            } = &mut call;
            segments::put_checksum(random, segment, source, destination);
        }
    }
    call
}

/// Changes bits anywhere, or puts any bytes in the place of a part.
fn disturb(random: &mut Prng, call: &mut Call) {
    let Call {
        table,
        md5,
        state,
        segment,
        ..
    } = call;
    for part in [table, md5, state, segment] {
        if part.is_empty() {
            continue;
        }
        match random.below(8) {
            0..=2 => random.flip(part),
            3 => {
                let length = random.below(2 * part.len().min(200));
                *part = random.bytes(length);
            }
            _ => {}
        }
    }
}
