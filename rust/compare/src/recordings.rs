//! Recordings (document 02, Ticket 1): a connection and what arrives on it, with faults of every kind put in, cut
//! anywhere. What the reference prints for one is what the program must print.

use crate::aim::{self, Aim, At};
use crate::prng::Prng;
use crate::states::number;
use crate::tables::{self, id, matches};
use kit::entry::table;
use kit::recording::{entry, opening, segment, ENTRY_ROOM, RECORDS, SEGMENT_ROOM};
use kit::{Entry, Function, Pair, State};
use reference::boundary::tcpao_judge;

/// The recordings that the gate compares.
pub const SEED: u64 = 20_261_116;
pub const COUNT: usize = 2_000;

/// A recording: mostly good up to some record, and then with a fault.
pub fn recording(random: &mut Prng) -> Vec<u8> {
    let pair = tables::pair(random);
    let keys = keys(random, &pair);
    let state = state(random, &pair, &keys);
    let table = table_of(random, &keys);
    let mut records = joined(random, &table);
    records.push(opening(&state));
    records.extend(arrivals(random, &keys, state));
    for _ in 0..random.pick(&[0, 0, 0, 1, 1, 2]) {
        spoil(random, &mut records);
    }
    if random.one_in(10) {
        // It ends between two records, often before the opening.
        let most = random.pick(&[records.len(), records.len().min(4)]);
        records.truncate(random.below(most + 1));
    }
    let mut bytes = records.concat();
    match random.below(6) {
        0 => bytes.truncate(random.below(bytes.len() + 1)),
        // Within the last record, or one byte of another behind it.
        1 => bytes.truncate(bytes.len().saturating_sub(1 + random.below(1_700))),
        2 if random.one_in(3) => bytes.push(random.pick(&[0, 1, 2, 3, 4, 255])),
        3 if random.one_in(4) => random.flip(&mut bytes),
        _ => {}
    }
    bytes
}

/// A table around the pair; nearly always one of its entries matches.
fn keys(random: &mut Prng, pair: &Pair) -> Vec<Entry> {
    loop {
        let keys = tables::around(random, pair);
        if keys.iter().any(|key| matches(key, pair)) || random.one_in(12) {
            return keys;
        }
    }
}

/// The connection just after opening; now and then of another family, or with an ID that no entry has.
fn state(random: &mut Prng, pair: &Pair, keys: &[Entry]) -> State {
    let good: Vec<&Entry> = keys.iter().filter(|key| matches(key, pair)).collect();
    let mut of_entry = |asked: bool| match good.is_empty() || random.one_in(16) {
        true => id(random),
        false => {
            let key = good[random.below(good.len())];
            if asked {
                key.recv_id
            } else {
                key.send_id
            }
        }
    };
    let (outgoing_send_id, asked_recv_id) = (of_entry(false), of_entry(true));
    let (our_isn, peer_isn) = (number(random), number(random));
    let mut state = State {
        stage: 1,
        outgoing_send_id,
        asked_recv_id,
        our_isn,
        peer_isn,
        signing_reference: our_isn.into(),
        arriving_reference: peer_isn.into(),
        ..State::of_pair(pair)
    };
    if random.one_in(24) {
        state.family = random.pick(&[0, 4, 5, 6, 7, 255]);
    }
    state
}

/// The table's bytes, in one of five with the faults that 10 to 17 refuse, or with more entries than may be.
fn table_of(random: &mut Prng, keys: &[Entry]) -> Vec<u8> {
    match random.below(20) {
        0..=2 => tables::spoilt(random, keys),
        3 => too_long(random),
        4 => filled(random, keys),
        _ => table(keys),
    }
}

/// The table filled up with entries for other peers: to 64, with which all goes on as it was, or to more, which the
/// calls would take and the desk refuses.
fn filled(random: &mut Prng, keys: &[Entry]) -> Vec<u8> {
    let mut keys = keys.to_vec();
    let most = random.pick(&[64, 64, 64, 65, 65, 66, 1_024]);
    tables::fill_keys(random, &mut keys, most);
    table(&keys)
}

/// How many entries the table has that stands before a recording's opening, by the limit that the calls have; nothing if
/// they would refuse it, or nothing opens.
pub fn table_entries(recording: &[u8]) -> Option<usize> {
    let mut bytes = vec![];
    let mut rest = recording;
    while *rest.first()? == 1 {
        let (record, behind) = rest.split_at_checked(RECORDS[0])?;
        bytes.extend_from_slice(record[2..].get(..record[1].into())?);
        rest = behind;
    }
    let opens = rest[0] == 2 && rest.len() >= RECORDS[1];
    let entries = opens.then(|| reference::table::read(&bytes).ok());
    Some(entries??.len())
}

/// As many entries of the longest kind as the desk takes, 64, or one more, or many, which the calls would take (Ticket
/// 8); perhaps with a bad one among them, or the last one cut.
fn too_long(random: &mut Prng) -> Vec<u8> {
    let sides = kit::Side::any(16);
    let count = random.pick(&[63, 64, 65, 65, 65, 66, 70, 128]);
    let one = |i: u8| Entry {
        local: sides.clone(),
        remote: sides.clone(),
        ..Entry::default().mac_length(16).ids(i, i)
    };
    let mut bytes: Vec<u8> = (0..count).flat_map(|i| one(i).bytes()).collect();
    if random.one_in(4) {
        let last = usize::from(count) - 1;
        let at = ENTRY_ROOM * random.pick(&[0, 62, last.min(63), last]);
        bytes[at + 2] = 9;
    }
    if random.one_in(4) {
        bytes.truncate(bytes.len() - random.pick(&[1, 64, 128]));
    }
    bytes
}

/// The table in records: an entry's own length each, or cut anywhere.
fn joined(random: &mut Prng, table: &[u8]) -> Vec<Vec<u8>> {
    let any = 1 + random.below(ENTRY_ROOM);
    let most = random.pick(&[104, ENTRY_ROOM, ENTRY_ROOM, 100, any]);
    let varied = random.one_in(3);
    let mut rest = table;
    let mut records = vec![];
    while !rest.is_empty() {
        let length = if varied { random.below(most + 1) } else { most };
        let (piece, behind) = rest.split_at(length.min(rest.len()));
        records.push(entry(piece));
        rest = behind;
    }
    records
}

/// What arrives, each made for the state that the one before leaves, and aimed at the numbers of judging.
fn arrivals(random: &mut Prng, keys: &[Entry], state: State) -> Vec<Vec<u8>> {
    let bytes = table(keys);
    let mut state = state.bytes();
    let mut records: Vec<Vec<u8>> = vec![];
    for _ in 0..random.below(24) {
        let aim = if random.one_in(2) {
            Aim::NONE
        } else {
            Aim::at(random, Function::Judge)
        };
        let at = At {
            keys,
            md5: &[],
            state: &state,
        };
        let mut call = aim::judge(random, &at, &aim);
        call.segment.truncate(SEGMENT_ROOM);
        let pair = State::read(&state).unwrap().pair();
        tcpao_judge(
            0,
            &bytes,
            &[],
            &pair.remote,
            &pair.local,
            &call.segment,
            &mut state,
        );
        records.push(segment(&call.segment));
        if random.one_in(8) {
            // An earlier one comes again.
            let again = records[random.below(records.len())].clone();
            records.push(again);
        }
    }
    records
}

/// A fault among the records: 38 for most.
fn spoil(random: &mut Prng, records: &mut Vec<Vec<u8>>) {
    let at = random.below(records.len());
    let any = random.below(records.len());
    match random.below(8) {
        // An unknown kind, or another's.
        0 => records[at][0] = random.pick(&[0, 1, 2, 3, 4, 33, 255]),
        // Misplaced: a copy elsewhere, two exchanged.
        1..=2 => {
            let copy = records[any].clone();
            records.insert(at, copy);
        }
        3 => records.swap(at, any),
        // Lengths at the edge of the room and above it.
        4..=5 => match records[at][0] {
            1 => records[at][1] = random.pick(&[0, 128, 129, 130, 131, 255]),
            3 => {
                let used: u16 =
                    random.pick(&[0, 19, 20, 1_597, 1_598, 1_599, 1_599, 1_600, 65_535]);
                records[at][1..3].copy_from_slice(&used.to_be_bytes());
            }
            _ => random.flip(&mut records[at]),
        },
        6 => {
            records.remove(at);
            if records.is_empty() {
                records.push(vec![]);
            }
        }
        // A record that is too short: what follows is read as its end.
        _ => {
            let length = random.below(records[at].len().max(1));
            records[at].truncate(length);
        }
    }
    records.retain(|record| !record.is_empty());
    if records.is_empty() {
        records.push(entry(b""));
    }
}
