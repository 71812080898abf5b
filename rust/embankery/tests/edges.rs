//! The edges of the C boundary, by the archive's own calls: empty buffers, buffers just long enough,
//! states of every length, the longest segments, and nothing written or read outside a buffer.

mod common;

use common::{kinds, octets, segment, Ends, Md5Ends, FIRST_KIND, IDS, ISNS, PORTS};
use embankery::raw::{self, c};
use embankery::{Refusal, Verdict};
use kit::pointers::{Buffer, Buffers, Calls};
use kit::prepared::{self, Field};
use kit::segment::{summed, ACK, SYN};
use kit::Function::{
    Ask, CheckTable, Judge, JudgeSyn, OpenActive, OpenActiveMd5, OpenPassive, Prepare, Sign,
};
use kit::{calls_of, md5_word, word, Boundary, Bytes, Call, Function, State};

const ARCHIVE: Calls = calls_of!(Calls, c);
const REFERENCE: Boundary = calls_of!(Boundary, reference::boundary);

/// A buffer inside a longer one, to see that nothing around it is written.
struct Guarded {
    bytes: Vec<u8>,
    len: usize,
}

const GUARD: usize = 64;

impl Guarded {
    fn new(content: &[u8]) -> Guarded {
        let guard = Guarded::guard(content.len());
        Guarded {
            bytes: [&guard, content, &guard].concat(),
            len: content.len(),
        }
    }

    fn guard(len: usize) -> Vec<u8> {
        Bytes(len as u64 + 1).take(GUARD)
    }

    fn lent(&mut self) -> &mut [u8] {
        &mut self.bytes[GUARD..GUARD + self.len]
    }

    /// What stands in the buffer.
    fn content(&self) -> &[u8] {
        let guard = Guarded::guard(self.len);
        assert_eq!(self.bytes[..GUARD], guard, "written before the buffer");
        let behind = &self.bytes[GUARD + self.len..];
        assert_eq!(behind, guard, "written behind the buffer");
        &self.bytes[GUARD..GUARD + self.len]
    }
}

/// What the calls are given. `good` has end 1's view of an open line.
#[derive(Clone)]
struct Given {
    form: u8,
    table: Vec<u8>,
    md5: Vec<u8>,
    source: Vec<u8>,
    destination: Vec<u8>,
    /// The peer's signed SYN.
    syn: Vec<u8>,
    /// A segment that the peer signed later.
    arriving: Vec<u8>,
    /// A segment to be signed: it gets 16 bytes longer, by a MAC of 12 bytes.
    leaving: Vec<u8>,
    out: Vec<u8>,
    state: Vec<u8>,
    setting: u8,
    /// Whether an empty buffer is lent as a null pointer.
    nulls: bool,
}

const SIGNED: u32 = 42;

impl Given {
    fn good() -> Given {
        let mut ends = Ends::open(FIRST_KIND);
        let arriving = segment(PORTS, ISNS[0] + 1, ACK, &[], b"data");
        let back = [PORTS[1], PORTS[0]];
        Given {
            form: 0,
            table: ends.tables[1].as_bytes().to_vec(),
            md5: kit::Entry::md5(&[10, 0, 0, 2], &[10, 0, 0, 9]).bytes(),
            source: octets(ends.addresses[0]),
            destination: octets(ends.addresses[1]),
            syn: ends.syn.clone(),
            arriving: ends.sign(&arriving).unwrap(),
            leaving: segment(back, ISNS[1] + 1, ACK, &[], b"answer"),
            out: vec![0xAA; 80],
            state: ends.ends[1].as_bytes().to_vec(),
            setting: 1,
            nulls: false,
        }
    }

    /// The same line by TCP MD5.
    fn by_md5() -> Given {
        let mut ends = Md5Ends::open(false);
        let arriving = segment(PORTS, ISNS[0] + 1, ACK, &[], b"data");
        Given {
            table: kit::Entry::between(&[10, 0, 0, 2], &[10, 0, 0, 9]).bytes(),
            md5: ends.tables[1].as_bytes().to_vec(),
            syn: ends.syn.clone(),
            arriving: ends.sign(&arriving).unwrap(),
            state: ends.ends[1].as_bytes().to_vec(),
            ..Given::good()
        }
    }

    /// The same with both tables prepared.
    fn prepared(&self) -> Given {
        assert_eq!(self.form, 0);
        let table = prepared::by(raw::prepare, &self.table, &self.md5);
        Given {
            form: 1,
            table: table.expect("tables that are not refused"),
            md5: vec![],
            ..self.clone()
        }
    }

    /// An arriving segment with its right checksum.
    fn summed(&self, segment: &[u8]) -> Vec<u8> {
        summed(&self.source, &self.destination, segment)
    }

    fn ptr(&self, lent: &[u8]) -> *const u8 {
        if self.nulls && lent.is_empty() {
            std::ptr::null()
        } else {
            lent.as_ptr()
        }
    }

    fn ptr_mut(&self, lent: &mut [u8]) -> *mut u8 {
        if self.nulls && lent.is_empty() {
            std::ptr::null_mut()
        } else {
            lent.as_mut_ptr()
        }
    }

    fn lent(&self, bytes: &[u8]) -> Buffer {
        Buffer {
            at: self.ptr(bytes).cast_mut(),
            length: bytes.len(),
        }
    }

    fn lent_mut(&self, bytes: &mut [u8]) -> Buffer {
        Buffer {
            at: self.ptr_mut(bytes),
            length: bytes.len(),
        }
    }

    /// The call at end 1 with what is given.
    fn of(&self, function: Function) -> Call {
        let (source, destination) = match function {
            OpenActive | OpenActiveMd5 => (&self.destination, &self.source),
            _ => (&self.source, &self.destination),
        };
        let segment = match function {
            Judge => &self.arriving,
            Sign => &self.leaving,
            _ => &self.syn,
        };
        Call {
            source: source.clone(),
            destination: destination.clone(),
            segment: segment.clone(),
            out: self.out.clone(),
            state: self.state.clone(),
            local_port: PORTS[1],
            remote_port: PORTS[0],
            isn: ISNS[1],
            byte: match function {
                OpenActive => IDS[1],
                Ask => IDS[0],
                _ => self.setting,
            },
            form: self.form,
            md5: self.md5.clone(),
            ..Call::new(function, &self.table)
        }
    }

    /// Makes a call on guarded buffers. Gives the answer, `out` and `state`.
    fn call(&self, function: Function) -> (u64, Vec<u8>, Vec<u8>) {
        let call = self.of(function);
        let mut out = Guarded::new(&call.out);
        let mut state = Guarded::new(&call.state);
        let buffers = Buffers {
            table: self.lent(&call.table),
            md5: self.lent(&call.md5),
            source: self.lent(&call.source),
            destination: self.lent(&call.destination),
            segment: self.lent(&call.segment),
            out: self.lent_mut(out.lent()),
            state: self.lent_mut(state.lent()),
        };
        // SAFETY: each pointer stands beside its own slice's length, and `out` and `state` overlap
        // nothing. A null pointer stands beside length 0, which the header allows.
        let answer = unsafe { ARCHIVE.make(&call, &buffers) };
        (answer, out.content().to_vec(), state.content().to_vec())
    }

    /// The same, of a call that must leave `out` and `state` as they were.
    fn unchanged(&self, function: Function) -> u64 {
        let (answer, out, state) = self.call(function);
        assert_eq!(out, self.out);
        assert_eq!(state, self.state);
        answer
    }
}

/// All calls by TCP-AO, each with its answer to what is good.
const CALLS: [(Function, u32); 7] = [
    (CheckTable, 1),
    (OpenActive, 0),
    (JudgeSyn, 0),
    (OpenPassive, 0),
    (Judge, 0),
    (Sign, SIGNED),
    (Ask, 0),
];

/// The same by TCP MD5, which adds four bytes more.
const MD5_CALLS: [(Function, u32); 6] = [
    (CheckTable, 1),
    (OpenActiveMd5, 0),
    (JudgeSyn, 0),
    (OpenPassive, 0),
    (Judge, 0),
    (Sign, SIGNED + 4),
];

/// Those that take a state.
const STATE_CALLS: [Function; 6] = [OpenActive, OpenActiveMd5, OpenPassive, Judge, Sign, Ask];

/// All that there are.
const ALL_CALLS: [Function; 9] = Function::ALL;

/// Those that take the tables in either form.
fn form_calls() -> impl Iterator<Item = Function> {
    ALL_CALLS.into_iter().filter(|call| call.takes_form())
}

/// By bytes, and prepared: the same answer, state and output.
#[test]
fn good() {
    for (call, value) in CALLS {
        let given = Given::good();
        assert_eq!(given.call(call).0, word(0, value));
        assert_eq!(given.call(call), given.prepared().call(call));
    }
    for (call, value) in MD5_CALLS {
        let given = Given::by_md5();
        assert_eq!(given.call(call).0, word(0, value));
        assert_eq!(given.call(call), given.prepared().call(call));
    }
    for prepared in [false, true] {
        let [good, by_md5] = [Given::good(), Given::by_md5()].map(|given| match prepared {
            true => given.prepared(),
            false => given,
        });
        assert_eq!(good.unchanged(OpenActiveMd5), word(35, 0));
        assert_eq!(by_md5.unchanged(OpenActive), word(35, 0));
        assert_eq!(by_md5.unchanged(Ask), word(35, 0));
    }
}

/// 44 by every call: bytes that are no prepared table, of every length, and an MD5 table beside one.
#[test]
fn no_prepared_tables() {
    for good in [Given::good().prepared(), Given::by_md5().prepared()] {
        assert_eq!(good.table.len(), prepared::length(2));
        let refused = |table: &[u8], md5: &[u8]| {
            for form in [1, 2, 255] {
                let g = Given {
                    form,
                    table: table.to_vec(),
                    md5: md5.to_vec(),
                    // What 20 and 30 refuse, too.
                    syn: vec![],
                    arriving: vec![],
                    leaving: vec![],
                    ..good.clone()
                };
                for call in form_calls() {
                    assert_eq!(g.unchanged(call), word(44, 0));
                }
            }
        };
        for len in 0..good.table.len() {
            refused(&good.table[..len], &[]);
        }
        refused(&[&good.table[..], &[0]].concat(), &[]);
        refused(&good.table, &[0]);
        refused(&good.table, &Given::by_md5().md5);
        for (at, byte) in [(0, 1), (1, 0), (1, 2), (1, 3), (2, 1), (3, 0), (3, 2)] {
            let mut table = good.table.clone();
            table[at] = byte;
            refused(&table, &[]);
        }
        // As bytes they are no tables, and tables' bytes are not prepared.
        let g = Given {
            form: 0,
            ..good.clone()
        };
        assert_eq!(g.unchanged(CheckTable), word(11, 0));
        refused(&Given::good().table, &[]);
    }
}

/// 44 comes behind 18 and 19, whatever else is wrong.
#[test]
fn before_no_prepared_tables() {
    let good = Given::good();
    for form in [1, 255] {
        let bad = Given {
            form,
            table: vec![0; 5],
            syn: vec![],
            arriving: vec![],
            leaving: vec![],
            ..good.clone()
        };
        for length in [0, 1, State::BYTES - 1, State::BYTES + 1] {
            let g = Given {
                state: vec![4; length],
                source: vec![1],
                ..bad.clone()
            };
            for call in STATE_CALLS {
                assert_eq!(g.unchanged(call), word(18, 0));
            }
        }
        let g = Given {
            state: vec![0; State::BYTES],
            source: vec![1],
            ..bad.clone()
        };
        for call in [Judge, Sign, Ask] {
            assert_eq!(g.unchanged(call), word(18, 0));
        }
        for length in [0, 3, 5, 16] {
            let g = Given {
                source: vec![1; length],
                ..bad.clone()
            };
            for call in [OpenActive, OpenActiveMd5, JudgeSyn, OpenPassive, Judge] {
                assert_eq!(g.unchanged(call), word(19, 0));
            }
        }
    }
}

impl Given {
    /// Which of the two entries of the prepared table the connection has: 0 the key, 1 the MD5 entry.
    fn used(&self) -> usize {
        usize::from(self.state[176] == 1)
    }

    /// Prepared, with that entry twice, under these keys.
    fn stored_twice(&self, keys: [&[u8]; 2]) -> Given {
        let (one, used) = (self.prepared(), self.used());
        // The key stands before the MD5 entry.
        let (counts, sources) = match used {
            0 => ([2, 1], [0, 0, 1]),
            _ => ([1, 2], [0, 1, 1]),
        };
        let mut table = vec![0; prepared::length(3)];
        prepared::put_counts(&mut table, counts);
        for (index, source) in sources.into_iter().enumerate() {
            prepared::copy(&one.table, (2, source), &mut table, (3, index));
        }
        for (index, key) in (used..).zip(keys) {
            table[Field::KeyLength.of(3, index)].fill(key.len() as u8);
            let place = &mut table[Field::Key.of(3, index)];
            place.fill(0);
            place[..key.len()].copy_from_slice(key);
        }
        Given { table, ..one }
    }
}

/// Of two stored entries that clash the first is taken, and 17 is not given.
#[test]
fn the_first_that_fits() {
    let calls: [(Given, &[(Function, u32)]); 2] = [
        (Given::good(), &CALLS[1..]),
        (Given::by_md5(), &MD5_CALLS[1..]),
    ];
    for (given, calls) in calls {
        let (table, used) = (given.prepared().table, given.used());
        let length = table[Field::KeyLength.of(2, used).start];
        let key = &table[Field::Key.of(2, used)][..length.into()];
        let first = given.stored_twice([key, b"another"]);
        let second = given.stored_twice([b"another", key]);
        assert_eq!(prepared::counts(&first.table)[used], 2);
        for (call, value) in calls {
            assert_eq!(first.call(*call).0, word(0, *value));
            assert_eq!(first.call(*call), given.call(*call));
        }
        for given in [&first, &second] {
            let keys = prepared::counts(&given.table)[0] as u32;
            assert_eq!(given.unchanged(CheckTable), word(0, keys));
        }
        for call in [JudgeSyn, OpenPassive] {
            assert_eq!(second.unchanged(call), word(29, 0));
        }
        assert_eq!(second.call(Judge).0, word(29, 0));
        assert_ne!(second.call(Sign).1, first.call(Sign).1);
    }
}

/// Every byte of a prepared table, with every value where it is a field of its own and with each bit changed elsewhere:
/// every call gives what the reference gives, and leaves the same.
#[test]
fn any_byte_of_prepared_tables() {
    for good in [Given::good().prepared(), Given::by_md5().prepared()] {
        let single: Vec<usize> = [0, 1]
            .into_iter()
            .flat_map(|index| Field::ALL.map(|field| field.of(2, index)))
            .filter_map(|place| (place.len() == 1).then_some(place.start))
            .collect();
        assert_eq!(single.len(), 20);
        for at in 4..good.table.len() {
            let byte = good.table[at];
            let values: Vec<u8> = match single.contains(&at) {
                true => (0..=255).collect(),
                false => (0..8).map(|bit| byte ^ 1 << bit).collect(),
            };
            for value in values {
                let mut given = good.clone();
                given.table[at] = value;
                for call in form_calls() {
                    let right = REFERENCE.make(&given.of(call));
                    let expected = (right.word, right.out, right.state);
                    assert_eq!(given.call(call), expected, "{at}: {value}");
                }
            }
        }
    }
}

/// 1,024 entries in either table, by bytes and prepared; one more is 12, and 44.
#[test]
fn largest_tables() {
    let key = |i: usize| {
        let peer = [10, 1, (i / 256) as u8, 9];
        kit::Entry::between(&[10, 0, 0, 2], &peer).ids(i as u8, i as u8)
    };
    let md5 = |i: usize| {
        let peer = [10, 2, (i / 256) as u8, i as u8];
        kit::Entry::md5(&[10, 0, 0, 2], &peer)
    };
    let table = |n: usize, entry: &dyn Fn(usize) -> kit::Entry| -> Vec<u8> {
        (0..n).flat_map(|i| entry(i).bytes()).collect()
    };
    let g = Given {
        table: table(1_024, &key),
        md5: table(1_024, &md5),
        ..Given::good()
    };
    assert_eq!(g.unchanged(CheckTable), word(0, 1_024));
    let both = g.prepared();
    assert_eq!(both.table.len(), prepared::MOST);
    assert_eq!(both.unchanged(CheckTable), word(0, 1_024));
    for (i, peer) in [
        (0, [10, 1, 0, 9]),
        (77, [10, 1, 0, 9]),
        (255, [10, 1, 3, 9]),
    ] {
        let mut call = both.of(OpenActive);
        (call.destination, call.byte) = (peer.to_vec(), i);
        let opened = raw_open(&call);
        assert_eq!((opened.0, opened.1[2]), (word(0, 0), i));
    }
    for table_len in [1_025, 2_000] {
        let long = Given {
            table: table(table_len, &|i| key(i % 1_024)),
            ..g.clone()
        };
        let long_md5 = Given {
            md5: table(table_len, &|i| md5(i % 1_024)),
            ..g.clone()
        };
        for call in ALL_CALLS {
            assert_eq!(long.unchanged(call), word(12, 1_024));
            assert_eq!(long_md5.unchanged(call), md5_word(12, 1_024));
        }
    }
    for counts in [[4, 1, 0, 0], [0, 0, 4, 1], [4, 1, 4, 1]] {
        let entries: usize = prepared::counts(&counts).iter().sum();
        let mut table = vec![0; prepared::length(entries)];
        table[..4].copy_from_slice(&counts);
        let g = Given {
            form: 1,
            table,
            md5: vec![],
            ..Given::good()
        };
        for call in form_calls() {
            assert_eq!(g.unchanged(call), word(44, 0));
        }
    }
}

/// An active opening by the archive: the answer, and the state.
fn raw_open(call: &Call) -> (u64, Vec<u8>) {
    let mut state = State::default().bytes();
    let answer = raw::open_active(
        call.form,
        &call.table,
        &call.md5,
        &call.source,
        &call.destination,
        call.local_port,
        call.remote_port,
        call.isn,
        call.byte,
        &mut state,
    );
    (answer, state)
}

/// Preparing writes its own length, and nothing where the room is shorter.
#[test]
fn prepared_just_long_enough() {
    for given in [Given::good(), Given::by_md5()] {
        let prepared = given.prepared().table;
        let need = prepared.len();
        for room in [0, 1, 3, 4, need - 1, need, need + 1, need + 100] {
            let g = Given {
                out: Bytes(room as u64 + 9).take(room),
                ..given.clone()
            };
            if room < need {
                assert_eq!(g.unchanged(Prepare), word(37, 0));
                continue;
            }
            let (answer, out, state) = g.call(Prepare);
            assert_eq!(answer, word(0, need as u32));
            assert_eq!(out[..need], prepared);
            assert_eq!(out[need..], g.out[need..]);
            assert_eq!(state, g.state);
        }
    }
}

/// By every call: the MD5 table's refusals, with 1 in bits 8 to 15, and 45; the key table's come first.
#[test]
fn both_tables() {
    let by_md5 = Given::by_md5();
    for good in [Given::good(), Given::by_md5()] {
        for call in ALL_CALLS {
            let with = |table: &[u8], md5: &[u8]| Given {
                table: table.to_vec(),
                md5: md5.to_vec(),
                // What 20 and 30 refuse, too.
                syn: vec![],
                arriving: vec![],
                leaving: vec![],
                ..good.clone()
            };
            let bad = [&by_md5.md5[..], &[8]].concat();
            assert_eq!(with(&[], &bad).unchanged(call), md5_word(11, 1));
            assert_eq!(with(&[8], &bad).unchanged(call), word(11, 0));
            let keys = kit::Entry::default().bytes();
            assert_eq!(with(&keys, &bad).unchanged(call), md5_word(11, 1));
            assert_eq!(with(&keys, &by_md5.md5).unchanged(call), md5_word(45, 0));
            let clash = by_md5.md5.repeat(2);
            assert_eq!(with(&[], &clash).unchanged(call), md5_word(17, 1));
            assert_eq!(with(&[], &keys).unchanged(call), md5_word(13, 0));
        }
    }
}

/// Each buffer of each call empty in turn, then all of them.
fn each_empty(nulls: bool) {
    let good = Given {
        nulls,
        ..Given::good()
    };
    let none = Vec::new;

    // The MD5 buffer beside a prepared table is empty anyway.
    let prepared = Given {
        nulls,
        ..good.prepared()
    };
    for (call, value) in CALLS {
        assert_eq!(prepared.call(call).0, word(0, value));
    }
    let g = Given {
        table: none(),
        ..prepared
    };
    for call in form_calls() {
        assert_eq!(g.unchanged(call), word(44, 0));
    }
    let g = Given {
        table: none(),
        md5: none(),
        out: none(),
        ..good.clone()
    };
    assert_eq!(g.unchanged(Prepare), word(37, 0));

    let g = Given {
        md5: none(),
        ..good.clone()
    };
    for (call, value) in CALLS {
        assert_eq!(g.call(call).0, word(0, value));
    }
    let g = Given {
        nulls,
        md5: none(),
        ..Given::by_md5()
    };
    assert_eq!(g.unchanged(OpenActiveMd5), word(35, 0));
    assert_eq!(g.unchanged(JudgeSyn), word(1, 0));
    assert_eq!(g.unchanged(Sign), word(35, 0));
    assert_eq!(g.unchanged(Ask), word(35, 0));
    counted(&g, 26);
    let g = Given {
        nulls,
        table: none(),
        ..Given::by_md5()
    };
    for (call, value) in MD5_CALLS {
        let value = if call == CheckTable { 0 } else { value };
        assert_eq!(g.call(call).0, word(0, value));
    }

    let g = Given {
        table: none(),
        ..good.clone()
    };
    assert_eq!(g.unchanged(CheckTable), word(0, 0));
    assert_eq!(g.unchanged(OpenActive), word(35, 0));
    assert_eq!(g.unchanged(JudgeSyn), word(26, 0));
    assert_eq!(g.unchanged(OpenPassive), word(26, 0));
    assert_eq!(g.unchanged(Sign), word(35, 0));
    assert_eq!(g.unchanged(Ask), word(35, 0));
    counted(&g, 26);
    let g = Given { setting: 0, ..g };
    assert_eq!(g.unchanged(JudgeSyn), word(1, 0));
    emptied(&g);

    let sources = [none(), good.source.clone(), none()];
    let destinations = [none(), none(), good.destination.clone()];
    for (source, destination) in sources.into_iter().zip(destinations) {
        let g = Given {
            source,
            destination,
            ..good.clone()
        };
        for call in [OpenActive, OpenActiveMd5, JudgeSyn, OpenPassive, Judge] {
            assert_eq!(g.unchanged(call), word(19, 0));
        }
    }

    let g = Given {
        syn: none(),
        arriving: none(),
        leaving: none(),
        ..good.clone()
    };
    assert_eq!(g.unchanged(JudgeSyn), word(20, 0));
    assert_eq!(g.unchanged(OpenPassive), word(20, 0));
    assert_eq!(g.unchanged(Sign), word(30, 0));
    counted(&g, 20);

    let g = Given {
        out: none(),
        ..good.clone()
    };
    assert_eq!(g.unchanged(Sign), word(37, 0));

    let g = Given {
        state: none(),
        ..good.clone()
    };
    for call in STATE_CALLS {
        assert_eq!(g.unchanged(call), word(18, 0));
    }

    let g = Given {
        table: none(),
        md5: none(),
        source: none(),
        destination: none(),
        syn: none(),
        arriving: none(),
        leaving: none(),
        out: none(),
        state: none(),
        ..good
    };
    assert_eq!(g.unchanged(CheckTable), word(0, 0));
    assert_eq!(g.unchanged(JudgeSyn), word(19, 0));
    for call in STATE_CALLS {
        assert_eq!(g.unchanged(call), word(18, 0));
    }
    each_empty_of_mac(&g);
}

/// Judging drops with this number, and nothing changes but its count.
fn counted(g: &Given, number: u8) {
    let (answer, _, state) = g.call(Judge);
    assert_eq!(answer, word(number, 0));
    let mut expected = State::read(&g.state).unwrap();
    expected.drops[State::place(number).unwrap()] += 1;
    assert_eq!(state, expected.bytes());
}

/// A passive opening only passes the SYN, and leaves the empty state.
fn emptied(g: &Given) {
    assert_ne!(g.state, State::default().bytes());
    let (answer, out, state) = g.call(OpenPassive);
    assert_eq!(answer, word(1, 0));
    assert_eq!(out, g.out);
    assert_eq!(state, State::default().bytes());
}

/// The calls on messages with empty buffers; `g` says how these are lent.
fn each_empty_of_mac(g: &Given) {
    const SHA1_OF_NONE: &str = "da39a3ee5e6b4b0d3255bfef95601890afd80709";
    const HMAC_OF_NONE: &str = "fbdb1d1b18aa6c08324b7d64b71fb76370690e1d";
    const SHA256_OF_NONE: &str = "e3b0c44298fc1c149afbf4c8996fb92427ae41e4649b934ca495991b7852b855";
    const HMAC256_OF_NONE: &str =
        "b613679a0814d9ec772f95d778c35fc5ff1697c493715653c6c712144292c5ad";
    const MD5_OF_NONE: &str = "d41d8cd98f00b204e9800998ecf8427e";
    let hex = |bytes: &[u8]| bytes.iter().map(|b| format!("{b:02x}")).collect::<String>();
    let none: &[u8] = &[];
    let some = [7; 16];
    let mut out = [0; 20];
    // SAFETY: as above.
    unsafe {
        let wrote = c::mac_sha1(g.ptr(none), 0, out.as_mut_ptr(), 20);
        assert_eq!((wrote, hex(&out).as_str()), (20, SHA1_OF_NONE));
        let wrote = c::mac_hmac_sha1(g.ptr(none), 0, g.ptr(none), 0, out.as_mut_ptr(), 20);
        assert_eq!((wrote, hex(&out).as_str()), (20, HMAC_OF_NONE));
        let wrote = c::mac_aes128_cmac(some.as_ptr(), 16, g.ptr(none), 0, out.as_mut_ptr(), 20);
        assert_eq!(wrote, 16);
        let mut long = [0; 32];
        let wrote = c::mac_sha256(g.ptr(none), 0, long.as_mut_ptr(), 32);
        assert_eq!((wrote, hex(&long).as_str()), (32, SHA256_OF_NONE));
        let wrote = c::mac_hmac_sha256(g.ptr(none), 0, g.ptr(none), 0, long.as_mut_ptr(), 32);
        assert_eq!((wrote, hex(&long).as_str()), (32, HMAC256_OF_NONE));
        let wrote = c::mac_md5(g.ptr(none), 0, long.as_mut_ptr(), 32);
        assert_eq!((wrote, hex(&long[..16]).as_str()), (16, MD5_OF_NONE));

        let before = out;
        let key = some.as_ptr();
        let to = out.as_mut_ptr();
        assert_eq!(c::mac_aes128_cmac(g.ptr(none), 0, key, 16, to, 20), 0);
        assert_eq!(c::mac_aes128(g.ptr(none), 0, key, 16, to, 20), 0);
        assert_eq!(c::mac_aes128(key, 16, g.ptr(none), 0, to, 20), 0);
        assert_eq!(out, before);

        let nowhere = g.ptr_mut(&mut []);
        assert_eq!(c::mac_sha1(key, 16, nowhere, 0), 0);
        assert_eq!(c::mac_hmac_sha1(key, 16, key, 16, nowhere, 0), 0);
        assert_eq!(c::mac_sha256(key, 16, nowhere, 0), 0);
        assert_eq!(c::mac_hmac_sha256(key, 16, key, 16, nowhere, 0), 0);
        assert_eq!(c::mac_md5(key, 16, nowhere, 0), 0);
        assert_eq!(c::mac_aes128(key, 16, key, 16, nowhere, 0), 0);
        assert_eq!(c::mac_aes128_cmac(key, 16, key, 16, nowhere, 0), 0);
    }
}

#[test]
fn empty_buffers() {
    each_empty(false);
}

/// include/embankery.h allows a null pointer beside length 0.
#[test]
fn null_pointers() {
    each_empty(true);
}

/// "A state buffer of another length gets 18 from every call that takes one, before any other
/// number": with all else good, and with all else bad.
#[test]
fn states_of_every_length() {
    let good = Given::good();
    let bad = Given {
        table: vec![9],
        md5: vec![9],
        source: vec![1; 5],
        destination: vec![],
        syn: vec![1; 19],
        arriving: vec![1; 19],
        leaving: vec![1; 19],
        out: vec![],
        ..good.clone()
    };
    let prepared = good.prepared();
    let bad_prepared = Given {
        form: 1,
        ..bad.clone()
    };
    let long = [good.state.clone(), good.state.clone()].concat();
    for len in 0..=300 {
        for given in [&good, &bad, &prepared, &bad_prepared] {
            let g = Given {
                state: long[..len].to_vec(),
                ..given.clone()
            };
            for call in STATE_CALLS {
                if len != State::BYTES {
                    assert_eq!(g.unchanged(call), word(18, 0), "{len} bytes");
                } else {
                    assert_ne!(g.call(call).0, word(18, 0));
                }
            }
        }
    }
    for (call, value) in CALLS {
        assert_eq!(good.call(call).0, word(0, value));
    }
}

/// A KeyID next to the right one: where an entry matches the pair the SYN is dropped whatever the
/// setting, and no buffer changes; where none does, the setting decides, and a pass empties the state.
#[test]
fn wrong_key_ids() {
    let good = Given::good();
    let any = kit::Entry::default().ids(IDS[1], IDS[0]);
    let wide = any.bytes();
    let mut beside = any;
    beside.remote = beside.remote.ports(PORTS[0] + 1, 65_535);
    let beside = beside.bytes();
    for key_id in [IDS[0] - 1, IDS[0] + 1, 255] {
        let mut syn = good.syn.clone();
        syn[22] = key_id;
        let syn = good.summed(&syn);
        for setting in 0..=255 {
            let with = |table: &[u8]| Given {
                table: table.to_vec(),
                md5: vec![],
                syn: syn.clone(),
                setting,
                ..good.clone()
            };
            for g in [with(&good.table), with(&wide)] {
                assert_eq!(g.unchanged(JudgeSyn), word(26, 0));
                assert_eq!(g.unchanged(OpenPassive), word(26, 0));
            }
            for g in [with(&[]), with(&beside)] {
                if setting == 0 {
                    assert_eq!(g.unchanged(JudgeSyn), word(1, 0));
                    emptied(&g);
                } else {
                    assert_eq!(g.unchanged(JudgeSyn), word(26, 0));
                    assert_eq!(g.unchanged(OpenPassive), word(26, 0));
                }
            }
        }
    }
}

/// Signing into a buffer of this length, which succeeds exactly if the signed segment fits.
fn sign_into(g: &Given, room: usize, signed: &[u8]) {
    let g = Given {
        out: Bytes(room as u64 + 9).take(room),
        ..g.clone()
    };
    if room < signed.len() {
        assert_eq!(g.unchanged(Sign), word(37, 0));
        return;
    }
    let (answer, out, state) = g.call(Sign);
    assert_eq!(answer, word(0, signed.len() as u32));
    assert_eq!(out[..signed.len()], *signed);
    assert_eq!(out[signed.len()..], g.out[signed.len()..]);
    let expected = State {
        signing_reference: State::read(&state).unwrap().signing_reference,
        ..State::read(&g.state).unwrap()
    };
    assert_eq!(state, expected.bytes());
}

#[test]
fn outputs_just_long_enough() {
    for kind in kinds() {
        let added = kind.added();
        let full = vec![1; 40 - added];
        let options: [&[u8]; 3] = [&[], &[1, 3, 3, 7], &full];
        for options in options {
            for data in [0, 1, 23, 24, 1_400] {
                let mut ends = Ends::open(kind);
                let g = Given {
                    table: ends.tables[0].as_bytes().to_vec(),
                    leaving: segment(PORTS, ISNS[0] + 1, ACK, options, &vec![5; data]),
                    state: ends.ends[0].as_bytes().to_vec(),
                    ..Given::good()
                };
                let signed = ends.sign(&g.leaving).unwrap();
                assert_eq!(signed.len(), g.leaving.len() + added);
                assert_eq!(ends.judge(&signed), Verdict::Accept { extension: 0 });
                let need = signed.len();
                for room in [0, 1, need - added, need - 1, need, need + 1, need + 100] {
                    sign_into(&g, room, &signed);
                }
            }
        }
    }
}

/// By TCP MD5, 20 bytes are added.
#[test]
fn outputs_just_long_enough_by_md5() {
    for ipv6 in [false, true] {
        let options: [&[u8]; 3] = [&[], &[1, 3, 3, 7], &[1; 20]];
        for options in options {
            for data in [0, 1, 23, 24, 1_400] {
                let mut ends = Md5Ends::open(ipv6);
                let g = Given {
                    table: vec![],
                    md5: ends.tables[0].as_bytes().to_vec(),
                    leaving: segment(PORTS, ISNS[0] + 1, ACK, options, &vec![5; data]),
                    state: ends.ends[0].as_bytes().to_vec(),
                    ..Given::good()
                };
                let signed = ends.sign(&g.leaving).unwrap();
                assert_eq!(signed.len(), g.leaving.len() + 20);
                assert_eq!(ends.judge(&signed), Verdict::Accept { extension: 0 });
                let need = signed.len();
                for room in [
                    0,
                    1,
                    need - 20,
                    need - 2,
                    need - 1,
                    need,
                    need + 1,
                    need + 100,
                ] {
                    sign_into(&g, room, &signed);
                }
            }
        }
    }
}

/// A call on messages, whose result has `need` bytes, into buffers around that length.
fn mac_into(need: usize, call: impl Fn(&mut [u8]) -> u64) {
    for room in 0..=need + 5 {
        let before = Bytes(room as u64 + 5).take(room);
        let mut out = Guarded::new(&before);
        let wrote = call(out.lent());
        if room < need {
            assert_eq!(wrote, 0);
            assert_eq!(out.content(), before);
        } else {
            assert_eq!(wrote, need as u64);
            assert_ne!(out.content()[..need], before[..need]);
            assert_eq!(out.content()[need..], before[need..]);
        }
    }
}

#[test]
fn macs_just_long_enough() {
    let mut bytes = Bytes(3);
    for len in [0, 1, 15, 16, 17, 55, 56, 63, 64, 65, 1_400, 65_535] {
        let message = bytes.take(len);
        let key = bytes.take(16);
        mac_into(20, |out| raw::sha1(&message, out));
        mac_into(20, |out| raw::hmac_sha1(&key, &message, out));
        mac_into(20, |out| raw::hmac_sha1(&message, &key, out));
        mac_into(32, |out| raw::sha256(&message, out));
        mac_into(32, |out| raw::hmac_sha256(&key, &message, out));
        mac_into(32, |out| raw::hmac_sha256(&message, &key, out));
        mac_into(16, |out| raw::md5(&message, out));
        mac_into(16, |out| raw::aes128_cmac(&key, &message, out));
    }
    let long = bytes.take(40);
    for key in 0..=long.len() {
        for block in 0..=long.len() {
            let mut out = Guarded::new(&[0xAA; 40]);
            let wrote = raw::aes128(&long[..key], &long[..block], out.lent());
            let fits = key == 16 && block == 16;
            assert_eq!(wrote, if fits { 16 } else { 0 });
            assert_eq!(out.content() != [0xAA; 40], fits);
        }
        let mut out = Guarded::new(&[0xAA; 40]);
        let wrote = raw::aes128_cmac(&long[..key], &long, out.lent());
        assert_eq!(wrote, if key == 16 { 16 } else { 0 });
        assert_eq!(out.content() != [0xAA; 40], key == 16);
    }
}

/// "A segment has 20 to 65,535 bytes": the longest is signed to, and judged; one more is refused.
#[test]
fn longest_segments() {
    for kind in kinds() {
        let mut ends = Ends::open(kind);
        let plain = |len: usize| segment(PORTS, ISNS[0] + 1, ACK, &[], &vec![3; len - 20]);
        let most = 65_535 - kind.added();
        let g = Given {
            table: ends.tables[0].as_bytes().to_vec(),
            leaving: plain(most),
            state: ends.ends[0].as_bytes().to_vec(),
            ..Given::good()
        };
        let longest = ends.sign(&g.leaving).unwrap();
        assert_eq!(longest.len(), 65_535);
        for room in [65_534, 65_535, 65_536] {
            sign_into(&g, room, &longest);
        }
        for (len, number) in [(most + 1, 32), (65_535, 32), (65_536, 30), (1_000_000, 30)] {
            let g = Given {
                leaving: plain(len),
                out: vec![0xAA; len + kind.added()],
                ..g.clone()
            };
            assert_eq!(g.unchanged(Sign), word(number, 0), "{len} bytes");
        }

        assert_eq!(ends.judge(&longest), Verdict::Accept { extension: 0 });
        let mut damaged = longest.clone();
        damaged[65_534] ^= 1;
        assert_eq!(ends.judge(&damaged), Verdict::Drop(Refusal::Checksum));
        let forged = ends.summed(&damaged);
        assert_eq!(ends.judge(&forged), Verdict::Drop(Refusal::MacDiffers));
        let longer = [longest, vec![0]].concat();
        assert_eq!(ends.judge(&longer), Verdict::Drop(Refusal::Size));
        // Without TCP-AO, a segment of 65,535 bytes is looked at to its end all the same.
        let unsigned = ends.summed(&plain(65_535));
        assert_eq!(ends.judge(&unsigned), Verdict::Drop(Refusal::OptionMissing));
    }
}

/// By TCP MD5 the longest segment is signed from 65,515 bytes.
#[test]
fn longest_segments_by_md5() {
    for ipv6 in [false, true] {
        let mut ends = Md5Ends::open(ipv6);
        let plain = |len: usize| segment(PORTS, ISNS[0] + 1, ACK, &[], &vec![3; len - 20]);
        let longest = ends.sign(&plain(65_515)).unwrap();
        assert_eq!(longest.len(), 65_535);
        assert_eq!(ends.judge(&longest), Verdict::Accept { extension: 0 });
        for len in [65_516, 65_517, 65_518, 65_535] {
            assert_eq!(ends.sign(&plain(len)), Err(Refusal::SignRoom));
        }
        let mut forged = longest.clone();
        forged[65_534] ^= 1;
        assert_eq!(ends.judge(&forged), Verdict::Drop(Refusal::Checksum));
        let forged = ends.summed(&forged);
        assert_eq!(ends.judge(&forged), Verdict::Drop(Refusal::MacDiffers));
        let unsigned = ends.summed(&plain(65_535));
        assert_eq!(ends.judge(&unsigned), Verdict::Drop(Refusal::Md5Missing));
    }
}

/// A bare SYN may carry data, up to the same length.
#[test]
fn longest_syn() {
    for kind in kinds() {
        let ends = Ends::open(kind);
        let most = 65_515 - kind.added();
        let plain = segment(PORTS, ISNS[0], SYN, &[], &vec![3; most]);
        let mut opening = ends.opening.clone();
        let syn = opening.sign(&ends.tables[0], &plain).unwrap();
        let g = Given {
            table: ends.tables[1].as_bytes().to_vec(),
            source: octets(ends.addresses[0]),
            destination: octets(ends.addresses[1]),
            syn,
            ..Given::good()
        };
        assert_eq!(g.syn.len(), 65_535);
        assert_eq!(g.unchanged(JudgeSyn), word(0, 0));
        let (answer, _, state) = g.call(OpenPassive);
        assert_eq!(answer, word(0, 0));
        assert!(State::read(&state).unwrap().is_open());
        let g = Given {
            syn: [g.syn, vec![0]].concat(),
            ..Given::good()
        };
        assert_eq!(g.unchanged(JudgeSyn), word(20, 0));
        assert_eq!(g.unchanged(OpenPassive), word(20, 0));
    }
}

/// Every buffer directly before memory that no one may touch: a call that reads or writes one byte
/// too far ends this test.
#[cfg(target_os = "linux")]
mod last_byte {
    use super::*;

    const PAGE: usize = 65_536;

    extern "C" {
        fn mmap(at: *mut u8, len: usize, access: i32, flags: i32, file: i32, from: i64) -> *mut u8;
        fn mprotect(at: *mut u8, len: usize, access: i32) -> i32;
        fn munmap(at: *mut u8, len: usize) -> i32;
    }

    /// Bytes that end where memory ends.
    struct Last {
        map: *mut u8,
        pages: usize,
        len: usize,
    }

    impl Last {
        fn new(content: &[u8]) -> Last {
            let (read_write, private_anonymous) = (3, 0x22);
            let pages = content.len().div_ceil(PAGE);
            let whole = (pages + 1) * PAGE;
            // SAFETY: new memory of `whole` bytes, of which the last PAGE are shut; the content is
            // written before them.
            unsafe {
                let map = mmap(
                    std::ptr::null_mut(),
                    whole,
                    read_write,
                    private_anonymous,
                    -1,
                    0,
                );
                assert_ne!(map as isize, -1);
                assert_eq!(mprotect(map.add(pages * PAGE), PAGE, 0), 0);
                let last = Last {
                    map,
                    pages,
                    len: content.len(),
                };
                std::ptr::copy_nonoverlapping(content.as_ptr(), last.front(), last.len);
                last
            }
        }

        fn front(&self) -> *mut u8 {
            // SAFETY: the content lies inside the map, or is empty and at its end.
            unsafe { self.map.add(self.pages * PAGE - self.len) }
        }

        fn as_slice(&self) -> &[u8] {
            // SAFETY: `len` bytes that were written, and stay while `self` does.
            unsafe { std::slice::from_raw_parts(self.front(), self.len) }
        }

        fn as_mut_slice(&mut self) -> &mut [u8] {
            // SAFETY: as above, and borrowed from `self` alone.
            unsafe { std::slice::from_raw_parts_mut(self.front(), self.len) }
        }
    }

    impl Drop for Last {
        fn drop(&mut self) {
            // SAFETY: the map was made by `new`, and no slice of it is left.
            unsafe { munmap(self.map, (self.pages + 1) * PAGE) };
        }
    }

    /// All calls with everything at the end of memory.
    fn all(g: &Given) {
        let table = Last::new(&g.table);
        let md5 = Last::new(&g.md5);
        let source = Last::new(&g.source);
        let destination = Last::new(&g.destination);
        let (table, md5) = (table.as_slice(), md5.as_slice());
        let (source, destination) = (source.as_slice(), destination.as_slice());
        let state = || Last::new(&g.state);
        for room in [
            0,
            4,
            prepared::length(1),
            prepared::length(2),
            prepared::length(3),
        ] {
            raw::prepare(table, md5, Last::new(&vec![0; room]).as_mut_slice());
        }
        raw::check_table(g.form, table, md5);
        raw::open_active_md5(
            g.form,
            table,
            md5,
            destination,
            source,
            PORTS[1],
            PORTS[0],
            ISNS[1],
            state().as_mut_slice(),
        );
        raw::open_active(
            g.form,
            table,
            md5,
            destination,
            source,
            PORTS[1],
            PORTS[0],
            ISNS[1],
            IDS[1],
            state().as_mut_slice(),
        );
        for segment in [&g.syn, &g.arriving, &g.leaving] {
            let segment = Last::new(segment);
            let segment = segment.as_slice();
            raw::judge_syn(g.form, table, md5, source, destination, segment, g.setting);
            raw::open_passive(
                g.form,
                table,
                md5,
                source,
                destination,
                segment,
                ISNS[1],
                g.setting,
                state().as_mut_slice(),
            );
            raw::judge(
                g.form,
                table,
                md5,
                source,
                destination,
                segment,
                state().as_mut_slice(),
            );
            let mut out = Last::new(&g.out);
            raw::sign(
                g.form,
                table,
                md5,
                segment,
                out.as_mut_slice(),
                state().as_mut_slice(),
            );
            raw::md5(segment, out.as_mut_slice());
            raw::sha1(segment, out.as_mut_slice());
            raw::hmac_sha1(table, segment, out.as_mut_slice());
            raw::sha256(segment, out.as_mut_slice());
            raw::hmac_sha256(table, segment, out.as_mut_slice());
            raw::aes128(source, segment, out.as_mut_slice());
            raw::aes128_cmac(source, segment, out.as_mut_slice());
        }
        raw::ask(g.form, table, md5, IDS[0], state().as_mut_slice());
    }

    #[test]
    fn of_good_input() {
        for kind in kinds() {
            let most = 65_515 - kind.added();
            for data in [0, 1, 15, 16, 27, 28, 43, 44, 63, 64, 1_400, most] {
                let mut ends = Ends::open(kind);
                let data = vec![5; data];
                let arriving = segment(PORTS, ISNS[0] + 1, ACK, &[], &data);
                let leaving = segment([PORTS[1], PORTS[0]], ISNS[1] + 1, ACK, &[], &data);
                all(&Given {
                    table: ends.tables[1].as_bytes().to_vec(),
                    source: octets(ends.addresses[0]),
                    destination: octets(ends.addresses[1]),
                    syn: ends.syn.clone(),
                    arriving: ends.sign(&arriving).unwrap(),
                    out: vec![0; leaving.len() + kind.added()],
                    leaving,
                    state: ends.ends[1].as_bytes().to_vec(),
                    ..Given::good()
                });
            }
        }
    }

    #[test]
    fn of_good_input_by_md5() {
        for ipv6 in [false, true] {
            for data in [0, 1, 15, 16, 27, 28, 43, 44, 63, 64, 1_400, 65_495] {
                let mut ends = Md5Ends::open(ipv6);
                let data = vec![5; data];
                let arriving = segment(PORTS, ISNS[0] + 1, ACK, &[], &data);
                let leaving = segment([PORTS[1], PORTS[0]], ISNS[1] + 1, ACK, &[], &data);
                all(&Given {
                    table: vec![],
                    md5: ends.tables[1].as_bytes().to_vec(),
                    source: octets(ends.addresses[0]),
                    destination: octets(ends.addresses[1]),
                    syn: ends.syn.clone(),
                    arriving: ends.sign(&arriving).unwrap(),
                    out: vec![0; leaving.len() + 20],
                    leaving,
                    state: ends.ends[1].as_bytes().to_vec(),
                    ..Given::good()
                });
            }
        }
    }

    /// Each buffer cut at every length, the segment's header among them.
    #[test]
    fn of_cut_input() {
        of_cut(&Given::good());
        of_cut(&Given::by_md5());
        for good in [Given::good(), Given::by_md5()] {
            of_prepared(&good.prepared());
        }
    }

    /// Prepared tables cut at every length, and with any bytes in them.
    fn of_prepared(good: &Given) {
        all(good);
        for len in 0..=good.table.len() {
            all(&Given {
                table: good.table[..len].to_vec(),
                ..good.clone()
            });
        }
        let mut bytes = Bytes(17);
        for _ in 0..1_000 {
            let mut table = good.table.clone();
            for _ in 0..1 + bytes.below(6) {
                let at = bytes.below(table.len());
                table[at] = bytes.take(1)[0];
            }
            all(&Given {
                table,
                ..good.clone()
            });
            let entries = bytes.below(4);
            let mut table = bytes.take(prepared::length(entries));
            let keys = bytes.below(entries + 1);
            table[..4].copy_from_slice(&[0, keys as u8, 0, (entries - keys) as u8]);
            all(&Given {
                table,
                ..good.clone()
            });
        }
    }

    fn of_cut(good: &Given) {
        for len in 0..=good.md5.len() {
            all(&Given {
                md5: good.md5[..len].to_vec(),
                ..good.clone()
            });
        }
        for len in 0..=good.table.len() {
            all(&Given {
                table: good.table[..len].to_vec(),
                ..good.clone()
            });
        }
        // With a wrong checksum, and with a right one, by which more is read.
        for len in 0..=good.arriving.len() {
            let cut = &good.arriving[..len];
            for arriving in [cut.to_vec(), good.summed(cut)] {
                all(&Given {
                    arriving,
                    ..good.clone()
                });
            }
        }
        for len in 0..=good.syn.len() {
            let cut = &good.syn[..len];
            for syn in [cut.to_vec(), good.summed(cut)] {
                all(&Given {
                    syn,
                    ..good.clone()
                });
            }
        }
        for len in 0..=20 {
            all(&Given {
                source: vec![1; len],
                out: vec![0; len],
                ..good.clone()
            });
            all(&Given {
                source: vec![1; len],
                destination: vec![1; len],
                state: vec![4; len * 16],
                ..good.clone()
            });
        }
    }

    /// Option areas that end in the middle of an option, directly at the end of memory.
    #[test]
    fn of_cut_options() {
        let mut bytes = Bytes(11);
        let lines = [Given::good(), Given::by_md5()];
        for round in 0..4_000 {
            let good = &lines[round % 2];
            let words = bytes.below(11);
            let mut options = bytes.take(words * 4);
            for _ in 0..bytes.below(4) {
                if !options.is_empty() {
                    let at = bytes.below(options.len());
                    options[at] = [0, 1, 2, 4, 16, 18, 19, 19, 29, 30][bytes.below(10)];
                }
            }
            let flags = [ACK, SYN, SYN | ACK][round % 3];
            all(&Given {
                arriving: good.summed(&segment(PORTS, ISNS[0] + 1, flags, &options, &[])),
                leaving: segment([PORTS[1], PORTS[0]], ISNS[1], flags, &options, &[]),
                ..good.clone()
            });
        }
    }
}
