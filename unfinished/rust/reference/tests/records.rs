//! The state as a record: Ticket 12. What is written, what is read back, and 49 exactly for what no state writes.

mod common;

use common::many::{Scene, OPEN};

use faulty::Fault;
use kit::connections::{places, states};
use kit::records::{record, Boundary, Call, Function, Outcome, BYTES};
use kit::{records_of, word, Bytes, State};

const REFERENCE: Boundary = records_of!(kit::records::Boundary, reference::boundary);
const FAULTY: Boundary = records_of!(kit::records::Boundary, faulty::boundary);

/// A call, and what it must answer.
#[derive(Clone)]
struct Case {
    name: String,
    call: Call,
    answer: u64,
}

fn case(name: impl Into<String>, call: Call, answer: u64) -> Case {
    Case {
        name: name.into(),
        call,
        answer,
    }
}

fn write(state: &[u8], room: usize) -> Call {
    Call {
        out: vec![0xee; room],
        ..Call::new(Function::Write, state)
    }
}

fn read(record: &[u8], places: &[u8]) -> Call {
    Call {
        record: record.to_vec(),
        ..Call::new(Function::Read, places)
    }
}

fn read_into(record: &[u8], places: &[u8]) -> Call {
    Call {
        function: Function::ReadInto,
        ..read(record, places)
    }
}

/// States in which every byte is of some use: both families, both stages, both ways, and odd values of these.
fn some_states() -> Vec<State> {
    let mut random = Bytes(20_261_119);
    let mut all = vec![];
    for family in [4, 6] {
        for stage in [0, 1, 2, 255] {
            for way in [0, 1, 2] {
                let mut state = State::read(&random.take(State::BYTES)).unwrap();
                (state.family, state.stage, state.way) = (family, stage, way);
                all.push(state);
            }
        }
    }
    all
}

/// What 49 is for: another length, kind, layout or family.
fn unreadable(good: &[u8]) -> Vec<(String, Vec<u8>)> {
    let mut bad = vec![];
    for length in [0, 1, 2, 3, 177, 178] {
        bad.push((format!("{length} bytes"), good[..length].to_vec()));
    }
    for more in [1, 2, 177, 179] {
        let longer = [good, &vec![0; more]].concat();
        bad.push((format!("{more} bytes more"), longer));
    }
    for (at, right) in [(0, vec![33]), (1, vec![1]), (2, vec![4, 6])] {
        for byte in (0..=255).filter(|byte| !right.contains(byte)) {
            let mut other = good.to_vec();
            other[at] = byte;
            bad.push((format!("{byte} at {at}"), other));
        }
    }
    bad
}

fn cases() -> Vec<Case> {
    let scene = Scene::new();
    let open = scene.a.state();
    let good = record(&open);
    let empty = State::default().bytes();
    let mut list = vec![];

    for state in some_states() {
        let bytes = state.bytes();
        list.push(case("written", write(&bytes, 200), word(0, 179)));
        list.push(case("read", read(&record(&state), &empty), 0));
    }
    for family in (0..=255).filter(|family| ![4, 6].contains(family)) {
        let bytes = State { family, ..open }.bytes();
        list.push(case("no family", write(&bytes, 200), 18));
        list.push(case("no family, no room", write(&bytes, 0), 18));
    }
    for length in [0, 1, 176, 178, 354] {
        let mut lent = scene.a.state.clone();
        lent.resize(length, 4);
        list.push(case("a buffer", write(&lent, 200), 18));
        list.push(case("a buffer, no room", write(&lent, 3), 18));
        list.push(case("a buffer to read into", read(&good, &lent), 18));
        list.push(case("a buffer, no record", read(b"", &lent), 18));
    }
    for (room, answer) in [(0, 37), (178, 37), (179, word(0, 179)), (180, word(0, 179))] {
        list.push(case("room", write(&scene.a.state, room), answer));
    }

    let connections = places(&scene.states);
    let many = |room: usize| Call {
        out: vec![0xee; room],
        ..Call::new(Function::WriteOf, &connections).pair(&scene.a.pair)
    };
    list.push(case("written of many", many(179), word(0, 179)));
    let mut other = many(179).pair(&scene.a6.pair);
    list.push(case("written of many, IPv6", other.clone(), word(0, 179)));
    other = many(178).pair(&scene.other());
    list.push(case("23 before 37", other.clone(), 23));
    other.remote.pop();
    list.push(case("19 before 23", other.clone(), 19));
    other.places.push(0);
    list.push(case("18 before 19", other, 18));
    list.push(case("no room, of many", many(178), 37));
    let mut doubled = many(179);
    doubled.places[OPEN * State::BYTES] = 0;
    list.push(case("the doubled one", doubled, word(0, 179)));

    for (name, bad) in unreadable(&good) {
        list.push(case(name.clone(), read(&bad, &scene.a6.state), 49));
        list.push(case(name, read_into(&bad, &connections), 49));
    }
    let new = record(&State::of_pair(&scene.other()));
    list.push(case("read into many", read_into(&new, &connections), 0));
    let mut second = connections.clone();
    second[0] = 4;
    list.push(case(
        "the second place",
        read_into(&new, &second),
        word(0, 6),
    ));
    let used = record(&scene.opening.state());
    list.push(case("in use", read_into(&used, &connections), 41));
    list.push(case("in use and full", read_into(&used, &scene.full()), 41));
    list.push(case("full", read_into(&new, &scene.full()), 42));
    list.push(case("49 before 42", read_into(b"", &scene.full()), 49));
    list.push(case("no place", read_into(&new, &[]), 42));
    let bad_length = [&connections[..], &[0]].concat();
    list.push(case("18 before 49", read_into(b"", &bad_length), 18));
    list
}

/// Each directed call gives its number and value, and a refusal leaves the buffers as they were.
#[test]
fn each_case_gives_its_number() {
    for case in cases() {
        let outcome = REFERENCE.make(&case.call);
        let what = format!("{}: {}", case.call.function.name(), case.name);
        assert_eq!(outcome.word, case.answer, "{what}");
        if outcome.number() != 0 {
            assert_eq!(outcome.places, case.call.places, "{what}");
        }
        let written = if outcome.number() == 0 {
            outcome.value()
        } else {
            0
        };
        let writes = matches!(case.call.function, Function::Write | Function::WriteOf);
        let behind = if writes { written as usize } else { 0 };
        assert!(
            outcome.out[behind..].iter().all(|byte| *byte == 0xee),
            "{what}"
        );
    }
}

/// "Reading a written state gives that state", over what stood there before.
#[test]
fn written_and_read_back() {
    let scene = Scene::new();
    for state in some_states() {
        let written = REFERENCE.make(&write(&state.bytes(), BYTES));
        assert_eq!(written.places, state.bytes());
        assert_eq!(written.out, record(&state));
        let back = REFERENCE.make(&read(&written.out, &scene.a.state));
        assert_eq!((back.word, back.places), (0, state.bytes()));
        let many = REFERENCE.make(&read_into(&written.out, &places(&scene.states)));
        assert_eq!(many.word, 0);
        let mut expected = scene.states.clone();
        expected[0] = state;
        assert_eq!(states(&many.places), expected);
    }
}

/// 49 is given exactly for what no state writes: whatever is read is written the same, whatever is not read could not
/// have been written.
#[test]
fn forty_nine_exactly() {
    let mut random = Bytes(20_261_120);
    let [mut taken, mut refused] = [0, 0];
    for round in 0..20_000 {
        let mut bytes = random.take(BYTES);
        if round % 3 > 0 {
            let family = [4, 6, 5][random.below(3)];
            bytes[..3].copy_from_slice(&[33, 1, family]);
        }
        if round % 8 == 7 {
            bytes.truncate(random.below(BYTES));
        }
        let back = REFERENCE.make(&read(&bytes, &[0; State::BYTES]));
        if back.word == 0 {
            let again = REFERENCE.make(&write(&back.places, BYTES));
            assert_eq!(again.out, bytes);
            taken += 1;
        } else {
            assert_eq!(back.word, 49);
            let right = bytes.len() == BYTES && bytes[..2] == [33, 1] && [4, 6].contains(&bytes[2]);
            assert!(!right);
            refused += 1;
        }
    }
    assert!(taken > 5_000 && refused > 5_000);
}

/// A connection that is moved goes on where it was: what the spare station judges and signs is what the first would
/// have. An old record rewinds reference, keys and counts.
#[test]
fn a_connection_moves() {
    let scene = Scene::new();
    let (mut a, mut b) = (scene.a.clone(), scene.b.clone());
    let early = REFERENCE.make(&write(&a.state, BYTES)).out;
    let segment = b.sign(common::B_ISN + 5, kit::segment::ACK, b"data");
    assert_eq!(a.judge(&segment), 0);
    let late = REFERENCE.make(&write(&a.state, BYTES)).out;
    let mut spare = a.clone();
    spare.state = vec![0; State::BYTES];
    let back = REFERENCE.make(&read(&late, &spare.state));
    spare.state = back.places;
    let next = b.sign(common::B_ISN + 9, kit::segment::ACK, b"more");
    assert_eq!(spare.judge(&next), a.judge(&next));
    assert_eq!(spare.state, a.state);
    assert_eq!((a.state().accepted, scene.a.state().accepted), (2, 0));
    let rewound = REFERENCE.make(&read(&early, &spare.state));
    assert_eq!(rewound.places, scene.a.state);
}

#[test]
fn each_planted_fault_shows() {
    let cases: Vec<(Case, Outcome)> = cases()
        .into_iter()
        .map(|case| {
            let right = REFERENCE.make(&case.call);
            (case, right)
        })
        .collect();
    for fault in Fault::of_records() {
        let shows = |(case, right): &&(Case, Outcome)| {
            faulty::with(fault, || FAULTY.make(&case.call)) != *right
        };
        let seen: Vec<_> = cases.iter().filter(shows).collect();
        assert!(!seen.is_empty(), "{fault:?} shows nowhere");
        println!(
            "{fault:?} shows in {} cases, first {}",
            seen.len(),
            seen[0].0.name
        );
    }
    for (case, right) in &cases {
        assert_eq!(FAULTY.make(&case.call), *right, "{}", case.name);
    }
}
