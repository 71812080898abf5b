//! Many connections over one table: Ticket 6. Every number of every call in its order, what each leaves as it was, and
//! that two segments for different pairs give the same in either order.

mod common;

use common::many::{cases, run, run_unplanted, run_with, Case, Scene, C4, DOUBLED, FREE, MANY};
use common::{A4, A_ISN, B4, B6, B_ISN};
use faulty::Fault;
use kit::connections::{places, states, Call, Function, Outcome};
use kit::segment::{ACK, SYN};
use kit::{number, Bytes, State};
use std::collections::{BTreeMap, BTreeSet};

/// The one place that differs between these buffers, if there is one; they differ in no more.
fn changed(before: &[u8], after: &[u8]) -> Option<usize> {
    assert_eq!(before.len(), after.len());
    let pairs = before.chunks(State::BYTES).zip(after.chunks(State::BYTES));
    let mut differ = pairs.enumerate().filter(|(_, (one, other))| one != other);
    let place = differ.next().map(|(place, _)| place);
    assert!(differ.next().is_none(), "more than one place changed");
    place
}

/// Each directed call gives its number and value. A refusal leaves the buffers as they were but for a drop's count on an
/// open connection; a call that is not refused changes one place at most.
#[test]
fn each_case_gives_its_number() {
    for case in cases() {
        let outcome = run(&case);
        let what = format!("{}: {}", case.call.function.name(), case.name);
        assert_eq!(outcome.word, case.answer, "{what}");
        let place = changed(&case.call.connections, &outcome.connections);
        let number = outcome.number();
        if number == 0 {
            continue;
        }
        assert!(outcome.out.iter().all(|byte| *byte == 0xee), "{what}");
        let Some(place) = place else { continue };
        assert_eq!(case.call.function, Function::Judge, "{what}");
        let mut counted = states(&case.call.connections)[place];
        counted.count_drop(number);
        assert_eq!(states(&outcome.connections)[place], counted, "{what}");
    }
}

/// What a drop of a segment for the open connection counts: from 4 bytes on it does, below nowhere.
#[test]
fn drops_are_counted_from_four_bytes_on() {
    let scene = Scene::new();
    let segment = scene.b.clone().sign(B_ISN + 1, ACK, b"data");
    for length in 0..20 {
        let outcome = MANY.make(&scene.judge(&B4, &segment[..length]));
        assert_eq!(outcome.word, 20);
        let place = changed(&places(&scene.states), &outcome.connections);
        assert_eq!(place, (length >= 4).then_some(1), "{length} bytes");
    }
}

/// The cases meet each number of each call that can give it, and no call gives another.
#[test]
fn each_number_of_each_call_is_met() {
    let mut met: BTreeMap<Function, BTreeSet<u8>> = BTreeMap::new();
    for case in cases() {
        let numbers = met.entry(case.call.function).or_default();
        numbers.insert(number(run(&case).word));
    }
    let set = |numbers: &[u8]| -> BTreeSet<u8> { numbers.iter().copied().collect() };
    let opening = [0, 11, 18, 19, 35, 41, 42];
    assert_eq!(met[&Function::OpenActive], set(&opening));
    assert_eq!(met[&Function::OpenActiveMd5], set(&opening));
    let passive = [0, 1, 11, 18, 19, 20, 24, 26, 29, 41, 42];
    assert_eq!(met[&Function::OpenPassive], set(&passive));
    let judged = [0, 1, 10, 11, 18, 19, 20, 21, 22, 23, 24, 25, 26, 29, 40, 47];
    assert_eq!(met[&Function::Judge], set(&judged));
    let signed = [0, 11, 18, 19, 23, 30, 34, 35, 36, 37];
    assert_eq!(met[&Function::Sign], set(&signed));
    assert_eq!(met[&Function::Ask], set(&[0, 11, 18, 19, 23, 35]));
    assert_eq!(met[&Function::Close], set(&[0, 18, 19, 23]));
    assert_eq!(met[&Function::Find], set(&[0, 18, 19, 23]));
}

/// What a call on one place gives is what the call on that state alone gives, and what it leaves there.
#[test]
fn a_place_is_a_connection() {
    let scene = Scene::new();
    let ends = [
        (&scene.a, &scene.b),
        (&scene.a6, &scene.b6),
        (&scene.am, &scene.cm),
    ];
    for (place, (a, b)) in [1, 3, 4].into_iter().zip(ends) {
        let (keys, md5) = (&scene.keys, &scene.md5);
        let mut alone = a.clone();
        (alone.table, alone.md5) = (keys.clone(), md5.clone());
        let segment = b.clone().sign(B_ISN + 9, ACK, b"data");
        let mut many = scene.judge(&a.pair.remote, &segment);
        let judged = MANY.make(&many);
        assert_eq!(judged.word, alone.judge(&segment));
        assert_eq!(states(&judged.connections)[place], alone.state());

        many.connections = judged.connections;
        let plain = a.segment(A_ISN + 5, ACK, b"more").bytes();
        let sign = Call {
            connections: many.connections.clone(),
            ..scene.sign(a, &plain)
        };
        let signed = MANY.make(&sign);
        let mut out = vec![0xee; plain.len() + 40];
        assert_eq!(signed.word, alone.sign_into(&plain, &mut out));
        assert_eq!(signed.out, out);
        assert_eq!(states(&signed.connections)[place], alone.state());
    }
}

/// "opening takes the first free one": each of them in turn, then 42; what stood there is gone.
#[test]
fn first_free_place() {
    let scene = Scene::new();
    let mut connections = places(&scene.states);
    for (index, place) in FREE.into_iter().enumerate() {
        let mut pair = scene.other();
        pair.local_port += index as u16;
        let call = Call {
            connections,
            ..scene.open(&pair, 1)
        };
        let outcome = MANY.make(&call);
        assert_eq!(outcome.word, kit::word(0, place as u32));
        connections = outcome.connections;
        let mut expected = State::of_pair(&pair);
        (expected.outgoing_send_id, expected.asked_recv_id) = (1, 2);
        expected.our_isn = 0x3000_0000;
        expected.signing_reference = 0x3000_0000;
        assert_eq!(states(&connections)[place], expected);
    }
    let mut pair = scene.other();
    pair.local_port += 7;
    let call = Call {
        connections,
        ..scene.open(&pair, 1)
    };
    assert_eq!(MANY.make(&call).word, 42);
}

/// "closing empties a place": all zero, and a later place with that pair comes into use.
#[test]
fn closing_brings_the_next_into_use() {
    let scene = Scene::new();
    let close = scene.call(Function::Close).pair(&scene.a.pair);
    let once = MANY.make(&close);
    assert_eq!(once.word, 0);
    assert_eq!(changed(&close.connections, &once.connections), Some(1));
    assert_eq!(once.connections[177..354], [0; 177]);
    let find = |connections: &[u8]| {
        let call = Call {
            connections: connections.to_vec(),
            ..scene.call(Function::Find).pair(&scene.a.pair)
        };
        MANY.make(&call).word
    };
    assert_eq!(find(&once.connections), kit::word(0, DOUBLED as u32));
    let again = Call {
        connections: once.connections,
        ..close
    };
    let twice = MANY.make(&again);
    assert_eq!(twice.word, 0);
    assert_eq!(find(&twice.connections), 23);
}

/// All 256 places filled one after another, the next refused, and each found where it stands.
#[test]
fn two_hundred_and_fifty_six() {
    let scene = Scene::new();
    let mut connections = vec![0; 256 * State::BYTES];
    let pair = |index: u16| {
        let mut pair = scene.other();
        pair.local_port = 1000 + index;
        pair
    };
    for index in 0..256 {
        let call = Call {
            connections,
            ..scene.open(&pair(index), 1)
        };
        let outcome = MANY.make(&call);
        assert_eq!(outcome.word, kit::word(0, index.into()));
        connections = outcome.connections;
    }
    for (index, answer) in [(256, 42), (0, 41), (255, 41)] {
        let call = Call {
            connections: connections.clone(),
            ..scene.open(&pair(index), 1)
        };
        assert_eq!(MANY.make(&call).word, answer);
    }
    for index in [0, 1, 128, 255] {
        let call = Call {
            connections: connections.clone(),
            ..scene.call(Function::Find).pair(&pair(index))
        };
        assert_eq!(MANY.make(&call).word, kit::word(0, index.into()));
    }
}

/// One after the other over the same places: both outcomes, and what is left.
fn both(one: &Call, other: &Call) -> (Outcome, Outcome, Vec<u8>) {
    let first = MANY.make(one);
    let second = MANY.make(&Call {
        connections: first.connections.clone(),
        ..other.clone()
    });
    let left = second.connections.clone();
    (first, second, left)
}

/// "Two segments for different pairs, judged or signed one right after the other, must in either order leave the same
/// table and give the same answers": each kind with each, also where one is refused, or for a pair not in use.
#[test]
fn either_order() {
    let scene = Scene::new();
    let mut damaged = scene.b.clone().sign(B_ISN + 3, ACK, b"damaged");
    damaged[30] ^= 1;
    let other = scene.other();
    let mut elsewhere = scene.b.clone();
    elsewhere.pair = other.mirror();
    let elsewhere = elsewhere.segment(7, ACK, b"").bytes();
    let elsewhere = kit::segment::summed(&B4, &A4, &elsewhere);
    let syn = scene.opening.segment(A_ISN, SYN, b"").bytes();
    let by_a = scene.a.segment(A_ISN + 2, ACK, b"data").bytes();
    let by_a6 = scene.a6.segment(A_ISN + 2, ACK, b"data").bytes();
    // Each with the pair that it is for.
    let calls = [
        (
            1,
            scene.judge(&B4, &scene.b.clone().sign(B_ISN + 9, ACK, b"data")),
        ),
        (1, scene.judge(&B4, &damaged)),
        (1, scene.sign(&scene.a, &by_a)),
        (2, scene.sign(&scene.opening, &syn)),
        (
            3,
            scene.judge(&B6, &scene.b6.clone().sign(B_ISN + 9, ACK, b"data")),
        ),
        (3, scene.sign(&scene.a6, &by_a6)),
        (
            4,
            scene.judge(&C4, &scene.cm.clone().sign(B_ISN + 9, ACK, b"data")),
        ),
        (9, scene.judge(&B4, &elsewhere)),
        (9, scene.judge(&B4, &scene.syn(&other))),
    ];
    let mut tried = 0;
    for (pair, one) in &calls {
        for (other_pair, other) in &calls {
            if pair == other_pair {
                continue;
            }
            let (one_first, other_second, left) = both(one, other);
            let (other_first, one_second, left_too) = both(other, one);
            assert_eq!(left, left_too);
            let answer = |outcome: &Outcome| (outcome.word, outcome.out.clone());
            assert_eq!(answer(&one_first), answer(&one_second));
            assert_eq!(answer(&other_second), answer(&other_first));
            tried += 1;
        }
    }
    assert_eq!(tried, 62);
}

/// Each fault that can be planted in these calls shows in a directed call.
#[test]
fn each_planted_fault_shows() {
    let cases: Vec<(Case, Outcome)> = cases()
        .into_iter()
        .map(|case| {
            let right = run(&case);
            (case, right)
        })
        .collect();
    for fault in Fault::of_connections() {
        let wrong = |(case, right): &&(Case, Outcome)| run_with(fault, case) != *right;
        let seen: Vec<&(Case, Outcome)> = cases.iter().filter(wrong).collect();
        assert!(!seen.is_empty(), "{fault:?} shows nowhere");
        let (first, _) = seen[0];
        let name = first.call.function.name();
        println!(
            "{fault:?} shows in {} cases, first {name}: {}",
            seen.len(),
            first.name
        );
    }
}

/// Without a fault the copy that they are planted in is the reference.
#[test]
fn the_copy_is_the_reference() {
    for case in cases() {
        assert_eq!(run_unplanted(&case), run(&case), "{}", case.name);
    }
}

/// Any bytes may come in any buffer: every call returns, and leaves the lengths; one place changes at most.
#[test]
fn every_call_returns() {
    let cases: Vec<Case> = cases()
        .into_iter()
        .filter(|case| case.call.connections.len() < 2000 && case.call.segment.len() < 2000)
        .collect();
    let mut random = Bytes(20_261_118);
    for round in 0..6_000 {
        let mut case = cases[round % cases.len()].clone();
        let call = &mut case.call;
        for part in [
            &mut call.keys,
            &mut call.md5,
            &mut call.one,
            &mut call.other,
            &mut call.segment,
            &mut call.connections,
        ] {
            if part.is_empty() || random.below(3) > 0 {
                continue;
            }
            let at = random.below(part.len());
            part[at] = random.byte();
            if random.below(8) == 0 {
                part.truncate(at);
            }
        }
        let outcome = run(&case);
        changed(&case.call.connections, &outcome.connections);
        let fault = random.below(Fault::of_connections().count());
        let fault = Fault::of_connections().nth(fault).unwrap();
        run_with(fault, &case);
    }
}
