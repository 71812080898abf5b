//! Taking a key away: Ticket 7. Who holds a key, plain and forced removal, and how the table closes up.

mod common;

use common::many::{Scene, C4, DOUBLED, MD5, OPEN, OPENING, SIX};
use common::{bad_tables, keys, A4, A6, B4, B6, B_PORT};
use faulty::Fault;
use kit::connections::{places, states};
use kit::entry::table;
use kit::removal::{Boundary, Call, Function, Outcome};
use kit::{removal_of, word, Entry, State};

const REFERENCE: Boundary = removal_of!(kit::removal::Boundary, reference::boundary);
const FAULTY: Boundary = removal_of!(kit::removal::Boundary, faulty::boundary);

/// A call, what it must answer, and the states after it, if they change.
#[derive(Clone)]
struct Case {
    name: String,
    call: Call,
    answer: u64,
    after: Option<Vec<State>>,
}

/// The table: for A and B entries 0, 1 and 2 that match, of kinds 4, 4 and 5, entry 3 for another peer, and in IPv6
/// entries 4 and 5 that match, of kinds 6 and 7.
fn entries() -> Vec<Entry> {
    let four = keys(&A4, &B4);
    let six = keys(&A6, &B6);
    let third = Entry::between(&A4, &B4).ids(7, 8).mac_length(16);
    let seven = six[1].clone().mac_length(4);
    vec![
        four[0].clone(),
        four[1].clone(),
        third,
        four[2].clone(),
        six[0].clone(),
        seven,
    ]
}

fn remove(index: u32, states: &[State]) -> Call {
    Call {
        function: Function::Remove,
        keys: table(&entries()),
        index,
        send_id: 0,
        recv_id: 0,
        connections: places(states),
    }
}

fn replace(index: u32, send_id: u8, recv_id: u8, states: &[State]) -> Call {
    Call {
        function: Function::Replace,
        send_id,
        recv_id,
        ..remove(index, states)
    }
}

/// The length without one entry.
fn without(index: usize) -> u64 {
    let mut rest = entries();
    rest.remove(index);
    word(0, table(&rest).len() as u32)
}

fn case(name: &str, call: Call, answer: u64) -> Case {
    Case {
        name: name.to_string(),
        call,
        answer,
        after: None,
    }
}

/// With these IDs in these places.
fn with_ids(states: &[State], at: &[usize], send_id: u8, recv_id: u8) -> Vec<State> {
    let mut states = states.to_vec();
    for place in at {
        states[*place].outgoing_send_id = send_id;
        states[*place].asked_recv_id = recv_id;
    }
    states
}

fn cases() -> Vec<Case> {
    let mut list = vec![];
    plain(&mut list);
    forced(&mut list);
    refused(&mut list);
    far_behind(&mut list);
    list
}

/// Plain removal: which connections hold a key.
fn plain(list: &mut Vec<Case>) {
    let all = Scene::new().states;
    let mut add = |name: &str, index: usize, states: &[State], held: bool| {
        let answer = if held { 43 } else { without(index) };
        list.push(case(name, remove(index as u32, states), answer));
    };
    // The open one and the opening one send under entry 0 and ask for it, the one in IPv6 under entry 4.
    for (index, held) in [true, false, false, false, true, false]
        .into_iter()
        .enumerate()
    {
        add("as they are", index, &all, held);
        add("no connection", index, &[], false);
    }
    let one = |place: usize| [State::default(), all[place]];
    add("the open one", 0, &one(OPEN), true);
    add("the opening one", 0, &one(OPENING), true);
    add("the one in IPv6", 4, &one(SIX), true);
    add("of the other family", 0, &one(SIX), false);
    add("the one by MD5", 0, &one(MD5), false);

    let ids = |send_id: u8, recv_id: u8| {
        let mut states = one(OPEN);
        (states[1].outgoing_send_id, states[1].asked_recv_id) = (send_id, recv_id);
        states
    };
    add("sends under it", 1, &ids(3, 2), true);
    add("asks for it", 1, &ids(1, 4), true);
    add("sends under 0", 0, &ids(1, 4), true);
    add("asks for 0", 0, &ids(3, 2), true);
    add("IDs exchanged", 1, &ids(4, 3), false);
    add("IDs of another peer's", 3, &ids(5, 6), false);
    add("IDs of none", 0, &ids(99, 99), false);

    // By MD5 with IDs that agree; and a way that is neither 0 nor 1.
    let mut by_md5 = ids(1, 2);
    by_md5[1].way = 1;
    add("by MD5", 0, &by_md5, false);
    by_md5[1].way = 2;
    add("by another way", 0, &by_md5, true);

    // A place that is not in use: of no family, or with the pair of an earlier one.
    let mut free = ids(1, 2);
    free[1].family = 5;
    add("free", 0, &free, false);
    let doubled = [ids(1, 2)[1], ids(3, 4)[1]];
    add("doubled", 0, &doubled, true);
    add("doubled, by the second", 1, &doubled, false);
    let mut stage = ids(1, 2);
    stage[1].stage = 77;
    add("of another stage", 0, &stage, true);
    let mut port = ids(1, 2);
    port[1].remote_port = B_PORT + 1;
    add("of another port", 0, &port, false);
    let mut other = ids(1, 2);
    other[1].remote[..4].copy_from_slice(&C4);
    add("of another address", 0, &other, false);
}

/// Forced removal: the replacements, and who changes.
fn forced(list: &mut Vec<Case>) {
    let all = Scene::new().states;
    let mut add = |name: &str, call: Call, after: Option<Vec<State>>| {
        let index = call.index as usize;
        let answer = if after.is_some() { without(index) } else { 35 };
        list.push(Case {
            after,
            ..case(name, call, answer)
        });
    };
    let held = [OPEN, OPENING];
    let new = |send_id, recv_id| Some(with_ids(&all, &held, send_id, recv_id));
    add("replaced", replace(0, 3, 4, &all), new(3, 4));
    add("by two entries", replace(0, 3, 8, &all), new(3, 8));
    add(
        "by two entries, exchanged",
        replace(0, 7, 4, &all),
        new(7, 4),
    );
    add(
        "in IPv6",
        replace(4, 3, 4, &all),
        Some(with_ids(&all, &[SIX], 3, 4)),
    );
    add("by itself", replace(0, 1, 2, &all), None);
    add("its SendID", replace(0, 1, 4, &all), None);
    add("its RecvID", replace(0, 3, 2, &all), None);
    add("no SendID", replace(0, 99, 4, &all), None);
    add("no RecvID", replace(0, 3, 99, &all), None);
    add("another peer's SendID", replace(0, 5, 4, &all), None);
    add("another peer's RecvID", replace(0, 3, 6, &all), None);
    add("IDs exchanged", replace(0, 4, 3, &all), None);
    // Nobody holds it: the replacements are not looked at.
    add("not held", replace(1, 99, 99, &all), Some(all.clone()));
    add(
        "not held, no connection",
        replace(0, 99, 99, &[]),
        Some(vec![]),
    );

    // Only one of the two IDs names the entry, and both change.
    let asks = with_ids(&all, &[OPEN], 3, 2);
    add(
        "asks for it",
        replace(0, 7, 8, &asks),
        Some(with_ids(&asks, &held, 7, 8)),
    );
    let sends = with_ids(&all, &[OPEN], 1, 4);
    add(
        "sends under it",
        replace(0, 7, 8, &sends),
        Some(with_ids(&sends, &held, 7, 8)),
    );

    // Another connection of the same addresses that does not hold it stays.
    let other = with_ids(&all, &[OPENING], 3, 4);
    add(
        "one of two",
        replace(0, 7, 8, &other),
        Some(with_ids(&other, &[OPEN], 7, 8)),
    );

    // One has its replacements and the other not: none changes.
    let narrow = |keys: &mut Vec<Entry>| {
        let port = all[OPEN].local_port;
        keys[1].local = keys[1].local.clone().ports(port, port);
    };
    let mut some = entries();
    narrow(&mut some);
    let call = Call {
        keys: table(&some),
        ..replace(0, 3, 4, &all)
    };
    add("one of two has none", call.clone(), None);
    let states = with_ids(&all, &[OPENING], 7, 8);
    let only = Call {
        connections: places(&states),
        ..call
    };
    add(
        "the one has it",
        only,
        Some(with_ids(&states, &[OPEN], 3, 4)),
    );
    let mut doubled = all.clone();
    doubled[DOUBLED].outgoing_send_id = 3;
    add(
        "the doubled one stays",
        replace(0, 7, 8, &doubled),
        Some(with_ids(&doubled, &held, 7, 8)),
    );
}

/// 18, 10 to 17, 35, and then 43 or 35.
fn refused(list: &mut Vec<Case>) {
    let all = Scene::new().states;
    for function in Function::ALL {
        let call = |index: u32, keys: Vec<u8>, connections: Vec<u8>| Call {
            function,
            keys,
            connections,
            ..replace(index, 99, 99, &all)
        };
        let good = table(&entries());
        let held = if function == Function::Remove { 43 } else { 35 };
        list.push(case("held", call(0, good.clone(), places(&all)), held));
        for index in [6, 7, 255, 256, 1_024, u32::MAX] {
            list.push(case("no such", call(index, good.clone(), places(&all)), 35));
        }
        list.push(case("of none", call(0, vec![], places(&all)), 35));
        for (_, keys, (number, index)) in bad_tables() {
            let answer = word(number, index);
            list.push(case(
                "a bad table",
                call(0, keys.clone(), places(&all)),
                answer,
            ));
            list.push(case(
                "before 35",
                call(9_999, keys.clone(), places(&all)),
                answer,
            ));
            let mut odd = places(&all);
            odd.pop();
            list.push(case("18 before it", call(0, keys, odd), 18));
        }
        for length in [1, 176, 178, 256 * 177 + 1, 257 * 177] {
            let call = call(9_999, good.clone(), vec![4; length]);
            list.push(case("a length", call, 18));
        }
        let most = call(5, good.clone(), vec![0; 256 * 177]);
        list.push(case("256 places", most, without(5)));
    }
}

/// Far behind: held in the last of 256 places only.
fn far_behind(list: &mut Vec<Case>) {
    let mut states = vec![State::default(); 256];
    states[255] = Scene::new().a.state();
    list.push(case("the last place", remove(0, &states), 43));
    let after = Some(with_ids(&states, &[255], 3, 4));
    list.push(Case {
        after,
        ..case("the last place", replace(0, 3, 4, &states), without(0))
    });
}

/// Each directed call gives its number and value. A refusal changes nothing; otherwise the table is what stands around the
/// entry, then zeros, and the connections change as they must.
#[test]
fn each_case_gives_its_number() {
    for case in cases() {
        let Call {
            keys,
            connections,
            index,
            ..
        } = &case.call;
        let outcome = REFERENCE.make(&case.call);
        let what = format!("{}: {}", case.call.function.name(), case.name);
        assert_eq!(outcome.word, case.answer, "{what}");
        if outcome.number() != 0 {
            assert_eq!(
                (&outcome.keys, &outcome.connections),
                (keys, connections),
                "{what}"
            );
            continue;
        }
        let mut rest = entries();
        rest.remove(*index as usize);
        // One case has an entry narrowed.
        let mut expected = table(&rest);
        if keys[..] != table(&entries()) {
            expected = keys[104..].to_vec();
        }
        assert_eq!(outcome.value() as usize, expected.len(), "{what}");
        expected.resize(keys.len(), 0);
        assert_eq!(outcome.keys, expected, "{what}");
        let after = case.after.unwrap_or_else(|| states(connections));
        assert_eq!(states(&outcome.connections), after, "{what}");
    }
}

/// One entry after another, from the front and from the back, until none is left.
#[test]
fn down_to_none() {
    for last in [false, true] {
        let mut rest = entries();
        let mut keys = table(&rest);
        while !rest.is_empty() {
            let index = if last { rest.len() - 1 } else { 0 };
            rest.remove(index);
            let outcome = REFERENCE.make(&Call {
                keys: keys.clone(),
                ..remove(index as u32, &[])
            });
            assert_eq!(outcome.word, word(0, table(&rest).len() as u32));
            keys = outcome.keys[..outcome.value() as usize].to_vec();
            assert_eq!(keys, table(&rest));
        }
    }
}

/// The key that was taken away is gone: what is signed under it gets 26, and a connection that changed signs and judges
/// under its replacement.
#[test]
fn a_session_goes_on() {
    let scene = Scene::new();
    let (mut a, mut b) = (scene.a.clone(), scene.b.clone());
    let old = b.sign(common::B_ISN + 1, kit::segment::ACK, b"under the first");
    assert_eq!(b.ask(3), 0);
    let outcome = REFERENCE.make(&Call {
        keys: a.table.clone(),
        connections: a.state.clone(),
        ..replace(0, 3, 4, &[])
    });
    assert_eq!(outcome.number(), 0);
    a.table = outcome.keys[..outcome.value() as usize].to_vec();
    a.state = outcome.connections;
    assert_eq!(a.judge(&old), 26);
    let segment = a.sign(common::A_ISN + 1, kit::segment::ACK, b"under the second");
    assert_eq!(segment[20..24], [29, 16, 3, 4]);
    assert_eq!(b.judge(&segment), 0);
    let answer = b.sign(common::B_ISN + 1, kit::segment::ACK, b"under the second");
    assert_eq!(a.judge(&answer), 0);
}

#[test]
fn each_planted_fault_shows() {
    let cases: Vec<(Case, Outcome)> = cases()
        .into_iter()
        .map(|case| {
            let right = REFERENCE.make(&case.call);
            (case, right)
        })
        .collect();
    for fault in Fault::of_removal() {
        let shows = |(case, right): &&(Case, Outcome)| {
            faulty::with(fault, || FAULTY.make(&case.call)) != *right
        };
        let seen: Vec<_> = cases.iter().filter(shows).collect();
        assert!(!seen.is_empty(), "{fault:?} shows nowhere");
        println!(
            "{fault:?} shows in {} cases, first {}",
            seen.len(),
            seen[0].0.name
        );
    }
    for (case, right) in &cases {
        assert_eq!(FAULTY.make(&case.call), *right, "{}", case.name);
    }
}
