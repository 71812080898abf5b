//! Ticket 10: sides that are translated on the way (RFC 6978), flags 2 and 4.

use super::*;
use kit::entry::table;
use kit::{translated, Side};

/// Bad tables, each with its number and index.
pub fn bad_tables() -> Vec<(String, Vec<u8>, Answer)> {
    let first = Entry::between(&A4, &B4).ids(1, 2);
    let mut list = vec![];
    let mut add = |name: &str, entry: Entry, number: u8| {
        let table = [first.bytes(), entry.bytes()].concat();
        list.push((name.to_string(), table, (number, 1)));
    };
    for flags in [8, 9, 10, 15, 16, 32, 64, 128, 255] {
        for entry in [
            first.clone().ids(3, 4),
            first.clone().ids(3, 4).mac_length(9),
        ] {
            add("flags", Entry { flags, ..entry }, 13);
        }
    }
    // Bad in the next points as well.
    let mut worst = first.clone().nat(true, true);
    (worst.local.low, worst.local.high) = (2, 1);
    worst.local.prefix = 33;
    add("flags 7: ports, prefix", worst.clone(), 14);
    worst.flags |= 8;
    add("flags 15, ports, prefix", worst, 13);
    // The clash goes by what is seen, whatever is hidden.
    for (local, remote) in [(false, false), (true, false), (false, true), (true, true)] {
        add("a clash", first.clone().nat(local, remote), 17);
        let wide = Entry {
            local: Side::any(4),
            ..first.clone().nat(local, remote)
        };
        add("a wide clash", wide, 17);
    }
    list
}

/// All flags up to 7; entries that hide a side and are for others on it do not clash.
pub fn taken(scene: &Scene, list: &mut List) {
    let mut check = |name: &str, entries: &[Entry]| {
        let answer = (0, entries.len() as u32);
        list.add(name, &table(entries), &scene.empty, check_table(), answer);
    };
    let entry = |flags: u8| Entry {
        flags,
        ..Entry::between(&A4, &B4).ids(flags, flags)
    };
    let all: Vec<Entry> = (0..8).map(entry).collect();
    check("flags 0 to 7", &all);
    for entry in all {
        check("one", &[entry]);
    }
    let hidden = |local: &[u8], remote: &[u8]| Entry::between(local, remote).nat(true, true);
    check(
        "hidden, other peers",
        &[hidden(&A4, &B4), hidden(&A4, &[10, 0, 0, 3])],
    );
    check(
        "hidden, other hosts",
        &[hidden(&A4, &B4), hidden(&[10, 0, 0, 3], &B4)],
    );
    let ports = |low: u16, high: u16| Entry {
        remote: Side::host(&B4).ports(low, high),
        ..hidden(&A4, &B4)
    };
    check("hidden, other ports", &[ports(0, 178), ports(179, 65_535)]);
}

/// A's entries in both families, with all flags, the algorithms in turn.
fn entries() -> Vec<Entry> {
    let mut entries = vec![];
    for (a, b) in [(&A4[..], &B4[..]), (&A6, &B6)] {
        for flags in 0..8 {
            for algorithm in 1..=3 {
                entries.push(Entry {
                    flags,
                    algorithm,
                    mac_length: (algorithm == 3).then_some(9),
                    ..Entry::between(a, b).ids(1, 2)
                });
            }
        }
    }
    entries
}

/// A call at an end, of a segment that the other one sent: as it comes there.
fn arrives(end: &End, from: &End, segment: &[u8], call: Call) -> Call {
    Call {
        source: end.pair.remote.clone(),
        destination: end.pair.local.clone(),
        segment: translated(segment, &from.pair, &end.pair),
        ..call
    }
}

/// Adds the whole opening and a segment each way; `number` is what judging gives each time. Gives the ends,
/// opened by these or, where they are refused, set so.
fn conversation(list: &mut List, name: &str, mut a: End, mut b: End, number: u8) -> (End, End) {
    let answer = (number, 0);
    let active = Call {
        source: a.pair.local.clone(),
        destination: a.pair.remote.clone(),
        local_port: a.pair.local_port,
        remote_port: a.pair.remote_port,
        ..active(1)
    };
    list.add(name, &a.table, &a.state, active, (0, 0));
    assert_eq!(a.open_active(A_ISN, 1), 0);

    let plain = a.segment(A_ISN, SYN, b"").options(&[2, 4, 5, 6]).bytes();
    let syn = a.try_sign(&plain).unwrap();
    let call = sign_into(&plain, plain.len() + 40);
    list.add(name, &a.table, &a.state, call, (0, syn.len() as u32));
    let call = arrives(&b, &a, &syn, judge_syn(&[], 1));
    let as_seen = call.segment.clone();
    list.add(name, &b.table, &b.state, call, answer);
    let call = arrives(&b, &a, &syn, passive(&[], 1));
    list.add(name, &b.table, &b.state, call, answer);
    if number == 0 {
        assert_eq!(b.open_passive(&as_seen, B_ISN, 1), 0, "{name}");
    } else {
        b.set(State {
            stage: 1,
            outgoing_send_id: 2,
            asked_recv_id: 1,
            our_isn: B_ISN,
            peer_isn: A_ISN,
            signing_reference: B_ISN.into(),
            arriving_reference: A_ISN.into(),
            ..State::of_pair(&b.pair)
        });
    }

    let syn_ack = b.sign(B_ISN, SYN | ACK, b"");
    let call = arrives(&a, &b, &syn_ack, judge(&[]));
    let as_seen = call.segment.clone();
    list.add(name, &a.table, &a.state, call, answer);
    if number == 0 {
        assert_eq!(a.judge(&as_seen), 0, "{name}");
    } else {
        a.set(State {
            stage: 1,
            peer_isn: B_ISN,
            arriving_reference: B_ISN.into(),
            ..a.state()
        });
    }

    let plain = a.segment(A_ISN + 1, ACK, b"odd").options(&[8, 2]).bytes();
    let there = a.try_sign(&plain).unwrap();
    let call = sign_into(&plain, plain.len() + 40);
    list.add(name, &a.table, &a.state, call, (0, there.len() as u32));
    let call = arrives(&b, &a, &there, judge(&[]));
    list.add(name, &b.table, &b.state, call, answer);
    let back = b.sign(B_ISN + 1, ACK, b"and back");
    let call = arrives(&a, &b, &back, judge(&[]));
    list.add(name, &a.table, &a.state, call, answer);
    (a, b)
}

/// Where only hidden sides are rewritten, all is accepted.
pub fn hidden(list: &mut List) {
    for entry in entries() {
        let of = |hidden: bool| match hidden {
            true => Rewritten::BOTH,
            false => Rewritten::NOTHING,
        };
        let (of_a, of_b) = (of(entry.local_nat()), of(entry.remote_nat()));
        let (a, b) = translated_ends(&entry, of_a, of_b);
        let name = format!("flags {}, algorithm {}", entry.flags, entry.algorithm);
        conversation(list, &name, a, b, 0);
    }
}

/// Where a side is rewritten that is not hidden, the MAC differs.
pub fn not_hidden(list: &mut List) {
    for entry in entries() {
        // The other combinations are in tests/translation.rs.
        if entry.algorithm != 1 {
            continue;
        }
        for some in Rewritten::SOMETHING {
            let name = format!("flags {}, {some:?} although not hidden", entry.flags);
            if !entry.local_nat() {
                let (a, b) = translated_ends(&entry, some, Rewritten::NOTHING);
                conversation(list, &name, a, b, 29);
            }
            if !entry.remote_nat() {
                let (a, b) = translated_ends(&entry, Rewritten::NOTHING, some);
                conversation(list, &name, a, b, 29);
            }
        }
    }
}

/// Matching, 23 and 33 go by what is seen, also of a hidden side.
pub fn as_seen(list: &mut List) {
    for entry in entries() {
        if entry.algorithm != 2 || !(entry.local_nat() && entry.remote_nat()) {
            continue;
        }
        let mut nowhere = List(vec![]);
        let (a, b) = translated_ends(&entry, Rewritten::BOTH, Rewritten::BOTH);
        let (a, mut b) = conversation(&mut nowhere, "", a, b, 0);
        let back = b.sign(B_ISN + 1, ACK, b"");
        let as_it_comes = arrives(&a, &b, &back, judge(&[]));
        let mut add = |name: &str, pair: &dyn Fn(&mut kit::Pair), number: u8| {
            // Translated once more, to what A does not hold.
            let mut elsewhere = a.clone();
            pair(&mut elsewhere.pair);
            let call = arrives(&elsewhere, &a_peer(&a), &as_it_comes.segment, judge(&[]));
            list.add(name, &a.table, &a.state, call, (number, 0));
        };
        add("as held", &|_| {}, 0);
        add("another peer's address", &|pair| pair.remote[2] ^= 1, 23);
        add("another peer's port", &|pair| pair.remote_port ^= 1, 23);
        add("another address of ours", &|pair| pair.local[2] ^= 1, 23);
        add("another port of ours", &|pair| pair.local_port ^= 1, 23);
        let zero = |address: &mut Vec<u8>| address.fill(0);
        add("the peer at zero", &|pair| zero(&mut pair.remote), 23);
        add("we at zero", &|pair| zero(&mut pair.local), 23);

        for at in [0, 1, 2, 3] {
            let mut plain = a.segment(A_ISN + 1, ACK, b"").bytes();
            plain[at] ^= 1;
            list.add("another port", &a.table, &a.state, sign(&plain), (33, 0));
        }
        let mut zero_ports = a.segment(A_ISN + 1, ACK, b"").bytes();
        zero_ports[0..4].fill(0);
        list.add("ports zero", &a.table, &a.state, sign(&zero_ports), (33, 0));

        // A's entry is for one pair: beside it, and at zero, nothing matches.
        let opened = |pair: &kit::Pair| Call {
            source: pair.local.clone(),
            destination: pair.remote.clone(),
            local_port: pair.local_port,
            remote_port: pair.remote_port,
            ..active(1)
        };
        for part in 0..4 {
            for to_zero in [false, true] {
                let mut pair = a.pair.clone();
                match part {
                    0 => pair.local[0] = if to_zero { 0 } else { pair.local[0] ^ 1 },
                    1 => pair.remote[0] = if to_zero { 0 } else { pair.remote[0] ^ 1 },
                    2 => pair.local_port = if to_zero { 0 } else { pair.local_port + 1 },
                    _ => pair.remote_port = if to_zero { 0 } else { pair.remote_port + 1 },
                }
                let call = opened(&pair);
                list.add("not matched", &a.table, &a.state, call, (35, 0));
                let syn = Segment {
                    source_port: pair.remote_port,
                    destination_port: pair.local_port,
                    flags: SYN,
                    ..Segment::default()
                };
                let call = with_addresses(judge_syn(&syn.bytes(), 1), &pair.remote, &pair.local);
                list.add("passes", &a.table, &a.state, call, (1, 0));
            }
        }
        let syn = Segment {
            source_port: a.pair.remote_port,
            destination_port: a.pair.local_port,
            flags: SYN,
            ..Segment::default()
        };
        let call = judge_syn(&syn.bytes(), 1);
        let call = with_addresses(call, &a.pair.remote, &a.pair.local);
        list.add("matched", &a.table, &a.state, call, (25, 0));
    }
}

/// The peer as A sees it.
fn a_peer(a: &End) -> End {
    End::new(REFERENCE, a.pair.mirror(), vec![])
}
