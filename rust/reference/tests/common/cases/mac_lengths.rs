//! Ticket 4: entries of kinds 5 and 7, which choose their MAC's length.

use super::*;
use kit::entry::table;
use kit::segment::ao;
use kit::Side;

const LENGTHS: std::ops::RangeInclusive<u8> = 4..=16;

/// An entry of A's for B whose MAC has so many bytes.
fn entry(bytes: u8) -> Entry {
    Entry::between(&A4, &B4).ids(1, 2).mac_length(bytes)
}

/// The same in IPv6.
fn entry6(bytes: u8) -> Entry {
    Entry::between(&A6, &B6).ids(1, 2).mac_length(bytes)
}

/// Bad tables with kinds 5 and 7, each with its number and index.
pub fn bad_tables() -> Vec<(String, Vec<u8>, Answer)> {
    let mut list = vec![];
    let first = Entry::between(&A4, &B4).ids(1, 2);
    let mut add = |name: &str, bytes: Vec<u8>, number: u8| {
        let table = [first.bytes(), bytes].concat();
        list.push((name.to_string(), table, (number, 1)));
    };
    let other = || entry(8).ids(3, 4);
    add("kind 5 alone", vec![5], 10);
    add(
        "kind 5, one byte missing",
        other().bytes()[..104].to_vec(),
        10,
    );
    add(
        "kind 7, one byte missing",
        entry6(8).bytes()[..128].to_vec(),
        10,
    );
    let under_seven = [vec![7], other().bytes()[1..].to_vec()].concat();
    add("IPv4 bytes under kind 7", under_seven, 10);
    for bytes in [0, 1, 2, 3, 17, 18, 20, 255] {
        add("MAC length", other().mac_length(bytes).bytes(), 13);
        add("MAC length, IPv6", entry6(bytes).bytes(), 13);
    }
    // Bad in everything from 13's last byte on, in this order.
    let mut worst = other().mac_length(17);
    (worst.local.low, worst.local.high) = (2, 1);
    worst.local.prefix = 33;
    let bad_key = |entry: &Entry| {
        let mut bytes = entry.bytes();
        *bytes.last_mut().unwrap() = 1;
        bytes
    };
    add("MAC length, ports, prefix, key", bad_key(&worst), 13);
    worst.mac_length = Some(16);
    add("kind 5: ports, prefix, key", bad_key(&worst), 14);
    (worst.local.low, worst.local.high) = (1, 1);
    add("kind 5: prefix 33, key", bad_key(&worst), 15);
    worst.local.prefix = 32;
    add("kind 5: padding not zero", bad_key(&worst), 16);
    let with_key_length = |length: u8| {
        let mut bytes = other().bytes();
        bytes[24] = length;
        bytes
    };
    add("kind 5: key length 0", with_key_length(0), 16);
    add("kind 5: key length 81", with_key_length(81), 16);
    // The clash goes by pairs, whatever the kinds.
    add("kind 5 clashes with kind 4", entry(12).bytes(), 17);
    add("kind 5 shares a RecvID", entry(4).ids(9, 2).bytes(), 17);
    let wide = Entry {
        local: Side::any(4),
        remote: Side::any(4),
        ..entry(16).ids(1, 9)
    };
    add("a wide kind 5", wide.bytes(), 17);
    let sevens = [entry6(5).bytes(), entry6(6).bytes()].concat();
    let name = "kind 7 clashes with kind 7".to_string();
    list.push((name, sevens, (17, 1)));
    let six = Entry::between(&A6, &B6).ids(9, 2);
    let both = [entry6(5).bytes(), six.bytes()].concat();
    list.push(("kind 6 clashes with kind 7".to_string(), both, (17, 1)));
    list
}

/// Tables of all kinds.
pub fn taken(scene: &Scene, list: &mut List) {
    let mut check = |name: &str, table: &[u8], answer: Answer| {
        list.add(name, table, &scene.empty, check_table(), answer);
    };
    for bytes in LENGTHS {
        check("kind 5", &entry(bytes).bytes(), (0, 1));
        check("kind 7", &entry6(bytes).bytes(), (0, 1));
    }
    let all = [
        Entry::between(&A4, &B4).ids(3, 4),
        entry(5),
        Entry::between(&A6, &B6).ids(3, 4),
        entry6(16),
        entry6(4).ids(5, 6),
        entry(16).ids(5, 6),
    ];
    check("all kinds", &table(&all), (0, 6));
    let mut wide6 = entry6(7);
    wide6.remote.prefix = 128;
    check("kind 7, prefix 128", &wide6.bytes(), (0, 1));
}

/// An entry of kind 5 is for IPv4 pairs, one of kind 7 for IPv6 pairs; a state's family stays 4 or 6.
pub fn families(scene: &Scene, list: &mut List) {
    let Scene { a, empty, .. } = scene;
    let table = table(&[entry(5), entry6(6)]);
    list.add("opens by kind 5", &table, empty, active(1), (0, 0));
    let six = with_addresses(active(1), &A6, &B6);
    list.add("opens by kind 7", &table, empty, six, (0, 0));
    let other = with_addresses(active(1), &A6, &B6);
    list.add(
        "kind 5 is not for IPv6",
        &entry(5).bytes(),
        empty,
        other,
        (35, 0),
    );
    list.add(
        "kind 7 is not for IPv4",
        &entry6(5).bytes(),
        empty,
        active(1),
        (35, 0),
    );
    list.add("asks by kind 5", &table, &a.state, ask(2), (0, 0));

    let plain = scene.plain_syn.bytes();
    let theirs = entry(5).mirror().bytes();
    list.add(
        "kind 5 matches a SYN",
        &theirs,
        empty,
        judge_syn(&plain, 0),
        (25, 0),
    );
    for family in [5, 7] {
        let state = State {
            family,
            ..a.state()
        };
        list.add("a family by kind", &table, &state.bytes(), ask(2), (18, 0));
    }
}

/// 27 compares with the entry's length; a MAC of that length is accepted, and 29 where it differs.
pub fn arriving(scene: &Scene, list: &mut List) {
    let Scene { a, b, .. } = scene;
    for bytes in LENGTHS {
        for (flags, algorithm) in [(0, 1), (1, 1), (0, 2), (1, 2)] {
            let key = Entry {
                flags,
                algorithm,
                ..entry(bytes)
            };
            let table = key.bytes();
            let mut add = |name: &str, segment: &[u8], number: u8| {
                let name = format!("{name}, {bytes} bytes, flags {flags}, algorithm {algorithm}");
                list.add(&name, &table, &a.state, judge(segment), (number, 0));
            };
            // The option may stand anywhere, padded or not.
            let options = [vec![1, 1, 2, 4, 5, 6], ao(4 + bytes, 2, 1), vec![3, 3, 7]].concat();
            let segment = b.segment(B_ISN + 1, ACK, b"some data").options(&options);
            let sealed = seal(&key, &B_TO_A, 0, segment.bytes());
            add("accepted", &sealed, 0);
            let mut forged = sealed.clone();
            forged[20 + 6 + 4 + usize::from(bytes) - 1] ^= 1;
            add("the last byte differs", &forged, 29);
            for length in [4, 3 + bytes, 5 + bytes, 16, 20]
                .into_iter()
                .filter(|l| *l != 4 + bytes)
            {
                let segment = b.segment(B_ISN + 1, ACK, b"").ao(length, 2, 1);
                add("another length", &segment.bytes(), 27);
            }
            let in_front =
                b.segment(B_ISN + 1, ACK, b"")
                    .options(&[2, 4, 5, 6])
                    .ao(4 + bytes, 2, 1);
            add("in front", &seal(&key, &B_TO_A, 0, in_front.bytes()), 0);
        }
        // A bare SYN, and the SYN+ACK that opens.
        let syn = scene.plain_syn.clone().ao(4 + bytes, 1, 2);
        let sealed = seal(&entry(bytes), &SYN_TO_B, 0, syn.bytes());
        let theirs = entry(bytes).mirror().bytes();
        list.add(
            "a SYN",
            &theirs,
            &scene.empty,
            judge_syn(&sealed, 1),
            (0, 0),
        );
        list.add("a SYN", &theirs, &scene.empty, passive(&sealed, 1), (0, 0));
        let short = scene.plain_syn.clone().ao(3 + bytes, 1, 2).bytes();
        list.add(
            "a short SYN",
            &theirs,
            &scene.empty,
            judge_syn(&short, 1),
            (27, 0),
        );
        let syn_ack = scene
            .new_b
            .segment(B_ISN, SYN | ACK, b"")
            .ao(4 + bytes, 2, 1);
        let sealed = seal(&entry(bytes), &B_TO_A, 0, syn_ack.bytes());
        let ours = entry(bytes).bytes();
        list.add("opens", &ours, &scene.opening.state, judge(&sealed), (0, 0));
    }
}

/// What signing adds: TCP-AO and what pads it.
pub fn signing(scene: &Scene, list: &mut List) {
    let Scene { a, .. } = scene;
    for bytes in LENGTHS {
        let added = entry(bytes).added();
        for (flags, algorithm) in [(0, 1), (1, 1), (0, 2), (1, 2)] {
            let key = Entry {
                flags,
                algorithm,
                ..entry(bytes)
            };
            for options in [&[][..], &[2, 4, 5, 6], &[2, 4, 5, 6, 0, 29, 1, 0]] {
                let segment = a.segment(A_ISN + 1, ACK, b"data").options(options).bytes();
                let signed = segment.len() + added;
                let name = format!("signs, {bytes} bytes, flags {flags}, algorithm {algorithm}");
                let mut add = |room: usize, answer: Answer| {
                    list.add(
                        &name,
                        &key.bytes(),
                        &a.state,
                        sign_into(&segment, room),
                        answer,
                    );
                };
                add(signed, (0, signed as u32));
                add(signed + 9, (0, signed as u32));
                // No room, by one byte, and where only the padding has none.
                add(signed - 1, (37, 0));
                add(segment.len() + 4 + usize::from(bytes) - 1, (37, 0));
                if added > 4 + usize::from(bytes) {
                    add(segment.len() + 4 + usize::from(bytes), (37, 0));
                }
            }
        }
    }
}

/// 32, where the data offset would pass 15, or the result 65,535 bytes.
pub fn largest(scene: &Scene, list: &mut List) {
    let Scene { a, .. } = scene;
    for bytes in LENGTHS {
        let key = entry(bytes);
        let added = key.added();
        let mut add = |name: &str, segment: &[u8], answer: Answer| {
            let name = format!("{name}, {bytes} bytes");
            let call = sign_into(segment, segment.len() + 40);
            list.add(&name, &key.bytes(), &a.state, call, answer);
        };
        let with_options =
            |count: usize| a.segment(A_ISN, ACK, b"").options(&vec![1; count]).bytes();
        add("offset 15", &with_options(40 - added), (0, 60));
        add("offset 16", &with_options(44 - added), (32, 0));
        let long = |count: usize| a.segment(A_ISN, ACK, &vec![7; count - 20]).bytes();
        add("the longest", &long(65_535 - added), (0, 65_535));
        for more in 1..=4 {
            add("too long", &long(65_535 - added + more), (32, 0));
        }
    }
}
