//! Ticket 9: the MD5 table, both tables, and connections opened by MD5.

use super::*;
use kit::entry::table;
use kit::segment::{ao, md5, FIN, RST};
use kit::{md5_word, word, Side};
use std::slice::from_ref;

/// What the cases are made of: A and B by MD5.
struct Md5Scene {
    /// As A holds it.
    entry: Entry,
    /// A and B, open, and A when it was opening.
    a: End,
    b: End,
    opening: End,
    /// A's signed SYN, and a segment that B has signed.
    syn: Vec<u8>,
    from_b: Vec<u8>,
}

impl Md5Scene {
    fn new() -> Md5Scene {
        let (a, b) = md5_opened(&A4, &B4);
        let (mut opening, _) = md5_ends(&A4, &B4);
        assert_eq!(opening.open_active_md5(A_ISN), 0);
        Md5Scene {
            entry: Entry::md5(&A4, &B4),
            syn: opening.clone().sign(A_ISN, SYN, b""),
            from_b: b.clone().sign(B_ISN + 1, ACK, b"from B"),
            a,
            b,
            opening,
        }
    }

    /// A segment of B's with its digest.
    fn sealed(&self, segment: Segment) -> Vec<u8> {
        seal_md5(&self.entry, &B4, &A4, segment.bytes())
    }
}

/// Every call, with these tables and an answer.
fn by_all(scene: &Scene, list: &mut List, name: &str, tables: (&[u8], &[u8]), answer: u64) {
    let s = Md5Scene::new();
    let mut add = |state: &[u8], call: Call| list.add_with(name, tables, state, call, answer);
    add(&scene.empty, check_table());
    add(&scene.empty, prepared::prepare(0));
    add(&scene.a.state, active(1));
    add(&scene.a.state, active_md5());
    add(&scene.empty, judge_syn(&s.syn, 0));
    add(&scene.b.state, passive(&scene.syn, 1));
    add(&scene.a.state, judge(&scene.from_b));
    add(&s.a.state, judge(&s.from_b));
    add(&s.opening.state, judge(&[]));
    add(&scene.a.state, sign(&scene.data));
    add(&s.a.state, sign(&[]));
    add(&scene.a.state, ask(2));
    add(&s.a.state, ask(2));
}

/// 10 to 17 of the MD5 table.
pub fn bad_tables(scene: &Scene, list: &mut List) {
    let good = Entry::md5(&A4, &B4);
    let good6 = Entry::md5(&A6, &B6);
    let other = |last: u8| Entry::md5(&A4, &[10, 0, 1, last]);
    let mut add = |name: &str, md5: &[u8], number: u8, index: u32| {
        let answer = md5_word(number, index);
        by_all(scene, list, name, (&[], md5), answer);
        // The key table's own refusal comes first, whatever it is.
        let bad_keys = scene.keys[0].clone().ids(1, 2).bytes();
        let clash = [bad_keys.clone(), bad_keys].concat();
        by_all(scene, list, name, (&clash, md5), word(17, 1));
        by_all(scene, list, name, (&[8], md5), word(11, 0));
    };
    let after_one = |bytes: Vec<u8>| [good.bytes(), bytes].concat();
    for kind in [0, 3, 5, 7, 8, 19, 255] {
        let of_kind = [vec![kind], other(1).bytes()[1..].to_vec()].concat();
        add("kind", &after_one(of_kind), 11, 1);
        add("kind alone", &[kind], 11, 0);
    }
    for mac_length in [4, 12, 19] {
        let five = other(1).mac_length(mac_length).bytes();
        add("kind 5, whole", &after_one(five), 11, 1);
    }
    add("cut", &good.bytes()[..103], 10, 0);
    add(
        "cut, IPv6",
        &after_one(good6.bytes()[..127].to_vec()),
        10,
        1,
    );

    let with_byte = |at: usize, byte: u8| {
        let mut bytes = other(1).bytes();
        bytes[at] = byte;
        after_one(bytes)
    };
    for flags in [1, 2, 4, 8, 255] {
        add("flags", &with_byte(1, flags), 13, 1);
    }
    for algorithm in [0, 1, 2, 3, 18, 20, 255] {
        add("algorithm", &with_byte(2, algorithm), 13, 1);
    }
    add("SendID", &with_byte(3, 1), 13, 1);
    add("RecvID", &with_byte(4, 255), 13, 1);
    add("a key table", &scene.keys[2].bytes(), 13, 0);
    let mut worst = other(1);
    worst.send_id = 1;
    (worst.local.low, worst.local.high) = (2, 1);
    worst.local.prefix = 33;
    let with_bad_key = |entry: &Entry| {
        let mut bytes = entry.bytes();
        *bytes.last_mut().unwrap() = 1;
        after_one(bytes)
    };
    add("ID, ports, prefix, key", &with_bad_key(&worst), 13, 1);
    worst.send_id = 0;
    add("ports, prefix, key", &with_bad_key(&worst), 14, 1);
    (worst.local.low, worst.local.high) = (0, 0);
    (worst.remote.low, worst.remote.high) = (179, 178);
    add("remote ports, prefix, key", &with_bad_key(&worst), 14, 1);
    (worst.remote.low, worst.remote.high) = (0, 65_535);
    add("prefix, key", &with_bad_key(&worst), 15, 1);
    worst.local.prefix = 31;
    add("bits behind the prefix, key", &with_bad_key(&worst), 15, 1);
    worst.local.prefix = 32;
    (worst.local.low, worst.local.high) = (0, 65_535);
    worst.remote = good.remote.clone();
    add("key, and a clash", &with_bad_key(&worst), 16, 1);
    add("a clash", &after_one(worst.bytes()), 17, 1);
    add("key length 0", &with_byte(23, 0), 16, 1);
    add("key length 81", &with_byte(23, 81), 16, 1);

    let wide = Entry {
        remote: Side::any(4),
        ..good.clone()
    };
    add("a wide clash", &after_one(wide.bytes()), 17, 1);
    let ports = |low: u16, high: u16| Entry {
        remote: Side::host(&B4).ports(low, high),
        ..good.clone()
    };
    let touching = [ports(0, 179), ports(179, 200)];
    add("touching ports", &table(&touching), 17, 1);
    let third = [
        other(1),
        other(2),
        Entry {
            key: vec![1],
            ..other(1)
        },
    ];
    add("the third", &table(&third), 17, 2);

    let mut taken = |name: &str, entries: &[Entry]| {
        let (keys, md5) = (scene.keys[2].bytes(), table(entries));
        list.add_with(name, (&keys, &md5), &scene.empty, check_table(), word(0, 1));
    };
    taken("one", from_ref(&good));
    taken("both families", &[good.clone(), good6]);
    taken("beside each other", &[ports(0, 178), ports(179, 200)]);
    taken("other peers", &[other(1), other(2), other(3)]);
    let many: Vec<Entry> = (0..200).map(other).collect();
    taken("200", &many);
}

/// 1,024 entries, for as many of B's ports.
pub fn full() -> Vec<Entry> {
    let at = |port: u16| Entry {
        remote: Side::host(&B4).ports(port, port),
        ..Entry::md5(&A4, &B4)
    };
    (0..1_024).map(at).collect()
}

/// A 1,025th entry, after 1,024.
pub fn too_many(list: &mut List) {
    let (full, empty) = (table(&full()), State::default().bytes());
    let more = [&full[..], &[9]].concat();
    let mut check = |name: &str, md5: &[u8], answer: u64| {
        list.add_with(name, (&[], md5), &empty, check_table(), answer);
    };
    check("1,024", &full, word(0, 0));
    check("a 1,025th entry", &more, md5_word(12, 1_024));
}

/// 45, and tables that are apart.
pub fn both_tables(scene: &Scene, list: &mut List) {
    let key = Entry::between(&A4, &B4).ids(1, 2);
    let far = |last: u8| Entry::md5(&A4, &[10, 0, 1, last]);
    let near = Entry::md5(&A4, &B4);
    let mut refused = |name: &str, keys: &[Entry], md5: &[Entry], index: u32| {
        let tables = (&table(keys)[..], &table(md5)[..]);
        by_all(scene, list, name, tables, md5_word(45, index));
    };
    refused("the same", from_ref(&key), from_ref(&near), 0);
    let many = [far(1), near.clone(), far(2)];
    refused("the second", from_ref(&key), &many, 1);
    let others = [scene.keys[2].clone(), key.clone(), key.clone().ids(3, 4)];
    refused("with a later key", &others, &many, 1);
    let two_peers = [key.clone(), Entry::between(&A4, &[10, 0, 1, 2]).ids(1, 2)];
    refused("the first of two", &two_peers, &many, 1);
    let any = Entry {
        local: Side::any(4),
        remote: Side::any(4),
        ..key.clone()
    };
    refused("a wide key", from_ref(&any), &many, 0);
    refused(
        "a wide MD5",
        from_ref(&key),
        &[Entry {
            local: Side::any(4),
            remote: Side::any(4),
            ..near.clone()
        }],
        0,
    );
    refused("kind 5", &[key.clone().mac_length(4)], &many, 1);
    refused("sides hidden", &[key.clone().nat(true, true)], &many, 1);
    let six = Entry::between(&A6, &B6).ids(1, 2);
    refused(
        "IPv6",
        &[key.clone().ids(9, 9), six.clone()],
        &[far(1), Entry::md5(&A6, &B6)],
        1,
    );
    refused(
        "kind 7",
        &[six.clone().mac_length(16)],
        &[far(1), Entry::md5(&A6, &B6)],
        1,
    );
    let ports = |low: u16, high: u16| Side::host(&B4).ports(low, high);
    let at_port = Entry {
        remote: ports(100, 179),
        ..key.clone()
    };
    let from_port = Entry {
        remote: ports(179, 200),
        ..near.clone()
    };
    refused("one port", from_ref(&at_port), &[from_port], 0);

    // The MD5 table's own refusals come first, also of later entries.
    let md5 = [near.bytes(), vec![8]].concat();
    by_all(
        scene,
        list,
        "a bad MD5 entry behind",
        (&key.bytes(), &md5),
        md5_word(11, 1),
    );
    let clash = [near.bytes(), near.bytes()].concat();
    by_all(
        scene,
        list,
        "a clash behind",
        (&key.bytes(), &clash),
        md5_word(17, 1),
    );

    let mut taken = |name: &str, keys: &[Entry], md5: &[Entry]| {
        let tables = (&table(keys)[..], &table(md5)[..]);
        let answer = word(0, keys.len() as u32);
        list.add_with(name, tables, &scene.empty, check_table(), answer);
    };
    taken("no key table", &[], &many);
    taken("other peers", from_ref(&key), &[far(1), far(2)]);
    let beyond = Entry {
        remote: ports(180, 200),
        ..near.clone()
    };
    taken("other ports", &[at_port], &[beyond]);
    // Of two families nothing is shared, whatever the prefixes.
    let any6 = Entry {
        local: Side::any(16),
        remote: Side::any(16),
        ..near.clone()
    };
    taken("of two families", &[any], &[any6]);
    taken("of two families", &[six], &[near]);
}

/// Openings by MD5.
pub fn openings(scene: &Scene, list: &mut List) {
    let s = Md5Scene::new();
    let tables = (&s.a.table[..], &s.a.md5[..]);
    let old = [0x5a; State::BYTES];
    for state in [&scene.empty[..], &old, &scene.a.state] {
        list.add_with("opens", tables, state, active_md5(), 0);
    }
    let mut refused = |name: &str, keys: &[u8], md5: &[u8], call: Call| {
        list.add_with(name, (keys, md5), &scene.a.state, call, word(35, 0));
    };
    refused("no table", &[], &[], active_md5());
    refused("a key alone", &scene.a.table, &[], active_md5());
    let elsewhere = Entry::md5(&A4, &[10, 0, 0, 9]).bytes();
    refused("another peer's", &s.a.table, &elsewhere, active_md5());
    let other_way = Entry::md5(&B4, &A4).bytes();
    refused("the other way round", &s.a.table, &other_way, active_md5());
    let six = Entry::md5(&A6, &B6).bytes();
    refused("of IPv6", &s.a.table, &six, active_md5());
    // By TCP-AO the MD5 table does not help.
    refused("by TCP-AO", &s.a.table, &s.a.md5, active(0));
    refused("by TCP-AO", &s.a.table, &s.a.md5, active(5));
    let call = with_addresses(active_md5(), &A6, &B6);
    list.add_with("opens, IPv6", (&[], &six), &scene.empty, call, 0);
}

/// A bare SYN without a state, by both calls.
pub fn bare_syn(scene: &Scene, list: &mut List) {
    let s = Md5Scene::new();
    let old = [0x5a; State::BYTES];
    let mut both = |name: &str, tables: (&[u8], &[u8]), segment: &[u8], setting: u8, number: u8| {
        let answer = word(number, 0);
        let (judged, opened) = (judge_syn(segment, setting), passive(segment, setting));
        list.add_with(name, tables, &scene.empty, judged, answer);
        list.add_with(name, tables, &old, opened, answer);
    };
    let by_md5 = (&s.b.table[..], &s.b.md5[..]);
    let plain = &scene.plain_syn;
    let sealed = |segment: Segment| seal_md5(&s.entry, &A4, &B4, segment.bytes());
    let options = |options: &[u8]| plain.clone().options(options);
    // Where the MD5 table matches, the setting decides nothing.
    for setting in [0, 1, 255] {
        both("accepted", by_md5, &s.syn, setting, 0);
        both(
            "Linux",
            by_md5,
            &sealed(options(&[&[1, 1], &md5(18)[..]].concat())),
            setting,
            0,
        );
        both(
            "among others",
            by_md5,
            &sealed(options(&[&[2, 4, 5, 6], &md5(18)[..], &[3, 3, 7]].concat())),
            setting,
            0,
        );
        both(
            "other flags",
            by_md5,
            &sealed(options(&md5(18)).flags(SYN | FIN | RST)),
            setting,
            0,
        );
        both(
            "kind 29",
            by_md5,
            &options(&ao(16, 1, 1)).bytes(),
            setting,
            46,
        );
        both("kind 29, TCP-AO's own SYN", by_md5, &scene.syn, setting, 46);
        both(
            "kind 29, unknown KeyID",
            by_md5,
            &options(&ao(4, 99, 1)).bytes(),
            setting,
            46,
        );
        both("unsigned", by_md5, &plain.bytes(), setting, 47);
        both(
            "unsigned, options",
            by_md5,
            &options(&[2, 4, 5, 6]).bytes(),
            setting,
            47,
        );
        both(
            "MD5 behind kind 0",
            by_md5,
            &options(&[&[0][..], &md5(18)].concat()).bytes(),
            setting,
            47,
        );
        for length in [2, 3, 16, 17, 19, 20, 34] {
            both(
                "length",
                by_md5,
                &options(&md5(length)).bytes(),
                setting,
                27,
            );
        }
        both(
            "a wrong digest",
            by_md5,
            &options(&md5(18)).bytes(),
            setting,
            29,
        );
        both(
            "two MD5",
            by_md5,
            &options(&[&s.syn[20..38], &md5(2)[..]].concat()).bytes(),
            setting,
            22,
        );
        both(
            "MD5 and TCP-AO",
            by_md5,
            &options(&[&md5(18)[..], &ao(4, 1, 1)].concat()).bytes(),
            setting,
            22,
        );
    }
    let mut last = s.syn.clone();
    last[37] ^= 1;
    both("the last byte", by_md5, &last, 0, 29);
    let mut first = s.syn.clone();
    first[22] ^= 0x80;
    both("the first byte", by_md5, &first, 0, 29);
    // A longer MD5 whose first bytes are right.
    let longer = [&[19, 19][..], &s.syn[22..38], &[0]].concat();
    both(
        "longer",
        by_md5,
        &sealed_as(&s, &options(&longer).bytes()),
        0,
        27,
    );
    both(
        "no SYN",
        by_md5,
        &sealed(options(&md5(18)).flags(ACK)),
        0,
        24,
    );
    both(
        "SYN+ACK",
        by_md5,
        &sealed(options(&md5(18)).flags(SYN | ACK)),
        0,
        24,
    );

    // Where it does not, all is as before: MD5 is no TCP-AO.
    let (keys, none) = ((&scene.b.table[..], &[][..]), (&[][..], &[][..]));
    let elsewhere = Entry::md5(&B4, &[10, 0, 0, 9]).bytes();
    let beside = (&scene.b.table[..], &elsewhere[..]);
    for (tables, number) in [(keys, 25), (beside, 25), (none, 1)] {
        for setting in [0, 1] {
            both("as before", tables, &s.syn, setting, number);
            both(
                "as before, short",
                tables,
                &options(&md5(2)).bytes(),
                setting,
                number,
            );
            both(
                "as before, unsigned",
                tables,
                &plain.bytes(),
                setting,
                number,
            );
        }
        both(
            "as before, two MD5",
            tables,
            &options(&[19, 2, 19, 2]).bytes(),
            0,
            22,
        );
    }
    both("by TCP-AO beside MD5", beside, &scene.syn, 0, 0);
    both("unmatched beside MD5", (&[], &elsewhere), &scene.syn, 0, 1);
    both("unmatched beside MD5", (&[], &elsewhere), &scene.syn, 1, 26);
}

/// The segment with MD5's right digest in a longer option.
fn sealed_as(s: &Md5Scene, segment: &[u8]) -> Vec<u8> {
    seal_md5(&s.entry, &A4, &B4, segment.to_vec())
}

/// What stands in the way of a segment, in any state of a connection by MD5.
fn dropped(s: &Md5Scene, list: &mut List, name: &str, state: &[u8], segment: &Segment) {
    let tables = (&s.a.table[..], &s.a.md5[..]);
    let mut add = |what: &str, tables: (&[u8], &[u8]), segment: &[u8], number: u8| {
        let name = format!("{name}: {what}");
        list.add_with(&name, tables, state, judge(segment), word(number, 0));
    };
    let options = |parts: &[&[u8]]| segment.clone().options(&parts.concat());
    let sealed = s.sealed(options(&[&md5(18)]));
    add("accepted", tables, &sealed, 0);
    add("Linux", tables, &s.sealed(options(&[&[1, 1], &md5(18)])), 0);
    add(
        "behind others",
        tables,
        &s.sealed(options(&[&[2, 4, 5, 6, 8, 3, 9], &md5(18)])),
        0,
    );
    let mut wrong = sealed.clone();
    wrong[20 + 17] ^= 1;
    add("the last byte", tables, &wrong, 29);
    let mut other = s.b.clone();
    other.md5 = Entry {
        key: b"another".to_vec(),
        ..s.entry.clone()
    }
    .bytes();
    add("another key", (&s.a.table, &other.md5), &sealed, 29);
    add("a wrong digest", tables, &options(&[&md5(18)]).bytes(), 29);
    for length in [2, 3, 17, 19, 20] {
        add("length", tables, &options(&[&md5(length)]).bytes(), 27);
        add(
            "length, no entry",
            (&s.a.table, &[]),
            &options(&[&md5(length)]).bytes(),
            26,
        );
    }
    let longer = [&[19, 19], &sealed[22..38], &[0][..]].concat();
    add("longer", tables, &s.sealed(options(&[&longer])), 27);
    add("no entry", (&s.a.table, &[]), &sealed, 26);
    add("no table", (&[], &[]), &sealed, 26);
    let elsewhere = Entry::md5(&A4, &[10, 0, 0, 9]).bytes();
    add("another peer's", (&s.a.table, &elsewhere), &sealed, 26);
    for tables in [tables, (&s.a.table, &[]), (&[], &elsewhere)] {
        add("unsigned", tables, &segment.bytes(), 47);
        add(
            "unsigned, options",
            tables,
            &options(&[&[2, 4, 5, 6]]).bytes(),
            47,
        );
        add(
            "behind kind 0",
            tables,
            &options(&[&[0], &md5(18)]).bytes(),
            47,
        );
        add("kind 29", tables, &options(&[&ao(16, 2, 1)]).bytes(), 46);
        add(
            "kind 29 of length 4",
            tables,
            &options(&[&ao(4, 99, 1)]).bytes(),
            46,
        );
        add(
            "two MD5",
            tables,
            &options(&[&md5(18), &md5(18)]).bytes(),
            22,
        );
        add(
            "two short MD5",
            tables,
            &options(&[&[19, 2, 19, 2]]).bytes(),
            22,
        );
        add(
            "both",
            tables,
            &options(&[&md5(18), &ao(16, 2, 1)]).bytes(),
            22,
        );
        add("malformed", tables, &options(&[&[19, 1]]).bytes(), 21);
        add(
            "malformed behind two",
            tables,
            &options(&[&[19, 2, 19, 2, 5, 0]]).bytes(),
            21,
        );
        add("too short", tables, &[], 20);
        let mut pair = sealed.clone();
        pair[1] ^= 1;
        add("another port", tables, &pair, 23);
        add(
            "a bare SYN",
            tables,
            &segment.clone().flags(SYN).bytes(),
            24,
        );
    }
    let call = as_it_is(judge(&[]), &sealed);
    for tables in [tables, (&[], &[])] {
        let name = format!("{name}: checksum");
        list.add_with(&name, tables, state, call.clone(), word(40, 0));
    }
}

/// While opening by MD5: as the opening left it, and with any bytes in it.
pub fn opening(_: &Scene, list: &mut List) {
    let s = Md5Scene::new();
    let mut odd = State {
        stage: 7,
        outgoing_send_id: 3,
        asked_recv_id: 9,
        peer_isn: 99,
        signing_reference: 0x7_0000_0000,
        arriving_reference: 0x9_0000_0000,
        accepted: 12,
        drops: [3; State::COUNTED.len()],
        ..s.opening.state()
    };
    odd.local[9] = 1;
    let syn_ack = s.b.segment(B_ISN, SYN | ACK, b"");
    for state in [s.opening.state(), odd] {
        dropped(&s, list, "opening", &state.bytes(), &syn_ack);
        let data = s.sealed(s.b.segment(B_ISN, ACK, b"").options(&md5(18)));
        let tables = (&s.a.table[..], &s.a.md5[..]);
        list.add_with("data", tables, &state.bytes(), judge(&data), word(24, 0));
    }
}

/// Once open by MD5: at any references, with any counts.
pub fn open(_: &Scene, list: &mut List) {
    let s = Md5Scene::new();
    let full = State {
        accepted: u64::MAX,
        drops: [u64::MAX; State::COUNTED.len()],
        ..s.a.state()
    };
    let far = State {
        signing_reference: 0x9_0000_0000,
        arriving_reference: 0x7_8000_0000,
        outgoing_send_id: 5,
        asked_recv_id: 6,
        ..s.a.state()
    };
    let below = State {
        signing_reference: 0,
        arriving_reference: 0,
        ..s.a.state()
    };
    for state in [s.a.state(), full, far, below] {
        let data = s.b.segment(B_ISN + 1, ACK, b"some data");
        dropped(&s, list, "open", &state.bytes(), &data);
        let tables = (&s.a.table[..], &s.a.md5[..]);
        let mut add = |name: &str, segment: Segment| {
            let call = judge(&s.sealed(segment.options(&md5(18))));
            list.add_with(name, tables, &state.bytes(), call, 0);
        };
        // No position is asked for, and no reference moves.
        for number in [0, 1, B_ISN, B_ISN + 9, 0x8000_0000, 0xffff_ffff] {
            add("any number", s.b.segment(number, ACK, b""));
            add("any number, SYN+ACK", s.b.segment(number, SYN | ACK, b"x"));
        }
        add("RST", s.b.segment(5, RST, b""));
        add("odd", s.b.segment(5, ACK, b"odd"));
    }
}

/// A connection never accepts the other way; any way but 1 is TCP-AO's.
pub fn other_way(scene: &Scene, list: &mut List) {
    let s = Md5Scene::new();
    // With either table for the pair, whatever the connection's way.
    let by_keys = (&scene.a.table[..], &[][..]);
    let by_md5 = (&s.a.table[..], &s.a.md5[..]);
    for way in [0, 2, 19, 255] {
        let on = |state: State| State { way, ..state }.bytes();
        let mut add = |name: &str, tables: (&[u8], &[u8]), state: &[u8], call: Call, number: u8| {
            let name = format!("way {way}: {name}");
            let value = if number == 0 && call.function == Function::Sign {
                40
            } else {
                0
            };
            list.add_with(&name, tables, state, call, word(number, value));
        };
        let (open, opening) = (on(scene.a.state()), on(scene.opening.state()));
        add("TCP-AO", by_keys, &open, judge(&scene.from_b), 0);
        let syn_ack = scene.sealed(scene.new_b.segment(B_ISN, SYN | ACK, b"").ao(16, 2, 1));
        add("opens by TCP-AO", by_keys, &opening, judge(&syn_ack), 0);
        add("signs by TCP-AO", by_keys, &open, sign(&scene.data), 0);
        add("asks", by_keys, &open, ask(2), 0);
        add("MD5", by_keys, &open, judge(&s.from_b), 25);
        add("MD5, its entry there", by_md5, &open, judge(&s.from_b), 25);
        add(
            "unsigned",
            by_md5,
            &open,
            judge(&s.b.segment(1, ACK, b"").bytes()),
            25,
        );
        add("no key", by_md5, &open, judge(&scene.from_b), 26);
        let syn_ack = s.sealed(s.b.segment(B_ISN, SYN | ACK, b"").options(&md5(18)));
        add("MD5 while opening", by_md5, &opening, judge(&syn_ack), 25);
        add(
            "signs, its entry there",
            by_md5,
            &open,
            sign(&scene.data),
            35,
        );
        add("asks, its entry there", by_md5, &open, ask(2), 35);
    }
    let mut add = |name: &str, tables: (&[u8], &[u8]), state: &[u8], call: Call, number: u8| {
        list.add_with(name, tables, state, call, word(number, 0));
    };
    add(
        "TCP-AO by MD5",
        by_keys,
        &s.a.state,
        judge(&scene.from_b),
        46,
    );
    add(
        "TCP-AO by MD5",
        by_md5,
        &s.a.state,
        judge(&scene.from_b),
        46,
    );
    add(
        "MD5 without its table",
        by_keys,
        &s.a.state,
        judge(&s.from_b),
        26,
    );
    add(
        "signing without its table",
        by_keys,
        &s.a.state,
        sign_into(&scene.data, 80),
        35,
    );
    let asked = State {
        outgoing_send_id: 1,
        asked_recv_id: 2,
        ..s.a.state()
    };
    add(
        "signing without its table",
        by_keys,
        &asked.bytes(),
        sign_into(&scene.data, 80),
        35,
    );
}

/// Signing by MD5.
pub fn signing(scene: &Scene, list: &mut List) {
    let s = Md5Scene::new();
    let tables = (&s.a.table[..], &s.a.md5[..]);
    let (a, open, opening) = (&s.a, &s.a.state, &s.opening.state);
    let mut add = |name: &str, state: &[u8], segment: &[u8], answer: Answer| {
        let call = sign_into(segment, segment.len() + 20);
        list.add_with(name, tables, state, call, word(answer.0, answer.1));
    };
    let data = &scene.data;
    let with_options = |options: &[u8]| a.segment(A_ISN + 1, ACK, b"data").options(options).bytes();
    let syn = scene.plain_syn.bytes();
    let syn_ack = |number: u32| a.segment(number, SYN | ACK, b"").bytes();
    let with = |change: fn(&mut State), end: &End| {
        let mut state = end.state();
        change(&mut state);
        state.bytes()
    };
    add("signs", open, data, (0, 44));
    add(
        "signs, options",
        open,
        &with_options(&[2, 4, 5, 6, 0, 29, 1, 0]),
        (0, 52),
    );
    let mut reserved = a.segment(A_ISN + 1, ACK | RST, b"odd");
    reserved.reserved = 0x0f;
    add("signs, reserved bits", open, &reserved.bytes(), (0, 43));
    add("a SYN", opening, &syn, (0, 40));
    add("a SYN+ACK", open, &syn_ack(A_ISN), (0, 40));
    // The references do not matter, and move only by the bare SYN.
    let far = with(|state| state.signing_reference = 0x9_0000_0000, a);
    let low = with(|state| state.signing_reference = 0, a);
    let low_opening = with(|state| state.signing_reference = 0, &s.opening);
    let far_opening = with(|state| state.signing_reference = 0x9_0000_0000, &s.opening);
    add("far", &far, data, (0, 44));
    add("far, a SYN+ACK", &far, &syn_ack(A_ISN), (0, 40));
    add("low", &low, data, (0, 44));
    add("low, a SYN", &low_opening, &syn, (0, 40));
    add("far, a SYN", &far_opening, &syn, (0, 40));
    for number in [0, A_ISN, A_ISN + (1 << 31), A_ISN + 1 + (1 << 31), u32::MAX] {
        let plain = a.segment(number, ACK, b"").bytes();
        add("any number", open, &plain, (0, 40));
        add("any number, low", &low, &plain, (0, 40));
    }
    for number in [0, A_ISN - 1, A_ISN + 1, A_ISN + (1 << 31)] {
        add("a SYN+ACK elsewhere", open, &syn_ack(number), (36, 0));
        let syn = scene.plain_syn.clone().sequence(number).bytes();
        add("a SYN elsewhere", opening, &syn, (36, 0));
    }

    add("too short", open, &[0; 19], (30, 0));
    add("offset 4", open, &[0x40; 20], (30, 0));
    add("malformed", open, &with_options(&[5, 0]), (31, 0));
    add("MD5 present", open, &with_options(&md5(18)), (31, 0));
    add(
        "TCP-AO present",
        open,
        &with_options(&ao(16, 1, 1)),
        (31, 0),
    );
    add(
        "other ports, bare SYN",
        open,
        &s.b.segment(A_ISN, SYN, b"").bytes(),
        (33, 0),
    );
    add("a bare SYN once open", open, &syn, (34, 0));
    add("data while opening", opening, data, (34, 0));
    add("a SYN+ACK while opening", opening, &syn_ack(A_ISN), (34, 0));
    let words = |words: usize| with_options(&vec![1; 4 * words]);
    add("offset 10", open, &words(5), (0, 64));
    add("offset 11", open, &words(6), (32, 0));
    add("offset 15", open, &words(10), (32, 0));
    let long = |bytes: usize| a.segment(A_ISN, ACK, &vec![7; bytes - 20]).bytes();
    add("65,515 bytes", open, &long(65_515), (0, 65_535));
    for bytes in [65_516, 65_517, 65_518, 65_535] {
        add("too long", open, &long(bytes), (32, 0));
    }
    let elsewhere = a
        .segment(A_ISN + 9, SYN | ACK, b"")
        .options(&[1; 24])
        .bytes();
    add("offset 11, a SYN+ACK elsewhere", open, &elsewhere, (32, 0));

    let mut rooms = |name: &str, segment: &[u8], room: usize, answer: Answer| {
        let call = sign_into(segment, room);
        list.add_with(name, tables, open, call, word(answer.0, answer.1));
    };
    for (room, answer) in [
        (0, (37, 0)),
        (42, (37, 0)),
        (43, (37, 0)),
        (44, (0, 44)),
        (60, (0, 44)),
    ] {
        rooms("room", data, room, answer);
    }
    rooms(
        "no room, a SYN+ACK elsewhere",
        &syn_ack(A_ISN + 1),
        0,
        (36, 0),
    );

    let none = (&s.a.table[..], &[][..]);
    let mut lost = |name: &str, segment: &[u8], state: &[u8], number: u8| {
        let call = sign_into(segment, 0);
        list.add_with(name, none, state, call, word(number, 0));
    };
    lost("no entry", data, open, 35);
    lost("no entry, a SYN", &syn, opening, 35);
    lost("no entry, offset 11", &words(6), open, 35);
    lost("no entry, too long", &long(65_535), open, 35);
    lost(
        "no entry, a SYN+ACK elsewhere",
        &syn_ack(A_ISN + 1),
        open,
        35,
    );
    lost("no entry, wrong stage", &syn, open, 34);
}

/// Asking by MD5 is 35, behind 18 and the tables.
pub fn asking(scene: &Scene, list: &mut List) {
    let s = Md5Scene::new();
    for state in [&s.a.state, &s.opening.state] {
        for recv_id in [0, 1, 2, 6, 19, 255] {
            for tables in [(&s.a.table[..], &s.a.md5[..]), (&scene.a.table, &[])] {
                list.add_with("asking", tables, state, ask(recv_id), word(35, 0));
            }
        }
        let tables = (&scene.a.table[..], &s.a.md5[..]);
        list.add_with("asking, 45", tables, state, ask(2), md5_word(45, 0));
    }
    let none = State {
        family: 5,
        ..s.a.state()
    };
    list.add_with("asking, 18", (&[], &[]), &none.bytes(), ask(2), word(18, 0));
}

/// Both families, keys of all lengths that matter, odd and even data: signed, and taken.
pub fn digests(list: &mut List) {
    for (a, b) in [(&A4[..], &B4[..]), (&A6, &B6)] {
        for key_bytes in [1, 16, 17, 63, 64, 79, 80] {
            for data in [0, 1, 2, 7, 8, 23, 24, 40, 64, 1_400] {
                let (mut a, mut b) = md5_opened(a, b);
                let mut entry = Entry::md5(&a.pair.local, &a.pair.remote);
                entry.key = (1..=key_bytes).collect();
                a.md5 = entry.bytes();
                b.md5 = entry.mirror().bytes();
                let name = format!("key of {key_bytes}, {data} bytes");
                let plain = a.segment(A_ISN + 1, ACK, &vec![0xa5; data]);
                let plain = plain.options(&[2, 4, 5, 6]).bytes();
                let signed = a.clone().try_sign(&plain).unwrap();
                let call = sign_into(&plain, 2_000);
                let answer = word(0, signed.len() as u32);
                list.add_with(&name, (&a.table, &a.md5), &a.state, call, answer);
                let call = with_addresses(judge(&[]), &a.pair.local, &b.pair.local);
                let call = as_it_is(call, &signed);
                list.add_with(&name, (&b.table, &b.md5), &b.state, call, 0);
            }
        }
    }
}
