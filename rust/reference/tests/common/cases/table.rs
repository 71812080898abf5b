//! 10 to 17, and tables that are taken.

use super::*;
use kit::entry::table;
use kit::Side;

/// Bad tables, each with its number and index.
pub fn bad_tables() -> Vec<(String, Vec<u8>, Answer)> {
    let good = Entry::between(&A4, &B4).ids(1, 2);
    let good6 = Entry::between(&A6, &B6).ids(1, 2);
    let mut list = Vec::new();
    let mut add = |name: &str, table: Vec<u8>, number: u8, index: u32| {
        list.push((name.to_string(), table, (number, index)));
    };
    let after_one = |bytes: Vec<u8>| [good.bytes(), bytes].concat();
    let with_ids = |send_id: u8, recv_id: u8| good.clone().ids(send_id, recv_id).bytes();

    let of_kind = |kind: u8| [vec![kind], good.bytes()[1..].to_vec()].concat();
    let cut6 = good6.bytes()[..127].to_vec();
    add("kind 0", vec![0], 11, 0);
    add("kind 3, whole", after_one(of_kind(3)), 11, 1);
    add("kind 8, whole", after_one(of_kind(8)), 11, 1);
    add("kind 4's bytes under kind 5", after_one(of_kind(5)), 10, 1);
    add("kind alone", vec![4], 10, 0);
    add("one byte missing", good.bytes()[..103].to_vec(), 10, 0);
    add("one byte missing, IPv6", after_one(cut6), 10, 1);
    add("IPv4 bytes under kind 6", of_kind(6), 10, 0);

    // Bad in everything from some number on, in this order.
    let with_bad_key = |entry: &Entry| {
        let mut bytes = entry.bytes();
        *bytes.last_mut().unwrap() = 1;
        after_one(bytes)
    };
    let mut worst = good.clone();
    worst.flags = 8;
    (worst.local.low, worst.local.high) = (2, 1);
    worst.local.prefix = 33;
    add("flags, ports, prefix, key", with_bad_key(&worst), 13, 1);
    worst.flags = 1;
    worst.algorithm = 4;
    add("algorithm, ports, prefix, key", with_bad_key(&worst), 13, 1);
    worst.algorithm = 255;
    add("algorithm 255", worst.bytes(), 13, 0);
    worst.algorithm = 0;
    add("algorithm 0", worst.bytes(), 13, 0);
    worst.algorithm = 3;
    add(
        "algorithm 3: ports, prefix, key",
        with_bad_key(&worst),
        14,
        1,
    );
    worst.algorithm = 2;
    add("ports, prefix, key", with_bad_key(&worst), 14, 1);
    (worst.local.low, worst.local.high) = (0, 0);
    (worst.remote.low, worst.remote.high) = (179, 178);
    add("remote ports, prefix, key", with_bad_key(&worst), 14, 1);
    (worst.remote.low, worst.remote.high) = (0, 65535);
    add("prefix, key", with_bad_key(&worst), 15, 1);
    worst.local.prefix = 32;
    (worst.local.low, worst.local.high) = (0, 65535);
    add("padding not zero, and a clash", with_bad_key(&worst), 16, 1);
    add("a clash", after_one(worst.bytes()), 17, 1);

    let remote = |address: &[u8], prefix: u8| {
        let mut entry = good.clone();
        entry.remote = entry.remote.prefix(address, prefix);
        entry.bytes()
    };
    let behind = remote(&[10, 0, 0, 1], 31);
    add("remote bits behind the prefix", behind, 15, 0);
    add("remote prefix 33", remote(&[10, 0, 0, 0], 33), 15, 0);
    add("a bit behind prefix 0", remote(&[0, 0, 0, 1], 0), 15, 0);
    let mut bad6 = good6.clone();
    bad6.remote.prefix = 129;
    add("prefix 129", bad6.bytes(), 15, 0);
    bad6.remote.prefix = 127;
    bad6.remote.address[15] = 1;
    add("bit 128 behind prefix 127", bad6.bytes(), 15, 0);

    let with_byte = |at: usize, byte: u8| {
        let mut bytes = good.bytes();
        bytes[at] = byte;
        bytes
    };
    add("key length 0", with_byte(23, 0), 16, 0);
    add("key length 81", with_byte(23, 81), 16, 0);
    add("padding's first byte", with_byte(24 + 12, 1), 16, 0);

    add("RecvID shared", after_one(with_ids(9, 2)), 17, 1);
    add("SendID shared", after_one(with_ids(1, 9)), 17, 1);
    add(
        "a clash at the third, with the first",
        after_one([with_ids(3, 4), with_ids(5, 2), vec![99]].concat()),
        17,
        2,
    );
    let wide = Entry {
        local: Side::any(4).prefix(&[10, 0, 0, 0], 8),
        remote: Side::any(4),
        ..good.clone()
    };
    add("a clash of nested prefixes", after_one(wide.bytes()), 17, 1);
    list.extend(mac_lengths::bad_tables());
    list.extend(translation::bad_tables());
    list
}

/// 1,024 entries: 256 IDs, and four peers.
pub fn full() -> Vec<Entry> {
    let peer = |i: usize| Entry::between(&A4, &[10, 0, (i / 256) as u8, 2]);
    let entry = |i: usize| peer(i).ids(i as u8, i as u8 ^ 1);
    (0..1_024).map(entry).collect()
}

/// A 1,025th entry, after 1,024: by every call.
pub fn too_many(scene: &Scene, list: &mut List) {
    let full = full();
    let (empty, open) = (&scene.empty, &scene.a.state);
    let mut add = |name: &str, behind: &[u8], state: &[u8], call: Call| {
        let table = [table(&full), behind.to_vec()].concat();
        list.add(name, &table, state, call, (12, 1_024));
    };
    add("a 1,025th entry", &full[0].bytes(), empty, check_table());
    add("a 1,025th of unknown kind", &[9], empty, check_table());
    for call in [
        prepared::prepare(0),
        active(1),
        active_md5(),
        judge_syn(&scene.syn, 0),
        passive(&scene.syn, 0),
        judge(&scene.from_b),
        sign(&scene.data),
        ask(2),
    ] {
        add("a 1,025th cut", &[4], open, call);
    }
    list.add("1,024", &table(&full), empty, check_table(), (0, 1_024));
    // A 65th is nothing special any more.
    for (behind, number) in [(&[9][..], 11), (&[4], 10)] {
        let table = [&table(&full[..64]), behind].concat();
        list.add(
            "64 and a bad one",
            &table,
            empty,
            check_table(),
            (number, 64),
        );
    }
}

/// By every call.
pub fn refused(scene: &Scene, list: &mut List) {
    let Scene {
        a,
        b,
        opening,
        empty,
        syn,
        data,
        from_b,
        ..
    } = scene;
    for (name, bad, answer) in bad_tables() {
        list.add(&name, &bad, empty, check_table(), answer);
        list.add(&name, &bad, empty, prepared::prepare(0), answer);
        list.add(&name, &bad, &a.state, active(1), answer);
        list.add(&name, &bad, &a.state, active_md5(), answer);
        list.add(&name, &bad, empty, judge_syn(syn, 0), answer);
        list.add(&name, &bad, &b.state, passive(syn, 0), answer);
        list.add(&name, &bad, &a.state, judge(from_b), answer);
        list.add(&name, &bad, &opening.state, judge(from_b), answer);
        list.add(&name, &bad, &a.state, sign(data), answer);
        list.add(&name, &bad, &a.state, ask(2), answer);
    }
}

pub fn taken(scene: &Scene, list: &mut List) {
    let mut check = |name: &str, table: &[u8], answer: Answer| {
        list.add(name, table, &scene.empty, check_table(), answer);
    };
    check("no entry", &[], (0, 0));
    check("three", &scene.a.table, (0, 3));
    let local_ports = |low: u16, high: u16| Entry {
        local: Side::host(&A4).ports(low, high),
        ..scene.keys[0].clone()
    };
    let two = |low: u16, high: u16| table(&[local_ports(low, high), local_ports(179, 179)]);
    check("P11", &two(100, 178), (0, 2));
    check("P12", &two(100, 179), (17, 1));
    let both = [
        Entry::between(&A4, &B4).ids(1, 2),
        Entry::between(&A6, &B6).ids(1, 2),
    ];
    check("both families", &table(&both), (0, 2));
}
