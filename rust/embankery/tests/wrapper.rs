//! The wrapper's own work: an entry's bytes, a state's fields, every number as an answer of its
//! calls, and no panic whatever they are given.

mod common;

use common::{
    kinds, octets, segment, Ends, Kind, Md5Ends, ALGORITHMS, FIRST_KIND, IDS, ISNS, PORTS,
};
use embankery::{
    judge_syn, Algorithm, Connection, Covered, Entry, EntryBuilder, KeyTable, Md5Entry,
    Md5EntryBuilder, Md5Table, PreparedTables, Refusal, Table, Tables, UnknownKeyId, Verdict, Way,
};
use kit::segment::{ACK, SYN};
use kit::Bytes;
use std::net::{IpAddr, SocketAddr};

#[test]
fn bytes_of_an_ipv4_entry() {
    let entry = Entry::ipv4()
        .local([10, 1, 0, 0], 16)
        .remote([192, 0, 2, 7], 32)
        .local_ports(179..=180)
        .remote_ports(1_024..=65_535)
        .send_id(61)
        .recv_id(84)
        .algorithm(Algorithm::Aes128Cmac96)
        .covered(Covered::OnlyTcpAo)
        .key([9; 16])
        .build()
        .unwrap();
    let mut expected = vec![4, 0, 2, 61, 84];
    expected.extend([0, 179, 0, 180, 4, 0, 255, 255]);
    expected.extend([10, 1, 0, 0, 16, 192, 0, 2, 7, 32]);
    expected.push(16);
    expected.extend([9; 16]);
    expected.extend([0; 64]);
    assert_eq!(expected.len(), 1 + 103);
    assert_eq!(entry.as_bytes(), expected);
}

#[test]
fn bytes_of_an_ipv6_entry() {
    let entry = Entry::ipv6()
        .local([0xFD00, 0, 0, 0, 0, 0, 0, 0], 8)
        .key([7; 80])
        .build()
        .unwrap();
    let mut expected = vec![6, 1, 1, 0, 0];
    expected.extend([0, 0, 255, 255, 0, 0, 255, 255, 0xFD]);
    expected.extend([0; 15]);
    expected.push(8);
    expected.extend([0; 17]);
    expected.push(80);
    expected.extend([7; 80]);
    assert_eq!(expected.len(), 1 + 127);
    assert_eq!(entry.as_bytes(), expected);
}

/// With the MAC's length said, the entry is of kind 5 or 7 and has that byte before the key's length.
#[test]
fn bytes_of_entries_with_a_mac_length() {
    for bytes in 4..=16 {
        for (entry, kind, key_length) in [(Entry::ipv4(), 4, 23), (Entry::ipv6(), 6, 47)] {
            let entry = entry.key([7; 80]);
            let unsaid = entry.clone().build().unwrap();
            let said = entry.mac_length(bytes).build().unwrap();
            let mut expected = unsaid.as_bytes().to_vec();
            assert_eq!((expected[0], expected[key_length]), (kind, 80));
            expected[0] = kind + 1;
            expected.insert(key_length, bytes);
            assert_eq!(said.as_bytes(), expected);
        }
    }
}

/// The flags: 1 for all options, 2 and 4 for our side and the peer's translated on the way.
#[test]
fn bytes_of_the_flags() {
    for flags in 0..8u8 {
        let covered = if flags & 1 == 0 {
            Covered::OnlyTcpAo
        } else {
            Covered::AllOptions
        };
        for entry in [Entry::ipv4(), Entry::ipv6().mac_length(4)] {
            let entry = entry.covered(covered).key(b"key");
            let entry = entry.local_nat(flags & 2 != 0).remote_nat(flags & 4 != 0);
            let entry = entry.build().unwrap();
            assert_eq!(entry.as_bytes()[1], flags);
        }
    }
    let entry = |bytes: &[u8]| KeyTable::from_bytes(bytes).map(|table| table.len());
    let mut bytes = Entry::ipv4()
        .key(b"key")
        .build()
        .unwrap()
        .as_bytes()
        .to_vec();
    for flags in 0..=255 {
        bytes[1] = flags;
        let table = Table::Keys;
        let refused = Err(Refusal::NotListed { table, entry: 0 });
        assert_eq!(entry(&bytes), if flags < 8 { Ok(1) } else { refused });
    }
}

/// Each algorithm has its number.
#[test]
fn bytes_of_the_algorithms() {
    for (algorithm, number) in ALGORITHMS.into_iter().zip(1..) {
        let entry = Entry::ipv4().algorithm(algorithm).key(b"key");
        assert_eq!(entry.build().unwrap().as_bytes()[2], number);
    }
}

#[test]
fn entries_refused() {
    let v4 = || Entry::ipv4().key(b"key");
    let v6 = || Entry::ipv6().key(b"key");
    let number = |entry: EntryBuilder| entry.build().unwrap_err().number();
    for len in [0, 81, 255, 256, 336, 100_000] {
        assert_eq!(number(v4().key(vec![1; len])), 16, "{len} bytes of key");
        assert_eq!(number(v6().key(vec![1; len])), 16, "{len} bytes of key");
    }
    for prefix in [33, 128, 255] {
        assert_eq!(number(v4().local([0; 4], prefix)), 15);
        assert_eq!(number(v4().remote([0; 4], prefix)), 15);
    }
    for prefix in [129, 255] {
        assert_eq!(number(v6().local([0u16; 8], prefix)), 15);
        assert_eq!(number(v6().remote([0u16; 8], prefix)), 15);
    }
    assert_eq!(number(v4().local([10, 0, 0, 1], 31)), 15);
    assert_eq!(number(v6().remote([1u16; 8], 127)), 15);
    let (low, high) = (180, 179);
    assert_eq!(number(v4().local_ports(low..=high)), 14);
    assert_eq!(number(v6().remote_ports(low..=high)), 14);
    assert_eq!(number(v4().local([0u16; 8], 0)), 19);
    assert_eq!(number(v6().remote([0; 4], 0)), 19);
    for bytes in [0, 3, 17, 255] {
        assert_eq!(number(v4().mac_length(bytes)), 13);
        assert_eq!(number(v6().mac_length(bytes)), 13);
    }
    // The first that applies.
    assert_eq!(number(v4().local([0; 4], 40).key([1; 99])), 15);
    assert_eq!(number(v4().mac_length(3).local([0; 4], 40)), 13);
}

#[test]
fn numbers_of_the_table() {
    let good = Entry::ipv4().key(b"key").build().unwrap();
    let good = good.as_bytes();
    // What is changed in a second entry, like the first but for its IDs.
    let cases: [(u8, &[(usize, u8)]); 11] = [
        (10, &[(0, 6)]),
        (10, &[(0, 5)]),
        (11, &[(0, 3)]),
        (11, &[(0, 8)]),
        (13, &[(1, 8)]),
        (13, &[(2, 0)]),
        (13, &[(2, 4)]),
        (14, &[(5, 255), (7, 254)]),
        (15, &[(17, 33)]),
        (16, &[(103, 1)]),
        (17, &[(3, 0)]),
    ];
    let mut second = good.to_vec();
    second[3..5].copy_from_slice(&[1, 1]);
    let table = KeyTable::from_bytes([good, &second].concat()).unwrap();
    assert_eq!(table.len(), 2);
    for (number, changes) in cases {
        let mut second = second.clone();
        for (at, value) in changes {
            second[*at] = *value;
        }
        let refusal = KeyTable::from_bytes([good, &second].concat()).unwrap_err();
        let entry = Some((Table::Keys, 1));
        assert_eq!((refusal.number(), refusal.entry()), (number, entry));
        let shown = refusal.to_string();
        assert!(shown.starts_with(&format!("{number} at entry 1: ")));
    }
    assert!(KeyTable::new([]).unwrap().is_empty());
}

/// Entries of all kinds are one table, and clash whatever their kinds.
#[test]
fn all_kinds_in_a_table() {
    let entry =
        |entry: EntryBuilder, id| entry.send_id(id).recv_id(id).key(b"key").build().unwrap();
    let four = entry(Entry::ipv4(), 1);
    let five = entry(Entry::ipv4().mac_length(5), 2);
    let six = entry(Entry::ipv6(), 1);
    let seven = entry(Entry::ipv6().mac_length(16), 2);
    let table = KeyTable::new([&four, &five, &six, &seven]).unwrap();
    assert_eq!(table.len(), 4);
    let clash = entry(Entry::ipv4().mac_length(12), 1);
    let refusal = KeyTable::new([&four, &clash]).unwrap_err();
    let table = Table::Keys;
    assert_eq!(refusal, Refusal::IdClash { table, entry: 1 });
}

/// 1,024 entries are a table, a 1,025th is refused with 12.
#[test]
fn too_many_entries() {
    let entry = |i: u16| {
        let [peer, id] = i.to_be_bytes();
        let entry = Entry::ipv4().remote([10, 0, 0, peer], 32).key(b"key");
        entry.send_id(id).recv_id(id).build().unwrap()
    };
    let entries: Vec<Entry> = (0..1_025).map(entry).collect();
    let full = KeyTable::new(&entries[..1_024]).unwrap();
    assert_eq!(full.len(), 1_024);
    let refusal = KeyTable::new(&entries).unwrap_err();
    let table = Table::Keys;
    let entry = 1_024;
    assert_eq!(refusal, Refusal::TooManyEntries { table, entry });

    let prepared = Tables::from(&full).prepared().unwrap();
    assert_eq!((prepared.len(), prepared.md5_len()), (1_024, 0));
    let (here, there) = (([10, 0, 0, 9], 1), ([10, 0, 0, 3], 2));
    let open = |tables: Tables| Connection::open_active(tables, here, there, 7, 255);
    assert_eq!(open((&prepared).into()), open((&full).into()));
    assert!(open((&prepared).into()).is_ok());
}

/// Prepared tables give what their tables give: at every step of a connection of every kind the same answers,
/// the same states, the same bytes.
#[test]
fn prepared_tables() {
    for kind in kinds() {
        let [mut by_bytes, mut prepared] = [Ends::open(kind), Ends::open(kind)];
        let tables = [0, 1].map(|end| {
            let md5 = Md5Entry::ipv4().remote([10, 9, 9, 9], 32).key(b"key");
            let md5 = Md5Table::new([&md5.build().unwrap()]).unwrap();
            let tables = Tables::new(&by_bytes.tables[end], &md5).unwrap();
            tables.prepared().unwrap()
        });
        assert_eq!((tables[0].len(), tables[0].md5_len()), (1, 1));
        let [a, b] = prepared.addresses;
        let (here, there) = ((a, PORTS[0]), (b, PORTS[1]));
        let open = Connection::open_active(&tables[0], here, there, ISNS[0], IDS[0]);
        assert_eq!(open, Ok(by_bytes.opening.clone()));
        let syn = prepared
            .opening
            .sign(&tables[0], &segment(PORTS, ISNS[0], SYN, &[], &[]));
        assert_eq!(syn.as_ref(), Ok(&by_bytes.syn));
        let syn = syn.unwrap();
        for unknown in [UnknownKeyId::Pass, UnknownKeyId::Drop] {
            let verdict = judge_syn(&tables[1], a, b, &syn, unknown);
            assert_eq!(verdict, Verdict::Accept { extension: 0 });
            let opened = Connection::open_passive(&tables[1], a, b, &syn, ISNS[1], unknown);
            let by_bytes = &by_bytes.tables[1];
            let other = Connection::open_passive(by_bytes, a, b, &syn, ISNS[1], unknown);
            assert_eq!(opened, other);
        }
        let verdict = prepared.opening.judge(&tables[0], b, a, &prepared.syn_ack);
        assert_eq!(verdict, Verdict::Accept { extension: 0 });
        assert_eq!(prepared.opening, by_bytes.ends[0]);

        let plain = segment(PORTS, ISNS[0] + 1, ACK, &[], b"data");
        let signed = by_bytes.sign(&plain).unwrap();
        assert_eq!(prepared.ends[0].sign(&tables[0], &plain).unwrap(), signed);
        let mut forged = signed.clone();
        *forged.last_mut().unwrap() ^= 1;
        for segment in [&signed, &forged, &by_bytes.summed(&forged)] {
            let verdict = prepared.ends[1].judge(&tables[1], a, b, segment);
            assert_eq!(verdict, by_bytes.judge(segment));
        }
        for id in [IDS[0], 99] {
            let asked = prepared.ends[1].ask(&tables[1], id);
            assert_eq!(asked, by_bytes.ends[1].ask(&by_bytes.tables[1], id));
        }
        assert_eq!(prepared.ends, by_bytes.ends);
    }
}

/// The same by TCP MD5.
#[test]
fn prepared_md5_tables() {
    for ipv6 in [false, true] {
        let [mut by_bytes, mut prepared] = [Md5Ends::open(ipv6), Md5Ends::open(ipv6)];
        let tables = [0, 1].map(|end| Tables::from(&by_bytes.tables[end]).prepared().unwrap());
        assert_eq!((tables[0].len(), tables[0].md5_len()), (0, 1));
        assert!(!tables[0].is_empty());
        let [a, b] = prepared.addresses;
        let (here, there) = ((a, PORTS[0]), (b, PORTS[1]));
        let open = Connection::open_active_md5(&tables[0], here, there, ISNS[0]);
        assert_eq!(open, Ok(by_bytes.opening.clone()));
        let plain = segment(PORTS, ISNS[0] + 1, ACK, &[], b"data");
        let signed = by_bytes.sign(&plain).unwrap();
        assert_eq!(prepared.ends[0].sign(&tables[0], &plain).unwrap(), signed);
        let verdict = prepared.ends[1].judge(&tables[1], a, b, &signed);
        assert_eq!(verdict, by_bytes.judge(&signed));
        assert_eq!(prepared.ends, by_bytes.ends);
    }
}

/// As bytes: what `as_bytes` gives is taken back, other lengths and counts are refused with 44.
#[test]
fn bytes_of_prepared_tables() {
    let keys = KeyTable::new([&Entry::ipv4().key(b"key").build().unwrap()]).unwrap();
    let prepared = Tables::from(&keys).prepared().unwrap();
    assert_eq!(prepared.as_bytes().len(), PreparedTables::length(1));
    assert_eq!(
        format!("{prepared:?}"),
        "PreparedTables { len: 1, md5_len: 0, .. }"
    );
    let again = PreparedTables::from_bytes(prepared.as_bytes());
    assert_eq!(again.as_ref(), Ok(&prepared));
    assert_eq!(Tables::from(&prepared).prepared(), again);
    for len in 0..PreparedTables::length(1) {
        let cut = PreparedTables::from_bytes(&prepared.as_bytes()[..len]);
        assert_eq!(cut, Err(Refusal::Prepared));
    }
    let mut many = vec![0; PreparedTables::length(1_025)];
    many[..4].copy_from_slice(&[4, 1, 0, 0]);
    assert_eq!(PreparedTables::from_bytes(many).unwrap_err().number(), 44);
    assert_eq!(Refusal::Prepared.entry(), None);
}

/// An MD5 entry has document 01's bytes, with flags 0, algorithm 19 and both IDs 0.
#[test]
fn bytes_of_md5_entries() {
    let entry = Md5Entry::ipv4()
        .local([10, 1, 0, 0], 16)
        .remote([192, 0, 2, 7], 32)
        .local_ports(179..=180)
        .remote_ports(1_024..=65_535)
        .key([9; 16])
        .build()
        .unwrap();
    let mut expected = vec![4, 0, 19, 0, 0];
    expected.extend([0, 179, 0, 180, 4, 0, 255, 255]);
    expected.extend([10, 1, 0, 0, 16, 192, 0, 2, 7, 32, 16]);
    expected.extend([9; 16]);
    expected.extend([0; 64]);
    assert_eq!(entry.as_bytes(), expected);
    let entry = Md5Entry::ipv6().key([7; 80]).build().unwrap();
    assert_eq!(entry.as_bytes().len(), 128);
    assert_eq!(entry.as_bytes()[..5], [6, 0, 19, 0, 0]);
    let key = Entry::ipv6().key([7; 80]).build().unwrap();
    assert_eq!(entry.as_bytes()[5..], key.as_bytes()[5..]);
}

#[test]
fn md5_entries_refused() {
    let v4 = || Md5Entry::ipv4().key(b"key");
    let number = |entry: Md5EntryBuilder| entry.build().unwrap_err().number();
    for len in [0, 81, 255, 256, 336, 100_000] {
        assert_eq!(number(v4().key(vec![1; len])), 16, "{len} bytes of key");
    }
    assert_eq!(number(v4().local([0; 4], 33)), 15);
    assert_eq!(number(v4().remote([10, 0, 0, 1], 31)), 15);
    let (low, high) = (180, 179);
    assert_eq!(number(v4().local_ports(low..=high)), 14);
    assert_eq!(number(v4().local([0u16; 8], 0)), 19);
    assert_eq!(number(Md5Entry::ipv6().remote([0; 4], 0).key(b"key")), 19);
}

/// 10 to 17 of the MD5 table say so, and a key table is none.
#[test]
fn numbers_of_the_md5_table() {
    let good = Md5Entry::ipv4().remote_ports(0..=9).key(b"key").build();
    let good = good.unwrap();
    let good = good.as_bytes();
    let cases: [(u8, &[(usize, u8)]); 12] = [
        (10, &[(0, 6)]),
        (11, &[(0, 5)]),
        (11, &[(0, 7)]),
        (13, &[(1, 1)]),
        (13, &[(1, 2)]),
        (13, &[(2, 1)]),
        (13, &[(2, 18)]),
        (13, &[(3, 1)]),
        (13, &[(4, 1)]),
        (14, &[(9, 255)]),
        (15, &[(17, 33)]),
        (16, &[(103, 1)]),
    ];
    let mut second = good.to_vec();
    second[10] = 10;
    second[12] = 19;
    let table = Md5Table::from_bytes([good, &second].concat()).unwrap();
    assert_eq!(table.len(), 2);
    assert_eq!(format!("{table:?}"), "Md5Table { len: 2, .. }");
    for (number, changes) in cases {
        let mut second = second.clone();
        for (at, value) in changes {
            second[*at] = *value;
        }
        let refusal = Md5Table::from_bytes([good, &second].concat()).unwrap_err();
        let entry = Some((Table::Md5, 1));
        assert_eq!((refusal.number(), refusal.entry()), (number, entry));
        let shown = refusal.to_string();
        assert!(shown.starts_with(&format!("{number} at MD5 entry 1: ")));
    }
    let refusal = Md5Table::from_bytes([good, good].concat()).unwrap_err();
    let table = Table::Md5;
    assert_eq!(refusal, Refusal::IdClash { table, entry: 1 });
    let key = Entry::ipv4().key(b"key").build().unwrap();
    let refusal = Md5Table::from_bytes(key.as_bytes()).unwrap_err();
    assert_eq!(refusal, Refusal::NotListed { table, entry: 0 });
    let table = Table::Keys;
    let refusal = KeyTable::from_bytes(good).unwrap_err();
    assert_eq!(refusal, Refusal::NotListed { table, entry: 0 });
    assert!(Md5Table::new([]).unwrap().is_empty());
    let entry = |port| Md5Entry::ipv6().local_ports(port..=port).key(b"key");
    let entry = |port| entry(port).build().unwrap();
    let entries: Vec<Md5Entry> = (0..1_025).map(entry).collect();
    let full = Md5Table::new(&entries[..1_024]).unwrap();
    assert_eq!(full.len(), 1_024);
    let refusal = Md5Table::new(&entries).unwrap_err();
    assert_eq!(
        (refusal.number(), refusal.entry()),
        (12, Some((Table::Md5, 1_024)))
    );
}

/// Every call takes both tables, and refuses them with 45 where a pair would go both ways.
#[test]
fn both_tables() {
    let ends = Ends::open(FIRST_KIND);
    let md5 = Md5Ends::open(false);
    let refused = Refusal::TwoWays {
        table: Table::Md5,
        entry: 0,
    };
    let (keys, old) = (&ends.tables[1], &md5.tables[1]);
    assert_eq!(Tables::new(keys, old).unwrap_err(), refused);
    assert!(refused.to_string().starts_with("45 at MD5 entry 0: "));

    // A server with two peers: one goes by TCP-AO, one by TCP MD5.
    let md5_entry = Md5Entry::ipv4().remote([10, 0, 0, 9], 32).key(b"key");
    let md5_entry = Md5Table::new([&md5_entry.build().unwrap()]).unwrap();
    let tables = Tables::new(keys, &md5_entry).unwrap();
    let [source, destination] = ends.addresses;
    let choice = UnknownKeyId::Pass;
    let accepted = Verdict::Accept { extension: 0 };
    assert_eq!(
        judge_syn(tables, source, destination, &ends.syn, choice),
        accepted
    );
    let opened = Connection::open_passive(tables, source, destination, &ends.syn, 1, choice);
    let mut opened = opened.unwrap().unwrap();
    assert_eq!(opened.way(), Way::TcpAo);
    assert_eq!(opened.ask(tables, IDS[0]), Ok(()));
    let back = segment([PORTS[1], PORTS[0]], 1, SYN | ACK, &[], &[]);
    assert_eq!(opened.sign(tables, &back).unwrap()[20], 29);
    let here = (destination, 179);
    let there = |last: u8| (IpAddr::from([10, 0, 0, last]), 40_000);
    assert!(Connection::open_active(tables, here, there(1), 1, IDS[1]).is_ok());
    assert!(Connection::open_active_md5(tables, here, there(9), 1).is_ok());
    let no_entry = Err(Refusal::NoEntry);
    assert_eq!(
        Connection::open_active(tables, here, there(9), 1, IDS[1]),
        no_entry
    );
    assert_eq!(
        Connection::open_active_md5(tables, here, there(1), 1),
        no_entry
    );
    // One table alone stands for no other.
    assert_eq!(
        Connection::open_active_md5(keys, here, there(9), 1),
        no_entry
    );
    assert_eq!(
        Connection::open_active(&md5_entry, here, there(1), 1, 0),
        no_entry
    );
}

/// Both ends by TCP MD5: what signing adds, extension 0, references that stay, and every number.
#[test]
fn by_md5() {
    for ipv6 in [false, true] {
        let mut ends = Md5Ends::open(ipv6);
        assert_eq!(ends.ends.each_ref().map(Connection::way), [Way::TcpMd5; 2]);
        let plain = |flags, options: &[u8]| segment(PORTS, ISNS[0] + 1, flags, options, b"data");
        let signed = ends.sign(&plain(ACK, &[2, 4, 5, 6])).unwrap();
        assert_eq!(signed.len(), 28 + 20);
        assert_eq!(signed[20..22], [19, 18]);
        assert_eq!(signed[38..40], [1, 1]);
        assert_eq!(signed[40..], plain(ACK, &[2, 4, 5, 6])[20..]);
        assert_eq!(signed, ends.summed(&signed));
        assert!(ends.sign(&plain(ACK, &[1; 20])).is_ok());
        assert_eq!(ends.sign(&plain(ACK, &[1; 24])), Err(Refusal::SignRoom));

        let before = ends.ends.clone();
        for number in [0, 1, ISNS[0], 1 << 31, u32::MAX] {
            let signed = ends.sign(&segment(PORTS, number, ACK, &[], b"x")).unwrap();
            assert_eq!(ends.judge(&signed), Verdict::Accept { extension: 0 });
        }
        assert_eq!(ends.ends[0], before[0]);
        let (after, before) = (&ends.ends[1], &before[1]);
        assert_eq!(after.seen_reference(), before.seen_reference());
        assert_eq!(after.accepted(), before.accepted() + 5);

        let option = |bytes: &[u8]| ends.summed(&plain(ACK, bytes));
        let mut forged = signed.clone();
        forged[37] ^= 1;
        let cases = [
            (
                Refusal::WrongWay,
                option(&[29, 16, 1, 1, 0, 0, 0, 0, 0, 0, 0, 0, 0, 0, 0, 0]),
            ),
            (Refusal::Md5Missing, option(&[])),
            (Refusal::MacLength, option(&[19, 4, 0, 0])),
            (Refusal::OptionsConflict, option(&[19, 2, 19, 2])),
            (Refusal::MacDiffers, ends.summed(&forged)),
            (Refusal::Checksum, forged),
        ];
        for (refusal, arriving) in cases {
            assert_eq!(ends.judge(&arriving), Verdict::Drop(refusal));
            assert_eq!(ends.ends[1].dropped(refusal.number()), Some(1));
        }
        let [a, b] = &mut ends.ends;
        assert_eq!(b.ask(&ends.tables[1], 0), Err(Refusal::NoEntry));
        let none = Md5Table::new([]).unwrap();
        assert_eq!(a.sign(&none, &plain(ACK, &[])), Err(Refusal::NoEntry));
        let [source, destination] = ends.addresses;
        let verdict = b.judge(&none, source, destination, &signed);
        assert_eq!(verdict, Verdict::Drop(Refusal::UnknownKeyId));

        // A bare SYN goes by the table that matches.
        let syn = ends.summed(&segment(PORTS, ISNS[0], SYN, &[], &[]));
        let unsigned = judge_syn(
            &ends.tables[1],
            source,
            destination,
            &syn,
            UnknownKeyId::Pass,
        );
        assert_eq!(unsigned, Verdict::Drop(Refusal::Md5Missing));
        let choice = UnknownKeyId::Pass;
        let passed = judge_syn(&none, source, destination, &ends.syn, choice);
        assert_eq!(passed, Verdict::Pass);
        let mut opening = ends.opening.clone();
        assert!(!opening.is_open());
        let elsewhere = segment(PORTS, ISNS[0] + 1, SYN, &[], &[]);
        let refused = opening.sign(&ends.tables[0], &elsewhere);
        assert_eq!(refused, Err(Refusal::SignPosition));
    }
}

/// The other way is never accepted, whichever tables there are.
#[test]
fn the_other_way() {
    let mut by_ao = Ends::open(FIRST_KIND);
    let mut by_md5 = Md5Ends::open(false);
    let plain = segment(PORTS, ISNS[0] + 1, ACK, &[], b"data");
    let (ao, md5) = (by_ao.sign(&plain).unwrap(), by_md5.sign(&plain).unwrap());
    let [source, destination] = by_ao.addresses;
    let (keys, old) = (&by_ao.tables[1], &by_md5.tables[1]);
    let [_, a] = &mut by_ao.ends;
    let [_, m] = &mut by_md5.ends;
    let drop = Verdict::Drop;
    for tables in [Tables::from(keys), Tables::from(old)] {
        let verdict = a.judge(tables, source, destination, &md5);
        assert_eq!(verdict, drop(Refusal::OptionMissing));
        let verdict = m.judge(tables, source, destination, &ao);
        assert_eq!(verdict, drop(Refusal::WrongWay));
    }
    let accepted = Verdict::Accept { extension: 0 };
    assert_eq!(a.judge(keys, source, destination, &ao), accepted);
    assert_eq!(m.judge(old, source, destination, &md5), accepted);
}

#[test]
fn numbers_of_a_verdict() {
    let mut ends = Ends::open(FIRST_KIND);
    let plain = |flags, options: &[u8]| segment(PORTS, ISNS[0] + 1, flags, options, b"data");
    let signed = ends.sign(&plain(ACK, &[1; 16])).unwrap();
    let changed = |at: usize, bytes: &[u8]| {
        let mut segment = signed.clone();
        segment[at..at + bytes.len()].copy_from_slice(bytes);
        segment
    };
    let half_way = ISNS[0] + (1 << 31);
    let cases = [
        (Refusal::Size, vec![0; 19]),
        (Refusal::Options, plain(ACK, &[2, 9, 0, 0])),
        (Refusal::OptionsConflict, changed(36, &signed[20..36])),
        (Refusal::OtherPair, changed(0, &[0])),
        (Refusal::Stage, plain(SYN, &[])),
        (Refusal::OptionMissing, plain(ACK, &[])),
        (Refusal::UnknownKeyId, changed(22, &[99])),
        (Refusal::MacLength, plain(ACK, &[29, 4, IDS[0], 1])),
        (Refusal::NoPosition, changed(4, &half_way.to_be_bytes())),
        (Refusal::MacDiffers, changed(35, &[!signed[35]])),
    ];
    for (i, (refusal, arriving)) in cases.iter().enumerate() {
        let arriving = ends.summed(arriving);
        assert_eq!(ends.judge(&arriving), Verdict::Drop(*refusal));
        assert_eq!(refusal.number(), 20 + i as u8);
        assert_eq!(ends.ends[1].dropped(refusal.number()), Some(1));
    }
    let damaged = changed(35, &[!signed[35]]);
    assert_eq!(ends.judge(&damaged), Verdict::Drop(Refusal::Checksum));
    assert_eq!(Refusal::Checksum.number(), 40);
    assert_eq!(ends.judge(&signed), Verdict::Accept { extension: 0 });
    let end = &mut ends.ends[1];
    assert_eq!(end.accepted(), 1);
    let counted = (20..=29).chain([40]).map(|number| (number, 1));
    assert!(end.drops().eq(counted.chain([(46, 0), (47, 0)])));
    assert_eq!(end.dropped(19), None);
    assert_eq!(end.dropped(30), None);

    let table = &ends.tables[1];
    let before = end.clone();
    let verdict = end.judge(table, [10, 0, 0, 1], [0u16; 8], &signed);
    assert_eq!(verdict, Verdict::Drop(Refusal::AddressSizes));
    assert_eq!(*end, before);
}

#[test]
fn numbers_of_signing() {
    let mut ends = Ends::open(FIRST_KIND);
    let plain = |flags, options: &[u8]| segment(PORTS, ISNS[0] + 1, flags, options, b"data");
    let numbered = |number| segment(PORTS, number, ACK, &[], b"data");
    let cases = [
        (30, vec![0; 19]),
        (31, plain(ACK, &[2, 9, 0, 0])),
        (31, plain(ACK, &[19, 4, 0, 0])),
        (31, plain(ACK, &[29, 4, 0, 0])),
        (33, segment([1, 2], ISNS[0] + 1, ACK, &[1; 28], &[])),
        (34, plain(SYN, &[])),
        (32, plain(ACK, &[1; 28])),
        (36, plain(SYN | ACK, &[])),
        (36, numbered(ISNS[0] + (1 << 31))),
    ];
    let before = ends.ends[0].clone();
    for (number, segment) in cases {
        assert_eq!(ends.sign(&segment).unwrap_err().number(), number);
        assert_eq!(ends.ends[0], before);
    }

    let none = KeyTable::new([]).unwrap();
    let [end, _] = &mut ends.ends;
    let segment = plain(ACK, &[1; 24]);
    let mut out = [0xAA; 64];
    assert_eq!(end.sign(&none, &segment), Err(Refusal::NoEntry));
    assert_eq!(end.ask(&none, IDS[1]), Err(Refusal::NoEntry));
    assert_eq!(end.ask(&ends.tables[0], 77), Err(Refusal::NoEntry));
    let short = end.sign_into(&ends.tables[0], &segment, &mut out[..63]);
    assert_eq!(short, Err(Refusal::OutputTooShort));
    assert_eq!((&*end, out), (&before, [0xAA; 64]));
    let length = end.sign_into(&ends.tables[0], &segment, &mut out);
    assert_eq!(length, Ok(64));
}

/// What signing adds by the MAC's length, and where it has no room for it.
#[test]
fn what_signing_adds() {
    for kind in kinds() {
        let added = kind.added();
        let mut ends = Ends::open(kind);
        let plain = |options: usize| segment(PORTS, ISNS[0] + 1, ACK, &vec![1; options], b"data");
        let signed = ends.sign(&plain(8)).unwrap();
        assert_eq!(signed.len(), plain(8).len() + added);
        assert_eq!(signed, ends.summed(&signed));
        let length = 4 + kind.mac_length.unwrap_or(12);
        assert_eq!(signed[20..24], [29, length, IDS[0], IDS[1]]);
        assert_eq!(signed[20 + added..], plain(8)[20..]);
        assert!(signed[20 + usize::from(length)..20 + added]
            .iter()
            .all(|byte| *byte == 1));
        assert_eq!(ends.judge(&signed), Verdict::Accept { extension: 0 });
        assert!(ends.sign(&plain(40 - added)).is_ok());
        assert_eq!(ends.sign(&plain(44 - added)), Err(Refusal::SignRoom));
        let none = KeyTable::new([]).unwrap();
        let refused = ends.ends[0].sign(&none, &plain(44 - added));
        assert_eq!(refused, Err(Refusal::NoEntry));
    }
}

/// Ends whose MACs differ in length get 27; 12, said at one end and not at the other, is the same.
#[test]
fn lengths_agree() {
    for (ours, theirs, verdict) in [
        (None, Some(12), Verdict::Accept { extension: 0 }),
        (Some(12), None, Verdict::Accept { extension: 0 }),
        (None, Some(16), Verdict::Drop(Refusal::MacLength)),
        (Some(8), Some(9), Verdict::Drop(Refusal::MacLength)),
    ] {
        let with = |mac_length| {
            Ends::open(Kind {
                mac_length,
                ..FIRST_KIND
            })
        };
        let (mut ends, other) = (with(ours), with(theirs));
        let signed = ends.sign(&segment(PORTS, ISNS[0] + 1, ACK, &[], b"data"));
        ends.tables = other.tables;
        assert_eq!(ends.judge(&signed.unwrap()), verdict);
    }
}

#[test]
fn what_a_bare_syn_gets() {
    let ends = Ends::open(FIRST_KIND);
    let [source, destination] = ends.addresses;
    let none = KeyTable::new([]).unwrap();
    let mut damaged = ends.syn.clone();
    damaged[35] ^= 1;
    let forged = ends.summed(&damaged);
    let mut unknown = ends.syn.clone();
    unknown[22] = IDS[0] + 1;
    let unknown = ends.summed(&unknown);
    let plain = ends.summed(&segment(PORTS, ISNS[0], SYN, &[], &[]));
    let wide = Entry::ipv4().send_id(IDS[1]).recv_id(IDS[0]).key(b"key");
    let wide = KeyTable::new([&wide.build().unwrap()]).unwrap();
    let accepted = Verdict::Accept { extension: 0 };
    let wrong_id = Verdict::Drop(Refusal::UnknownKeyId);
    let cases = [
        (&ends.tables[1], &ends.syn, UnknownKeyId::Pass, accepted),
        (
            &ends.tables[1],
            &forged,
            UnknownKeyId::Pass,
            Verdict::Drop(Refusal::MacDiffers),
        ),
        (
            &ends.tables[1],
            &damaged,
            UnknownKeyId::Pass,
            Verdict::Drop(Refusal::Checksum),
        ),
        (
            &none,
            &damaged,
            UnknownKeyId::Pass,
            Verdict::Drop(Refusal::Checksum),
        ),
        (
            &ends.tables[1],
            &plain,
            UnknownKeyId::Pass,
            Verdict::Drop(Refusal::OptionMissing),
        ),
        (&ends.tables[1], &unknown, UnknownKeyId::Pass, wrong_id),
        (&ends.tables[1], &unknown, UnknownKeyId::Drop, wrong_id),
        (&wide, &unknown, UnknownKeyId::Pass, wrong_id),
        (&wide, &unknown, UnknownKeyId::Drop, wrong_id),
        (&none, &plain, UnknownKeyId::Drop, Verdict::Pass),
        (&none, &ends.syn, UnknownKeyId::Pass, Verdict::Pass),
        (&none, &ends.syn, UnknownKeyId::Drop, wrong_id),
    ];
    for (table, syn, choice, expected) in cases {
        assert_eq!(judge_syn(table, source, destination, syn, choice), expected);
        let opened = Connection::open_passive(table, source, destination, syn, 1, choice);
        match expected {
            Verdict::Accept { .. } => assert!(opened.unwrap().unwrap().is_open()),
            Verdict::Pass => assert_eq!(opened, Ok(None)),
            Verdict::Drop(refusal) => assert_eq!(opened, Err(refusal)),
        }
    }
}

/// A state's fields, each with a value of its own.
#[test]
fn fields_of_a_state() {
    for (family, local, remote) in [
        (4, "16.17.18.19:1029", "32.33.34.35:1543"),
        (
            6,
            "[1011:1213:1415:1617:1819:1a1b:1c1d:1e1f]:1029",
            "[2021:2223:2425:2627:2829:2a2b:2c2d:2e2f]:1543",
        ),
    ] {
        let mut bytes: [u8; 177] = std::array::from_fn(|i| i as u8);
        bytes[0] = family;
        let state = Connection::from_bytes(&bytes).unwrap();
        assert_eq!(state.local(), local.parse::<SocketAddr>().unwrap());
        assert_eq!(state.remote(), remote.parse::<SocketAddr>().unwrap());
        assert!(state.is_open());
        assert_eq!((state.send_id(), state.ask_id()), (2, 3));
        assert_eq!((state.isn(), state.peer_isn()), (0x08090A0B, 0x0C0D0E0F));
        assert_eq!(state.sent_reference(), 0x3031323334353637);
        assert_eq!(state.seen_reference(), 0x38393A3B3C3D3E3F);
        assert_eq!(state.accepted(), 0x4041424344454647);
        assert_eq!(state.dropped(20), Some(0x48494A4B4C4D4E4F));
        assert_eq!(state.dropped(29), Some(0x9091929394959697));
        assert_eq!(state.dropped(40), Some(0x98999A9B9C9D9E9F));
        assert_eq!(state.dropped(46), Some(0xA0A1A2A3A4A5A6A7));
        assert_eq!(state.dropped(47), Some(0xA8A9AAABACADAEAF));
        assert_eq!(state.way(), Way::TcpAo);
        for way in 0..=255 {
            bytes[176] = way;
            let by_md5 = Connection::from_bytes(&bytes).unwrap().way() == Way::TcpMd5;
            assert_eq!(by_md5, way == 1);
        }
        bytes[176] = 176;
        assert_eq!(state.as_bytes(), &bytes);
        bytes[1] = 2;
        assert!(!Connection::from_bytes(&bytes).unwrap().is_open());
    }
    for family in (0..=255).filter(|family| ![4, 6].contains(family)) {
        let mut bytes = [4; 177];
        bytes[0] = family;
        assert_eq!(Connection::from_bytes(&bytes), Err(Refusal::State));
    }
    for len in (0..=300).filter(|len| *len != 177) {
        assert_eq!(Connection::from_bytes(&vec![4; len]), Err(Refusal::State));
    }
}

/// A key change, asked for by one end: the other signs under the new key from then on.
#[test]
fn key_change() {
    for kind in kinds() {
        let mut ends = Ends::open(kind);
        for end in [0, 1] {
            let new = if kind.ipv6 {
                Entry::ipv6()
            } else {
                Entry::ipv4()
            };
            let new = new.send_id(50 + end as u8).recv_id(51 - end as u8);
            let new = new.key(b"new").build().unwrap();
            let both = [ends.tables[end].as_bytes(), new.as_bytes()].concat();
            ends.tables[end] = KeyTable::from_bytes(both).unwrap();
        }
        ends.ends[0].ask(&ends.tables[0], 51).unwrap();
        assert_eq!(ends.ends[0].ask_id(), 51);
        let signed = segment(PORTS, ISNS[0] + 1, ACK, &[], b"");
        let signed = ends.sign(&signed).unwrap();
        assert_eq!(ends.ends[1].send_id(), IDS[1]);
        assert_eq!(ends.judge(&signed), Verdict::Accept { extension: 0 });
        assert_eq!(ends.ends[1].send_id(), 51);
    }
}

/// Both ends over the rollover of the sequence numbers.
#[test]
fn rollover() {
    for kind in kinds() {
        let mut ends = Ends::open(kind);
        let mut number = ISNS[0];
        let mut extension = 0;
        for _ in 0..12 {
            let (next, rolled) = number.overflowing_add(0x3FFF_FFFF);
            number = next;
            extension += u32::from(rolled);
            let signed = ends.sign(&segment(PORTS, number, ACK, &[], b"data"));
            assert_eq!(ends.judge(&signed.unwrap()), Verdict::Accept { extension });
        }
        assert_eq!(extension, 3);
        let furthest = u64::from(extension) << 32 | u64::from(number);
        assert_eq!(ends.ends[0].sent_reference(), furthest);
        assert_eq!(ends.ends[1].seen_reference(), furthest);
    }
}

/// A client behind address translation, or both: what is rewritten on a side that both ends say is
/// translated is accepted, on another side it is dropped with 29.
#[test]
fn translation() {
    let outside: IpAddr = [203, 0, 113, 9].into();
    let port = 61_001;
    for kind in kinds().into_iter().filter(|kind| !kind.ipv6) {
        for (said, at_head) in [(true, true), (true, false), (false, true), (false, false)] {
            let [inside, server] = Ends::open(kind).addresses;
            let entry = |end: usize| {
                let entry = Entry::ipv4().send_id(IDS[end]).recv_id(IDS[1 - end]);
                let entry = entry.algorithm(kind.algorithm).covered(kind.covered);
                entry.key(b"a key of both ends")
            };
            let ours = entry(0)
                .local(inside, 32)
                .remote(server, 32)
                .local_nat(said);
            let theirs = entry(1)
                .local(server, 32)
                .remote(outside, 32)
                .remote_nat(at_head);
            let ours = KeyTable::new([&ours.build().unwrap()]).unwrap();
            let theirs = KeyTable::new([&theirs.build().unwrap()]).unwrap();
            let (from, to) = ((inside, PORTS[0]), (server, PORTS[1]));
            let mut client = Connection::open_active(&ours, from, to, ISNS[0], IDS[0]).unwrap();
            let syn = segment(PORTS, ISNS[0], SYN, &[], &[]);
            let sent = client.sign(&ours, &syn).unwrap();
            assert_eq!(sent[..12], syn[..12]);
            let rewritten = |sent: &[u8]| {
                let mut seen = sent.to_vec();
                seen[0..2].copy_from_slice(&u16::to_be_bytes(port));
                kit::segment::summed(&octets(outside), &octets(server), &seen)
            };
            let choice = UnknownKeyId::Drop;
            let seen = rewritten(&sent);
            let verdict = judge_syn(&theirs, outside, server, &seen, choice);
            let opened = Connection::open_passive(&theirs, outside, server, &seen, ISNS[1], choice);
            if !said || !at_head {
                assert_eq!(verdict, Verdict::Drop(Refusal::MacDiffers));
                assert_eq!(opened, Err(Refusal::MacDiffers));
                continue;
            }
            assert_eq!(verdict, Verdict::Accept { extension: 0 });
            let mut end = opened.unwrap().unwrap();
            assert_eq!(end.remote(), SocketAddr::new(outside, port));

            // The answer goes to what the server sees, and is translated back.
            let back = segment([PORTS[1], port], ISNS[1], SYN | ACK, &[], &[]);
            let mut back = end.sign(&theirs, &back).unwrap();
            back[2..4].copy_from_slice(&PORTS[0].to_be_bytes());
            let back = kit::segment::summed(&octets(server), &octets(inside), &back);
            let verdict = client.judge(&ours, server, inside, &back);
            assert_eq!(verdict, Verdict::Accept { extension: 0 });

            // Rewritten to what the other end does not hold: another connection's.
            let data = segment(PORTS, ISNS[0] + 1, ACK, &[], b"data");
            let sent = client.sign(&ours, &data).unwrap();
            let seen = rewritten(&sent);
            let verdict = end.judge(&theirs, outside, server, &seen);
            assert_eq!(verdict, Verdict::Accept { extension: 0 });
            let unchanged = kit::segment::summed(&octets(outside), &octets(server), &sent);
            let verdict = end.judge(&theirs, outside, server, &unchanged);
            assert_eq!(verdict, Verdict::Drop(Refusal::OtherPair));
        }
    }
}

/// What is shown for people to read holds no key.
#[test]
fn no_key_is_shown() {
    let builder = Entry::ipv4().key([0xEE; 16]);
    let entry = builder.clone().build().unwrap();
    let table = KeyTable::new([&entry]).unwrap();
    let old_builder = Md5Entry::ipv4().key([0xEE; 16]);
    let old = old_builder.clone().build().unwrap();
    let old_table = Md5Table::new([&old]).unwrap();
    let tables = Tables::from(&old_table);
    let shown =
        format!("{builder:?} {entry:?} {table:?} {old_builder:?} {old:?} {old_table:?} {tables:?}");
    assert!(!shown.contains("238") && !shown.to_lowercase().contains("ee"));
}

/// Any bytes anywhere: every call returns.
#[test]
fn any_bytes() {
    let mut bytes = Bytes(17);
    let mut ends = Ends::open(FIRST_KIND);
    let signed = segment(PORTS, ISNS[0] + 1, ACK, &[1; 8], b"data");
    let signed = ends.sign(&signed).unwrap();
    let good = ends.ends[1].as_bytes().to_vec();
    let old = Md5Ends::open(false).tables;
    for _ in 0..20_000 {
        let mut segment = signed.clone();
        for _ in 0..bytes.below(4) {
            let at = bytes.below(segment.len());
            segment[at] = bytes.byte();
        }
        segment.truncate(bytes.below(segment.len() + 1));
        if bytes.below(2) == 0 {
            segment = ends.summed(&segment);
        }
        let mut state = good.clone();
        for _ in 0..bytes.below(6) {
            let at = bytes.below(state.len());
            state[at] = bytes.byte();
        }
        let Ok(mut end) = Connection::from_bytes(&state) else {
            continue;
        };
        let addresses = [
            ends.addresses[0],
            ends.addresses[1],
            IpAddr::from([bytes.byte(); 16]),
        ];
        let source = addresses[bytes.below(3)];
        let destination = addresses[bytes.below(3)];
        let table = [
            Tables::from(&ends.tables[bytes.below(2)]),
            Tables::from(&old[bytes.below(2)]),
        ][bytes.below(2)];
        let setting = [UnknownKeyId::Pass, UnknownKeyId::Drop][bytes.below(2)];
        let _ = judge_syn(table, source, destination, &segment, setting);
        let _ = Connection::open_passive(table, source, destination, &segment, 7, setting);
        let _ = Connection::open_active(table, (source, 1), (destination, 2), 7, bytes.byte());
        let _ = Connection::open_active_md5(table, (source, 1), (destination, 2), 7);
        let _ = end.judge(table, source, destination, &segment);
        let _ = end.ask(table, bytes.byte());
        let _ = end.sign(table, &segment);
        let mut out = vec![0; bytes.below(100)];
        let _ = end.sign_into(table, &segment, &mut out);
        let _ = format!("{end:?}");
        let _ = KeyTable::from_bytes(segment.clone());
        let _ = Md5Table::from_bytes(segment);
    }
}
