//! Ticket 8: prepared tables give what the bytes give, and whatever bytes are stored read as entries that valid
//! bytes could hold.

mod common;

use common::cases::prepared::{others, raws, with_entry};
use common::*;
use kit::prepared::{by, counts, length, mark, prepared, Field, BACK, COLUMNS, MOST, SLOT};
use kit::{entry::covered, word, Bytes};
use reference::md5_table::{self, Lent, Md5Entry};
use reference::prepared::prepared_bytes;
use reference::table::{self as keys, Side as Read};

/// "a call with it gives what the bytes would give": every directed case with good tables, by each form.
#[test]
fn what_the_bytes_give() {
    let mut same = 0;
    for case in cases() {
        let call = case.call.clone();
        if call.form != 0 || !call.function.takes_form() || call.table.len() > 50_000 {
            continue;
        }
        let Some(table) = by(REFERENCE.prepare, &call.table, &call.md5) else {
            continue;
        };
        for form in [1, 255] {
            let by_form = Call {
                form,
                table: table.clone(),
                md5: vec![],
                ..call.clone()
            };
            assert_eq!(REFERENCE.make(&by_form), run(&case), "{}", case.name);
        }
        same += 1;
    }
    assert!(same > 800, "{same}");
}

/// Stored entries that are read as others: every call gives what the bytes of these give.
#[test]
fn what_stored_entries_are_read_as() {
    for raw in raws() {
        let (a, mut b) = with_entry(&raw.meant);
        let from_b = b.sign(B_ISN + 1, ACK, b"from B");
        // As bytes it is alone: the others in the prepared table are for other peers.
        let [mut bytes, mut stored] = [a.clone(), a];
        (stored.form, stored.table, stored.md5) = (7, raw.table(), vec![]);
        let ends = [&mut bytes, &mut stored];
        let [one, other] = ends.map(|end| {
            let judged = end.judge(&from_b);
            let signed = end.sign(A_ISN + 1, ACK, b"data");
            let asked = (end.ask(2), end.ask(3));
            (judged, signed, asked, end.state.clone())
        });
        assert_eq!(one, other, "{}", raw.name);
        assert_eq!(one.0, 0, "{}", raw.name);
    }
}

/// The entries of the largest tables, of which the last are for A and B.
fn largest() -> [Vec<Entry>; 2] {
    let mut keys = cases::table::full();
    keys.reverse();
    let six = |i: u16| {
        let side = Side::host(&B6).ports(i, i);
        Entry {
            remote: side,
            ..Entry::md5(&A6, &B6)
        }
    };
    [keys, (0..1_024).map(six).collect()]
}

/// To the byte, by a writer of its own; "it writes only its own length".
#[test]
fn the_bytes_that_preparing_writes() {
    let [keys, md5] = others();
    let kinds: Vec<Entry> = [4, 5, 12, 16]
        .into_iter()
        .flat_map(|bytes| {
            let four = Entry::between(&A4, &B4).ids(bytes, 2 * bytes);
            let six = Entry {
                flags: bytes % 8,
                algorithm: 1 + bytes % 3,
                local: Side::any(16).ports(7, 0x1234),
                remote: Side::any(16).prefix(&[0xf0; 16], 124).ports(0xabcd, 0xef01),
                key: vec![bytes; 80],
                ..Entry::between(&A6, &B6).ids(bytes, 2 * bytes)
            };
            [four.mac_length(bytes), six]
        })
        .collect();
    let [many, many_md5] = largest();
    for (keys, md5) in [
        (&keys[..], &md5[..]),
        (&kinds, &md5),
        (&[], &[]),
        (&[], &md5),
        (&kinds, &[]),
        (&many, &many_md5),
    ] {
        let expected = prepared(keys, md5);
        let entries = keys.len() + md5.len();
        assert_eq!(expected.len(), length(entries));
        assert_eq!(expected.len(), prepared_bytes(entries));
        assert_eq!(counts(&expected), [keys.len(), md5.len()]);
        for spare in [0, 1, 300] {
            let mut out = vec![0xee; expected.len() + spare];
            let answer = (REFERENCE.prepare)(&table(keys), &table(md5), &mut out);
            assert_eq!(answer, word(0, expected.len() as u32));
            let (written, behind) = out.split_at(expected.len());
            assert_eq!(written, expected);
            assert!(behind.iter().all(|byte| *byte == 0xee));
        }
        let mut out = vec![0xee; expected.len() - 1];
        let answer = (REFERENCE.prepare)(&table(keys), &table(md5), &mut out);
        assert_eq!(answer, word(37, 0));
        assert!(out.iter().all(|byte| *byte == 0xee));
    }
    assert_eq!(prepared(&many, &many_md5).len(), MOST);
}

/// Where each field stands, written down once more.
#[test]
fn fields_stand_in_their_places() {
    // Of three entries the second.
    let slot = 4 + 4 * 3 + 24;
    let back = 4 + 4 * 3 + 24 * 3 + 101;
    let places = [
        (Field::SendId, 5, 1),
        (Field::RecvId, 8, 1),
        (Field::RemotePrefix, 11, 1),
        (Field::Mark, 14, 1),
        (Field::Family, slot, 1),
        (Field::RemoteAddress, slot + 1, 15),
        (Field::RemoteLow, slot + 16, 2),
        (Field::RemoteHigh, slot + 18, 2),
        (Field::LocalLow, slot + 20, 2),
        (Field::LocalHigh, slot + 22, 2),
        (Field::Flags, back, 1),
        (Field::Algorithm, back + 1, 1),
        (Field::MacBytes, back + 2, 1),
        (Field::KeyLength, back + 3, 1),
        (Field::LocalPrefix, back + 4, 1),
        (Field::LocalAddress, back + 5, 16),
        (Field::Key, back + 21, 80),
    ];
    assert_eq!((COLUMNS, SLOT, BACK), (4, 24, 101));
    for (place, field) in places.iter().zip(Field::ALL) {
        let (listed, at, bytes) = *place;
        assert_eq!(listed, field);
        assert_eq!(field.of(3, 1), at..at + bytes, "{field:?}");
    }
}

/// Two entries to the byte, written down here: "the sum of the remote address's bytes (four or sixteen) modulo 256".
#[test]
fn two_entries_to_the_byte() {
    let key = Entry {
        flags: 5,
        algorithm: 2,
        local: Side::any(4).prefix(&[10, 0, 0, 0], 8).ports(1, 2),
        remote: Side::host(&[192, 168, 7, 200]).ports(0x0102, 0x0304),
        key: b"key".to_vec(),
        ..Entry::between(&A4, &B4).ids(8, 9)
    };
    let mut peer = [0xf1; 16];
    peer[15] = 0x40;
    let md5 = Entry {
        remote: Side::any(16).prefix(&peer, 126),
        key: b"secret".to_vec(),
        ..Entry::md5(&A6, &B6)
    };
    let any_port = [0, 0, 255, 255];
    let expected: Vec<Vec<u8>> = vec![
        vec![0, 1, 0, 1],
        vec![8, 0],
        vec![9, 0],
        vec![32, 126],
        // 567 - 2 * 256; 15 * 241 + 64 - 14 * 256.
        vec![55, 95],
        vec![4, 192, 168, 7, 0, 0, 0, 0, 0, 0, 0, 0, 0, 0, 0, 0],
        vec![1, 2, 3, 4, 0, 1, 0, 2],
        [&[6][..], &[0xf1; 15], &any_port, &any_port].concat(),
        [&[5, 2, 12, 3, 8, 10][..], &[0; 15], b"key", &[0; 77]].concat(),
        [&[0, 19, 16, 6, 128][..], &A6, b"secret", &[0; 74]].concat(),
    ];
    let expected = expected.concat();
    let mut out = vec![0; length(2)];
    let answer = (REFERENCE.prepare)(&key.bytes(), &md5.bytes(), &mut out);
    assert_eq!(answer, word(0, 262));
    assert_eq!(out, expected);
    let lent = Lent {
        form: 1,
        keys: &out,
        md5: &[],
    };
    let read = lent.read().unwrap();
    assert_eq!(read.keys[0].remote.address[..], [192, 168, 7, 200]);
    assert_eq!(read.md5[0].remote.address[..], peer);
}

/// With the largest tables, each entry is found; as bytes they give the same.
#[test]
fn every_entry_of_the_largest() {
    let [keys, md5] = largest();
    let table = prepared(&keys, &md5);
    let state = kit::State::default().bytes();
    for (i, key) in keys.iter().enumerate() {
        let mut state = state.clone();
        let Entry { send_id, .. } = *key;
        let address = &key.remote.address;
        let open = REFERENCE.open_active;
        let opened = open(3, &table, &[], &A4, address, 1, 2, 3, send_id, &mut state);
        assert_eq!((opened, state[2]), (0, send_id), "entry {i}");
    }
    for (i, _) in md5.iter().enumerate() {
        let mut state = state.clone();
        let (port, open) = (i as u16, REFERENCE.open_active_md5);
        let opened = open(3, &table, &[], &A6, &B6, 1, port, 3, &mut state);
        assert_eq!((opened, state[176]), (0, 1), "MD5 entry {i}");
    }
    let mut state = state.clone();
    let open = REFERENCE.open_active_md5;
    assert_eq!(open(3, &table, &[], &A6, &B6, 1, 1_024, 3, &mut state), 35);
}

/// A side that was read, as an entry's.
fn side(read: &Read) -> Side {
    let mut address = read.address.to_vec();
    for (at, byte) in address.iter_mut().enumerate() {
        *byte &= covered(read.prefix, at);
    }
    Side {
        low: read.low,
        high: read.high,
        address,
        prefix: read.prefix as u8,
    }
}

/// "a stored entry always reads as one that valid bytes could hold": by itself in a table's bytes it is not
/// refused, and reads as the same.
#[test]
fn whatever_is_stored() {
    let mut random = Bytes(8);
    for round in 0..4_000 {
        let [n, m] = [random.byte() % 3, random.byte() % 3];
        let mut table: Vec<u8> = vec![0, n, 0, m];
        table.resize(length(usize::from(n + m)), 0);
        for byte in &mut table[4..] {
            *byte = match random.byte() % 4 {
                0 => [0, 1, 4, 6, 16, 19, 32, 80, 128, 255][usize::from(random.byte()) % 10],
                _ => random.byte(),
            };
        }
        let lent = Lent {
            form: 1,
            keys: &table,
            md5: &[],
        };
        let read = lent.read().unwrap();
        assert_eq!([read.keys.len(), read.md5.len()], [n, m].map(usize::from));
        let key_addresses = read.keys.iter().map(|entry| entry.remote.address);
        let addresses = key_addresses.chain(read.md5.iter().map(|entry| entry.remote.address));
        for (index, address) in addresses.enumerate() {
            let stored = |field: Field| &table[field.of(usize::from(n + m), index)];
            let family = if stored(Field::Family) == [4] { 4 } else { 16 };
            assert_eq!(address.len(), family);
            let (_, before_last) = address.split_last().unwrap();
            assert_eq!(before_last, &stored(Field::RemoteAddress)[..family - 1]);
            assert_eq!([mark(&address)], stored(Field::Mark));
        }
        for entry in read.keys {
            let mut written = Entry {
                flags: u8::from(entry.covers_options),
                algorithm: entry.algorithm.number(),
                send_id: entry.send_id,
                recv_id: entry.recv_id,
                local: side(&entry.local),
                remote: side(&entry.remote),
                mac_length: Some(entry.mac_bytes as u8),
                key: entry.key.to_vec(),
            };
            written = written.nat(entry.local_nat, entry.remote_nat);
            let bytes = written.bytes();
            let mut again = keys::read(&bytes).unwrap();
            let again = again.remove(0);
            assert_eq!(again.kind, entry.kind, "round {round}");
            let sides = |e: &keys::Entry| [e.local, e.remote].map(|it| side(&it));
            assert_eq!(sides(&again), sides(&entry));
            let same = keys::Entry {
                local: entry.local,
                remote: entry.remote,
                ..again
            };
            assert_eq!(same, entry);
        }
        for entry in read.md5 {
            let written = Entry {
                local: side(&entry.local),
                remote: side(&entry.remote),
                key: entry.key.to_vec(),
                ..Entry::md5(&A4, &B4)
            };
            let bytes = written.bytes();
            let again = md5_table::read(&bytes).unwrap().remove(0);
            let sides = |e: &Md5Entry| [e.local, e.remote].map(|it| side(&it));
            assert_eq!(sides(&again), sides(&entry));
            assert_eq!(again.key, entry.key);
        }
    }
}

/// 44 for every length but one, whatever the counts.
#[test]
fn every_length() {
    let check = |table: &[u8]| (REFERENCE.check_table)(1, table, &[]);
    for counts in [[0, 0, 0, 0], [0, 1, 0, 0], [0, 0, 0, 2], [0, 2, 0, 1]] {
        let right = length(usize::from(counts[1] + counts[3]));
        for bytes in 0..=length(4) {
            let mut table = vec![0x33; bytes];
            for (byte, count) in table.iter_mut().zip(counts) {
                *byte = count;
            }
            let expected = if bytes == right {
                word(0, counts[1].into())
            } else {
                word(44, 0)
            };
            assert_eq!(check(&table), expected);
        }
    }
}
