//! The key table: P10 to P12, the layout, matching, the searches, and the clash against a search
//! for a socket pair.

mod common;

use common::*;
use reference::table::{self, Algorithm, Pair};

fn number_of(keys: &[Entry]) -> Option<(u8, u32)> {
    let bytes = table(keys);
    table::read(&bytes)
        .err()
        .map(|refusal| (refusal.number, refusal.index))
}

#[test]
fn p10_to_p12() {
    let mut one = Entry::between(&A4, &B4).ids(1, 2);
    let mut other = Entry::between(&A4, &B4).ids(1, 2);

    // P10: 10.0.0.0/8 and 10.1.0.0/16 overlap.
    one.local = Side::any(4).prefix(&[10, 0, 0, 0], 8);
    other.local = Side::any(4).prefix(&[10, 1, 0, 0], 16);
    assert_eq!(number_of(&[one.clone(), other.clone()]), Some((17, 1)));
    assert_eq!(number_of(&[other.clone(), one.clone()]), Some((17, 1)));
    other.local = Side::any(4).prefix(&[11, 1, 0, 0], 16);
    assert_eq!(number_of(&[one.clone(), other.clone()]), None);

    // P11: ports 100-178 and 179-179 do not. P12: 100-179 and 179-179 do.
    other.local = one.local.clone();
    one.remote = Side::host(&B4).ports(100, 178);
    other.remote = Side::host(&B4).ports(179, 179);
    assert_eq!(number_of(&[one.clone(), other.clone()]), None);
    one.remote = Side::host(&B4).ports(100, 179);
    assert_eq!(number_of(&[one, other]), Some((17, 1)));
}

#[test]
fn bad_tables_are_refused() {
    for (name, bytes, answer) in bad_tables() {
        let refusal = table::read(&bytes).unwrap_err();
        assert_eq!((refusal.number, refusal.index), answer, "{name}");
    }
}

/// A table cut at any place is refused with 10 at the entry that is cut.
#[test]
fn cut_anywhere() {
    let keys = [
        Entry::between(&A4, &B4).ids(1, 2),
        Entry::between(&A6, &B6).ids(1, 2),
        Entry::between(&A4, &B4).ids(3, 4).mac_length(9),
        Entry::between(&A6, &B6).ids(3, 4).mac_length(16),
    ];
    let bytes = table(&keys);
    let ends = [0, 104, 104 + 128, 104 + 128 + 105, 104 + 128 + 105 + 129];
    assert_eq!(bytes.len(), ends[4]);
    for length in 0..=bytes.len() {
        let result = table::read(&bytes[..length]).map(|entries| entries.len());
        match ends.iter().position(|end| *end == length) {
            Some(entries) => assert_eq!(result, Ok(entries)),
            None => {
                let refusal = result.unwrap_err();
                assert_eq!(refusal.number, 10);
                let whole = ends[1..].iter().filter(|end| **end < length).count();
                assert_eq!(refusal.index, whole as u32);
            }
        }
    }
}

#[test]
fn fields_stand_in_their_places() {
    for (mac_length, kind, mac_bytes) in [(None, 6, 12), (Some(5), 7, 5), (Some(16), 7, 16)] {
        let key = Entry {
            flags: 0,
            algorithm: 2,
            send_id: 0x11,
            recv_id: 0x22,
            local: Side::host(&A6).ports(0x0102, 0x0304),
            remote: Side::any(16).prefix(&[0xfc; 16], 126).ports(0x0506, 0x0708),
            mac_length,
            key: (1..=80).collect(),
        };
        let bytes = key.bytes();
        let entry = table::read(&bytes).unwrap()[0];
        assert_eq!((entry.kind, entry.mac_bytes), (kind, mac_bytes));
        assert!(!entry.covers_options);
        assert_eq!(entry.algorithm, Algorithm::AesCmac);
        assert_eq!((entry.send_id, entry.recv_id), (0x11, 0x22));
        assert_eq!((entry.local.low, entry.local.high), (0x0102, 0x0304));
        assert_eq!((entry.remote.low, entry.remote.high), (0x0506, 0x0708));
        assert_eq!(entry.local.address[..], A6);
        assert_eq!(entry.local.prefix, 128);
        assert_eq!(entry.remote.address[..], [0xfc; 16]);
        assert_eq!(entry.remote.prefix, 126);
        assert_eq!(entry.key, key.key);
    }
}

/// Flags 0 to 7, bit by bit; all others are 13.
#[test]
fn the_flags() {
    for flags in 0..=255 {
        let key = Entry {
            flags,
            ..Entry::between(&A4, &B4)
        };
        let expected = (flags > 7).then_some((13, 0));
        assert_eq!(number_of(std::slice::from_ref(&key)), expected);
        if flags <= 7 {
            let bytes = key.bytes();
            let entry = table::read(&bytes).unwrap()[0];
            assert_eq!(entry.covers_options, [1, 3, 5, 7].contains(&flags));
            assert_eq!(entry.local_nat, [2, 3, 6, 7].contains(&flags));
            assert_eq!(entry.remote_nat, [4, 5, 6, 7].contains(&flags));
        }
    }
}

#[test]
fn sixty_four_entries_are_taken() {
    let key = Entry::between(&A6, &B6);
    let keys: Vec<Entry> = (0..64).map(|i| key.clone().ids(i, 255 - i)).collect();
    assert_eq!(number_of(&keys), None);
    let bytes = table(&keys);
    let entries = table::read(&bytes).unwrap();
    let pair = Pair {
        local: &A6,
        remote: &B6,
        local_port: 1,
        remote_port: 2,
    };
    for i in 0..64 {
        let found = table::by_send_id(&entries, &pair, i).unwrap();
        assert_eq!(found.recv_id, 255 - i);
        let found = table::by_recv_id(&entries, &pair, 255 - i).unwrap();
        assert_eq!(found.send_id, i);
    }
    assert_eq!(table::by_send_id(&entries, &pair, 64), None);
    assert_eq!(table::by_recv_id(&entries, &pair, 64), None);
}

/// Ports at the ends of a range, prefixes of every length, and the other family.
#[test]
fn matching() {
    let mut key = Entry::between(&A4, &B4).ids(1, 2);
    key.local = Side::host(&A4).ports(100, 200);
    let bytes = key.bytes();
    let entry = table::read(&bytes).unwrap()[0];
    for (port, matches) in [(99, false), (100, true), (200, true), (201, false)] {
        let pair = Pair {
            local: &A4,
            remote: &B4,
            local_port: port,
            remote_port: 0,
        };
        assert_eq!(entry.matches(&pair), matches, "port {port}");
    }
    let other_family = Pair {
        local: &A6,
        remote: &B6,
        local_port: 100,
        remote_port: 0,
    };
    assert!(!entry.matches(&other_family));

    for prefix in 0..=128u32 {
        let network = if prefix == 0 {
            0
        } else {
            u128::MAX << (128 - prefix)
        };
        let mut key = Entry::between(&A6, &B6).ids(1, 2);
        key.remote = Side::any(16).prefix(&network.to_be_bytes(), prefix as u8);
        let bytes = key.bytes();
        let entry = table::read(&bytes).unwrap()[0];
        for bit in 0..128 {
            let remote = (u128::MAX ^ 1 << (127 - bit)).to_be_bytes();
            let pair = Pair {
                local: &A6,
                remote: &remote,
                local_port: 0,
                remote_port: 0,
            };
            assert_eq!(entry.matches(&pair), bit >= prefix);
        }
    }
}

/// 17 "exactly if a socket pair exists that two entries both match while they share SendID or share
/// RecvID": over small ranges and short prefixes every pair is tried.
#[test]
fn the_clash_is_exact() {
    let mut seed = 1u32;
    let mut random = |below: u32| {
        seed = seed.wrapping_mul(1_664_525).wrapping_add(1_013_904_223);
        (seed >> 16) % below
    };
    let mut clashes = 0;
    for _ in 0..3000 {
        // Ports 0 to 3, addresses that differ in their first two bits.
        let mut keys = vec![];
        for _ in 0..2 {
            let mut key = Entry::between(&A4, &B4).ids(random(2) as u8, random(2) as u8);
            for side in 0..2 {
                let (low, high) = (random(4) as u16, random(4) as u16);
                let prefix = random(3) as u8;
                let first = (random(4) << 6) as u8 & !(0xff >> prefix);
                let around = Side::any(4)
                    .ports(low.min(high), low.max(high))
                    .prefix(&[first, 0, 0, 0], prefix);
                if side == 0 {
                    key.local = around;
                } else {
                    key.remote = around;
                }
            }
            if random(2) == 0 {
                key.mac_length = Some(4 + random(13) as u8);
            }
            keys.push(key);
        }
        let bytes: Vec<Vec<u8>> = keys.iter().map(Entry::bytes).collect();
        let one = table::read(&bytes[0]).unwrap()[0];
        let other = table::read(&bytes[1]).unwrap()[0];
        let mut exists = false;
        for case in 0..256u16 {
            let pair = Pair {
                local: &[(case as u8 & 3) << 6, 0, 0, 0],
                remote: &[(case as u8 >> 2 & 3) << 6, 0, 0, 0],
                local_port: case >> 4 & 3,
                remote_port: case >> 6 & 3,
            };
            exists |= one.matches(&pair) && other.matches(&pair);
        }
        let shared = one.send_id == other.send_id || one.recv_id == other.recv_id;
        let expected = (exists && shared).then_some((17, 1));
        assert_eq!(number_of(&keys), expected, "{keys:?}");
        clashes += (exists && shared) as u32;
    }
    assert!((300..2700).contains(&clashes), "{clashes} clashes");
}
