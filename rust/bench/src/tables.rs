//! Checking a key table of 64 entries, by itself and beside an MD5 table of 64, against one HMAC-SHA-1 of
//! 1,400 bytes and against the reference.

use crate::connection::{anybody, KEY};
use crate::timing::{Limit, Outcome, Table};
use bench::{hmac_sha1, Bytes, ARCHIVE, REFERENCE};
use kit::{Boundary, Entry, Side};
use std::hint::black_box;

const ROUNDS: usize = 201;
/// The row of both tables.
const BOTH: &str = "IPv4, different IDs; 64 MD5 peers";
/// Calls to a round.
const COUNT: usize = 10;

/// A table of 64 entries, by their index.
struct Entries {
    name: &'static str,
    entry: fn(u8) -> Entry,
}

impl Entries {
    fn bytes(&self) -> Vec<u8> {
        (0..64).flat_map(|i| (self.entry)(i).bytes()).collect()
    }
}

/// Where all entries share their IDs, each is compared with all before it: with its ports, then with
/// one address, then with the other.
const TABLES: [Entries; 4] = [
    Entries {
        name: "IPv4, different IDs",
        entry: |i| anybody().ids(i, 100 + i),
    },
    Entries {
        name: "IPv4, the same IDs, ports differ",
        entry: |i| {
            let port = 1_000 + u16::from(i);
            Entry {
                local: Side::any(4).ports(port, port),
                ..anybody().ids(1, 2)
            }
        },
    },
    Entries {
        name: "IPv6, the same IDs, one /128 differs",
        entry: |i| Entry {
            local: Side::any(16),
            remote: host(i),
            ..anybody().ids(1, 2)
        },
    },
    Entries {
        name: "IPv6, the same IDs, second /128 differs",
        entry: |i| Entry {
            local: host(i),
            remote: host(7),
            ..anybody().ids(1, 2)
        },
    },
];

/// Beside the first of them, 64 peers by TCP MD5: each entry is compared with all before it, and then with all
/// of the key table. The key table's entries are for anybody from elsewhere.
fn both() -> [Vec<u8>; 2] {
    let key = |i| Entry {
        remote: Side::any(4).prefix(&[10, 0, 0, 0], 8),
        ..anybody().ids(i, 100 + i)
    };
    let md5 = |i| Entry {
        key: KEY.to_vec(),
        ..Entry::md5(&[192, 0, 2, 1], &[192, 0, 2, i])
    };
    [
        (0..64).flat_map(|i| key(i).bytes()).collect(),
        (64..128).flat_map(|i| md5(i).bytes()).collect(),
    ]
}

/// A host's IPv6 address whose last byte is given.
fn host(last: u8) -> Side {
    let mut address = b"\x20\x01\x0d\xb8 IPv6 host ".to_vec();
    address.push(last);
    Side::host(&address)
}

pub fn against_hmac() -> Outcome {
    let message = Bytes(13).take(1_400);
    let mut out = [0; 20];
    let mut hmac = || {
        hmac_sha1(&KEY, black_box(&message), black_box(&mut out));
    };
    let mut table = Table::new(
        "Checking a valid key table of 64 entries against one HMAC-SHA-1 of 1,400 bytes.",
        "entries",
        "HMAC",
        ROUNDS,
        Limit {
            rows: "checks of 64 entries by one HMAC-SHA-1 of 1,400 bytes",
            ratio: 10.0,
            wanted: true,
        },
    );
    for entries in &TABLES {
        let bytes = entries.bytes();
        let mut ours = || check(ARCHIVE, &bytes, &[]);
        table.row(entries.name, true, COUNT, &mut ours, &mut hmac);
    }
    let [keys, md5] = both();
    let mut ours = || check(ARCHIVE, &keys, &md5);
    table.row(BOTH, false, COUNT, &mut ours, &mut hmac);
    table.end()
}

pub fn against_reference() -> Outcome {
    let mut table = Table::new(
        "The same against a plain Rust implementation of the rules (rust/reference).",
        "entries",
        "reference",
        ROUNDS,
        Limit {
            rows: "checks of the first three tables by the reference",
            ratio: 1.25,
            wanted: false,
        },
    );
    // The last is only reported: there the two look at the sides in different order.
    for (i, entries) in TABLES.iter().enumerate() {
        let bytes = entries.bytes();
        let limited = i < 3;
        let mut ours = || check(ARCHIVE, &bytes, &[]);
        let mut reference = || check(REFERENCE, &bytes, &[]);
        table.row(entries.name, limited, COUNT, &mut ours, &mut reference);
    }
    let [keys, md5] = both();
    let mut ours = || check(ARCHIVE, &keys, &md5);
    let mut reference = || check(REFERENCE, &keys, &md5);
    table.row(BOTH, false, COUNT, &mut ours, &mut reference);
    table.end()
}

fn check(boundary: Boundary, keys: &[u8], md5: &[u8]) {
    let answer = (boundary.check_table)(0, black_box(keys), black_box(md5));
    assert_eq!(answer, 64 << 32);
}
