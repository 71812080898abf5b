//! SHA-1, SHA-256, HMAC with both, MD5 and AES-CMAC against plain Rust, and AES-CMAC against T-tables.

use crate::timing::{Limit, Outcome, Table};
use crate::{count, SIZES};
use bench::{aes128_cmac, hmac_sha1, hmac_sha256, md5, sha1, sha256, Bytes};
use std::hint::black_box;

const ROUNDS: usize = 201;
/// The limit by T-tables is close: more rounds, so that both minima are found.
const TABLE_ROUNDS: usize = 1_001;

type Call = fn(&[u8; 16], &[u8], &mut [u8; 32]);

/// A function on a message under one 16-byte key, in both forms.
struct Pair {
    name: &'static str,
    ours: Call,
    plain: Call,
}

const HASHES: [Pair; 2] = [
    Pair {
        name: "SHA-1",
        ours: |_, message, out| {
            sha1(message, out);
        },
        plain: |_, message, out| out[..20].copy_from_slice(&plain::sha1::sha1(message)),
    },
    Pair {
        name: "HMAC-SHA-1",
        ours: |key, message, out| {
            hmac_sha1(key, message, out);
        },
        plain: |key, message, out| {
            out[..20].copy_from_slice(&plain::hmac::hmac_sha1(key, message));
        },
    },
];

const HASHES_256: [Pair; 2] = [
    Pair {
        name: "SHA-256",
        ours: |_, message, out| {
            sha256(message, out);
        },
        plain: |_, message, out| *out = plain::sha256::sha256(message),
    },
    Pair {
        name: "HMAC-SHA-256",
        ours: |key, message, out| {
            hmac_sha256(key, message, out);
        },
        plain: |key, message, out| *out = plain::hmac::hmac_sha256(key, message),
    },
];

const MD5: Pair = Pair {
    name: "MD5",
    ours: |_, message, out| {
        md5(message, out);
    },
    plain: |_, message, out| out[..16].copy_from_slice(&plain::md5::md5(message)),
};

const CMAC: Pair = Pair {
    name: "AES-CMAC",
    ours: |key, message, out| {
        aes128_cmac(key, message, out);
    },
    plain: |key, message, out| out[..16].copy_from_slice(&plain::cmac::cmac(key, message)),
};

/// AES-CMAC once more, by four T-tables in Rust.
const BY_TABLES: Pair = Pair {
    plain: |key, message, out| {
        out[..16].copy_from_slice(&plain::aes_tables::cmac(key, message));
    },
    ..CMAC
};

/// Both forms must give the same before their times mean anything.
fn compare() -> usize {
    let mut bytes = Bytes(7);
    let mut inputs = 0;
    for n in (0..=2_000).chain(SIZES) {
        let key: [u8; 16] = bytes.take(16).try_into().unwrap();
        let message = bytes.take(n);
        let hashes = HASHES.iter().chain(&HASHES_256);
        for pair in hashes.chain([&MD5, &CMAC, &BY_TABLES]) {
            let (mut ours, mut plain) = ([0; 32], [0; 32]);
            (pair.ours)(&key, &message, &mut ours);
            (pair.plain)(&key, &message, &mut plain);
            assert_eq!(ours, plain, "{} of {n} bytes", pair.name);
        }
        inputs += 1;
    }
    inputs
}

/// Times both forms of each on messages of all sizes; those of `limited` bytes and more have the limit.
fn measure(mut table: Table, pairs: &[Pair], limited: usize) -> Outcome {
    let mut bytes = Bytes(11);
    for pair in pairs {
        for n in SIZES {
            let key: [u8; 16] = bytes.take(16).try_into().unwrap();
            let message = bytes.take(n);
            let (mut a, mut b) = ([0; 32], [0; 32]);
            table.row(
                &format!("{:<12} {n:>6}", pair.name),
                limited <= n,
                count(n),
                &mut || (pair.ours)(black_box(&key), black_box(&message), black_box(&mut a)),
                &mut || (pair.plain)(black_box(&key), black_box(&message), black_box(&mut b)),
            );
        }
    }
    table.end()
}

fn hashes() -> Outcome {
    let limit = Limit {
        rows: "SHA-1 and HMAC-SHA-1 by plain Rust; asked at most 2 on 1,400 bytes, ours",
        ratio: 1.0,
        wanted: true,
    };
    let title =
        "SHA-1 and HMAC-SHA-1 against plain Rust with eighty words of the schedule (rust/plain).";
    let table = Table::new(title, "function, bytes", "plain", ROUNDS, limit);
    measure(table, &HASHES, 0)
}

fn hashes_256() -> Outcome {
    let limit = Limit {
        rows: "SHA-256 and HMAC-SHA-256 by plain Rust",
        ratio: 1.1,
        wanted: true,
    };
    let title =
        "SHA-256 and HMAC-SHA-256 against plain Rust with sixty-four words of the schedule (rust/plain).";
    let table = Table::new(title, "function, bytes", "plain", ROUNDS, limit);
    measure(table, &HASHES_256, 0)
}

/// A short message is mostly the call and has no limit.
fn md5_alone() -> Outcome {
    let limit = Limit {
        rows: "MD5 of 1,400 bytes and more by plain Rust",
        ratio: 1.15,
        wanted: true,
    };
    let title = "MD5 against plain Rust (rust/plain; 1,400 bytes and more have the limit).";
    let table = Table::new(title, "function, bytes", "plain", ROUNDS, limit);
    measure(table, &[MD5], 1_400)
}

fn cmac() -> Outcome {
    let limit = Limit {
        rows: "AES-CMAC by plain Rust",
        ratio: 1.25,
        wanted: true,
    };
    let title = "AES-CMAC against plain Rust that goes by the S-box (rust/plain).";
    let table = Table::new(title, "function, bytes", "plain", ROUNDS, limit);
    measure(table, &[CMAC], 0)
}

/// A short message is mostly the key's expansion and has no limit.
fn cmac_by_tables() -> Outcome {
    let limit = Limit {
        rows: "AES-CMAC of 1,400 bytes and more by T-tables in Rust",
        ratio: 1.15,
        wanted: true,
    };
    let title =
        "AES-CMAC against plain Rust with four T-tables (1,400 bytes and more have the limit).";
    let table = Table::new(title, "function, bytes", "T-tables", TABLE_ROUNDS, limit);
    measure(table, &[BY_TABLES], 1_400)
}

pub fn run() -> [Outcome; 5] {
    let inputs = compare();
    println!("{inputs} messages give the same by the archive and by plain Rust.");
    [
        hashes(),
        hashes_256(),
        md5_alone(),
        cmac(),
        cmac_by_tables(),
    ]
}
