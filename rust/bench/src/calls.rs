//! Signing and judging: against the reference, against the two MACs and the checksum that they need, of a
//! wrong checksum against judging a right one, and by TCP MD5 against the digest and the checksum.

use crate::connection::{open, open_md5, segment, Keys, KEY};
use crate::timing::{Limit, Outcome, Table};
use crate::{count, SIZES};
use bench::{aes128_cmac, hmac_sha1, hmac_sha256, md5, Bytes, REFERENCE};
use kit::{Boundary, End};
use std::hint::black_box;

const ROUNDS: usize = 61;

/// An algorithm's number and name.
type Algorithm = (u8, &'static str);
const ALGORITHMS: [Algorithm; 3] = [(1, "HMAC-SHA-1"), (2, "AES-CMAC"), (3, "HMAC-SHA-256")];

/// One end signs the segment, the other judges what was signed. Both calls may be made again and
/// again: the same segment is accepted each time.
#[derive(Clone)]
struct Exchange {
    signer: End,
    judge: End,
    segment: Vec<u8>,
    signed: Vec<u8>,
}

impl Exchange {
    fn new(algorithm: u8, keys: Keys, n: usize) -> Exchange {
        let ends = [open(0, algorithm, keys), open(1, algorithm, keys)];
        Exchange::between(ends, n, 16)
    }

    /// By TCP MD5, one entry.
    fn by_md5(n: usize) -> Exchange {
        Exchange::between([open_md5(0), open_md5(1)], n, 20)
    }

    /// Of a segment of n bytes, to which signing adds so many.
    fn between([mut signer, judge]: [End; 2], n: usize, added: usize) -> Exchange {
        let segment = segment(n);
        let mut signed = vec![0; n + added];
        let answer = signer.sign_into(&segment, &mut signed);
        assert_eq!(answer, (signed.len() as u64) << 32);
        Exchange {
            signer,
            judge,
            segment,
            signed,
        }
    }

    /// The same, by another side's calls.
    fn by(&self, boundary: Boundary) -> Exchange {
        let mut other = self.clone();
        other.signer.boundary = boundary;
        other.judge.boundary = boundary;
        other
    }

    fn sign(&mut self) -> u64 {
        self.signer.sign_into(&self.segment, &mut self.signed)
    }

    fn judge(&mut self) -> u64 {
        self.judge.judge(&self.signed)
    }
}

/// Both must give the same before their times mean anything.
fn compare(ours: &mut Exchange, reference: &mut Exchange) {
    assert_eq!(ours.sign(), reference.sign());
    assert_eq!(ours.judge(), 0);
    assert_eq!(reference.judge(), 0);
    assert_eq!(ours.signed, reference.signed);
    assert_eq!(ours.signer.state, reference.signer.state);
    assert_eq!(ours.judge.state, reference.judge.state);
}

/// Which tables and lengths are timed. One length is enough for the second table of 64 entries.
fn cases() -> Vec<(Keys, usize)> {
    let mut cases: Vec<(Keys, usize)> = Vec::new();
    for keys in [Keys::One, Keys::Different] {
        cases.extend(SIZES.map(|n| (keys, n)));
    }
    cases.push((Keys::Shared, 1_400));
    cases
}

pub fn against_reference() -> Outcome {
    let mut table = Table::new(
        "Whole calls against a plain Rust implementation of the rules (rust/reference), which\n\
         copies the message into Vecs. \"IDs\": 64 entries with different IDs; \"peers\": 64 with the\n\
         same IDs and different remote addresses.",
        "call, MAC, entries, bytes",
        "reference",
        ROUNDS,
        Limit {
            rows: "whole calls by the reference",
            ratio: 1.25,
            wanted: true,
        },
    );
    for (algorithm, name) in ALGORITHMS {
        for (keys, n) in cases() {
            let mut ours = Exchange::new(algorithm, keys, n);
            let mut reference = ours.by(REFERENCE);
            compare(&mut ours, &mut reference);
            let label = |call| format!("{call:<5} {name:<12} {:<8} {n:>6}", keys.name());
            table.row(
                &label("sign"),
                true,
                count(n),
                &mut || assert_eq!(black_box(&mut ours).sign() & 255, 0),
                &mut || assert_eq!(black_box(&mut reference).sign() & 255, 0),
            );
            table.row(
                &label("judge"),
                true,
                count(n),
                &mut || assert_eq!(black_box(&mut ours).judge() & 255, 0),
                &mut || assert_eq!(black_box(&mut reference).judge() & 255, 0),
            );
        }
    }
    table.end()
}

/// The traffic key of 29 bytes of input, and the MAC of the signed segment behind its extension and
/// pseudo-header, by the archive's one-shot functions.
fn two_macs(algorithm: u8, derivation: &[u8], covered: &[u8]) -> [u8; 32] {
    let (mut traffic_key, mut mac) = ([0; 32], [0; 32]);
    match algorithm {
        1 => {
            hmac_sha1(&KEY, derivation, &mut traffic_key);
            hmac_sha1(&traffic_key[..20], covered, &mut mac);
        }
        2 => {
            aes128_cmac(&KEY, derivation, &mut traffic_key);
            aes128_cmac(&traffic_key[..16], covered, &mut mac);
        }
        _ => {
            hmac_sha256(&KEY, derivation, &mut traffic_key);
            hmac_sha256(&traffic_key, covered, &mut mac);
        }
    }
    mac
}

pub fn against_macs() -> Outcome {
    against_macs_of(
        &ALGORITHMS[..2],
        Limit {
            rows: "whole calls with one entry by their two MACs and the checksum",
            ratio: 1.3,
            wanted: true,
        },
    )
}

/// HMAC-SHA-256 takes so long that the rest of a call weighs less.
pub fn against_macs_256() -> Outcome {
    against_macs_of(
        &ALGORITHMS[2..],
        Limit {
            rows: "whole calls with one entry of algorithm 3 by their two MACs and the checksum",
            ratio: 1.15,
            wanted: true,
        },
    )
}

fn against_macs_of(algorithms: &[Algorithm], limit: Limit) -> Outcome {
    const BYTES: usize = 1_400;
    let mut table = Table::new(
        "Whole calls on 1,400 bytes, with an empty MD5 table, against what they need: two MACs, by the archive,\n\
         and the checksum, by plain Rust (one entry has the limit).",
        "call, MAC, entries",
        "needed",
        ROUNDS,
        limit,
    );
    let derivation = Bytes(5).take(29);
    let covered = Bytes(6).take(4 + 12 + BYTES + 16);
    for &(algorithm, name) in algorithms {
        for keys in [Keys::One, Keys::Different, Keys::Shared] {
            let mut ours = Exchange::new(algorithm, keys, BYTES);
            let mut needed = || {
                let (derivation, covered) = (black_box(&derivation), black_box(&covered));
                black_box(two_macs(algorithm, derivation, covered));
                let (addresses, segment) = covered[4..].split_at(12);
                let (source, destination) = addresses[..8].split_at(4);
                black_box(plain::checksum::sum(source, destination, segment));
            };
            let label = |call| format!("{call:<5} {name:<12} {}", keys.name());
            table.row(
                &label("sign"),
                keys == Keys::One,
                count(BYTES),
                &mut || assert_eq!(black_box(&mut ours).sign() & 255, 0),
                &mut needed,
            );
            table.row(
                &label("judge"),
                keys == Keys::One,
                count(BYTES),
                &mut || assert_eq!(black_box(&mut ours).judge() & 255, 0),
                &mut needed,
            );
        }
    }
    table.end()
}

/// By TCP MD5 a call needs one digest and the checksum.
pub fn md5_against_digest() -> Outcome {
    let mut table = Table::new(
        "Whole calls by TCP MD5, one entry, against what they need: the digest, by the archive, and the\n\
         checksum, by plain Rust (1,400 bytes have the limit).",
        "call, bytes",
        "needed",
        ROUNDS,
        Limit {
            rows: "whole calls by TCP MD5 by their digest and the checksum",
            ratio: 1.3,
            wanted: false,
        },
    );
    for n in SIZES {
        let mut ours = Exchange::by_md5(n);
        let mut reference = ours.by(REFERENCE);
        compare(&mut ours, &mut reference);
        let covered = Bytes(6).take(12 + n + KEY.len());
        let mut needed = || {
            let covered = black_box(&covered);
            let mut digest = [0; 16];
            md5(covered, &mut digest);
            black_box(digest);
            let (source, destination) = covered[..8].split_at(4);
            black_box(plain::checksum::sum(source, destination, &covered[12..]));
        };
        let label = |call| format!("{call:<5} {n:>6}");
        table.row(
            &label("sign"),
            n == 1_400,
            count(n),
            &mut || assert_eq!(black_box(&mut ours).sign() & 255, 0),
            &mut needed,
        );
        table.row(
            &label("judge"),
            n == 1_400,
            count(n),
            &mut || assert_eq!(black_box(&mut ours).judge() & 255, 0),
            &mut needed,
        );
    }
    table.end()
}

/// A segment whose checksum is wrong is dropped before any MAC: the table is checked, and the sum made.
pub fn checksum_against_judging() -> Outcome {
    let mut table = Table::new(
        "Judging a segment whose checksum is wrong (the table, the sum, no MAC) against judging it with a\n\
         right one, HMAC-SHA-1, one entry (1,400 bytes have the limit).",
        "bytes",
        "right",
        ROUNDS,
        Limit {
            rows: "1,400 bytes with a wrong checksum by judging them with HMAC-SHA-1",
            ratio: 0.15,
            wanted: true,
        },
    );
    for n in SIZES {
        let mut right = Exchange::new(1, Keys::One, n);
        let mut wrong = right.clone();
        wrong.signed[17] ^= 1;
        table.row(
            &format!("{n:>6}"),
            n == 1_400,
            count(n),
            &mut || assert_eq!(black_box(&mut wrong).judge() & 255, 40),
            &mut || assert_eq!(black_box(&mut right).judge() & 255, 0),
        );
    }
    table.end()
}
