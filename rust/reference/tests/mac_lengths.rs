//! Ticket 4, to the byte: what signing writes for each length of the MAC, and that the other end takes it.

mod common;

use common::*;
use kit::Pair;
use reference::crypto::{aes128_cmac, hmac_sha1, hmac_sha256};

const ADDRESSES: [(&[u8], &[u8]); 2] = [(&A4, &B4), (&A6, &B6)];

/// A and B, open, with one entry each.
fn open(ours: &Entry, theirs: &Entry) -> (End, End) {
    let pair = Pair {
        local: ours.local.address.clone(),
        remote: ours.remote.address.clone(),
        local_port: A_PORT,
        remote_port: B_PORT,
    };
    let mut a = End::new(REFERENCE, pair.clone(), ours.bytes());
    let mut b = End::new(REFERENCE, pair.mirror(), theirs.bytes());
    assert_eq!(a.open_active(A_ISN, 1), 0);
    let syn = a.sign(A_ISN, SYN, b"");
    assert_eq!(b.open_passive(&syn, B_ISN, 1), 0);
    let syn_ack = b.sign(B_ISN, SYN | ACK, b"");
    assert_eq!(a.judge(&syn_ack), 0);
    (a, b)
}

/// Flags, algorithm and both ends' addresses.
fn each_way() -> Vec<Entry> {
    let mut entries = vec![];
    for (a, b) in ADDRESSES {
        for (flags, algorithm) in [(0, 1), (1, 1), (0, 2), (1, 2), (0, 3), (1, 3)] {
            entries.push(Entry {
                flags,
                algorithm,
                ..Entry::between(a, b).ids(1, 2)
            });
        }
    }
    entries
}

/// The whole MAC of these bytes, by this entry's derivation, put together here once more.
fn whole_mac(entry: &Entry, from_a: bool, covered: &[u8]) -> Vec<u8> {
    let (a, b) = (&entry.local.address, &entry.remote.address);
    let mut input = b"\x01TCP-AO".to_vec();
    let ends = [(a, A_PORT, A_ISN), (b, B_PORT, B_ISN)];
    let [from, to] = if from_a { ends } else { [ends[1], ends[0]] };
    input.extend([&from.0[..], to.0].concat());
    input.extend([from.1.to_be_bytes(), to.1.to_be_bytes()].concat());
    input.extend([from.2.to_be_bytes(), to.2.to_be_bytes()].concat());
    match entry.algorithm {
        1 => {
            input.extend([0, 160]);
            let key = hmac_sha1(&entry.key, &input);
            hmac_sha1(&key, covered).to_vec()
        }
        2 => {
            input.extend([0, 128]);
            let key = aes128_cmac(&aes128_cmac(&[0; 16], &entry.key), &input);
            aes128_cmac(&key, covered).to_vec()
        }
        _ => {
            input.extend([1, 0]);
            let key = hmac_sha256(&entry.key, &input);
            hmac_sha256(&key, covered).to_vec()
        }
    }
}

fn pseudo_header(entry: &Entry, bytes: usize) -> Vec<u8> {
    let (a, b) = (&entry.local.address[..], &entry.remote.address[..]);
    let length = (bytes as u32).to_be_bytes();
    if a.len() == 4 {
        [a, b, &[0, 6], &length[2..]].concat()
    } else {
        [a, b, &length, &[0, 0, 0, 6]].concat()
    }
}

/// TCP-AO at byte 20 with its own length, kind 1 behind it to a multiple of four, then the old options;
/// the padding is under the MAC with flag 1, and not with flag 0.
#[test]
fn the_bytes_that_signing_writes() {
    for bytes in 4..=16u8 {
        for entry in each_way() {
            let entry = entry.mac_length(bytes);
            let (mut a, mut b) = open(&entry, &entry.mirror());
            let options = [2, 4, 5, 6, 8, 3, 9, 1];
            let plain = a.segment(A_ISN + 5, ACK, b"data").options(&options);
            let plain = plain.bytes();
            let signed = a.try_sign(&plain).unwrap();

            let n = usize::from(bytes);
            let padding = (4 - n % 4) % 4;
            let behind = 24 + n + padding;
            assert_eq!(signed.len(), plain.len() + 4 + n + padding);
            assert_eq!(signed[..12], plain[..12]);
            let words = 7 + (4 + n + padding) as u8 / 4;
            assert_eq!(signed[12], words << 4);
            assert_eq!(signed[13..16], plain[13..16]);
            assert_eq!(b.arriving(&signed), signed);
            assert_eq!(signed[18..20], plain[18..20]);
            assert_eq!(signed[20..24], [29, 4 + bytes, 1, 2]);
            assert_eq!(signed[24 + n..behind], vec![1; padding]);
            assert_eq!(signed[behind..], plain[20..]);

            let mut header = signed[..behind + 8].to_vec();
            header[16..18].fill(0);
            header[24..24 + n].fill(0);
            if entry.flags == 0 {
                header.truncate(24 + n);
            }
            let pseudo = pseudo_header(&entry, signed.len());
            let covered = [vec![0; 4], pseudo, header, b"data".to_vec()].concat();
            let mac = whole_mac(&entry, true, &covered);
            assert_eq!(signed[24..24 + n], mac[..n], "{entry:?}");
            assert_eq!(b.judge(&signed), 0);

            // The padding or an option's content changed on the way: noticed exactly with flag 1.
            let contents = [behind + 2, behind + 3, behind + 6];
            for at in (24 + n..behind).chain(contents) {
                let mut changed = signed.clone();
                changed[at] = 0;
                let number = if entry.flags == 1 { 29 } else { 0 };
                assert_eq!(b.judge(&b.arriving(&changed)), number);
            }
        }
    }
}

/// An entry of kind 4 mirrors one of kind 5 with 12 bytes, and one of kind 6 one of kind 7.
#[test]
fn twelve_said_and_unsaid() {
    for entry in each_way() {
        let said = entry.clone().mac_length(12);
        for (ours, theirs) in [(&entry, &said), (&said, &entry)] {
            let (mut a, mut b) = open(ours, &theirs.mirror());
            let segment = a.segment(A_ISN + 1, ACK, b"data").bytes();
            let mut other = a.clone();
            other.table = theirs.bytes();
            let signed = a.try_sign(&segment).unwrap();
            assert_eq!(other.try_sign(&segment), Ok(signed.clone()));
            assert_eq!(b.judge(&signed), 0);
        }
    }
}

/// Ends whose lengths differ refuse each other with 27.
#[test]
fn other_lengths() {
    for ours in 4..=16 {
        for theirs in 4..=16 {
            let entry = |bytes| Entry::between(&A4, &B4).ids(1, 2).mac_length(bytes);
            let (mut a, mut b) = open(&entry(ours), &entry(ours).mirror());
            b.table = entry(theirs).mirror().bytes();
            let signed = a.sign(A_ISN + 1, ACK, b"data");
            let number = if ours == theirs { 0 } else { 27 };
            assert_eq!(b.judge(&signed), number);
        }
    }
}

/// Entries of all kinds and lengths in one table; keys change between them.
#[test]
fn a_table_of_all_kinds() {
    for (a, b) in ADDRESSES {
        let mut keys = vec![Entry::between(a, b).ids(1, 101)];
        for bytes in 4..=16 {
            let key = Entry::between(a, b)
                .ids(bytes, 100 + bytes)
                .mac_length(bytes);
            keys.push(Entry {
                flags: bytes % 2,
                algorithm: 1 + bytes % 3,
                ..key
            });
        }
        let other: Vec<Entry> = ADDRESSES
            .iter()
            .filter(|(other, _)| other.len() != a.len())
            .flat_map(|(a, b)| (4..=16).map(|n| Entry::between(a, b).ids(n, n).mac_length(n)))
            .collect();
        keys.extend(other);
        let (mut a, mut b) = open(&keys[0], &keys[0].mirror());
        a.table = table(&keys);
        b.table = mirrored(&keys);
        for bytes in 4..=16 {
            assert_eq!(b.ask(bytes), 0);
            let asking = b.sign(B_ISN + 1, ACK, b"");
            assert_eq!(a.judge(&asking), 0);
            let signed = a.sign(A_ISN + 1, ACK, b"data");
            assert_eq!(signed[20..23], [29, 4 + bytes, bytes]);
            assert_eq!(b.judge(&signed), 0);
        }
    }
}
