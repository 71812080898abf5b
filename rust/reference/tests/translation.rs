//! Ticket 10, to the byte: what signing writes where sides are hidden, and what may be rewritten on the way.

mod common;

use common::*;
use kit::{translated, State};
use reference::crypto::{aes128_cmac, hmac_sha1, hmac_sha256};

/// A's entries: both families, all algorithms and all flags.
fn entries() -> Vec<Entry> {
    let mut entries = vec![];
    for (a, b) in [(&A4[..], &B4[..]), (&A6, &B6)] {
        for algorithm in 1..=3 {
            for flags in 0..8 {
                entries.push(Entry {
                    flags,
                    algorithm,
                    ..Entry::between(a, b).ids(1, 2)
                });
            }
        }
    }
    entries
}

/// The ends after the three opening segments, as each of them holds the pair.
fn open(entry: &Entry, of_a: Rewritten, of_b: Rewritten) -> (End, End) {
    let (mut a, mut b) = translated_ends(entry, of_a, of_b);
    let state = |end: &End, id: u8, isn: u32, peer_isn: u32| State {
        stage: 1,
        outgoing_send_id: id,
        asked_recv_id: 3 - id,
        our_isn: isn,
        peer_isn,
        signing_reference: isn.into(),
        arriving_reference: peer_isn.into(),
        ..State::of_pair(&end.pair)
    };
    a.set(state(&a, 1, A_ISN, B_ISN));
    b.set(state(&b, 2, B_ISN, A_ISN));
    (a, b)
}

/// The MAC of a segment that A sends, put together here once more: with these addresses and ports as they
/// count, the whole segment's real length, and the header's first 20 bytes and TCP-AO, or all of it.
fn whole_mac(entry: &Entry, a: &End, signed: &[u8]) -> Vec<u8> {
    let bytes = a.pair.local.len();
    let side = |hidden: bool, address: &[u8], port: u16| match hidden {
        true => (vec![0; bytes], [0, 0]),
        false => (address.to_vec(), port.to_be_bytes()),
    };
    let (from, from_port) = side(entry.local_nat(), &a.pair.local, a.pair.local_port);
    let (to, to_port) = side(entry.remote_nat(), &a.pair.remote, a.pair.remote_port);

    let mut input = b"\x01TCP-AO".to_vec();
    input.extend([&from[..], &to, &from_port, &to_port].concat());
    input.extend([A_ISN.to_be_bytes(), B_ISN.to_be_bytes()].concat());

    let length = (signed.len() as u32).to_be_bytes();
    let mut covered = [vec![0; 4], from, to].concat();
    if bytes == 4 {
        covered.extend([0, 6, length[2], length[3]]);
    } else {
        covered.extend([&length[..], &[0, 0, 0, 6]].concat());
    }
    let header = 4 * usize::from(signed[12] >> 4);
    let mut zeroed = signed[..header].to_vec();
    zeroed[0..2].copy_from_slice(&from_port);
    zeroed[2..4].copy_from_slice(&to_port);
    zeroed[16..18].fill(0);
    zeroed[24..36].fill(0);
    if !entry.covers_options() {
        zeroed.truncate(36);
    }
    covered.extend(zeroed);
    covered.extend(&signed[header..]);

    match entry.algorithm {
        1 => {
            input.extend([0, 160]);
            let key = hmac_sha1(&entry.key, &input);
            hmac_sha1(&key, &covered)[..12].to_vec()
        }
        2 => {
            input.extend([0, 128]);
            let key = aes128_cmac(&aes128_cmac(&[0; 16], &entry.key), &input);
            aes128_cmac(&key, &covered)[..12].to_vec()
        }
        _ => {
            input.extend([1, 0]);
            let key = hmac_sha256(&entry.key, &input);
            hmac_sha256(&key, &covered)[..12].to_vec()
        }
    }
}

/// Only the MAC knows of hidden sides: ports and checksum are those of what is sent.
#[test]
fn the_bytes_that_signing_writes() {
    for entry in entries() {
        let (mut a, _) = open(&entry, Rewritten::NOTHING, Rewritten::NOTHING);
        let options = [2, 4, 5, 6, 8, 3, 9, 1];
        for data in [&b"even"[..], b"odd"] {
            let plain = a.segment(A_ISN + 5, ACK, data).options(&options).bytes();
            let signed = a.try_sign(&plain).unwrap();
            assert_eq!(signed[..12], plain[..12]);
            assert_eq!(signed[13..16], plain[13..16]);
            let sum = kit::segment::sum(&a.pair.local, &a.pair.remote, &signed);
            assert_eq!(sum, 0xffff);
            assert_eq!(signed[20..24], [29, 16, 1, 2]);
            assert_eq!(signed[36..], plain[20..]);
            assert_eq!(signed[24..36], whole_mac(&entry, &a, &signed), "{entry:?}");
        }
    }
}

/// "only on a side whose bit is set in the entry signed under, the port and the address (within its family)
/// rewritten on the way": either, both or neither, on either side. On another side: 29. In both directions,
/// and at every stage.
#[test]
fn what_may_be_rewritten() {
    let mut all = vec![Rewritten::NOTHING];
    all.extend(Rewritten::SOMETHING);
    for entry in entries() {
        for &of_a in &all {
            for &of_b in &all {
                let may_a = of_a == Rewritten::NOTHING || entry.local_nat();
                let may_b = of_b == Rewritten::NOTHING || entry.remote_nat();
                let number = if may_a && may_b { 0 } else { 29 };
                let what = format!("{entry:?} {of_a:?} {of_b:?}");

                let (mut a, mut b) = translated_ends(&entry, of_a, of_b);
                assert_eq!(a.open_active(A_ISN, 1), 0);
                let syn = a.sign(A_ISN, SYN, b"");
                let syn = translated(&syn, &a.pair, &b.pair);
                assert_eq!(b.judge_syn(&syn, 1), number, "{what}");
                assert_eq!(b.open_passive(&syn, B_ISN, 1), number, "{what}");
                let opening = a.clone();
                let (mut a, set) = open(&entry, of_a, of_b);
                if number == 0 {
                    // The connection holds the pair as the SYN came with it.
                    assert_eq!(b.state(), set.state());
                }
                let mut b = set;
                let syn_ack = b.sign(B_ISN, SYN | ACK, b"");
                let syn_ack = translated(&syn_ack, &b.pair, &a.pair);
                assert_eq!(opening.clone().judge(&syn_ack), number, "{what}");
                assert_eq!(a.judge(&syn_ack), number, "{what}");
                for n in 0..3 {
                    let there = a.sign(A_ISN + 1, ACK, &[7; 3][..n]);
                    let there = translated(&there, &a.pair, &b.pair);
                    assert_eq!(b.judge(&there), number, "{what}");
                    let back = b.sign(B_ISN + 1, ACK, &[8; 3][..n]);
                    let back = translated(&back, &b.pair, &a.pair);
                    assert_eq!(a.judge(&back), number, "{what}");
                }
            }
        }
    }
}

/// Translated, but with the checksum as it was sent: 40, unless the sum is the same.
#[test]
fn the_checksum_is_set_right() {
    for entry in entries() {
        let entry = entry.nat(true, true);
        let (mut a, mut b) = open(&entry, Rewritten::BOTH, Rewritten::BOTH);
        let sent = a.sign(A_ISN + 1, ACK, b"data");
        let right = translated(&sent, &a.pair, &b.pair);
        let mut forgotten = right.clone();
        forgotten[16..18].copy_from_slice(&sent[16..18]);
        assert_ne!(right, forgotten);
        assert_eq!(b.judge(&forgotten), 40);
        assert_eq!(b.judge(&right), 0);
    }
}

/// Bits that are not exchanged, or set at one end only: 29 wherever the ends hide different sides.
#[test]
fn the_bits_are_exchanged() {
    for entry in entries() {
        let (mut a, b) = open(&entry, Rewritten::NOTHING, Rewritten::NOTHING);
        let signed = a.sign(A_ISN + 1, ACK, b"data");
        for flags in 0..8 {
            let theirs = Entry {
                flags,
                ..entry.mirror()
            };
            let mut b = b.clone();
            b.table = theirs.bytes();
            // The option area has TCP-AO only, so that the first bit makes no difference.
            let exchanged = theirs.flags & 6 == entry.mirror().flags & 6;
            assert_eq!(b.judge(&signed), if exchanged { 0 } else { 29 });
        }
    }
}

/// A hidden side's own address and port make no difference to the MAC, those of another side do.
#[test]
fn from_elsewhere() {
    for entry in entries() {
        let mac = |entry: &Entry, port: u16, address: u8| {
            let mut entry = entry.clone();
            entry.local.address[1] = address;
            let (mut a, _) = open(&entry, Rewritten::NOTHING, Rewritten::NOTHING);
            let mut state = a.state();
            state.local_port = port;
            a.set(state);
            a.pair.local_port = port;
            a.table = Entry {
                local: Side::host(&a.pair.local),
                ..entry
            }
            .bytes();
            let signed = a.sign(A_ISN + 1, ACK, b"data");
            assert_eq!(signed[0..2], port.to_be_bytes());
            signed[24..36].to_vec()
        };
        let here = mac(&entry, A_PORT, 0);
        assert_eq!(mac(&entry, A_PORT, 1) == here, entry.local_nat());
        assert_eq!(mac(&entry, A_PORT + 1, 0) == here, entry.local_nat());
        assert_eq!(mac(&entry, 0, 0) == here, entry.local_nat());
    }
}
