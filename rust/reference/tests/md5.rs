//! Ticket 9, to the byte: what signing by MD5 writes, what the openings write, and what a connection by MD5
//! does and does not change.

mod common;

use common::*;
use kit::segment::{ao, md5};
use kit::{md5_word, State};
use reference::crypto;

const FAMILIES: [(&[u8], &[u8]); 2] = [(&A4, &B4), (&A6, &B6)];

/// The digest of a segment that A sends, put together here once more.
fn digest(a: &End, key: &[u8], signed: &[u8]) -> [u8; 16] {
    let mut bytes = [&a.pair.local[..], &a.pair.remote].concat();
    let length = (signed.len() as u32).to_be_bytes();
    if a.pair.local.len() == 4 {
        bytes.extend([0, 6, length[2], length[3]]);
    } else {
        bytes.extend([&length[..], &[0, 0, 0, 6]].concat());
    }
    bytes.extend(&signed[..16]);
    bytes.extend([0, 0]);
    bytes.extend(&signed[18..20]);
    bytes.extend(&signed[4 * usize::from(signed[12] >> 4)..]);
    bytes.extend(key);
    crypto::md5(&bytes)
}

/// Kind 19 at byte 20, two kind 1 bytes behind it, then the old options; the data offset five words more, the
/// checksum right; the options make no difference to the digest but by their length.
#[test]
fn the_bytes_that_signing_writes() {
    for (a, b) in FAMILIES {
        for key_bytes in [1, 10, 16, 64, 80] {
            for words in 0..=5 {
                let (mut a, mut b) = md5_opened(a, b);
                let mut entry = Entry::md5(&a.pair.local, &a.pair.remote);
                entry.key = (0..key_bytes).map(|i| i * 3 + 1).collect();
                a.md5 = entry.bytes();
                b.md5 = entry.mirror().bytes();
                let mut plain = a.segment(A_ISN + 5, ACK, b"some data");
                plain.reserved = 0x0a;
                let plain = plain.options(&[254, 4, 7, 7].repeat(words)).bytes();
                let signed = a.try_sign(&plain).unwrap();
                assert_eq!(signed.len(), plain.len() + 20);
                assert_eq!(signed[..12], plain[..12]);
                assert_eq!(signed[12], ((10 + words as u8) << 4) | 0x0a);
                assert_eq!(signed[13..16], plain[13..16]);
                assert_eq!(b.arriving(&signed), signed);
                assert_eq!(signed[18..20], plain[18..20]);
                assert_eq!(signed[20..22], [19, 18]);
                assert_eq!(signed[22..38], digest(&a, &entry.key, &signed));
                assert_eq!(signed[38..40], [1, 1]);
                assert_eq!(signed[40..], plain[20..]);
                assert_eq!(b.judge(&signed), 0);

                // What is in other options may change on the way.
                for at in (40..40 + 4 * words).filter(|at| at % 4 > 1) {
                    let mut changed = signed.clone();
                    changed[at] ^= 0xff;
                    assert_eq!(b.judge(&b.arriving(&changed)), 0);
                }
            }
        }
    }
}

/// What the openings by MD5 write, to the byte.
#[test]
fn the_states_of_the_openings() {
    for (a, b) in FAMILIES {
        let (mut a, mut b) = md5_ends(a, b);
        a.state = vec![0x5a; State::BYTES];
        b.state = vec![0x5a; State::BYTES];
        assert_eq!(a.open_active_md5(0x01020304), 0);
        let mut expected = State {
            our_isn: 0x01020304,
            signing_reference: 0x01020304,
            way: 1,
            ..State::of_pair(&a.pair)
        };
        assert_eq!(a.state(), expected);
        let syn = a.sign(0x01020304, SYN, b"");
        assert_eq!(a.state(), expected);

        assert_eq!(b.open_passive(&syn, 0xf1f2f3f4, 0), 0);
        let listening = State {
            stage: 1,
            our_isn: 0xf1f2f3f4,
            peer_isn: 0x01020304,
            signing_reference: 0xf1f2f3f4,
            arriving_reference: 0x01020304,
            way: 1,
            ..State::of_pair(&b.pair)
        };
        assert_eq!(b.state(), listening);
        let syn_ack = b.sign(0xf1f2f3f4, SYN | ACK, b"");
        assert_eq!(b.state(), listening);

        // From an opening state with any bytes in it: both IDs and the way stay.
        let odd = State {
            stage: 200,
            outgoing_send_id: 7,
            asked_recv_id: 8,
            peer_isn: 1,
            signing_reference: u64::MAX,
            arriving_reference: u64::MAX,
            accepted: 5,
            drops: [6; State::COUNTED.len()],
            ..expected
        };
        a.set(odd);
        assert_eq!(a.judge(&syn_ack), 0);
        expected.stage = 1;
        expected.peer_isn = 0xf1f2f3f4;
        expected.arriving_reference = 0xf1f2f3f4;
        expected.outgoing_send_id = 7;
        expected.asked_recv_id = 8;
        assert_eq!(a.state(), expected);
    }
}

/// Segments of any numbers in any order, some twice, with forgeries between: each true one is accepted with
/// extension 0, no forgery is, and nothing but counts changes.
#[test]
fn any_order() {
    for (a, b) in FAMILIES {
        let (mut a, b) = md5_opened(a, b);
        let before = a.state();
        let mut true_ones = vec![];
        for step in 0..40u32 {
            let number = A_ISN.wrapping_add(step.wrapping_mul(0x3333_3333));
            true_ones.push(a.sign(number, ACK, &[step as u8; 5]));
        }
        assert_eq!(a.state(), before);
        let mut after = vec![];
        for stride in [1, 7, 19, 39] {
            let mut b = b.clone();
            let opened = b.state();
            for index in 0..40 {
                let segment = &true_ones[index * stride % 40];
                let mut forged = segment.clone();
                *forged.last_mut().unwrap() ^= 0x80;
                assert_eq!(b.judge(&forged), 40);
                assert_eq!(b.judge(&b.arriving(&forged)), 29);
                let unsigned = b.arriving(&a.segment(A_ISN, ACK, b"").bytes());
                assert_eq!(b.judge(&unsigned), 47);
                let by_ao = a.segment(A_ISN, ACK, b"").options(&ao(16, 1, 1));
                assert_eq!(b.judge(&b.arriving(&by_ao.bytes())), 46);
                for _ in 0..2 {
                    assert_eq!(b.judge(segment), 0);
                }
            }
            let mut expected = opened;
            expected.accepted += 80;
            for number in [29, 40, 46, 47] {
                expected.drops[State::place(number).unwrap()] += 40;
            }
            assert_eq!(b.state(), expected);
            after.push(b.state());
        }
        assert!(after.iter().all(|state| *state == after[0]));
    }
}

/// One server, two peers: one goes by TCP-AO and one by MD5, by the tables that match.
#[test]
fn both_ways_at_one_server() {
    let other = [10, 0, 0, 9];
    let keys = Entry::between(&A4, &B4).ids(1, 2);
    let md5_entry = Entry::md5(&A4, &other);
    let pair = |remote: &[u8]| kit::Pair {
        local: A4.to_vec(),
        remote: remote.to_vec(),
        local_port: A_PORT,
        remote_port: B_PORT,
    };
    let server = |remote: &[u8]| {
        let mut end = End::new(REFERENCE, pair(remote), keys.bytes());
        end.md5 = md5_entry.bytes();
        end
    };
    let (mut by_ao, mut by_md5) = (server(&B4), server(&other));
    assert_eq!(by_ao.open_active_md5(1), 35);
    assert_eq!(by_md5.open_active(1, 1), 35);
    assert_eq!(by_ao.open_active(A_ISN, 1), 0);
    assert_eq!(by_md5.open_active_md5(A_ISN), 0);
    assert_eq!((by_ao.state().way, by_md5.state().way), (0, 1));
    assert_eq!(by_ao.sign(A_ISN, SYN, b"")[20], 29);
    assert_eq!(by_md5.sign(A_ISN, SYN, b"")[20], 19);
    assert_eq!(by_md5.ask(2), 35);

    // Unsigned SYNs from both, and from a stranger.
    let syn = |end: &End| {
        let peer = End::new(REFERENCE, end.pair.mirror(), vec![]);
        end.arriving(&peer.segment(5, SYN, b"").bytes())
    };
    assert_eq!(by_ao.judge_syn(&syn(&by_ao), 0), 25);
    assert_eq!(by_md5.judge_syn(&syn(&by_md5), 0), 47);
    let stranger = server(&[10, 0, 0, 77]);
    assert_eq!(stranger.judge_syn(&syn(&stranger), 0), 1);

    // The md5_entry gets a key of TCP-AO as well: refused until it has one way.
    let both = [keys.bytes(), Entry::between(&A4, &other).ids(1, 2).bytes()].concat();
    by_md5.table = both;
    assert_eq!(by_md5.ask(2), md5_word(45, 0));
    assert_eq!(by_md5.judge_syn(&[], 0), md5_word(45, 0));
}

/// The way is not known by the bytes of a segment: the same tables, the same segment, two connections.
#[test]
fn the_way_is_the_connections() {
    let (mut a, mut b) = md5_opened(&A4, &B4);
    let signed = a.sign(A_ISN + 1, ACK, b"data");
    let mut other = b.clone();
    other.set(State {
        way: 0,
        ..b.state()
    });
    assert_eq!(b.judge(&signed), 0);
    assert_eq!(other.judge(&signed), 25);
    let plain = other.segment(B_ISN + 1, ACK, b"").options(&[]).bytes();
    assert_eq!(other.try_sign(&plain), Err(35));
    assert_eq!(b.try_sign(&plain).unwrap()[20..22], md5(18)[..2]);
}
