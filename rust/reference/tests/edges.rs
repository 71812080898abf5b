//! The boundary's bytes: the answer word, the state, lengths that are one off, and the MAC calls.

mod common;

use common::*;
use reference::boundary as c;
use reference::calls::{self, Setting};
use reference::md5_table::Lent;
use reference::state::STATE_BYTES;
use reference::{Refusal, State, Verdict};

#[test]
fn the_answer_word() {
    assert_eq!(c::word(0, 0), 0);
    assert_eq!(c::word(29, 0), 29);
    assert_eq!(c::word(17, 63), 63 << 32 | 17);
    assert_eq!(c::word(0, u32::MAX), 0xffff_ffff_0000_0000);
    // "in bits 8 to 15 ..., 0 the key table's, 1 the MD5 table's (beside 45 always 1)".
    let good = Entry::md5(&A4, &B4);
    let bad = [good.bytes(), vec![9]].concat();
    assert_eq!(c::tcpao_check_table(0, &[], &bad), 1 << 32 | 1 << 8 | 11);
    assert_eq!(c::tcpao_check_table(0, &bad, &[]), 13);
    let keys = Entry::between(&A4, &B4).bytes();
    assert_eq!(c::tcpao_check_table(0, &keys, &good.bytes()), 1 << 8 | 45);
    assert_eq!(c::tcpao_check_table(0, &keys, &[]), 1 << 32);
}

/// "Every value of these bytes is a state: ... reading and writing it back gives the same bytes."
#[test]
fn reading_and_writing_a_state() {
    let mut bytes = [0u8; STATE_BYTES];
    for (index, byte) in bytes.iter_mut().enumerate() {
        *byte = index as u8 ^ 0xa5;
    }
    for at in 0..STATE_BYTES {
        for value in 0..=255 {
            bytes[at] = value;
            assert_eq!(State::from_bytes(&bytes).unwrap().to_bytes(), bytes);
        }
    }
    assert_eq!(State::EMPTY.to_bytes(), [0; STATE_BYTES]);
    for length in (0..=300).filter(|length| *length != STATE_BYTES) {
        assert_eq!(State::from_bytes(&vec![0; length]), None);
    }
}

/// Each field stands where `BOUNDARY.md` puts it.
#[test]
fn the_places_of_the_fields() {
    let mut bytes = [0u8; STATE_BYTES];
    for (index, byte) in bytes.iter_mut().enumerate() {
        *byte = index as u8;
    }
    let state = State::from_bytes(&bytes).unwrap();
    assert_eq!((state.family, state.stage), (0, 1));
    assert_eq!((state.outgoing_send_id, state.asked_recv_id), (2, 3));
    assert_eq!((state.local_port, state.remote_port), (0x0405, 0x0607));
    assert_eq!((state.our_isn, state.peer_isn), (0x08090a0b, 0x0c0d0e0f));
    assert_eq!((state.local[0], state.local[15]), (16, 31));
    assert_eq!((state.remote[0], state.remote[15]), (32, 47));
    assert_eq!(state.signing_reference, 0x3031323334353637);
    assert_eq!(state.arriving_reference, 0x38393a3b3c3d3e3f);
    assert_eq!(state.accepted, 0x4041424344454647);
    assert_eq!(state.drops[0], 0x48494a4b4c4d4e4f);
    assert_eq!(state.drops[9], 0x9091929394959697);
    assert_eq!(state.drops[10], 0x98999a9b9c9d9e9f);
    assert_eq!(state.drops[11], 0xa0a1a2a3a4a5a6a7);
    assert_eq!(state.drops[12], 0xa8a9aaabacadaeaf);
    assert_eq!(state.way, 176);
}

/// What the openings write, to the byte.
#[test]
fn the_states_of_the_openings() {
    for (a, b, family) in [(&A4[..], &B4[..], 4), (&A6[..], &B6[..], 6)] {
        let (mut a, mut b) = ends(a, b);
        a.state = vec![0x5a; STATE_BYTES];
        b.state = vec![0x5a; STATE_BYTES];

        assert_eq!(a.open_active(0x01020304, 3), 0);
        let mut expected = kit::State::of_pair(&a.pair);
        expected.family = family;
        expected.stage = 0;
        expected.outgoing_send_id = 3;
        expected.asked_recv_id = 4;
        expected.our_isn = 0x01020304;
        expected.signing_reference = 0x01020304;
        assert_eq!(a.state(), expected);
        let address_bytes = a.pair.local.len();
        assert_eq!(a.state[16..16 + address_bytes], a.pair.local);
        assert!(a.state[16 + address_bytes..32].iter().all(|b| *b == 0));
        assert_eq!(a.state[32..32 + address_bytes], a.pair.remote);

        // The SYN changes nothing in the state: our reference is at our ISN already.
        let before = a.state.clone();
        let syn = a.sign(0x01020304, SYN, b"");
        assert_eq!(a.state, before);

        assert_eq!(b.open_passive(&syn, 0xf1f2f3f4, 0), 0);
        let mut expected = kit::State::of_pair(&b.pair);
        expected.stage = 1;
        expected.outgoing_send_id = 4;
        expected.asked_recv_id = 3;
        expected.our_isn = 0xf1f2f3f4;
        expected.peer_isn = 0x01020304;
        expected.signing_reference = 0xf1f2f3f4;
        expected.arriving_reference = 0x01020304;
        assert_eq!(b.state(), expected);

        let syn_ack = b.sign(0xf1f2f3f4, SYN | ACK, b"");
        assert_eq!(b.state(), expected);
        assert_eq!(a.judge(&syn_ack), 0);
        let mut expected = kit::State::of_pair(&a.pair);
        expected.stage = 1;
        expected.outgoing_send_id = 3;
        expected.asked_recv_id = 4;
        expected.our_isn = 0x01020304;
        expected.peer_isn = 0xf1f2f3f4;
        expected.signing_reference = 0x01020304;
        expected.arriving_reference = 0xf1f2f3f4;
        assert_eq!(a.state(), expected);
    }
}

/// A SYN+ACK opens from an opening state with any bytes in it: references and counts are set, what
/// stands behind an IPv4 address is carried.
#[test]
fn opening_from_any_state() {
    let (mut a, mut b) = ends(&A4, &B4);
    assert_eq!(a.open_active(A_ISN, 1), 0);
    let syn = a.sign(A_ISN, SYN, b"");
    assert_eq!(b.open_passive(&syn, B_ISN, 0), 0);
    assert_eq!(b.ask(3), 0);
    let syn_ack = b.sign(B_ISN, SYN | ACK, b"");
    let mut state = a.state();
    state.stage = 200;
    state.peer_isn = 1;
    state.signing_reference = u64::MAX;
    state.arriving_reference = u64::MAX;
    state.accepted = 5;
    state.drops = [6; kit::State::COUNTED.len()];
    state.asked_recv_id = 77;
    state.local[4..].fill(8);
    state.remote[4..].fill(9);
    a.set(state);
    assert_eq!(a.judge(&syn_ack), 0);
    let mut expected = state;
    expected.stage = 1;
    expected.peer_isn = B_ISN;
    expected.signing_reference = A_ISN as u64;
    expected.arriving_reference = B_ISN as u64;
    expected.accepted = 0;
    expected.drops = [0; kit::State::COUNTED.len()];
    expected.outgoing_send_id = 3; // by the key rule
    assert_eq!(a.state(), expected);
}

/// By value, "An opening refused, or a SYN only passed, returns the empty state, family 0."
#[test]
fn refused_openings_by_value() {
    let (a, b) = ends(&A4, &B4);
    let tables = |keys| Lent::of_bytes(keys, &[]);
    let (result, state) = calls::open_active(&tables(&a.table), &lent(&a.pair), 7, 99);
    assert_eq!(result, Err(Refusal::of(35)));
    assert_eq!(state, State::EMPTY);
    let (result, state) = calls::open_active_md5(&tables(&a.table), &lent(&a.pair), 7);
    assert_eq!(result, Err(Refusal::of(35)));
    assert_eq!(state, State::EMPTY);

    let unknown = a.segment(1, SYN, b"").ao(16, 99, 0).bytes();
    let dropped = Verdict::Drop(Refusal::of(26));
    for (table, setting, verdict) in [
        (&b.table[..], Setting::Pass, dropped),
        (&b.table, Setting::Drop, dropped),
        (&[], Setting::Pass, Verdict::Pass),
        (&[], Setting::Drop, dropped),
    ] {
        let unknown = b.arriving(&unknown);
        let judged = calls::judge_syn(&tables(table), &A4, &B4, &unknown, setting);
        assert_eq!(judged, verdict);
        let opened = calls::open_passive(&tables(table), &A4, &B4, &unknown, 7, setting);
        assert_eq!(opened, (verdict, State::EMPTY));
    }
}

/// A buffer with an old connection in it: a SYN that is only passed empties it, so that what comes
/// next gets 18; a refused one does not.
#[test]
fn a_reused_buffer() {
    let (a, mut b) = opened(&A4, &B4);
    let old = b.state.clone();
    let unknown = a.segment(A_ISN, SYN, b"").ao(16, 99, 0).bytes();
    let unknown = b.arriving(&unknown);
    for setting in [0, 1] {
        assert_eq!(b.open_passive(&unknown, B_ISN, setting), 26);
        assert_eq!(b.state, old);
    }
    let keys = std::mem::take(&mut b.table);
    assert_eq!(b.open_passive(&unknown, B_ISN, 1), 26);
    assert_eq!(b.state, old);
    assert_eq!(b.open_passive(&unknown, B_ISN, 0), 1);
    assert_eq!(b.state, [0; STATE_BYTES]);
    b.table = keys;
    assert_eq!(b.ask(1), 18);
}

/// "Signing writes only the signed length's bytes of the output."
#[test]
fn signing_writes_its_length() {
    let (a, _) = opened(&A4, &B4);
    let mut plain = a.segment(A_ISN + 1, ACK | RST, b"some data");
    plain.reserved = 0x0b;
    plain.options = vec![2, 4, 5, 6, 0, 29, 0, 19];
    let segment = plain.bytes();
    for spare in 0..40 {
        let mut state = a.state.clone();
        let mut out = vec![0xee; segment.len() + 16 + spare];
        let word = c::tcpao_sign(0, &a.table, &[], &segment, &mut out, &mut state);
        assert_eq!(word, c::word(0, segment.len() as u32 + 16));
        let (signed, behind) = out.split_at(segment.len() + 16);
        assert!(behind.iter().all(|byte| *byte == 0xee));
        assert_eq!(signed[..12], segment[..12]);
        assert_eq!(signed[12], 0xbb);
        assert_eq!(signed[13..16], segment[13..16]);
        assert_eq!(kit::segment::sum(&A4, &B4, signed), 0xffff);
        assert_eq!(signed[18..20], segment[18..20]);
        assert_eq!(signed[20..24], [29, 16, 1, 2]);
        assert_eq!(signed[36..], segment[20..]);
    }
}

/// Signed at the largest sizes, and accepted by the other end.
#[test]
fn the_largest_segments() {
    let (mut a, mut b) = opened(&A6, &B6);
    let offset_11 = a.segment(A_ISN + 1, ACK, b"x").options(&[1; 24]).bytes();
    let signed = a.try_sign(&offset_11).unwrap();
    assert_eq!(signed[12] >> 4, 15);
    assert_eq!(b.judge(&signed), 0);
    let offset_12 = a.segment(A_ISN + 1, ACK, b"x").options(&[1; 28]).bytes();
    assert_eq!(a.try_sign(&offset_12), Err(32));

    let mut longest = a.segment(A_ISN + 1, ACK, &vec![3; 65_499]).bytes();
    assert_eq!(longest.len(), 65_519);
    let signed = a.try_sign(&longest).unwrap();
    assert_eq!(signed.len(), 65_535);
    assert_eq!(b.judge(&signed), 0);
    longest.push(3);
    assert_eq!(a.try_sign(&longest), Err(32));
}

/// Counts stop at 2^64-1.
#[test]
fn counts_stop() {
    let (mut a, mut b) = opened(&A4, &B4);
    let segment = b.sign(B_ISN + 1, ACK, b"");
    let mut state = a.state();
    state.accepted = u64::MAX - 1;
    state.drops[0] = u64::MAX - 1;
    state.drops[10] = u64::MAX - 1;
    a.set(state);
    let mut damaged = segment.clone();
    damaged[17] ^= 1;
    for _ in 0..3 {
        assert_eq!(a.judge(&segment), 0);
        assert_eq!(a.judge(&[]), 20);
        assert_eq!(a.judge(&damaged), 40);
    }
    assert_eq!(a.state().accepted, u64::MAX);
    assert_eq!(a.state().drops[0], u64::MAX);
    assert_eq!(a.state().drops[1..10], [0; 9]);
    assert_eq!(a.state().drops[10], u64::MAX);
}

/// "These give how many bytes they wrote at the front of `out`: 20, 20, 16, 16, 32, 32, 16". "Where `out` is
/// shorter, or an AES key or block has not 16 bytes, they give 0 and write nothing."
#[test]
fn the_mac_calls() {
    for length in 0..40 {
        let fresh = vec![0xee; length];
        let check = |bytes: u64, wrote: u64, out: &[u8]| {
            assert_eq!(wrote, if length as u64 >= bytes { bytes } else { 0 });
            assert!(out[wrote as usize..].iter().all(|byte| *byte == 0xee));
        };
        let mut out = fresh.clone();
        let wrote = c::mac_sha1(b"m", &mut out);
        check(20, wrote, &out);
        let mut out = fresh.clone();
        let wrote = c::mac_hmac_sha1(b"", b"", &mut out);
        check(20, wrote, &out);
        let mut out = fresh.clone();
        let wrote = c::mac_aes128(&[1; 16], &[2; 16], &mut out);
        check(16, wrote, &out);
        let mut out = fresh.clone();
        let wrote = c::mac_aes128_cmac(&[1; 16], b"", &mut out);
        check(16, wrote, &out);
        let mut out = fresh.clone();
        let wrote = c::mac_sha256(b"m", &mut out);
        check(32, wrote, &out);
        let mut out = fresh.clone();
        let wrote = c::mac_hmac_sha256(b"", b"", &mut out);
        check(32, wrote, &out);
        let mut out = fresh.clone();
        let wrote = c::mac_md5(b"m", &mut out);
        check(16, wrote, &out);
    }
    for length in (0..40).filter(|length| *length != 16) {
        let wrong = vec![0; length];
        let mut out = vec![0xee; 32];
        assert_eq!(c::mac_aes128(&wrong, &[0; 16], &mut out), 0);
        assert_eq!(c::mac_aes128(&[0; 16], &wrong, &mut out), 0);
        assert_eq!(c::mac_aes128_cmac(&wrong, b"message", &mut out), 0);
        assert_eq!(out, [0xee; 32]);
    }
}
