//! Conversations between two ends: opening, exchange, reordering, rollover, forgeries between, and
//! a change of keys.

mod common;

use common::*;

fn families() -> [(Vec<u8>, Vec<u8>); 2] {
    [(A4.to_vec(), B4.to_vec()), (A6.to_vec(), B6.to_vec())]
}

/// A and B opened with these ISNs, A's outgoing key being this one.
fn opened_at(a: &[u8], b: &[u8], send_id: u8, a_isn: u32, b_isn: u32) -> (End, End) {
    let (mut a, mut b) = ends(a, b);
    assert_eq!(a.open_active(a_isn, send_id), 0);
    let syn = a.sign(a_isn, SYN, b"");
    assert_eq!(b.open_passive(&syn, b_isn, 1), 0);
    let syn_ack = b.sign(b_isn, SYN | ACK, b"");
    assert_eq!(a.judge(&syn_ack), 0);
    (a, b)
}

#[test]
fn exchange_in_both_directions() {
    for (a, b) in families() {
        for send_id in [1, 3] {
            let (mut a, mut b) = opened_at(&a, &b, send_id, A_ISN, B_ISN);
            for step in 1..20 {
                let segment = a.sign(A_ISN + step, ACK, b"there");
                assert_eq!(b.judge(&segment), 0);
                assert_eq!(b.state().arriving_reference, (A_ISN + step) as u64);
                let segment = b.sign(B_ISN + step, ACK | RST, b"and back");
                assert_eq!(a.judge(&segment), 0);
                assert_eq!(a.state().accepted, step as u64);
                assert_eq!(b.state().accepted, step as u64);
            }
            assert_eq!(a.state().drops, [0; kit::State::COUNTED.len()]);
            assert_eq!(b.state().drops, [0; kit::State::COUNTED.len()]);
        }
    }
}

/// A connection whose ISN lies just below the rollover. The segments arrive in several orders, some
/// twice, with forgeries between: each true one is accepted with the extension it was signed by, no
/// forgery is, and all orders end alike.
#[test]
fn any_order_over_the_rollover() {
    for (a, b) in families() {
        for send_id in [1, 3] {
            let (mut a, b) = opened_at(&a, &b, send_id, 0xffff_ff00, B_ISN);
            let mut true_ones = vec![];
            for step in 1..40u64 {
                let x = 0xffff_ff00 + 16 * step;
                let segment = a.sign(x as u32, ACK, &[step as u8; 16]);
                assert_eq!(a.state().signing_reference, x);
                true_ones.push((x, segment));
            }
            let mut forgeries = vec![];
            for (x, segment) in &true_ones {
                let mut forged = segment.clone();
                *forged.last_mut().unwrap() ^= 0x80;
                forgeries.push((*x, forged));
                // Far ahead, so that a reference moved by it would spoil what follows.
                let mut ahead = segment.clone();
                ahead[4] = ahead[4].wrapping_add(0x60);
                forgeries.push((*x, ahead));
            }

            let mut ends = vec![];
            for stride in [1, 7, 19, 38] {
                let mut b = b.clone();
                for index in 0..39 {
                    let at = index * stride % 39;
                    for (_, forged) in &forgeries[2 * at..2 * at + 2] {
                        assert_eq!(b.judge(&b.arriving(forged)), 29);
                    }
                    for _ in 0..2 {
                        let (x, segment) = &true_ones[at];
                        let word = b.judge(segment);
                        assert_eq!((number(word), value(word) as u64), (0, x >> 32));
                    }
                }
                assert_eq!(b.state().arriving_reference, 0xffff_ff00 + 16 * 39);
                assert_eq!(b.state().accepted, 78);
                assert_eq!(b.state().drops[9], 78);
                ends.push(b.state());
            }
            assert!(ends.iter().all(|end| *end == ends[0]));
        }
    }
}

/// Both directions through several turns of 2^32; an old segment of an earlier turn is not accepted
/// in a later one.
#[test]
fn several_turns() {
    let (mut a, mut b) = opened_at(&A4, &B4, 1, 5, 0x8000_0000);
    let first = a.sign(5, ACK, b"first");
    assert_eq!(b.judge(&first), 0);
    let mut a_at = 5u64;
    let mut b_at = 0x8000_0000u64;
    for _ in 0..12 {
        a_at += 0x7fff_ffff;
        b_at += 0x7000_0000;
        let segment = a.sign(a_at as u32, ACK, b"on");
        let word = b.judge(&segment);
        assert_eq!((number(word), value(word) as u64), (0, a_at >> 32));
        let segment = b.sign(b_at as u32, ACK, b"on");
        let word = a.judge(&segment);
        assert_eq!((number(word), value(word) as u64), (0, b_at >> 32));
    }
    assert_eq!(a.state().signing_reference, a_at);
    assert_eq!(b.state().arriving_reference, a_at);
    assert_eq!(a.state().arriving_reference, b_at);

    let word = b.judge(&first);
    assert!(number(word) == 28 || number(word) == 29);

    // A step of 2^31 has no position at either end.
    let segment = a.segment((a_at + (1 << 31)) as u32, ACK, b"").bytes();
    assert_eq!(a.try_sign(&segment), Err(36));
}

/// B asks A for another key; A answers under it, and B's asking changes nothing else.
#[test]
fn a_change_of_keys() {
    for (a, b) in families() {
        let (mut a, mut b) = opened(&a, &b);
        let key_id = |segment: &[u8]| (segment[22], segment[23]);

        // B holds the mirrors: RecvID 3 is A's SendID 3.
        assert_eq!(b.ask(9), 35);
        assert_eq!(b.ask(5), 35); // an entry for another pair
        assert_eq!(b.ask(3), 0);
        let asking = b.sign(B_ISN + 1, ACK, b"please");
        assert_eq!(key_id(&asking), (2, 3));
        let before = b.sign(B_ISN + 1, ACK, b"please");
        assert_eq!(a.judge(&asking), 0);
        assert_eq!(a.state().outgoing_send_id, 3);
        assert_eq!(a.state().asked_recv_id, 2);

        // A signs under the new key; B accepts it and goes on under the old one.
        let answer = a.sign(A_ISN + 2, ACK, b"here");
        assert_eq!(key_id(&answer), (3, 2));
        assert_eq!(b.judge(&answer), 0);
        assert_eq!(b.state().outgoing_send_id, 2);

        // Now A asks as well.
        assert_eq!(a.ask(4), 0);
        let answer = a.sign(A_ISN + 3, ACK, b"you too");
        assert_eq!(key_id(&answer), (3, 4));
        assert_eq!(b.judge(&answer), 0);
        assert_eq!(b.state().outgoing_send_id, 4);
        let under_new = b.sign(B_ISN + 9, ACK, b"yes");
        assert_eq!(key_id(&under_new), (4, 3));
        assert_eq!(a.judge(&under_new), 0);

        // "Older keys may come back": B asks for the first key again, and an old segment still asks
        // for the other.
        assert_eq!(b.ask(1), 0);
        let back = b.sign(B_ISN + 20, ACK, b"back");
        assert_eq!(a.judge(&back), 0);
        assert_eq!(a.state().outgoing_send_id, 1);
        assert_eq!(a.judge(&before), 0);
        assert_eq!(a.state().outgoing_send_id, 3);
    }
}

/// A key is taken out of A's table: what is signed under it is 26, what A would sign under it is
/// 35, and asking for it changes nothing.
#[test]
fn a_key_that_is_gone() {
    let (mut a, mut b) = opened(&A4, &B4);
    let keys = keys(&A4, &B4);
    let without_second = table(&[keys[0].clone(), keys[2].clone()]);
    assert_eq!(b.ask(3), 0);
    let asking = b.sign(B_ISN + 1, ACK, b"");
    a.table = without_second;
    assert_eq!(a.judge(&asking), 0);
    assert_eq!(a.state().outgoing_send_id, 1);

    let mut state = b.state();
    state.outgoing_send_id = 4;
    b.set(state);
    let under_second = b.sign(B_ISN + 2, ACK, b"");
    assert_eq!(a.judge(&under_second), 26);

    let mut state = a.state();
    state.outgoing_send_id = 3;
    a.set(state);
    let segment = a.segment(A_ISN + 2, ACK, b"").bytes();
    assert_eq!(a.try_sign(&segment), Err(35));
}

/// Lost and repeated opening segments: the SYN again is 24 on B's open connection, the SYN+ACK
/// again is judged by its position on A's.
#[test]
fn repeated_opening_segments() {
    let (mut a, mut b) = ends(&A4, &B4);
    assert_eq!(a.open_active(A_ISN, 1), 0);
    let syn = a.sign(A_ISN, SYN, b"");
    assert_eq!(a.sign(A_ISN, SYN, b""), syn);
    assert_eq!(b.judge_syn(&syn, 1), 0);
    assert_eq!(b.open_passive(&syn, B_ISN, 1), 0);
    assert_eq!(b.judge(&syn), 24);
    let syn_ack = b.sign(B_ISN, SYN | ACK, b"");
    assert_eq!(b.sign(B_ISN, SYN | ACK, b""), syn_ack);
    assert_eq!(a.judge(&syn_ack), 0);
    assert_eq!(a.state().accepted, 0);
    assert_eq!(a.judge(&syn_ack), 0);
    assert_eq!(a.state().accepted, 1);
    assert_eq!(b.state().drops[4], 1);
}

/// Drops before the connection is open are not counted, and a refused opening segment leaves the
/// opening connection able to open.
#[test]
fn forgeries_while_opening() {
    let (mut a, mut b) = ends(&A6, &B6);
    assert_eq!(a.open_active(A_ISN, 3), 0);
    let syn = a.sign(A_ISN, SYN, b"");
    let mut forged = syn.clone();
    forged[30] ^= 1;
    assert_eq!(b.judge_syn(&forged, 1), 40);
    let forged = b.arriving(&forged);
    assert_eq!(b.judge_syn(&forged, 1), 29);
    let before = b.state.clone();
    assert_eq!(b.open_passive(&forged, B_ISN, 1), 29);
    assert_eq!(b.state, before);
    assert_eq!(b.open_passive(&syn, B_ISN, 1), 0);
    let syn_ack = b.sign(B_ISN, SYN | ACK, b"");
    let mut forged = syn_ack.clone();
    forged[30] ^= 1;
    let before = a.state.clone();
    assert_eq!(a.judge(&forged), 40);
    assert_eq!(a.judge(&a.arriving(&forged)), 29);
    assert_eq!(a.judge(&syn), 23);
    assert_eq!(a.state, before);
    assert_eq!(a.judge(&syn_ack), 0);
    assert_eq!(a.state().drops, [0; kit::State::COUNTED.len()]);
}
