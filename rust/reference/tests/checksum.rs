//! Ticket 5: the sum word by word against the sum in one go, and what each end does with it.

mod common;

use common::*;
use kit::segment::{sum, summed};
use kit::Bytes;
use reference::checksum;

/// The kit adds up all words and folds once; RFC 1071 goes word by word with end-around carry.
#[test]
fn the_sum_in_two_ways() {
    let mut bytes = Bytes(71);
    for n in 0..600 {
        for address in [4, 16] {
            let (source, destination) = (bytes.take(address), bytes.take(address));
            let segments = [bytes.take(n), vec![0; n], vec![0xff; n]];
            for segment in segments {
                let expected = sum(&source, &destination, &segment);
                assert_eq!(checksum::sum(&source, &destination, &segment), expected);
            }
        }
    }
    let long = bytes.take(65_535);
    let expected = sum(&A6, &B6, &long);
    assert_eq!(checksum::sum(&A6, &B6, &long), expected);
}

/// What one end signs the other takes, of every length, and no other checksum will do: all 65,536 are tried.
#[test]
fn all_checksums() {
    for (a, b) in [(&A4[..], &B4[..]), (&A6, &B6)] {
        let (mut a, mut b) = opened(a, b);
        for n in 0..100 {
            let signed = a.sign(A_ISN + 1, ACK, &vec![0xa5; n]);
            assert_eq!(b.arriving(&signed), signed);
            assert_eq!(b.judge(&signed), 0);
        }
        let signed = a.sign(A_ISN + 1, ACK, b"odd");
        let right = u16::from_be_bytes([signed[16], signed[17]]);
        assert!(right != 0 && right != 0xffff);
        let before = b.state();
        for other in 0..=u16::MAX {
            let mut segment = signed.clone();
            segment[16..18].copy_from_slice(&other.to_be_bytes());
            let number = if other == right { 0 } else { 40 };
            assert_eq!(b.judge(&segment), number);
        }
        let after = b.state();
        assert_eq!(after.accepted, before.accepted + 1);
        let dropped = |state: &kit::State| state.drops.iter().sum::<u64>();
        assert_eq!(after.drops[10], 65_535);
        assert_eq!(dropped(&after), dropped(&before) + 65_535);
        assert_eq!(after.arriving_reference, before.arriving_reference);
    }
}

/// Over the addresses that came: a segment for another pair with a right checksum is 23, and 40 if it is
/// right only for ours.
#[test]
fn another_pair() {
    let (mut a, b) = opened(&A4, &B4);
    let signed = a.sign(A_ISN + 1, ACK, b"data");
    let elsewhere = [10, 0, 0, 9];
    let judge = |segment: &[u8]| {
        let mut state = b.state.clone();
        (b.boundary.judge)(0, &b.table, &b.md5, &elsewhere, &B4, segment, &mut state)
    };
    assert_eq!(judge(&signed), 40);
    assert_eq!(judge(&summed(&elsewhere, &B4, &signed)), 23);
}
