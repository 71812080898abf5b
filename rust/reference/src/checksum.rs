//! The TCP checksum: RFC 1071, over the pseudo-header and the segment. Ticket 5.

use crate::mac::pseudo_header;

/// Where the checksum stands in a segment.
pub const CHECKSUM: std::ops::Range<usize> = 16..18;

/// RFC 1071: "Adjacent octets to be checksummed are paired to form 16-bit integers, and the 1's complement
/// sum of these 16-bit integers is formed." A last odd byte is followed by a zero byte, which is not sent.
pub fn ones_complement_sum(bytes: &[u8]) -> u16 {
    let mut sum = 0;
    for pair in bytes.chunks(2) {
        let high = pair[0];
        let low = if pair.len() == 2 { pair[1] } else { 0 };
        sum = plus(sum, u16::from_be_bytes([high, low]));
    }
    sum
}

/// Addition in one's complement: the carry out of the highest bit comes back in at the lowest,
/// "end-around".
fn plus(a: u16, b: u16) -> u16 {
    let (sum, carry) = a.overflowing_add(b);
    if carry {
        sum + 1
    } else {
        sum
    }
}

/// The "one's complement sum, pseudo-header and checksum included", of a segment between these addresses.
pub fn sum(source: &[u8], destination: &[u8], segment: &[u8]) -> u16 {
    let mut bytes = pseudo_header(source, destination, segment.len());
    bytes.extend_from_slice(segment);
    ones_complement_sum(&bytes)
}

/// The right checksum of a segment whose checksum is zero as yet. RFC 1071: "the 1's complement of this sum
/// is placed in the checksum field"; where that is 0000, it is written so.
pub fn checksum(source: &[u8], destination: &[u8], segment: &[u8]) -> u16 {
    !sum(source, destination, segment)
}

#[cfg(test)]
mod tests {
    use super::*;

    /// RFC 1071, section 3: the sum of 00 01 f2 03 f4 f5 f6 f7 is ddf2.
    #[test]
    fn the_example_of_rfc_1071() {
        let bytes = [0x00, 0x01, 0xf2, 0x03, 0xf4, 0xf5, 0xf6, 0xf7];
        assert_eq!(ones_complement_sum(&bytes), 0xddf2);
    }

    #[test]
    fn end_around() {
        assert_eq!(plus(0xffff, 0xffff), 0xffff);
        assert_eq!(plus(0xffff, 1), 1);
        assert_eq!(plus(0x8000, 0x8000), 1);
        assert_eq!(plus(0, 0), 0);
    }

    #[test]
    fn an_odd_byte_is_a_high_half() {
        assert_eq!(ones_complement_sum(&[]), 0);
        assert_eq!(ones_complement_sum(&[0x12]), 0x1200);
        assert_eq!(ones_complement_sum(&[0xff, 0xff, 1]), 0x0100);
    }

    /// With its checksum in place, a segment sums to FFFF; so it does where FFFF stands for 0000.
    #[test]
    fn the_right_checksum() {
        for n in 20..60 {
            for address in [4, 16] {
                let (source, destination) = (vec![7; address], vec![n as u8; address]);
                let mut segment: Vec<u8> = (0..n).map(|i| (7 * i) as u8).collect();
                segment[CHECKSUM].fill(0);
                let right = checksum(&source, &destination, &segment);
                segment[CHECKSUM].copy_from_slice(&right.to_be_bytes());
                assert_eq!(sum(&source, &destination, &segment), 0xffff);
                segment[0] ^= 1;
                assert_ne!(sum(&source, &destination, &segment), 0xffff);
                // A word that makes the sum without the checksum FFFF.
                segment[0] ^= 1;
                segment[18] = 0;
                segment[19] = 0;
                segment[CHECKSUM].fill(0);
                let rest = checksum(&source, &destination, &segment);
                segment[18..20].copy_from_slice(&rest.to_be_bytes());
                assert_eq!(checksum(&source, &destination, &segment), 0);
                assert_eq!(sum(&source, &destination, &segment), 0xffff);
                segment[CHECKSUM].fill(0xff);
                assert_eq!(sum(&source, &destination, &segment), 0xffff);
            }
        }
    }
}
