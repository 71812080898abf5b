//! The TCP checksum's sum, RFC 1071, over the pseudo-header and the segment.

/// The one's complement sum of a segment between these addresses, both of 4 or both of 16 bytes: FFFF if the
/// checksum in it is right.
pub fn sum(source: &[u8], destination: &[u8], segment: &[u8]) -> u16 {
    // The protocol and the length; of IPv6 they have more zeros.
    let mut sum = 6 + segment.len() as u32;
    sum = add(sum, source);
    sum = add(sum, destination);
    sum = add(sum, segment);
    sum as u16
}

/// Adds words to a sum below 2^16; a last odd byte is followed by a zero byte.
fn add(mut sum: u32, bytes: &[u8]) -> u32 {
    let mut words = bytes.chunks_exact(2);
    for word in &mut words {
        sum += u32::from(u16::from_be_bytes([word[0], word[1]]));
        sum = (sum & 0xffff) + (sum >> 16);
    }
    if let [last] = words.remainder() {
        sum += u32::from(*last) << 8;
    }
    (sum & 0xffff) + (sum >> 16)
}

#[cfg(test)]
mod tests {
    use super::*;

    /// RFC 1071, section 3, behind a pseudo-header of known words.
    #[test]
    fn the_example_of_rfc_1071() {
        let bytes = [0x00, 0x01, 0xf2, 0x03, 0xf4, 0xf5, 0xf6, 0xf7];
        assert_eq!(sum(&[0; 4], &[0; 4], &bytes), 0xddf2 + 6 + 8);
        assert_eq!(sum(&[0; 16], &[0; 16], &bytes), 0xddf2 + 6 + 8);
        assert_eq!(sum(&[0; 4], &[0, 0, 0, 9], &[0x12]), 0x1200 + 6 + 1 + 9);
    }

    /// The carry of each step comes back in.
    #[test]
    fn end_around() {
        assert_eq!(sum(&[0xff; 4], &[0xff; 4], &[0xff; 4]), 6 + 4);
        assert_eq!(sum(&[0x80; 16], &[0x80; 16], &[]), 6 + 0x0808);
    }
}
