//! What a segment says of itself, to be shown and to be told apart by. No verdict rests on it.

use std::fmt;
use std::net::IpAddr;

/// A segment's header, as far as its first twenty bytes and its options show it.
#[derive(Clone, Copy, Debug, PartialEq, Eq)]
pub struct Header {
    /// The sender's port.
    pub source_port: u16,
    /// The receiver's port.
    pub destination_port: u16,
    /// The sequence number.
    pub sequence: u32,
    /// The acknowledgment number.
    pub acknowledgment: u32,
    /// The flags of the fourteenth byte.
    pub flags: Flags,
    /// How many bytes of data it carries.
    pub data: usize,
    /// How it is signed.
    pub signature: Signature,
}

/// The flags of a segment.
#[derive(Clone, Copy, Debug, PartialEq, Eq)]
pub struct Flags(pub u8);

const NAMES: [(u8, &str); 5] = [
    (0x02, "SYN"),
    (0x10, "ACK"),
    (0x01, "FIN"),
    (0x04, "RST"),
    (0x20, "URG"),
];

impl Flags {
    /// SYN without ACK.
    pub fn is_bare_syn(self) -> bool {
        self.0 & 0x12 == 0x02
    }

    /// SYN with ACK.
    pub fn is_syn_ack(self) -> bool {
        self.0 & 0x12 == 0x12
    }
}

/// The names of those that are set, joined by plus signs; PSH and the two of ECN are not shown.
impl fmt::Display for Flags {
    fn fmt(&self, f: &mut fmt::Formatter) -> fmt::Result {
        let set = NAMES.iter().filter(|(bit, _)| self.0 & bit != 0);
        let names: Vec<&str> = set.map(|(_, name)| *name).collect();
        match names.is_empty() {
            true => f.write_str("no flag"),
            false => f.write_str(&names.join("+")),
        }
    }
}

/// How a segment is signed: the first such option that it has.
#[derive(Clone, Copy, Debug, PartialEq, Eq)]
pub enum Signature {
    /// Not at all, or its options cannot be read.
    None,
    /// By TCP-AO.
    TcpAo {
        /// The key that it is signed under.
        key_id: u8,
        /// The key that it asks its receiver to sign under.
        rnext_key_id: u8,
    },
    /// By TCP MD5.
    TcpMd5,
}

impl Header {
    /// The header of a segment with at least twenty bytes.
    pub fn of(segment: &[u8]) -> Option<Header> {
        let fixed = segment.get(..20)?;
        let u16_at = |at: usize| u16::from_be_bytes([fixed[at], fixed[at + 1]]);
        let u32_at = |at: usize| u32::from(u16_at(at)) << 16 | u32::from(u16_at(at + 2));
        let length = usize::from(fixed[12] >> 4) * 4;
        Some(Header {
            source_port: u16_at(0),
            destination_port: u16_at(2),
            sequence: u32_at(4),
            acknowledgment: u32_at(8),
            flags: Flags(fixed[13]),
            data: segment.len().saturating_sub(length.max(20)),
            signature: signature(segment.get(20..length).unwrap_or_default()),
        })
    }
}

/// The ports of a segment of which only the front is there.
pub fn ports(segment: &[u8]) -> Option<[u16; 2]> {
    match segment {
        [a, b, c, d, ..] => Some([u16::from_be_bytes([*a, *b]), u16::from_be_bytes([*c, *d])]),
        _ => None,
    }
}

fn signature(options: &[u8]) -> Signature {
    let mut rest = options;
    loop {
        match rest {
            [1, behind @ ..] => rest = behind,
            [29, 4..=255, key_id, rnext_key_id, ..] => {
                return Signature::TcpAo {
                    key_id: *key_id,
                    rnext_key_id: *rnext_key_id,
                }
            }
            [19, ..] => return Signature::TcpMd5,
            [2..=255, length @ 2..=255, ..] if rest.len() >= usize::from(*length) => {
                rest = &rest[usize::from(*length)..];
            }
            _ => return Signature::None,
        }
    }
}

/// A segment with its right checksum (RFC 793, RFC 8200) for these addresses; one under 18 bytes as it is.
pub fn with_checksum(source: IpAddr, destination: IpAddr, segment: &[u8]) -> Vec<u8> {
    let mut summed = segment.to_vec();
    let Some(place) = summed.get_mut(16..18) else {
        return summed;
    };
    place.fill(0);
    let words = |bytes: &[u8]| -> u64 {
        let pairs = bytes.chunks(2);
        pairs
            .map(|pair| u64::from(pair[0]) << 8 | u64::from(*pair.get(1).unwrap_or(&0)))
            .sum()
    };
    let address = |address: IpAddr| match address {
        IpAddr::V4(address) => words(&address.octets()),
        IpAddr::V6(address) => words(&address.octets()),
    };
    let pseudo = address(source) + address(destination) + 6 + summed.len() as u64;
    let checksum = !((pseudo + words(&summed)) % 0xFFFF) as u16;
    summed[16..18].copy_from_slice(&checksum.to_be_bytes());
    summed
}

#[cfg(test)]
mod tests {
    use super::*;
    use kit::segment::{ao, md5, sum, ACK, FIN, SYN};
    use kit::Segment;

    #[test]
    fn headers() {
        let segment = Segment {
            source_port: 40_000,
            destination_port: 179,
            sequence: 0xFFFF_FFFE,
            acknowledgment: 7,
            flags: SYN | ACK,
            options: [vec![2, 4, 5, 0xB4, 1], ao(16, 61, 84)].concat(),
            data: vec![9; 5],
            ..Segment::default()
        };
        let header = Header::of(&segment.bytes()).unwrap();
        assert_eq!((header.source_port, header.destination_port), (40_000, 179));
        assert_eq!((header.sequence, header.acknowledgment), (0xFFFF_FFFE, 7));
        assert_eq!(
            (header.flags.to_string(), header.data),
            ("SYN+ACK".to_string(), 5)
        );
        assert!(header.flags.is_syn_ack() && !header.flags.is_bare_syn());
        let (key_id, rnext_key_id) = (61, 84);
        let by_ao = Signature::TcpAo {
            key_id,
            rnext_key_id,
        };
        assert_eq!(header.signature, by_ao);
        let signature = |options: &[u8]| {
            let segment = Segment::default().options(options).flags(FIN).bytes();
            Header::of(&segment).unwrap().signature
        };
        assert_eq!(signature(&md5(18)), Signature::TcpMd5);
        let none: [&[u8]; 5] = [&[], &[0, 29, 4, 1, 1], &[2, 0], &[2, 9, 1], &[29, 3, 1]];
        for options in none {
            assert_eq!(signature(options), Signature::None, "{options:?}");
        }
        for length in 0..20 {
            assert_eq!(Header::of(&segment.bytes()[..length]), None);
        }
        assert_eq!(Flags(0).to_string(), "no flag");
    }

    #[test]
    fn checksums() {
        let (source, destination) = ([10, 9, 0, 1], [10, 9, 0, 2]);
        for length in 0..40 {
            let mut bytes = kit::Bytes(length as u64 + 1);
            let segment = bytes.take(length);
            let summed = with_checksum(source.into(), destination.into(), &segment);
            assert_eq!(summed.len(), length);
            let right = length < 18 || sum(&source, &destination, &summed) == 0xFFFF;
            assert!(right, "{length}");
            let (source, destination) = ([0xFD; 16], [7; 16]);
            let summed = with_checksum(source.into(), destination.into(), &segment);
            assert!(length < 18 || sum(&source, &destination, &summed) == 0xFFFF);
        }
    }
}
