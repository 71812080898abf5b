//! TCP segments (RFC 793), their checksum and the options TCP-AO and TCP MD5.

pub const FIN: u8 = 0x01;
pub const SYN: u8 = 0x02;
pub const RST: u8 = 0x04;
pub const ACK: u8 = 0x10;

/// A segment before it is written. What is not said is [`Segment::default`]'s.
#[derive(Clone, Debug)]
pub struct Segment {
    pub source_port: u16,
    pub destination_port: u16,
    pub sequence: u32,
    pub acknowledgment: u32,
    /// The low half of byte 12.
    pub reserved: u8,
    pub flags: u8,
    pub window: u16,
    pub checksum: u16,
    pub urgent: u16,
    /// Filled up with kind 1 to whole words; at most 40 bytes.
    pub options: Vec<u8>,
    pub data: Vec<u8>,
}

impl Default for Segment {
    /// Ports and numbers 0, no flag, no option, no data.
    fn default() -> Segment {
        Segment {
            source_port: 0,
            destination_port: 0,
            sequence: 0,
            acknowledgment: 0,
            reserved: 0,
            flags: 0,
            window: 4096,
            checksum: 0,
            urgent: 0,
            options: vec![],
            data: vec![],
        }
    }
}

impl Segment {
    pub fn bytes(&self) -> Vec<u8> {
        let mut options = self.options.clone();
        options.resize(options.len().next_multiple_of(4), 1);
        assert!(options.len() <= 40);
        let offset = 5 + options.len() as u8 / 4;
        let mut bytes = vec![];
        bytes.extend(self.source_port.to_be_bytes());
        bytes.extend(self.destination_port.to_be_bytes());
        bytes.extend(self.sequence.to_be_bytes());
        bytes.extend(self.acknowledgment.to_be_bytes());
        bytes.extend([offset << 4 | self.reserved, self.flags]);
        bytes.extend(self.window.to_be_bytes());
        bytes.extend(self.checksum.to_be_bytes());
        bytes.extend(self.urgent.to_be_bytes());
        bytes.extend(options);
        bytes.extend(&self.data);
        bytes
    }

    pub fn flags(self, flags: u8) -> Segment {
        Segment { flags, ..self }
    }

    pub fn sequence(self, sequence: u32) -> Segment {
        Segment { sequence, ..self }
    }

    pub fn options(self, options: &[u8]) -> Segment {
        Segment {
            options: options.to_vec(),
            ..self
        }
    }

    /// With TCP-AO in front of the options; see [`ao`].
    pub fn ao(self, length: u8, key_id: u8, rnext_key_id: u8) -> Segment {
        Segment {
            options: [ao(length, key_id, rnext_key_id), self.options].concat(),
            ..self
        }
    }
}

/// The one's complement sum of a segment behind its pseudo-header (RFC 793, RFC 8200): FFFF if the checksum
/// in it is right. Words are added up whole and the carries at the end, in one go.
pub fn sum(source: &[u8], destination: &[u8], segment: &[u8]) -> u16 {
    let words = |bytes: &[u8]| -> u64 {
        let word = |pair: &[u8]| u64::from(pair[0]) << 8 | u64::from(*pair.get(1).unwrap_or(&0));
        bytes.chunks(2).map(word).sum()
    };
    // The protocol, 6, and the length, whose upper half is zero or not there.
    let rest = 6 + segment.len() as u64;
    let total = words(source) + words(destination) + rest + words(segment);
    match (total % 0xffff, total) {
        (0, 0) => 0,
        (0, _) => 0xffff,
        (sum, _) => sum as u16,
    }
}

/// The segment with its right checksum, if it has room for one.
pub fn summed(source: &[u8], destination: &[u8], segment: &[u8]) -> Vec<u8> {
    let mut segment = segment.to_vec();
    if segment.len() >= 18 {
        segment[16..18].fill(0);
        let right = !sum(source, destination, &segment);
        segment[16..18].copy_from_slice(&right.to_be_bytes());
    }
    segment
}

/// TCP MD5 of this length, 2 or more, whose digest is zero.
pub fn md5(length: u8) -> Vec<u8> {
    let mut option = vec![19, length];
    option.resize(usize::from(length), 0);
    option
}

/// TCP-AO of this length, 4 or more, whose MAC is zero.
pub fn ao(length: u8, key_id: u8, rnext_key_id: u8) -> Vec<u8> {
    let mut option = vec![29, length, key_id, rnext_key_id];
    option.resize(usize::from(length), 0);
    option
}
