//! "The option in a segment": the header's fields and the options.

/// The kind of one byte that says nothing, with which a TCP-AO or an MD5 is padded.
pub const KIND_NO_OPERATION: u8 = 1;
/// The kind of TCP MD5.
pub const KIND_MD5: u8 = 19;
/// The kind of TCP-AO.
pub const KIND_TCP_AO: u8 = 29;

/// Where the ports stand in a segment.
pub const SOURCE_PORT: std::ops::Range<usize> = 0..2;
/// The destination's.
pub const DESTINATION_PORT: std::ops::Range<usize> = 2..4;

/// "The option area is read as the part from byte 20 to the header's end."
pub const OPTIONS_AT: usize = 20;

/// What these rules read of a TCP header.
#[derive(Clone, Copy, Debug, PartialEq, Eq)]
pub struct Header {
    /// Bytes 0 and 1.
    pub source_port: u16,
    /// Bytes 2 and 3.
    pub destination_port: u16,
    /// Bytes 4 to 7.
    pub sequence: u32,
    /// Byte 12's high half, in 32-bit words.
    pub data_offset: usize,
    /// Byte 13, the flags.
    pub flags: u8,
}

impl Header {
    /// "A segment has 20 to 65,535 bytes. The data offset is 5 to 15 words and its header lies
    /// inside the segment." Anything else is 20, and 30 when signing.
    pub fn read(segment: &[u8]) -> Option<Header> {
        if segment.len() < 20 || segment.len() > 65_535 {
            return None;
        }
        let data_offset = (segment[12] >> 4) as usize;
        if data_offset < 5 || 4 * data_offset > segment.len() {
            return None;
        }
        let two = |at: usize| u16::from_be_bytes([segment[at], segment[at + 1]]);
        let four = |at: usize| (two(at) as u32) << 16 | two(at + 2) as u32;
        Some(Header {
            source_port: two(0),
            destination_port: two(2),
            sequence: four(4),
            data_offset,
            flags: segment[13],
        })
    }

    /// How many bytes the header has.
    pub fn bytes(&self) -> usize {
        4 * self.data_offset
    }

    /// Whether SYN is set.
    pub fn syn(&self) -> bool {
        self.flags & 0x02 != 0
    }

    /// Whether ACK is set.
    pub fn ack(&self) -> bool {
        self.flags & 0x10 != 0
    }

    /// "a bare SYN (SYN set, ACK clear)".
    pub fn is_bare_syn(&self) -> bool {
        self.syn() && !self.ack()
    }

    /// SYN and ACK set.
    pub fn is_syn_ack(&self) -> bool {
        self.syn() && self.ack()
    }
}

/// "TCP-AO is kind 29, length, KeyID, RNextKeyID, MAC."
#[derive(Clone, Copy, Debug, PartialEq, Eq)]
pub struct AoOption {
    /// Where in the segment its kind stands.
    pub at: usize,
    /// Its length byte, 4 or more.
    pub length: usize,
    /// The key it is signed with.
    pub key_id: u8,
    /// The key its sender wants to be answered with.
    pub rnext_key_id: u8,
}

impl AoOption {
    /// How many bytes of it stand before the MAC.
    pub const FRONT: usize = 4;
}

/// A segment with what was read of it.
#[derive(Clone, Copy, Debug, PartialEq, Eq)]
pub struct WithAo<'a> {
    /// The segment's bytes.
    pub segment: &'a [u8],
    /// Its header.
    pub header: Header,
    /// Its TCP-AO.
    pub ao: AoOption,
}

impl WithAo<'_> {
    /// The MAC bytes that it carries.
    pub fn mac(&self) -> &[u8] {
        &self.segment[self.ao.at + AoOption::FRONT..self.ao.at + self.ao.length]
    }
}

/// TCP MD5: kind 19, length, digest.
#[derive(Clone, Copy, Debug, PartialEq, Eq)]
pub struct Md5Option {
    /// Where in the segment its kind stands.
    pub at: usize,
    /// Its length byte, 2 or more.
    pub length: usize,
}

impl Md5Option {
    /// How many bytes of it stand before the digest.
    pub const FRONT: usize = 2;
    /// Its right length. RFC 2385: kind, length 18 and a digest of 16 bytes.
    pub const BYTES: usize = 18;
}

/// What stands in an option area that is not malformed.
#[derive(Clone, Copy, Debug, PartialEq, Eq)]
pub struct Options {
    /// The first TCP-AO.
    pub ao: Option<AoOption>,
    /// How many TCP-AO there are.
    pub ao_count: usize,
    /// The first MD5.
    pub md5: Option<Md5Option>,
    /// How many MD5 there are.
    pub md5_count: usize,
}

/// Reads the options of a segment with this header; nothing if they are malformed (21, or 31 when
/// signing).
///
/// "The option area is read as the part from byte 20 to the header's end. There, kinds 0 and 1 take
/// one byte, 0 ends the reading, 19 is TCP MD5, 29 is TCP-AO; 2 to 18, 20 to 28 and 30 to 255 are
/// skipped by their length byte. A length below 2, missing, or running past the area is malformed.
/// So is kind 29 below length 4."
pub fn read_options(segment: &[u8], header: &Header) -> Option<Options> {
    let mut options = Options {
        ao: None,
        ao_count: 0,
        md5: None,
        md5_count: 0,
    };
    let end = header.bytes();
    let mut at = OPTIONS_AT;
    while at < end {
        let kind = segment[at];
        if kind == 0 {
            break;
        }
        if kind == KIND_NO_OPERATION {
            at += 1;
            continue;
        }

        // Missing.
        if at + 1 == end {
            return None;
        }
        let length = segment[at + 1] as usize;
        // Below 2, or running past the area.
        if length < 2 || at + length > end {
            return None;
        }

        if kind == KIND_TCP_AO {
            if length < 4 {
                return None;
            }
            options.ao_count += 1;
            if options.ao.is_none() {
                options.ao = Some(AoOption {
                    at,
                    length,
                    key_id: segment[at + 2],
                    rnext_key_id: segment[at + 3],
                });
            }
        }
        if kind == KIND_MD5 {
            options.md5_count += 1;
            if options.md5.is_none() {
                options.md5 = Some(Md5Option { at, length });
            }
        }
        at += length;
    }
    Some(options)
}
