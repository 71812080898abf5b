//! "Traffic keys" and "What the MAC covers".

use crate::checksum::CHECKSUM;
use crate::crypto;
use crate::segment::{AoOption, WithAo, DESTINATION_PORT, SOURCE_PORT};
use crate::table::{Algorithm, Entry};

/// The two ends of a segment. "'source' is whoever sent the segment."
#[derive(Clone, Copy, Debug, PartialEq, Eq)]
pub struct Ends<'a> {
    /// The sender's address.
    pub source: &'a [u8],
    /// The receiver's address.
    pub destination: &'a [u8],
    /// The sender's port.
    pub source_port: u16,
    /// The receiver's port.
    pub destination_port: u16,
    /// The sender's ISN.
    pub source_isn: u32,
    /// The receiver's ISN. "For a bare SYN (SYN set, ACK clear) the destination ISN is zero."
    pub destination_isn: u32,
}

/// Whether we sign a segment or it arrives.
#[derive(Clone, Copy, Debug, PartialEq, Eq)]
pub enum Direction {
    /// We sign it: our side is the source.
    Leaving,
    /// It arrives: our side is the destination.
    Arriving,
}

/// Which sides of a segment count as zero for its MAC.
#[derive(Clone, Copy, Debug, PartialEq, Eq)]
pub struct Hidden {
    /// The source's address and port do.
    pub source: bool,
    /// The destination's address and port do.
    pub destination: bool,
}

impl Hidden {
    /// Ticket 10: "flags 2 for the local and 4 for the remote side, under which that side's address and port
    /// count as zero". By side, as in RFC 6978: our side is the source of what we sign and the destination
    /// of what arrives.
    pub fn of(entry: &Entry, direction: Direction) -> Hidden {
        match direction {
            Direction::Leaving => Hidden {
                source: entry.local_nat,
                destination: entry.remote_nat,
            },
            Direction::Arriving => Hidden {
                source: entry.remote_nat,
                destination: entry.local_nat,
            },
        }
    }

    /// The ends as they count: on a hidden side the address is zero, as long as its family has it, and so is
    /// the port. The ISNs stay.
    pub fn counted<'a>(self, ends: &Ends<'a>) -> Ends<'a> {
        let mut counted = *ends;
        if self.source {
            counted.source = zero_address(ends.source.len());
            counted.source_port = 0;
        }
        if self.destination {
            counted.destination = zero_address(ends.destination.len());
            counted.destination_port = 0;
        }
        counted
    }
}

/// The address of 4 or 16 bytes that is all zero.
fn zero_address(bytes: usize) -> &'static [u8] {
    &[0; 16][..bytes]
}

/// "The context is source address, destination address, source port, destination port, source ISN,
/// destination ISN; ... It has 20 bytes for IPv4, 44 for IPv6."
pub fn context(ends: &Ends) -> Vec<u8> {
    let mut bytes = Vec::with_capacity(44);
    bytes.extend_from_slice(ends.source);
    bytes.extend_from_slice(ends.destination);
    bytes.extend_from_slice(&ends.source_port.to_be_bytes());
    bytes.extend_from_slice(&ends.destination_port.to_be_bytes());
    bytes.extend_from_slice(&ends.source_isn.to_be_bytes());
    bytes.extend_from_slice(&ends.destination_isn.to_be_bytes());
    bytes
}

/// "The input is one byte 1, the six bytes "TCP-AO", the context, and the output length in bits as
/// two bytes (160 or 128): 29 or 53 bytes in all." Algorithm 3: "with output length 256".
pub fn traffic_key_input(algorithm: Algorithm, ends: &Ends) -> Vec<u8> {
    let output_bits = 8 * algorithm.traffic_key_bytes() as u16;
    let mut bytes = Vec::with_capacity(53);
    bytes.push(1);
    bytes.extend_from_slice(b"TCP-AO");
    bytes.extend_from_slice(&context(ends));
    bytes.extend_from_slice(&output_bits.to_be_bytes());
    bytes
}

/// "Algorithm 1 applies HMAC-SHA-1 under the master key. Algorithm 2 applies AES-CMAC under the
/// master key if that has 16 bytes; otherwise under AES-CMAC of the master key with an all-zero
/// key." Algorithm 3: "HMAC-SHA-256, also in place of HMAC-SHA-1 in algorithm 1's key derivation, with
/// output length 256, without an extraction step".
pub fn traffic_key(algorithm: Algorithm, master_key: &[u8], ends: &Ends) -> Vec<u8> {
    let input = traffic_key_input(algorithm, ends);
    match algorithm {
        Algorithm::HmacSha1 => crypto::hmac_sha1(master_key, &input).to_vec(),
        Algorithm::AesCmac => {
            let key = match <[u8; 16]>::try_from(master_key) {
                Ok(sixteen) => sixteen,
                Err(_) => crypto::aes128_cmac(&[0; 16], master_key),
            };
            crypto::aes128_cmac(&key, &input).to_vec()
        }
        Algorithm::HmacSha256 => crypto::hmac_sha256(master_key, &input).to_vec(),
    }
}

/// The bytes that the MAC is made of. "In this order: the extension (4 bytes); the IP pseudo-header
/// as for the checksum, with the whole segment's length; the TCP header with checksum and MAC bytes
/// zero; the data. With flag 0 only the header's first 20 bytes, data offset as sent, and TCP-AO
/// remain." What pads a TCP-AO is no part of it: it stands in the header, and with flag 0 it is left out.
/// A hidden side's port is zero in the header, with flag 0 too; the ends are as they count.
pub fn message(
    covers_options: bool,
    hidden: Hidden,
    ends: &Ends,
    extension: u32,
    carrier: &WithAo,
) -> Vec<u8> {
    let WithAo {
        segment,
        header,
        ao,
    } = carrier;
    let (header_part, data) = segment.split_at(header.bytes());

    // "the TCP header with checksum and MAC bytes zero". Ticket 5: "Document 01's 'checksum zero' holds
    // only for the bytes under the MAC."
    let mut zeroed = header_part.to_vec();
    zeroed[CHECKSUM].fill(0);
    zeroed[ao.at + AoOption::FRONT..ao.at + ao.length].fill(0);
    if hidden.source {
        zeroed[SOURCE_PORT].fill(0);
    }
    if hidden.destination {
        zeroed[DESTINATION_PORT].fill(0);
    }

    let covered = if covers_options {
        zeroed
    } else {
        [&zeroed[..20], &zeroed[ao.at..ao.at + ao.length]].concat()
    };

    let mut bytes = Vec::with_capacity(44 + segment.len());
    bytes.extend_from_slice(&extension.to_be_bytes());
    // "with the whole segment's length".
    bytes.extend_from_slice(&pseudo_header(ends.source, ends.destination, segment.len()));
    bytes.extend_from_slice(&covered);
    bytes.extend_from_slice(data);
    bytes
}

/// "the IP pseudo-header as for the checksum": RFC 793 for IPv4, RFC 2460 section 8.1 for IPv6.
pub fn pseudo_header(source: &[u8], destination: &[u8], length: usize) -> Vec<u8> {
    let mut bytes = Vec::with_capacity(40);
    bytes.extend_from_slice(source);
    bytes.extend_from_slice(destination);
    if source.len() == 4 {
        // Zero, protocol, TCP length.
        bytes.extend_from_slice(&[0, 6]);
        bytes.extend_from_slice(&(length as u16).to_be_bytes());
    } else {
        // Upper-layer packet length, zero, next header.
        bytes.extend_from_slice(&(length as u32).to_be_bytes());
        bytes.extend_from_slice(&[0, 0, 0, 6]);
    }
    bytes
}

/// All that the algorithm gives of a message under a traffic key.
pub fn applied(algorithm: Algorithm, traffic_key: &[u8], message: &[u8]) -> Vec<u8> {
    match algorithm {
        Algorithm::HmacSha1 => crypto::hmac_sha1(traffic_key, message).to_vec(),
        Algorithm::AesCmac => {
            let mut key = [0; 16];
            key.copy_from_slice(traffic_key);
            crypto::aes128_cmac(&key, message).to_vec()
        }
        Algorithm::HmacSha256 => crypto::hmac_sha256(traffic_key, message).to_vec(),
    }
}

/// "The leftmost 12 bytes are the MAC." Ticket 4: "The MAC routine no longer promises twelve bytes but
/// the leftmost n."
pub fn leftmost(entry: &Entry, traffic_key: &[u8], message: &[u8]) -> Vec<u8> {
    let all = applied(entry.algorithm, traffic_key, message);
    all[..entry.mac_bytes].to_vec()
}

/// The MAC that a segment must have under an entry. Hidden sides are zero "in the traffic key context and in
/// the MAC's pseudo-header and header".
pub fn mac(
    entry: &Entry,
    direction: Direction,
    ends: &Ends,
    extension: u32,
    carrier: &WithAo,
) -> Vec<u8> {
    let hidden = Hidden::of(entry, direction);
    let counted = hidden.counted(ends);
    let key = traffic_key(entry.algorithm, entry.key, &counted);
    let covered = message(entry.covers_options, hidden, &counted, extension, carrier);
    leftmost(entry, &key, &covered)
}
