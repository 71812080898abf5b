//! The digest of TCP MD5: RFC 2385. Ticket 9.

use crate::checksum::CHECKSUM;
use crate::crypto;
use crate::mac::pseudo_header;
use crate::segment::{Header, OPTIONS_AT};

/// What the digest is of. RFC 2385, section 2.0: "1. the TCP pseudo-header (in the order: source IP address,
/// destination IP address, zero-padded protocol number, and segment length) 2. the TCP header, excluding
/// options, and assuming a checksum of zero 3. the TCP segment data (if any) 4. an independently-specified
/// key or password, known to both TCPs". The segment's length is the whole one's; "for IPv6 over 01's
/// pseudo-header".
pub fn message(
    source: &[u8],
    destination: &[u8],
    segment: &[u8],
    header: &Header,
    key: &[u8],
) -> Vec<u8> {
    let mut without_options = segment[..OPTIONS_AT].to_vec();
    without_options[CHECKSUM].fill(0);

    let mut bytes = pseudo_header(source, destination, segment.len());
    bytes.extend_from_slice(&without_options);
    bytes.extend_from_slice(&segment[header.bytes()..]);
    bytes.extend_from_slice(key);
    bytes
}

/// The digest that a segment must have under this key.
pub fn digest(
    source: &[u8],
    destination: &[u8],
    segment: &[u8],
    header: &Header,
    key: &[u8],
) -> [u8; 16] {
    crypto::md5(&message(source, destination, segment, header, key))
}
