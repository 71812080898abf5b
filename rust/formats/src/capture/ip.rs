//! From an IP packet to the TCP segment in it.

use std::net::{IpAddr, Ipv4Addr, Ipv6Addr};

const TCP: u8 = 6;

/// A TCP segment, or as much of it as is there.
#[derive(Clone, Copy, Debug, PartialEq, Eq)]
pub struct Datagram<'a> {
    /// Who sent it.
    pub source: IpAddr,
    /// Whom it is for.
    pub destination: IpAddr,
    /// The segment's bytes.
    pub segment: &'a [u8],
    /// Whether that is all of it.
    pub whole: Whole,
}

/// Whether a segment is all there.
#[derive(Clone, Copy, Debug, PartialEq, Eq)]
pub enum Whole {
    /// It is.
    Yes,
    /// The capture has only its front; the segment had so many bytes.
    Cut(usize),
    /// It came in fragments. This is the first of them, in which the segment begins.
    FirstFragment,
    /// It came in fragments, and this is a later one: these bytes are no segment's front.
    LaterFragment,
}

/// What an IP packet carries.
#[derive(Clone, Copy, Debug, PartialEq, Eq)]
pub enum Content<'a> {
    /// TCP.
    Tcp(Datagram<'a>),
    /// Something else.
    Other,
    /// It cannot be said what; and why not.
    Unclear(&'static str),
}

const CUT: Content = Content::Unclear("the capture has not the whole IP header");

/// What an IP packet carries, behind which other bytes may stand.
pub fn content(packet: &[u8]) -> Content<'_> {
    match packet.first().map(|first| first >> 4) {
        Some(4) => ipv4(packet),
        Some(6) => ipv6(packet),
        Some(_) => Content::Unclear("IP of a version that is neither 4 nor 6"),
        None => CUT,
    }
}

fn u16_at(bytes: &[u8], at: usize) -> u16 {
    u16::from_be_bytes([bytes[at], bytes[at + 1]])
}

fn ipv4(packet: &[u8]) -> Content<'_> {
    let Some(header) = packet.get(..20) else {
        return CUT;
    };
    let header_length = usize::from(header[0] & 15) * 4;
    let length = usize::from(u16_at(header, 2));
    if length == 0 {
        return Content::Unclear(
            "an IPv4 packet of length 0: it was captured before it was cut up",
        );
    }
    if header_length < 20 || length < header_length {
        return Content::Unclear("an IPv4 header whose lengths cannot be");
    }
    if header[9] != TCP {
        return Content::Other;
    }
    let Some(behind) = packet.get(header_length..) else {
        return CUT;
    };
    let fragment = u16_at(header, 6);
    let (offset, more) = (fragment & 0x1FFF, fragment & 0x2000 != 0);
    let address = |at: usize| {
        let bytes = [header[at], header[at + 1], header[at + 2], header[at + 3]];
        IpAddr::from(Ipv4Addr::from(bytes))
    };
    let ends = [address(12), address(16)];
    Content::Tcp(datagram(ends, behind, length - header_length, offset, more))
}

/// The segment that fills a packet's last `length` bytes.
fn datagram(
    [source, destination]: [IpAddr; 2],
    behind: &[u8],
    length: usize,
    offset: u16,
    more: bool,
) -> Datagram<'_> {
    let segment = &behind[..length.min(behind.len())];
    let whole = match (offset, more) {
        (0, false) if segment.len() < length => Whole::Cut(length),
        (0, false) => Whole::Yes,
        (0, true) => Whole::FirstFragment,
        _ => Whole::LaterFragment,
    };
    Datagram {
        source,
        destination,
        segment,
        whole,
    }
}

/// The extension headers that TCP may stand behind.
const HOP_BY_HOP: u8 = 0;
const ROUTING: u8 = 43;
const FRAGMENT: u8 = 44;
const AUTHENTICATION: u8 = 51;
const DESTINATION_OPTIONS: u8 = 60;
const MOBILITY: u8 = 135;
const HIP: u8 = 139;
const SHIM6: u8 = 140;

fn ipv6(packet: &[u8]) -> Content<'_> {
    let Some((header, mut behind)) = packet.split_at_checked(40) else {
        return CUT;
    };
    let mut length = usize::from(u16_at(header, 4));
    if length == 0 {
        return Content::Unclear(
            "an IPv6 packet of length 0: a jumbogram, or captured before it was cut up",
        );
    }
    let address = |at: usize| {
        let mut bytes = [0; 16];
        bytes.copy_from_slice(&header[at..at + 16]);
        IpAddr::from(Ipv6Addr::from(bytes))
    };
    let ends = [address(8), address(24)];
    let (mut next, mut offset, mut more) = (header[6], 0, false);
    while next != TCP {
        let Some(head) = behind.get(..8) else {
            return match extension(next) {
                true => CUT,
                false => Content::Other,
            };
        };
        let size = match next {
            FRAGMENT => 8,
            AUTHENTICATION => (usize::from(head[1]) + 2) * 4,
            next if extension(next) => (usize::from(head[1]) + 1) * 8,
            _ => return Content::Other,
        };
        if next == ROUTING && head[3] != 0 {
            // The checksum is then over the last address, which stands in this header.
            return Content::Unclear("an IPv6 packet that its routing header sends further");
        }
        if next == FRAGMENT {
            (offset, more) = (u16_at(head, 2) >> 3, head[3] & 1 != 0);
        }
        next = head[0];
        if offset != 0 && next != TCP {
            // What stands in a later fragment is the middle of something; only the first says of what.
            return Content::Other;
        }
        let (Some(rest), Some(shorter)) = (behind.get(size..), length.checked_sub(size)) else {
            return CUT;
        };
        (behind, length) = (rest, shorter);
    }
    Content::Tcp(datagram(ends, behind, length, offset, more))
}

fn extension(kind: u8) -> bool {
    matches!(
        kind,
        HOP_BY_HOP
            | ROUTING
            | FRAGMENT
            | AUTHENTICATION
            | DESTINATION_OPTIONS
            | MOBILITY
            | HIP
            | SHIM6
    )
}
