//! From a frame to the IP packet in it.

/// The kinds of link that are read.
#[derive(Clone, Copy, Debug, PartialEq, Eq)]
pub enum Link {
    /// Ethernet, with or without VLAN tags.
    Ethernet,
    /// IP packets by themselves.
    RawIp,
    /// Linux's cooked capture, version 1: what `tcpdump -i any` wrote for long.
    Cooked1,
    /// Linux's cooked capture, version 2.
    Cooked2,
}

const IPV4: u16 = 0x0800;
const IPV6: u16 = 0x86DD;
/// IEEE 802.1Q, 802.1ad, and what was used before the latter.
const TAGS: [u16; 3] = [0x8100, 0x88A8, 0x9100];

impl Link {
    /// The link of a number in tcpdump.org's list. Raw IP has four: any version, two that OpenBSD and others
    /// wrote for the same, and one each for IPv4 and IPv6.
    pub fn of(number: u16) -> Option<Link> {
        match number {
            1 => Some(Link::Ethernet),
            12 | 14 | 101 | 228 | 229 => Some(Link::RawIp),
            113 => Some(Link::Cooked1),
            276 => Some(Link::Cooked2),
            _ => None,
        }
    }

    /// Its name.
    pub fn name(self) -> &'static str {
        match self {
            Link::Ethernet => "Ethernet",
            Link::RawIp => "raw IP",
            Link::Cooked1 => "Linux cooked",
            Link::Cooked2 => "Linux cooked v2",
        }
    }

    /// The IP packet in a frame, with what may stand behind it; nothing where the frame carries something else
    /// or is cut off before it.
    pub fn ip(self, frame: &[u8]) -> Option<&[u8]> {
        let (kind, payload) = match self {
            Link::RawIp => return Some(frame),
            Link::Ethernet => (12, 14),
            Link::Cooked1 => (14, 16),
            Link::Cooked2 => (0, 20),
        };
        untagged(type_of(frame.get(kind..)?)?, frame.get(payload..)?)
    }
}

/// The IP packet in a payload of this type, behind the tags that come before it.
fn untagged(mut kind: u16, mut payload: &[u8]) -> Option<&[u8]> {
    while TAGS.contains(&kind) {
        kind = type_of(payload.get(2..)?)?;
        payload = payload.get(4..)?;
    }
    matches!(kind, IPV4 | IPV6).then_some(payload)
}

fn type_of(bytes: &[u8]) -> Option<u16> {
    match bytes {
        [high, low, ..] => Some(u16::from_be_bytes([*high, *low])),
        _ => None,
    }
}

#[cfg(test)]
mod tests {
    use super::*;

    const PACKET: [u8; 3] = [0x45, 7, 7];

    fn frame(parts: &[&[u8]]) -> Vec<u8> {
        [parts.concat(), PACKET.to_vec()].concat()
    }

    #[test]
    fn frames_with_ip() {
        let ethernet: &[u8] = &[9; 12];
        let cooked: &[u8] = &[9; 14];
        let behind: &[u8] = &[9; 18];
        let tag: &[u8] = &[0x81, 0, 0, 5];
        let tags: &[u8] = &[0x88, 0xA8, 0, 6, 0x91, 0, 0, 7, 0x81, 0, 0, 5];
        let (ipv4, ipv6): (&[u8], &[u8]) = (&[8, 0], &[0x86, 0xDD]);
        let good = [
            (Link::Ethernet, frame(&[ethernet, ipv4])),
            (Link::Ethernet, frame(&[ethernet, ipv6])),
            (Link::Ethernet, frame(&[ethernet, tag, ipv4])),
            (Link::Ethernet, frame(&[ethernet, tags, ipv6])),
            (Link::RawIp, frame(&[])),
            (Link::Cooked1, frame(&[cooked, ipv4])),
            (Link::Cooked1, frame(&[cooked, tag, ipv6])),
            (Link::Cooked2, frame(&[ipv6, behind])),
            (Link::Cooked2, frame(&[&[0x81, 0], behind, &[0, 5], ipv4])),
        ];
        for (link, frame) in &good {
            assert_eq!(link.ip(frame), Some(&PACKET[..]), "{link:?} {frame:?}");
            for length in 0..frame.len() {
                let cut = link.ip(&frame[..length]);
                let expected = (length + 3).checked_sub(frame.len());
                let expected = expected.map(|rest| &PACKET[..rest]);
                assert_eq!(cut, expected, "{link:?} {length}");
            }
        }
    }

    #[test]
    fn frames_without_ip() {
        let arp = frame(&[&[9; 12], &[8, 6]]);
        assert_eq!(Link::Ethernet.ip(&arp), None);
        let tagged = frame(&[&[9; 12], &[0x81, 0, 0, 5, 8, 6]]);
        assert_eq!(Link::Ethernet.ip(&tagged), None);
        let lengthy = frame(&[&[9; 12], &[0, 38, 0x42, 0x42, 3]]);
        assert_eq!(Link::Ethernet.ip(&lengthy), None);
    }
}
