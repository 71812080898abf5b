//! The two ends of a connection, A that opens and B that listens, in either family.

use super::calls::REFERENCE;
use kit::entry::{mirrored, table};
use kit::segment::{ACK, SYN};
use kit::{End, Entry, Pair, Side};
use reference::mac::{self, Direction, Ends};
use reference::segment::{read_options, Header, WithAo};

pub const A4: [u8; 4] = [10, 0, 0, 1];
pub const B4: [u8; 4] = [10, 0, 0, 2];
pub const A6: [u8; 16] = [0xfd, 0, 0, 0, 0, 0, 0, 0, 0, 0, 0, 0, 0, 0, 0, 1];
pub const B6: [u8; 16] = [0xfd, 0, 0, 0, 0, 0, 0, 0, 0, 0, 0, 0, 0, 0, 0, 2];
pub const A_PORT: u16 = 40_000;
pub const B_PORT: u16 = 179;
pub const A_ISN: u32 = 0x1000_0000;
pub const B_ISN: u32 = 0x2000_0000;

/// The keys of the connection between A and B in one family, as A holds them: two that match, under
/// both algorithms, and one for another peer.
pub fn keys(a: &[u8], b: &[u8]) -> Vec<Entry> {
    let mut elsewhere = b.to_vec();
    *elsewhere.last_mut().unwrap() = 77;
    let mut first = Entry::between(a, b).ids(1, 2);
    first.remote = first.remote.ports(B_PORT, B_PORT);
    let second = Entry {
        flags: 0,
        algorithm: 2,
        key: b"sixteen bytes ..".to_vec(),
        ..Entry::between(a, b).ids(3, 4)
    };
    let third = Entry::between(a, &elsewhere).ids(5, 6);
    vec![first, second, third]
}

/// A and B, not opened.
pub fn ends(a: &[u8], b: &[u8]) -> (End, End) {
    let keys = keys(a, b);
    let pair = Pair {
        local: a.to_vec(),
        remote: b.to_vec(),
        local_port: A_PORT,
        remote_port: B_PORT,
    };
    (
        End::new(REFERENCE, pair.clone(), table(&keys)),
        End::new(REFERENCE, pair.mirror(), mirrored(&keys)),
    )
}

/// A and B after the three opening segments.
pub fn opened(a: &[u8], b: &[u8]) -> (End, End) {
    let (mut a, mut b) = ends(a, b);
    assert_eq!(a.open_active(A_ISN, 1), 0);
    let syn = a.sign(A_ISN, SYN, b"");
    assert_eq!(b.judge_syn(&syn, 1), 0);
    assert_eq!(b.open_passive(&syn, B_ISN, 1), 0);
    let syn_ack = b.sign(B_ISN, SYN | ACK, b"");
    assert_eq!(a.judge(&syn_ack), 0);
    let ack = a.sign(A_ISN + 1, ACK, b"");
    assert_eq!(b.judge(&ack), 0);
    (a, b)
}

/// A and B, not opened, with an MD5 entry each for their pair, and key tables for others.
pub fn md5_ends(a: &[u8], b: &[u8]) -> (End, End) {
    let (mut one, mut other) = ends(a, b);
    let entry = Entry::md5(a, b);
    one.table = table(&keys(a, b)[2..]);
    other.table = mirrored(&keys(a, b)[2..]);
    one.md5 = entry.bytes();
    other.md5 = entry.mirror().bytes();
    (one, other)
}

/// A and B after the three opening segments by MD5.
pub fn md5_opened(a: &[u8], b: &[u8]) -> (End, End) {
    let (mut a, mut b) = md5_ends(a, b);
    assert_eq!(a.open_active_md5(A_ISN), 0);
    let syn = a.sign(A_ISN, SYN, b"");
    assert_eq!(b.judge_syn(&syn, 1), 0);
    assert_eq!(b.open_passive(&syn, B_ISN, 1), 0);
    let syn_ack = b.sign(B_ISN, SYN | ACK, b"");
    assert_eq!(a.judge(&syn_ack), 0);
    let ack = a.sign(A_ISN + 1, ACK, b"");
    assert_eq!(b.judge(&ack), 0);
    (a, b)
}

/// Writes into a segment's first MD5, of length 18, the digest that the entry gives between these addresses.
pub fn seal_md5(key: &Entry, source: &[u8], destination: &[u8], mut segment: Vec<u8>) -> Vec<u8> {
    let header = Header::read(&segment).unwrap();
    let md5 = read_options(&segment, &header).unwrap().md5.unwrap();
    let digest = reference::tcp_md5::digest(source, destination, &segment, &header, &key.key);
    segment[md5.at + 2..md5.at + 18].copy_from_slice(&digest);
    segment
}

/// What is translated on the way, of one side.
#[derive(Clone, Copy, Debug, PartialEq, Eq)]
pub struct Rewritten {
    pub address: bool,
    pub port: bool,
}

impl Rewritten {
    pub const NOTHING: Rewritten = Rewritten {
        address: false,
        port: false,
    };
    pub const BOTH: Rewritten = Rewritten {
        address: true,
        port: true,
    };
    /// What there is to rewrite.
    pub const SOMETHING: [Rewritten; 3] = [
        Rewritten {
            address: true,
            port: false,
        },
        Rewritten {
            address: false,
            port: true,
        },
        Rewritten::BOTH,
    ];

    /// The address and port that the other end sees.
    fn seen(self, address: &[u8], port: u16) -> (Vec<u8>, u16) {
        let mut address = address.to_vec();
        if self.address {
            address[1] ^= 0x80;
            *address.last_mut().unwrap() ^= 0x11;
        }
        (address, if self.port { port ^ 0x2222 } else { port })
    }
}

/// A and B, not opened, with one entry each for the pair as each of them holds it; of A's side and of B's so
/// much is rewritten on the way.
pub fn translated_ends(entry: &Entry, of_a: Rewritten, of_b: Rewritten) -> (End, End) {
    let (a, b) = (&entry.local.address, &entry.remote.address);
    let (seen_a, seen_a_port) = of_a.seen(a, A_PORT);
    let (seen_b, seen_b_port) = of_b.seen(b, B_PORT);
    let from_a = Pair {
        local: a.clone(),
        remote: seen_b.clone(),
        local_port: A_PORT,
        remote_port: seen_b_port,
    };
    let from_b = Pair {
        local: b.clone(),
        remote: seen_a.clone(),
        local_port: B_PORT,
        remote_port: seen_a_port,
    };
    let held = |pair: &Pair, entry: Entry| Entry {
        local: Side::host(&pair.local).ports(pair.local_port, pair.local_port),
        remote: Side::host(&pair.remote).ports(pair.remote_port, pair.remote_port),
        ..entry
    };
    let ours = held(&from_a, entry.clone()).bytes();
    let theirs = held(&from_b, entry.mirror()).bytes();
    (
        End::new(REFERENCE, from_a, ours),
        End::new(REFERENCE, from_b, theirs),
    )
}

/// An end's pair, for the reference.
pub fn lent(pair: &Pair) -> reference::table::Pair<'_> {
    reference::table::Pair {
        local: &pair.local,
        remote: &pair.remote,
        local_port: pair.local_port,
        remote_port: pair.remote_port,
    }
}

/// Writes into a segment's first TCP-AO the MAC that the entry gives for these ends. The entry is the
/// receiver's, or one that hides no side.
pub fn seal(key: &Entry, ends: &Ends, extension: u32, mut segment: Vec<u8>) -> Vec<u8> {
    let bytes = key.bytes();
    let entry = reference::table::read(&bytes).unwrap()[0];
    let header = Header::read(&segment).unwrap();
    let ao = read_options(&segment, &header).unwrap().ao.unwrap();
    let mac = {
        let carrier = WithAo {
            segment: &segment,
            header,
            ao,
        };
        mac::mac(&entry, Direction::Arriving, ends, extension, &carrier)
    };
    segment[ao.at + 4..ao.at + 4 + mac.len()].copy_from_slice(&mac);
    segment
}
