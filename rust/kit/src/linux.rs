//! Connections between two sockets of Linux, as captured: the files `linux-6.12.txt` and
//! `linux-6.12-ends.txt` of the wrapper's tests, whose first lines say what the columns are.

use crate::ends::Pair;
use crate::entry::{Entry, Side};
use std::net::IpAddr;

/// The MAC bytes of entries that do not say how many they have.
const USUAL_MAC_BYTES: u8 = 12;
/// The algorithm in the entries of an MD5 table.
const MD5: u8 = 19;

/// A connection. Its ends have an index: 0 the client, which opened actively, 1 the server.
#[derive(Clone, Debug)]
pub struct Captured {
    pub name: String,
    /// The pair as the client holds it.
    pub pair: Pair,
    /// In the order of both ends' tables.
    pub keys: Vec<Key>,
    /// In the order in which they were sent.
    pub segments: Vec<Sent>,
    /// What Linux said of both ends; nothing of TCP MD5.
    pub left: Vec<Left>,
}

/// A key that both ends have.
#[derive(Clone, Debug)]
pub struct Key {
    pub algorithm: u8,
    pub flags: u8,
    pub mac_bytes: u8,
    /// Each end's SendID, which is the other's RecvID.
    pub send_ids: [u8; 2],
    /// How many bits of the peer's address are fixed: none, or all.
    pub prefix: u8,
    pub key: Vec<u8>,
}

/// A segment as it was on the wire.
#[derive(Clone, Debug)]
pub struct Sent {
    /// The end that sent it.
    pub by: usize,
    pub key_id: u8,
    pub rnext_key_id: u8,
    pub extension: u32,
    pub bytes: Vec<u8>,
}

/// What Linux said of one end before it was closed.
#[derive(Clone, Debug, PartialEq, Eq)]
pub struct Left {
    pub outgoing_send_id: u8,
    pub asked_recv_id: u8,
    pub our_isn: u32,
    pub peer_isn: u32,
    /// Of the last segment sent, and of the last one seen.
    pub extensions: [u32; 2],
}

/// Whether an entry says how many bytes its MACs have (kinds 5 and 7) or not (4 and 6).
#[derive(Clone, Copy, Debug, PartialEq, Eq)]
pub enum MacBytes {
    Unsaid,
    Said,
}

impl Captured {
    /// The pair as this end holds it.
    pub fn pair(&self, end: usize) -> Pair {
        [self.pair.clone(), self.pair.mirror()][end].clone()
    }

    /// This end's table. Linux looks only at the peer's address, and so do the entries.
    pub fn table(&self, end: usize, mac_bytes: MacBytes) -> Vec<u8> {
        let peer = self.pair(end).remote;
        let entries = self.keys.iter();
        entries
            .flat_map(|key| key.bytes(end, &peer, mac_bytes))
            .collect()
    }

    /// Whether it goes by TCP MD5; else by TCP-AO.
    pub fn by_md5(&self) -> bool {
        self.keys.iter().all(|key| key.algorithm == MD5)
    }

    /// The sequence number of this end's SYN.
    pub fn isn(&self, end: usize) -> u32 {
        let mut sent = self.segments.iter().filter(|sent| sent.by == end);
        sent.next().unwrap().number()
    }

    /// The ways in which its tables can be written.
    pub fn ways(&self) -> Vec<MacBytes> {
        let all = |way: &MacBytes| self.keys.iter().all(|key| key.can_be(*way));
        [MacBytes::Unsaid, MacBytes::Said]
            .into_iter()
            .filter(all)
            .collect()
    }
}

impl Key {
    /// TCP MD5 has no kinds 5 and 7, and no other length than its own.
    fn can_be(&self, way: MacBytes) -> bool {
        match way {
            MacBytes::Unsaid => self.algorithm == MD5 || self.mac_bytes == USUAL_MAC_BYTES,
            MacBytes::Said => self.algorithm != MD5,
        }
    }

    /// The entry's bytes at this end.
    fn bytes(&self, end: usize, peer: &[u8], mac_bytes: MacBytes) -> Vec<u8> {
        let remote = match self.prefix {
            0 => Side::any(peer.len()),
            _ => Side::host(peer),
        };
        assert_eq!(remote.prefix, self.prefix);
        let entry = Entry {
            flags: self.flags,
            algorithm: self.algorithm,
            local: Side::any(peer.len()),
            remote,
            key: self.key.clone(),
            ..Entry::default()
        };
        let entry = entry.ids(self.send_ids[end], self.send_ids[1 - end]);
        let bytes = entry.bytes();
        match mac_bytes {
            MacBytes::Unsaid => bytes,
            MacBytes::Said => saying(bytes, self.mac_bytes),
        }
    }
}

/// The entry of kind 5 or 7 that is otherwise like this one of kind 4 or 6: one byte more, directly
/// before the key's length.
fn saying(mut entry: Vec<u8>, mac_bytes: u8) -> Vec<u8> {
    const KEY_AND_ITS_LENGTH: usize = 81;
    entry[0] += 1;
    entry.insert(entry.len() - KEY_AND_ITS_LENGTH, mac_bytes);
    entry
}

impl Sent {
    /// The sequence number.
    pub fn number(&self) -> u32 {
        u32::from_be_bytes(self.bytes[4..8].try_into().unwrap())
    }

    /// The position, by the extension that Linux signed it with.
    pub fn position(&self) -> u64 {
        u64::from(self.extension) << 32 | u64::from(self.number())
    }

    /// Whether it has TCP MD5. Linux puts first the two bytes that pad it.
    pub fn by_md5(&self) -> bool {
        self.bytes[20..24] == [1, 1, MD5, 18]
    }

    /// The segment as we sign it: TCP MD5 before the two bytes that pad it. That is all: neither the digest
    /// nor the checksum hangs on the order of these ten words of 16 bits.
    pub fn as_ours(&self) -> Vec<u8> {
        let mut bytes = self.bytes.clone();
        if self.by_md5() {
            bytes[20..40].rotate_left(2);
        }
        bytes
    }

    /// The segment before it was signed: without TCP-AO or TCP MD5, which stands first, and its padding, and
    /// with its checksum zero.
    pub fn unsigned(&self) -> Vec<u8> {
        let mut bytes = self.as_ours();
        bytes[16..18].fill(0);
        assert!([29, MD5].contains(&bytes[20]));
        let option = usize::from(bytes[21]).next_multiple_of(4);
        bytes.drain(20..20 + option);
        bytes[12] -= (option as u8 / 4) << 4;
        bytes
    }
}

/// The connections, from the two files' texts.
pub fn captured(segments: &str, ends: &str) -> Vec<Captured> {
    let mut all: Vec<Captured> = vec![];
    for line in lines(segments) {
        let name = line[0];
        if all.last().is_none_or(|last| last.name != name) {
            assert!(all.iter().all(|before| before.name != name), "{name} twice");
            all.push(first_seen(&line, ends));
        }
        let connection = all.last_mut().unwrap();
        connection.segments.push(sent(&line, &connection.pair));
    }
    all
}

/// A connection by its SYN's line, before any segment.
fn first_seen(line: &[&str], ends: &str) -> Captured {
    let name = line[0];
    let of_kind = |kind| {
        let lines = lines(ends).into_iter();
        lines.filter(move |line| line[..2] == [kind, name])
    };
    Captured {
        name: name.to_string(),
        pair: Pair {
            local: address(line[8]),
            remote: address(line[9]),
            local_port: line[10].parse().unwrap(),
            remote_port: line[11].parse().unwrap(),
        },
        keys: of_kind("key").map(|line| key(&line)).collect(),
        segments: vec![],
        left: of_kind("left").map(|line| left(&line)).collect(),
    }
}

fn sent(line: &[&str], client: &Pair) -> Sent {
    Sent {
        by: usize::from(address(line[8]) != client.local),
        key_id: number_or_none(line[6]) as u8,
        rnext_key_id: number_or_none(line[7]) as u8,
        extension: number_or_none(line[14]),
        bytes: hex(line[15]),
    }
}

fn key(line: &[&str]) -> Key {
    Key {
        algorithm: match line[2] {
            "sha1" => 1,
            "cmac" => 2,
            "sha256" => 3,
            "md5" => MD5,
            other => panic!("algorithm {other}"),
        },
        flags: line[3].parse().unwrap(),
        mac_bytes: line[4].parse().unwrap(),
        send_ids: [line[5], line[6]].map(|id| number_or_none(id) as u8),
        prefix: line[7].parse().unwrap(),
        key: hex(line[8]),
    }
}

fn left(line: &[&str]) -> Left {
    let isn = |column: &str| u32::from_str_radix(column, 16).unwrap();
    Left {
        outgoing_send_id: line[3].parse().unwrap(),
        asked_recv_id: line[4].parse().unwrap(),
        our_isn: isn(line[5]),
        peer_isn: isn(line[6]),
        extensions: [line[7], line[8]].map(|column| column.parse().unwrap()),
    }
}

/// The lines of a file, split into columns, without the remarks.
fn lines(text: &str) -> Vec<Vec<&str>> {
    let lines = text.lines().filter(|line| !line.starts_with('#'));
    lines
        .map(|line| line.split_whitespace().collect())
        .collect()
}

/// A number; 0 where there is none, which is what document 02 has for TCP MD5.
fn number_or_none(column: &str) -> u32 {
    match column {
        "-" => 0,
        number => number.parse().unwrap(),
    }
}

fn address(column: &str) -> Vec<u8> {
    match column.parse().unwrap() {
        IpAddr::V4(address) => address.octets().to_vec(),
        IpAddr::V6(address) => address.octets().to_vec(),
    }
}

fn hex(column: &str) -> Vec<u8> {
    (0..column.len() / 2)
        .map(|i| u8::from_str_radix(&column[2 * i..2 * i + 2], 16).unwrap())
        .collect()
}
