//! What the tests share: segments, and both ends of an open connection.
#![allow(dead_code)] // each test file uses a part

use embankery::{
    Algorithm, Connection, Covered, Entry, KeyTable, Md5Entry, Md5Table, UnknownKeyId, Verdict,
};
use kit::segment::{summed, ACK, SYN};
use kit::Segment;
use std::net::IpAddr;

pub const PORTS: [u16; 2] = [40_000, 179];
pub const ISNS: [u32; 2] = [1_000, 2_000];
/// SendID at the first end and RecvID at the second; the other way round.
pub const IDS: [u8; 2] = [1, 2];

/// A segment with its checksum zero.
pub fn segment(ports: [u16; 2], number: u32, flags: u8, options: &[u8], data: &[u8]) -> Vec<u8> {
    Segment {
        source_port: ports[0],
        destination_port: ports[1],
        sequence: number,
        acknowledgment: 7,
        flags,
        window: 0xFFFF,
        options: options.to_vec(),
        data: data.to_vec(),
        ..Segment::default()
    }
    .bytes()
}

/// What may differ from line to line.
#[derive(Clone, Copy, Debug)]
pub struct Kind {
    pub ipv6: bool,
    pub algorithm: Algorithm,
    pub covered: Covered,
    /// The MAC's length, if it is said; it is 12 otherwise.
    pub mac_length: Option<u8>,
}

pub const FIRST_KIND: Kind = Kind {
    ipv6: false,
    algorithm: Algorithm::HmacSha1_96,
    covered: Covered::AllOptions,
    mac_length: None,
};

pub const ALGORITHMS: [Algorithm; 3] = [
    Algorithm::HmacSha1_96,
    Algorithm::Aes128Cmac96,
    Algorithm::HmacSha256,
];

/// Both families, all algorithms and flags, and MACs of 4, 9, 12 (unsaid and said) and 16 bytes.
pub fn kinds() -> Vec<Kind> {
    let mut kinds = Vec::new();
    for ipv6 in [false, true] {
        for algorithm in ALGORITHMS {
            for covered in [Covered::OnlyTcpAo, Covered::AllOptions] {
                for mac_length in [None, Some(4), Some(9), Some(12), Some(16)] {
                    kinds.push(Kind {
                        ipv6,
                        algorithm,
                        covered,
                        mac_length,
                    });
                }
            }
        }
    }
    kinds
}

impl Kind {
    /// What signing adds: 4 bytes, the MAC, and what fills up to whole words.
    pub fn added(self) -> usize {
        (4 + usize::from(self.mac_length.unwrap_or(12))).next_multiple_of(4)
    }
}

/// The two ends of a connection, of which end 0 opened actively. Both are open.
pub struct Ends {
    pub addresses: [IpAddr; 2],
    pub tables: [KeyTable; 2],
    pub ends: [Connection; 2],
    pub syn: Vec<u8>,
    pub syn_ack: Vec<u8>,
    /// End 0 when it was opening.
    pub opening: Connection,
}

impl Ends {
    pub fn open(kind: Kind) -> Ends {
        let addresses: [IpAddr; 2] = if kind.ipv6 {
            [[0xFD00, 0, 0, 0, 0, 0, 0, 1], [0xFD00, 0, 0, 0, 0, 0, 0, 2]].map(IpAddr::from)
        } else {
            [[10, 0, 0, 1], [10, 0, 0, 2]].map(IpAddr::from)
        };
        let bits = if kind.ipv6 { 128 } else { 32 };
        let table = |end: usize| {
            let entry = if kind.ipv6 {
                Entry::ipv6()
            } else {
                Entry::ipv4()
            };
            let entry = match kind.mac_length {
                Some(bytes) => entry.mac_length(bytes),
                None => entry,
            };
            let entry = entry
                .local(addresses[end], bits)
                .remote(addresses[1 - end], bits)
                .send_id(IDS[end])
                .recv_id(IDS[1 - end])
                .algorithm(kind.algorithm)
                .covered(kind.covered)
                .key(b"a key of both ends")
                .build()
                .unwrap();
            KeyTable::new([&entry]).unwrap()
        };
        let tables = [table(0), table(1)];
        let here = (addresses[0], PORTS[0]);
        let there = (addresses[1], PORTS[1]);
        let mut a = Connection::open_active(&tables[0], here, there, ISNS[0], IDS[0]).unwrap();
        let opening = a.clone();
        let syn = segment(PORTS, ISNS[0], SYN, &[], &[]);
        let syn = a.sign(&tables[0], &syn).unwrap();
        let mut b = Connection::open_passive(
            &tables[1],
            addresses[0],
            addresses[1],
            &syn,
            ISNS[1],
            UnknownKeyId::Drop,
        )
        .unwrap()
        .unwrap();
        let syn_ack = segment([PORTS[1], PORTS[0]], ISNS[1], SYN | ACK, &[], &[]);
        let syn_ack = b.sign(&tables[1], &syn_ack).unwrap();
        let verdict = a.judge(&tables[0], addresses[1], addresses[0], &syn_ack);
        assert_eq!(verdict, Verdict::Accept { extension: 0 });
        Ends {
            addresses,
            tables,
            ends: [a, b],
            syn,
            syn_ack,
            opening,
        }
    }

    /// End 0 signs.
    pub fn sign(&mut self, segment: &[u8]) -> Result<Vec<u8>, embankery::Refusal> {
        self.ends[0].sign(&self.tables[0], segment)
    }

    /// A segment from end 0 to end 1 with its right checksum.
    pub fn summed(&self, segment: &[u8]) -> Vec<u8> {
        let [source, destination] = self.addresses.map(octets);
        summed(&source, &destination, segment)
    }

    /// End 1 judges what comes from end 0.
    pub fn judge(&mut self, segment: &[u8]) -> Verdict {
        let [source, destination] = self.addresses;
        self.ends[1].judge(&self.tables[1], source, destination, segment)
    }
}

/// The two ends of a connection by TCP MD5, of which end 0 opened actively. Both are open.
pub struct Md5Ends {
    pub addresses: [IpAddr; 2],
    pub tables: [Md5Table; 2],
    pub ends: [Connection; 2],
    pub syn: Vec<u8>,
    /// End 0 when it was opening.
    pub opening: Connection,
}

impl Md5Ends {
    pub fn open(ipv6: bool) -> Md5Ends {
        let addresses = Ends::open(Kind { ipv6, ..FIRST_KIND }).addresses;
        let bits = if ipv6 { 128 } else { 32 };
        let table = |end: usize| {
            let entry = if ipv6 {
                Md5Entry::ipv6()
            } else {
                Md5Entry::ipv4()
            };
            let entry = entry
                .local(addresses[end], bits)
                .remote(addresses[1 - end], bits)
                .key(b"an old key");
            Md5Table::new([&entry.build().unwrap()]).unwrap()
        };
        let tables = [table(0), table(1)];
        let [here, there] = [0, 1].map(|end| (addresses[end], PORTS[end]));
        let mut a = Connection::open_active_md5(&tables[0], here, there, ISNS[0]).unwrap();
        let opening = a.clone();
        let syn = a
            .sign(&tables[0], &segment(PORTS, ISNS[0], SYN, &[], &[]))
            .unwrap();
        let [source, destination] = addresses;
        let choice = UnknownKeyId::Drop;
        let b = Connection::open_passive(&tables[1], source, destination, &syn, ISNS[1], choice);
        let mut b = b.unwrap().unwrap();
        let syn_ack = segment([PORTS[1], PORTS[0]], ISNS[1], SYN | ACK, &[], &[]);
        let syn_ack = b.sign(&tables[1], &syn_ack).unwrap();
        let verdict = a.judge(&tables[0], destination, source, &syn_ack);
        assert_eq!(verdict, Verdict::Accept { extension: 0 });
        Md5Ends {
            addresses,
            tables,
            ends: [a, b],
            syn,
            opening,
        }
    }

    /// End 0 signs.
    pub fn sign(&mut self, segment: &[u8]) -> Result<Vec<u8>, embankery::Refusal> {
        self.ends[0].sign(&self.tables[0], segment)
    }

    /// A segment from end 0 to end 1 with its right checksum.
    pub fn summed(&self, segment: &[u8]) -> Vec<u8> {
        let [source, destination] = self.addresses.map(octets);
        summed(&source, &destination, segment)
    }

    /// End 1 judges what comes from end 0.
    pub fn judge(&mut self, segment: &[u8]) -> Verdict {
        let [source, destination] = self.addresses;
        self.ends[1].judge(&self.tables[1], source, destination, segment)
    }
}

/// An address's bytes.
pub fn octets(address: IpAddr) -> Vec<u8> {
    match address {
        IpAddr::V4(address) => address.octets().to_vec(),
        IpAddr::V6(address) => address.octets().to_vec(),
    }
}
