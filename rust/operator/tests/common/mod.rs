//! What the tests share: the captures of Linux, captures of our own making, and the desk over bytes.
#![allow(dead_code)] // each test file uses a part

use embankery::{Connection, Entry, KeyTable, Refusal, UnknownKeyId, Verdict};
use formats::capture::link::Link;
use formats::capture::Capture;
use formats::text::Kind;
use kit::capture::{packet, Form, Wrap};
use kit::segment::{ACK, SYN};
use kit::Segment;
use operator::desk::{Choice, Counts, Desk, Fate, Report};
use operator::tables::{checked, Endpoint, File};
use operator::{record, Direction, Recorded, Stop, Views};
use std::path::PathBuf;

/// The names of the twenty captures: Linux's own TCP-AO and TCP MD5.
pub fn names() -> Vec<String> {
    let files = std::fs::read_dir(folder()).unwrap();
    let names = files.map(|file| file.unwrap().file_name().into_string().unwrap());
    let captures = names.filter_map(|name| name.strip_suffix(".pcap").map(str::to_string));
    let mut captures: Vec<String> = captures.collect();
    captures.sort();
    captures
}

pub fn folder() -> PathBuf {
    PathBuf::from(env!("CARGO_MANIFEST_DIR")).join("captures")
}

pub fn path(file: &str) -> String {
    folder().join(file).to_str().unwrap().to_string()
}

pub fn bytes(file: &str) -> Vec<u8> {
    std::fs::read(folder().join(file)).unwrap()
}

/// Whether a capture's connection is signed by TCP MD5.
pub fn is_md5(name: &str) -> bool {
    name.contains("md5")
}

/// The client's tables of a capture.
pub fn client(name: &str) -> Endpoint {
    let kind = if is_md5(name) { Kind::Md5 } else { Kind::Keys };
    let file = File::read(&path(&format!("{name}.txt")), kind).unwrap();
    match kind {
        Kind::Keys => checked(&file, &File::empty(Kind::Md5)).unwrap(),
        Kind::Md5 => checked(&File::empty(Kind::Keys), &file).unwrap(),
    }
}

/// A line of the desk, as a test looks at it.
#[derive(Clone, Debug, PartialEq, Eq)]
pub struct Judged {
    pub packet: u64,
    pub connection: usize,
    pub direction: Direction,
    pub index: Option<u64>,
    pub fate: Fate,
    pub note: String,
    pub segment: Vec<u8>,
}

impl Judged {
    /// The number that it got, if it was judged.
    pub fn number(&self) -> Option<u8> {
        match self.fate {
            Fate::Judged(Verdict::Accept { .. }) => Some(0),
            Fate::Judged(Verdict::Pass) => Some(1),
            Fate::Judged(Verdict::Drop(refusal)) => Some(refusal.number()),
            Fate::NotJudged(_) => None,
        }
    }
}

/// The desk over a capture's bytes.
pub fn at_desk(
    file: &[u8],
    endpoint: &Endpoint,
    choice: Choice,
) -> Result<(Vec<Judged>, Report), Stop> {
    let mirrored = endpoint.mirrored()?;
    let views = Views::new(endpoint, &mirrored);
    let mut lines = Vec::new();
    let desk = Desk::new(Ok(file), views, choice)?;
    let report = desk.judge(Ok(file), &mut |line| {
        lines.push(Judged {
            packet: line.packet,
            connection: line.connection,
            direction: line.direction,
            index: line.index,
            fate: line.fate.clone(),
            note: line.note.clone(),
            segment: line.segment.to_vec(),
        });
        Ok(())
    })?;
    Ok((lines, report))
}

/// The numbers that the segments of a capture got.
pub fn numbers(file: &[u8], endpoint: &Endpoint) -> Vec<Option<u8>> {
    let (lines, _) = at_desk(file, endpoint, Choice::default()).unwrap();
    lines.iter().map(Judged::number).collect()
}

/// One direction of a capture as a recording.
pub fn recording(
    file: &[u8],
    endpoint: &Endpoint,
    choice: Choice,
    direction: Direction,
) -> Result<(Vec<u8>, Recorded), Stop> {
    let mirrored = endpoint.mirrored()?;
    let views = Views::new(endpoint, &mirrored);
    let desk = Desk::new(Ok(file), views, choice)?;
    let mut out = Vec::new();
    let recorded = record(desk, Ok(file), [endpoint, &mirrored], direction, &mut out)?;
    Ok((out, recorded))
}

/// What was accepted, and what was not, at the client and at the server.
pub fn counts(report: &Report, judged: usize) -> &[Counts; 2] {
    &report.judged[judged].1
}

/// The IP packets of a capture.
pub fn packets(file: &[u8]) -> Vec<Vec<u8>> {
    let mut capture = Capture::open(file).unwrap();
    let mut packets = Vec::new();
    while let Some(packet) = capture.packet().unwrap() {
        let link = Link::of(packet.link).unwrap();
        packets.push(link.ip(packet.bytes).unwrap().to_vec());
    }
    packets
}

/// A capture of these IP packets.
pub fn captured(packets: &[Vec<u8>], form: Form, wrap: Wrap) -> Vec<u8> {
    let frames: Vec<Vec<u8>> = packets.iter().map(|packet| wrap.frame(packet)).collect();
    form.file(wrap.link(), frames.iter().map(Vec::as_slice))
}

/// A capture of these IP packets as Linux's are.
pub fn plain(packets: &[Vec<u8>]) -> Vec<u8> {
    captured(packets, Form::ALL[0], Wrap::Ethernet)
}

pub const CLIENT: ([u8; 4], u16) = ([10, 0, 0, 1], 40_000);
pub const SERVER: ([u8; 4], u16) = ([10, 0, 0, 2], 179);
pub const ISNS: [u32; 2] = [1_000, 2_000];

/// Two ends of our own: their states, the client's endpoint, and the packets that they have sent.
pub struct Line {
    pub tables: [KeyTable; 2],
    pub ends: [Connection; 2],
    pub packets: Vec<Vec<u8>>,
}

/// One entry for each end, with this key.
pub fn tables(key: &[u8]) -> [KeyTable; 2] {
    let table = |local: [u8; 4], remote: [u8; 4], send, recv| {
        let entry = Entry::ipv4().local(local, 32).remote(remote, 32);
        let entry = entry.send_id(send).recv_id(recv).key(key).build().unwrap();
        KeyTable::new([&entry]).unwrap()
    };
    [
        table(CLIENT.0, SERVER.0, 1, 2),
        table(SERVER.0, CLIENT.0, 2, 1),
    ]
}

/// An endpoint with this key table.
pub fn endpoint(keys: &KeyTable) -> Endpoint {
    let file = File::of("a table", keys.as_bytes().to_vec(), Kind::Keys).unwrap();
    checked(&file, &File::empty(Kind::Md5)).unwrap()
}

/// A segment of one of the ends, before it is signed.
pub fn unsigned(end: usize, sequence: u32, acknowledgment: u32, flags: u8, data: &[u8]) -> Vec<u8> {
    let ports = [CLIENT.1, SERVER.1];
    Segment {
        source_port: ports[end],
        destination_port: ports[1 - end],
        sequence,
        acknowledgment,
        flags,
        data: data.to_vec(),
        ..Segment::default()
    }
    .bytes()
}

/// A segment of one of the ends in an IP packet.
pub fn sent(end: usize, segment: &[u8]) -> Vec<u8> {
    let addresses = [CLIENT.0, SERVER.0];
    packet(&addresses[end], &addresses[1 - end], segment)
}

impl Line {
    /// Opens with these ISNs; packets 1 and 2 are the SYN and the SYN+ACK.
    pub fn open(isns: [u32; 2]) -> Line {
        Line::open_with(tables(b"the key"), isns, 1)
    }

    /// Opens with these tables, by the client's entry with this SendID.
    pub fn open_with(tables: [KeyTable; 2], isns: [u32; 2], send_id: u8) -> Line {
        let mut client =
            Connection::open_active(&tables[0], CLIENT, SERVER, isns[0], send_id).unwrap();
        let syn = client
            .sign(&tables[0], &unsigned(0, isns[0], 0, SYN, b""))
            .unwrap();
        let server = Connection::open_passive(
            &tables[1],
            CLIENT.0,
            SERVER.0,
            &syn,
            isns[1],
            UnknownKeyId::Drop,
        );
        let mut server = server.unwrap().unwrap();
        let answer = unsigned(1, isns[1], isns[0].wrapping_add(1), SYN | ACK, b"");
        let answer = server.sign(&tables[1], &answer).unwrap();
        let verdict = client.judge(&tables[0], SERVER.0, CLIENT.0, &answer);
        assert_eq!(verdict, Verdict::Accept { extension: 0 });
        Line {
            tables,
            ends: [client, server],
            packets: vec![sent(0, &syn), sent(1, &answer)],
        }
    }

    /// An end sends data, so many bytes behind its ISN.
    pub fn sends(&mut self, end: usize, behind: u32, data: &[u8]) -> &mut Line {
        let packet = self.signed(end, behind, data).unwrap();
        self.packets.push(packet);
        self
    }

    /// The packet of data that an end signs.
    pub fn signed(&mut self, end: usize, behind: u32, data: &[u8]) -> Result<Vec<u8>, Refusal> {
        let sequence = self.ends[end].isn().wrapping_add(behind);
        let segment = unsigned(end, sequence, 1, ACK, data);
        let signed = self.ends[end].sign(&self.tables[end], &segment)?;
        Ok(sent(end, &signed))
    }

    /// The client's endpoint.
    pub fn endpoint(&self) -> Endpoint {
        endpoint(&self.tables[0])
    }
}
