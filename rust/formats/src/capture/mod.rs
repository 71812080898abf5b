//! Captures: classic pcap and pcapng, told apart by their first bytes.
//!
//! A capture is read once from front to end, one packet at a time, into one buffer; what it needs of memory
//! does not grow with the file.

pub mod ip;
pub mod link;
mod pcap;
mod pcapng;
mod source;
pub mod tcp;
mod time;
mod walk;

pub use source::Fault;
pub use time::Time;
pub use walk::{walk, Event, Seen, Walked};

use pcap::Pcap;
use pcapng::Pcapng;
use source::Source;
use std::io::Read;

/// No packet may be longer; tcpdump's own limit is the same.
pub const LONGEST_PACKET: usize = 262_144;

/// A packet as the capture has it.
#[derive(Clone, Copy, Debug)]
pub struct Packet<'a> {
    /// Its number in the capture, from 1.
    pub number: u64,
    /// When it was captured; a pcapng file may not say.
    pub time: Option<Time>,
    /// The type of the link: tcpdump.org's list of link types.
    pub link: u16,
    /// The bytes that were captured.
    pub bytes: &'a [u8],
}

/// Which of the two forms a capture has.
#[derive(Clone, Copy, Debug, PartialEq, Eq)]
pub enum Form {
    /// Classic pcap.
    Pcap,
    /// pcapng.
    Pcapng,
}

impl Form {
    /// Its name.
    pub fn name(self) -> &'static str {
        match self {
            Form::Pcap => "pcap",
            Form::Pcapng => "pcapng",
        }
    }
}

enum Reader {
    Pcap(Pcap),
    Pcapng(Pcapng),
}

/// A capture that is being read.
pub struct Capture<R> {
    source: Source<R>,
    reader: Reader,
    packet: Vec<u8>,
    number: u64,
}

/// What stands before a packet's bytes, which lie in the buffer.
struct Head {
    time: Option<Time>,
    link: u16,
}

impl<R: Read> Capture<R> {
    /// Reads the head of a capture. A file that is neither pcap nor pcapng is a fault.
    pub fn open(input: R) -> Result<Capture<R>, Fault> {
        let mut source = Source::new(input);
        let mut first = [0; 4];
        let there = source.fill(&mut first)?;
        let reader = if pcapng::begins(first) {
            Reader::Pcapng(Pcapng::open(&mut source)?)
        } else if let Some(pcap) = pcap::begins(first) {
            Reader::Pcap(pcap.open(&mut source)?)
        } else {
            return Err(Fault::NoCapture(guess(&first[..there])));
        };
        Ok(Capture {
            source,
            reader,
            packet: Vec::new(),
            number: 0,
        })
    }

    /// Which form it has.
    pub fn form(&self) -> Form {
        match self.reader {
            Reader::Pcap(_) => Form::Pcap,
            Reader::Pcapng(_) => Form::Pcapng,
        }
    }

    /// The next packet, or nothing at the end. Behind a fault nothing more can be read.
    pub fn packet(&mut self) -> Result<Option<Packet<'_>>, Fault> {
        let head = match &mut self.reader {
            Reader::Pcap(pcap) => pcap.next(&mut self.source, &mut self.packet)?,
            Reader::Pcapng(pcapng) => pcapng.next(&mut self.source, &mut self.packet)?,
        };
        let Some(head) = head else { return Ok(None) };
        self.number += 1;
        Ok(Some(Packet {
            number: self.number,
            time: head.time,
            link: head.link,
            bytes: &self.packet,
        }))
    }
}

/// What a file that is no capture may be.
fn guess(first: &[u8]) -> &'static str {
    match first {
        [] => "it is empty",
        [0x1F, 0x8B, ..] => "it is compressed with gzip: unpack it first",
        [0x28, 0xB5, 0x2F, 0xFD] => "it is compressed with zstd: unpack it first",
        [0xFD, b'7', b'z', b'X'] => "it is compressed with xz: unpack it first",
        [4..=7, 0..=7, ..] => "it may be a key table",
        _ => "its first bytes are those of neither pcap nor pcapng",
    }
}
