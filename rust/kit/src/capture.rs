//! Captures: IP packets around segments, frames around packets, files around frames, and files without end.

use std::io::{self, Read};

/// What stands around a packet.
#[derive(Clone, Copy, Debug, PartialEq, Eq)]
pub enum Wrap {
    Ethernet,
    /// Two VLAN tags.
    Tagged,
    Raw,
    Cooked1,
    Cooked2,
}

impl Wrap {
    pub const ALL: [Wrap; 5] = [
        Wrap::Ethernet,
        Wrap::Tagged,
        Wrap::Raw,
        Wrap::Cooked1,
        Wrap::Cooked2,
    ];

    /// The number of the link's type.
    pub fn link(self) -> u16 {
        match self {
            Wrap::Ethernet | Wrap::Tagged => 1,
            Wrap::Raw => 101,
            Wrap::Cooked1 => 113,
            Wrap::Cooked2 => 276,
        }
    }

    /// The frame of an IP packet; of Ethernet, filled up to its least length.
    pub fn frame(self, packet: &[u8]) -> Vec<u8> {
        let kind: [u8; 2] = match packet.first().map(|first| first >> 4) {
            Some(6) => [0x86, 0xDD],
            _ => [0x08, 0x00],
        };
        let front: Vec<u8> = match self {
            Wrap::Ethernet => [&[2; 12][..], &kind].concat(),
            Wrap::Tagged => [&[2; 12][..], &[0x88, 0xA8, 0, 7, 0x81, 0, 0, 9], &kind].concat(),
            Wrap::Raw => vec![],
            Wrap::Cooked1 => [&[0; 14][..], &kind].concat(),
            Wrap::Cooked2 => [&kind[..], &[0; 18]].concat(),
        };
        let mut frame = [front, packet.to_vec()].concat();
        if matches!(self, Wrap::Ethernet | Wrap::Tagged) {
            frame.resize(frame.len().max(60), 0);
        }
        frame
    }
}

/// The IP packet of a segment, IPv4 or IPv6 by the addresses' length. The IP checksum is zero.
pub fn packet(source: &[u8], destination: &[u8], segment: &[u8]) -> Vec<u8> {
    match source.len() {
        4 => {
            let length = (20 + segment.len()) as u16;
            let mut packet = vec![0x45, 0];
            packet.extend(length.to_be_bytes());
            packet.extend([0, 1, 0x40, 0, 64, 6, 0, 0]);
            [
                packet,
                source.to_vec(),
                destination.to_vec(),
                segment.to_vec(),
            ]
            .concat()
        }
        _ => {
            let mut packet = vec![0x60, 0, 0, 0];
            packet.extend((segment.len() as u16).to_be_bytes());
            packet.extend([6, 64]);
            [
                packet,
                source.to_vec(),
                destination.to_vec(),
                segment.to_vec(),
            ]
            .concat()
        }
    }
}

/// The form of a file.
#[derive(Clone, Copy, Debug, PartialEq, Eq)]
pub enum Form {
    /// Classic pcap with microseconds, or with nanoseconds.
    Pcap {
        big: bool,
        nanoseconds: bool,
    },
    Pcapng {
        big: bool,
    },
}

impl Form {
    pub const ALL: [Form; 6] = [
        Form::pcap(false, false),
        Form::pcap(false, true),
        Form::pcap(true, false),
        Form::pcap(true, true),
        Form::Pcapng { big: false },
        Form::Pcapng { big: true },
    ];

    const fn pcap(big: bool, nanoseconds: bool) -> Form {
        Form::Pcap { big, nanoseconds }
    }

    fn is_big(self) -> bool {
        match self {
            Form::Pcap { big, .. } | Form::Pcapng { big } => big,
        }
    }

    fn u16(self, number: u16) -> [u8; 2] {
        match self.is_big() {
            true => number.to_be_bytes(),
            false => number.to_le_bytes(),
        }
    }

    pub fn u32(self, number: u32) -> [u8; 4] {
        match self.is_big() {
            true => number.to_be_bytes(),
            false => number.to_le_bytes(),
        }
    }

    /// What a file begins with.
    pub fn head(self, link: u16) -> Vec<u8> {
        match self {
            Form::Pcap { nanoseconds, .. } => {
                let magic = if nanoseconds {
                    0xA1B2_3C4D
                } else {
                    0xA1B2_C3D4
                };
                let mut head = [self.u32(magic).to_vec(), self.u16(2).to_vec()].concat();
                head.extend(self.u16(4));
                head.extend([0; 8]);
                head.extend(self.u32(65_535));
                head.extend(self.u32(u32::from(link)));
                head
            }
            Form::Pcapng { .. } => {
                let mut section = self.u32(0x1A2B_3C4D).to_vec();
                section.extend(self.u16(1));
                section.extend(self.u16(0));
                section.extend([0xFF; 8]);
                [self.block(0x0A0D_0D0A, &section), self.interface(link, &[])].concat()
            }
        }
    }

    /// A packet of the first interface, so many microseconds after the beginning of 1970.
    pub fn packet(self, microseconds: u64, frame: &[u8]) -> Vec<u8> {
        let length = self.u32(frame.len() as u32);
        match self {
            Form::Pcap { nanoseconds, .. } => {
                let part = (microseconds % 1_000_000) as u32 * if nanoseconds { 1_000 } else { 1 };
                let seconds = self.u32((microseconds / 1_000_000) as u32);
                [&seconds[..], &self.u32(part), &length, &length, frame].concat()
            }
            Form::Pcapng { .. } => {
                let mut body = self.u32(0).to_vec();
                body.extend(self.u32((microseconds >> 32) as u32));
                body.extend(self.u32(microseconds as u32));
                body.extend([length, length].concat());
                body.extend(frame);
                self.block(6, &body)
            }
        }
    }

    /// A block of pcapng, its body filled up to whole words.
    pub fn block(self, kind: u32, body: &[u8]) -> Vec<u8> {
        let mut body = body.to_vec();
        body.resize(body.len().next_multiple_of(4), 0);
        let length = self.u32(body.len() as u32 + 12);
        [&self.u32(kind)[..], &length, &body, &length].concat()
    }

    /// pcapng's block of an interface, with options: their numbers and values.
    pub fn interface(self, link: u16, options: &[(u16, &[u8])]) -> Vec<u8> {
        let mut body = [self.u16(link), [0; 2]].concat();
        body.extend(self.u32(0));
        for (kind, value) in options {
            body.extend(self.u16(*kind));
            body.extend(self.u16(value.len() as u16));
            body.extend(*value);
            body.resize(body.len().next_multiple_of(4), 0);
        }
        self.block(1, &body)
    }

    /// A file of these frames, a second apart.
    pub fn file<'a>(self, link: u16, frames: impl IntoIterator<Item = &'a [u8]>) -> Vec<u8> {
        let mut file = self.head(link);
        for (seconds, frame) in (1..).zip(frames) {
            file.extend(self.packet(seconds * 1_000_000, frame));
        }
        file
    }
}

/// A file that is made while it is read: a front, and then the same bytes again and again, so many times.
#[derive(Clone, Debug)]
pub struct Endless {
    pub front: Vec<u8>,
    pub again: Vec<u8>,
    pub times: u64,
    /// Where in the front, or in the bytes behind it, the reading is.
    pub at: usize,
}

impl Endless {
    /// About so many bytes.
    pub fn new(front: Vec<u8>, again: Vec<u8>, length: u64) -> Endless {
        Endless {
            times: length / again.len() as u64,
            front,
            again,
            at: 0,
        }
    }
}

impl Read for Endless {
    fn read(&mut self, buffer: &mut [u8]) -> io::Result<usize> {
        if self.at == self.front.len() {
            if self.times == 0 {
                return Ok(0);
            }
            self.front.clone_from(&self.again);
            (self.at, self.times) = (0, self.times - 1);
        }
        let rest = &self.front[self.at..];
        let count = rest.len().min(buffer.len());
        buffer[..count].copy_from_slice(&rest[..count]);
        self.at += count;
        Ok(count)
    }
}

/// The most memory that this process had so far, in bytes, as Linux says it.
pub fn most_memory() -> u64 {
    most_memory_of("self")
}

/// The most memory that the process of this number had so far.
pub fn most_memory_of(process: &str) -> u64 {
    let status = std::fs::read_to_string(format!("/proc/{process}/status")).unwrap();
    let line = status.lines().find_map(|line| line.strip_prefix("VmHWM:"));
    let kilobytes = line.unwrap().trim().trim_end_matches(" kB");
    kilobytes.parse::<u64>().unwrap() * 1_024
}
