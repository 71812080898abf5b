//! Classic pcap: a head of 24 bytes, then packets, each behind a head of 16.

use super::source::{Order, Source};
use super::{Fault, Head, Time, LONGEST_PACKET};
use std::io::Read;

/// What the first four bytes say: the byte order, and how many parts a second has.
#[derive(Debug)]
pub struct Pcap {
    order: Order,
    parts: u64,
    link: u16,
}

const MICROSECONDS: u32 = 0xA1B2_C3D4;
const NANOSECONDS: u32 = 0xA1B2_3C4D;

/// Whether a file that begins so is classic pcap.
pub fn begins(first: [u8; 4]) -> Option<Pcap> {
    [Order::Big, Order::Little].into_iter().find_map(|order| {
        let parts = match order.u32(first) {
            MICROSECONDS => 1_000_000,
            NANOSECONDS => 1_000_000_000,
            _ => return None,
        };
        let link = 0;
        Some(Pcap { order, parts, link })
    })
}

impl Pcap {
    /// Reads the rest of the head.
    pub fn open<R: Read>(self, source: &mut Source<R>) -> Result<Pcap, Fault> {
        let mut head = [0; 20];
        source.exactly(&mut head, "the capture's head")?;
        let major = self.order.u16([head[0], head[1]]);
        if major != 2 {
            return source.damaged(20, format!("pcap's version is 2, and this one's {major}"));
        }
        // The upper half has the length of the frames' check sequence, which the packets' own lengths cut off.
        let link = self.order.u32_at(&head, 16) as u16;
        Ok(Pcap { link, ..self })
    }

    pub fn next<R: Read>(
        &mut self,
        source: &mut Source<R>,
        packet: &mut Vec<u8>,
    ) -> Result<Option<Head>, Fault> {
        let mut head = [0; 16];
        if !source.exactly_or_end(&mut head, "a packet's head")? {
            return Ok(None);
        }
        let field = |at| self.order.u32_at(&head, at);
        let captured = field(8) as usize;
        if captured > LONGEST_PACKET {
            let what = format!("a packet of {captured} bytes; {LONGEST_PACKET} is the most");
            return source.damaged(8, what);
        }
        packet.resize(captured, 0);
        source.exactly(packet, "a packet")?;
        let time = Time::new(u64::from(field(0)), u64::from(field(4)), self.parts);
        Ok(Some(Head {
            time: Some(time),
            link: self.link,
        }))
    }
}
