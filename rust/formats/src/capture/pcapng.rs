//! pcapng (draft-ietf-opsawg-pcapng): blocks, each with its type and its length in front and the length again
//! behind. Packets stand in three kinds of them; the others are read over.

use super::source::{Order, Source};
use super::{Fault, Head, Time, LONGEST_PACKET};
use std::io::Read;

const SECTION: u32 = 0x0A0D_0D0A;
const INTERFACE: u32 = 1;
const OLD_PACKET: u32 = 2;
const SIMPLE_PACKET: u32 = 3;
const PACKET: u32 = 6;

const ORDER_MAGIC: u32 = 0x1A2B_3C4D;
/// Type and both lengths.
const FRAME: u64 = 12;
const MOST_INTERFACES: usize = 4_096;
/// Of an interface's options only so many bytes are looked at.
const OPTIONS: usize = 4_096;

/// Whether a file that begins so is pcapng: the type of its first block is the same in both byte orders.
pub fn begins(first: [u8; 4]) -> bool {
    u32::from_be_bytes(first) == SECTION
}

/// A section, and the interfaces that it has named so far.
#[derive(Debug)]
pub struct Pcapng {
    order: Order,
    interfaces: Vec<Interface>,
}

#[derive(Clone, Copy, Debug)]
struct Interface {
    link: u16,
    /// How many bytes of a packet are captured at most; 0 means no limit.
    most: u32,
    /// How many units of its time make a second.
    units: u64,
    /// Seconds beside the time.
    offset: i64,
}

/// A block that is being read.
struct Block {
    kind: u32,
    length: u32,
    /// How much of its body was not read yet.
    rest: u64,
}

impl Block {
    /// Fills the buffer from the body.
    fn read<R: Read>(&mut self, source: &mut Source<R>, buffer: &mut [u8]) -> Result<(), Fault> {
        if self.rest < buffer.len() as u64 {
            let (kind, length) = (self.kind, self.length);
            let what = format!("a block of type {kind} has only {length} bytes");
            return source.damaged(0, what);
        }
        source.exactly(buffer, "a block")?;
        self.rest -= buffer.len() as u64;
        Ok(())
    }

    /// Reads over the rest, and the length behind it.
    fn end<R: Read>(self, source: &mut Source<R>, order: Order) -> Result<(), Fault> {
        source.skip(self.rest, "a block")?;
        let mut again = [0; 4];
        source.exactly(&mut again, "a block")?;
        let again = order.u32(again);
        if again != self.length {
            let length = self.length;
            let what = format!("a block of {length} bytes has the length {again} behind it");
            return source.damaged(4, what);
        }
        Ok(())
    }
}

impl Pcapng {
    /// Reads the first section's head, of which the type was read already.
    pub fn open<R: Read>(source: &mut Source<R>) -> Result<Pcapng, Fault> {
        let mut pcapng = Pcapng {
            order: Order::Big,
            interfaces: Vec::new(),
        };
        let mut length = [0; 4];
        source.exactly(&mut length, "the capture's head")?;
        pcapng.section(source, length)?;
        Ok(pcapng)
    }

    /// The next packet.
    pub fn next<R: Read>(
        &mut self,
        source: &mut Source<R>,
        packet: &mut Vec<u8>,
    ) -> Result<Option<Head>, Fault> {
        loop {
            let mut head = [0; 8];
            if !source.exactly_or_end(&mut head, "a block's head")? {
                return Ok(None);
            }
            let (kind, length) = head.split_at(4);
            let (kind, length) = (
                self.order.u32_at(kind, 0),
                [length[0], length[1], length[2], length[3]],
            );
            if kind == SECTION {
                self.section(source, length)?;
                continue;
            }
            let mut block = self.block(source, kind, length, 0)?;
            let found = match kind {
                INTERFACE => self.interface(source, &mut block).map(|()| None),
                PACKET | OLD_PACKET => self.packet(source, &mut block, packet).map(Some),
                SIMPLE_PACKET => self.simple(source, &mut block, packet).map(Some),
                _ => Ok(None),
            }?;
            block.end(source, self.order)?;
            if found.is_some() {
                return Ok(found);
            }
        }
    }

    /// A block behind its type and length, of which so much of the body was read.
    fn block<R: Read>(
        &self,
        source: &Source<R>,
        kind: u32,
        length: [u8; 4],
        read: u64,
    ) -> Result<Block, Fault> {
        let length = self.order.u32(length);
        if !length.is_multiple_of(4) || u64::from(length) < FRAME + read {
            return source.damaged(4 + read, format!("no block can have {length} bytes"));
        }
        let rest = u64::from(length) - FRAME - read;
        Ok(Block { kind, length, rest })
    }

    /// A section begins: it has its own byte order and its own interfaces.
    fn section<R: Read>(&mut self, source: &mut Source<R>, length: [u8; 4]) -> Result<(), Fault> {
        let mut magic = [0; 4];
        source.exactly(&mut magic, "a section's head")?;
        let fits = |order: &Order| order.u32(magic) == ORDER_MAGIC;
        let Some(order) = [Order::Big, Order::Little].into_iter().find(fits) else {
            return source.damaged(4, "the byte order of a section is not said".to_string());
        };
        self.order = order;
        self.interfaces.clear();
        let mut block = self.block(source, SECTION, length, 4)?;
        let mut version = [0; 2];
        block.read(source, &mut version)?;
        let major = order.u16(version);
        if major != 1 {
            return source.damaged(2, format!("pcapng's version is 1, and this one's {major}"));
        }
        block.end(source, order)
    }

    fn interface<R: Read>(
        &mut self,
        source: &mut Source<R>,
        block: &mut Block,
    ) -> Result<(), Fault> {
        let mut head = [0; 8];
        block.read(source, &mut head)?;
        let mut options = vec![0; block.rest.min(OPTIONS as u64) as usize];
        block.read(source, &mut options)?;
        if self.interfaces.len() == MOST_INTERFACES {
            let what = format!("a section with more than {MOST_INTERFACES} interfaces");
            return source.damaged(0, what);
        }
        let resolution = self.option(&options, 9).and_then(|value| value.first());
        let offset = self.option(&options, 14).and_then(|value| value.get(..8));
        self.interfaces.push(Interface {
            link: self.order.u16([head[0], head[1]]),
            most: self.order.u32_at(&head, 4),
            units: units(resolution.copied().unwrap_or(6)),
            offset: offset.map_or(0, |value| self.u64(value, [0, 4]) as i64),
        });
        Ok(())
    }

    /// The value of an option, in a list of them.
    fn option<'a>(&self, options: &'a [u8], wanted: u16) -> Option<&'a [u8]> {
        let mut rest = options;
        while let [kind, other_kind, length, other_length, value @ ..] = rest {
            let kind = self.order.u16([*kind, *other_kind]);
            let length = usize::from(self.order.u16([*length, *other_length]));
            if kind == wanted {
                return value.get(..length);
            }
            if kind == 0 {
                return None;
            }
            rest = value.get(length.next_multiple_of(4)..)?;
        }
        None
    }

    /// A number of eight bytes, whose halves stand at these places in the file's order.
    fn u64(&self, bytes: &[u8], [first, second]: [usize; 2]) -> u64 {
        let half = |at| u64::from(self.order.u32_at(bytes, at));
        match self.order {
            Order::Big => half(first) << 32 | half(second),
            Order::Little => half(second) << 32 | half(first),
        }
    }

    /// A packet with its interface and its time. In the old kind of block the interface has two bytes, and two
    /// more say how many packets were lost.
    fn packet<R: Read>(
        &self,
        source: &mut Source<R>,
        block: &mut Block,
        packet: &mut Vec<u8>,
    ) -> Result<Head, Fault> {
        let mut head = [0; 20];
        block.read(source, &mut head)?;
        let index = match block.kind {
            OLD_PACKET => u32::from(self.order.u16([head[0], head[1]])),
            _ => self.order.u32_at(&head, 0),
        };
        let interface = self.named(source, index, 20)?;
        let (high, low) = (self.order.u32_at(&head, 4), self.order.u32_at(&head, 8));
        let count = u64::from(high) << 32 | u64::from(low);
        self.bytes(source, block, packet, self.order.u32_at(&head, 12))?;
        Ok(Head {
            time: Some(Time::units(count, interface.units, interface.offset)),
            link: interface.link,
        })
    }

    /// A packet of the first interface, without a time; its length is the one that it had on the link.
    fn simple<R: Read>(
        &self,
        source: &mut Source<R>,
        block: &mut Block,
        packet: &mut Vec<u8>,
    ) -> Result<Head, Fault> {
        let mut length = [0; 4];
        block.read(source, &mut length)?;
        let interface = self.named(source, 0, 4)?;
        let length = self.order.u32(length);
        let captured = match interface.most {
            0 => length,
            most => length.min(most),
        };
        self.bytes(source, block, packet, captured)?;
        Ok(Head {
            time: None,
            link: interface.link,
        })
    }

    fn named<R: Read>(
        &self,
        source: &Source<R>,
        index: u32,
        back: u64,
    ) -> Result<Interface, Fault> {
        match self.interfaces.get(index as usize) {
            Some(interface) => Ok(*interface),
            None => {
                let what =
                    format!("a packet of interface {index}, which the section has not named");
                source.damaged(back, what)
            }
        }
    }

    fn bytes<R: Read>(
        &self,
        source: &mut Source<R>,
        block: &mut Block,
        packet: &mut Vec<u8>,
        captured: u32,
    ) -> Result<(), Fault> {
        let captured = captured as usize;
        if captured > LONGEST_PACKET {
            let what = format!("a packet of {captured} bytes; {LONGEST_PACKET} is the most");
            return source.damaged(0, what);
        }
        packet.resize(captured, 0);
        block.read(source, packet)
    }
}

/// How many units make a second: a power of two if the highest bit is set, otherwise one of ten. What does not fit
/// is the nearest that does.
fn units(resolution: u8) -> u64 {
    let (base, exponent) = match resolution & 0x80 {
        0 => (10_u64, resolution),
        _ => (2, resolution & 0x7F),
    };
    base.checked_pow(u32::from(exponent)).unwrap_or(u64::MAX)
}
