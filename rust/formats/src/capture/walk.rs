//! A capture from front to end, down to its TCP segments.

use super::ip::{content, Content, Whole};
use super::link::Link;
use super::tcp::{ports, Header};
use super::{Capture, Fault, Form, Packet, Time};
use std::collections::BTreeSet;
use std::io::Read;
use std::net::{IpAddr, SocketAddr};
use std::ops::ControlFlow;

/// A TCP segment of a capture.
#[derive(Clone, Copy, Debug)]
pub struct Seen<'a> {
    /// Its packet's number, from 1.
    pub number: u64,
    /// Its packet's time.
    pub time: Option<Time>,
    /// The sender's address and port.
    pub source: SocketAddr,
    /// The receiver's.
    pub destination: SocketAddr,
    /// Its bytes, or as many as are there.
    pub segment: &'a [u8],
    /// Whether these are all of it: never a later fragment.
    pub whole: Whole,
    /// Its header, if it has one.
    pub header: Option<Header>,
}

/// What a packet turns out to be.
#[derive(Clone, Copy, Debug)]
pub enum Event<'a> {
    /// A TCP segment, or its front.
    Segment(Seen<'a>),
    /// A later fragment of a TCP segment, of which the ports are not known.
    Fragment {
        /// The packet's number.
        number: u64,
        /// Its time.
        time: Option<Time>,
        /// Who sent it.
        source: IpAddr,
        /// Whom it is for.
        destination: IpAddr,
    },
    /// IP, but it cannot be said what it carries.
    Unclear {
        /// The packet's number.
        number: u64,
        /// Its time.
        time: Option<Time>,
        /// Why it cannot.
        why: &'static str,
    },
    /// Something else than TCP.
    Other,
}

/// What was seen of a capture as a whole.
#[derive(Debug)]
pub struct Walked {
    /// The form of the file.
    pub form: Form,
    /// The links that packets came from, by name.
    pub links: BTreeSet<&'static str>,
    /// How many packets there are.
    pub packets: u64,
    /// How many of them came from links that are not read.
    pub unknown: u64,
    /// When the first one was captured, of those that say so.
    pub first: Option<Time>,
    /// Where and why the reading ended before the file did.
    pub fault: Option<Fault>,
}

/// Reads a capture and hands each packet on, until told to stop. A file that is no capture is a fault; one that is
/// damaged further on is read up to there.
pub fn walk<R: Read>(
    input: R,
    mut each: impl FnMut(Event) -> ControlFlow<()>,
) -> Result<Walked, Fault> {
    let mut capture = Capture::open(input)?;
    let mut walked = Walked {
        form: capture.form(),
        links: BTreeSet::new(),
        packets: 0,
        unknown: 0,
        first: None,
        fault: None,
    };
    loop {
        match capture.packet() {
            Ok(Some(packet)) => {
                if each(walked.event(packet)).is_break() {
                    break;
                }
            }
            Ok(None) => break,
            Err(fault) => {
                walked.fault = Some(fault);
                break;
            }
        }
    }
    Ok(walked)
}

impl Walked {
    fn event<'a>(&mut self, packet: Packet<'a>) -> Event<'a> {
        let Packet {
            number,
            time,
            link,
            bytes,
        } = packet;
        self.packets = number;
        self.first = self.first.or(time);
        let Some(link) = Link::of(link) else {
            self.unknown += 1;
            return Event::Other;
        };
        self.links.insert(link.name());
        let datagram = match link.ip(bytes).map(content) {
            Some(Content::Tcp(datagram)) => datagram,
            Some(Content::Unclear(why)) => return Event::Unclear { number, time, why },
            Some(Content::Other) | None => return Event::Other,
        };
        let (source, destination) = (datagram.source, datagram.destination);
        if datagram.whole == Whole::LaterFragment {
            return Event::Fragment {
                number,
                time,
                source,
                destination,
            };
        }
        let Some([from, to]) = ports(datagram.segment) else {
            let why = "a TCP segment without its ports";
            return Event::Unclear { number, time, why };
        };
        Event::Segment(Seen {
            number,
            time,
            source: SocketAddr::new(source, from),
            destination: SocketAddr::new(destination, to),
            segment: datagram.segment,
            whole: datagram.whole,
            header: Header::of(datagram.segment),
        })
    }
}
