//! The TCP connections in a capture, and the segments that opened them.
//!
//! What is kept does not grow with the capture: all that is kept has a limit together ([`MOST_BYTES`]), and
//! connections that begin behind it are only counted.

use crate::capture::ip::Whole;
use crate::capture::tcp::Header;
use crate::capture::{Seen, Time};
use std::collections::HashMap;
use std::net::SocketAddr;

/// All that a [`Finder`] keeps, in bytes, about.
pub const MOST_BYTES: usize = 64 << 20;
/// What a connection costs beside the segments that are kept of it, about.
const COST: usize = 512;
/// Of SYNs that differ, and of SYN+ACKs, so many are kept: a damaged or a forged one may come before the true one.
const MOST_TRIES: usize = 4;

/// A segment that is kept.
#[derive(Clone, Debug, PartialEq, Eq)]
pub struct Kept {
    /// Its packet's number.
    pub number: u64,
    /// Its packet's time.
    pub time: Option<Time>,
    /// Its bytes.
    pub segment: Vec<u8>,
}

impl Kept {
    /// The sequence number.
    pub fn sequence(&self) -> u32 {
        Header::of(&self.segment).map_or(0, |header| header.sequence)
    }
}

/// A connection of a capture: what both ends sent each other from a SYN on, or segments without any.
#[derive(Clone, Debug, PartialEq, Eq)]
pub struct Found {
    /// Who opened it; where nothing says so, who sent the first segment.
    pub client: SocketAddr,
    /// The other end.
    pub server: SocketAddr,
    /// The number of its first packet.
    pub first: u64,
    /// How many segments there are, as far as they can be told from those of other connections of this pair.
    pub segments: u64,
    /// The client's ISN, if a SYN or a SYN+ACK says it.
    pub isn: Option<u32>,
    /// The SYNs with this ISN, if they differ.
    pub syns: Vec<Kept>,
    /// The SYN+ACKs that acknowledge it, if they differ.
    pub answers: Vec<Kept>,
}

impl Found {
    /// Whether both a SYN and a SYN+ACK for it are there.
    pub fn has_opening(&self) -> bool {
        !self.syns.is_empty() && !self.answers.is_empty()
    }
}

/// Both ends of a connection, in one order whoever sends.
pub type Pair = (SocketAddr, SocketAddr);

/// The pair of two ends.
pub fn pair(one: SocketAddr, other: SocketAddr) -> Pair {
    (one.min(other), one.max(other))
}

/// Finds the connections of a capture, from its segments in order.
#[derive(Debug, Default)]
pub struct Finder {
    found: Vec<Found>,
    /// By client, server and the client's ISN.
    by_isn: HashMap<(SocketAddr, SocketAddr, u32), usize>,
    /// The last one of a pair that was opened; if none was, its last.
    latest: HashMap<Pair, usize>,
    bytes: usize,
    left_out: u64,
}

impl Finder {
    /// The connections, in the order of their first packets.
    pub fn found(&self) -> &[Found] {
        &self.found
    }

    /// The same, to be kept.
    pub fn into_found(self) -> Vec<Found> {
        self.found
    }

    /// How many segments belong to connections for which there was no room.
    pub fn left_out(&self) -> u64 {
        self.left_out
    }

    /// Takes the next segment.
    pub fn take(&mut self, seen: Seen) {
        let place = match opening(&seen) {
            Some((client, server, isn)) => self.of_isn(client, server, isn, seen.number),
            None => {
                let (from, to) = (seen.source, seen.destination);
                let latest = self.latest.get(&pair(from, to)).copied();
                latest.or_else(|| self.add(from, to, None, seen.number))
            }
        };
        let Some(place) = place else {
            self.left_out += 1;
            return;
        };
        self.found[place].segments += 1;
        self.keep(place, seen);
    }

    /// The connection with this client and ISN, which may begin here.
    fn of_isn(
        &mut self,
        client: SocketAddr,
        server: SocketAddr,
        isn: u32,
        number: u64,
    ) -> Option<usize> {
        let key = (client, server, isn);
        if let Some(place) = self.by_isn.get(&key) {
            return Some(*place);
        }
        let place = self.add(client, server, Some(isn), number)?;
        self.by_isn.insert(key, place);
        Some(place)
    }

    fn add(
        &mut self,
        client: SocketAddr,
        server: SocketAddr,
        isn: Option<u32>,
        number: u64,
    ) -> Option<usize> {
        if self.bytes + COST > MOST_BYTES {
            return None;
        }
        self.bytes += COST;
        let place = self.found.len();
        self.found.push(Found {
            client,
            server,
            first: number,
            segments: 0,
            isn,
            syns: Vec::new(),
            answers: Vec::new(),
        });
        let latest = self.latest.entry(pair(client, server)).or_insert(place);
        if !self.found[*latest].has_opening() {
            *latest = place;
        }
        Some(place)
    }

    /// Keeps a SYN or a SYN+ACK that was not seen before.
    fn keep(&mut self, place: usize, seen: Seen) {
        let found = &mut self.found[place];
        let Some(header) = seen.header.filter(|_| seen.whole == Whole::Yes) else {
            return;
        };
        let kept = match header.flags {
            flags if flags.is_bare_syn() => &mut found.syns,
            flags if flags.is_syn_ack() => &mut found.answers,
            _ => return,
        };
        let known = kept.iter().any(|one| one.segment == seen.segment);
        if known || kept.len() == MOST_TRIES || self.bytes + seen.segment.len() > MOST_BYTES {
            return;
        }
        self.bytes += seen.segment.len();
        kept.push(Kept {
            number: seen.number,
            time: seen.time,
            segment: seen.segment.to_vec(),
        });
        if found.has_opening() {
            let pair = pair(found.client, found.server);
            self.latest.insert(pair, place);
        }
    }
}

/// Client, server and the client's ISN, of a SYN or a SYN+ACK.
fn opening(seen: &Seen) -> Option<(SocketAddr, SocketAddr, u32)> {
    let header = seen.header?;
    if header.flags.is_bare_syn() {
        Some((seen.source, seen.destination, header.sequence))
    } else if header.flags.is_syn_ack() {
        let isn = header.acknowledgment.wrapping_sub(1);
        Some((seen.destination, seen.source, isn))
    } else {
        None
    }
}
