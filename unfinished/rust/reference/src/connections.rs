//! Many connections over one key table: Ticket 6.
//!
//! "The head station needs up to 256 connections over one key table, found by socket pair."
//!
//! Each call gives its numbers in the order of `BOUNDARY.md`; 18, of a buffer that is no whole number of places, is
//! given before any of these calls is made. A refused call changes no place, but for a drop's count.

use crate::answer::{Refusal, Verdict};
use crate::calls::{self, addresses, addresses_then_tables, readable, Setting};
use crate::md5_table::Lent;
use crate::state::{State, STATE_BYTES};
use crate::table::Pair;

/// "up to 256 connections".
pub const MOST_PLACES: usize = 256;

/// The places of the connections, a state in each.
#[derive(Clone, Debug, PartialEq, Eq)]
pub struct Connections {
    /// In the order of the bytes.
    pub places: Vec<State>,
}

impl Connections {
    /// Reads the places. "k places of 177 bytes, one state each, k at most 256 (none is allowed)"; nothing for any
    /// other length (18).
    pub fn from_bytes(bytes: &[u8]) -> Option<Connections> {
        if !bytes.len().is_multiple_of(STATE_BYTES) || bytes.len() / STATE_BYTES > MOST_PLACES {
            return None;
        }
        let places = bytes.chunks(STATE_BYTES).filter_map(State::from_bytes);
        Some(Connections {
            places: places.collect(),
        })
    }

    /// Writes them.
    pub fn to_bytes(&self) -> Vec<u8> {
        self.places.iter().flat_map(State::to_bytes).collect()
    }

    /// The place in use of a pair. "found by socket pair"; "A place that 18 refuses is free; of two places with one
    /// pair the first counts."
    pub fn in_use(&self, pair: &Pair) -> Option<usize> {
        self.places
            .iter()
            .position(|place| place.pair() == Some(*pair))
    }

    /// "opening takes the first free one"; "A place that 18 refuses is free".
    pub fn first_free(&self) -> Option<usize> {
        self.places.iter().position(|place| place.pair().is_none())
    }

    /// Puts a connection that was opened, or read back, into the first free place (41, 42), and says which it is.
    pub fn put(&mut self, state: State) -> Result<u32, Refusal> {
        // 41: "A second opening of a pair in use is refused with 41".
        let pair = state.pair().ok_or(Refusal::of(18))?;
        if self.in_use(&pair).is_some() {
            return Err(Refusal::of(41));
        }

        // 42: "a full table with 42".
        let place = self.first_free().ok_or(Refusal::of(42))?;

        self.places[place] = state;
        Ok(place as u32)
    }
}

/// Opens actively (19, 10 to 17, 45, 44, 35, 41, 42). The index of the place is given.
pub fn open_active(
    tables: &Lent,
    pair: &Pair,
    isn: u32,
    send_id: u8,
    connections: &mut Connections,
) -> Result<u32, Refusal> {
    // 19, 10 to 17 and 45, 44, 35: "Openings: their own numbers, then 41, then 42."
    let (result, opened) = calls::open_active(tables, pair, isn, send_id);
    result?;

    // 41, 42.
    connections.put(opened)
}

/// Opens actively by MD5 (19, 10 to 17, 45, 44, 35, 41, 42), likewise.
pub fn open_active_md5(
    tables: &Lent,
    pair: &Pair,
    isn: u32,
    connections: &mut Connections,
) -> Result<u32, Refusal> {
    // 19, 10 to 17 and 45, 44, 35.
    let (result, opened) = calls::open_active_md5(tables, pair, isn);
    result?;

    // 41, 42.
    connections.put(opened)
}

/// What came of a passive opening.
#[derive(Clone, Copy, Debug, PartialEq, Eq)]
pub enum Passive {
    /// The SYN was accepted and the connection stands in this place.
    Opened(u32),
    /// The SYN was only passed. "A SYN only passed gives 1 and opens nothing".
    Passed,
}

/// Opens passively: the numbers of the single opening, then 41, 42.
pub fn open_passive(
    tables: &Lent,
    source: &[u8],
    destination: &[u8],
    segment: &[u8],
    isn: u32,
    setting: Setting,
    connections: &mut Connections,
) -> Result<Passive, Refusal> {
    let (verdict, opened) = calls::open_passive(tables, source, destination, segment, isn, setting);
    match verdict {
        // 41, 42: "where that accepts".
        Verdict::Accept(_) => connections.put(opened).map(Passive::Opened),
        Verdict::Pass => Ok(Passive::Passed),
        Verdict::Drop(refusal) => Err(refusal),
    }
}

/// The ports that stand first in a segment, source and destination; nothing in "A segment under 4 bytes".
fn ports(segment: &[u8]) -> Option<(u16, u16)> {
    let two = |at: usize| u16::from_be_bytes([segment[at], segment[at + 1]]);
    (segment.len() >= 4).then(|| (two(0), two(2)))
}

/// The pair of a segment that is judged: "source is the remote side, destination the local one, ports from its first
/// four bytes".
fn pair_of_arrival<'a>(
    source: &'a [u8],
    destination: &'a [u8],
    segment: &[u8],
) -> Option<Pair<'a>> {
    let (source_port, destination_port) = ports(segment)?;
    Some(Pair {
        local: destination,
        remote: source,
        local_port: destination_port,
        remote_port: source_port,
    })
}

/// The pair of a segment that is signed: "`local`, `remote`, and its ports the other way round".
fn pair_of_leaving<'a>(local: &'a [u8], remote: &'a [u8], segment: &[u8]) -> Option<Pair<'a>> {
    let (source_port, destination_port) = ports(segment)?;
    Some(Pair {
        local,
        remote,
        local_port: source_port,
        remote_port: destination_port,
    })
}

/// Judges a segment (19, 10 to 17, 45, 44, 20; then, pair in use, as on that connection; not in use, 20, 40, 21, 22,
/// and a bare SYN as without a state, any other 23).
pub fn judge(
    tables: &Lent,
    source: &[u8],
    destination: &[u8],
    segment: &[u8],
    setting: Setting,
    connections: &mut Connections,
) -> Verdict {
    // 19, 10 to 17 and 45, 44.
    if let Err(refusal) = addresses_then_tables(source, destination, tables) {
        return Verdict::Drop(refusal);
    }

    // 20: "A segment under 4 bytes gets 20 (30 when signing) and counts nowhere."
    let Some(pair) = pair_of_arrival(source, destination, segment) else {
        return Verdict::Drop(Refusal::of(20));
    };

    match connections.in_use(&pair) {
        Some(place) => {
            let state = &mut connections.places[place];
            let (verdict, after) = calls::judge(tables, source, destination, segment, state);
            *state = after;
            verdict
        }
        None => judge_elsewhere(tables, source, destination, segment, setting),
    }
}

/// Judges a segment for a pair not in use, from 20 on. It "changes nothing".
fn judge_elsewhere(
    tables: &Lent,
    source: &[u8],
    destination: &[u8],
    segment: &[u8],
    setting: Setting,
) -> Verdict {
    // 20, 40, 21, 22: "(20 to 22 and 40 come first)".
    let header = match readable(source, destination, segment) {
        Ok((header, _)) => header,
        Err(refusal) => return Verdict::Drop(refusal),
    };

    // "A bare SYN for a pair not in use is judged without a state; any other segment for such a pair is dropped with
    // 23".
    if header.is_bare_syn() {
        return calls::judge_syn(tables, source, destination, segment, setting);
    }
    Verdict::Drop(Refusal::of(23))
}

/// Signs a segment (19, 10 to 17, 45, 44, 30, 23, then as on that connection) for an output of so many bytes.
pub fn sign(
    tables: &Lent,
    local: &[u8],
    remote: &[u8],
    segment: &[u8],
    room: usize,
    connections: &mut Connections,
) -> Result<Vec<u8>, Refusal> {
    // 19, 10 to 17 and 45, 44.
    addresses_then_tables(local, remote, tables)?;

    // 30: "A segment under 4 bytes gets 20 (30 when signing)".
    let pair = pair_of_leaving(local, remote, segment).ok_or(Refusal::of(30))?;

    // 23: "signing, closing or asking there is refused with 23".
    let place = connections.in_use(&pair).ok_or(Refusal::of(23))?;

    let state = &mut connections.places[place];
    let signed = calls::sign(tables, segment, room, state)?;
    *state = signed.state;
    Ok(signed.segment)
}

/// Sets the RecvID asked of the peer (19, 10 to 17, 45, 44, 23, 35).
pub fn ask(
    tables: &Lent,
    pair: &Pair,
    recv_id: u8,
    connections: &mut Connections,
) -> Result<(), Refusal> {
    // 19, 10 to 17 and 45, 44.
    addresses_then_tables(pair.local, pair.remote, tables)?;

    // 23: "signing, closing or asking there is refused with 23".
    let place = connections.in_use(pair).ok_or(Refusal::of(23))?;

    // 35.
    let state = &mut connections.places[place];
    *state = calls::ask(tables, recv_id, state)?;
    Ok(())
}

/// Closes a connection (19, 23). "closing empties a place"; as agreed, "the place becomes all zero, and a second place
/// with that pair comes into use".
pub fn close(pair: &Pair, connections: &mut Connections) -> Result<(), Refusal> {
    let place = find(pair, connections)?;
    connections.places[place] = State::EMPTY;
    Ok(())
}

/// The index of the place in use of a pair (19, 23).
pub fn find(pair: &Pair, connections: &Connections) -> Result<usize, Refusal> {
    // 19.
    addresses(pair.local, pair.remote)?;

    // 23: "signing, closing or asking there is refused with 23".
    connections.in_use(pair).ok_or(Refusal::of(23))
}
