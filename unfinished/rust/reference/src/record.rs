//! A connection's state as one record: Ticket 12.
//!
//! "Write the state as one house record, kind 33, with a body of fixed length for each layout that you document, and
//! read it back." As agreed: "33, layout 1, then the state's bytes".

use crate::answer::Refusal;
use crate::connections::{find, Connections};
use crate::state::{State, STATE_BYTES};
use crate::table::Pair;

/// "one house record, kind 33".
pub const KIND: u8 = 33;
/// The one layout.
pub const LAYOUT: u8 = 1;
/// "A record has 179 bytes: 33, the layout 1, then the 177 bytes of the state."
pub const RECORD_BYTES: usize = 2 + STATE_BYTES;

/// Writes a state (18, 37) for an output of so many bytes.
pub fn write(state: &State, room: usize) -> Result<Vec<u8>, Refusal> {
    // 18: "A state that 18 refuses is not written, and 18 is the answer."
    if state.pair().is_none() {
        return Err(Refusal::of(18));
    }

    // 37: "output too short".
    if room < RECORD_BYTES {
        return Err(Refusal::of(37));
    }

    Ok([&[KIND, LAYOUT], &state.to_bytes()[..]].concat())
}

/// Reads a record (49). "Reading a written state gives that state; bytes that no state writes are refused with 49."
pub fn read(record: &[u8]) -> Result<State, Refusal> {
    // 49: "another length, kind or layout".
    if record.len() != RECORD_BYTES || record[0] != KIND || record[1] != LAYOUT {
        return Err(Refusal::of(49));
    }
    let state = State::from_bytes(&record[2..]).ok_or(Refusal::of(49))?;

    // 49: "a family other than 4 and 6": such a state "is not written".
    if state.pair().is_none() {
        return Err(Refusal::of(49));
    }
    Ok(state)
}

/// Writes the state of a pair among many (19, 23, 37). "In Ticket 6's table, writing needs a pair in use (23)".
pub fn write_of(pair: &Pair, connections: &Connections, room: usize) -> Result<Vec<u8>, Refusal> {
    // 19, 23.
    let place = find(pair, connections)?;

    // 37.
    write(&connections.places[place], room)
}

/// Reads a record into the first free place (49, 41, 42), whose index is given: "reading is an opening, with 41 and 42
/// behind 49."
pub fn read_into(record: &[u8], connections: &mut Connections) -> Result<u32, Refusal> {
    // 49.
    let state = read(record)?;

    // 41, 42.
    connections.put(state)
}
