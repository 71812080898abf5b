//! Ticket 1, "Desk check of a recorded line": what the program prints for the bytes of a recording.
//!
//! A recording is read from its first byte to its last, or to the first record that stops it; the lines printed
//! before stay. How the bytes come in pieces is the program's: "What it prints" is a function of all of them.

use crate::answer::Verdict;
use crate::calls::judge;
use crate::md5_table::Lent;
use crate::state::{State, STAGE_OPEN};
use crate::table::{self, by_recv_id, by_send_id};

/// Ticket 8: "Ticket 1's program stays at 64 entries"; here 12 is still document 01's, "a 65th entry begins".
const MOST_ENTRIES: usize = 64;

/// What stops the program, with its last line.
enum Stop {
    /// "with a last line of 38 and the record's index".
    AtRecord(u64),
    /// "(at an early end, the number of records)".
    AtEnd(u64),
    /// "a bad table or opening ... with 01's number alone".
    Opening(u8),
}

/// What the program prints for a recording, every line with its newline.
pub fn printed(recording: &[u8]) -> String {
    let mut lines = String::new();
    if let Err(stop) = read(recording, &mut lines) {
        lines += &last_line(stop);
    }
    lines
}

fn last_line(stop: Stop) -> String {
    match stop {
        Stop::AtRecord(index) => format!("38 {index}\n"),
        Stop::AtEnd(records) => format!("38 {records}\n"),
        Stop::Opening(number) => format!("{number}\n"),
    }
}

/// Reads a recording and prints a line for each segment.
fn read(recording: &[u8], lines: &mut String) -> Result<(), Stop> {
    let mut rest = recording;
    let mut table = Vec::new();
    let mut connection = None;
    // "segments and records counted from 0".
    let (mut records, mut segments) = (0_u64, 0_u64);
    while !rest.is_empty() {
        // "A cut, unknown or misplaced record, ... an entry length above 129 or a used length above 1,598 stops it".
        let stop = Stop::AtRecord(records);
        let Some((record, behind)) = first_record(rest) else {
            return Err(stop);
        };
        match (record, connection) {
            // "All entries, joined in order, make the table; they stand before the one opening".
            (Record::Entry(bytes), None) => table.extend(bytes),
            (Record::Opening(body), None) => connection = Some(opened(&table, body)?),
            // "and it before all segments".
            (Record::Segment(segment), Some(state)) => {
                let (line, after) = judged(&table, segment, &state);
                *lines += &format!("{segments} {line}\n");
                connection = Some(after);
                segments += 1;
            }
            (Record::Entry(_), Some(_)) => return Err(stop),
            (Record::Opening(_), Some(_)) => return Err(stop),
            (Record::Segment(_), None) => return Err(stop),
        }
        records += 1;
        rest = behind;
    }
    // "an end before the opening".
    match connection {
        None => Err(Stop::AtEnd(records)),
        Some(_) => Ok(()),
    }
}

/// A whole record, without what stands behind its used bytes.
enum Record<'r> {
    /// Kind 1: bytes of the table.
    Entry(&'r [u8]),
    /// Kind 2: "the connection just after opening".
    Opening(&'r [u8]),
    /// Kind 3: "an arriving segment of it".
    Segment(&'r [u8]),
}

/// The first record of these bytes, which are not none, and the bytes behind it. Nothing if it is cut, its kind unknown
/// or its length too large.
fn first_record(recording: &[u8]) -> Option<(Record<'_>, &[u8])> {
    let kind = recording[0];
    let body_bytes = match kind {
        // "kind 1 a table entry's length and bytes in a fixed 130-byte body".
        1 => 130,
        // "kind 2 the connection just after opening ... in a fixed body that you document": 47 bytes.
        2 => 47,
        // "kind 3 an arriving segment of it in a fixed 1,600-byte body".
        3 => 1_600,
        _ => return None,
    };
    let body = recording.get(1..1 + body_bytes)?;
    let behind = &recording[1 + body_bytes..];
    let record = match kind {
        // "an entry length above 129".
        1 => {
            let length = usize::from(body[0]);
            Record::Entry(body[1..].get(..length)?)
        }
        2 => Record::Opening(body),
        // "two bytes of used length, big-endian, first"; "or a used length above 1,598".
        _ => {
            let length = usize::from(u16::from_be_bytes([body[0], body[1]]));
            Record::Segment(body[2..].get(..length)?)
        }
    };
    Some((record, behind))
}

/// The connection of an opening record: "a bad table or opening (18; 35 for either ID), judged at the opening record in
/// 01's order".
fn opened(table: &[u8], body: &[u8]) -> Result<State, Stop> {
    let state = just_opened(body);

    // 18: "state's family is neither IPv4 nor IPv6".
    let pair = state.pair().ok_or(Stop::Opening(18))?;

    // 10 to 17, of the entries joined; 12 at the 65th.
    let entries = table::read_at_most(MOST_ENTRIES, table);
    let entries = entries.map_err(|refusal| Stop::Opening(refusal.number))?;

    // 35: "no entry matching the pair has the outgoing SendID (opening, signing)".
    if by_send_id(&entries, &pair, state.outgoing_send_id).is_none() {
        return Err(Stop::Opening(35));
    }

    // 35: "or the RecvID to ask (operator call)".
    if by_recv_id(&entries, &pair, state.asked_recv_id).is_none() {
        return Err(Stop::Opening(35));
    }
    Ok(state)
}

/// "the connection just after opening (pair, both ISNs, outgoing SendID, asked RecvID, in a fixed body that you
/// document)": family, SendID, RecvID, local and remote port, our ISN, the peer's, local and remote address.
///
/// "Opening sets each reference to that side's ISN"; "All [counts] are 0 at opening".
fn just_opened(body: &[u8]) -> State {
    let two = |at: usize| u16::from_be_bytes([body[at], body[at + 1]]);
    let four = |at: usize| u32::from(two(at)) << 16 | u32::from(two(at + 2));
    let mut state = State {
        family: body[0],
        stage: STAGE_OPEN,
        outgoing_send_id: body[1],
        asked_recv_id: body[2],
        local_port: two(3),
        remote_port: two(5),
        our_isn: four(7),
        peer_isn: four(11),
        signing_reference: four(7).into(),
        arriving_reference: four(11).into(),
        ..State::EMPTY
    };
    // IPv4 in the first four bytes.
    state.local.copy_from_slice(&body[15..31]);
    state.remote.copy_from_slice(&body[31..47]);
    state
}

/// A segment's "verdict number, extension, in decimal with one space between", and the state that it leaves: "What it
/// prints must be what the live calls would give." There is no MD5 table. An arriving segment comes from the remote
/// side.
fn judged(table: &[u8], segment: &[u8], state: &State) -> (String, State) {
    let tables = Lent {
        form: 0,
        keys: table,
        md5: &[],
    };
    let (source, destination) = match state.pair() {
        Some(pair) => (pair.remote, pair.local),
        // 18, which the opening had.
        None => (&[][..], &[][..]),
    };
    let (verdict, after) = judge(&tables, source, destination, segment, state);
    let (number, extension) = match verdict {
        // "Accept prints as number 0; a drop's extension prints as 0."
        Verdict::Accept(extension) => (0, extension),
        Verdict::Pass => (1, 0),
        Verdict::Drop(refusal) => (refusal.number, 0),
    };
    (format!("{number} {extension}"), after)
}
