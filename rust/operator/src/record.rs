//! One direction of a connection in a capture, as a recording (document 02, Ticket 1).

use crate::desk::{Desk, Fate};
use crate::openings::{Direction, Opening};
use crate::stop::Stop;
use crate::tables::{matching, Endpoint};
use embankery::{Connection, Way};
use formats::recording::{Opened, Recording, MOST_ENTRIES, SEGMENT_ROOM};
use std::io::{self, Read, Write};

/// What was recorded.
#[derive(Clone, Debug)]
pub struct Recorded {
    /// The connection.
    pub opening: Opening,
    /// How many segments stand in the recording.
    pub segments: u64,
    /// How many arrived that do not: longer than a record, or not whole in the capture.
    pub left_out: u64,
}

/// Writes the segments of a connection that arrive in this direction, behind the entries that match it: of the
/// endpoint's key table, or of its mirror. So a recording holds no other connection's keys, and they could decide no
/// verdict in it. Where the desk's choice names no connection, there must be one alone that can be recorded.
pub fn record<R: Read>(
    desk: Desk,
    input: io::Result<R>,
    [ours, mirrored]: [&Endpoint; 2],
    direction: Direction,
    out: impl Write,
) -> Result<Recorded, Stop> {
    let opening = chosen(&desk, direction)?;
    let receiver = opening.receiver(direction);
    let Some((_, state)) = &opening.end(receiver).opened else {
        return Err(Stop::refused(not_open(&opening, direction)));
    };
    if state.way() == Way::TcpMd5 {
        let words = "is signed by TCP MD5, for which there is no recording; the desk judges it";
        return Err(Stop::refused(format!(
            "connection {} {words}",
            opening.number
        )));
    }
    let table = match direction {
        Direction::In => ours.keys(),
        Direction::Out => mirrored.keys(),
    };
    let entries = matching(table, [state.local(), state.remote()]);
    if entries.len() > MOST_ENTRIES {
        let (number, count) = (opening.number, entries.len());
        let words = format!("{count} entries match it, and a recording may have {MOST_ENTRIES}");
        return Err(Stop::refused(format!("connection {number}: {words}")));
    }
    let mut recording = Recording::begin(out, entries, &just_opened(state))?;
    let (mut segments, mut left_out) = (0, 0);
    desk.judge(input, &mut |line| {
        if (line.connection, line.direction) != (opening.number, direction) {
            return Ok(());
        }
        if line.index.is_some() && recording.segment(line.segment)?.is_ok() {
            segments += 1;
        } else if matches!(line.fate, Fate::NotJudged(_)) || line.segment.len() > SEGMENT_ROOM {
            left_out += 1;
        }
        Ok(())
    })?;
    recording.into_inner().flush()?;
    Ok(Recorded {
        opening,
        segments,
        left_out,
    })
}

fn just_opened(state: &Connection) -> Opened {
    Opened {
        local: state.local(),
        remote: state.remote(),
        isn: state.isn(),
        peer_isn: state.peer_isn(),
        send_id: state.send_id(),
        ask_id: state.ask_id(),
    }
}

/// The connection that was asked for, or the only one that can be recorded.
fn chosen(desk: &Desk, direction: Direction) -> Result<Opening, Stop> {
    let all: Vec<&Opening> = desk.openings().collect();
    let is_open = |opening: &&Opening| opening.end(opening.receiver(direction)).opened.is_some();
    let open: Vec<&Opening> = all.iter().copied().filter(is_open).collect();
    match (&open[..], &all[..], desk.choice().connection) {
        ([one], _, _) | ([], [one], _) => Ok((*one).clone()),
        ([], [], Some(number)) => Err(Stop::refused(unusable(desk, number))),
        ([], [], None) => Err(Stop::refused(
            "no connection of the capture has both its SYN and an entry",
        )),
        _ => Err(Stop::usage(
            "there are several connections: choose one with --connection",
        )),
    }
}

fn unusable(desk: &Desk, number: usize) -> String {
    let found = &desk.found()[number - 1];
    match desk.views().cover(found.client, found.server) {
        true => format!("connection {number} has no opening in the capture"),
        false => format!("connection {number}: no entry matches it"),
    }
}

fn not_open(opening: &Opening, direction: Direction) -> String {
    let receiver = opening.receiver(direction);
    let (number, end) = (opening.number, opening.address(receiver));
    match opening.end(receiver).packet {
        Some((packet, verdict)) => {
            format!("connection {number} was not opened at {end}: packet {packet} was {verdict}")
        }
        None => format!("connection {number} was not opened at {end}"),
    }
}
