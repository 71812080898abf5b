//! Taking a key away: Ticket 7.
//!
//! "Removal names the entry's index (35 if there is none), and the table closes up over it: the new length is given back
//! and the bytes past it are zero."
//!
//! Looked at are the places in use that go by TCP-AO: a connection by MD5 sends under no entry of the key
//! table.

use crate::answer::Refusal;
use crate::connections::Connections;
use crate::state::State;
use crate::table::{self, body_bytes, Entry};

/// The table's bytes after a removal, without what is past its new length.
pub type Removed = Vec<u8>;

/// Plain removal (10 to 17, 35, 43). No connection changes.
pub fn remove(keys: &[u8], index: u32, connections: &Connections) -> Result<Removed, Refusal> {
    // 10 to 17.
    let entries = table::read(keys)?;

    // 35: "Removal names the entry's index (35 if there is none)".
    let entry = entries.get(index as usize).ok_or(Refusal::of(35))?;

    // 43: "Plain removal is refused with 43 if a connection, open or opening, sends under it or asks its peer for it."
    if !using(entry, connections).is_empty() {
        return Err(Refusal::of(43));
    }

    Ok(closed_up(keys, &entries, index as usize))
}

/// Forced removal (10 to 17, 35, 35). "names a replacement SendID and RecvID for those connections".
pub fn replace(
    keys: &[u8],
    index: u32,
    send_id: u8,
    recv_id: u8,
    connections: &mut Connections,
) -> Result<Removed, Refusal> {
    // 10 to 17.
    let entries = table::read(keys)?;

    // 35: "Removal names the entry's index (35 if there is none)".
    let entry = entries.get(index as usize).ok_or(Refusal::of(35))?;

    // 35: "refused with 35, changing none, if for any of them either has no matching entry other than the one removed".
    let mut others = entries.clone();
    others.remove(index as usize);
    let places = using(entry, connections);
    let replaced = |place: &usize| has_both(&others, &connections.places[*place], send_id, recv_id);
    if !places.iter().all(replaced) {
        return Err(Refusal::of(35));
    }

    // "otherwise both IDs of all of them change together."
    for place in places {
        let state = &mut connections.places[place];
        state.outgoing_send_id = send_id;
        state.asked_recv_id = recv_id;
    }
    Ok(closed_up(keys, &entries, index as usize))
}

/// The places of the connections that send under an entry or ask their peer for it.
fn using(entry: &Entry, connections: &Connections) -> Vec<usize> {
    let places = connections.places.iter().enumerate();
    places
        .filter(|(place, state)| counts(*place, connections) && uses(entry, state))
        .map(|(place, _)| place)
        .collect()
}

/// Whether a place is in use, by TCP-AO.
fn counts(place: usize, connections: &Connections) -> bool {
    let state = &connections.places[place];
    let in_use = state.pair().and_then(|pair| connections.in_use(&pair));
    in_use == Some(place) && !state.goes_by_md5()
}

/// Whether a connection "sends under it or asks its peer for it": the entry matches the pair, and has the outgoing SendID
/// or the RecvID asked of the peer.
fn uses(entry: &Entry, state: &State) -> bool {
    let Some(pair) = state.pair() else {
        return false;
    };
    let sends = entry.send_id == state.outgoing_send_id;
    let asks = entry.recv_id == state.asked_recv_id;
    entry.matches(&pair) && (sends || asks)
}

/// Whether among these entries one that matches the connection's pair has this SendID, and one this RecvID.
fn has_both(entries: &[Entry], state: &State, send_id: u8, recv_id: u8) -> bool {
    let Some(pair) = state.pair() else {
        return false;
    };
    let by_send = table::by_send_id(entries, &pair, send_id);
    let by_recv = table::by_recv_id(entries, &pair, recv_id);
    by_send.is_some() && by_recv.is_some()
}

/// "the table closes up over it": the bytes of the entries before, then those of the entries behind.
fn closed_up(keys: &[u8], entries: &[Entry], index: usize) -> Removed {
    let bytes = |entry: &Entry| 1 + body_bytes(entry.kind).unwrap_or(0);
    let start: usize = entries[..index].iter().map(bytes).sum();
    let end = start + bytes(&entries[index]);
    [&keys[..start], &keys[end..]].concat()
}
