//! Records of a recording: document 02, Ticket 1, with READINGS 4 and 5. Where a record has more room than it uses, any
//! bytes stand there.

use crate::state::State;

/// How many bytes of an entry's record may be used.
pub const ENTRY_ROOM: usize = 129;
/// How many bytes of a segment's record may be used.
pub const SEGMENT_ROOM: usize = 1_598;
/// How many bytes an entry's record, the opening's and a segment's have.
pub const RECORDS: [usize; 3] = [131, 48, 1_601];

/// What stands where nothing is looked at.
const UNUSED: u8 = 0xa5;

/// Kind 1: bytes of the table, at most [`ENTRY_ROOM`].
pub fn entry(bytes: &[u8]) -> Vec<u8> {
    filled([&[1, bytes.len() as u8], bytes].concat(), RECORDS[0])
}

/// A table in as many records as it has pieces.
pub fn table<'a>(pieces: impl IntoIterator<Item = &'a [u8]>) -> Vec<u8> {
    pieces.into_iter().flat_map(entry).collect()
}

/// Kind 2: the connection of this state, just after its opening.
pub fn opening(state: &State) -> Vec<u8> {
    let mut record = vec![2, state.family, state.outgoing_send_id, state.asked_recv_id];
    record.extend(state.local_port.to_be_bytes());
    record.extend(state.remote_port.to_be_bytes());
    record.extend(state.our_isn.to_be_bytes());
    record.extend(state.peer_isn.to_be_bytes());
    for address in [state.local, state.remote] {
        let used = if state.family == 4 { 4 } else { 16 };
        record.extend(filled(address[..used].to_vec(), 16));
    }
    record
}

/// Kind 3: a segment of at most [`SEGMENT_ROOM`] bytes.
pub fn segment(bytes: &[u8]) -> Vec<u8> {
    let length = (bytes.len() as u16).to_be_bytes();
    filled([&[3], &length[..], bytes].concat(), RECORDS[2])
}

fn filled(mut bytes: Vec<u8>, length: usize) -> Vec<u8> {
    assert!(bytes.len() <= length);
    bytes.resize(length, UNUSED);
    bytes
}
