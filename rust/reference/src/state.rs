//! A connection's state, as a struct and as `BOUNDARY.md`'s 177 bytes.

use crate::table::Pair;

/// How many bytes a state has at the boundary.
pub const STATE_BYTES: usize = 177;

/// The drops that are counted, in the order of their counts: "drops 20 to 29"; Ticket 5, of 40: "the
/// counted drops and their sum include it", and its count stands behind 29's; Ticket 9, of 46 and 47: "both
/// ... counted and within the sum", behind 40's.
pub const COUNTED: [u8; 13] = [20, 21, 22, 23, 24, 25, 26, 27, 28, 29, 40, 46, 47];

/// Where the way stands, behind the counts.
const WAY: usize = 176;
/// The way of a connection opened by MD5. "way: 1 MD5, any other value TCP-AO".
pub const WAY_MD5: u8 = 1;

/// The stage of an open connection. "1 open, any other value opening".
pub const STAGE_OPEN: u8 = 1;

/// A connection's state. "Every value of these bytes is a state: a field is never 'invalid', and reading
/// and writing it back gives the same bytes."
#[derive(Clone, Copy, Debug, PartialEq, Eq)]
pub struct State {
    /// "family: 4, 6; any other value is what 18 refuses".
    pub family: u8,
    /// "stage: 1 open, any other value opening".
    pub stage: u8,
    /// The outgoing SendID.
    pub outgoing_send_id: u8,
    /// The RecvID asked of the peer.
    pub asked_recv_id: u8,
    /// Our port.
    pub local_port: u16,
    /// The peer's port.
    pub remote_port: u16,
    /// Our ISN.
    pub our_isn: u32,
    /// The peer's ISN.
    pub peer_isn: u32,
    /// "local address, IPv4 in the first four bytes; what stands behind is carried untouched".
    pub local: [u8; 16],
    /// "remote address, likewise".
    pub remote: [u8; 16],
    /// The reference of the direction we sign.
    pub signing_reference: u64,
    /// The reference of the arriving direction.
    pub arriving_reference: u64,
    /// The count of acceptances.
    pub accepted: u64,
    /// The counts of drops, in the order of [`COUNTED`].
    pub drops: [u64; COUNTED.len()],
    /// "way: 1 MD5, any other value TCP-AO".
    pub way: u8,
}

impl State {
    /// "An opening refused, or a SYN only passed, returns the empty state, family 0."
    pub const EMPTY: State = State {
        family: 0,
        stage: 0,
        outgoing_send_id: 0,
        asked_recv_id: 0,
        local_port: 0,
        remote_port: 0,
        our_isn: 0,
        peer_isn: 0,
        local: [0; 16],
        remote: [0; 16],
        signing_reference: 0,
        arriving_reference: 0,
        accepted: 0,
        drops: [0; COUNTED.len()],
        way: 0,
    };

    /// Whether the connection was opened by MD5. Ticket 9: "A connection goes by the way it was opened".
    pub fn goes_by_md5(&self) -> bool {
        self.way == WAY_MD5
    }

    /// Whether the connection is open.
    pub fn is_open(&self) -> bool {
        self.stage == STAGE_OPEN
    }

    /// The connection's socket pair; nothing if the "state's family is neither IPv4 nor IPv6" (18).
    pub fn pair(&self) -> Option<Pair<'_>> {
        let address_bytes = match self.family {
            4 => 4,
            6 => 16,
            _ => return None,
        };
        Some(Pair {
            local: &self.local[..address_bytes],
            remote: &self.remote[..address_bytes],
            local_port: self.local_port,
            remote_port: self.remote_port,
        })
    }

    /// An empty state with the family and the socket pair filled in. Both addresses have 4 or both
    /// have 16 bytes.
    pub fn of_pair(pair: &Pair) -> State {
        let mut state = State::EMPTY;
        state.family = if pair.local.len() == 4 { 4 } else { 6 };
        state.local[..pair.local.len()].copy_from_slice(pair.local);
        state.remote[..pair.remote.len()].copy_from_slice(pair.remote);
        state.local_port = pair.local_port;
        state.remote_port = pair.remote_port;
        state
    }

    /// "Counts of acceptances and of each drop stop at 2^64-1."
    pub fn count_accept(&mut self) {
        self.accepted = self.accepted.saturating_add(1);
    }

    /// "drops 20 to 29 on an open connection add one to that number's count", and 40, 46 and 47; others have
    /// none.
    pub fn count_drop(&mut self, number: u8) {
        if let Some(place) = COUNTED.iter().position(|counted| *counted == number) {
            let count = &mut self.drops[place];
            *count = count.saturating_add(1);
        }
    }

    /// Reads a state; nothing if there are not 177 bytes.
    pub fn from_bytes(bytes: &[u8]) -> Option<State> {
        if bytes.len() != STATE_BYTES {
            return None;
        }
        let two = |at: usize| u16::from_be_bytes([bytes[at], bytes[at + 1]]);
        let four = |at: usize| (two(at) as u32) << 16 | two(at + 2) as u32;
        let eight = |at: usize| (four(at) as u64) << 32 | four(at + 4) as u64;
        let mut state = State {
            family: bytes[0],
            stage: bytes[1],
            outgoing_send_id: bytes[2],
            asked_recv_id: bytes[3],
            local_port: two(4),
            remote_port: two(6),
            our_isn: four(8),
            peer_isn: four(12),
            local: [0; 16],
            remote: [0; 16],
            signing_reference: eight(48),
            arriving_reference: eight(56),
            accepted: eight(64),
            drops: [0; COUNTED.len()],
            way: bytes[WAY],
        };
        state.local.copy_from_slice(&bytes[16..32]);
        state.remote.copy_from_slice(&bytes[32..48]);
        for (index, count) in state.drops.iter_mut().enumerate() {
            *count = eight(72 + 8 * index);
        }
        Some(state)
    }

    /// Writes a state.
    pub fn to_bytes(&self) -> [u8; STATE_BYTES] {
        let mut bytes = [0; STATE_BYTES];
        bytes[0] = self.family;
        bytes[1] = self.stage;
        bytes[2] = self.outgoing_send_id;
        bytes[3] = self.asked_recv_id;
        bytes[4..6].copy_from_slice(&self.local_port.to_be_bytes());
        bytes[6..8].copy_from_slice(&self.remote_port.to_be_bytes());
        bytes[8..12].copy_from_slice(&self.our_isn.to_be_bytes());
        bytes[12..16].copy_from_slice(&self.peer_isn.to_be_bytes());
        bytes[16..32].copy_from_slice(&self.local);
        bytes[32..48].copy_from_slice(&self.remote);
        bytes[48..56].copy_from_slice(&self.signing_reference.to_be_bytes());
        bytes[56..64].copy_from_slice(&self.arriving_reference.to_be_bytes());
        bytes[64..72].copy_from_slice(&self.accepted.to_be_bytes());
        for (index, count) in self.drops.iter().enumerate() {
            bytes[72 + 8 * index..80 + 8 * index].copy_from_slice(&count.to_be_bytes());
        }
        bytes[WAY] = self.way;
        bytes
    }
}
