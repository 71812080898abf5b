//! A connection's state: the boundary page, "The state".

use crate::ends::Pair;

/// A state; all zero is the empty one. Any bytes are a state.
#[derive(Clone, Copy, Debug, Default, PartialEq, Eq)]
pub struct State {
    /// 4 or 6; any other is what 18 refuses.
    pub family: u8,
    /// 1 open, any other opening.
    pub stage: u8,
    pub outgoing_send_id: u8,
    pub asked_recv_id: u8,
    pub local_port: u16,
    pub remote_port: u16,
    pub our_isn: u32,
    pub peer_isn: u32,
    /// An IPv4 address has the first four bytes.
    pub local: [u8; 16],
    pub remote: [u8; 16],
    /// The reference of the direction that we sign.
    pub signing_reference: u64,
    pub arriving_reference: u64,
    pub accepted: u64,
    /// The counts of drops, in the order of [`State::COUNTED`].
    pub drops: [u64; State::COUNTED.len()],
    /// 1 MD5, any other TCP-AO.
    pub way: u8,
}

impl State {
    pub const BYTES: usize = 177;

    /// The drops that are counted once open.
    pub const COUNTED: [u8; 13] = [20, 21, 22, 23, 24, 25, 26, 27, 28, 29, 40, 46, 47];

    /// Where a drop's count stands among the counts, if it is counted.
    pub fn place(number: u8) -> Option<usize> {
        let is = |counted: &u8| *counted == number;
        State::COUNTED.iter().position(is)
    }

    /// Adds one to this number's count, if the connection is open and the number is counted.
    pub fn count_drop(&mut self, number: u8) {
        if let (true, Some(place)) = (self.is_open(), State::place(number)) {
            self.drops[place] = self.drops[place].saturating_add(1);
        }
    }

    /// The empty state but for the family and the pair.
    pub fn of_pair(pair: &Pair) -> State {
        let mut state = State::default();
        state.put_pair(pair);
        state
    }

    /// Puts in a pair and its family; what stands behind an IPv4 address stays.
    pub fn put_pair(&mut self, pair: &Pair) {
        self.family = if pair.local.len() == 4 { 4 } else { 6 };
        self.local[..pair.local.len()].copy_from_slice(&pair.local);
        self.remote[..pair.remote.len()].copy_from_slice(&pair.remote);
        self.local_port = pair.local_port;
        self.remote_port = pair.remote_port;
    }

    /// The pair; in a family that 18 refuses it is read as IPv4's.
    pub fn pair(&self) -> Pair {
        let bytes = if self.family == 6 { 16 } else { 4 };
        Pair {
            local: self.local[..bytes].to_vec(),
            remote: self.remote[..bytes].to_vec(),
            local_port: self.local_port,
            remote_port: self.remote_port,
        }
    }

    pub fn is_open(&self) -> bool {
        self.stage == 1
    }

    /// Whether the connection was opened by MD5.
    pub fn goes_by_md5(&self) -> bool {
        self.way == 1
    }

    /// Reads a state; nothing if the length is another.
    pub fn read(bytes: &[u8]) -> Option<State> {
        if bytes.len() != State::BYTES {
            return None;
        }
        let mut fields = Fields(bytes);
        Some(State {
            family: fields.next::<1>()[0],
            stage: fields.next::<1>()[0],
            outgoing_send_id: fields.next::<1>()[0],
            asked_recv_id: fields.next::<1>()[0],
            local_port: u16::from_be_bytes(fields.next()),
            remote_port: u16::from_be_bytes(fields.next()),
            our_isn: u32::from_be_bytes(fields.next()),
            peer_isn: u32::from_be_bytes(fields.next()),
            local: fields.next(),
            remote: fields.next(),
            signing_reference: u64::from_be_bytes(fields.next()),
            arriving_reference: u64::from_be_bytes(fields.next()),
            accepted: u64::from_be_bytes(fields.next()),
            drops: std::array::from_fn(|_| u64::from_be_bytes(fields.next())),
            way: fields.next::<1>()[0],
        })
    }

    pub fn bytes(&self) -> Vec<u8> {
        let mut bytes = vec![
            self.family,
            self.stage,
            self.outgoing_send_id,
            self.asked_recv_id,
        ];
        bytes.extend(self.local_port.to_be_bytes());
        bytes.extend(self.remote_port.to_be_bytes());
        bytes.extend(self.our_isn.to_be_bytes());
        bytes.extend(self.peer_isn.to_be_bytes());
        bytes.extend(self.local);
        bytes.extend(self.remote);
        bytes.extend(self.signing_reference.to_be_bytes());
        bytes.extend(self.arriving_reference.to_be_bytes());
        bytes.extend(self.accepted.to_be_bytes());
        bytes.extend(self.drops.iter().flat_map(|count| count.to_be_bytes()));
        bytes.push(self.way);
        bytes
    }
}

/// What is left to be read.
struct Fields<'a>(&'a [u8]);

impl Fields<'_> {
    fn next<const N: usize>(&mut self) -> [u8; N] {
        let (field, rest) = self.0.split_first_chunk().unwrap();
        self.0 = rest;
        *field
    }
}

#[cfg(test)]
mod tests {
    use super::*;
    use crate::Bytes;

    /// Every field has its own bytes, and none is left over.
    #[test]
    fn reading_and_writing() {
        let mut bytes = Bytes(1).take(State::BYTES);
        for at in 0..State::BYTES {
            let before = State::read(&bytes).unwrap();
            assert_eq!(before.bytes(), bytes);
            bytes[at] ^= 0xff;
            assert_ne!(State::read(&bytes).unwrap(), before);
        }
        assert_eq!(State::default().bytes(), [0; State::BYTES]);
        assert_eq!(State::read(&[4; State::BYTES + 1]), None);
    }
}
