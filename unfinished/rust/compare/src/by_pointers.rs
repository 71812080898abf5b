//! The calls of Tickets 6, 12 and 7 by pointers, as C makes them: every buffer in one stretch of memory, a canary around
//! each, so that a byte written anywhere but where it may be is noticed. (Those of Ticket 11 are kit's own.)

use kit::pointers::Buffer;
use kit::{connections, records, removal};

/// What stands before, between and behind the buffers, and must stay.
const CANARY: [u8; 32] = [0xa5; 32];

/// The buffers of a call.
struct Memory<'a> {
    parts: Vec<&'a [u8]>,
    bytes: Vec<u8>,
    starts: Vec<usize>,
}

impl<'a> Memory<'a> {
    fn new(parts: &[&'a [u8]]) -> Memory<'a> {
        let mut bytes = vec![];
        let mut starts = vec![];
        for part in parts {
            bytes.extend_from_slice(&CANARY);
            starts.push(bytes.len());
            bytes.extend_from_slice(part);
        }
        bytes.extend_from_slice(&CANARY);
        Memory {
            parts: parts.to_vec(),
            bytes,
            starts,
        }
    }

    /// The buffers, each at its start; the memory is not moved as long as they are used.
    fn buffers(&mut self) -> Vec<Buffer> {
        let memory = self.bytes.as_mut_ptr();
        let parts = self.starts.iter().zip(&self.parts);
        // A start lies within the memory.
        let lend = |(start, part): (&usize, &&[u8])| Buffer {
            at: unsafe { memory.add(*start) },
            length: part.len(),
        };
        parts.map(lend).collect()
    }

    fn part(&self, index: usize) -> &[u8] {
        &self.bytes[self.starts[index]..][..self.parts[index].len()]
    }

    /// Whether a canary has changed, or a buffer that is none of these.
    fn strayed(&self, writable: &[usize]) -> bool {
        let mut expected = Memory::new(&self.parts);
        for index in writable {
            let (start, length) = (self.starts[*index], self.parts[*index].len());
            expected.bytes[start..start + length].copy_from_slice(self.part(*index));
        }
        expected.bytes != self.bytes
    }
}

/// A call on many connections.
pub fn connections(
    calls: &connections::pointers::Calls,
    call: &connections::Call,
) -> connections::Outcome {
    let mut memory = Memory::new(&[
        &call.keys,
        &call.md5,
        &call.one,
        &call.other,
        &call.segment,
        &call.out,
        &call.connections,
    ]);
    let lent = memory.buffers();
    let buffers = connections::pointers::Buffers {
        keys: lent[0],
        md5: lent[1],
        one: lent[2],
        other: lent[3],
        segment: lent[4],
        out: lent[5],
        connections: lent[6],
    };
    // Each pointer is good for its length, and the buffers do not overlap.
    let word = unsafe { calls.make(call, &buffers) };
    let reads = call.function == connections::Function::Find;
    let writable: &[usize] = if reads { &[5] } else { &[5, 6] };
    connections::Outcome {
        word,
        out: memory.part(5).to_vec(),
        connections: memory.part(6).to_vec(),
        strayed: memory.strayed(writable),
    }
}

/// A call with a record.
pub fn records(calls: &records::pointers::Calls, call: &records::Call) -> records::Outcome {
    let mut memory = Memory::new(&[
        &call.local,
        &call.remote,
        &call.record,
        &call.out,
        &call.places,
    ]);
    let lent = memory.buffers();
    let buffers = records::pointers::Buffers {
        local: lent[0],
        remote: lent[1],
        record: lent[2],
        out: lent[3],
        places: lent[4],
    };
    // As above.
    let word = unsafe { calls.make(call, &buffers) };
    use records::Function::{Write, WriteOf};
    let writes = matches!(call.function, Write | WriteOf);
    records::Outcome {
        word,
        out: memory.part(3).to_vec(),
        places: memory.part(4).to_vec(),
        strayed: memory.strayed(if writes { &[3] } else { &[4] }),
    }
}

/// A removal.
pub fn removal(calls: &removal::pointers::Calls, call: &removal::Call) -> removal::Outcome {
    let mut memory = Memory::new(&[&call.keys, &call.connections]);
    let lent = memory.buffers();
    // As above.
    let word = unsafe { calls.make(call, lent[0], lent[1]) };
    let plain = call.function == removal::Function::Remove;
    let writable: &[usize] = if plain { &[0] } else { &[0, 1] };
    removal::Outcome {
        word,
        keys: memory.part(0).to_vec(),
        connections: memory.part(1).to_vec(),
        strayed: memory.strayed(writable),
    }
}

#[cfg(test)]
mod tests {
    use super::*;
    use kit::removal::pointers::Calls;
    use kit::{removal_of, State};

    /// A byte written anywhere but in the buffers lent for writing is noticed.
    #[test]
    fn strays_are_noticed() {
        let parts: [&[u8]; 4] = [b"keys", b"", b"segment", b"out"];
        let whole = Memory::new(&parts);
        assert!(!whole.strayed(&[]));
        let mut unnoticed = 0;
        for at in 0..whole.bytes.len() {
            let mut memory = Memory::new(&parts);
            memory.bytes[at] ^= 1;
            unnoticed += usize::from(!memory.strayed(&[0, 3]));
        }
        assert_eq!(unnoticed, "keys".len() + "out".len());
    }

    /// The reference's removals by pointers.
    mod c {
        use std::slice::{from_raw_parts, from_raw_parts_mut};

        pub unsafe extern "C" fn tcpao_remove_key(
            keys: *mut u8,
            keys_length: usize,
            index: u32,
            connections: *const u8,
            connections_length: usize,
        ) -> u64 {
            let keys = from_raw_parts_mut(keys, keys_length);
            let connections = from_raw_parts(connections, connections_length);
            reference::boundary::tcpao_remove_key(keys, index, connections)
        }

        pub unsafe extern "C" fn tcpao_replace_key(
            keys: *mut u8,
            keys_length: usize,
            index: u32,
            send_id: u8,
            recv_id: u8,
            connections: *mut u8,
            connections_length: usize,
        ) -> u64 {
            let keys = from_raw_parts_mut(keys, keys_length);
            let connections = from_raw_parts_mut(connections, connections_length);
            reference::boundary::tcpao_replace_key(keys, index, send_id, recv_id, connections)
        }
    }

    /// What is made by pointers is what is made over slices.
    #[test]
    fn the_same_by_pointers() {
        let calls = removal_of!(Calls, c);
        let entry = kit::Entry::default().ids(1, 2);
        let other = kit::Entry::default().ids(3, 4);
        let pair = kit::Pair {
            local: vec![1; 4],
            remote: vec![2; 4],
            local_port: 1,
            remote_port: 2,
        };
        let mut state = State::of_pair(&pair);
        (state.outgoing_send_id, state.asked_recv_id) = (1, 2);
        for function in removal::Function::ALL {
            let call = removal::Call {
                function,
                keys: kit::entry::table(&[entry.clone(), other.clone()]),
                index: 0,
                send_id: 3,
                recv_id: 4,
                connections: state.bytes(),
            };
            let outcome = removal(&calls, &call);
            assert_eq!(outcome, (crate::removal::SIDES.reference)(&call));
            let plain = function == removal::Function::Remove;
            assert_eq!(outcome.number(), if plain { 43 } else { 0 });
        }
    }
}
