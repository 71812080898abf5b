//! The call by the proved archive.

use kit::pointers::{Buffer, Buffers, Calls};
use kit::{calls_of, Call, Outcome};

/// What the reference is compared with.
pub const NAME: &str = "archive";

const ARCHIVE: Calls = calls_of!(Calls, embankery::raw::c);

/// What stands before, between and behind the buffers, and must stay.
const CANARY: [u8; 32] = [0xa5; 32];

/// The seven buffers of a call in one stretch of memory, a canary around each.
struct Lent {
    memory: Vec<u8>,
    starts: [usize; 7],
}

impl Lent {
    fn new(parts: [&[u8]; 7]) -> Lent {
        let mut memory = Vec::with_capacity(parts.concat().len() + 8 * CANARY.len());
        let mut starts = [0; 7];
        for (part, start) in parts.iter().zip(&mut starts) {
            memory.extend_from_slice(&CANARY);
            *start = memory.len();
            memory.extend_from_slice(part);
        }
        memory.extend_from_slice(&CANARY);
        Lent { memory, starts }
    }

    fn part(&self, index: usize, length: usize) -> &[u8] {
        &self.memory[self.starts[index]..self.starts[index] + length]
    }

    /// Whether a canary or a buffer that is only read has changed.
    fn strayed(&self, read_only: [&[u8]; 5]) -> bool {
        let canary = |end: usize| self.memory[end - CANARY.len()..end] == CANARY;
        let mut read = read_only.iter().enumerate();
        let same = |(index, part): (usize, &&[u8])| self.part(index, part.len()) == *part;
        let unhurt = self.starts.into_iter().all(canary) && canary(self.memory.len());
        !unhurt || !read.all(same)
    }
}

pub fn by_archive(call: &Call) -> Outcome {
    let Call {
        table,
        md5,
        source,
        destination,
        segment,
        out,
        state,
        ..
    } = call;
    let mut lent = Lent::new([table, md5, source, destination, segment, out, state]);
    let memory = lent.memory.as_mut_ptr();
    // A start lies within the memory, which is neither moved nor used otherwise until the call ends.
    let lend = |index: usize, part: &[u8]| Buffer {
        at: unsafe { memory.add(lent.starts[index]) },
        length: part.len(),
    };
    let buffers = Buffers {
        table: lend(0, table),
        md5: lend(1, md5),
        source: lend(2, source),
        destination: lend(3, destination),
        segment: lend(4, segment),
        out: lend(5, out),
        state: lend(6, state),
    };
    // Each pointer is good for its length, and the buffers do not overlap.
    let word = unsafe { ARCHIVE.make(call, &buffers) };
    Outcome {
        word,
        out: lent.part(5, out.len()).to_vec(),
        state: lent.part(6, state.len()).to_vec(),
        strayed: lent.strayed([table, md5, source, destination, segment]),
    }
}

#[cfg(test)]
mod tests {
    use super::*;

    /// A byte written anywhere but in the two buffers lent for writing is noticed.
    #[test]
    fn strays_are_noticed() {
        let parts: [&[u8]; 7] = [b"table", b"md5", b"one", b"", b"segment", b"out", b"state"];
        let read_only = [parts[0], parts[1], parts[2], parts[3], parts[4]];
        let bytes = Lent::new(parts).memory.len();
        let mut unnoticed = 0;
        for at in 0..bytes {
            let mut lent = Lent::new(parts);
            assert!(!lent.strayed(read_only));
            lent.memory[at] ^= 1;
            unnoticed += !lent.strayed(read_only) as usize;
        }
        assert_eq!(unnoticed, "out".len() + "state".len());
    }
}
