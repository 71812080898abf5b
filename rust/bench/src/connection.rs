//! A connection that is open at both ends, and key tables for it.

use bench::{Bytes, ARCHIVE};
use kit::segment::ACK;
use kit::{End, Entry, Pair, Segment, Side, State};

pub const KEY: [u8; 16] = *b"sixteen key byte";
const PORTS: [u16; 2] = [50_000, 179];
pub const ISNS: [u32; 2] = [0x1234_5678, 0x9abc_def0];
const ADDRESSES: [[u8; 4]; 2] = [[10, 11, 12, 13], [172, 27, 28, 29]];

/// An entry by `KEY`, for anybody who speaks IPv4.
pub fn anybody() -> Entry {
    Entry {
        key: KEY.to_vec(),
        ..Entry::default()
    }
}

/// The key table of an end. Its last entry is the one in use.
#[derive(Clone, Copy, PartialEq, Eq)]
pub enum Keys {
    /// One entry, for anybody.
    One,
    /// 64 entries for anybody, with different IDs.
    Different,
    /// 64 entries with the same IDs, each for another remote address.
    Shared,
}

impl Keys {
    pub fn name(self) -> &'static str {
        match self {
            Keys::One => "1",
            Keys::Different => "64 IDs",
            Keys::Shared => "64 peers",
        }
    }

    fn entries(self) -> u8 {
        match self {
            Keys::One => 1,
            Keys::Different | Keys::Shared => 64,
        }
    }

    /// SendID and RecvID of an entry at end 0; the other end has them exchanged.
    fn ids(self, i: u8) -> [u8; 2] {
        match self {
            Keys::One | Keys::Different => [i, 100 + i],
            Keys::Shared => [1, 2],
        }
    }

    /// Whom an entry is for; the last entry of `Shared` has the peer's own address.
    fn remote(self, i: u8, peer: [u8; 4]) -> Side {
        match self {
            Keys::One | Keys::Different => Side::any(4),
            Keys::Shared => Side::host(&[peer[0], peer[1], peer[2], peer[3] ^ (63 - i)]),
        }
    }

    /// An entry as this end holds it.
    fn entry(self, here: usize, algorithm: u8, i: u8) -> Entry {
        let there = 1 - here;
        Entry {
            algorithm,
            send_id: self.ids(i)[here],
            recv_id: self.ids(i)[there],
            remote: self.remote(i, ADDRESSES[there]),
            ..anybody()
        }
    }
}

/// One end of the connection, by the archive. End 0 signs, end 1 judges.
pub fn open(here: usize, algorithm: u8, keys: Keys) -> End {
    let there = 1 - here;
    let pair = Pair {
        local: ADDRESSES[here].to_vec(),
        remote: ADDRESSES[there].to_vec(),
        local_port: PORTS[here],
        remote_port: PORTS[there],
    };
    let entries: Vec<Entry> = (0..keys.entries())
        .map(|i| keys.entry(here, algorithm, i))
        .collect();
    opened(pair, &entries, [ISNS[here], ISNS[there]])
}

/// One end of an open connection, by the archive. The last entry is in use; our ISN comes first.
pub fn opened(pair: Pair, entries: &[Entry], [ours, theirs]: [u32; 2]) -> End {
    let used = &entries[entries.len() - 1];
    let state = State {
        stage: 1,
        outgoing_send_id: used.send_id,
        asked_recv_id: used.recv_id,
        our_isn: ours,
        peer_isn: theirs,
        signing_reference: u64::from(ours),
        arriving_reference: u64::from(theirs),
        ..State::of_pair(&pair)
    };
    let mut end = End::new(ARCHIVE, pair, kit::entry::table(entries));
    end.set(state);
    end
}

/// One end of the connection by TCP MD5, with one entry and no key table.
pub fn open_md5(here: usize) -> End {
    let mut end = open(here, 1, Keys::One);
    let entry = Entry {
        key: KEY.to_vec(),
        ..Entry::md5(&end.pair.local, &end.pair.remote)
    };
    end.table.clear();
    end.md5 = entry.bytes();
    end.set(State {
        outgoing_send_id: 0,
        asked_recv_id: 0,
        way: 1,
        ..end.state()
    });
    end
}

/// A segment of n bytes that end 0 may sign: no options, ACK.
pub fn segment(n: usize) -> Vec<u8> {
    Segment {
        source_port: PORTS[0],
        destination_port: PORTS[1],
        sequence: ISNS[0] + 1,
        acknowledgment: ISNS[1] + 1,
        flags: ACK,
        window: 0x2000,
        data: Bytes(3).take(n - 20),
        ..Segment::default()
    }
    .bytes()
}
