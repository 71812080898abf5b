//! Of a call: whether MD5 is due, what its segment has of it, and how the two tables stand to each other.

use crate::numbers::named;
use kit::{Call, Function, Outcome};
use reference::mac::{self, Direction, Ends};
use reference::md5_table::{self, Md5Entry, Tables};
use reference::position::{extension, position};
use reference::segment::{read_options, Header, WithAo};
use reference::table::{self, by_recv_id, Entry, Pair};
use reference::{tcp_md5, State};

/// What is not known, or not asked for, is 0 or false.
#[derive(Default)]
pub struct ByMd5 {
    /// Whether MD5 is due: the connection's way, or of a bare SYN the table that matches its pair.
    pub due: bool,
    /// Whether the connection is open.
    pub open: bool,
    /// Where the segment's first MD5 stands, and its length.
    pub at: usize,
    pub length: usize,
    /// How many MD5 there are, and whether TCP-AO is there.
    pub count: usize,
    pub ao: bool,
    /// The data offset, and whether SYN is set.
    pub offset: usize,
    pub syn: bool,
    /// Whether the number has a position by its direction's reference.
    pub position: bool,
    /// The key of the MD5 entry that matches the pair; 0 if there is none.
    pub key_bytes: usize,
    /// Whether the MD5 digest is right, by the entry that matches the pair.
    pub digest_right: bool,
    /// Whether TCP-AO's MAC is right, by the entry that its KeyID has.
    pub mac_right: bool,
    /// How many MD5 entries there are, neither table being refused.
    pub entries: usize,
    /// Of 45: one more than how far the index of the key entry is from the MD5 entry's.
    pub overlaps: usize,
    /// Of 45: how many MD5 entries overlap with a key.
    pub overlapping: usize,
    /// Whether the MD5 table is refused at an entry behind one that overlaps with a key.
    pub refused_behind: bool,
    /// Whether the key table is refused, and the MD5 table would be.
    pub both_refused: bool,
    /// Whether a key and an MD5 entry of different families have prefixes and ports that would overlap.
    pub other_family: bool,
}

impl ByMd5 {
    /// With the tables, if they are not refused.
    pub fn of(call: &Call, outcome: &Outcome, tables: Option<&Tables>) -> ByMd5 {
        let mut seen = ByMd5::default();
        let md5 = &call.md5[..];
        let number = named(outcome);
        match number {
            45 => seen.forty_five(call, outcome),
            10..=17 => seen.both_refused = md5_table::read(md5).is_err(),
            // Behind 1,024 entries it would take long to say.
            112 => {}
            110..=117 => seen.refused_behind(call, outcome.value() as usize),
            18 | 19 => {}
            _ => {
                if let Some(tables) = tables {
                    seen.entries = tables.md5.len();
                    seen.other_family = other_family(&tables.keys, &tables.md5);
                    seen.segment(call, &tables.keys, &tables.md5);
                }
            }
        }
        seen
    }

    fn forty_five(&mut self, call: &Call, outcome: &Outcome) {
        let keys = table::read(&call.table).unwrap_or_default();
        let md5 = md5_table::read(&call.md5).unwrap_or_default();
        let index = outcome.value() as usize;
        let with = |entry: &Md5Entry| keys.iter().position(|key| overlap(key, entry));
        self.overlapping = md5.iter().filter(|entry| with(entry).is_some()).count();
        let key = md5.get(index).and_then(with);
        self.overlaps = key.map_or(0, |key| 1 + key.abs_diff(index));
    }

    /// The entries before the refused one are whole.
    fn refused_behind(&mut self, call: &Call, index: usize) {
        let keys = table::read(&call.table).unwrap_or_default();
        let bytes = |kind: &u8| if *kind == 4 { 104 } else { 128 };
        let mut end = 0;
        for _ in 0..index {
            end += call.md5.get(end).map_or(0, bytes);
        }
        let front = call.md5.get(..end).unwrap_or_default();
        let before = md5_table::read(front).unwrap_or_default();
        let with = |entry: &Md5Entry| keys.iter().any(|key| overlap(key, entry));
        self.refused_behind = before.iter().any(with);
    }

    fn segment(&mut self, call: &Call, keys: &[Entry], md5: &[Md5Entry]) {
        let state = State::from_bytes(&call.state).unwrap_or(State::EMPTY);
        self.open = state.is_open();
        let signs = call.function == Function::Sign;
        if signs || call.function == Function::Ask {
            self.due = state.goes_by_md5();
        }
        let Some(header) = Header::read(&call.segment) else {
            return;
        };
        self.offset = header.data_offset;
        self.syn = header.syn();
        let reference = if signs {
            state.signing_reference
        } else {
            state.arriving_reference
        };
        self.position = position(reference, header.sequence).is_some();
        let Some(options) = read_options(&call.segment, &header) else {
            return;
        };
        if let Some(md5) = options.md5 {
            (self.at, self.length) = (md5.at, md5.length);
        }
        (self.count, self.ao) = (options.md5_count, options.ao.is_some());
        if !call.function.takes_arrival() {
            return;
        }

        let pair = Pair {
            local: &call.destination,
            remote: &call.source,
            local_port: header.destination_port,
            remote_port: header.source_port,
        };
        let entry = md5_table::matching(md5, &pair);
        self.due = match call.function {
            Function::Judge => state.goes_by_md5(),
            _ => entry.is_some(),
        };
        let (source, destination) = (&call.source[..], &call.destination[..]);
        if let Some(entry) = entry {
            self.key_bytes = entry.key.len();
            if let (Some(md5), 18) = (options.md5, self.length) {
                let right = tcp_md5::digest(source, destination, &call.segment, &header, entry.key);
                self.digest_right = call.segment[md5.at + 2..md5.at + 18] == right;
            }
        }
        let Some(ao) = options.ao else { return };
        let Some(key) = by_recv_id(keys, &pair, ao.key_id) else {
            return;
        };
        let x = position(state.arriving_reference, header.sequence).unwrap_or(0);
        let ends = Ends {
            source,
            destination,
            source_port: header.source_port,
            destination_port: header.destination_port,
            source_isn: if self.open {
                state.peer_isn
            } else {
                header.sequence
            },
            destination_isn: state.our_isn,
        };
        let carrier = WithAo {
            segment: &call.segment,
            header,
            ao,
        };
        if self.due && ao.length == 4 + key.mac_bytes {
            let extension = if self.open { extension(x) } else { 0 };
            let right = mac::mac(&key, Direction::Arriving, &ends, extension, &carrier);
            self.mac_right = carrier.mac() == right;
        }
    }
}

/// Whether a pair exists that both match.
pub fn overlap(key: &Entry, md5: &Md5Entry) -> bool {
    let same = key.local.address.len() == md5.local.address.len();
    same && key.local.overlaps(&md5.local) && key.remote.overlaps(&md5.remote)
}

/// Whether two entries of different families would overlap but for that.
fn other_family(keys: &[Entry], md5: &[Md5Entry]) -> bool {
    let other = |key: &Entry, entry: &Md5Entry| {
        key.local.address.len() != entry.local.address.len()
            && key.local.overlaps(&entry.local)
            && key.remote.overlaps(&entry.remote)
    };
    md5.iter()
        .any(|entry| keys.iter().any(|key| other(key, entry)))
}
