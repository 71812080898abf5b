//! The bytes of a prepared table: the boundary page, "The prepared form".

use crate::calls::{number, value};
use crate::entry::{Entry, Side};
use std::ops::Range;

/// The counts, two bytes each.
pub const COUNTS: usize = 4;
/// What is stored of an entry stands in six places: a byte in each of four columns, a slot among the slots, a back
/// among the backs.
pub const COLUMNS: usize = 4;
pub const SLOT: usize = 24;
pub const BACK: usize = 101;

/// How many bytes a prepared table of so many entries has.
pub const fn length(entries: usize) -> usize {
    COUNTS + (COLUMNS + SLOT + BACK) * entries
}

/// The most that a prepared table has: twice 1,024 entries.
pub const MOST: usize = length(2_048);

/// The mark of an address: the sum of its bytes modulo 256.
pub fn mark(address: &[u8]) -> u8 {
    let sum: usize = address.iter().map(|byte| usize::from(*byte)).sum();
    (sum % 256) as u8
}

/// A field of a stored entry.
#[derive(Clone, Copy, Debug, PartialEq, Eq)]
pub enum Field {
    SendId,
    RecvId,
    RemotePrefix,
    Mark,
    Family,
    /// Without its last byte, which the mark gives.
    RemoteAddress,
    RemoteLow,
    RemoteHigh,
    LocalLow,
    LocalHigh,
    Flags,
    Algorithm,
    MacBytes,
    KeyLength,
    LocalPrefix,
    LocalAddress,
    Key,
}

impl Field {
    /// In the order of the bytes: the columns, the slot, the back.
    pub const ALL: [Field; 17] = [
        Field::SendId,
        Field::RecvId,
        Field::RemotePrefix,
        Field::Mark,
        Field::Family,
        Field::RemoteAddress,
        Field::RemoteLow,
        Field::RemoteHigh,
        Field::LocalLow,
        Field::LocalHigh,
        Field::Flags,
        Field::Algorithm,
        Field::MacBytes,
        Field::KeyLength,
        Field::LocalPrefix,
        Field::LocalAddress,
        Field::Key,
    ];

    fn bytes(self) -> usize {
        use Field::*;
        match self {
            RemoteLow | RemoteHigh | LocalLow | LocalHigh => 2,
            RemoteAddress => 15,
            LocalAddress => 16,
            Key => 80,
            _ => 1,
        }
    }

    /// Where it stands in a prepared table of so many entries, the MD5 entries behind the others.
    pub fn of(self, entries: usize, index: usize) -> Range<usize> {
        let (slots, backs) = (Field::Family as usize, Field::Flags as usize);
        let this = self as usize;
        // How many bytes there are from the first of a slot or of a back on.
        let behind = |first: usize| -> usize {
            let before = &Field::ALL[first..this];
            before.iter().map(|field| field.bytes()).sum()
        };
        let start = if this < slots {
            entries * this + index
        } else if this < backs {
            entries * COLUMNS + SLOT * index + behind(slots)
        } else {
            entries * (COLUMNS + SLOT) + BACK * index + behind(backs)
        };
        COUNTS + start..COUNTS + start + self.bytes()
    }
}

/// How many entries the counts of a prepared table say: keys, and MD5 entries.
pub fn counts(table: &[u8]) -> [usize; 2] {
    [0, 2].map(|at| usize::from(u16::from_be_bytes([table[at], table[at + 1]])))
}

/// Writes the counts, and nothing else.
pub fn put_counts(table: &mut [u8], [keys, md5]: [usize; 2]) {
    table[..2].copy_from_slice(&(keys as u16).to_be_bytes());
    table[2..COUNTS].copy_from_slice(&(md5 as u16).to_be_bytes());
}

/// Copies an entry from one table to another, each with so many entries, from and to such a place.
pub fn copy(from: &[u8], (n, i): (usize, usize), to: &mut [u8], (m, j): (usize, usize)) {
    for field in Field::ALL {
        to[field.of(m, j)].copy_from_slice(&from[field.of(n, i)]);
    }
}

/// Both tables prepared by this call; nothing if they are refused.
pub fn by(
    prepare: impl Fn(&[u8], &[u8], &mut [u8]) -> u64,
    keys: &[u8],
    md5: &[u8],
) -> Option<Vec<u8>> {
    let mut out = vec![0xee; MOST];
    let answer = prepare(keys, md5, &mut out);
    out.truncate(value(answer) as usize);
    (number(answer) == 0).then_some(out)
}

/// The prepared form of these entries, each as it is, good or bad.
pub fn prepared(keys: &[Entry], md5: &[Entry]) -> Vec<u8> {
    let all: Vec<&Entry> = keys.iter().chain(md5).collect();
    let mut table = vec![0; length(all.len())];
    put_counts(&mut table, [keys.len(), md5.len()]);
    for (index, entry) in all.iter().enumerate() {
        let mut put = |field: Field, bytes: &[u8]| {
            let place = field.of(all.len(), index);
            table[place][..bytes.len()].copy_from_slice(bytes);
        };
        let family = if entry.local.address.len() == 4 { 4 } else { 6 };
        let usual = if entry.algorithm == 19 { 16 } else { 12 };
        put(Field::SendId, &[entry.send_id]);
        put(Field::RecvId, &[entry.recv_id]);
        put(Field::Family, &[family]);
        put(Field::Flags, &[entry.flags]);
        put(Field::Algorithm, &[entry.algorithm]);
        put(Field::MacBytes, &[entry.mac_length.unwrap_or(usual)]);
        put(Field::KeyLength, &[entry.key.len() as u8]);
        put(Field::Key, &entry.key);
        let Side { low, high, .. } = &entry.remote;
        put(Field::RemoteLow, &low.to_be_bytes());
        put(Field::RemoteHigh, &high.to_be_bytes());
        let (_, before_last) = entry.remote.address.split_last().unwrap();
        put(Field::RemoteAddress, before_last);
        put(Field::Mark, &[mark(&entry.remote.address)]);
        put(Field::RemotePrefix, &[entry.remote.prefix]);
        let Side { low, high, .. } = &entry.local;
        put(Field::LocalLow, &low.to_be_bytes());
        put(Field::LocalHigh, &high.to_be_bytes());
        put(Field::LocalAddress, &entry.local.address);
        put(Field::LocalPrefix, &[entry.local.prefix]);
    }
    table
}
