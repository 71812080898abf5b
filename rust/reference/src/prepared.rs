//! A prepared table (Ticket 8): "allow a prepared table that is built once from valid bytes; a call with it gives
//! what the bytes would give."
//!
//! Its bytes are the boundary page's, "The prepared form": the two counts; then, of all entries, "the key entries in
//! their order, then the MD5 entries in theirs", the SendIDs, the RecvIDs, the remote prefix lengths, the marks, the
//! slots and the backs. "Any bytes may come as one."

use crate::answer::Refusal;
use crate::md5_table::{Md5Entry, Tables};
use crate::segment::KIND_MD5;
use crate::table::{Address, Algorithm, Entry, Side, MOST_ENTRIES};

/// How many bytes the counts have: "n key entries and m MD5 entries", two for "n, big-endian" and two for "m,
/// big-endian".
const COUNTS: usize = 4;
/// How many columns there are, each with "a byte of each entry": SendIDs, RecvIDs, remote prefix lengths, marks.
const COLUMNS: usize = 4;
/// How many a slot has, and a back.
const SLOT: usize = 24;
const BACK: usize = 101;

/// What is stored of an MD5 entry as MAC bytes, since its digest has as many.
const DIGEST_BYTES: u8 = 16;

/// "The length is exactly 4 + 129 N."
pub fn prepared_bytes(entries: usize) -> usize {
    COUNTS + (COLUMNS + SLOT + BACK) * entries
}

/// "The mark is the sum of the remote address's bytes (four or sixteen) modulo 256".
fn sum(bytes: &[u8]) -> u8 {
    bytes.iter().fold(0, |sum, byte| sum.wrapping_add(*byte))
}

/// Both counts of bytes that are a prepared table.
///
/// "A prepared table with a count or an entry that valid bytes could not hold is refused with 44": it "is given
/// exactly if it is not", the length as said, "(so also for fewer than 4 bytes), or n > 1,024, or m > 1,024". An entry
/// that valid bytes could not hold cannot be stored.
fn counts(bytes: &[u8]) -> Option<(usize, usize)> {
    if bytes.len() < COUNTS {
        return None;
    }
    let keys = u16::from_be_bytes([bytes[0], bytes[1]]) as usize;
    let md5 = u16::from_be_bytes([bytes[2], bytes[3]]) as usize;
    if keys > MOST_ENTRIES || md5 > MOST_ENTRIES {
        return None;
    }
    if bytes.len() != prepared_bytes(keys + md5) {
        return None;
    }
    Some((keys, md5))
}

/// Reads a prepared table, or gives 44. "The clash and 45 are not tested again".
pub fn read(bytes: &[u8]) -> Result<Tables<'_>, Refusal> {
    let (keys, md5) = counts(bytes).ok_or(Refusal::of(44))?;
    let all = keys + md5;
    let (send_ids, rest) = bytes[COUNTS..].split_at(all);
    let (recv_ids, rest) = rest.split_at(all);
    let (remote_prefixes, rest) = rest.split_at(all);
    let (marks, rest) = rest.split_at(all);
    let (slots, backs) = rest.split_at(SLOT * all);
    let stored = |index: usize| Stored {
        send_id: send_ids[index],
        recv_id: recv_ids[index],
        remote_prefix: remote_prefixes[index],
        mark: marks[index],
        slot: &slots[SLOT * index..SLOT * (index + 1)],
        back: &backs[BACK * index..BACK * (index + 1)],
    };
    Ok(Tables {
        keys: (0..keys).map(|index| stored(index).key_entry()).collect(),
        md5: (keys..all).map(|index| stored(index).md5_entry()).collect(),
    })
}

/// An entry as it is stored. "Reading is total: whatever is stored reads as an entry that valid bytes could hold."
struct Stored<'t> {
    send_id: u8,
    recv_id: u8,
    remote_prefix: u8,
    /// "it stands in the place of the last byte, which comes back from it".
    mark: u8,
    /// At 0 the family, 1 to 15 the "remote address without its last byte: of IPv4 three bytes, then zeros", 16 and 18
    /// the "remote port, low and high", 20 and 22 the "local port, low and high".
    slot: &'t [u8],
    /// At 0 the flags, 1 the algorithm, 2 the MAC bytes, 3 the key length, 4 the local prefix length, 5 to 20 the "local
    /// address, IPv4 in the first four bytes, then zeros", 21 to 100 "the key, then zeros".
    back: &'t [u8],
}

impl<'t> Stored<'t> {
    /// The family is "4 if the byte is 4, else 6": how many bytes an address has.
    fn address_bytes(&self) -> usize {
        if self.slot[0] == 4 {
            4
        } else {
            16
        }
    }

    /// A side with its two ports at this place of the slot.
    ///
    /// Prefix lengths are "lowered to 32 (family 4) or 128", the ports "the smaller and the larger of the two"; of
    /// addresses, "bits past the prefix length count as zero": a match does not look at them.
    fn side(&self, ports: usize, address: &[u8], prefix: u8) -> Side {
        let port = |at: usize| u16::from_be_bytes([self.slot[at], self.slot[at + 1]]);
        let (one, other) = (port(ports), port(ports + 2));
        let bytes = self.address_bytes();
        Side {
            low: one.min(other),
            high: one.max(other),
            address: Address::of(address),
            prefix: (prefix as usize).min(8 * bytes),
        }
    }

    /// The remote address is "the stored bytes before the last (three of family 4, else fifteen), then the last: the mark
    /// less their sum, modulo 256".
    fn remote(&self) -> Side {
        let stored = self.address_bytes() - 1;
        let before_last = &self.slot[1..1 + stored];
        let last = self.mark.wrapping_sub(sum(before_last));
        self.side(16, &[before_last, &[last]].concat(), self.remote_prefix)
    }

    fn local(&self) -> Side {
        let bytes = self.address_bytes();
        self.side(20, &self.back[5..5 + bytes], self.back[4])
    }

    /// The key length is "raised to 1, lowered to 80", and "bytes past the key length count as zero".
    fn key(&self) -> &'t [u8] {
        let length = self.back[3].clamp(1, 80) as usize;
        &self.back[21..21 + length]
    }

    /// The flags are "the byte mod 8", the algorithm is "1 if the byte is below 1, 3 if it is above 3, else the byte",
    /// the MAC bytes are "raised to 4, lowered to 16", the IDs "as they are".
    fn key_entry(&self) -> Entry<'t> {
        let flags = self.back[0] % 8;
        let algorithm = match self.back[1] {
            0 | 1 => Algorithm::HmacSha1,
            2 => Algorithm::AesCmac,
            _ => Algorithm::HmacSha256,
        };
        Entry {
            kind: if self.address_bytes() == 4 { 5 } else { 7 },
            covers_options: flags & 1 != 0,
            local_nat: flags & 2 != 0,
            remote_nat: flags & 4 != 0,
            algorithm,
            send_id: self.send_id,
            recv_id: self.recv_id,
            local: self.local(),
            remote: self.remote(),
            mac_bytes: self.back[2].clamp(4, 16) as usize,
            key: self.key(),
        }
    }

    /// IDs, flags, algorithm and MAC bytes read as 0, 0, 0, 19 and 16 whatever stands there: an MD5 entry has none of
    /// these.
    fn md5_entry(&self) -> Md5Entry<'t> {
        Md5Entry {
            local: self.local(),
            remote: self.remote(),
            key: self.key(),
        }
    }
}

/// What is stored of an entry, before it is written.
struct ToStore<'t> {
    send_id: u8,
    recv_id: u8,
    flags: u8,
    algorithm: u8,
    mac_bytes: u8,
    local: Side,
    remote: Side,
    key: &'t [u8],
}

impl<'t> ToStore<'t> {
    fn key_entry(entry: &Entry<'t>) -> ToStore<'t> {
        let covers = entry.covers_options as u8;
        let (local_nat, remote_nat) = (entry.local_nat as u8, entry.remote_nat as u8);
        ToStore {
            send_id: entry.send_id,
            recv_id: entry.recv_id,
            flags: covers | local_nat << 1 | remote_nat << 2,
            algorithm: entry.algorithm.number(),
            mac_bytes: entry.mac_bytes as u8,
            local: entry.local,
            remote: entry.remote,
            key: entry.key,
        }
    }

    fn md5_entry(entry: &Md5Entry<'t>) -> ToStore<'t> {
        ToStore {
            send_id: 0,
            recv_id: 0,
            flags: 0,
            algorithm: KIND_MD5,
            mac_bytes: DIGEST_BYTES,
            local: entry.local,
            remote: entry.remote,
            key: entry.key,
        }
    }

    fn slot(&self) -> Vec<u8> {
        let address = &self.remote.address;
        let family = if address.len() == 4 { 4 } else { 6 };
        let mut slot = vec![family];
        slot.extend_from_slice(&address[..address.len() - 1]);
        slot.resize(16, 0);
        for side in [&self.remote, &self.local] {
            slot.extend_from_slice(&side.low.to_be_bytes());
            slot.extend_from_slice(&side.high.to_be_bytes());
        }
        slot
    }

    fn back(&self) -> Vec<u8> {
        let (key_bytes, prefix) = (self.key.len() as u8, self.local.prefix as u8);
        let mut back = vec![
            self.flags,
            self.algorithm,
            self.mac_bytes,
            key_bytes,
            prefix,
        ];
        back.extend_from_slice(&self.local.address);
        back.resize(21, 0);
        back.extend_from_slice(self.key);
        back.resize(BACK, 0);
        back
    }
}

/// The prepared form of two tables, neither of which is refused.
pub fn write(tables: &Tables) -> Vec<u8> {
    let keys = tables.keys.iter().map(ToStore::key_entry);
    let md5 = tables.md5.iter().map(ToStore::md5_entry);
    let entries: Vec<ToStore> = keys.chain(md5).collect();

    let mut bytes = Vec::with_capacity(prepared_bytes(entries.len()));
    bytes.extend_from_slice(&(tables.keys.len() as u16).to_be_bytes());
    bytes.extend_from_slice(&(tables.md5.len() as u16).to_be_bytes());
    bytes.extend(entries.iter().map(|entry| entry.send_id));
    bytes.extend(entries.iter().map(|entry| entry.recv_id));
    bytes.extend(entries.iter().map(|entry| entry.remote.prefix as u8));
    bytes.extend(entries.iter().map(|entry| sum(&entry.remote.address)));
    bytes.extend(entries.iter().flat_map(ToStore::slot));
    bytes.extend(entries.iter().flat_map(ToStore::back));
    bytes
}
