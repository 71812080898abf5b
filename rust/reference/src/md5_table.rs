//! The table of MD5 keys (Ticket 9), and both tables together, as bytes or prepared (Ticket 8).
//!
//! It has document 01's entry bytes, of kinds 4 and 6 alone, with flags 0, algorithm 19, SendID 0 and RecvID
//! 0: "a table of its own in a form that you document, under refusals 10 to 17 (17 if two entries match one
//! pair)".

use crate::answer::Refusal;
use crate::prepared;
use crate::segment::KIND_MD5;
use crate::table::{
    self, address_bytes, read_key, read_sides, test_sides, walk, Entry, Pair, Side, MOST_ENTRIES,
};

/// An entry of an MD5 table that was found well formed.
#[derive(Clone, Copy, Debug, PartialEq, Eq)]
pub struct Md5Entry<'a> {
    /// Our side.
    pub local: Side,
    /// The peer's side.
    pub remote: Side,
    /// The key, 1 to 80 bytes.
    pub key: &'a [u8],
}

impl Md5Entry<'_> {
    /// "An entry matches a socket pair of its family when both ports lie in the ranges and, on each
    /// side, the first prefix-length bits agree."
    pub fn matches(&self, pair: &Pair) -> bool {
        let family = self.local.address.len();
        pair.local.len() == family
            && pair.remote.len() == family
            && self.local.matches(pair.local, pair.local_port)
            && self.remote.matches(pair.remote, pair.remote_port)
    }

    /// "17 if two entries match one pair".
    fn clashes(&self, other: &Md5Entry) -> bool {
        self.local.address.len() == other.local.address.len()
            && self.local.overlaps(&other.local)
            && self.remote.overlaps(&other.remote)
    }

    /// Whether a socket pair exists that this entry and a key table's both match.
    fn overlaps(&self, key: &Entry) -> bool {
        let same_family = self.local.address.len() == key.local.address.len();
        same_family && self.local.overlaps(&key.local) && self.remote.overlaps(&key.remote)
    }
}

/// Reads an MD5 table, or says what the first refused entry is refused with.
pub fn read(table: &[u8]) -> Result<Vec<Md5Entry<'_>>, Refusal> {
    walk(table, MOST_ENTRIES, body_bytes, read_body, |one, other| {
        one.clashes(other)
    })
    .map_err(|(number, index)| Refusal {
        number,
        index,
        in_md5: true,
    })
}

/// 11 for other kinds than 4 and 6.
fn body_bytes(kind: u8) -> Option<usize> {
    match kind {
        4 | 6 => table::body_bytes(kind),
        _ => None,
    }
}

/// Reads one body, or gives 13, 14, 15 or 16.
fn read_body(kind: u8, body: &[u8]) -> Result<Md5Entry<'_>, u8> {
    let (local, remote, key_part) = read_sides(address_bytes(kind), body);

    // 13: flags 0, algorithm 19, SendID 0, RecvID 0, and nothing else.
    if body[..4] != [0, KIND_MD5, 0, 0] {
        return Err(13);
    }

    // 14 and 15.
    test_sides(&local, &remote)?;

    // 16.
    let key = read_key(key_part[0] as usize, &key_part[1..])?;

    Ok(Md5Entry { local, remote, key })
}

/// The entry that matches the pair; by 17 there is at most one, but in a prepared table: there the first.
pub fn matching<'t>(entries: &[Md5Entry<'t>], pair: &Pair) -> Option<Md5Entry<'t>> {
    entries.iter().find(|entry| entry.matches(pair)).copied()
}

/// The form of tables that are lent as their own bytes; any other is a prepared table.
pub const FORM_BYTES: u8 = 0;

/// Both tables as they are lent.
#[derive(Clone, Copy, Debug, PartialEq, Eq)]
pub struct Lent<'t> {
    /// READINGS 23: "Each call takes the tables' form: 0 their bytes, any other value a prepared table."
    pub form: u8,
    /// The key table's bytes, or the prepared table, which has both.
    pub keys: &'t [u8],
    /// The MD5 table's bytes.
    pub md5: &'t [u8],
}

/// Both tables, neither of which is refused.
#[derive(Clone, Debug, PartialEq, Eq)]
pub struct Tables<'t> {
    /// The key table's entries.
    pub keys: Vec<Entry<'t>>,
    /// The MD5 table's entries.
    pub md5: Vec<Md5Entry<'t>>,
}

impl<'t> Lent<'t> {
    /// As their own bytes.
    pub fn of_bytes(keys: &'t [u8], md5: &'t [u8]) -> Lent<'t> {
        Lent {
            form: FORM_BYTES,
            keys,
            md5,
        }
    }

    /// Reads both tables, in whichever form.
    pub fn read(&self) -> Result<Tables<'t>, Refusal> {
        if self.form == FORM_BYTES {
            return self.read_bytes();
        }

        // 44: "With a prepared table `md5` must be empty: a second buffer that is not is refused with 44, since it
        // would not be looked at".
        if !self.md5.is_empty() {
            return Err(Refusal::of(44));
        }
        prepared::read(self.keys)
    }

    /// Reads both tables from their bytes: 10 to 17 of the key table, then of the MD5 table, then 45.
    fn read_bytes(&self) -> Result<Tables<'t>, Refusal> {
        let keys = table::read(self.keys)?;
        let md5 = read(self.md5)?;

        // 45: "Tables that both match some pair are refused with 45 at the first such MD5 entry, behind the
        // key table's and then the MD5 table's refusals".
        let both = |entry: &Md5Entry| keys.iter().any(|key| entry.overlaps(key));
        if let Some(index) = md5.iter().position(both) {
            return Err(Refusal {
                number: 45,
                index: index as u32,
                in_md5: true,
            });
        }
        Ok(Tables { keys, md5 })
    }
}
