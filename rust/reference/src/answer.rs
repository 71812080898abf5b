//! "Numbers given back".

/// One of document 01's or 02's numbers.
///
/// "table entries are taken one after another, each through to 17 against those before it, with the
/// entry's index from 0."
#[derive(Clone, Copy, Debug, PartialEq, Eq)]
pub struct Refusal {
    /// 10 to 47.
    pub number: u8,
    /// Beside 10 to 17 and 45 the entry's index from 0; beside all others 0.
    pub index: u32,
    /// Beside 10 to 17 and 45 whether that entry is the MD5 table's; beside 45 it always is.
    pub in_md5: bool,
}

impl Refusal {
    /// A number that says nothing of an entry.
    pub fn of(number: u8) -> Refusal {
        Refusal {
            number,
            index: 0,
            in_md5: false,
        }
    }
}

/// "A verdict is accept with its extension, pass, or drop with a number."
#[derive(Clone, Copy, Debug, PartialEq, Eq)]
pub enum Verdict {
    /// Accepted, with the extension that the MAC was checked with.
    Accept(u32),
    /// Not ours to judge.
    Pass,
    /// Dropped.
    Drop(Refusal),
}
