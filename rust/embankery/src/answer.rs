//! What the calls answer: a verdict, or a refusal with its number. Document 01, "Numbers given back", and
//! document 02.

use std::fmt;

/// What a segment gets.
///
/// ```
/// use embankery::{Refusal, Verdict};
///
/// let verdict = Verdict::Drop(Refusal::MacDiffers);
/// assert_eq!(verdict.to_string(), "dropped with 29: the MAC, or TCP MD5's digest, differs");
/// ```
#[derive(Clone, Copy, Debug, PartialEq, Eq, Hash)]
#[must_use = "a segment goes on to TCP only if the verdict says so"]
pub enum Verdict {
    /// Its MAC bytes, or its digest, are what the rules give: give it to TCP.
    Accept {
        /// The upper half of the segment's 64-bit position; by TCP MD5 always 0.
        extension: u32,
    },
    /// A bare SYN whose pair no entry of either table matches: without TCP-AO or, with
    /// [`UnknownKeyId::Pass`](crate::UnknownKeyId::Pass), with it. TCP may go on without TCP-AO.
    Pass,
    /// The segment must not reach TCP.
    Drop(Refusal),
}

impl fmt::Display for Verdict {
    fn fmt(&self, f: &mut fmt::Formatter) -> fmt::Result {
        match self {
            Verdict::Accept { extension } => write!(f, "accepted with extension {extension}"),
            Verdict::Pass => f.write_str("passed"),
            Verdict::Drop(refusal) => write!(f, "dropped with {refusal}"),
        }
    }
}

/// Which of the two tables an entry is in.
#[derive(Clone, Copy, Debug, PartialEq, Eq, Hash)]
pub enum Table {
    /// The key table: [`KeyTable`](crate::KeyTable).
    Keys,
    /// The table of TCP MD5's keys: [`Md5Table`](crate::Md5Table).
    Md5,
}

/// Each number once: its name here and its meaning. Those of `table` say at which entry of which table.
macro_rules! refusals {
    (
        table { $($at:literal $entry_fault:ident $entry_words:literal)* }
        other { $($number:literal $fault:ident $words:literal)* }
    ) => {
        /// Why a call refused, one case for each number of documents 01 and 02.
        ///
        /// It is shown as its number and what that means:
        ///
        /// ```
        /// use embankery::{KeyTable, Table};
        ///
        /// let refusal = KeyTable::from_bytes([4, 1, 1]).unwrap_err();
        /// assert_eq!(refusal.number(), 10);
        /// assert_eq!(refusal.entry(), Some((Table::Keys, 0)));
        /// assert_eq!(refusal.to_string(), "10 at entry 0: the entry is cut off before its end");
        /// ```
        #[derive(Clone, Copy, Debug, PartialEq, Eq, Hash)]
        #[non_exhaustive]
        pub enum Refusal {
            $(
                #[doc = concat!($at, ": ", $entry_words, ".")]
                $entry_fault {
                    /// The table that is refused.
                    table: Table,
                    /// The entry's index in it, from 0.
                    entry: u32,
                },
            )*
            $(
                #[doc = concat!($number, ": ", $words, ".")]
                $fault,
            )*
            /// A number that this wrapper does not know; the archive it was written for gives none.
            Other(u8),
        }

        impl Refusal {
            /// The refusal of an answer's number and, of a table, its entry.
            pub(crate) fn new(number: u8, table: Table, entry: u32) -> Refusal {
                match number {
                    $($at => Refusal::$entry_fault { table, entry },)*
                    $($number => Refusal::$fault,)*
                    other => Refusal::Other(other),
                }
            }

            /// Document 01's or 02's number.
            pub fn number(&self) -> u8 {
                match *self {
                    $(Refusal::$entry_fault { .. } => $at,)*
                    $(Refusal::$fault => $number,)*
                    Refusal::Other(number) => number,
                }
            }

            /// The entry that is refused, beside 10 to 17 and 45: its table and its index there.
            pub fn entry(&self) -> Option<(Table, u32)> {
                match *self {
                    $(Refusal::$entry_fault { table, entry } => Some((table, entry)),)*
                    _ => None,
                }
            }

            /// What the number means, if it is one that a call may refuse with.
            ///
            /// ```
            /// assert_eq!(embankery::Refusal::meaning_of(40), Some("the segment's checksum is wrong"));
            /// assert_eq!(embankery::Refusal::meaning_of(9), None);
            /// ```
            pub fn meaning_of(number: u8) -> Option<&'static str> {
                match Refusal::new(number, Table::Keys, 0) {
                    Refusal::Other(_) => None,
                    refusal => Some(refusal.meaning()),
                }
            }

            /// What the number means.
            pub fn meaning(&self) -> &'static str {
                match self {
                    $(Refusal::$entry_fault { .. } => $entry_words,)*
                    $(Refusal::$fault => $words,)*
                    Refusal::Other(_) => "a number that this wrapper does not know",
                }
            }
        }
    };
}

refusals! {
    table {
        10 EntryCut "the entry is cut off before its end"
        11 UnknownKind "the entry's kind is none of 4, 5 (IPv4), 6 and 7 (IPv6); in the MD5 table, neither 4 nor 6"
        12 TooManyEntries "a 1,025th entry begins"
        13 NotListed "the entry's flags or algorithm are not listed, or its MAC's length is not 4 to 16; in the MD5 table, an ID is not 0"
        14 PortRange "a low port is above its high port"
        15 Prefix "a prefix length is above 32 (IPv4) or 128 (IPv6), or address bits are set past it"
        16 Key "the key's length is 0 or above 80, or its padding is not zero"
        17 IdClash "a socket pair exists that this entry and an earlier one both match, and they share SendID or RecvID"
        45 TwoWays "a socket pair exists that this entry of the MD5 table and one of the key table both match"
    }
    other {
        18 State "the state is not 177 bytes long, or its family is neither 4 (IPv4) nor 6 (IPv6)"
        19 AddressSizes "the addresses are not both 4 or both 16 bytes long"
        20 Size "the segment's length or data offset is bad"
        21 Options "the segment's options are malformed"
        22 OptionsConflict "the segment has two TCP-AO, two TCP MD5, or both together"
        23 OtherPair "the segment's addresses and ports are not the connection's"
        24 Stage "the segment is the wrong one for the connection's stage"
        25 OptionMissing "the segment has no TCP-AO"
        26 UnknownKeyId "no entry that matches the pair has the segment's KeyID as its RecvID; by TCP MD5, none matches the pair"
        27 MacLength "the MAC's length is not the entry's; by TCP MD5, the option's is not 18"
        28 NoPosition "the sequence number has no position"
        29 MacDiffers "the MAC, or TCP MD5's digest, differs"
        30 SignSize "signing: the segment's length or data offset is bad"
        31 SignOptions "signing: the options are malformed, or TCP-AO or TCP MD5 is there already"
        32 SignRoom "signing: the data offset would be above 15, or the result longer than 65,535 bytes"
        33 SignPorts "signing: the segment's ports are not the connection's"
        34 SignStage "signing: the segment is the wrong one for the connection's stage"
        35 NoEntry "no matching entry has the outgoing SendID (opening, signing) or the RecvID to ask; by TCP MD5, none matches, or asking"
        36 SignPosition "signing: the sequence number has no position, or a SYN's (bare or with ACK) is not our ISN"
        37 OutputTooShort "signing, preparing: the output is too short"
        40 Checksum "the segment's checksum is wrong"
        44 Prepared "the prepared table's length is not that of its counts, a count is above 1,024, or a second table stands beside it"
        46 WrongWay "TCP MD5 is due, and the segment has TCP-AO"
        47 Md5Missing "TCP MD5 is due, and the segment has neither that nor TCP-AO"
    }
}

impl fmt::Display for Refusal {
    fn fmt(&self, f: &mut fmt::Formatter) -> fmt::Result {
        write!(f, "{}", self.number())?;
        match self.entry() {
            Some((Table::Keys, entry)) => write!(f, " at entry {entry}")?,
            Some((Table::Md5, entry)) => write!(f, " at MD5 entry {entry}")?,
            None => {}
        }
        write!(f, ": {}", self.meaning())
    }
}

impl std::error::Error for Refusal {}

/// A call's answer: the number in bits 0 to 7, in bits 8 to 15 whether an entry is the MD5 table's, a value in
/// bits 32 to 63.
#[derive(Clone, Copy)]
pub(crate) struct Answer(pub u64);

impl Answer {
    fn number(self) -> u8 {
        self.0 as u8
    }

    fn value(self) -> u32 {
        (self.0 >> 32) as u32
    }

    fn refusal(self) -> Refusal {
        let table = match self.0 >> 8 & 255 {
            0 => Table::Keys,
            _ => Table::Md5,
        };
        Refusal::new(self.number(), table, self.value())
    }

    /// Of a call that is done or refused.
    pub fn done(self) -> Result<u32, Refusal> {
        match self.number() {
            0 => Ok(self.value()),
            _ => Err(self.refusal()),
        }
    }

    /// Of a call that judges.
    pub fn verdict(self) -> Verdict {
        match (self.number(), self.value()) {
            (0, extension) => Verdict::Accept { extension },
            (1, _) => Verdict::Pass,
            _ => Verdict::Drop(self.refusal()),
        }
    }
}

#[cfg(test)]
mod tests {
    use super::*;

    /// Every number of documents 01 and 02 has a case of its own, which says that number and its meaning,
    /// as README.md does.
    #[test]
    fn every_number() {
        let mut meanings = Vec::new();
        for number in (10..=37).chain([40, 44, 45, 46, 47]) {
            let of_table = number <= 17 || number == 45;
            for (table, place) in [
                (Table::Keys, " at entry 3"),
                (Table::Md5, " at MD5 entry 3"),
            ] {
                let refusal = Refusal::new(number, table, 3);
                assert_eq!(refusal.entry(), of_table.then_some((table, 3)));
                let place = if of_table { place } else { "" };
                let shown = format!("{number}{place}: {}", refusal.meaning());
                assert_eq!(refusal.to_string(), shown);
            }
            let refusal = Refusal::new(number, Table::Keys, 3);
            assert_ne!(refusal, Refusal::Other(number));
            assert_eq!(refusal.number(), number);
            let error: &dyn std::error::Error = &refusal;
            let place = if of_table { " at entry 3" } else { "" };
            let meaning = refusal.meaning();
            assert_eq!(error.to_string(), format!("{number}{place}: {meaning}"));
            assert!(!meanings.contains(&meaning));
            meanings.push(meaning);
            let readme = include_str!("../../../README.md");
            assert!(readme.contains(&format!("\n| {number} | {meaning} |\n")));
        }
        for number in (2..10).chain(38..40).chain(41..44).chain(48..=255) {
            let refusal = Refusal::new(number, Table::Keys, 3);
            assert_eq!(refusal, Refusal::Other(number));
            assert_eq!(refusal.number(), number);
        }
    }

    #[test]
    fn answers() {
        assert_eq!(Answer(5 << 32).done(), Ok(5));
        let clash = |table| Refusal::IdClash { table, entry: 63 };
        let (keys, md5) = (clash(Table::Keys), clash(Table::Md5));
        assert_eq!(Answer(63 << 32 | 17).done(), Err(keys));
        assert_eq!(Answer(63 << 32 | 17).verdict(), Verdict::Drop(keys));
        assert_eq!(Answer(63 << 32 | 1 << 8 | 17).done(), Err(md5));
        assert_eq!(Answer(63 << 32 | 1 << 8 | 17).verdict(), Verdict::Drop(md5));
        let extension = u32::MAX;
        let accepted = Verdict::Accept { extension };
        assert_eq!(Answer(u64::from(extension) << 32).verdict(), accepted);
        assert_eq!(Answer(1).verdict(), Verdict::Pass);
        assert_eq!(Answer(29).verdict(), Verdict::Drop(Refusal::MacDiffers));
    }
}
