//! What a number means, what usually causes it, what to do.

use embankery::Refusal;

/// A number explained.
#[derive(Clone, Copy, Debug, PartialEq, Eq)]
pub struct Explained {
    /// The number.
    pub number: u8,
    /// What it means.
    pub meaning: &'static str,
    /// What usually causes it.
    pub cause: &'static str,
    /// What to do.
    pub remedy: &'static str,
}

/// Numbers that are no refusal of a call, which the wrapper has no words for.
const OTHERS: [(u8, &str); 3] = [
    (0, "accepted, or done"),
    (1, "passed: a bare SYN whose pair no entry matches"),
    (
        38,
        "the recording is cut, or has a record that is unknown, misplaced or too long",
    ),
];

/// Number, usual cause, what to do. Those of document 02's requests that have not landed are not explained yet: the
/// wrapper has no words for them.
const ROWS: &[(u8, &str, &str)] = &[
    (
        0,
        "The segment is signed as the entry for its KeyID says, or the call did what was asked.",
        "Nothing.",
    ),
    (
        1,
        "A peer without keys opens a connection. TCP may go on without TCP-AO.",
        "If this peer should sign, give it an entry: then an unsigned SYN is dropped with 25.",
    ),
    (
        10,
        "The table's file was cut off, for example by a copy that did not end.",
        "Build the table again from its text and compare the lengths.",
    ),
    (
        11,
        "The file is no table, was damaged, or is a key table with a MAC length given as MD5 table.",
        "Look at what the file is; build it again with embankery table build.",
    ),
    (
        12,
        "The table has more than 1,024 entries; a recording's table, more than 64.",
        "Take away entries of keys that are no longer used, or join peers under one prefix.",
    ),
    (
        13,
        "A MAC length outside 4 to 16, a table written for a later version, or a key table given as MD5 table \
         or the other way round.",
        "Check mac-length and algorithm; give the key table with --keys and the MD5 table with --md5.",
    ),
    (
        14,
        "The two ends of a port range are exchanged.",
        "Write the lower port first.",
    ),
    (
        15,
        "An address with bits set behind its prefix, such as 10.0.0.1/8, or a prefix too long for its family.",
        "Write the network's own address (10.0.0.0/8), or leave the prefix out for one address.",
    ),
    (
        16,
        "An empty key, one above 80 bytes, or a key file that holds something else.",
        "Check the key; a key from a file is the file's bytes as they are, with a newline if it ends in one.",
    ),
    (
        17,
        "A new key was given an ID that another key for the same peer already has, or two prefixes overlap.",
        "embankery table check names both entries and a pair that both match. Give the new key IDs of its own; \
         in the MD5 table, let no two entries match one pair.",
    ),
    (
        18,
        "A state that was never opened, or whose bytes are not all there.",
        "Open the connection first; lend the whole state.",
    ),
    (
        19,
        "An IPv4 address beside an IPv6 one; an IPv4-mapped address counts as IPv6.",
        "Give both addresses of the packet as they stand in its IP header.",
    ),
    (
        20,
        "Something that is no TCP segment, or one cut off on the way to the library.",
        "Check that the whole TCP segment is lent, from its ports to the end of its data, and nothing of IP.",
    ),
    (
        21,
        "A peer or a middlebox that writes options badly; damage is dropped with 40 before.",
        "Capture it and look at the options. Where a middlebox rewrites options, take it out of the way.",
    ),
    (
        22,
        "A peer with both TCP-AO and TCP MD5 set for this connection, or a forgery.",
        "Set only one of the two at the peer.",
    ),
    (
        23,
        "A segment that was handed to the wrong connection.",
        "Find the connection by both addresses and both ports before judging.",
    ),
    (
        24,
        "A SYN on a connection that is open already (sent again, or forged), or data before the SYN+ACK.",
        "A few are harmless: TCP sends again. Many from outside are somebody trying to open in the peer's name; \
         in a capture they may be packets in another order than they arrived in.",
    ),
    (
        25,
        "The peer does not sign: its key was taken away, its process started without keys, or the segment is forged.",
        "Check that the peer's configuration has the key for this connection. An end that restarted without keys \
         sends unsigned RSTs; these are rightly dropped.",
    ),
    (
        26,
        "The peer signs under a key that this end does not have: added only there, taken away here too early, \
         or its IDs not exchanged (its send-id must be our recv-id).",
        "Compare the segment's KeyID with the recv-ids of the entries that match. Put the missing entry in at this \
         end first; then let the peer use it (docs/OPERATING.md, changing a key).",
    ),
    (
        27,
        "The two ends have another MAC length for this key; by TCP MD5, an option that is not RFC 2385's.",
        "Give both ends the same mac-length.",
    ),
    (
        28,
        "A sequence number 2^31 or more from the highest seen: a very old or forged segment, or a state that was \
         put back to an old copy.",
        "A few are harmless. If true segments get it, this end's state is far behind: open the connection anew.",
    ),
    (
        29,
        "The keys differ under the same ID, or something the MAC covers changed on the way: addresses (translation), \
         options (a middlebox), data (forgery).",
        "All segments: compare key, algorithm and mac-length at both ends; then options and nat. Only some: capture \
         at both ends and compare; look for a middlebox. From outside, with all else well: somebody guesses.",
    ),
    (
        30,
        "What was given to be signed is no TCP segment.",
        "Hand the whole segment down, with its data offset.",
    ),
    (
        31,
        "The TCP above already put TCP-AO or TCP MD5 in, or wrote its options badly.",
        "Let only this library sign.",
    ),
    (
        32,
        "The options leave no room for the signature (40 bytes in all), or the segment is too long with it.",
        "Leave options out: TCP-AO takes 4 bytes and the MAC, in whole words, TCP MD5 20. Lower the MSS by as much.",
    ),
    (
        33,
        "The segment belongs to another connection.",
        "Sign it with that connection's state.",
    ),
    (
        34,
        "Something else than a bare SYN while opening, or a bare SYN once open.",
        "Sign what the stage asks for.",
    ),
    (
        35,
        "The entry that this connection signs under, or was asked to use, is not in the table (any more).",
        "Put the entry back, or open with or ask for a key that is there. Never take away a key that is in use.",
    ),
    (
        36,
        "A sequence number 2^31 or more from what was signed before, or a SYN that does not carry our ISN.",
        "Check what TCP hands down; an old copy of a state is one cause.",
    ),
    (
        37,
        "The output buffer is too short.",
        "Signing: lend 20 bytes more than the segment has. Preparing: 4, and 129 more for each entry of both tables.",
    ),
    (
        38,
        "The recording's file was cut off, or is no recording. The number beside it is the record's index.",
        "Write it again with embankery record.",
    ),
    (
        40,
        "Damage on the way; or a capture from the sending machine itself, whose network card writes the checksum \
         only after it was captured.",
        "In a capture: embankery desk --set-checksums, or capture at the receiver. On a running line: look for a bad \
         cable, radio link or card; a translator must set the checksum right.",
    ),
    (
        41,
        "The peer opens anew a connection that was not closed here.",
        "Close the old one when TCP says so, then open.",
    ),
    (
        42,
        "Every place in the table of connections is in use.",
        "Close the connections that have ended; 256 is the most.",
    ),
    (
        43,
        "A connection signs under this key or asks its peer for it.",
        "Change the key first (docs/OPERATING.md), or remove it by force and name what follows it.",
    ),
    (
        44,
        "A length that is not the one preparing gave (the room of the buffer, say), bytes that are no prepared table, or \
         an MD5 table lent beside a prepared one. Damage that leaves length and counts right is not noticed.",
        "Prepare the tables again from their own bytes, and give the length that preparing gave.",
    ),
    (
        45,
        "A peer that has both an entry for TCP-AO and one for TCP MD5.",
        "embankery table check names both. Take the MD5 entry away once the peer signs by TCP-AO.",
    ),
    (
        46,
        "The peer signs by TCP-AO, and this end has it in the MD5 table.",
        "Move the peer from the MD5 table to the key table.",
    ),
    (
        47,
        "The peer is in the MD5 table and does not sign at all.",
        "Check the peer's TCP MD5 key for this connection; forged segments get it too.",
    ),
    (
        48,
        "Pieces that are not one segment: more or fewer bytes than announced, too many parts, a header that is not \
         just the header, or another connection's run.",
        "Begin the segment again with its header.",
    ),
    (
        49,
        "A record of a connection that was cut off, damaged or written in another layout.",
        "Take another copy, or open the connection anew.",
    ),
];

/// A number explained, if it is one.
pub fn explain(number: u8) -> Option<Explained> {
    let (_, cause, remedy) = ROWS.iter().find(|(row, _, _)| *row == number)?;
    Some(Explained {
        number,
        meaning: meaning(number)?,
        cause,
        remedy,
    })
}

/// Every number that is given.
pub fn all() -> impl Iterator<Item = Explained> {
    ROWS.iter().filter_map(|(number, _, _)| explain(*number))
}

fn meaning(number: u8) -> Option<&'static str> {
    let other = OTHERS.iter().find(|(other, _)| *other == number);
    let other = other.map(|(_, meaning)| *meaning);
    other.or_else(|| Refusal::meaning_of(number))
}

#[cfg(test)]
mod tests {
    use super::*;

    /// Every number that a call may give is explained, in the wrapper's words, and no other but 0, 1 and 38.
    #[test]
    fn every_number() {
        for number in 0..=255 {
            let known = matches!(number, 0 | 1 | 38) || Refusal::meaning_of(number).is_some();
            let explained = explain(number);
            assert_eq!(explained.is_some(), known, "{number}");
            if let Some(explained) = explained {
                assert!(Refusal::meaning_of(number).is_none_or(|words| words == explained.meaning));
                assert!(explained.cause.ends_with('.') && explained.remedy.ends_with('.'));
            }
        }
        assert!(ROWS.windows(2).all(|rows| rows[0].0 < rows[1].0));
    }
}
