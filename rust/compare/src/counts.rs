//! What a run has met: each number of each call, and situations that no number tells.

use crate::md5::ByMd5;
use crate::numbers::{named, possible, ALL, OF_MD5};
use crate::translation::{Rewritten, Translation};
use crate::unknown::{Matched, Unknown};
use kit::prepared::{mark, Field, Field::*};
use kit::segment::summed;
use kit::Function::{Ask, Judge, JudgeSyn, OpenActive, OpenPassive, Sign};
use kit::{Call, Function, Outcome};
use reference::md5_table::{Lent, Tables};
use reference::segment::{read_options, AoOption, Header};
use reference::state::{State, COUNTED};
use reference::table::{by_recv_id, by_send_id, Algorithm, Entry, Pair};

/// How often each number and each situation must be met.
pub const LEAST: u64 = 100;

pub struct Counts {
    numbers: [[u64; ALL.len() + 1]; Function::ALL.len()],
    situations: [u64; SITUATIONS.len()],
    /// How often each call gave with prepared tables what it gave with their bytes.
    same_prepared: [u64; Function::ALL.len()],
}

impl Default for Counts {
    fn default() -> Counts {
        Counts {
            numbers: [[0; ALL.len() + 1]; Function::ALL.len()],
            situations: [0; SITUATIONS.len()],
            same_prepared: [0; Function::ALL.len()],
        }
    }
}

/// A call and what came of it.
struct Seen<'a> {
    call: &'a Call,
    outcome: &'a Outcome,
    /// The state before it; without one, an empty one.
    before: State,
    /// The tables, in whichever form, if the call did not refuse them.
    tables: Option<Tables<'a>>,
    /// Of a segment that was accepted on a connection.
    accepted: Option<Accepted>,
    /// Of a bare SYN with TCP-AO whose KeyID has no entry for its pair.
    unknown: Option<Unknown>,
    /// Of a segment that the other end signed and in which something was translated on the way.
    rewritten: Option<Over>,
    /// Of a call where MD5 is due, or that has MD5 entries.
    by_md5: ByMd5,
}

/// What was translated on the way of a segment, and the entry by which it was accepted or dropped with 29.
struct Over {
    way: Translation,
    family: u8,
    algorithm: Algorithm,
    covers_options: bool,
    local_nat: bool,
    remote_nat: bool,
}

impl Over {
    fn of(
        call: &Call,
        way: Option<Translation>,
        outcome: &Outcome,
        keys: &[Entry],
    ) -> Option<Over> {
        let way = way.filter(|way| *way != Translation::NOTHING)?;
        if !matches!(outcome.number(), 0 | 29) {
            return None;
        }
        let header = Header::read(&call.segment)?;
        let ao = read_options(&call.segment, &header)?.ao?;
        let pair = Pair {
            local: &call.destination,
            remote: &call.source,
            local_port: header.destination_port,
            remote_port: header.source_port,
        };
        let entry = by_recv_id(keys, &pair, ao.key_id)?;
        Some(Over {
            way,
            family: if call.source.len() == 4 { 4 } else { 6 },
            algorithm: entry.algorithm,
            covers_options: entry.covers_options,
            local_nat: entry.local_nat,
            remote_nat: entry.remote_nat,
        })
    }
}

struct Accepted {
    position: u64,
    kind: u8,
    mac_bytes: usize,
    algorithm: Algorithm,
    key_bytes: usize,
    flags: u8,
    covers_options: bool,
    key_changed: bool,
    asks: Asked,
    /// Whether a later entry that matches the pair has the same RecvID.
    others: bool,
}

/// The checksum of a segment that was dropped with 40.
struct Checksum {
    field: u16,
    right: u16,
    odd: bool,
}

impl Checksum {
    /// Whether one bit of the field is wrong.
    fn one_bit(&self) -> bool {
        (self.field ^ self.right).is_power_of_two()
    }
}

/// Which entries have the SendID that an accepted segment asks for.
#[derive(PartialEq)]
enum Asked {
    ThisPair,
    OthersOnly,
    NoEntry,
}

type Situation = (&'static str, fn(&Seen) -> bool);

const SITUATIONS: [Situation; 275] = [
    ("accepted at the reference: repeated", |seen| {
        seen.open(|a, reference| a.position == reference)
    }),
    ("accepted ahead of the reference", |seen| {
        seen.open(|a, reference| a.position > reference)
    }),
    ("accepted behind the reference", |seen| {
        seen.open(|a, reference| a.position < reference)
    }),
    ("accepted ahead, one turn of 2^32 on", |seen| {
        seen.open(|a, reference| a.position >> 32 > reference >> 32)
    }),
    ("accepted behind, one turn of 2^32 back", |seen| {
        seen.open(|a, reference| a.position >> 32 < reference >> 32)
    }),
    ("accepted 2^31 - 1 from the reference", |seen| {
        seen.open(|a, reference| a.position.abs_diff(reference) == (1 << 31) - 1)
    }),
    ("28 at 2^31 from the reference", |seen| {
        seen.drops(28) && seen.half_a_turn_away()
    }),
    ("28 for a position below 0", |seen| {
        seen.drops(28) && seen.before.arriving_reference < 1 << 31 && !seen.half_a_turn_away()
    }),
    ("28 for a position from 2^64 on", |seen| {
        let near_the_end = seen.before.arriving_reference > u64::MAX - (1 << 31);
        seen.drops(28) && near_the_end && !seen.half_a_turn_away()
    }),
    ("accepted, the outgoing key changes", |seen| {
        seen.accepts(|a| a.key_changed)
    }),
    ("accepted, asks for a key that only others have", |seen| {
        seen.accepts(|a| a.asks == Asked::OthersOnly)
    }),
    ("accepted, asks for a key that none has", |seen| {
        seen.accepts(|a| a.asks == Asked::NoEntry)
    }),
    ("accepted, IPv4, algorithm 1, options covered", |seen| {
        seen.way(4, Algorithm::HmacSha1, true)
    }),
    ("accepted, IPv4, algorithm 1, options left out", |seen| {
        seen.way(4, Algorithm::HmacSha1, false)
    }),
    ("accepted, IPv4, algorithm 2, options covered", |seen| {
        seen.way(4, Algorithm::AesCmac, true)
    }),
    ("accepted, IPv4, algorithm 2, options left out", |seen| {
        seen.way(4, Algorithm::AesCmac, false)
    }),
    ("accepted, IPv6, algorithm 1, options covered", |seen| {
        seen.way(6, Algorithm::HmacSha1, true)
    }),
    ("accepted, IPv6, algorithm 1, options left out", |seen| {
        seen.way(6, Algorithm::HmacSha1, false)
    }),
    ("accepted, IPv6, algorithm 2, options covered", |seen| {
        seen.way(6, Algorithm::AesCmac, true)
    }),
    ("accepted, IPv6, algorithm 2, options left out", |seen| {
        seen.way(6, Algorithm::AesCmac, false)
    }),
    ("accepted, IPv4, algorithm 3, options covered", |seen| {
        seen.way(4, Algorithm::HmacSha256, true)
    }),
    ("accepted, IPv4, algorithm 3, options left out", |seen| {
        seen.way(4, Algorithm::HmacSha256, false)
    }),
    ("accepted, IPv6, algorithm 3, options covered", |seen| {
        seen.way(6, Algorithm::HmacSha256, true)
    }),
    ("accepted, IPv6, algorithm 3, options left out", |seen| {
        seen.way(6, Algorithm::HmacSha256, false)
    }),
    ("accepted, algorithm 3, a key of 16 bytes", |seen| {
        seen.accepts(|a| a.algorithm == Algorithm::HmacSha256 && a.key_bytes == 16)
    }),
    (
        "accepted, algorithm 3, a key of more than a block",
        |seen| seen.accepts(|a| a.algorithm == Algorithm::HmacSha256 && a.key_bytes > 64),
    ),
    ("accepted, algorithm 3, a MAC of 16 bytes", |seen| {
        seen.accepts(|a| a.algorithm == Algorithm::HmacSha256 && a.mac_bytes == 16)
    }),
    ("accepted while opening, counts not 0", |seen| {
        seen.accepted.is_some() && !seen.before.is_open() && seen.before.accepted != 0
    }),
    ("accepted, the count at its stop", |seen| {
        seen.open(|_, _| seen.before.accepted == u64::MAX)
    }),
    ("dropped, the count at its stop", |seen| {
        let mut counts = COUNTED.iter().zip(seen.before.drops);
        counts.any(|(number, count)| seen.drops(*number) && count == u64::MAX)
    }),
    ("40, the count at its stop", |seen| {
        let at_stop = seen.before.drops.last() == Some(&u64::MAX);
        seen.drops(40) && at_stop
    }),
    ("40 while opening", |seen| {
        let opening = seen.call.function == Function::Judge && !seen.before.is_open();
        opening && seen.outcome.number() == 40
    }),
    ("judge, 40 by one bit of the checksum", |seen| {
        seen.summed(Judge, |c| c.one_bit())
    }),
    ("judge_syn, 40 by one bit of the checksum", |seen| {
        seen.summed(JudgeSyn, |c| c.one_bit())
    }),
    ("open_passive, 40 by one bit of the checksum", |seen| {
        seen.summed(OpenPassive, |c| c.one_bit())
    }),
    ("judge, 40 of 0000", |seen| {
        seen.summed(Judge, |c| c.field == 0)
    }),
    ("judge_syn, 40 of 0000", |seen| {
        seen.summed(JudgeSyn, |c| c.field == 0)
    }),
    ("open_passive, 40 of 0000", |seen| {
        seen.summed(OpenPassive, |c| c.field == 0)
    }),
    ("judge, 40 of FFFF", |seen| {
        seen.summed(Judge, |c| c.field == 0xffff)
    }),
    ("judge, 40 by one: a carry", |seen| {
        seen.summed(Judge, |c| c.field.abs_diff(c.right) == 1)
    }),
    ("judge, 40 of an odd length", |seen| {
        seen.summed(Judge, |c| c.odd)
    }),
    ("judge, 40 of an even length", |seen| {
        seen.summed(Judge, |c| !c.odd)
    }),
    ("40 beside malformed options", |seen| {
        let malformed = |header: Header| read_options(&seen.call.segment, &header).is_none();
        let header = Header::read(&seen.call.segment);
        seen.outcome.number() == 40 && header.is_some_and(malformed)
    }),
    (
        "judge, 40 with addresses that are not the state's",
        |seen| seen.summed(Judge, |_| seen.other_addresses()),
    ),
    (
        "judge, 23 with addresses that are not the state's",
        |seen| seen.drops(23) && seen.other_addresses(),
    ),
    ("accepted, 0000 where FFFF would do", |seen| {
        seen.accepted.is_some() && seen.field() == Some(0)
    }),
    ("accepted, FFFF where 0000 would do", |seen| {
        seen.accepted.is_some() && seen.field() == Some(0xffff)
    }),
    ("accepted, an odd length", |seen| {
        seen.accepted.is_some() && seen.call.segment.len() % 2 == 1
    }),
    ("accepted, an even length", |seen| {
        seen.accepted.is_some() && seen.call.segment.len() % 2 == 0
    }),
    ("signed, the checksum 0000", |seen| {
        seen.signed() && seen.outcome.out[16..18] == [0, 0]
    }),
    ("signed, an odd length, IPv4", |seen| seen.signed_odd(4)),
    ("signed, an odd length, IPv6", |seen| seen.signed_odd(6)),
    ("40, 65,519 bytes or more", |seen| {
        seen.outcome.number() == 40 && seen.call.segment.len() >= 65_519
    }),
    ("accepted or signed, 65,519 bytes or more", |seen| {
        seen.outcome.number() == 0 && seen.call.segment.len() >= 65_519
    }),
    ("64 entries, not refused", |seen| seen.keys().len() == 64),
    (
        "judge_syn, unknown KeyID, setting pass, matched by exact ranges",
        |seen| seen.unknown(JudgeSyn, true, Matched::Exactly),
    ),
    (
        "judge_syn, unknown KeyID, setting pass, matched by wide ranges",
        |seen| seen.unknown(JudgeSyn, true, Matched::Widely),
    ),
    (
        "judge_syn, unknown KeyID, setting pass, no entry matches",
        |seen| seen.unknown(JudgeSyn, true, Matched::None),
    ),
    (
        "judge_syn, unknown KeyID, setting drop, matched by exact ranges",
        |seen| seen.unknown(JudgeSyn, false, Matched::Exactly),
    ),
    (
        "judge_syn, unknown KeyID, setting drop, matched by wide ranges",
        |seen| seen.unknown(JudgeSyn, false, Matched::Widely),
    ),
    (
        "judge_syn, unknown KeyID, setting drop, no entry matches",
        |seen| seen.unknown(JudgeSyn, false, Matched::None),
    ),
    ("judge_syn, KeyID one off, setting pass", |seen| {
        seen.one_off(JudgeSyn)
    }),
    (
        "open_passive, unknown KeyID, setting pass, matched by exact ranges",
        |seen| seen.unknown(OpenPassive, true, Matched::Exactly),
    ),
    (
        "open_passive, unknown KeyID, setting pass, matched by wide ranges",
        |seen| seen.unknown(OpenPassive, true, Matched::Widely),
    ),
    (
        "open_passive, unknown KeyID, setting pass, no entry matches",
        |seen| seen.unknown(OpenPassive, true, Matched::None),
    ),
    (
        "open_passive, unknown KeyID, setting drop, matched by exact ranges",
        |seen| seen.unknown(OpenPassive, false, Matched::Exactly),
    ),
    (
        "open_passive, unknown KeyID, setting drop, matched by wide ranges",
        |seen| seen.unknown(OpenPassive, false, Matched::Widely),
    ),
    (
        "open_passive, unknown KeyID, setting drop, no entry matches",
        |seen| seen.unknown(OpenPassive, false, Matched::None),
    ),
    ("open_passive, KeyID one off, setting pass", |seen| {
        seen.one_off(OpenPassive)
    }),
    (
        "open_passive, passed over a state that is not empty",
        |seen| {
            let passed = seen.call.function == OpenPassive && seen.outcome.number() == 1;
            passed && seen.before != State::EMPTY
        },
    ),
    ("accepted under an entry of kind 4", accepted_kind::<4>),
    ("accepted under an entry of kind 5", accepted_kind::<5>),
    ("accepted under an entry of kind 6", accepted_kind::<6>),
    ("accepted under an entry of kind 7", accepted_kind::<7>),
    ("accepted, a MAC of 4 bytes", accepted_mac::<4>),
    ("accepted, a MAC of 5 bytes", accepted_mac::<5>),
    ("accepted, a MAC of 6 bytes", accepted_mac::<6>),
    ("accepted, a MAC of 7 bytes", accepted_mac::<7>),
    ("accepted, a MAC of 8 bytes", accepted_mac::<8>),
    ("accepted, a MAC of 9 bytes", accepted_mac::<9>),
    ("accepted, a MAC of 10 bytes", accepted_mac::<10>),
    ("accepted, a MAC of 11 bytes", accepted_mac::<11>),
    ("accepted, a MAC of 12 bytes", accepted_mac::<12>),
    ("accepted, a MAC of 13 bytes", accepted_mac::<13>),
    ("accepted, a MAC of 14 bytes", accepted_mac::<14>),
    ("accepted, a MAC of 15 bytes", accepted_mac::<15>),
    ("accepted, a MAC of 16 bytes", accepted_mac::<16>),
    ("signed, a MAC of 4 bytes", signed_mac::<4>),
    ("signed, a MAC of 5 bytes", signed_mac::<5>),
    ("signed, a MAC of 6 bytes", signed_mac::<6>),
    ("signed, a MAC of 7 bytes", signed_mac::<7>),
    ("signed, a MAC of 8 bytes", signed_mac::<8>),
    ("signed, a MAC of 9 bytes", signed_mac::<9>),
    ("signed, a MAC of 10 bytes", signed_mac::<10>),
    ("signed, a MAC of 11 bytes", signed_mac::<11>),
    ("signed, a MAC of 12 bytes", signed_mac::<12>),
    ("signed, a MAC of 13 bytes", signed_mac::<13>),
    ("signed, a MAC of 14 bytes", signed_mac::<14>),
    ("signed, a MAC of 15 bytes", signed_mac::<15>),
    ("signed, a MAC of 16 bytes", signed_mac::<16>),
    ("27 of a 12-byte MAC under an entry of another", |seen| {
        let twelve = |ao: &AoOption| ao.length == 16;
        seen.drops(27) && seen.ao().as_ref().is_some_and(twelve)
    }),
    (
        "32, the data offset at most 15 but for the padding",
        |seen| seen.too_large(|header, key, _| header.data_offset + (4 + key.mac_bytes) / 4 <= 15),
    ),
    (
        "32, the result at most 65,535 bytes but for the padding",
        |seen| {
            seen.too_large(|header, key, bytes| {
                let fits = header.data_offset + (7 + key.mac_bytes) / 4 <= 15;
                fits && bytes + 4 + key.mac_bytes <= 65_535
            })
        },
    ),
    ("35 of a segment too large for a 12-byte MAC", |seen| {
        let large = |header: Header| header.data_offset > 11 || seen.call.segment.len() > 65_519;
        let refused = seen.call.function == Function::Sign && seen.outcome.number() == 35;
        refused && Header::read(&seen.call.segment).is_some_and(large)
    }),
    ("37, room for TCP-AO and not for its padding", |seen| {
        let room = seen.call.out.len();
        let short = |key: &Entry| room >= seen.call.segment.len() + 4 + key.mac_bytes;
        seen.outcome.number() == 37 && seen.with_key(short)
    }),
    ("signed, padded, options behind", |seen| {
        let options = Header::read(&seen.call.segment).is_some_and(|h| h.data_offset > 5);
        seen.signed() && options && seen.with_key(|key| key.mac_bytes % 4 != 0)
    }),
    ("signed, padded, options left out of the MAC", |seen| {
        seen.signed() && seen.with_key(|key| key.mac_bytes % 4 != 0 && !key.covers_options)
    }),
    ("13 for flags above 7", |seen| seen.flags_refused()),
    ("signed under flags 0", signed_flags::<0>),
    ("signed under flags 1", signed_flags::<1>),
    ("signed under flags 2", signed_flags::<2>),
    ("signed under flags 3", signed_flags::<3>),
    ("signed under flags 4", signed_flags::<4>),
    ("signed under flags 5", signed_flags::<5>),
    ("signed under flags 6", signed_flags::<6>),
    ("signed under flags 7", signed_flags::<7>),
    ("accepted under flags 0", accepted_flags::<0>),
    ("accepted under flags 1", accepted_flags::<1>),
    ("accepted under flags 2", accepted_flags::<2>),
    ("accepted under flags 3", accepted_flags::<3>),
    ("accepted under flags 4", accepted_flags::<4>),
    ("accepted under flags 5", accepted_flags::<5>),
    ("accepted under flags 6", accepted_flags::<6>),
    ("accepted under flags 7", accepted_flags::<7>),
    ("accepted, the peer's address translated", |seen| {
        seen.way_over(0, Rewritten::ADDRESS, Rewritten::NOTHING)
    }),
    ("accepted, the peer's port translated", |seen| {
        seen.way_over(0, Rewritten::PORT, Rewritten::NOTHING)
    }),
    ("accepted, the peer's address and port translated", |seen| {
        seen.way_over(0, Rewritten::BOTH, Rewritten::NOTHING)
    }),
    ("accepted, our address translated", |seen| {
        seen.way_over(0, Rewritten::NOTHING, Rewritten::ADDRESS)
    }),
    ("accepted, our port translated", |seen| {
        seen.way_over(0, Rewritten::NOTHING, Rewritten::PORT)
    }),
    ("accepted, our address and port translated", |seen| {
        seen.way_over(0, Rewritten::NOTHING, Rewritten::BOTH)
    }),
    ("accepted, something translated on both sides", |seen| {
        seen.over(0, both_sides)
    }),
    ("29, the peer's address translated", |seen| {
        seen.way_over(29, Rewritten::ADDRESS, Rewritten::NOTHING)
    }),
    ("29, the peer's port translated", |seen| {
        seen.way_over(29, Rewritten::PORT, Rewritten::NOTHING)
    }),
    ("29, the peer's address and port translated", |seen| {
        seen.way_over(29, Rewritten::BOTH, Rewritten::NOTHING)
    }),
    ("29, our address translated", |seen| {
        seen.way_over(29, Rewritten::NOTHING, Rewritten::ADDRESS)
    }),
    ("29, our port translated", |seen| {
        seen.way_over(29, Rewritten::NOTHING, Rewritten::PORT)
    }),
    ("29, our address and port translated", |seen| {
        seen.way_over(29, Rewritten::NOTHING, Rewritten::BOTH)
    }),
    ("29, something translated on both sides", |seen| {
        seen.over(29, both_sides)
    }),
    ("29, the peer's side translated, only ours hidden", |seen| {
        let peers = |over: &Over| over.way.destination == Rewritten::NOTHING;
        seen.over(29, |o| peers(o) && o.local_nat && !o.remote_nat)
    }),
    ("29, our side translated, only the peer's hidden", |seen| {
        let ours = |over: &Over| over.way.source == Rewritten::NOTHING;
        seen.over(29, |o| ours(o) && !o.local_nat && o.remote_nat)
    }),
    ("accepted, translated, options covered", |seen| {
        seen.over(0, |over| over.covers_options)
    }),
    ("accepted, translated, options left out", |seen| {
        seen.over(0, |over| !over.covers_options)
    }),
    ("accepted, translated, IPv4, algorithm 1", |seen| {
        seen.entry_over(0, 4, Algorithm::HmacSha1)
    }),
    ("accepted, translated, IPv4, algorithm 2", |seen| {
        seen.entry_over(0, 4, Algorithm::AesCmac)
    }),
    ("accepted, translated, IPv4, algorithm 3", |seen| {
        seen.entry_over(0, 4, Algorithm::HmacSha256)
    }),
    ("accepted, translated, IPv6, algorithm 1", |seen| {
        seen.entry_over(0, 6, Algorithm::HmacSha1)
    }),
    ("accepted, translated, IPv6, algorithm 2", |seen| {
        seen.entry_over(0, 6, Algorithm::AesCmac)
    }),
    ("accepted, translated, IPv6, algorithm 3", |seen| {
        seen.entry_over(0, 6, Algorithm::HmacSha256)
    }),
    ("29, translated, IPv4, algorithm 1", |seen| {
        seen.entry_over(29, 4, Algorithm::HmacSha1)
    }),
    ("29, translated, IPv4, algorithm 2", |seen| {
        seen.entry_over(29, 4, Algorithm::AesCmac)
    }),
    ("29, translated, IPv4, algorithm 3", |seen| {
        seen.entry_over(29, 4, Algorithm::HmacSha256)
    }),
    ("29, translated, IPv6, algorithm 1", |seen| {
        seen.entry_over(29, 6, Algorithm::HmacSha1)
    }),
    ("29, translated, IPv6, algorithm 2", |seen| {
        seen.entry_over(29, 6, Algorithm::AesCmac)
    }),
    ("29, translated, IPv6, algorithm 3", |seen| {
        seen.entry_over(29, 6, Algorithm::HmacSha256)
    }),
    ("judge_syn, accepted, translated", |seen| {
        seen.call_over(0, JudgeSyn, false)
    }),
    ("open_passive, accepted, translated", |seen| {
        seen.call_over(0, OpenPassive, false)
    }),
    ("judge while opening, accepted, translated", |seen| {
        seen.call_over(0, Judge, false)
    }),
    ("judge once open, accepted, translated", |seen| {
        seen.call_over(0, Judge, true)
    }),
    ("judge_syn, 29, translated", |seen| {
        seen.call_over(29, JudgeSyn, false)
    }),
    ("open_passive, 29, translated", |seen| {
        seen.call_over(29, OpenPassive, false)
    }),
    ("judge while opening, 29, translated", |seen| {
        seen.call_over(29, Judge, false)
    }),
    ("judge once open, 29, translated", |seen| {
        seen.call_over(29, Judge, true)
    }),
    ("23 where the entry hides the peer's side", |seen| {
        let hides = |ao: AoOption| seen.state_entry(ao.key_id, |entry| entry.remote_nat);
        seen.drops(23) && seen.ao().is_some_and(hides)
    }),
    ("33 where the entry hides a side", |seen| {
        let refused = seen.call.function == Function::Sign && seen.outcome.number() == 33;
        refused && seen.with_key(|key| key.local_nat || key.remote_nat)
    }),
    ("accepted by MD5 once open, IPv4", |seen| {
        seen.md5(Judge, 0, |m| m.open) && seen.family(4)
    }),
    ("accepted by MD5 while opening, IPv4", |seen| {
        seen.md5(Judge, 0, |m| !m.open) && seen.family(4)
    }),
    ("judge_syn, accepted by MD5, IPv4", |seen| {
        seen.md5(JudgeSyn, 0, |_| seen.call.source.len() == 4)
    }),
    ("open_passive, accepted by MD5, IPv4", |seen| {
        seen.md5(OpenPassive, 0, |_| seen.call.source.len() == 4)
    }),
    ("signed by MD5 once open, IPv4", |seen| {
        seen.md5(Sign, 0, |m| m.open) && seen.family(4)
    }),
    ("signed by MD5 while opening, IPv4", |seen| {
        seen.md5(Sign, 0, |m| !m.open) && seen.family(4)
    }),
    ("accepted by MD5 once open, IPv6", |seen| {
        seen.md5(Judge, 0, |m| m.open) && seen.family(6)
    }),
    ("accepted by MD5 while opening, IPv6", |seen| {
        seen.md5(Judge, 0, |m| !m.open) && seen.family(6)
    }),
    ("judge_syn, accepted by MD5, IPv6", |seen| {
        seen.md5(JudgeSyn, 0, |_| seen.call.source.len() == 16)
    }),
    ("open_passive, accepted by MD5, IPv6", |seen| {
        seen.md5(OpenPassive, 0, |_| seen.call.source.len() == 16)
    }),
    ("signed by MD5 once open, IPv6", |seen| {
        seen.md5(Sign, 0, |m| m.open) && seen.family(6)
    }),
    ("signed by MD5 while opening, IPv6", |seen| {
        seen.md5(Sign, 0, |m| !m.open) && seen.family(6)
    }),
    ("accepted by MD5, not at byte 20", |seen| {
        seen.md5(Judge, 0, |m| m.at != 20)
    }),
    ("accepted by MD5 where the number has no position", |seen| {
        seen.md5(Judge, 0, |m| m.open && !m.position)
    }),
    ("accepted by MD5, a reference from 2^32 on", |seen| {
        seen.md5(Judge, 0, |m| {
            m.open && seen.before.arriving_reference >> 32 > 0
        })
    }),
    ("accepted by MD5, a key of 1 byte", |seen| {
        seen.md5(Judge, 0, |m| m.key_bytes == 1)
    }),
    ("accepted by MD5, a key of 80 bytes", |seen| {
        seen.md5(Judge, 0, |m| m.key_bytes == 80)
    }),
    ("accepted by MD5, the count at its stop", |seen| {
        seen.md5(Judge, 0, |m| m.open && seen.before.accepted == u64::MAX)
    }),
    ("accepted by MD5 while opening, IDs not 0", |seen| {
        seen.md5(Judge, 0, |m| !m.open && seen.before.asked_recv_id != 0)
    }),
    ("accepted by MD5, an odd length", |seen| {
        seen.md5(Judge, 0, |_| seen.call.segment.len() % 2 == 1)
    }),
    ("accepted by MD5, FFFF where 0000 would do", |seen| {
        seen.md5(Judge, 0, |_| seen.field() == Some(0xffff))
    }),
    ("accepted on a way above 1", |seen| {
        seen.not_md5(0, |m| m.open && seen.before.way > 1)
    }),
    ("accepted while opening on a way above 1", |seen| {
        seen.not_md5(0, |m| !m.open && seen.before.way > 1)
    }),
    ("46 once open", |seen| seen.md5(Judge, 46, |m| m.open)),
    ("46 while opening", |seen| seen.md5(Judge, 46, |m| !m.open)),
    ("46, the count at its stop", |seen| {
        seen.md5(Judge, 46, |m| m.open && seen.before.drops[11] == u64::MAX)
    }),
    ("46 where no MD5 entry matches", |seen| {
        seen.md5(Judge, 46, |m| m.key_bytes == 0)
    }),
    ("47 once open", |seen| seen.md5(Judge, 47, |m| m.open)),
    ("47 while opening", |seen| seen.md5(Judge, 47, |m| !m.open)),
    ("47, the count at its stop", |seen| {
        seen.md5(Judge, 47, |m| m.open && seen.before.drops[12] == u64::MAX)
    }),
    ("47 where no MD5 entry matches", |seen| {
        seen.md5(Judge, 47, |m| m.key_bytes == 0)
    }),
    ("46 of a segment whose MAC is right", |seen| {
        seen.md5(Judge, 46, |m| m.mac_right)
    }),
    ("25 of a segment whose digest is right", |seen| {
        seen.not_md5(25, |m| m.digest_right)
    }),
    ("25 of a segment with MD5", |seen| {
        seen.not_md5(25, |m| m.count == 1)
    }),
    ("22 by two MD5 where MD5 is due", |seen| {
        seen.md5(Judge, 22, |m| m.count >= 2 && !m.ao)
    }),
    ("22 by two MD5 where TCP-AO is due", |seen| {
        seen.not_md5(22, |m| m.count >= 2 && !m.ao)
    }),
    ("22 by MD5 and TCP-AO where MD5 is due", |seen| {
        seen.md5(Judge, 22, |m| m.count >= 1 && m.ao)
    }),
    ("26 by MD5", |seen| seen.md5(Judge, 26, |_| true)),
    ("27 by MD5, 17 bytes", |seen| {
        seen.md5(Judge, 27, |m| m.length == 17)
    }),
    ("27 by MD5, 19 bytes", |seen| {
        seen.md5(Judge, 27, |m| m.length == 19)
    }),
    ("judge_syn, 27 by MD5", |seen| {
        seen.md5(JudgeSyn, 27, |_| true)
    }),
    ("open_passive, 27 by MD5", |seen| {
        seen.md5(OpenPassive, 27, |_| true)
    }),
    ("29 by MD5", |seen| seen.md5(Judge, 29, |_| true)),
    ("judge_syn, 29 by MD5", |seen| {
        seen.md5(JudgeSyn, 29, |_| true)
    }),
    ("open_passive, 29 by MD5", |seen| {
        seen.md5(OpenPassive, 29, |_| true)
    }),
    ("judge_syn, 46 with the setting pass", |seen| {
        seen.md5(JudgeSyn, 46, |_| seen.call.byte == 0)
    }),
    ("judge_syn, 47 with the setting pass", |seen| {
        seen.md5(JudgeSyn, 47, |_| seen.call.byte == 0)
    }),
    ("judge_syn, a SYN with MD5 passes", |seen| {
        seen.call.function == JudgeSyn && seen.outcome.number() == 1 && seen.by_md5.count == 1
    }),
    ("judge_syn, 25 of a SYN with MD5", |seen| {
        seen.call.function == JudgeSyn && seen.outcome.number() == 25 && seen.by_md5.count == 1
    }),
    ("signed by MD5 where the number has no position", |seen| {
        seen.md5(Sign, 0, |m| m.open && !m.position)
    }),
    ("signed by MD5, a SYN+ACK beside the reference", |seen| {
        seen.md5(Sign, 0, |m| {
            m.open && m.syn && seen.before.signing_reference >> 32 > 0
        })
    }),
    (
        "signed by MD5, a SYN, the reference below our ISN",
        |seen| {
            seen.md5(Sign, 0, |m| {
                !m.open && seen.before.signing_reference < u64::from(seen.before.our_isn)
            })
        },
    ),
    ("signed by MD5, options behind", |seen| {
        seen.md5(Sign, 0, |m| m.offset > 5)
    }),
    ("signed by MD5, the checksum 0000", |seen| {
        seen.md5(Sign, 0, |_| seen.outcome.out[16..18] == [0, 0])
    }),
    ("signed by MD5, an odd length", |seen| {
        seen.md5(Sign, 0, |_| seen.call.segment.len() % 2 == 1)
    }),
    (
        "32 by MD5, the data offset at most 15 but for the padding",
        |seen| seen.md5(Sign, 32, |m| m.offset == 11),
    ),
    (
        "32 by MD5, at most 65,535 bytes but for the padding",
        |seen| {
            seen.md5(Sign, 32, |m| {
                m.offset <= 10 && seen.call.segment.len() <= 65_517
            })
        },
    ),
    ("35 by MD5", |seen| seen.md5(Sign, 35, |_| true)),
    ("35 by MD5 of a segment too large", |seen| {
        seen.md5(Sign, 35, |m| m.offset > 10)
    }),
    ("36 by MD5 once open", |seen| seen.md5(Sign, 36, |m| m.open)),
    ("36 by MD5 while opening", |seen| {
        seen.md5(Sign, 36, |m| !m.open)
    }),
    ("37 by MD5, room but for the padding", |seen| {
        seen.md5(Sign, 37, |_| {
            seen.call.out.len() >= seen.call.segment.len() + 18
        })
    }),
    ("ask, 35 by MD5 of a RecvID that the pair has", |seen| {
        seen.md5(Ask, 35, |_| seen.state_entry(seen.call.byte, |_| true))
    }),
    ("64 MD5 entries, not refused", |seen| {
        seen.by_md5.entries == 64
    }),
    ("45 at entry 0", |seen| {
        seen.forty_five(|_| seen.outcome.value() == 0)
    }),
    ("45 at a later entry", |seen| {
        seen.forty_five(|_| seen.outcome.value() > 0)
    }),
    ("45 with a key entry of another index", |seen| {
        seen.forty_five(|m| m.overlaps > 1)
    }),
    ("45, several MD5 entries overlap", |seen| {
        seen.forty_five(|m| m.overlapping > 1)
    }),
    ("45 beside a segment of a bad length", |seen| {
        seen.forty_five(|_| {
            seen.call.function == Judge && Header::read(&seen.call.segment).is_none()
        })
    }),
    (
        "the MD5 table refused behind an entry that 45 is for",
        |seen| seen.by_md5.refused_behind,
    ),
    ("both tables refused", |seen| seen.by_md5.both_refused),
    ("tables of two families that would overlap in one", |seen| {
        seen.by_md5.other_family
    }),
    ("12 at entry 1,024", |seen| {
        let word = (1_024 << 32) | 12;
        seen.outcome.word == word && seen.call.form == 0
    }),
    ("12 at MD5 entry 1,024", |seen| {
        let word = (1_024 << 32) | (1 << 8) | 12;
        seen.outcome.word == word && seen.call.form == 0
    }),
    ("17 at entry 900 or later", |seen| {
        seen.outcome.number() == 17 && seen.outcome.value() >= 900
    }),
    ("45, a table of 1,024 entries", |seen| {
        let most = 1_024 * 104;
        seen.outcome.number() == 45 && seen.call.table.len().max(seen.call.md5.len()) >= most
    }),
    ("1,024 entries as bytes, not refused", |seen| {
        seen.sizes(false, |keys, _| keys == 1_024)
    }),
    ("1,024 MD5 entries as bytes, not refused", |seen| {
        seen.sizes(false, |_, md5| md5 == 1_024)
    }),
    ("1,024 entries, prepared", |seen| {
        seen.sizes(true, |keys, _| keys == 1_024)
    }),
    ("1,024 MD5 entries, prepared", |seen| {
        seen.sizes(true, |_, md5| md5 == 1_024)
    }),
    ("1,024 entries and as many MD5 entries, prepared", |seen| {
        seen.sizes(true, |keys, md5| keys == 1_024 && md5 == 1_024)
    }),
    ("no entries, prepared", |seen| {
        seen.sizes(true, |keys, md5| keys + md5 == 0)
    }),
    ("prepared by form 1", |seen| seen.call.form == 1),
    ("prepared by form 2", |seen| seen.call.form == 2),
    ("prepared by form 128", |seen| seen.call.form == 128),
    ("prepared by form 255", |seen| seen.call.form == 255),
    ("44 by a second buffer alone", |seen| {
        seen.forty_four(|call| !call.md5.is_empty() && fits(&call.table))
    }),
    ("44 by one byte too few", |seen| {
        seen.forty_four(|call| size(&call.table) == Some(call.table.len() + 1))
    }),
    ("44 by one byte too many", |seen| {
        seen.forty_four(|call| size(&call.table).is_some_and(|n| n + 1 == call.table.len()))
    }),
    ("44 by fewer than four bytes", |seen| {
        seen.forty_four(|call| call.table.len() < 4)
    }),
    ("44 by a count of 1,025, the length right", |seen| {
        seen.forty_four(|call| size(&call.table) == Some(call.table.len()) && !fits(&call.table))
    }),
    ("44 beside a segment of a bad length", |seen| {
        let judged = seen.call.function == Judge;
        judged && seen.forty_four(|call| Header::read(&call.segment).is_none())
    }),
    ("18 beside a table that is not prepared", |seen| {
        seen.outcome.number() == 18 && seen.call.form != 0 && !fits(&seen.call.table)
    }),
    ("19 beside a table that is not prepared", |seen| {
        seen.outcome.number() == 19 && seen.call.form != 0 && !fits(&seen.call.table)
    }),
    ("prepared, two keys clash", |seen| {
        seen.stored(|tables| tables.keys.len() < 30 && clashing(&tables.keys))
    }),
    ("prepared, a key and an MD5 entry match a pair", |seen| {
        seen.stored(|tables| tables.keys.len() < 30 && both_ways(tables))
    }),
    ("accepted, prepared, by the first of two", |seen| {
        seen.call.form != 0 && seen.accepts(|a| a.others)
    }),
    ("opened, prepared, by the first of two SendIDs", |seen| {
        let (call, id) = (seen.call, seen.call.byte);
        let opened = call.function == OpenActive && seen.outcome.number() == 0;
        let pair = Pair {
            local: &call.source,
            remote: &call.destination,
            local_port: call.local_port,
            remote_port: call.remote_port,
        };
        opened && {
            let such = |key: &&Entry| key.send_id == id;
            differ(&seen.stored_for(&pair, such), |key| key.recv_id)
        }
    }),
    ("signed, prepared, by the first of two SendIDs", |seen| {
        let id = seen.before.outgoing_send_id;
        let such = |key: &&Entry| key.send_id == id;
        let pair = seen.before.pair().filter(|_| seen.signed());
        pair.is_some_and(|pair| differ(&seen.stored_for(&pair, such), |key| key.key))
    }),
    ("asked, prepared, by the first of two RecvIDs", |seen| {
        let asked = seen.call.function == Ask && seen.outcome.number() == 0;
        let such = |key: &&Entry| key.recv_id == seen.call.byte;
        let pair = seen.before.pair().filter(|_| asked);
        pair.is_some_and(|pair| seen.stored_for(&pair, such).len() > 1)
    }),
    ("accepted by MD5, prepared, by the first of two", |seen| {
        seen.md5(Judge, 0, |_| seen.two_md5())
    }),
    ("signed by MD5, prepared, by the first of two", |seen| {
        seen.md5(Sign, 0, |_| seen.two_md5())
    }),
    ("accepted, prepared, bytes behind IPv4's third", |seen| {
        let behind = |stored: &Stored| {
            stored.field(Family) == [4] && stored.field(RemoteAddress)[3..] != [0; 12]
        };
        seen.judged_by(0, |entries| entries.iter().all(behind))
    }),
    (
        "accepted, prepared, by another mark than the peer's",
        |seen| {
            let mark = mark(&seen.call.source);
            let other = |stored: &Stored| stored.field(Mark) != [mark];
            seen.judged_by(0, |entries| entries.iter().all(other))
        },
    ),
    ("accepted, prepared, by one of two of its mark", |seen| {
        let mark = mark(&seen.call.source);
        let such = |stored: &&Stored| stored.field(Mark) == [mark];
        seen.judged_by(0, |entries| entries.iter().filter(such).count() > 1)
    }),
    ("26, prepared, beside the peer's mark", |seen| {
        let mark = mark(&seen.call.source);
        let such = |stored: &Stored| stored.field(Mark) == [mark];
        seen.judged_by(26, |entries| entries.iter().any(such))
    }),
    ("accepted by MD5, prepared", |seen| {
        seen.call.form != 0 && seen.md5(Judge, 0, |_| true)
    }),
    ("signed by MD5, prepared", |seen| {
        seen.call.form != 0 && seen.md5(Sign, 0, |_| true)
    }),
    ("signed, prepared", |seen| {
        seen.call.form != 0 && seen.signed()
    }),
    ("37, one byte of a prepared table too few", |seen| {
        seen.call.function == Function::Prepare && seen.outcome.number() == 37 && {
            let table = crate::prepared::of(seen.call);
            table.is_some_and(|table| table.len() == seen.call.out.len() + 1)
        }
    }),
    ("prepared, and bytes left behind", |seen| {
        let done = seen.call.function == Function::Prepare && seen.outcome.number() == 0;
        done && seen.call.out.len() > seen.outcome.value() as usize
    }),
];

/// How many bytes the counts of a prepared table ask for.
fn size(table: &[u8]) -> Option<usize> {
    let enough = table.len() >= kit::prepared::COUNTS;
    enough.then(|| kit::prepared::length(kit::prepared::counts(table).iter().sum()))
}

/// Whether it is one.
fn fits(table: &[u8]) -> bool {
    size(table) == Some(table.len()) && kit::prepared::counts(table).iter().all(|n| *n <= 1_024)
}

/// An entry of a prepared table: the table, how many there are, and which it is.
struct Stored<'t>(&'t [u8], usize, usize);

impl<'t> Stored<'t> {
    fn all(table: &'t [u8]) -> Vec<Stored<'t>> {
        let entries = kit::prepared::counts(table).iter().sum();
        let stored = |index| Stored(table, entries, index);
        (0..entries).map(stored).collect()
    }

    fn field(&self, field: Field) -> &'t [u8] {
        &self.0[field.of(self.1, self.2)]
    }
}

/// Whether two of these differ in this, so that it is seen which one is taken.
fn differ<T, U: PartialEq>(entries: &[T], by: impl Fn(&T) -> U) -> bool {
    entries.windows(2).any(|two| by(&two[0]) != by(&two[1]))
}

/// Whether two of these clash.
fn clashing(keys: &[Entry]) -> bool {
    let earlier = |at: usize| keys[..at].iter().any(|key| key.clashes(&keys[at]));
    (0..keys.len()).any(earlier)
}

/// Whether a pair exists that an entry of each table matches.
fn both_ways(tables: &Tables) -> bool {
    let key = |md5| tables.keys.iter().any(|key| crate::md5::overlap(key, md5));
    tables.md5.iter().any(key)
}

/// Whether something was translated on both sides.
fn both_sides(over: &Over) -> bool {
    let Translation {
        source,
        destination,
    } = over.way;
    source != Rewritten::NOTHING && destination != Rewritten::NOTHING
}

fn flags_of(entry: &Entry) -> u8 {
    u8::from(entry.covers_options)
        | u8::from(entry.local_nat) << 1
        | u8::from(entry.remote_nat) << 2
}

fn signed_flags<const FLAGS: u8>(seen: &Seen) -> bool {
    seen.signed() && seen.with_key(|key| flags_of(key) == FLAGS)
}

fn accepted_flags<const FLAGS: u8>(seen: &Seen) -> bool {
    seen.accepts(|a| a.flags == FLAGS)
}

fn accepted_kind<const KIND: u8>(seen: &Seen) -> bool {
    seen.accepts(|a| a.kind == KIND)
}

fn accepted_mac<const BYTES: usize>(seen: &Seen) -> bool {
    seen.accepts(|a| a.mac_bytes == BYTES)
}

fn signed_mac<const BYTES: usize>(seen: &Seen) -> bool {
    seen.signed() && seen.with_key(|key| key.mac_bytes == BYTES)
}

impl<'a> Seen<'a> {
    fn new(call: &'a Call, way: Option<Translation>, outcome: &'a Outcome) -> Seen<'a> {
        let before = State::from_bytes(&call.state).unwrap_or(State::EMPTY);
        let accepts = call.function == Function::Judge && outcome.number() == 0;
        let lent = Lent {
            form: call.form,
            keys: &call.table,
            md5: &call.md5,
        };
        // Where the call came to looking at the tables, and they were not refused.
        let refused = matches!(outcome.number(), 10..=19 | 44 | 45);
        let tables = (!refused).then(|| lent.read().ok()).flatten();
        let keys = tables.as_ref().map_or(&[][..], |tables| &tables.keys);
        let accepted = || accepted(call, outcome, &before, keys);
        Seen {
            call,
            outcome,
            before,
            accepted: accepts.then(accepted).flatten(),
            unknown: Unknown::of(call, outcome, keys),
            rewritten: Over::of(call, way, outcome, keys),
            by_md5: ByMd5::of(call, outcome, tables.as_ref()),
            tables,
        }
    }

    /// The entries of the key table, if neither table is refused.
    fn keys(&self) -> &[Entry<'a>] {
        self.tables.as_ref().map_or(&[], |tables| &tables.keys)
    }

    /// Whether neither table is refused, and they have so many entries, as bytes or prepared.
    fn sizes(&self, prepared: bool, which: impl Fn(usize, usize) -> bool) -> bool {
        let so = |tables: &Tables| which(tables.keys.len(), tables.md5.len());
        (self.call.form != 0) == prepared && self.tables.as_ref().is_some_and(so)
    }

    /// Whether this call was refused with 44, its tables so.
    fn forty_four(&self, which: impl Fn(&Call) -> bool) -> bool {
        self.outcome.number() == 44 && which(self.call)
    }

    /// Whether the tables are prepared and not refused, and so.
    fn stored(&self, which: impl Fn(&Tables) -> bool) -> bool {
        self.call.form != 0 && self.tables.as_ref().is_some_and(which)
    }

    /// The entries of a prepared key table that match the pair and are such.
    fn stored_for(&self, pair: &Pair, such: impl Fn(&&Entry<'a>) -> bool) -> Vec<Entry<'a>> {
        let prepared = self.call.form != 0;
        let keys = self.keys().iter().filter(|_| prepared).filter(such);
        keys.filter(|key| key.matches(pair)).copied().collect()
    }

    /// Whether two MD5 entries of a prepared table match the state's pair, with different keys.
    fn two_md5(&self) -> bool {
        let two = |pair: Pair| {
            self.stored(|tables| {
                let matching = tables.md5.iter().filter(|entry| entry.matches(&pair));
                differ(&matching.collect::<Vec<_>>(), |entry| entry.key)
            })
        };
        self.before.pair().is_some_and(two)
    }

    /// Whether a segment was judged with a prepared table of few such entries, and got this number.
    fn judged_by(&self, number: u8, which: impl Fn(&[Stored]) -> bool) -> bool {
        let judged = self.call.function == Judge && self.outcome.number() == number;
        let few = judged && self.stored(|tables| tables.keys.len() + tables.md5.len() < 30);
        few && which(&Stored::all(&self.call.table))
    }

    /// Whether MD5 is due, and this call gave this number, with such a segment and state.
    fn md5(&self, function: Function, number: u8, which: impl Fn(&ByMd5) -> bool) -> bool {
        let here = self.call.function == function && self.outcome.number() == number;
        here && self.by_md5.due && which(&self.by_md5)
    }

    /// Whether TCP-AO is due on this connection, and judging gave this number.
    fn not_md5(&self, number: u8, which: impl Fn(&ByMd5) -> bool) -> bool {
        let judged = self.call.function == Judge && self.outcome.number() == number;
        judged && !self.by_md5.due && which(&self.by_md5)
    }

    /// Whether the table was refused with 45 so.
    fn forty_five(&self, which: impl Fn(&ByMd5) -> bool) -> bool {
        self.outcome.number() == 45 && which(&self.by_md5)
    }

    fn family(&self, family: u8) -> bool {
        self.before.family == family
    }

    /// Whether a segment in which something was translated got this number, and so.
    fn over(&self, number: u8, which: impl Fn(&Over) -> bool) -> bool {
        self.outcome.number() == number && self.rewritten.as_ref().is_some_and(which)
    }

    /// Whether just this was translated, and the segment got this number.
    fn way_over(&self, number: u8, source: Rewritten, destination: Rewritten) -> bool {
        let way = Translation {
            source,
            destination,
        };
        self.over(number, |over| over.way == way)
    }

    /// Whether a segment in which something was translated got this number, under such an entry.
    fn entry_over(&self, number: u8, family: u8, algorithm: Algorithm) -> bool {
        self.over(number, |over| {
            over.family == family && over.algorithm == algorithm
        })
    }

    /// Whether a segment in which something was translated got this number from this call.
    fn call_over(&self, number: u8, function: Function, open: bool) -> bool {
        let here = self.call.function == function && self.before.is_open() == open;
        here && self.over(number, |_| true)
    }

    /// Whether the table was refused with 13 at an entry whose flags are above 7.
    fn flags_refused(&self) -> bool {
        let entry = || entry_bytes(&self.call.table, self.outcome.value() as usize);
        self.outcome.number() == 13 && entry().is_some_and(|entry| entry[1] > 7)
    }

    /// Whether this call met an unknown KeyID with this setting, the pair matched so.
    fn unknown(&self, function: Function, pass: bool, matched: Matched) -> bool {
        let so = |u: &Unknown| u.function == function && u.pass == pass && u.matched == matched;
        self.unknown.as_ref().is_some_and(so)
    }

    /// Whether this call, with the setting pass, met a KeyID next to one that has an entry.
    fn one_off(&self, function: Function) -> bool {
        let so = |u: &Unknown| u.function == function && u.pass && u.one_off;
        self.unknown.as_ref().is_some_and(so)
    }

    fn accepts(&self, which: impl Fn(&Accepted) -> bool) -> bool {
        self.accepted.as_ref().is_some_and(which)
    }

    fn open(&self, which: impl Fn(&Accepted, u64) -> bool) -> bool {
        self.before.is_open() && self.accepts(|a| which(a, self.before.arriving_reference))
    }

    fn way(&self, family: u8, algorithm: Algorithm, covers_options: bool) -> bool {
        self.before.family == family
            && self.accepts(|a| a.algorithm == algorithm && a.covers_options == covers_options)
    }

    /// What stands in the segment's checksum.
    fn field(&self) -> Option<u16> {
        let field = self.call.segment.get(16..18)?;
        Some(u16::from_be_bytes([field[0], field[1]]))
    }

    /// Whether this call gave 40, of such a checksum.
    fn summed(&self, function: Function, which: impl Fn(&Checksum) -> bool) -> bool {
        if self.call.function != function || self.outcome.number() != 40 {
            return false;
        }
        let Call {
            source,
            destination,
            segment,
            ..
        } = self.call;
        let right = summed(source, destination, segment);
        self.field().is_some_and(|field| {
            which(&Checksum {
                field,
                right: u16::from_be_bytes([right[16], right[17]]),
                odd: segment.len() % 2 == 1,
            })
        })
    }

    /// Whether the segment came with other addresses than the state's.
    fn other_addresses(&self) -> bool {
        let call = &self.call;
        let other = |pair: Pair| pair.remote != call.source || pair.local != call.destination;
        self.before.pair().is_some_and(other)
    }

    fn signed_odd(&self, family: u8) -> bool {
        self.signed() && self.before.family == family && self.call.segment.len() % 2 == 1
    }

    fn signed(&self) -> bool {
        self.call.function == Function::Sign && self.outcome.number() == 0
    }

    /// The segment's TCP-AO.
    fn ao(&self) -> Option<AoOption> {
        let header = Header::read(&self.call.segment)?;
        read_options(&self.call.segment, &header)?.ao
    }

    /// Whether the entry of the outgoing key is one of these.
    fn with_key(&self, which: impl Fn(&Entry) -> bool) -> bool {
        let id = self.before.outgoing_send_id;
        let found = |pair| by_send_id(self.keys(), &pair, id);
        self.before
            .pair()
            .and_then(found)
            .as_ref()
            .is_some_and(which)
    }

    /// Whether the entry that the state's pair has for this KeyID is one of these.
    fn state_entry(&self, key_id: u8, which: impl Fn(&Entry) -> bool) -> bool {
        let found = |pair| by_recv_id(self.keys(), &pair, key_id);
        let entry = self.before.pair().and_then(found);
        entry.as_ref().is_some_and(which)
    }

    /// Whether signing gave 32, of such a header, entry and length.
    fn too_large(&self, which: impl Fn(&Header, &Entry, usize) -> bool) -> bool {
        if self.call.function != Function::Sign || self.outcome.number() != 32 {
            return false;
        }
        let bytes = self.call.segment.len();
        let of_header = |header| self.with_key(|key| which(&header, key, bytes));
        Header::read(&self.call.segment).is_some_and(of_header)
    }

    /// Whether it was dropped with this number on an open connection.
    fn drops(&self, number: u8) -> bool {
        let judged = self.call.function == Function::Judge && self.before.is_open();
        judged && self.outcome.number() == number
    }

    /// Whether the segment's number is 2^31 from the reference, in either direction.
    fn half_a_turn_away(&self) -> bool {
        let reference = self.before.arriving_reference as u32;
        Header::read(&self.call.segment)
            .is_some_and(|header| header.sequence.wrapping_sub(reference) == 1 << 31)
    }
}

/// The bytes from an entry's first on, of a table whose entries before it are whole.
fn entry_bytes(table: &[u8], index: usize) -> Option<&[u8]> {
    let mut rest = table;
    for _ in 0..index {
        let bytes = match rest.first()? {
            4 => 104,
            5 => 105,
            6 => 128,
            _ => 129,
        };
        rest = rest.get(bytes..)?;
    }
    rest.get(..104)
}

/// What an accepted segment was accepted by.
fn accepted(call: &Call, outcome: &Outcome, before: &State, entries: &[Entry]) -> Option<Accepted> {
    let header = Header::read(&call.segment)?;
    let ao = read_options(&call.segment, &header)?.ao?;
    let pair = before.pair()?;
    let entry = by_recv_id(entries, &pair, ao.key_id)?;
    let mut with_it = entries.iter().filter(|e| e.send_id == ao.rnext_key_id);
    let asks = match with_it.clone().next() {
        None => Asked::NoEntry,
        Some(_) if with_it.any(|e| e.matches(&pair)) => Asked::ThisPair,
        Some(_) => Asked::OthersOnly,
    };
    let same = |e: &&Entry| e.recv_id == ao.key_id && e.matches(&pair);
    Some(Accepted {
        others: entries.iter().filter(same).count() > 1,
        position: (outcome.value() as u64) << 32 | header.sequence as u64,
        kind: entry.kind,
        mac_bytes: entry.mac_bytes,
        algorithm: entry.algorithm,
        key_bytes: entry.key.len(),
        flags: flags_of(&entry),
        covers_options: entry.covers_options,
        key_changed: outcome.state[2] != before.outgoing_send_id,
        asks,
    })
}

/// A number as it is printed.
fn shown(number: u8) -> String {
    match number {
        110..=117 => format!("MD5 {}", number - OF_MD5),
        number => number.to_string(),
    }
}

/// The place of a number in [`ALL`]; the place behind it is for numbers that are not there.
fn place(number: u8) -> usize {
    ALL.iter().position(|n| *n == number).unwrap_or(ALL.len())
}

impl Counts {
    pub fn add(&mut self, call: &Call, way: Option<Translation>, outcome: &Outcome) {
        self.numbers[call.function as usize][place(named(outcome))] += 1;
        let seen = Seen::new(call, way, outcome);
        for (count, (_, which)) in self.situations.iter_mut().zip(SITUATIONS) {
            *count += which(&seen) as u64;
        }
    }

    /// This call was made by bytes and prepared, and gave the same.
    pub fn add_same_prepared(&mut self, function: Function) {
        self.same_prepared[function as usize] += 1;
    }

    /// How often a call that takes the tables in either form gave the same.
    fn same_prepared(&self) -> impl Iterator<Item = (Function, u64)> + '_ {
        let functions = Function::ALL.into_iter();
        functions
            .filter(|function| function.takes_form())
            .map(|function| (function, self.same_prepared[function as usize]))
    }

    /// Adds another run's counts.
    pub fn join(&mut self, other: &Counts) {
        let numbers = self.numbers.iter_mut().flatten();
        for (count, more) in numbers.zip(other.numbers.iter().flatten()) {
            *count += more;
        }
        for (count, more) in self.situations.iter_mut().zip(other.situations) {
            *count += more;
        }
        for (count, more) in self.same_prepared.iter_mut().zip(other.same_prepared) {
            *count += more;
        }
    }

    /// What was met less often than it must be, and numbers that a call should never give.
    pub fn faults(&self) -> Vec<String> {
        let mut faults = vec![];
        for function in Function::ALL {
            for (at, count) in self.numbers[function as usize].iter().enumerate() {
                let number = ALL.get(at).copied().unwrap_or(255);
                let name = function.name();
                if possible(function).contains(&number) {
                    if *count < LEAST {
                        let number = shown(number);
                        faults.push(format!("{name} gave {number} only {count} times"));
                    }
                } else if *count > 0 {
                    let number = shown(number);
                    faults.push(format!("{name} gave {number}, which it never should"));
                }
            }
        }
        for ((name, _), count) in SITUATIONS.iter().zip(self.situations) {
            if count < LEAST {
                faults.push(format!("{name}: only {count} times"));
            }
        }
        for (function, count) in self.same_prepared() {
            if count < LEAST {
                let name = function.name();
                faults.push(format!("{name}: by bytes and prepared only {count} times"));
            }
        }
        faults
    }

    /// One row for each number, one column for each call; then the situations.
    pub fn print(&self) {
        print!("number");
        for function in Function::ALL {
            print!("{:>16}", function.name());
        }
        println!();
        for number in ALL {
            print!("{:>6}", shown(number));
            for function in Function::ALL {
                if possible(function).contains(&number) {
                    print!("{:>16}", self.numbers[function as usize][place(number)]);
                } else {
                    print!("{:>16}", "never");
                }
            }
            println!();
        }
        for ((name, _), count) in SITUATIONS.iter().zip(self.situations) {
            println!("{count:>9}  {name}");
        }
        for (function, count) in self.same_prepared() {
            let name = function.name();
            println!("{count:>9}  {name}, the same by bytes and prepared");
        }
    }
}
