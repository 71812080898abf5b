//! The calls, with values in and out.
//!
//! In each call the numbers are looked for in the order of document 01's table, one after another:
//! "The first that applies, in this order, is given". 32 is "tested now after 35" (Ticket 4), 40
//! "tested after 20 and before 21" (Ticket 5), 45 "behind the key table's and then the MD5 table's refusals
//! and before 20", 46 and 47 "before 25" (Ticket 9), 44 "in the place of 10 to 16" (Ticket 8).

use crate::answer::{Refusal, Verdict};
use crate::checksum::{self, CHECKSUM};
use crate::mac::{self, Direction, Ends};
use crate::md5_table::{matching, Lent, Md5Entry, Tables};
use crate::position::{extension, moved, position};
use crate::prepared;
use crate::segment::{
    read_options, AoOption, Header, Md5Option, Options, WithAo, KIND_MD5, KIND_NO_OPERATION,
    KIND_TCP_AO, OPTIONS_AT,
};
use crate::state::{State, COUNTED, STAGE_OPEN, WAY_MD5};
use crate::table::{any_matches, by_recv_id, by_send_id, Entry, Pair};
use crate::tcp_md5;

/// Checks both tables (10 to 17, 45; 44) and says how many entries the key table has.
pub fn check_table(tables: &Lent) -> Result<u32, Refusal> {
    Ok(tables.read()?.keys.len() as u32)
}

/// Prepares both tables (10 to 17, 45, 37) for an output of so many bytes. READINGS 25: it "gives the table's
/// refusal, or 37 if the output is too short".
pub fn prepare(tables: &Lent, room: usize) -> Result<Vec<u8>, Refusal> {
    let prepared = prepared::write(&tables.read()?);
    if room < prepared.len() {
        return Err(Refusal::of(37));
    }
    Ok(prepared)
}

/// Opens actively (19, 10 to 17, 45, 44, 35). A refused opening returns the empty state beside its number.
///
/// "Active opening names a SendID; its entry must match the pair. It gives the outgoing key and, by
/// RecvID, the key asked of the peer."
pub fn open_active(
    tables: &Lent,
    pair: &Pair,
    isn: u32,
    send_id: u8,
) -> (Result<(), Refusal>, State) {
    opened(opening_state(tables, pair, isn, send_id))
}

/// Opens actively by MD5 (19, 10 to 17, 45, 44, 35).
pub fn open_active_md5(tables: &Lent, pair: &Pair, isn: u32) -> (Result<(), Refusal>, State) {
    opened(opening_state_md5(tables, pair, isn))
}

fn opened(opening: Result<State, Refusal>) -> (Result<(), Refusal>, State) {
    match opening {
        Ok(state) => (Ok(()), state),
        // "An opening refused, or a SYN only passed, returns the empty state, family 0."
        Err(refusal) => (Err(refusal), State::EMPTY),
    }
}

fn opening_state_md5(tables: &Lent, pair: &Pair, isn: u32) -> Result<State, Refusal> {
    // 19, 10 to 17 and 45, 44.
    let tables = addresses_then_tables(pair.local, pair.remote, tables)?;

    // 35: "kind 19 with no entry with 26 (opening, signing: 35; asking: always 35)".
    if matching(&tables.md5, pair).is_none() {
        return Err(Refusal::of(35));
    }

    // Both IDs stay 0.
    let mut state = State::of_pair(pair);
    state.our_isn = isn;
    state.signing_reference = isn as u64;
    state.way = WAY_MD5;
    Ok(state)
}

fn opening_state(tables: &Lent, pair: &Pair, isn: u32, send_id: u8) -> Result<State, Refusal> {
    // 19, 10 to 17 and 45, 44.
    let entries = addresses_then_tables(pair.local, pair.remote, tables)?.keys;

    // 35: "no entry matching the pair has the outgoing SendID (opening, signing)".
    let entry = by_send_id(&entries, pair, send_id).ok_or(Refusal::of(35))?;

    // "Opening sets each reference to that side's ISN; until the peer's ISN is known, it and its
    // reference are 0." "All [counts] are 0 at opening".
    let mut state = State::of_pair(pair);
    state.outgoing_send_id = entry.send_id;
    state.asked_recv_id = entry.recv_id;
    state.our_isn = isn;
    state.signing_reference = isn as u64;
    Ok(state)
}

/// A setting: what a bare SYN with TCP-AO gets where no entry matches its pair. "a setting decides:
/// pass (the RFC's first default) or drop 26"; Ticket 2: "the setting decides only where no entry
/// matches the pair."
#[derive(Clone, Copy, Debug, PartialEq, Eq)]
pub enum Setting {
    /// Pass.
    Pass,
    /// Drop 26.
    Drop,
}

/// Judges a bare SYN without a state (19, 10 to 17, 45, 44, 20, 40, 21, 22, 24, then 25, 26, 27, 29 or, by MD5,
/// 46, 47, 27, 29).
///
/// "Passive: a bare SYN is judged without a state."
pub fn judge_syn(
    tables: &Lent,
    source: &[u8],
    destination: &[u8],
    segment: &[u8],
    setting: Setting,
) -> Verdict {
    match take_syn(tables, source, destination, segment, setting) {
        // "A bare SYN and the SYN+ACK that opens have extension 0".
        Ok(Some(_)) => Verdict::Accept(0),
        Ok(None) => Verdict::Pass,
        Err(refusal) => Verdict::Drop(refusal),
    }
}

/// Opens passively; the numbers are those of [`judge_syn`].
///
/// "A second call takes the same SYN and our ISN, judges it again and, only on accept, opens with
/// the entry found, then applies the key rule below (house). An opening refused, or a SYN only
/// passed, returns the empty state, family 0."
pub fn open_passive(
    tables: &Lent,
    source: &[u8],
    destination: &[u8],
    segment: &[u8],
    isn: u32,
    setting: Setting,
) -> (Verdict, State) {
    let syn = match take_syn(tables, source, destination, segment, setting) {
        Ok(Some(syn)) => syn,
        Ok(None) => return (Verdict::Pass, State::EMPTY),
        Err(refusal) => return (Verdict::Drop(refusal), State::EMPTY),
    };

    // "Opening sets each reference to that side's ISN". "All [counts] are 0 at opening; the segment
    // that opens is not counted."
    let pair = arriving_pair(source, destination, &syn.header);
    let mut state = State::of_pair(&pair);
    state.stage = STAGE_OPEN;
    state.our_isn = isn;
    state.peer_isn = syn.header.sequence;
    state.signing_reference = isn as u64;
    state.arriving_reference = syn.header.sequence as u64;
    match syn.signed {
        SynSigned::Ao {
            entries,
            entry,
            rnext_key_id,
        } => {
            state.outgoing_send_id = entry.send_id;
            state.asked_recv_id = entry.recv_id;
            key_rule(&entries, &pair, rnext_key_id, &mut state);
        }
        // Both IDs stay 0.
        SynSigned::Md5 => state.way = WAY_MD5,
    }
    (Verdict::Accept(0), state)
}

/// An accepted bare SYN.
struct AcceptedSyn<'t> {
    header: Header,
    signed: SynSigned<'t>,
}

/// Which way a bare SYN was signed.
enum SynSigned<'t> {
    /// By TCP-AO, under this entry of these.
    Ao {
        entries: Vec<Entry<'t>>,
        entry: Entry<'t>,
        rnext_key_id: u8,
    },
    /// By MD5.
    Md5,
}

/// Judges a bare SYN; nothing if it passes.
fn take_syn<'t>(
    tables: &Lent<'t>,
    source: &[u8],
    destination: &[u8],
    segment: &[u8],
    setting: Setting,
) -> Result<Option<AcceptedSyn<'t>>, Refusal> {
    // 19, 10 to 17 and 45, 44.
    let tables = addresses_then_tables(source, destination, tables)?;
    let entries = tables.keys;

    // 20, 40, 21, 22.
    let (header, options) = readable(source, destination, segment)?;

    // 24: "wrong segment for the stage". "a bare SYN is judged without a state."
    if !header.is_bare_syn() {
        return Err(Refusal::of(24));
    }

    // "A connection goes by the way it was opened ..., a bare SYN without one by the table that matches,
    // else as before."
    let pair = arriving_pair(source, destination, &header);
    if let Some(entry) = matching(&tables.md5, &pair) {
        let arrival = Md5Arrival {
            source,
            destination,
            segment,
            header,
            options,
        };
        arrival.agrees(Some(entry))?;
        return Ok(Some(AcceptedSyn {
            header,
            signed: SynSigned::Md5,
        }));
    }

    // 25, or a pass. MD5 alone is no TCP-AO.
    let Some(ao) = options.ao else {
        return without_ao(&entries, &pair).map(|()| None);
    };

    // "Bare SYN with TCP-AO: the entry is found by pair and KeyID = RecvID." If there is none, 26 or
    // a pass.
    let Some(entry) = by_recv_id(&entries, &pair, ao.key_id) else {
        return unknown_key_id(&entries, &pair, setting).map(|()| None);
    };

    // 27: "MAC length wrong".
    mac_length(&entry, &ao)?;

    // 29: "MAC differs". "For a bare SYN (SYN set, ACK clear) the destination ISN is zero." Its
    // extension is 0.
    let ends = Ends {
        source,
        destination,
        source_port: header.source_port,
        destination_port: header.destination_port,
        source_isn: header.sequence,
        destination_isn: 0,
    };
    let carrier = WithAo {
        segment,
        header,
        ao,
    };
    mac_agrees(&entry, &ends, 0, &carrier)?;

    Ok(Some(AcceptedSyn {
        header,
        signed: SynSigned::Ao {
            entries,
            entry,
            rnext_key_id: ao.rnext_key_id,
        },
    }))
}

/// A segment that arrives where MD5 is due.
struct Md5Arrival<'a> {
    source: &'a [u8],
    destination: &'a [u8],
    segment: &'a [u8],
    header: Header,
    options: Options,
}

impl Md5Arrival<'_> {
    /// 46, 47, 26, 27 and 29, by the MD5 entry that matches the pair.
    fn agrees(&self, entry: Option<Md5Entry>) -> Result<(), Refusal> {
        // 46: "The MD5 way drops kind 29 alone with 46". With MD5 beside it, it was 22.
        if self.options.ao.is_some() {
            return Err(Refusal::of(46));
        }

        // 47: "and an unsigned segment with 47".
        let md5 = self.options.md5.ok_or(Refusal::of(47))?;

        // 26: "and kind 19 with no entry with 26".
        let entry = entry.ok_or(Refusal::of(26))?;

        // 27: "a length other than 18 gives 27".
        if md5.length != Md5Option::BYTES {
            return Err(Refusal::of(27));
        }

        // 29: "a wrong digest 29".
        let carried = &self.segment[md5.at + Md5Option::FRONT..md5.at + Md5Option::BYTES];
        let digest = tcp_md5::digest(
            self.source,
            self.destination,
            self.segment,
            &self.header,
            entry.key,
        );
        if carried != digest {
            return Err(Refusal::of(29));
        }
        Ok(())
    }
}

/// "Bare SYN without TCP-AO: 25 if any entry matches the pair, otherwise pass."
fn without_ao(entries: &[Entry], pair: &Pair) -> Result<(), Refusal> {
    if any_matches(entries, pair) {
        return Err(Refusal::of(25));
    }
    Ok(())
}

/// A bare SYN with TCP-AO for whose pair and KeyID there is no entry. Ticket 2: "drop 26 is given
/// whenever any entry matches the pair and none has the KeyID; the setting decides only where no
/// entry matches the pair."
fn unknown_key_id(entries: &[Entry], pair: &Pair, setting: Setting) -> Result<(), Refusal> {
    if any_matches(entries, pair) {
        return Err(Refusal::of(26));
    }
    match setting {
        Setting::Pass => Ok(()),
        Setting::Drop => Err(Refusal::of(26)),
    }
}

/// Judges a segment that arrives on a connection, opening or open (18, 19, 10 to 17, 45, 44, 20, 40, 21 to 24, then
/// 25 to 29 or, by MD5, 46, 47, 26, 27, 29).
pub fn judge(
    tables: &Lent,
    source: &[u8],
    destination: &[u8],
    segment: &[u8],
    state: &State,
) -> (Verdict, State) {
    let mut after = *state;
    let verdict = match take_arrival(tables, source, destination, segment, &mut after) {
        Ok(extension) => Verdict::Accept(extension),
        Err(refusal) => {
            // "A refusal leaves outputs and state alike, except that drops 20 to 29 on an open
            // connection add one to that number's count." Ticket 5: "the counted drops and their sum
            // include" 40. Ticket 9, of 46 and 47: "counted and within the sum".
            if state.is_open() {
                after.count_drop(refusal.number);
            }
            Verdict::Drop(refusal)
        }
    };
    (verdict, after)
}

/// Judges a segment that arrives; the state changes only if it is accepted, and its extension is
/// then given.
fn take_arrival(
    tables: &Lent,
    source: &[u8],
    destination: &[u8],
    segment: &[u8],
    state: &mut State,
) -> Result<u32, Refusal> {
    let before = *state;
    let open = before.is_open();

    // 18: "state's family is neither IPv4 nor IPv6".
    let pair = before.pair().ok_or(Refusal::of(18))?;

    // 19, 10 to 17 and 45, 44.
    let tables = addresses_then_tables(source, destination, tables)?;
    let entries = tables.keys;

    // 20, 40, 21, 22.
    let (header, options) = readable(source, destination, segment)?;

    // 23: "pair is not the state's".
    if arriving_pair(source, destination, &header) != pair {
        return Err(Refusal::of(23));
    }

    // 24: "wrong segment for the stage". Open: "each segment that carries SYN and ACK, or no SYN".
    // Opening: "An accepted SYN+ACK opens the connection".
    let right_segment = if open {
        !header.is_bare_syn()
    } else {
        header.is_syn_ack()
    };
    if !right_segment {
        return Err(Refusal::of(24));
    }

    // "A connection goes by the way it was opened and never accepts the other".
    if before.goes_by_md5() {
        let arrival = Md5Arrival {
            source,
            destination,
            segment,
            header,
            options,
        };
        arrival.agrees(matching(&tables.md5, &pair))?;

        // Accepted: "An MD5 accept has extension 0; after opening neither it nor signing moves a reference".
        if open {
            state.count_accept();
        } else {
            open_by_syn_ack(header.sequence, state);
        }
        return Ok(0);
    }

    // 25: "TCP-AO missing".
    let ao = options.ao.ok_or(Refusal::of(25))?;

    // 26: "no entry for its KeyID".
    let entry = by_recv_id(&entries, &pair, ao.key_id).ok_or(Refusal::of(26))?;

    // 27: "MAC length wrong".
    mac_length(&entry, &ao)?;

    // 28: "no position". "A bare SYN and the SYN+ACK that opens have extension 0 and their own
    // number as position; once open, every segment goes by its position."
    let x = if open {
        position(before.arriving_reference, header.sequence).ok_or(Refusal::of(28))?
    } else {
        header.sequence as u64
    };

    // 29: "MAC differs". Open: "judged and signed with both ISNs". The SYN+ACK that opens: "its
    // sequence number is the peer's ISN, its extension 0."
    let ends = Ends {
        source,
        destination,
        source_port: header.source_port,
        destination_port: header.destination_port,
        source_isn: if open {
            before.peer_isn
        } else {
            header.sequence
        },
        destination_isn: before.our_isn,
    };
    let carrier = WithAo {
        segment,
        header,
        ao,
    };
    mac_agrees(&entry, &ends, extension(x), &carrier)?;

    // Accepted.
    if open {
        // "An accepted or signed segment sets its direction's reference to the larger of the old
        // one and X."
        state.arriving_reference = moved(before.arriving_reference, x);
        state.count_accept();
    } else {
        open_by_syn_ack(header.sequence, state);
    }

    // "After any acceptance".
    key_rule(&entries, &pair, ao.rnext_key_id, state);
    Ok(extension(x))
}

/// "An accepted SYN+ACK opens the connection; its sequence number is the peer's ISN". "Opening sets
/// each reference to that side's ISN". Of the counts: "All are 0 at opening; the segment that opens
/// is not counted." The way and both IDs stay.
fn open_by_syn_ack(sequence: u32, state: &mut State) {
    state.stage = STAGE_OPEN;
    state.peer_isn = sequence;
    state.signing_reference = state.our_isn as u64;
    state.arriving_reference = sequence as u64;
    state.accepted = 0;
    state.drops = [0; COUNTED.len()];
}

/// "After any acceptance: if RNextKeyID differs from the outgoing SendID, and an entry matching the
/// pair has that SendID, it becomes the outgoing key (7.5.2.e). Older keys may come back."
fn key_rule(entries: &[Entry], pair: &Pair, rnext_key_id: u8, state: &mut State) {
    let differs = rnext_key_id != state.outgoing_send_id;
    if differs && by_send_id(entries, pair, rnext_key_id).is_some() {
        state.outgoing_send_id = rnext_key_id;
    }
}

/// A signed segment and the state after it.
#[derive(Clone, Debug, PartialEq, Eq)]
pub struct Signed {
    /// The signed segment.
    pub segment: Vec<u8>,
    /// The state after it.
    pub state: State,
}

/// Signs a segment (18, 10 to 17, 45, 44, 30, 31, 33, 34, 35, 32, 36, 37); `room` is how many bytes the output has.
///
/// "Signing puts TCP-AO directly after byte 20, the old options behind it, raises the data offset
/// by 4, and writes checksum zero. KeyID is the outgoing SendID, RNextKeyID the asked RecvID." Ticket 4:
/// "The signer pads the option, directly behind it, with kind 1 bytes to the next multiple of four", "the
/// data offset rises by the words of the padded option". Ticket 5: "The signer now writes the right TCP
/// checksum over the pseudo-header, for both families and odd lengths."
pub fn sign(tables: &Lent, segment: &[u8], room: usize, state: &State) -> Result<Signed, Refusal> {
    // 18: "state's family is neither IPv4 nor IPv6".
    let pair = state.pair().ok_or(Refusal::of(18))?;

    // 10 to 17 and 45, 44.
    let tables = tables.read()?;
    let entries = &tables.keys;

    // 30: "signing: as 20".
    let header = Header::read(segment).ok_or(Refusal::of(30))?;

    // 31: "malformed, or TCP-AO or MD5 present".
    let options = read_options(segment, &header).ok_or(Refusal::of(31))?;
    if options.ao_count > 0 || options.md5_count > 0 {
        return Err(Refusal::of(31));
    }

    // 33: "ports not the state's".
    if header.source_port != pair.local_port || header.destination_port != pair.remote_port {
        return Err(Refusal::of(33));
    }

    // 34: "wrong segment for the stage". Opening: "A bare SYN whose number is our ISN may then be
    // signed." Open: "each segment that carries SYN and ACK, or no SYN".
    let right_segment = if state.is_open() {
        !header.is_bare_syn()
    } else {
        header.is_bare_syn()
    };
    if !right_segment {
        return Err(Refusal::of(34));
    }

    // "A connection goes by the way it was opened".
    if state.goes_by_md5() {
        return sign_md5(&tables, &pair, &header, segment, room, state);
    }

    // 35: "no entry matching the pair has the outgoing SendID (opening, signing)".
    let key_id = state.outgoing_send_id;
    let entry = by_send_id(entries, &pair, key_id).ok_or(Refusal::of(35))?;

    // 32: "tested now after 35, is given when it [the data offset] would pass 15 or the result 65,535
    // bytes". "TCP-AO is kind 29, length, KeyID, RNextKeyID, MAC."
    let ao_bytes = AoOption::FRONT + entry.mac_bytes;
    let padded_bytes = ao_bytes.next_multiple_of(4);
    let signed_bytes = segment.len() + padded_bytes;
    let signed_offset = header.data_offset + padded_bytes / 4;
    if signed_offset > 15 || signed_bytes > 65_535 {
        return Err(Refusal::of(32));
    }

    // 36: "no position, or a SYN (bare or with ACK) whose position is not our ISN". "A bare SYN and
    // the SYN+ACK that opens have extension 0 and their own number as position; once open, every
    // segment goes by its position."
    let x = if state.is_open() {
        position(state.signing_reference, header.sequence).ok_or(Refusal::of(36))?
    } else {
        header.sequence as u64
    };
    if header.syn() && x != state.our_isn as u64 {
        return Err(Refusal::of(36));
    }

    // 37: "output too short".
    if room < signed_bytes {
        return Err(Refusal::of(37));
    }

    // The signed segment, first with a MAC of zeros.
    let ao = AoOption {
        at: OPTIONS_AT,
        length: ao_bytes,
        key_id,
        rnext_key_id: state.asked_recv_id,
    };
    let mut signed = Vec::with_capacity(signed_bytes);
    signed.extend_from_slice(&segment[..20]);
    signed.extend_from_slice(&[KIND_TCP_AO, ao_bytes as u8, ao.key_id, ao.rnext_key_id]);
    signed.resize(20 + ao_bytes, 0);
    signed.resize(20 + padded_bytes, KIND_NO_OPERATION);
    signed.extend_from_slice(&segment[20..]);
    signed[12] = (signed_offset as u8) << 4 | segment[12] & 0x0f;
    signed[CHECKSUM].fill(0);

    // "Open: ... signed with both ISNs." "For a bare SYN (SYN set, ACK clear) the destination ISN
    // is zero."
    let bare = header.is_bare_syn();
    let ends = Ends {
        source: pair.local,
        destination: pair.remote,
        source_port: header.source_port,
        destination_port: header.destination_port,
        source_isn: state.our_isn,
        destination_isn: if bare { 0 } else { state.peer_isn },
    };
    let carrier = WithAo {
        segment: &signed,
        header: Header {
            data_offset: signed_offset,
            ..header
        },
        ao,
    };
    let mac = mac::mac(&entry, Direction::Leaving, &ends, extension(x), &carrier);
    let mac_at = ao.at + AoOption::FRONT;
    signed[mac_at..mac_at + mac.len()].copy_from_slice(&mac);

    // The checksum, over all that is sent: the MAC is in already, and a hidden side's address and port
    // count as they are.
    let right = checksum::checksum(pair.local, pair.remote, &signed);
    signed[CHECKSUM].copy_from_slice(&right.to_be_bytes());

    // "An accepted or signed segment sets its direction's reference to the larger of the old one
    // and X."
    let mut after = *state;
    after.signing_reference = moved(state.signing_reference, x);
    Ok(Signed {
        segment: signed,
        state: after,
    })
}

/// Signs a segment by MD5, from 35 on: 35, 32, 36, 37.
///
/// "The signer puts it after byte 20 with two kind 1 bytes behind it".
fn sign_md5(
    tables: &Tables,
    pair: &Pair,
    header: &Header,
    segment: &[u8],
    room: usize,
    state: &State,
) -> Result<Signed, Refusal> {
    // 35: "kind 19 with no entry with 26 (opening, signing: 35; asking: always 35)".
    let entry = matching(&tables.md5, pair).ok_or(Refusal::of(35))?;

    // 32: "with two kind 1 bytes behind it, which 32 counts".
    let added = Md5Option::BYTES + 2;
    let signed_bytes = segment.len() + added;
    let signed_offset = header.data_offset + added / 4;
    if signed_offset > 15 || signed_bytes > 65_535 {
        return Err(Refusal::of(32));
    }

    // 36: "36 only for a SYN whose number is not our ISN".
    if header.syn() && header.sequence != state.our_isn {
        return Err(Refusal::of(36));
    }

    // 37: "output too short".
    if room < signed_bytes {
        return Err(Refusal::of(37));
    }

    // The signed segment, first with a digest of zeros.
    let mut signed = Vec::with_capacity(signed_bytes);
    signed.extend_from_slice(&segment[..20]);
    signed.extend_from_slice(&[KIND_MD5, Md5Option::BYTES as u8]);
    signed.resize(20 + Md5Option::BYTES, 0);
    signed.resize(20 + added, KIND_NO_OPERATION);
    signed.extend_from_slice(&segment[20..]);
    signed[12] = (signed_offset as u8) << 4 | segment[12] & 0x0f;
    signed[CHECKSUM].fill(0);

    let signed_header = Header {
        data_offset: signed_offset,
        ..*header
    };
    let digest = tcp_md5::digest(pair.local, pair.remote, &signed, &signed_header, entry.key);
    let digest_at = OPTIONS_AT + Md5Option::FRONT;
    signed[digest_at..digest_at + digest.len()].copy_from_slice(&digest);

    // The checksum, over all that is sent.
    let right = checksum::checksum(pair.local, pair.remote, &signed);
    signed[CHECKSUM].copy_from_slice(&right.to_be_bytes());

    // "after opening neither it nor signing moves a reference". The bare SYN goes by document 01: "A bare
    // SYN ... [has its] own number as position", and the reference becomes the larger.
    let mut after = *state;
    if !state.is_open() {
        after.signing_reference = moved(state.signing_reference, header.sequence as u64);
    }
    Ok(Signed {
        segment: signed,
        state: after,
    })
}

/// Sets the RecvID asked of the peer (18, 10 to 17, 45, 44, 35).
///
/// "An operator call sets the RecvID asked of the peer; nothing else does."
pub fn ask(tables: &Lent, recv_id: u8, state: &State) -> Result<State, Refusal> {
    // 18: "state's family is neither IPv4 nor IPv6".
    let pair = state.pair().ok_or(Refusal::of(18))?;

    // 10 to 17 and 45, 44.
    let entries = tables.read()?.keys;

    // 35, on the MD5 way: "asking: always 35".
    if state.goes_by_md5() {
        return Err(Refusal::of(35));
    }

    // 35: "no entry matching the pair has ... the RecvID to ask (operator call)".
    if by_recv_id(&entries, &pair, recv_id).is_none() {
        return Err(Refusal::of(35));
    }

    let mut after = *state;
    after.asked_recv_id = recv_id;
    Ok(after)
}

/// 19: "addresses not both 4 or both 16 bytes".
fn addresses(one: &[u8], other: &[u8]) -> Result<(), Refusal> {
    match (one.len(), other.len()) {
        (4, 4) | (16, 16) => Ok(()),
        _ => Err(Refusal::of(19)),
    }
}

/// 19, then 10 to 17 and 45.
fn addresses_then_tables<'t>(
    one: &[u8],
    other: &[u8],
    tables: &Lent<'t>,
) -> Result<Tables<'t>, Refusal> {
    addresses(one, other)?;
    tables.read()
}

/// 20, 40, 21 and 22 of an arriving segment, with the addresses that it came with.
fn readable(
    source: &[u8],
    destination: &[u8],
    segment: &[u8],
) -> Result<(Header, Options), Refusal> {
    // 20: "bad length or offset".
    let header = Header::read(segment).ok_or(Refusal::of(20))?;

    // 40: "Arriving segments whose one's complement sum, pseudo-header and checksum included, is not
    // FFFF are dropped with 40, tested after 20 and before 21".
    if checksum::sum(source, destination, segment) != 0xffff {
        return Err(Refusal::of(40));
    }

    // 21: "malformed options".
    let options = read_options(segment, &header).ok_or(Refusal::of(21))?;

    // 22: "two TCP-AO, or TCP-AO and MD5 together". Ticket 9: "Two kind 19 give 22".
    let two_ao = options.ao_count >= 2;
    let ao_and_md5 = options.ao_count >= 1 && options.md5_count >= 1;
    let two_md5 = options.md5_count >= 2;
    if two_ao || ao_and_md5 || two_md5 {
        return Err(Refusal::of(22));
    }
    Ok((header, options))
}

/// The pair of an arriving segment as our end holds it: the peer is the source.
fn arriving_pair<'a>(source: &'a [u8], destination: &'a [u8], header: &Header) -> Pair<'a> {
    Pair {
        local: destination,
        remote: source,
        local_port: header.destination_port,
        remote_port: header.source_port,
    }
}

/// 27: "MAC length wrong". "TCP-AO is kind 29, length, KeyID, RNextKeyID, MAC." Ticket 4: "27 compares
/// with the entry's length".
fn mac_length(entry: &Entry, ao: &AoOption) -> Result<(), Refusal> {
    if ao.length == AoOption::FRONT + entry.mac_bytes {
        Ok(())
    } else {
        Err(Refusal::of(27))
    }
}

/// 29: "MAC differs".
fn mac_agrees(entry: &Entry, ends: &Ends, extension: u32, carrier: &WithAo) -> Result<(), Refusal> {
    let mac = mac::mac(entry, Direction::Arriving, ends, extension, carrier);
    if carrier.mac() == mac {
        Ok(())
    } else {
        Err(Refusal::of(29))
    }
}
