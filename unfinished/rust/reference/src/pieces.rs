//! Data that comes in pieces: Ticket 11.
//!
//! "Add signing and checking that take the header first and then the data in up to sixteen parts, with a fixed-size
//! state. Wherever the data are cut, empty parts included, verdict and MAC are those of the whole segment at the header
//! call."
//!
//! A run here keeps all that its calls were given, and its end call makes the call on the whole segment with what stood
//! at the header call. It has no bytes of its own: their layout is the library's.

use crate::answer::{Refusal, Verdict};
use crate::calls::{self, addresses_then_tables, key_rule, open_by_syn_ack};
use crate::md5_table::Lent;
use crate::position::{moved, position};
use crate::segment::{read_options, Header};
use crate::state::State;
use crate::table::Entry;

/// "the data in up to sixteen parts".
pub const MOST_PARTS: usize = 16;

/// What a run is for.
#[derive(Clone, Debug, PartialEq, Eq)]
pub enum Kind {
    /// Checking a segment that arrives.
    Judging {
        /// The source's address.
        source: Vec<u8>,
        /// The destination's address.
        destination: Vec<u8>,
    },
    /// Signing.
    Signing,
}

/// A run, begun by a header call.
#[derive(Clone, Debug, PartialEq, Eq)]
pub struct Run {
    /// What it is for.
    pub kind: Kind,
    /// The tables at the header call, as they were lent.
    pub form: u8,
    /// The key table's bytes, or the prepared table.
    pub keys: Vec<u8>,
    /// The MD5 table's bytes.
    pub md5: Vec<u8>,
    /// The state at the header call.
    pub state: State,
    /// The header.
    pub header: Vec<u8>,
    /// "how many bytes of data will come".
    pub announced: u64,
    /// How many parts have come.
    pub parts: usize,
    /// What has come.
    pub data: Vec<u8>,
}

/// A run's buffer, lent by the caller. "A run buffer of another length, and a run of the other kind, get 48."
#[allow(clippy::large_enum_variant)] // a run is what a buffer is for
#[derive(Clone, Debug, PartialEq, Eq)]
pub enum Buffer {
    /// Of another length than a run's.
    OfOtherLength,
    /// Of a run's length, with nothing in it that a header call left.
    Blank,
    /// With a run.
    Holds(Run),
}

impl Buffer {
    /// The run, if it is one for checking.
    pub fn judging(&self) -> Option<&Run> {
        match self {
            Buffer::Holds(run) if run.kind != Kind::Signing => Some(run),
            _ => None,
        }
    }

    /// The run, if it is one for signing.
    pub fn signing(&self) -> Option<&Run> {
        match self {
            Buffer::Holds(run) if run.kind == Kind::Signing => Some(run),
            _ => None,
        }
    }
}

/// Whether bytes are "just the header that their data offset (5 to 15) names".
fn is_just_a_header(bytes: &[u8]) -> bool {
    let Some(thirteenth) = bytes.get(12) else {
        return false;
    };
    let data_offset = (thirteenth >> 4) as usize;
    data_offset >= 5 && bytes.len() == 4 * data_offset
}

/// Begins checking (48, 18, 19, 10 to 17, 45, 44). There is no state where its buffer has another length.
pub fn judge_header(
    tables: &Lent,
    source: &[u8],
    destination: &[u8],
    header: &[u8],
    announced: u64,
    state: Option<&State>,
) -> Result<Run, Refusal> {
    // 48: "A header call whose bytes are not just the header that their data offset (5 to 15) names ... is refused with
    // 48, before every other number".
    if !is_just_a_header(header) {
        return Err(Refusal::of(48));
    }

    // 18.
    let state = with_family(state)?;

    // 19, 10 to 17 and 45, 44.
    addresses_then_tables(source, destination, tables)?;

    let kind = Kind::Judging {
        source: source.to_vec(),
        destination: destination.to_vec(),
    };
    Ok(begun(kind, tables, header, announced, state))
}

/// Begins signing (48, 18, 10 to 17, 45, 44).
pub fn sign_header(
    tables: &Lent,
    header: &[u8],
    announced: u64,
    state: Option<&State>,
) -> Result<Run, Refusal> {
    // 48.
    if !is_just_a_header(header) {
        return Err(Refusal::of(48));
    }

    // 18.
    let state = with_family(state)?;

    // 10 to 17 and 45, 44.
    tables.read()?;

    Ok(begun(Kind::Signing, tables, header, announced, state))
}

/// 18: "state's family is neither IPv4 nor IPv6"; also for a buffer of another length.
fn with_family(state: Option<&State>) -> Result<&State, Refusal> {
    state
        .filter(|state| state.pair().is_some())
        .ok_or(Refusal::of(18))
}

fn begun(kind: Kind, tables: &Lent, header: &[u8], announced: u64, state: &State) -> Run {
    Run {
        kind,
        form: tables.form,
        keys: tables.keys.to_vec(),
        md5: tables.md5.to_vec(),
        state: *state,
        header: header.to_vec(),
        announced,
        parts: 0,
        data: vec![],
    }
}

/// The run after one more part (48).
pub fn part(run: &Run, data: &[u8]) -> Result<Run, Refusal> {
    // 48: "so is a run's state with counts that no calls could leave".
    run.possible()?;

    // 48: "a seventeenth part".
    if run.parts == MOST_PARTS {
        return Err(Refusal::of(48));
    }

    // 48: "more ... bytes than it announced".
    let left = run.announced - run.data.len() as u64;
    if data.len() as u64 > left {
        return Err(Refusal::of(48));
    }

    let mut after = run.clone();
    after.parts += 1;
    after.data.extend_from_slice(data);
    Ok(after)
}

impl Run {
    /// 48: "a run's state with counts that no calls could leave": more parts than sixteen, more bytes than announced,
    /// bytes without a part, or a header that is none.
    fn possible(&self) -> Result<(), Refusal> {
        let received = self.data.len() as u64;
        let possible = self.parts <= MOST_PARTS
            && received <= self.announced
            && (self.parts > 0 || received == 0)
            && is_just_a_header(&self.header);
        if !possible {
            return Err(Refusal::of(48));
        }
        Ok(())
    }

    /// 48 at an end call: counts that no calls could leave, or "fewer bytes than it announced".
    fn whole(&self) -> Result<(), Refusal> {
        self.possible()?;
        if (self.data.len() as u64) < self.announced {
            return Err(Refusal::of(48));
        }
        Ok(())
    }

    /// 48 at an end call: "48 is given if its pair, way, stage or ISNs have changed", each by its meaning.
    fn same_connection(&self, now: &State) -> Result<(), Refusal> {
        let then = &self.state;
        let same = then.pair() == now.pair()
            && then.goes_by_md5() == now.goes_by_md5()
            && then.is_open() == now.is_open()
            && then.our_isn == now.our_isn
            && then.peer_isn == now.peer_isn;
        if !same {
            return Err(Refusal::of(48));
        }
        Ok(())
    }

    /// 48, then 18: the state as it stands at an end call. "48 comes before 18, also where the state buffer has another
    /// length".
    fn connection_at_end<'s>(&self, state: Option<&'s State>) -> Result<&'s State, Refusal> {
        self.whole()?;
        let state = state.ok_or(Refusal::of(18))?;
        self.same_connection(state)?;
        with_family(Some(state))
    }

    /// The tables as they were at the header call.
    fn tables(&self) -> Lent<'_> {
        Lent {
            form: self.form,
            keys: &self.keys,
            md5: &self.md5,
        }
    }

    /// The whole segment.
    fn segment(&self) -> Vec<u8> {
        [&self.header[..], &self.data].concat()
    }
}

/// Ends checking (48, 18, 10 to 17, 45, 44, then 20 on); the verdict and the state after it.
pub fn judge_end(
    tables: &Lent,
    run: &Run,
    state: Option<&State>,
) -> Result<(Verdict, State), Refusal> {
    // 48, 18.
    let state = run.connection_at_end(state)?;

    // 10 to 17 and 45, 44, of the tables as they now stand.
    let entries = tables.read()?.keys;

    // "verdict and MAC are those of the whole segment at the header call."
    let Kind::Judging {
        source,
        destination,
    } = &run.kind
    else {
        return Err(Refusal::of(48));
    };
    let segment = run.segment();
    let (verdict, _) = calls::judge(&run.tables(), source, destination, &segment, &run.state);

    // "The state moves and counts only at the end call, as it and the table then stand".
    let mut after = *state;
    match verdict {
        Verdict::Accept(extension) => accept(&segment, extension, &entries, &mut after),
        Verdict::Drop(refusal) if after.is_open() => after.count_drop(refusal.number),
        _ => {}
    }
    Ok((verdict, after))
}

/// What an acceptance at this extension does to the state as it now stands.
fn accept(segment: &[u8], extension: u32, entries: &[Entry], state: &mut State) {
    let Some(header) = Header::read(segment) else {
        return;
    };

    // "An accepted or signed segment sets its direction's reference to the larger of the old one and X." Ticket 9: "after
    // opening neither it nor signing moves a reference".
    if state.is_open() {
        if !state.goes_by_md5() {
            let x = (extension as u64) << 32 | header.sequence as u64;
            state.arriving_reference = moved(state.arriving_reference, x);
        }
        state.count_accept();
    } else {
        open_by_syn_ack(header.sequence, state);
    }

    // "After any acceptance": by the table as it now stands.
    let ao = read_options(segment, &header).and_then(|options| options.ao);
    let before = *state;
    if let (Some(ao), Some(pair)) = (ao, before.pair()) {
        key_rule(entries, &pair, ao.rnext_key_id, state);
    }
}

/// A signed header and the state after it.
#[derive(Clone, Debug, PartialEq, Eq)]
pub struct SignedHeader {
    /// The signed header.
    pub header: Vec<u8>,
    /// The state after it.
    pub state: State,
}

/// Ends signing (48, 18, then 30 on) for an output of so many bytes.
pub fn sign_end(run: &Run, room: usize, state: Option<&State>) -> Result<SignedHeader, Refusal> {
    // 48, 18.
    let state = run.connection_at_end(state)?;

    // 30 to 36: "verdict and MAC are those of the whole segment at the header call."
    let segment = run.segment();
    let signed = calls::sign(&run.tables(), &segment, usize::MAX, &run.state)?;

    // 37: "for signing writes the signed header alone (37 asks room for that)".
    let header_bytes = signed.segment.len() - run.data.len();
    if room < header_bytes {
        return Err(Refusal::of(37));
    }

    // "The state moves ... only at the end call, as it ... then stand[s]".
    let mut after = *state;
    if let Some(x) = signed_position(run) {
        after.signing_reference = moved(after.signing_reference, x);
    }
    Ok(SignedHeader {
        header: signed.segment[..header_bytes].to_vec(),
        state: after,
    })
}

/// "A signed segment's true position is the X it was signed by": by the reference at the header call; of a bare SYN its own
/// number; none by MD5 once open.
fn signed_position(run: &Run) -> Option<u64> {
    let sequence = Header::read(&run.header)?.sequence;
    match (run.state.is_open(), run.state.goes_by_md5()) {
        (false, _) => Some(sequence as u64),
        (true, false) => position(run.state.signing_reference, sequence),
        (true, true) => None,
    }
}
