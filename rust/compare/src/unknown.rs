//! Of a bare SYN with TCP-AO whose KeyID has no entry for its pair: which entries match the pair.

use kit::{Call, Function, Outcome};
use reference::segment::{read_options, Header};
use reference::table::{Entry, Pair, Side};

pub struct Unknown {
    /// Judged without a state, or a passive opening.
    pub function: Function,
    /// Whether the setting is pass.
    pub pass: bool,
    pub matched: Matched,
    /// Whether an entry that matches has a RecvID one off the KeyID.
    pub one_off: bool,
}

/// How the entries match that do.
#[derive(Clone, Copy, PartialEq)]
pub enum Matched {
    /// Each is for two addresses and two ports alone.
    Exactly,
    /// Each is for more pairs than this.
    Widely,
    /// Some so, some so.
    Both,
    /// There is none.
    None,
}

impl Unknown {
    /// Of a call that passed the SYN or dropped it with 26.
    pub fn of(call: &Call, outcome: &Outcome, keys: &[Entry]) -> Option<Unknown> {
        let listens = matches!(call.function, Function::JudgeSyn | Function::OpenPassive);
        if !listens || !matches!(outcome.number(), 1 | 26) {
            return None;
        }
        let header = Header::read(&call.segment)?;
        let ao = read_options(&call.segment, &header)?.ao?;
        let pair = Pair {
            local: &call.destination,
            remote: &call.source,
            local_port: header.destination_port,
            remote_port: header.source_port,
        };
        let mut entries = keys.to_vec();
        entries.retain(|entry| entry.matches(&pair));
        let off = |step: u8| move |entry: &Entry| entry.recv_id == ao.key_id.wrapping_add(step);
        Some(Unknown {
            function: call.function,
            pass: call.byte == 0,
            matched: Matched::of(&entries),
            one_off: entries.iter().any(off(1)) || entries.iter().any(off(255)),
        })
    }
}

impl Matched {
    /// Of the entries that match.
    fn of(entries: &[Entry]) -> Matched {
        let exact = entries.iter().filter(|entry| exact(entry)).count();
        match (exact, entries.len() - exact) {
            (0, 0) => Matched::None,
            (_, 0) => Matched::Exactly,
            (0, _) => Matched::Widely,
            _ => Matched::Both,
        }
    }
}

/// Whether an entry is for one pair alone.
fn exact(entry: &Entry) -> bool {
    let one = |side: &Side| side.low == side.high && side.prefix == 8 * side.address.len();
    one(&entry.local) && one(&entry.remote)
}
