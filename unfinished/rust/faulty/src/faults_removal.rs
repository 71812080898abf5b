//! The faults of taking a key away (Ticket 7), each as an edit of the reference's text.

use crate::switches::Edit::{Before, Instead};
use crate::switches::Planted;

pub const FAULTS: &[Planted] = &[
    // Which connections.
    Planted {
        name: "OpeningNotLookedAt",
        does: "Only open connections hold a key.",
        breaks: "\"if a connection, open or opening, sends under it or asks its peer for it\"",
        file: "removal.rs",
        function: "fn counts(",
        edits: &[Instead("!state.goes_by_md5()", "!state.goes_by_md5() && state.is_open()")],
    },
    Planted {
        name: "Md5ConnectionHoldsKey",
        does: "A connection by MD5 whose IDs agree holds a key, too.",
        breaks: "\"sends under it or asks its peer for it\"",
        file: "removal.rs",
        function: "fn counts(",
        edits: &[Instead("!state.goes_by_md5()", "true")],
    },
    Planted {
        name: "OddWayHoldsNoKey",
        does: "A connection whose way is neither 0 nor 1 holds no key.",
        breaks: "\"way: 1 MD5, any other value TCP-AO\"",
        file: "removal.rs",
        function: "fn counts(",
        edits: &[Instead("!state.goes_by_md5()", "state.way == 0")],
    },
    Planted {
        name: "DoubledPlaceHoldsKey",
        does: "A place with the pair of an earlier one holds a key, too.",
        breaks: "\"of two places with one pair the first counts\"",
        file: "removal.rs",
        function: "fn counts(",
        edits: &[Instead("in_use == Some(place)", "in_use.is_some()")],
    },
    Planted {
        name: "FirstPlacesHoldKeys",
        does: "Only the first 64 places are looked at.",
        breaks: "\"if a connection, open or opening, sends under it\"",
        file: "removal.rs",
        function: "fn using(",
        edits: &[Instead(
            "counts(*place, connections)",
            "*place < 64 && counts(*place, connections)",
        )],
    },
    Planted {
        name: "OnlySendersHoldKey",
        does: "A connection that only asks its peer for the key does not hold it.",
        breaks: "\"sends under it or asks its peer for it\"",
        file: "removal.rs",
        function: "fn uses(",
        edits: &[Instead("sends || asks", "sends")],
    },
    Planted {
        name: "OnlyAskersHoldKey",
        does: "A connection that only sends under the key does not hold it.",
        breaks: "\"sends under it or asks its peer for it\"",
        file: "removal.rs",
        function: "fn uses(",
        edits: &[Instead("sends || asks", "asks")],
    },
    Planted {
        name: "BothNeededToHold",
        does: "A connection holds a key only if it sends under it and asks for it.",
        breaks: "\"sends under it or asks its peer for it\"",
        file: "removal.rs",
        function: "fn uses(",
        edits: &[Instead("sends || asks", "sends && asks")],
    },
    Planted {
        name: "IdsWithoutPair",
        does: "A connection of another pair with the same IDs holds the key.",
        breaks: "\"sends under it\": its entry must match the pair",
        file: "removal.rs",
        function: "fn uses(",
        edits: &[Instead("entry.matches(&pair)", "true")],
    },
    Planted {
        name: "PairWithoutIds",
        does: "Every connection that the entry matches holds it.",
        breaks: "\"sends under it or asks its peer for it\"",
        file: "removal.rs",
        function: "fn uses(",
        edits: &[Instead("sends || asks", "true")],
    },
    Planted {
        name: "IdsExchanged",
        does: "The outgoing key is looked for by RecvID and the asked one by SendID.",
        breaks: "\"KeyID is the outgoing SendID, RNextKeyID the asked RecvID\"",
        file: "removal.rs",
        function: "fn uses(",
        edits: &[
            Instead("entry.send_id == state.outgoing_send_id", "entry.recv_id == state.outgoing_send_id"),
            Instead("entry.recv_id == state.asked_recv_id", "entry.send_id == state.asked_recv_id"),
        ],
    },
    // Plain removal.
    Planted {
        name: "PlainAlwaysRemoves",
        does: "Plain removal takes a key away that is held.",
        breaks: "\"Plain removal is refused with 43\"",
        file: "removal.rs",
        function: "fn remove(",
        edits: &[Instead("!using(entry, connections).is_empty()", "false")],
    },
    Planted {
        name: "HeldThirtyFive",
        does: "Plain removal of a key that is held gives 35.",
        breaks: "\"Plain removal is refused with 43\"",
        file: "removal.rs",
        function: "fn remove(",
        edits: &[Instead("Refusal::of(43)", "Refusal::of(35)")],
    },
    Planted {
        name: "RemovedFromOne",
        does: "Plain removal counts entries from 1.",
        breaks: "\"with the entry's index from 0\"",
        file: "removal.rs",
        function: "fn remove(",
        edits: &[
            Instead(
                "entries.get(index as usize).ok_or(Refusal::of(35))?",
                "entries.get((index as usize).wrapping_sub(1)).ok_or(Refusal::of(35))?",
            ),
            Instead(
                "closed_up(keys, &entries, index as usize)",
                "closed_up(keys, &entries, index as usize - 1)",
            ),
        ],
    },
    Planted {
        name: "IndexOfOneByte",
        does: "Only the lowest byte of an index is looked at.",
        breaks: "\"Removal names the entry's index (35 if there is none)\"",
        file: "removal.rs",
        function: "fn remove(",
        edits: &[
            Instead("entries.get(index as usize).ok_or(Refusal::of(35))?", "entries.get(index as u8 as usize).ok_or(Refusal::of(35))?"),
            Instead(
                "closed_up(keys, &entries, index as usize)",
                "closed_up(keys, &entries, index as u8 as usize)",
            ),
        ],
    },
    Planted {
        name: "NoSuchEntryDone",
        does: "Plain removal of an entry that is not there is done.",
        breaks: "\"Removal names the entry's index (35 if there is none)\"",
        file: "removal.rs",
        function: "fn remove(",
        edits: &[Instead(
            "entries.get(index as usize).ok_or(Refusal::of(35))?",
            "match entries.get(index as usize) {
                Some(entry) => entry,
                None => return Ok(keys.to_vec()),
            }",
        )],
    },
    Planted {
        name: "LastInsteadOfNone",
        does: "An index behind the last entry names the last one.",
        breaks: "\"Removal names the entry's index (35 if there is none)\"",
        file: "removal.rs",
        function: "fn remove(",
        edits: &[
            Instead(
                "entries.get(index as usize).ok_or(Refusal::of(35))?",
                "entries.get((index as usize).min(entries.len().saturating_sub(1))).ok_or(Refusal::of(35))?",
            ),
            Instead(
                "closed_up(keys, &entries, index as usize)",
                "closed_up(keys, &entries, (index as usize).min(entries.len() - 1))",
            ),
        ],
    },
    Planted {
        name: "TableBeforeConnections",
        does: "10 to 17 before 18, at plain removal.",
        breaks: "\"18 (length), 10 to 17, 35, 43\"",
        file: "boundary.rs",
        function: "fn tcpao_remove_key(",
        edits: &[Before(
            "match Connections::from_bytes(connections)",
            "if let Err(refusal) = crate::table::read(keys) { return refusal_word(refusal); }",
        )],
    },
    Planted {
        name: "TableBeforeReplaced",
        does: "10 to 17 before 18, at forced removal.",
        breaks: "\"18 (length), 10 to 17, 35\"",
        file: "boundary.rs",
        function: "fn tcpao_replace_key(",
        edits: &[Before(
            "on_connections(connections",
            "if let Err(refusal) = crate::table::read(keys) { return refusal_word(refusal); }",
        )],
    },
    // Forced removal.
    Planted {
        name: "RemovedReplacesItself",
        does: "The entry that is removed counts as a replacement.",
        breaks: "\"no matching entry other than the one removed\"",
        file: "removal.rs",
        function: "fn replace(",
        edits: &[Instead("others.remove(index as usize)", "others[0]")],
    },
    Planted {
        name: "ReplacementSendIdOnly",
        does: "Only the replacement SendID must have an entry.",
        breaks: "\"if for any of them either has no matching entry\"",
        file: "removal.rs",
        function: "fn has_both(",
        edits: &[Instead("by_send.is_some() && by_recv.is_some()", "by_send.is_some()")],
    },
    Planted {
        name: "ReplacementRecvIdOnly",
        does: "Only the replacement RecvID must have an entry.",
        breaks: "\"if for any of them either has no matching entry\"",
        file: "removal.rs",
        function: "fn has_both(",
        edits: &[Instead("by_send.is_some() && by_recv.is_some()", "by_recv.is_some()")],
    },
    Planted {
        name: "ReplacementEither",
        does: "One of the two replacements is enough.",
        breaks: "\"if for any of them either has no matching entry\"",
        file: "removal.rs",
        function: "fn has_both(",
        edits: &[Instead(
            "by_send.is_some() && by_recv.is_some()",
            "by_send.is_some() || by_recv.is_some()",
        )],
    },
    Planted {
        name: "ReplacementOfOneEntry",
        does: "Both replacements must be the same entry's.",
        breaks: "\"if for any of them either has no matching entry\": each may have its own",
        file: "removal.rs",
        function: "fn has_both(",
        edits: &[Instead(
            "by_send.is_some() && by_recv.is_some()",
            "by_send.is_some() && by_send == by_recv",
        )],
    },
    Planted {
        name: "ReplacementOfAnyPair",
        does: "An entry for another pair is a replacement.",
        breaks: "\"no matching entry other than the one removed\"",
        file: "removal.rs",
        function: "fn has_both(",
        edits: &[Instead(
            "by_send.is_some() && by_recv.is_some()",
            "entries.iter().any(|entry| entry.send_id == send_id)
                && entries.iter().any(|entry| entry.recv_id == recv_id)",
        )],
    },
    Planted {
        name: "OneReplacedIsEnough",
        does: "35 is given only if none of the connections has its replacements.",
        breaks: "\"if for any of them either has no matching entry\"",
        file: "removal.rs",
        function: "fn replace(",
        edits: &[Instead(
            "!places.iter().all(replaced)",
            "!places.is_empty() && !places.iter().any(replaced)",
        )],
    },
    Planted {
        name: "ReplacementAlwaysNeeded",
        does: "The replacements must be there also where no connection holds the key.",
        breaks: "\"a replacement SendID and RecvID for those connections\"",
        file: "removal.rs",
        function: "fn replace(",
        edits: &[Before(
            "let replaced",
            "if !others.iter().any(|entry| entry.send_id == send_id) { return Err(Refusal::of(35)); }",
        )],
    },
    Planted {
        name: "ForcedFortyThree",
        does: "Forced removal without a replacement gives 43.",
        breaks: "\"refused with 35, changing none\"",
        file: "removal.rs",
        function: "fn replace(",
        edits: &[Instead("return Err(Refusal::of(35))", "return Err(Refusal::of(43))")],
    },
    Planted {
        name: "SomeChangeBeforeRefusal",
        does: "Connections that have their replacements change also where others have not.",
        breaks: "\"refused with 35, changing none\"",
        file: "removal.rs",
        function: "fn replace(",
        edits: &[Instead(
            "return Err(Refusal::of(35))",
            "for place in &places {
                let state = &mut connections.places[*place];
                if has_both(&others, state, send_id, recv_id) {
                    state.outgoing_send_id = send_id;
                    state.asked_recv_id = recv_id;
                }
            }
            return Err(Refusal::of(35))",
        )],
    },
    Planted {
        name: "KeyGoneBeforeRefusal",
        does: "Without a replacement the connections stay, and the key goes.",
        breaks: "\"refused with 35, changing none\"",
        file: "removal.rs",
        function: "fn replace(",
        edits: &[Instead(
            "return Err(Refusal::of(35))",
            "return Ok(closed_up(keys, &entries, index as usize))",
        )],
    },
    Planted {
        name: "OnlyFirstReplaced",
        does: "Only the first of the connections changes.",
        breaks: "\"both IDs of all of them change together\"",
        file: "removal.rs",
        function: "fn replace(",
        edits: &[Before(
            "state.outgoing_send_id = send_id;",
            "state.outgoing_send_id = send_id;
            state.asked_recv_id = recv_id;
            break;",
        )],
    },
    Planted {
        name: "OnlyHeldIdReplaced",
        does: "Only the ID that names the removed entry changes.",
        breaks: "\"both IDs of all of them change together\"",
        file: "removal.rs",
        function: "fn replace(",
        edits: &[Before(
            "state.outgoing_send_id = send_id;",
            "if state.outgoing_send_id == entry.send_id { state.outgoing_send_id = send_id; }
            if state.asked_recv_id == entry.recv_id { state.asked_recv_id = recv_id; }
            continue;",
        )],
    },
    Planted {
        name: "AskedNotReplaced",
        does: "The RecvID asked of the peer stays.",
        breaks: "\"both IDs of all of them change together\"",
        file: "removal.rs",
        function: "fn replace(",
        edits: &[Instead("state.asked_recv_id = recv_id", "()")],
    },
    Planted {
        name: "OutgoingNotReplaced",
        does: "The outgoing SendID stays.",
        breaks: "\"both IDs of all of them change together\"",
        file: "removal.rs",
        function: "fn replace(",
        edits: &[Instead("state.outgoing_send_id = send_id", "()")],
    },
    Planted {
        name: "ReplacedEverywhere",
        does: "Every connection in use that the entry matches changes.",
        breaks: "\"a replacement SendID and RecvID for those connections\"",
        file: "removal.rs",
        function: "fn replace(",
        edits: &[Before(
            "// \"otherwise both IDs",
            "for place in 0..connections.places.len() {
                let state = connections.places[place];
                if counts(place, connections) && state.pair().is_some_and(|pair| entry.matches(&pair)) {
                    connections.places[place].outgoing_send_id = send_id;
                    connections.places[place].asked_recv_id = recv_id;
                }
            }",
        )],
    },
    Planted {
        name: "ForcedKeepsKey",
        does: "Forced removal changes the connections and leaves the table.",
        breaks: "\"the table closes up over it\"",
        file: "removal.rs",
        function: "fn replace(",
        edits: &[Instead("closed_up(keys, &entries, index as usize)", "keys.to_vec()")],
    },
    Planted {
        name: "ForcedNoSuchEntryDone",
        does: "Forced removal of an entry that is not there is done.",
        breaks: "\"Removal names the entry's index (35 if there is none)\"",
        file: "removal.rs",
        function: "fn replace(",
        edits: &[Instead(
            "entries.get(index as usize).ok_or(Refusal::of(35))?",
            "match entries.get(index as usize) {
                Some(entry) => entry,
                None => return Ok(keys.to_vec()),
            }",
        )],
    },
    // The table.
    Planted {
        name: "EveryEntryOfKindFour",
        does: "Every entry is taken to have kind 4's length.",
        breaks: "\"the table closes up over it\"",
        file: "removal.rs",
        function: "fn closed_up(",
        edits: &[Instead("body_bytes(entry.kind).unwrap_or(0)", "103")],
    },
    Planted {
        name: "EntryZeroed",
        does: "The entry's bytes become zero and the table does not close up.",
        breaks: "\"the table closes up over it\"",
        file: "removal.rs",
        function: "fn closed_up(",
        edits: &[Instead(
            "[&keys[..start], &keys[end..]].concat()",
            "let mut all = keys.to_vec();
            all[start..end].fill(0);
            all",
        )],
    },
    Planted {
        name: "LastEntryMovesIn",
        does: "The entries behind come in the reverse order.",
        breaks: "\"the table closes up over it\"",
        file: "removal.rs",
        function: "fn closed_up(",
        edits: &[Instead(
            "[&keys[..start], &keys[end..]].concat()",
            "let mut at = keys.len();
            let mut all = keys[..start].to_vec();
            for entry in entries[index + 1..].iter().rev() {
                all.extend_from_slice(&keys[at - bytes(entry)..at]);
                at -= bytes(entry);
            }
            all",
        )],
    },
    Planted {
        name: "BytesPastTableStay",
        does: "What stood past the new length stays.",
        breaks: "\"the bytes past it are zero\"",
        file: "boundary.rs",
        function: "fn removed_word(",
        edits: &[Instead("past.fill(0)", "()")],
    },
    Planted {
        name: "OldLengthGiven",
        does: "The old length is given back.",
        breaks: "\"the new length is given back\"",
        file: "boundary.rs",
        function: "fn removed_word(",
        edits: &[Instead("word(0, removed.len() as u32)", "word(0, keys.len() as u32)")],
    },
];
