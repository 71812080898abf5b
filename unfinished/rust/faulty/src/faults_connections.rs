//! The faults of the calls on many connections (Ticket 6), each as an edit of the reference's text.

use crate::switches::Edit::{Before, Behind, Instead};
use crate::switches::Planted;

pub const FAULTS: &[Planted] = &[
    // The places.
    Planted {
        name: "TwoHundredAndFiftySevenPlaces",
        does: "257 places are taken.",
        breaks: "\"up to 256 connections\"",
        file: "connections.rs",
        function: "fn from_bytes(",
        edits: &[Instead(
            "bytes.len() / STATE_BYTES > MOST_PLACES",
            "bytes.len() / STATE_BYTES > MOST_PLACES + 1",
        )],
    },
    Planted {
        name: "TwoHundredAndFiftyFivePlaces",
        does: "256 places get 18.",
        breaks: "\"up to 256 connections\"",
        file: "connections.rs",
        function: "fn from_bytes(",
        edits: &[Instead(
            "bytes.len() / STATE_BYTES > MOST_PLACES",
            "bytes.len() / STATE_BYTES >= MOST_PLACES",
        )],
    },
    Planted {
        name: "NoPlaceRefused",
        does: "18 where there is no place.",
        breaks: "\"k at most 256 (none is allowed)\"",
        file: "connections.rs",
        function: "fn from_bytes(",
        edits: &[Before(
            "let places",
            "if bytes.is_empty() { return None; }",
        )],
    },
    Planted {
        name: "RestOfPlacesNotLookedAt",
        does: "A length that is no whole number of places is taken, and the rest not looked at.",
        breaks: "\"any other length gets 18 before any other number\"",
        file: "connections.rs",
        function: "fn from_bytes(",
        edits: &[Instead("!bytes.len().is_multiple_of(STATE_BYTES)", "false")],
    },
    Planted {
        name: "LastOfTwoPlacesCounts",
        does: "Of two places with one pair the last counts.",
        breaks: "\"of two places with one pair the first counts\"",
        file: "connections.rs",
        function: "fn in_use(",
        edits: &[Before(
            "self.places",
            "return self.places.iter().rposition(|place| place.pair() == Some(*pair));",
        )],
    },
    Planted {
        name: "OpeningNotInUse",
        does: "Only an open connection is in use.",
        breaks: "\"A place that 18 refuses is free\", and no other",
        file: "connections.rs",
        function: "fn in_use(",
        edits: &[Instead(
            "place.pair() == Some(*pair)",
            "place.is_open() && place.pair() == Some(*pair)",
        )],
    },
    Planted {
        name: "OneWayNotInUse",
        does: "A connection by MD5 is not found.",
        breaks: "\"found by socket pair\"",
        file: "connections.rs",
        function: "fn in_use(",
        edits: &[Instead(
            "place.pair() == Some(*pair)",
            "!place.goes_by_md5() && place.pair() == Some(*pair)",
        )],
    },
    Planted {
        name: "BytesBehindAddressCompared",
        does: "What stands behind an IPv4 address is part of the pair, and must be zero.",
        breaks: "\"a pair is family, addresses (of IPv4 the first four bytes) and ports, by meaning\"",
        file: "connections.rs",
        function: "fn in_use(",
        edits: &[Instead(
            "place.pair() == Some(*pair)",
            "place.pair() == Some(*pair)
                && place.local[pair.local.len()..].iter().all(|byte| *byte == 0)",
        )],
    },
    Planted {
        name: "FamilyNotPartOfPair",
        does: "Addresses are compared as far as the named ones go, whatever the place's family.",
        breaks: "\"a pair is family, addresses (of IPv4 the first four bytes) and ports, by meaning\"",
        file: "connections.rs",
        function: "fn in_use(",
        edits: &[Instead(
            "place.pair() == Some(*pair)",
            "place.pair().is_some()
                && place.local.starts_with(pair.local)
                && place.remote.starts_with(pair.remote)
                && place.local_port == pair.local_port
                && place.remote_port == pair.remote_port",
        )],
    },
    Planted {
        name: "LocalAddressNotCompared",
        does: "A place is found without its local address.",
        breaks: "\"found by socket pair\"",
        file: "connections.rs",
        function: "fn in_use(",
        edits: &[Instead(
            "place.pair() == Some(*pair)",
            "place.pair().is_some_and(|held| Pair { local: pair.local, ..held } == *pair)",
        )],
    },
    Planted {
        name: "RemoteAddressNotCompared",
        does: "A place is found without its remote address.",
        breaks: "\"found by socket pair\"",
        file: "connections.rs",
        function: "fn in_use(",
        edits: &[Instead(
            "place.pair() == Some(*pair)",
            "place.pair().is_some_and(|held| Pair { remote: pair.remote, ..held } == *pair)",
        )],
    },
    Planted {
        name: "LocalPortNotCompared",
        does: "A place is found without its local port.",
        breaks: "\"found by socket pair\"",
        file: "connections.rs",
        function: "fn in_use(",
        edits: &[Instead(
            "place.pair() == Some(*pair)",
            "place.pair().is_some_and(|held| Pair { local_port: pair.local_port, ..held } == *pair)",
        )],
    },
    Planted {
        name: "RemotePortNotCompared",
        does: "A place is found without its remote port.",
        breaks: "\"found by socket pair\"",
        file: "connections.rs",
        function: "fn in_use(",
        edits: &[Instead(
            "place.pair() == Some(*pair)",
            "place.pair().is_some_and(|held| Pair { remote_port: pair.remote_port, ..held } == *pair)",
        )],
    },
    Planted {
        name: "MirroredPairInUse",
        does: "A place with the mirrored pair is found too.",
        breaks: "\"found by socket pair\"",
        file: "connections.rs",
        function: "fn in_use(",
        edits: &[Instead(
            "place.pair() == Some(*pair)",
            "let mirrored = Pair {
                local: pair.remote,
                remote: pair.local,
                local_port: pair.remote_port,
                remote_port: pair.local_port,
            };
            place.pair() == Some(*pair) || place.pair() == Some(mirrored)",
        )],
    },
    Planted {
        name: "FirstPlacesOnly",
        does: "A connection is looked for in the first 64 places only.",
        breaks: "\"up to 256 connections\"",
        file: "connections.rs",
        function: "fn in_use(",
        edits: &[Before(
            "self.places",
            "return self.places.iter().take(64).position(|place| place.pair() == Some(*pair));",
        )],
    },
    Planted {
        name: "LastFreePlaceTaken",
        does: "Opening takes the last free place.",
        breaks: "\"opening takes the first free one\"",
        file: "connections.rs",
        function: "fn first_free(",
        edits: &[Before(
            "self.places",
            "return self.places.iter().rposition(|place| place.pair().is_none());",
        )],
    },
    Planted {
        name: "OnlyZeroPlacesFree",
        does: "Only a place that is all zero is free.",
        breaks: "\"A place that 18 refuses is free\"",
        file: "connections.rs",
        function: "fn first_free(",
        edits: &[Instead("place.pair().is_none()", "*place == State::EMPTY")],
    },
    Planted {
        name: "OnlyFamilyZeroFree",
        does: "Only a place of family 0 is free.",
        breaks: "\"A place that 18 refuses is free\"",
        file: "connections.rs",
        function: "fn first_free(",
        edits: &[Instead("place.pair().is_none()", "place.family == 0")],
    },
    Planted {
        name: "DoubledPlaceFree",
        does: "A place with the pair of an earlier one is free.",
        breaks: "\"A place that 18 refuses is free; of two places with one pair the first counts\"",
        file: "connections.rs",
        function: "fn first_free(",
        edits: &[Before(
            "self.places",
            "return (0..self.places.len()).find(|index| match self.places[*index].pair() {
                Some(pair) => self.in_use(&pair) != Some(*index),
                None => true,
            });",
        )],
    },
    Planted {
        name: "LastPlaceNeverTaken",
        does: "The 256th place is never free.",
        breaks: "\"up to 256 connections\"",
        file: "connections.rs",
        function: "fn first_free(",
        edits: &[Before(
            "self.places",
            "return self.places.iter().take(MOST_PLACES - 1).position(|place| place.pair().is_none());",
        )],
    },
    // Openings.
    Planted {
        name: "SecondOpeningReplaces",
        does: "A second opening of a pair in use takes the first one's place.",
        breaks: "\"A second opening of a pair in use is refused with 41\"",
        file: "connections.rs",
        function: "fn put(",
        edits: &[Before(
            "if self.in_use(&pair).is_some()",
            "if let Some(place) = self.in_use(&pair) {
                self.places[place] = state;
                return Ok(place as u32);
            }",
        )],
    },
    Planted {
        name: "SecondOpeningDoubles",
        does: "A second opening of a pair in use takes another place.",
        breaks: "\"A second opening of a pair in use is refused with 41\"",
        file: "connections.rs",
        function: "fn put(",
        edits: &[Instead("self.in_use(&pair).is_some()", "false")],
    },
    Planted {
        name: "FullBeforeInUse",
        does: "42 before 41.",
        breaks: "\"Openings: their own numbers, then 41, then 42.\"",
        file: "connections.rs",
        function: "fn put(",
        edits: &[Before(
            "// 41: \"A second opening",
            "self.first_free().ok_or(Refusal::of(42))?;",
        )],
    },
    Planted {
        name: "FullTakesFirst",
        does: "Where no place is free, the first one is taken.",
        breaks: "\"a full table with 42\"",
        file: "connections.rs",
        function: "fn put(",
        edits: &[Instead(
            "self.first_free().ok_or(Refusal::of(42))?",
            "match (self.first_free(), self.places.is_empty()) {
                (Some(free), _) => free,
                (None, false) => 0,
                (None, true) => return Err(Refusal::of(42)),
            }",
        )],
    },
    Planted {
        name: "PlaceKeepsOldAddressBytes",
        does: "What stood behind an IPv4 address in the place stays.",
        breaks: "\"what stands behind is carried untouched\": an opening takes no state to carry from",
        file: "connections.rs",
        function: "fn put(",
        edits: &[Before(
            "self.places[place] = state;",
            "let (old, mut state) = (self.places[place], state);
            if state.family == 4 {
                state.local[4..].copy_from_slice(&old.local[4..]);
                state.remote[4..].copy_from_slice(&old.remote[4..]);
            }
            self.places[place] = state;
            return Ok(place as u32);",
        )],
    },
    Planted {
        name: "PlaceKeepsOldCounts",
        does: "The counts that stood in the place stay.",
        breaks: "\"All are 0 at opening\"",
        file: "connections.rs",
        function: "fn put(",
        edits: &[Before(
            "self.places[place] = state;",
            "let accepted = self.places[place].accepted;
            self.places[place] = State { accepted, ..state };
            return Ok(place as u32);",
        )],
    },
    Planted {
        name: "PlaceNotNamed",
        does: "An opening gives 0 beside its 0.",
        breaks: "\"of the openings the index of the place\"",
        file: "connections.rs",
        function: "fn put(",
        edits: &[Instead("Ok(place as u32)", "Ok(0)")],
    },
    Planted {
        name: "PlacesFromOne",
        does: "Places are counted from 1.",
        breaks: "\"of the openings the index of the place\"",
        file: "connections.rs",
        function: "fn put(",
        edits: &[Instead("Ok(place as u32)", "Ok(place as u32 + 1)")],
    },
    Planted {
        name: "InUseBeforeOpening",
        does: "41 before an active opening's own numbers.",
        breaks: "\"Openings: their own numbers, then 41, then 42.\"",
        file: "connections.rs",
        function: "fn open_active(",
        edits: &[Before(
            "// 19, 10 to 17 and 45, 44, 35",
            "if connections.in_use(pair).is_some() { return Err(Refusal::of(41)); }",
        )],
    },
    Planted {
        name: "FullBeforeOpening",
        does: "42 before an active opening's own numbers.",
        breaks: "\"Openings: their own numbers, then 41, then 42.\"",
        file: "connections.rs",
        function: "fn open_active(",
        edits: &[Before(
            "// 19, 10 to 17 and 45, 44, 35",
            "if connections.first_free().is_none() { return Err(Refusal::of(42)); }",
        )],
    },
    Planted {
        name: "InUseBeforeMd5Opening",
        does: "41 before an opening's own numbers, by MD5.",
        breaks: "\"Openings: their own numbers, then 41, then 42.\"",
        file: "connections.rs",
        function: "fn open_active_md5(",
        edits: &[Before(
            "// 19, 10 to 17 and 45, 44, 35",
            "if connections.in_use(pair).is_some() { return Err(Refusal::of(41)); }",
        )],
    },
    Planted {
        name: "InUseBeforeSyn",
        does: "41 before a passive opening's own numbers.",
        breaks: "\"Openings: their own numbers, then 41, then 42.\"",
        file: "connections.rs",
        function: "fn open_passive(",
        edits: &[Before(
            "let (verdict, opened)",
            "let pair = pair_of_arrival(source, destination, segment);
            if pair.is_some_and(|pair| connections.in_use(&pair).is_some()) {
                return Err(Refusal::of(41));
            }",
        )],
    },
    Planted {
        name: "FullBeforeSyn",
        does: "42 before a passive opening's own numbers.",
        breaks: "\"where that accepts: 41, 42\"",
        file: "connections.rs",
        function: "fn open_passive(",
        edits: &[Before(
            "let (verdict, opened)",
            "connections.first_free().ok_or(Refusal::of(42))?;",
        )],
    },
    Planted {
        name: "FullRefusesPassed",
        does: "A SYN only passed gets 42 where no place is free.",
        breaks: "\"A SYN only passed gives 1 and opens nothing\"",
        file: "connections.rs",
        function: "fn open_passive(",
        edits: &[Instead(
            "Ok(Passive::Passed)",
            "connections.first_free().map(|_| Passive::Passed).ok_or(Refusal::of(42))",
        )],
    },
    Planted {
        name: "PassedEmptiesPlace",
        does: "A SYN only passed writes the empty state into the first free place.",
        breaks: "\"A SYN only passed gives 1 and opens nothing\"",
        file: "connections.rs",
        function: "fn open_passive(",
        edits: &[Instead(
            "Ok(Passive::Passed)",
            "if let Some(place) = connections.first_free() {
                connections.places[place] = State::EMPTY;
            }
            Ok(Passive::Passed)",
        )],
    },
    Planted {
        name: "PassedOpens",
        does: "A SYN only passed counts as opened.",
        breaks: "\"A SYN only passed gives 1 and opens nothing\"",
        file: "connections.rs",
        function: "fn open_passive(",
        edits: &[Instead("Ok(Passive::Passed)", "Ok(Passive::Opened(0))")],
    },
    // Judging.
    Planted {
        name: "ShortBelowTwenty",
        does: "A segment under 20 bytes is for no connection.",
        breaks: "\"A segment under 4 bytes gets 20 (30 when signing) and counts nowhere.\"",
        file: "connections.rs",
        function: "fn ports(",
        edits: &[Instead("segment.len() >= 4", "segment.len() >= 20")],
    },
    Planted {
        name: "FourBytesTooShort",
        does: "A segment of 4 bytes is for no connection.",
        breaks: "\"A segment under 4 bytes gets 20 (30 when signing) and counts nowhere.\"",
        file: "connections.rs",
        function: "fn ports(",
        edits: &[Instead("segment.len() >= 4", "segment.len() > 4")],
    },
    Planted {
        name: "ShortCounted",
        does: "A segment under 4 bytes counts on the first connection with its addresses.",
        breaks: "\"and counts nowhere\"",
        file: "connections.rs",
        function: "fn judge(",
        edits: &[Before(
            "return Verdict::Drop(Refusal::of(20));",
            "let from = |place: &&mut State| {
                place.is_open() && place.pair().is_some_and(|pair| pair.remote == source)
            };
            if let Some(place) = connections.places.iter_mut().find(from) {
                place.count_drop(20);
            }",
        )],
    },
    Planted {
        name: "ShortBeforeTables",
        does: "20 of a segment under 4 bytes before the tables' numbers.",
        breaks: "\"18 (length), 19, tables, 20 for a segment under 4 bytes\"",
        file: "connections.rs",
        function: "fn judge(",
        edits: &[Before(
            "// 19, 10 to 17 and 45, 44.",
            "if segment.len() < 4 && addresses(source, destination).is_ok() {
                return Verdict::Drop(Refusal::of(20));
            }",
        )],
    },
    Planted {
        name: "ShortIsElsewhere",
        does: "A segment under 4 bytes gets 23.",
        breaks: "\"A segment under 4 bytes gets 20\"",
        file: "connections.rs",
        function: "fn judge(",
        edits: &[Instead("Refusal::of(20)", "Refusal::of(23)")],
    },
    Planted {
        name: "ArrivalByOwnDirection",
        does: "The ports of an arriving segment are taken as our end's own direction has them.",
        breaks: "\"source is the remote side, destination the local one, ports from its first four bytes\"",
        file: "connections.rs",
        function: "fn pair_of_arrival<",
        edits: &[Instead(
            "ports(segment)?",
            "ports(segment).map(|(source, destination)| (destination, source))?",
        )],
    },
    Planted {
        name: "SynNeverOnConnection",
        does: "A bare SYN is judged without a state also where its pair is in use.",
        breaks: "\"A bare SYN for a pair not in use is judged without a state\"",
        file: "connections.rs",
        function: "fn judge(",
        edits: &[Before(
            "match connections.in_use(&pair)",
            "let bare = readable(source, destination, segment).is_ok_and(|(header, _)| header.is_bare_syn());
            if bare { return calls::judge_syn(tables, source, destination, segment, setting); }",
        )],
    },
    Planted {
        name: "DropsNotKept",
        does: "A drop's count is not written back.",
        breaks: "\"drops 20 to 29 on an open connection add one to that number's count\"",
        file: "connections.rs",
        function: "fn judge(",
        edits: &[Before(
            "*state = after;",
            "if matches!(verdict, Verdict::Drop(_)) { return verdict; }",
        )],
    },
    Planted {
        name: "AcceptsNotKept",
        does: "What an acceptance changes is not written back.",
        breaks: "\"each call gets the table of connections that the one before left\"",
        file: "connections.rs",
        function: "fn judge(",
        edits: &[Before(
            "*state = after;",
            "if matches!(verdict, Verdict::Accept(_)) { return verdict; }",
        )],
    },
    Planted {
        name: "KeyChangesForAll",
        does: "An accepted segment changes the outgoing key of every connection between its addresses.",
        breaks: "\"Two segments for different pairs, judged or signed one right after the other, must in either order \
                 leave the same table and give the same answers\"",
        file: "connections.rs",
        function: "fn judge(",
        edits: &[Behind(
            "*state = after;",
            "for place in &mut connections.places {
                if place.pair().is_some_and(|held| held.local == destination && held.remote == source) {
                    place.outgoing_send_id = after.outgoing_send_id;
                    place.accepted = place.accepted.max(after.accepted);
                }
            }",
        )],
    },
    Planted {
        name: "ElsewhereBeforeUnreadable",
        does: "23 before 40, 21 and 22, for a pair not in use.",
        breaks: "\"(20 to 22 and 40 come first)\"",
        file: "connections.rs",
        function: "fn judge_elsewhere(",
        edits: &[Before(
            "// 20, 40, 21, 22",
            "let header = crate::segment::Header::read(segment);
            if header.is_some_and(|header| !header.is_bare_syn()) {
                return Verdict::Drop(Refusal::of(23));
            }",
        )],
    },
    Planted {
        name: "ElsewhereBeforeTwenty",
        does: "23 before 20, for a pair not in use.",
        breaks: "\"(20 to 22 and 40 come first)\"",
        file: "connections.rs",
        function: "fn judge_elsewhere(",
        edits: &[Before(
            "// 20, 40, 21, 22",
            "if crate::segment::Header::read(segment).is_none() {
                return Verdict::Drop(Refusal::of(23));
            }",
        )],
    },
    Planted {
        name: "ElsewhereCounted",
        does: "A drop of a segment for a pair not in use counts on the first open connection.",
        breaks: "\"and changes nothing\"",
        file: "connections.rs",
        function: "fn judge(",
        edits: &[Instead(
            "judge_elsewhere(tables, source, destination, segment, setting)",
            "let verdict = judge_elsewhere(tables, source, destination, segment, setting);
            if let Verdict::Drop(refusal) = verdict {
                let open = connections.places.iter_mut().find(|place| place.is_open());
                if let Some(place) = open { place.count_drop(refusal.number); }
            }
            verdict",
        )],
    },
    Planted {
        name: "SynElsewhereDropped",
        does: "A bare SYN for a pair not in use gets 23.",
        breaks: "\"A bare SYN for a pair not in use is judged without a state\"",
        file: "connections.rs",
        function: "fn judge_elsewhere(",
        edits: &[Instead("header.is_bare_syn()", "false")],
    },
    Planted {
        name: "SynAckElsewhereJudged",
        does: "A SYN+ACK for a pair not in use is judged as if it were a bare SYN: 24.",
        breaks: "\"any other segment for such a pair is dropped with 23\"",
        file: "connections.rs",
        function: "fn judge_elsewhere(",
        edits: &[Instead("header.is_bare_syn()", "header.syn()")],
    },
    Planted {
        name: "AllElsewhereJudged",
        does: "Every segment for a pair not in use is judged as if it were a bare SYN: 24.",
        breaks: "\"any other segment for such a pair is dropped with 23\"",
        file: "connections.rs",
        function: "fn judge_elsewhere(",
        edits: &[Instead("header.is_bare_syn()", "true")],
    },
    Planted {
        name: "ElsewhereAlwaysPasses",
        does: "The setting is not asked for a pair not in use: pass.",
        breaks: "\"judged without a state\": \"the setting decides only where no entry matches the pair\"",
        file: "connections.rs",
        function: "fn judge_elsewhere(",
        edits: &[Instead(
            "calls::judge_syn(tables, source, destination, segment, setting)",
            "calls::judge_syn(tables, source, destination, segment, Setting::Pass)",
        )],
    },
    Planted {
        name: "ElsewhereAlwaysDrops",
        does: "The setting is not asked for a pair not in use: drop.",
        breaks: "\"judged without a state\": \"the setting decides only where no entry matches the pair\"",
        file: "connections.rs",
        function: "fn judge_elsewhere(",
        edits: &[Instead(
            "calls::judge_syn(tables, source, destination, segment, setting)",
            "calls::judge_syn(tables, source, destination, segment, Setting::Drop)",
        )],
    },
    // Signing, asking, closing, finding.
    Planted {
        name: "LeavingByPeersDirection",
        does: "The ports of a segment to be signed are taken the way an arriving one has them.",
        breaks: "\"of one that is signed: `local`, `remote`, and its ports the other way round\"",
        file: "connections.rs",
        function: "fn pair_of_leaving<",
        edits: &[Instead(
            "ports(segment)?",
            "ports(segment).map(|(source, destination)| (destination, source))?",
        )],
    },
    Planted {
        name: "SignElsewhereThirtyThree",
        does: "Signing for a pair not in use gets 33.",
        breaks: "\"signing, closing or asking there is refused with 23\"",
        file: "connections.rs",
        function: "fn sign(",
        edits: &[Instead("Refusal::of(23)", "Refusal::of(33)")],
    },
    Planted {
        name: "SignShortTwenty",
        does: "Signing a segment under 4 bytes gets 20.",
        breaks: "\"A segment under 4 bytes gets 20 (30 when signing)\"",
        file: "connections.rs",
        function: "fn sign(",
        edits: &[Instead("Refusal::of(30)", "Refusal::of(20)")],
    },
    Planted {
        name: "SignShortBeforeTables",
        does: "30 of a segment under 4 bytes before 19 and the tables' numbers.",
        breaks: "\"18 (length), 19, tables, 30 for a segment under 4 bytes\"",
        file: "connections.rs",
        function: "fn sign(",
        edits: &[Before(
            "// 19, 10 to 17 and 45, 44.",
            "if segment.len() < 4 { return Err(Refusal::of(30)); }",
        )],
    },
    Planted {
        name: "SignUnreadableBeforePair",
        does: "30 before 23 for every segment that cannot be signed.",
        breaks: "\"30 for a segment under 4 bytes, 23 if the pair is not in use, then as `tcpao_sign` with that place\"",
        file: "connections.rs",
        function: "fn sign(",
        edits: &[Before(
            "// 23: \"signing",
            "crate::segment::Header::read(segment).ok_or(Refusal::of(30))?;",
        )],
    },
    Planted {
        name: "SignPairBeforeTables",
        does: "23 before the tables' numbers, when signing.",
        breaks: "\"18 (length), 19, tables, 30 for a segment under 4 bytes, 23\"",
        file: "connections.rs",
        function: "fn sign(",
        edits: &[Before(
            "// 19, 10 to 17 and 45, 44.",
            "if addresses(local, remote).is_ok() {
                if let Some(pair) = pair_of_leaving(local, remote, segment) {
                    connections.in_use(&pair).ok_or(Refusal::of(23))?;
                }
            }",
        )],
    },
    Planted {
        name: "SignedReferenceNotKept",
        does: "What signing changes is not written back.",
        breaks: "\"each call gets the table of connections that the one before left\"",
        file: "connections.rs",
        function: "fn sign(",
        edits: &[Before(
            "*state = signed.state;",
            "return Ok(signed.segment);",
        )],
    },
    Planted {
        name: "AskKeyBeforePair",
        does: "35 before 23, when asking.",
        breaks: "\"18 (length), 19, tables, 23, then as `tcpao_ask` (35)\"",
        file: "connections.rs",
        function: "fn ask(",
        edits: &[Before(
            "// 23: \"signing",
            "let keys = tables.read()?.keys;
            if crate::table::by_recv_id(&keys, pair, recv_id).is_none() {
                return Err(Refusal::of(35));
            }",
        )],
    },
    Planted {
        name: "AskElsewhereThirtyFive",
        does: "Asking for a pair not in use gets 35.",
        breaks: "\"signing, closing or asking there is refused with 23\"",
        file: "connections.rs",
        function: "fn ask(",
        edits: &[Instead("Refusal::of(23)", "Refusal::of(35)")],
    },
    Planted {
        name: "AskPairBeforeTables",
        does: "23 before the tables' numbers, when asking.",
        breaks: "\"18 (length), 19, tables, 23, then as `tcpao_ask` (35)\"",
        file: "connections.rs",
        function: "fn ask(",
        edits: &[Before(
            "// 19, 10 to 17 and 45, 44.",
            "if addresses(pair.local, pair.remote).is_ok() {
                connections.in_use(pair).ok_or(Refusal::of(23))?;
            }",
        )],
    },
    Planted {
        name: "CloseLeavesBytes",
        does: "Closing takes the family away and leaves the other bytes.",
        breaks: "\"the place becomes all zero\"",
        file: "connections.rs",
        function: "fn close(",
        edits: &[Instead(
            "connections.places[place] = State::EMPTY",
            "connections.places[place].family = 0",
        )],
    },
    Planted {
        name: "CloseTakesAll",
        does: "Closing empties every place with that pair.",
        breaks: "\"a second place with that pair comes into use\"",
        file: "connections.rs",
        function: "fn close(",
        edits: &[Behind(
            "connections.places[place] = State::EMPTY;",
            "while let Some(place) = connections.in_use(pair) {
                connections.places[place] = State::EMPTY;
            }",
        )],
    },
    Planted {
        name: "CloseMovesLaterPlaces",
        does: "Closing moves the later places up.",
        breaks: "\"closing empties a place\"",
        file: "connections.rs",
        function: "fn close(",
        edits: &[Instead(
            "connections.places[place] = State::EMPTY",
            "connections.places.remove(place);
            connections.places.push(State::EMPTY)",
        )],
    },
    Planted {
        name: "CloseElsewhereDone",
        does: "Closing a pair not in use is done.",
        breaks: "\"signing, closing or asking there is refused with 23\"",
        file: "connections.rs",
        function: "fn close(",
        edits: &[Before(
            "let place",
            "if find(pair, connections) == Err(Refusal::of(23)) { return Ok(()); }",
        )],
    },
    Planted {
        name: "PairBeforeAddresses",
        does: "23 instead of 19, when closing or finding.",
        breaks: "\"18 (length), 19, 23\"",
        file: "connections.rs",
        function: "fn find(",
        edits: &[Before(
            "// 19.",
            "if connections.in_use(pair).is_none() { return Err(Refusal::of(23)); }",
        )],
    },
];
