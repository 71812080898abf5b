//! The faults that can be planted, each as an edit of the reference's text.

use crate::switches::Edit::{Before, Behind, Instead};
use crate::switches::Planted;

pub const FAULTS: &[Planted] = &[
    Planted {
        name: "PortsOfLocalSideOnly",
        does: "14 looks at the local ports only.",
        breaks: "14: \"low port above high\"",
        file: "table.rs",
        function: "fn test_sides(",
        edits: &[Instead("bad(local) || bad(remote)", "bad(local)")],
    },
    Planted {
        name: "BitsOfLocalSideOnly",
        does: "15 looks at the bits behind the prefix on the local side only.",
        breaks: "15: \"prefix above 32 or 128, or address bits set past it\"",
        file: "table.rs",
        function: "fn test_sides(",
        edits: &[Instead("bits_set(local) || bits_set(remote)", "bits_set(local)")],
    },
    Planted {
        name: "PaddingNotLookedAt",
        does: "16 does not look at the padding.",
        breaks: "16: \"key length 0 or above 80, or padding not zero\"",
        file: "table.rs",
        function: "fn read_key(",
        edits: &[Instead("padding.iter().any(|byte| *byte != 0)", "false")],
    },
    Planted {
        name: "ClashWithoutPair",
        does: "17 for any shared ID, whether a pair exists or not.",
        breaks: "\"a socket pair exists that two entries both match while they share SendID or share RecvID\"",
        file: "table.rs",
        function: "fn clashes(",
        edits: &[Before("let same_family", "return shared;")],
    },
    Planted {
        name: "ClashBySendIdOnly",
        does: "17 for a shared SendID only.",
        breaks: "\"while they share SendID or share RecvID\"",
        file: "table.rs",
        function: "fn clashes(",
        edits: &[Instead(
            "self.send_id == other.send_id || self.recv_id == other.recv_id",
            "self.send_id == other.send_id",
        )],
    },
    Planted {
        name: "NestedPrefixesDoNotClash",
        does: "17 for equal prefixes only: P10's do not overlap.",
        breaks: "\"a socket pair exists that two entries both match\"",
        file: "table.rs",
        function: "fn overlaps(",
        edits: &[Instead(
            "first_bits_agree(&self.address, &other.address, shorter)",
            "self.prefix == other.prefix && self.address == other.address",
        )],
    },
    Planted {
        name: "HighPortExcluded",
        does: "A range's high port does not match.",
        breaks: "\"local port low and high, remote port low and high (two bytes each, big-endian, ends included)\"",
        file: "table.rs",
        function: "fn matches(&self, address",
        edits: &[Instead("port <= self.high", "port < self.high")],
    },
    Planted {
        name: "IndexFromOne",
        does: "Indices are counted from 1.",
        breaks: "\"with the entry's index from 0\"",
        file: "table.rs",
        function: "fn walk<",
        edits: &[Instead("entries.len() as u32", "entries.len() as u32 + 1")],
    },
    Planted {
        name: "PrefixBeforePorts",
        does: "15 before 14.",
        breaks: "\"The first that applies, in this order, is given\"",
        file: "table.rs",
        function: "fn test_sides(",
        edits: &[Before(
            "// 14: \"low port above high\".",
            "if local.prefix.max(remote.prefix) > 8 * local.address.len() { return Err(15); }",
        )],
    },
    Planted {
        name: "ClashAfterAllEntries",
        does: "17 is looked for when all entries are read: behind 10 to 16 of later entries.",
        breaks: "\"table entries are taken one after another, each through to 17 against those before it\"",
        file: "table.rs",
        function: "fn walk<",
        edits: &[
            Instead("entries.iter().any(|before| clash(before, &entry))", "false"),
            Instead(
                "Ok(entries)",
                "let clashes = |later: &usize| {
                    let entry = &entries[*later];
                    entries[..*later].iter().any(|before| clash(before, entry))
                };
                match (0..entries.len()).find(clashes) {
                    Some(later) => Err((17, later as u32)),
                    None => Ok(entries),
                }",
            ),
        ],
    },
    // The options.
    Planted {
        name: "ReadingGoesOnPastKindZero",
        does: "Kind 0 takes one byte and does not end the reading.",
        breaks: "\"kinds 0 and 1 take one byte, 0 ends the reading\"",
        file: "segment.rs",
        function: "fn read_options(",
        edits: &[
            Instead("kind == 0", "false"),
            Instead("kind == KIND_NO_OPERATION", "kind <= 1"),
        ],
    },
    Planted {
        name: "Md5OfOtherLengthMalformed",
        does: "MD5 of another length than 18 is malformed.",
        breaks: "\"A length below 2, missing, or running past the area is malformed. So is kind 29 below length 4.\"",
        file: "segment.rs",
        function: "fn read_options(",
        edits: &[Before(
            "options.md5_count += 1;",
            "if length != 18 { return None; }",
        )],
    },
    Planted {
        name: "TwoMd5NotTwentyTwo",
        does: "Two MD5 without TCP-AO are not 22, as before Ticket 9.",
        breaks: "\"Two kind 19 give 22\"",
        file: "calls.rs",
        function: "fn readable(",
        edits: &[Instead("two_ao || ao_and_md5 || two_md5", "two_ao || ao_and_md5")],
    },
    Planted {
        name: "ReadingStopsAtSecondAo",
        does: "A second TCP-AO ends the reading: 22, also where malformed options follow.",
        breaks: "\"The first that applies, in this order, is given\": 21, 22",
        file: "segment.rs",
        function: "fn read_options(",
        edits: &[Behind(
            "options.ao_count += 1;",
            "if options.ao.is_some() { break; }",
        )],
    },
    // Positions.
    Planted {
        name: "RolloverComparison",
        does: "An error that looks right: \"Comparing with 7FFF while a rollover flag is set (004, section 6): \
               P8 then gets extension 0.\" The flag is taken as set while the reference is below 7FFF.",
        breaks: "\"The position of a 32-bit number s is the whole number X with remainder s modulo 2^32 and \
                 |X - reference| < 2^31\"",
        file: "position.rs",
        function: "fn position(",
        edits: &[Before(
            "let stretch",
            "let previous = reference as u32;
            let extension = extension(reference);
            let extension = if previous > 0x7fff && number < 0x7fff {
                extension.wrapping_add(1)
            } else if extension > 0 && previous < 0x7fff && number > 0x7fff {
                extension - 1
            } else {
                extension
            };
            return Some((extension as u64) << 32 | number as u64);",
        )],
    },
    Planted {
        name: "DistanceOfHalfAccepted",
        does: "A distance of exactly 2^31 is accepted.",
        breaks: "\"|X - reference| < 2^31\"",
        file: "position.rs",
        function: "fn position(",
        edits: &[Instead(
            "(x - reference).abs() < 1 << 31",
            "(x - reference).abs() <= 1 << 31",
        )],
    },
    Planted {
        name: "PositionWraps",
        does: "A position below 0 or from 2^64 on wraps: P3 and P7 get one.",
        breaks: "\"if there is one with 0 <= X < 2^64\"",
        file: "position.rs",
        function: "fn position(",
        edits: &[Instead("(0..1 << 64).contains(&x)", "true")],
    },
    Planted {
        name: "ReferenceFollowsLast",
        does: "The reference becomes X also where X is smaller.",
        breaks: "\"sets its direction's reference to the larger of the old one and X\"",
        file: "position.rs",
        function: "fn moved(",
        edits: &[Instead("reference.max(x)", "x")],
    },
    Planted {
        name: "ReferenceStays",
        does: "\"a reference that never moves\".",
        breaks: "\"An accepted or signed segment sets its direction's reference\"",
        file: "position.rs",
        function: "fn moved(",
        edits: &[Instead("reference.max(x)", "reference")],
    },
    Planted {
        name: "ReferenceBeforeMac",
        does: "An error that looks right: \"Moving the reference before the MAC is checked\".",
        breaks: "\"A refusal leaves outputs and state alike\"",
        file: "calls.rs",
        function: "fn take_arrival(",
        edits: &[Before(
            "// 29: \"MAC differs\".",
            "if open { state.arriving_reference = moved(before.arriving_reference, x); }",
        )],
    },
    // Traffic keys and the MAC.
    Planted {
        name: "OurSideAsSource",
        does: "An error that looks right: \"Taking our own side as the source for arriving segments too.\"",
        breaks: "\"'source' is whoever sent the segment\"",
        file: "calls.rs",
        function: "fn mac_agrees(",
        edits: &[Instead(
            "mac::mac(entry, Direction::Arriving, ends, extension, carrier)",
            "let from_us = Ends {
                source: ends.destination,
                destination: ends.source,
                source_port: ends.destination_port,
                destination_port: ends.source_port,
                source_isn: ends.destination_isn,
                destination_isn: ends.source_isn,
            };
            let hidden = mac::Hidden::of(entry, Direction::Arriving);
            let ours = mac::Hidden::of(entry, Direction::Leaving).counted(&from_us);
            let key = mac::traffic_key(entry.algorithm, entry.key, &ours);
            let covered =
                mac::message(entry.covers_options, hidden, &hidden.counted(ends), extension, carrier);
            mac::leftmost(entry, &key, &covered)",
        )],
    },
    Planted {
        name: "ShortenedLengthInPseudoHeader",
        does: "An error that looks right: \"Putting the shortened header's length in the pseudo-header when \
               options are left out.\"",
        breaks: "\"the IP pseudo-header as for the checksum, with the whole segment's length\"",
        file: "mac.rs",
        function: "fn message(",
        edits: &[Instead(
            "pseudo_header(ends.source, ends.destination, segment.len())",
            "pseudo_header(ends.source, ends.destination, covered.len() + data.len())",
        )],
    },
    Planted {
        name: "OffsetOfShortenedHeader",
        does: "With flag 0 the data offset is the shortened header's, not the one sent.",
        breaks: "\"With flag 0 only the header's first 20 bytes, data offset as sent, and TCP-AO remain.\"",
        file: "mac.rs",
        function: "fn message(",
        edits: &[Before(
            "let covered",
            "if !covers_options { zeroed[12] = (zeroed[12] & 0x0f) | ((20 + ao.length) as u8 / 4) << 4; }",
        )],
    },
    Planted {
        name: "MacBytesLeftOut",
        does: "With flag 0 the zeroed MAC bytes are left out too, as in source document 000.",
        breaks: "\"the TCP header with checksum and MAC bytes zero\"; flag 0: \"and TCP-AO remain\"",
        file: "mac.rs",
        function: "fn message(",
        edits: &[Instead(
            "&zeroed[ao.at..ao.at + ao.length]",
            "&zeroed[ao.at..ao.at + 4]",
        )],
    },
    Planted {
        name: "EveryMasterKeyHashed",
        does: "Algorithm 2 applies AES-CMAC with an all-zero key also to a master key of 16 bytes.",
        breaks: "\"Algorithm 2 applies AES-CMAC under the master key if that has 16 bytes\"",
        file: "mac.rs",
        function: "fn traffic_key(",
        edits: &[Instead(
            "<[u8; 16]>::try_from(master_key)",
            "<[u8; 16]>::try_from(&[][..])",
        )],
    },
    // The order of the numbers.
    Planted {
        name: "AddressesBeforeFamily",
        does: "19 before 18.",
        breaks: "\"The first that applies, in this order, is given\"",
        file: "calls.rs",
        function: "fn take_arrival(",
        edits: &[Before(
            "// 18: \"state's family is neither IPv4 nor IPv6\".",
            "addresses(source, destination)?;",
        )],
    },
    Planted {
        name: "TableBeforeAddresses",
        does: "10 to 17 before 19.",
        breaks: "\"The first that applies, in this order, is given\"",
        file: "calls.rs",
        function: "fn addresses_then_tables<",
        edits: &[Before("addresses(one, other)?;", "tables.read()?;")],
    },
    Planted {
        name: "StageBeforePair",
        does: "24 before 23.",
        breaks: "\"The first that applies, in this order, is given\"",
        file: "calls.rs",
        function: "fn take_arrival(",
        edits: &[Before(
            "// 23: \"pair is not the state's\".",
            "let right = if open { !header.is_bare_syn() } else { header.is_syn_ack() };
            if !right { return Err(Refusal::of(24)); }",
        )],
    },
    Planted {
        name: "MacLengthBeforeEntry",
        does: "27 before 26, on a connection, for a length that no entry could have.",
        breaks: "\"The first that applies, in this order, is given\"",
        file: "calls.rs",
        function: "fn take_arrival(",
        edits: &[Before(
            "// 26: \"no entry for its KeyID\".",
            "if !(8..=20).contains(&ao.length) { return Err(Refusal::of(27)); }",
        )],
    },
    Planted {
        name: "PairBeforeOptions",
        does: "23 before 40, 21 and 22.",
        breaks: "\"The first that applies, in this order, is given\"",
        file: "calls.rs",
        function: "fn take_arrival(",
        edits: &[Before(
            "// 20, 40, 21, 22.",
            "let header = Header::read(segment).ok_or(Refusal::of(20))?;
            if arriving_pair(source, destination, &header) != pair { return Err(Refusal::of(23)); }",
        )],
    },
    Planted {
        name: "PositionBeforeEntry",
        does: "28 before 26 and 27.",
        breaks: "\"The first that applies, in this order, is given\"",
        file: "calls.rs",
        function: "fn take_arrival(",
        edits: &[Before(
            "// 26: \"no entry for its KeyID\".",
            "if open { position(before.arriving_reference, header.sequence).ok_or(Refusal::of(28))?; }",
        )],
    },
    Planted {
        name: "SizeBeforePorts",
        does: "32 before 33, as before Ticket 4: for a MAC of 12 bytes, whatever the entry says.",
        breaks: "Ticket 4: \"32, tested now after 35\"",
        file: "calls.rs",
        function: "fn sign(",
        edits: &[Before(
            "// 33: \"ports not the state's\".",
            "if header.data_offset > 11 || segment.len() + 16 > 65_535 { return Err(Refusal::of(32)); }",
        )],
    },
    Planted {
        name: "SizeBeforeKey",
        does: "32 before 35: where there is no entry, by a MAC of 12 bytes.",
        breaks: "Ticket 4: \"32, tested now after 35\"",
        file: "calls.rs",
        function: "fn sign(",
        edits: &[Before(
            "// 35: \"no entry matching the pair",
            "if by_send_id(&entries, &pair, state.outgoing_send_id).is_none()
                && (header.data_offset > 11 || segment.len() + 16 > 65_535) {
                return Err(Refusal::of(32));
            }",
        )],
    },
    Planted {
        name: "PositionBeforeSize",
        does: "36 before 32.",
        breaks: "\"The first that applies, in this order, is given\"; Ticket 4: \"32, tested now after 35\"",
        file: "calls.rs",
        function: "fn sign(",
        edits: &[Before(
            "// 32: \"tested now after 35,",
            "if state.is_open() { position(state.signing_reference, header.sequence).ok_or(Refusal::of(36))?; }",
        )],
    },
    Planted {
        name: "StageBeforePorts",
        does: "34 before 33.",
        breaks: "\"The first that applies, in this order, is given\"",
        file: "calls.rs",
        function: "fn sign(",
        edits: &[Before(
            "// 33: \"ports not the state's\".",
            "if header.is_bare_syn() == state.is_open() { return Err(Refusal::of(34)); }",
        )],
    },
    Planted {
        name: "KeyBeforeStage",
        does: "35 before 34.",
        breaks: "\"The first that applies, in this order, is given\"",
        file: "calls.rs",
        function: "fn sign(",
        edits: &[Before(
            "// 34: \"wrong segment for the stage\".",
            "by_send_id(&entries, &pair, state.outgoing_send_id).ok_or(Refusal::of(35))?;",
        )],
    },
    Planted {
        name: "RoomBeforePosition",
        does: "37 before 36.",
        breaks: "\"The first that applies, in this order, is given\"",
        file: "calls.rs",
        function: "fn sign(",
        edits: &[Before(
            "// 36: \"no position,",
            "if room < signed_bytes { return Err(Refusal::of(37)); }",
        )],
    },
    // Judging.
    Planted {
        name: "PairWithoutPorts",
        does: "23 compares the addresses only.",
        breaks: "23: \"pair is not the state's\"",
        file: "calls.rs",
        function: "fn take_arrival(",
        edits: &[Instead(
            "arriving_pair(source, destination, &header) != pair",
            "destination != pair.local || source != pair.remote",
        )],
    },
    Planted {
        name: "BareSynTakenOnceOpen",
        does: "A bare SYN is judged on an open connection like any other segment.",
        breaks: "\"each segment that carries SYN and ACK, or no SYN\"",
        file: "calls.rs",
        function: "fn take_arrival(",
        edits: &[Instead("!header.is_bare_syn()", "true")],
    },
    Planted {
        name: "AcknowledgmentTested",
        does: "While opening, 24 unless the acknowledgment number is our ISN and one.",
        breaks: "\"An accepted SYN+ACK opens the connection\"",
        file: "calls.rs",
        function: "fn take_arrival(",
        edits: &[Instead(
            "header.is_syn_ack()",
            "header.is_syn_ack() && segment[8..12] == before.our_isn.wrapping_add(1).to_be_bytes()",
        )],
    },
    Planted {
        name: "OtherFlagsMatter",
        does: "While opening, 24 if FIN or RST is set.",
        breaks: "\"An accepted SYN+ACK opens the connection\"",
        file: "calls.rs",
        function: "fn take_arrival(",
        edits: &[Instead(
            "header.is_syn_ack()",
            "header.is_syn_ack() && header.flags & 0x05 == 0",
        )],
    },
    Planted {
        name: "SynWithoutEntryDropped",
        does: "A bare SYN without TCP-AO is 25 even if no entry matches.",
        breaks: "\"Bare SYN without TCP-AO: 25 if any entry matches the pair, otherwise pass.\"",
        file: "calls.rs",
        function: "fn without_ao(",
        edits: &[Instead("any_matches(entries, pair)", "true")],
    },
    // A KeyID without an entry, in a bare SYN: Ticket 2.
    Planted {
        name: "SettingDecidesForMatchedPair",
        does: "The setting decides although an entry matches the pair, as before Ticket 2.",
        breaks: "\"drop 26 is given whenever any entry matches the pair and none has the KeyID\"",
        file: "calls.rs",
        function: "fn unknown_key_id(",
        edits: &[Instead("any_matches(entries, pair)", "false")],
    },
    Planted {
        name: "SettingDecidesWhenJudgedOnly",
        does: "Judging without a state lets the setting decide although an entry matches the pair.",
        breaks: "\"drop 26 is given whenever any entry matches the pair and none has the KeyID\"",
        file: "calls.rs",
        function: "fn judge_syn(",
        edits: &[Instead(
            "take_syn(tables, source, destination, segment, setting)",
            "match take_syn(tables, source, destination, segment, setting) {
                Err(refusal) if refusal.number == 26 && setting == Setting::Pass => Ok(None),
                taken => taken,
            }",
        )],
    },
    Planted {
        name: "SettingDecidesWhenOpeningOnly",
        does: "The passive opening lets the setting decide although an entry matches the pair.",
        breaks: "\"A second call takes the same SYN and our ISN, judges it again\"",
        file: "calls.rs",
        function: "fn open_passive(",
        edits: &[Instead(
            "take_syn(tables, source, destination, segment, setting)",
            "match take_syn(tables, source, destination, segment, setting) {
                Err(refusal) if refusal.number == 26 && setting == Setting::Pass => Ok(None),
                taken => taken,
            }",
        )],
    },
    Planted {
        name: "SettingNeverDecides",
        does: "26 also where no entry matches the pair and the setting is pass.",
        breaks: "\"the setting decides only where no entry matches the pair\"",
        file: "calls.rs",
        function: "fn unknown_key_id(",
        edits: &[Instead("any_matches(entries, pair)", "true")],
    },
    Planted {
        name: "UnmatchedPairPasses",
        does: "A bare SYN with TCP-AO whose pair no entry matches passes whatever the setting.",
        breaks: "\"the setting decides only where no entry matches the pair\"",
        file: "calls.rs",
        function: "fn unknown_key_id(",
        edits: &[Before("match setting {", "return Ok(());")],
    },
    Planted {
        name: "OnlySinglePortsDropped",
        does: "For an unknown KeyID, an entry counts only if both its ranges are one port.",
        breaks: "\"An entry matches a socket pair of its family when both ports lie in the ranges\"",
        file: "calls.rs",
        function: "fn unknown_key_id(",
        edits: &[Instead(
            "any_matches(entries, pair)",
            "entries.iter().any(|entry| {
                let single = entry.local.low == entry.local.high && entry.remote.low == entry.remote.high;
                single && entry.matches(pair)
            })",
        )],
    },
    Planted {
        name: "OnlyWholeAddressesDropped",
        does: "For an unknown KeyID, an entry counts only if both its prefixes are whole addresses.",
        breaks: "\"on each side, the first prefix-length bits agree\"",
        file: "calls.rs",
        function: "fn unknown_key_id(",
        edits: &[Instead(
            "any_matches(entries, pair)",
            "entries.iter().any(|entry| {
                let bits = 8 * pair.local.len();
                entry.local.prefix == bits && entry.remote.prefix == bits && entry.matches(pair)
            })",
        )],
    },
    Planted {
        name: "WholeAddressesNotDropped",
        does: "For an unknown KeyID, an entry for two hosts and two ports alone does not count.",
        breaks: "\"drop 26 is given whenever any entry matches the pair\"",
        file: "calls.rs",
        function: "fn unknown_key_id(",
        edits: &[Instead(
            "any_matches(entries, pair)",
            "entries.iter().any(|entry| {
                let bits = 8 * pair.local.len();
                let one = entry.local.low == entry.local.high && entry.remote.low == entry.remote.high
                    && entry.local.prefix == bits && entry.remote.prefix == bits;
                !one && entry.matches(pair)
            })",
        )],
    },
    Planted {
        name: "OnlyFirstEntryDrops",
        does: "For an unknown KeyID, only the table's first entry is asked whether it matches the pair.",
        breaks: "\"whenever any entry matches the pair\"",
        file: "calls.rs",
        function: "fn unknown_key_id(",
        edits: &[Instead(
            "any_matches(entries, pair)",
            "entries.first().is_some_and(|entry| entry.matches(pair))",
        )],
    },
    Planted {
        name: "AnyEntryDrops",
        does: "For an unknown KeyID, 26 whenever the table has an entry, whichever pairs it matches.",
        breaks: "\"the setting decides only where no entry matches the pair\"",
        file: "calls.rs",
        function: "fn unknown_key_id(",
        edits: &[Instead("any_matches(entries, pair)", "!entries.is_empty()")],
    },
    Planted {
        name: "DroppedWhateverPorts",
        does: "For an unknown KeyID, an entry counts whose addresses match, whatever its ports.",
        breaks: "\"both ports lie in the ranges\"",
        file: "calls.rs",
        function: "fn unknown_key_id(",
        edits: &[Instead(
            "any_matches(entries, pair)",
            "entries.iter().any(|entry| {
                let mut entry = *entry;
                (entry.local.low, entry.local.high) = (0, 65_535);
                (entry.remote.low, entry.remote.high) = (0, 65_535);
                entry.matches(pair)
            })",
        )],
    },
    Planted {
        name: "NearKeyIdPasses",
        does: "With the setting pass, a KeyID passes that is one off the RecvID of an entry.",
        breaks: "\"drop 26 is given whenever any entry matches the pair and none has the KeyID\"",
        file: "calls.rs",
        function: "fn take_syn<",
        edits: &[Before(
            "// \"Bare SYN with TCP-AO:",
            "let unknown = by_recv_id(&entries, &pair, ao.key_id).is_none();
            let near = |step: u8| by_recv_id(&entries, &pair, ao.key_id.wrapping_add(step)).is_some();
            if unknown && setting == Setting::Pass && (near(1) || near(255)) { return Ok(None); }",
        )],
    },
    Planted {
        name: "LongerMacTaken",
        does: "27 only for a MAC that is too short.",
        breaks: "27: \"MAC length wrong\"",
        file: "calls.rs",
        function: "fn mac_length(",
        edits: &[Instead(
            "ao.length == AoOption::FRONT + entry.mac_bytes",
            "ao.length >= AoOption::FRONT + entry.mac_bytes",
        )],
    },
    // The MAC's length: Ticket 4.
    Planted {
        name: "MacLengthTwelve",
        does: "27 compares with 12, whatever the entry says.",
        breaks: "\"27 compares with the entry's length\"",
        file: "calls.rs",
        function: "fn mac_length(",
        edits: &[Instead(
            "ao.length == AoOption::FRONT + entry.mac_bytes",
            "ao.length == 16",
        )],
    },
    Planted {
        name: "MacLengthNotRead",
        does: "Kinds 5 and 7 have 12 MAC bytes, too.",
        breaks: "\"one more byte, 4 to 16, before the key length\"",
        file: "table.rs",
        function: "fn read_body(",
        edits: &[Before(
            "Ok(Entry {",
            "let mac_bytes = MAC_BYTES;
            let (local_nat, remote_nat) = (body[0] >> 1 & 1 == 1, body[0] >> 2 & 1 == 1);
            return Ok(Entry {
                kind, covers_options: body[0] & 1 == 1, local_nat, remote_nat, algorithm,
                send_id: body[2], recv_id: body[3], local, remote, mac_bytes, key,
            });",
        )],
    },
    Planted {
        name: "MacOfThreeTaken",
        does: "A MAC of fewer than 4 bytes is not refused.",
        breaks: "\"one more byte, 4 to 16\"; \"Refusal 13 also covers the new byte\"",
        file: "table.rs",
        function: "fn read_body(",
        edits: &[Instead("!(4..=16).contains(&mac_bytes)", "mac_bytes > 16")],
    },
    Planted {
        name: "MacOfSeventeenTaken",
        does: "A MAC of more than 16 bytes is not refused, and has 16.",
        breaks: "\"one more byte, 4 to 16\"; \"Refusal 13 also covers the new byte\"",
        file: "table.rs",
        function: "fn read_body(",
        edits: &[
            Instead("(rest[0] as usize, &rest[1..])", "(rest[0].min(16) as usize, &rest[1..])"),
        ],
    },
    Planted {
        name: "MacLengthBehindKey",
        does: "The new byte is looked at behind 14 to 16.",
        breaks: "\"The first that applies, in this order, is given\"",
        file: "table.rs",
        function: "fn read_body(",
        edits: &[
            Instead("!(4..=16).contains(&mac_bytes)", "false"),
            Before("Ok(Entry {", "if !(4..=16).contains(&mac_bytes) { return Err(13); }"),
        ],
    },
    Planted {
        name: "MacLengthBehindKeyLength",
        does: "The new byte is read behind the key length.",
        breaks: "\"one more byte, 4 to 16, before the key length\"",
        file: "table.rs",
        function: "fn read_body(",
        edits: &[
            Instead("(rest[0] as usize, &rest[1..])", "(rest[1] as usize, rest)"),
            Instead("&key_part[1..]", "&key_part[if key_part.len() > 81 { 2 } else { 1 }..]"),
        ],
    },
    Planted {
        name: "KindsDoNotClash",
        does: "17 only for entries of one kind: kind 4 does not clash with kind 5.",
        breaks: "\"a socket pair exists that two entries both match while they share SendID or share RecvID\"",
        file: "table.rs",
        function: "fn clashes(",
        edits: &[Instead(
            "self.local.address.len() == other.local.address.len()",
            "self.kind == other.kind",
        )],
    },
    Planted {
        name: "KindFiveMatchesNothing",
        does: "The family of kind 5 is taken as 5, of kind 7 as 7: no pair is of it.",
        breaks: "\"An entry matches a socket pair of its family\"; \"kinds 5 and 7, like 4 and 6\"",
        file: "table.rs",
        function: "fn matches(&self, pair",
        edits: &[Instead(
            "self.local.address.len()",
            "if self.kind % 2 == 1 { self.kind as usize } else { self.local.address.len() }",
        )],
    },
    Planted {
        name: "FamilyOfEntryKind",
        does: "An active opening writes the entry's kind as the state's family.",
        breaks: "18: \"state's family is neither IPv4 nor IPv6\"",
        file: "calls.rs",
        function: "fn opening_state(",
        edits: &[Before("Ok(state)", "state.family = entry.kind;")],
    },
    Planted {
        name: "FamilyFiveTaken",
        does: "18 takes family 5 for IPv4 and 7 for IPv6.",
        breaks: "18: \"state's family is neither IPv4 nor IPv6\"",
        file: "state.rs",
        function: "fn pair(",
        edits: &[Instead(
            "self.family",
            "match self.family { 5 => 4, 7 => 6, family => family }",
        )],
    },
    Planted {
        name: "MacRightmost",
        does: "The MAC is the rightmost n bytes.",
        breaks: "\"the leftmost n\"",
        file: "mac.rs",
        function: "fn leftmost(",
        edits: &[Instead(
            "all[..entry.mac_bytes].to_vec()",
            "all[all.len() - entry.mac_bytes..].to_vec()",
        )],
    },
    Planted {
        name: "PaddingUnderMac",
        does: "With flag 0 the kind 1 bytes that pad TCP-AO are under the MAC, too.",
        breaks: "\"With flag 0 only the header's first 20 bytes, data offset as sent, and TCP-AO remain.\"",
        file: "mac.rs",
        function: "fn message(",
        edits: &[Instead(
            "&zeroed[ao.at..ao.at + ao.length]",
            "&zeroed[ao.at..zeroed.len().min(ao.at + ao.length.next_multiple_of(4))]",
        )],
    },
    Planted {
        name: "PaddingBeforeOption",
        does: "The kind 1 bytes stand before TCP-AO.",
        breaks: "\"The signer pads the option, directly behind it\"",
        file: "calls.rs",
        function: "fn sign(",
        edits: &[
            Instead("OPTIONS_AT", "OPTIONS_AT + padded_bytes - ao_bytes"),
            Behind(
                "signed.extend_from_slice(&segment[..20]);",
                "signed.resize(20 + padded_bytes - ao_bytes, KIND_NO_OPERATION);",
            ),
            Instead("signed.resize(20 + ao_bytes, 0)", "signed.resize(20 + padded_bytes, 0)"),
        ],
    },
    Planted {
        name: "PaddingBehindOptions",
        does: "The kind 1 bytes stand behind the old options.",
        breaks: "\"The signer pads the option, directly behind it\"",
        file: "calls.rs",
        function: "fn sign(",
        edits: &[
            Instead("signed.resize(20 + padded_bytes, KIND_NO_OPERATION)", ""),
            Instead(
                "signed.extend_from_slice(&segment[20..])",
                "signed.extend_from_slice(&segment[20..header.bytes()]);
                signed.resize(header.bytes() + padded_bytes, KIND_NO_OPERATION);
                signed.extend_from_slice(&segment[header.bytes()..])",
            ),
        ],
    },
    Planted {
        name: "PaddingOfKindZero",
        does: "TCP-AO is padded with kind 0, which ends the reading.",
        breaks: "\"with kind 1 bytes\"",
        file: "calls.rs",
        function: "fn sign(",
        edits: &[Instead(
            "signed.resize(20 + padded_bytes, KIND_NO_OPERATION)",
            "signed.resize(20 + padded_bytes, 0)",
        )],
    },
    Planted {
        name: "PaddingInLengthByte",
        does: "TCP-AO's length byte counts the padding.",
        breaks: "\"TCP-AO is kind 29, length, KeyID, RNextKeyID, MAC\"; \"pads the option, directly behind it\"",
        file: "calls.rs",
        function: "fn sign(",
        edits: &[Instead("ao_bytes as u8", "padded_bytes as u8")],
    },
    Planted {
        name: "OffsetRaisedByFour",
        does: "The data offset rises by 4, whatever the option has.",
        breaks: "\"the data offset rises by the words of the padded option\"",
        file: "calls.rs",
        function: "fn sign(",
        edits: &[Instead(
            "(signed_offset as u8) << 4",
            "((header.data_offset + 4) as u8) << 4",
        )],
    },
    Planted {
        name: "PaddingNotInOffset",
        does: "32 does not count the padding in the data offset.",
        breaks: "\"the data offset rises by the words of the padded option, and 32 ... when it would pass 15\"",
        file: "calls.rs",
        function: "fn sign(",
        edits: &[Instead(
            "signed_offset > 15",
            "header.data_offset + ao_bytes / 4 > 15",
        )],
    },
    Planted {
        name: "PaddingNotInSize",
        does: "32 does not count the padding in the result's bytes.",
        breaks: "\"32 ... is given when it would pass 15 or the result 65,535 bytes\"",
        file: "calls.rs",
        function: "fn sign(",
        edits: &[Instead(
            "signed_bytes > 65_535",
            "segment.len() + ao_bytes > 65_535",
        )],
    },
    Planted {
        name: "PaddingNotInRoom",
        does: "37 does not count the padding; what has no room is not written.",
        breaks: "37: \"output too short\"",
        file: "calls.rs",
        function: "fn sign(",
        edits: &[
            Instead("room < signed_bytes", "room < segment.len() + ao_bytes"),
            Before("Ok(Signed {", "signed.truncate(room);"),
        ],
    },
    // HMAC-SHA-256: Ticket 13.
    Planted {
        name: "AlgorithmThreeRefused",
        does: "13 for algorithm 3, as before Ticket 13.",
        breaks: "\"Refusal 13 admits 3.\"",
        file: "table.rs",
        function: "fn read_body(",
        edits: &[Instead("body[1]", "if body[1] == 3 { 0 } else { body[1] }")],
    },
    Planted {
        name: "AlgorithmFourTaken",
        does: "13 admits 4 too, as 3.",
        breaks: "\"Refusal 13 admits 3.\"",
        file: "table.rs",
        function: "fn read_body(",
        edits: &[Instead("body[1]", "if body[1] == 4 { 3 } else { body[1] }")],
    },
    Planted {
        name: "OutputLengthOfSha1",
        does: "Algorithm 3 has 160 as output length.",
        breaks: "\"with output length 256\"",
        file: "mac.rs",
        function: "fn traffic_key_input(",
        edits: &[Instead(
            "8 * algorithm.traffic_key_bytes() as u16",
            "if algorithm == Algorithm::AesCmac { 128 } else { 160 }",
        )],
    },
    Planted {
        name: "TrafficKeyCut",
        does: "Algorithm 3's traffic key is cut to 20 bytes.",
        breaks: "\"with output length 256\"",
        file: "mac.rs",
        function: "fn traffic_key(",
        edits: &[Instead(
            "crypto::hmac_sha256(master_key, &input).to_vec()",
            "crypto::hmac_sha256(master_key, &input)[..20].to_vec()",
        )],
    },
    Planted {
        name: "DerivationBySha1",
        does: "Algorithm 3 derives its traffic key by HMAC-SHA-1.",
        breaks: "\"HMAC-SHA-256, also in place of HMAC-SHA-1 in algorithm 1's key derivation\"",
        file: "mac.rs",
        function: "fn traffic_key(",
        edits: &[Instead(
            "crypto::hmac_sha256(master_key, &input).to_vec()",
            "crypto::hmac_sha1(master_key, &input).to_vec()",
        )],
    },
    Planted {
        name: "KeyRuleOfCmac",
        does: "Algorithm 3 takes a master key that has not 16 bytes by AES-CMAC with an all-zero key first.",
        breaks: "\"Algorithm 2 applies AES-CMAC under the master key if that has 16 bytes\"; algorithm 3: \
                 \"HMAC-SHA-256, also in place of HMAC-SHA-1\"",
        file: "mac.rs",
        function: "fn traffic_key(",
        edits: &[Instead(
            "crypto::hmac_sha256(master_key, &input).to_vec()",
            "if master_key.len() == 16 {
                crypto::hmac_sha256(master_key, &input).to_vec()
            } else {
                crypto::hmac_sha256(&crypto::aes128_cmac(&[0; 16], master_key), &input).to_vec()
            }",
        )],
    },
    Planted {
        name: "ExtractionStep",
        does: "Algorithm 3 extracts a key from the master key first, by HMAC-SHA-256 under zeros.",
        breaks: "\"without an extraction step\"",
        file: "mac.rs",
        function: "fn traffic_key(",
        edits: &[Instead(
            "crypto::hmac_sha256(master_key, &input).to_vec()",
            "crypto::hmac_sha256(&crypto::hmac_sha256(&[0; 32], master_key), &input).to_vec()",
        )],
    },
    Planted {
        name: "MacBySha1",
        does: "Algorithm 3's MAC is HMAC-SHA-1's.",
        breaks: "\"Add algorithm 3: HMAC-SHA-256\"",
        file: "mac.rs",
        function: "fn applied(",
        edits: &[Instead(
            "crypto::hmac_sha256(traffic_key, message).to_vec()",
            "crypto::hmac_sha1(traffic_key, message).to_vec()",
        )],
    },
    Planted {
        name: "WrongRoundConstant",
        does: "A bit of one constant of SHA-256 is another.",
        breaks: "FIPS 180-4: \"the first thirty-two bits of the fractional parts of the cube roots\"",
        file: "crypto.rs",
        function: "fn sha256_block(",
        edits: &[Instead(
            "w.iter().zip(SHA256_CONSTANTS)",
            "w.iter().zip(SHA256_CONSTANTS.map(|k| if k == 0x90befffa { k ^ 1 } else { k }))",
        )],
    },
    Planted {
        name: "WrongRotation",
        does: "SHA-256's second sum rotates by 24 in place of 25.",
        breaks: "FIPS 180-4, section 4.1.2: \"ROTR 6 (x) XOR ROTR 11 (x) XOR ROTR 25 (x)\"",
        file: "crypto.rs",
        function: "fn sha256_block(",
        edits: &[Instead("e.rotate_right(25)", "e.rotate_right(24)")],
    },
    // Sides that are translated on the way: Ticket 10.
    Planted {
        name: "NewFlagsRefused",
        does: "13 for flags above 1, as before Ticket 10.",
        breaks: "\"Refusal 13 admits both bits\"",
        file: "table.rs",
        function: "fn read_body(",
        edits: &[Instead("flags > 7", "flags > 1")],
    },
    Planted {
        name: "FlagsAboveSevenAdmitted",
        does: "Of the flags only the lowest three bits are looked at.",
        breaks: "13: \"flags or algorithm not listed\"",
        file: "table.rs",
        function: "fn read_body(",
        edits: &[Instead("flags > 7", "false")],
    },
    Planted {
        name: "FlagEightAdmitted",
        does: "13 admits 8 beside the lower bits.",
        breaks: "\"Refusal 13 admits both bits\"",
        file: "table.rs",
        function: "fn read_body(",
        edits: &[Instead("flags > 7", "flags > 15")],
    },
    Planted {
        name: "SidesExchanged",
        does: "2 stands for the remote side and 4 for the local one.",
        breaks: "\"flags 2 for the local and 4 for the remote side\"",
        file: "table.rs",
        function: "fn read_body(",
        edits: &[
            Instead("flags & 2 != 0", "flags & 4 != 0"),
            Instead("flags & 4 != 0", "flags & 2 != 0"),
        ],
    },
    Planted {
        name: "OnlyOneSideHidden",
        does: "Where both bits are set only the local side counts as zero.",
        breaks: "\"under which that side's address and port count as zero\"",
        file: "table.rs",
        function: "fn read_body(",
        edits: &[Instead("flags & 4 != 0", "flags & 6 == 4")],
    },
    Planted {
        name: "BitsByDirection",
        does: "2 hides the source and 4 the destination, also of what arrives.",
        breaks: "\"flags 2 for the local and 4 for the remote side\": by side, not by direction",
        file: "mac.rs",
        function: "fn of(entry",
        edits: &[Before(
            "match direction {",
            "return Hidden { source: entry.local_nat, destination: entry.remote_nat };",
        )],
    },
    Planted {
        name: "BitsAsIfArriving",
        does: "2 hides the destination and 4 the source, also of what we sign.",
        breaks: "\"flags 2 for the local and 4 for the remote side\": by side, not by direction",
        file: "mac.rs",
        function: "fn of(entry",
        edits: &[Before(
            "match direction {",
            "return Hidden { source: entry.remote_nat, destination: entry.local_nat };",
        )],
    },
    Planted {
        name: "HiddenOnlyWithFlagOne",
        does: "A side counts as zero only where all options are covered.",
        breaks: "\"count as zero in the traffic key context and in the MAC's pseudo-header and header\"",
        file: "mac.rs",
        function: "fn of(entry",
        edits: &[Before(
            "match direction {",
            "if !entry.covers_options { return Hidden { source: false, destination: false }; }",
        )],
    },
    Planted {
        name: "NothingHidden",
        does: "The new bits are admitted and change nothing.",
        breaks: "\"under which that side's address and port count as zero\"",
        file: "mac.rs",
        function: "fn of(entry",
        edits: &[Before(
            "match direction {",
            "return Hidden { source: false, destination: false };",
        )],
    },
    Planted {
        name: "IsnsHidden",
        does: "A hidden side's ISN counts as zero, too.",
        breaks: "\"that side's address and port count as zero\"",
        file: "mac.rs",
        function: "fn counted<",
        edits: &[
            Behind("counted.source_port = 0;", "counted.source_isn = 0;"),
            Behind("counted.destination_port = 0;", "counted.destination_isn = 0;"),
        ],
    },
    Planted {
        name: "AddressLeftInContext",
        does: "A hidden side's address is in the traffic key's context.",
        breaks: "\"that side's address and port count as zero in the traffic key context\"",
        file: "mac.rs",
        function: "fn mac(",
        edits: &[Instead(
            "traffic_key(entry.algorithm, entry.key, &counted)",
            "let left = Ends { source: ends.source, destination: ends.destination, ..counted };
            traffic_key(entry.algorithm, entry.key, &left)",
        )],
    },
    Planted {
        name: "PortLeftInContext",
        does: "A hidden side's port is in the traffic key's context.",
        breaks: "\"that side's address and port count as zero in the traffic key context\"",
        file: "mac.rs",
        function: "fn mac(",
        edits: &[Instead(
            "traffic_key(entry.algorithm, entry.key, &counted)",
            "let (source_port, destination_port) = (ends.source_port, ends.destination_port);
            traffic_key(entry.algorithm, entry.key, &Ends { source_port, destination_port, ..counted })",
        )],
    },
    Planted {
        name: "AddressLeftInPseudoHeader",
        does: "A hidden side's address is in the pseudo-header under the MAC.",
        breaks: "\"count as zero ... in the MAC's pseudo-header and header\"",
        file: "mac.rs",
        function: "fn mac(",
        edits: &[Instead(
            "message(entry.covers_options, hidden, &counted, extension, carrier)",
            "message(entry.covers_options, hidden, ends, extension, carrier)",
        )],
    },
    Planted {
        name: "PortLeftUnderMac",
        does: "A hidden side's port is in the header under the MAC.",
        breaks: "\"count as zero ... in the MAC's pseudo-header and header\"",
        file: "mac.rs",
        function: "fn message(",
        edits: &[Instead("hidden.source", "false"), Instead("hidden.destination", "false")],
    },
    Planted {
        name: "PortLeftUnderMacWithFlagZero",
        does: "With flag 0 a hidden side's port is in the header under the MAC.",
        breaks: "\"count as zero ... in the MAC's pseudo-header and header\"",
        file: "mac.rs",
        function: "fn message(",
        edits: &[
            Instead("hidden.source", "hidden.source && covers_options"),
            Instead("hidden.destination", "hidden.destination && covers_options"),
        ],
    },
    Planted {
        name: "BareSynNotHidden",
        does: "In a bare SYN no side counts as zero.",
        breaks: "\"under which that side's address and port count as zero\"",
        file: "mac.rs",
        function: "fn mac(",
        edits: &[Instead(
            "Hidden::of(entry, direction)",
            "if carrier.header.is_bare_syn() {
                Hidden { source: false, destination: false }
            } else {
                Hidden::of(entry, direction)
            }",
        )],
    },
    Planted {
        name: "SynAckNotHidden",
        does: "In a SYN+ACK no side counts as zero.",
        breaks: "\"under which that side's address and port count as zero\"",
        file: "mac.rs",
        function: "fn mac(",
        edits: &[Instead(
            "Hidden::of(entry, direction)",
            "if carrier.header.is_syn_ack() {
                Hidden { source: false, destination: false }
            } else {
                Hidden::of(entry, direction)
            }",
        )],
    },
    Planted {
        name: "HiddenPortsSent",
        does: "What is sent has zero in the place of a hidden side's port.",
        breaks: "\"count as zero in the traffic key context and in the MAC's pseudo-header and header\": nowhere else",
        file: "calls.rs",
        function: "fn sign(",
        edits: &[Before(
            "// The checksum, over all that is sent",
            "if entry.local_nat { signed[0..2].fill(0); }
            if entry.remote_nat { signed[2..4].fill(0); }",
        )],
    },
    Planted {
        name: "ChecksumOverHidden",
        does: "Signing sums over zero in the place of a hidden side's address and port.",
        breaks: "\"The signer now writes the right TCP checksum over the pseudo-header\"; \"its checksum set right\"",
        file: "calls.rs",
        function: "fn sign(",
        edits: &[Instead(
            "checksum::checksum(pair.local, pair.remote, &signed)",
            "let counted = mac::Hidden::of(&entry, Direction::Leaving).counted(&ends);
            let mut blank = signed.clone();
            blank[0..2].copy_from_slice(&counted.source_port.to_be_bytes());
            blank[2..4].copy_from_slice(&counted.destination_port.to_be_bytes());
            checksum::checksum(counted.source, counted.destination, &blank)",
        )],
    },
    Planted {
        name: "SumOverHidden",
        does: "On a connection, the sum is over a zero address where an entry for the pair hides the peer's side.",
        breaks: "\"Arriving segments whose one's complement sum, pseudo-header and checksum included\"",
        file: "calls.rs",
        function: "fn take_arrival(",
        edits: &[Instead(
            "readable(source, destination, segment)",
            "let hides = |entry: &Entry| entry.remote_nat && entry.matches(&pair);
            let zero = &[0; 16][..source.len()];
            readable(if entries.iter().any(hides) { zero } else { source }, destination, segment)",
        )],
    },
    Planted {
        name: "MatchedByHiddenAddress",
        does: "A hidden side is matched as address and port zero.",
        breaks: "\"matching still uses the addresses as seen\"",
        file: "table.rs",
        function: "fn matches(&self, pair",
        edits: &[
            Instead(
                "self.local.matches(pair.local, pair.local_port)",
                "if self.local_nat {
                    self.local.matches(&[0; 16][..family], 0)
                } else {
                    self.local.matches(pair.local, pair.local_port)
                }",
            ),
            Instead(
                "self.remote.matches(pair.remote, pair.remote_port)",
                "if self.remote_nat {
                    self.remote.matches(&[0; 16][..family], 0)
                } else {
                    self.remote.matches(pair.remote, pair.remote_port)
                }",
            ),
        ],
    },
    Planted {
        name: "HiddenSideMatchesAll",
        does: "A hidden side matches every address and port.",
        breaks: "\"matching still uses the addresses as seen\"",
        file: "table.rs",
        function: "fn matches(&self, pair",
        edits: &[
            Instead(
                "self.local.matches(pair.local, pair.local_port)",
                "self.local_nat || self.local.matches(pair.local, pair.local_port)",
            ),
            Instead(
                "self.remote.matches(pair.remote, pair.remote_port)",
                "self.remote_nat || self.remote.matches(pair.remote, pair.remote_port)",
            ),
        ],
    },
    Planted {
        name: "HiddenSidesClash",
        does: "17 takes sides that both entries hide as shared, whatever their addresses and ports.",
        breaks: "\"a socket pair exists that two entries both match\"; \"matching still uses the addresses as seen\"",
        file: "table.rs",
        function: "fn clashes(",
        edits: &[
            Instead(
                "self.local.overlaps(&other.local)",
                "(self.local_nat && other.local_nat || self.local.overlaps(&other.local))",
            ),
            Instead(
                "self.remote.overlaps(&other.remote)",
                "(self.remote_nat && other.remote_nat || self.remote.overlaps(&other.remote))",
            ),
        ],
    },
    Planted {
        name: "HiddenSidesDoNotClash",
        does: "17 not for entries that hide different sides.",
        breaks: "\"a socket pair exists that two entries both match while they share SendID or share RecvID\"",
        file: "table.rs",
        function: "fn clashes(",
        edits: &[Before(
            "let shared",
            "if (self.local_nat, self.remote_nat) != (other.local_nat, other.remote_nat) { return false; }",
        )],
    },
    Planted {
        name: "HiddenPeerNotCompared",
        does: "23 does not look at the peer's side where the entry for the KeyID hides it.",
        breaks: "23: \"pair is not the state's\"; \"so that the segment comes under the pair that the receiver holds\"",
        file: "calls.rs",
        function: "fn take_arrival(",
        edits: &[Instead(
            "arriving_pair(source, destination, &header) != pair",
            "let seen = arriving_pair(source, destination, &header);
            let entry = options.ao.and_then(|ao| by_recv_id(&entries, &pair, ao.key_id));
            let peer = seen.remote == pair.remote && seen.remote_port == pair.remote_port;
            let ours = seen.local == pair.local && seen.local_port == pair.local_port;
            !ours || !(peer || entry.is_some_and(|entry| entry.remote_nat))",
        )],
    },
    Planted {
        name: "HiddenPortsNotTested",
        does: "33 does not look at a port that the outgoing key's entry hides.",
        breaks: "33: \"ports not the state's\"",
        file: "calls.rs",
        function: "fn sign(",
        edits: &[Instead(
            "header.source_port != pair.local_port || header.destination_port != pair.remote_port",
            "let entry = by_send_id(&entries, &pair, state.outgoing_send_id);
            let ours = entry.is_some_and(|entry| entry.local_nat);
            let theirs = entry.is_some_and(|entry| entry.remote_nat);
            !ours && header.source_port != pair.local_port
                || !theirs && header.destination_port != pair.remote_port",
        )],
    },
    Planted {
        name: "StateHoldsHidden",
        does: "A passive opening writes a zero address and port for a peer that the entry hides.",
        breaks: "\"A second call takes the same SYN ... opens with the entry found\": the connection has the SYN's pair",
        file: "calls.rs",
        function: "fn open_passive(",
        edits: &[Before(
            "key_rule(&entries",
            "if entry.remote_nat {
                state.remote = [0; 16];
                state.remote_port = 0;
            }",
        )],
    },
    // MD5 and TCP MD5: Ticket 9.
    Planted {
        name: "Md5LengthBigEndian",
        does: "MD5 has the message's length with its highest byte first.",
        breaks: "RFC 1321: \"appended low-order word first in accordance with the previous conventions\"",
        file: "crypto.rs",
        function: "fn md5(",
        edits: &[Instead("u64::to_le_bytes", "u64::to_be_bytes")],
    },
    Planted {
        name: "Md5WordsBigEndian",
        does: "MD5 takes the block's words with their highest byte first.",
        breaks: "RFC 1321: \"with the low-order (least significant) byte given first\"",
        file: "crypto.rs",
        function: "fn md5_block(",
        edits: &[Instead("u32::from_le_bytes", "u32::from_be_bytes")],
    },
    Planted {
        name: "Md5WrongConstant",
        does: "A bit of one constant of MD5 is another.",
        breaks: "RFC 1321: \"the integer part of 4294967296 times abs(sin(i))\"",
        file: "crypto.rs",
        function: "fn md5_block(",
        edits: &[Instead("*constant", "if i == 40 { constant ^ 1 } else { *constant }")],
    },
    Planted {
        name: "Md5WrongRotation",
        does: "MD5's third round rotates by 22 in place of 23.",
        breaks: "RFC 1321: \"[BCDA 14 23 36]\"",
        file: "crypto.rs",
        function: "fn md5_block(",
        edits: &[Instead(
            "MD5_ROTATIONS[i / 16][i % 4]",
            "if i / 16 == 2 && i % 4 == 3 { 22 } else { MD5_ROTATIONS[i / 16][i % 4] }",
        )],
    },
    Planted {
        name: "KeyFirstInDigest",
        does: "The key stands before all else in the digest.",
        breaks: "RFC 2385: \"4. an independently-specified key or password\"",
        file: "tcp_md5.rs",
        function: "fn digest(",
        edits: &[Instead(
            "message(source, destination, segment, header, key)",
            "[key, &message(source, destination, segment, header, &[])].concat()",
        )],
    },
    Planted {
        name: "PaddedKeyInDigest",
        does: "The key is in the digest with the zeros behind it.",
        breaks: "\"key length 1 to 80; the key, padded with zeros to 80\": the padding is no part of it",
        file: "tcp_md5.rs",
        function: "fn message(",
        edits: &[Behind(
            "bytes.extend_from_slice(key);",
            "bytes.resize(bytes.len() + 80 - key.len(), 0);",
        )],
    },
    Planted {
        name: "OptionsInDigest",
        does: "The options are in the digest, MD5's own digest as zeros.",
        breaks: "RFC 2385: \"2. the TCP header, excluding options\"",
        file: "tcp_md5.rs",
        function: "fn message(",
        edits: &[Behind(
            "without_options[CHECKSUM].fill(0);",
            "let area = &segment[OPTIONS_AT..header.bytes()];
            let md5 = area.iter().position(|byte| *byte == 19).unwrap_or(0);
            let digest = |at: usize| (md5 + 2..md5 + 18).contains(&at);
            without_options
                .extend(area.iter().enumerate().map(|(at, byte)| if digest(at) { 0 } else { *byte }));",
        )],
    },
    Planted {
        name: "ChecksumInDigest",
        does: "The checksum is in the digest as it came.",
        breaks: "RFC 2385: \"assuming a checksum of zero\"",
        file: "tcp_md5.rs",
        function: "fn message(",
        edits: &[Instead("without_options[CHECKSUM].fill(0)", "")],
    },
    Planted {
        name: "ShortLengthInDigest",
        does: "The pseudo-header has the length without the options.",
        breaks: "RFC 2385: \"the TCP pseudo-header (in the order: ... and segment length)\"",
        file: "tcp_md5.rs",
        function: "fn message(",
        edits: &[Instead(
            "pseudo_header(source, destination, segment.len())",
            "pseudo_header(source, destination, segment.len() + OPTIONS_AT - header.bytes())",
        )],
    },
    Planted {
        name: "DigestWithoutPseudoHeader",
        does: "The digest is of the segment and the key alone.",
        breaks: "RFC 2385: \"1. the TCP pseudo-header\"",
        file: "tcp_md5.rs",
        function: "fn message(",
        edits: &[Instead(
            "pseudo_header(source, destination, segment.len())",
            "pseudo_header(source, destination, segment.len())[..0].to_vec()",
        )],
    },
    Planted {
        name: "ShortPseudoHeaderInDigest",
        does: "For IPv6, the pseudo-header of the digest is IPv4's but for the addresses.",
        breaks: "\"for IPv6 over 01's pseudo-header\"",
        file: "tcp_md5.rs",
        function: "fn message(",
        edits: &[Instead(
            "pseudo_header(source, destination, segment.len())",
            "[source, destination, &[0, 6], &(segment.len() as u16).to_be_bytes()].concat()",
        )],
    },
    Planted {
        name: "OffsetFiveInDigest",
        does: "The digest has the data offset of a header without options.",
        breaks: "RFC 2385: \"2. the TCP header, excluding options\": its bytes as they are sent",
        file: "tcp_md5.rs",
        function: "fn message(",
        edits: &[Behind(
            "without_options[CHECKSUM].fill(0);",
            "without_options[12] = 0x50 | without_options[12] & 0x0f;",
        )],
    },
    Planted {
        name: "DataNotInDigest",
        does: "The data are not in the digest.",
        breaks: "RFC 2385: \"3. the TCP segment data (if any)\"",
        file: "tcp_md5.rs",
        function: "fn message(",
        edits: &[Instead("&segment[header.bytes()..]", "&[]")],
    },
    // The MD5 table, and both tables.
    Planted {
        name: "Md5KindsFiveAndSevenTaken",
        does: "11 of the MD5 table only for kinds other than 4 to 7.",
        breaks: "\"kinds 4 and 6 only (11 otherwise)\", the agreed reading",
        file: "md5_table.rs",
        function: "fn body_bytes(",
        edits: &[Before(
            "match kind {",
            "if (4..=7).contains(&kind) { return table::body_bytes(kind); }",
        )],
    },
    Planted {
        name: "Md5FlagsTaken",
        does: "The MD5 table takes any flags.",
        breaks: "\"with flags 0, algorithm 19, SendID 0 and RecvID 0 (13 otherwise)\", the agreed reading",
        file: "md5_table.rs",
        function: "fn read_body(",
        edits: &[Instead("body[..4] != [0, KIND_MD5, 0, 0]", "body[1..4] != [KIND_MD5, 0, 0]")],
    },
    Planted {
        name: "Md5AlgorithmNotTested",
        does: "The MD5 table takes any algorithm.",
        breaks: "\"with flags 0, algorithm 19, SendID 0 and RecvID 0 (13 otherwise)\", the agreed reading",
        file: "md5_table.rs",
        function: "fn read_body(",
        edits: &[Instead(
            "body[..4] != [0, KIND_MD5, 0, 0]",
            "body[0] != 0 || body[2..4] != [0, 0]",
        )],
    },
    Planted {
        name: "Md5IdsTaken",
        does: "The MD5 table takes any IDs.",
        breaks: "\"with flags 0, algorithm 19, SendID 0 and RecvID 0 (13 otherwise)\", the agreed reading",
        file: "md5_table.rs",
        function: "fn read_body(",
        edits: &[Instead("body[..4] != [0, KIND_MD5, 0, 0]", "body[..2] != [0, KIND_MD5]")],
    },
    Planted {
        name: "Md5ClashNotTested",
        does: "17 is not given for the MD5 table.",
        breaks: "\"17 if two entries match one pair\"",
        file: "md5_table.rs",
        function: "fn clashes(",
        edits: &[Before("self.local.address.len() ==", "return false;")],
    },
    Planted {
        name: "Md5ClashOfEqualSidesOnly",
        does: "17 of the MD5 table only for entries with the same sides.",
        breaks: "\"17 if two entries match one pair\"",
        file: "md5_table.rs",
        function: "fn clashes(",
        edits: &[Before(
            "self.local.address.len() ==",
            "return self.local == other.local && self.remote == other.remote;",
        )],
    },
    Planted {
        name: "Md5ClashWithoutRemote",
        does: "17 of the MD5 table looks at the local side only.",
        breaks: "\"17 if two entries match one pair\"",
        file: "md5_table.rs",
        function: "fn clashes(",
        edits: &[Instead("self.remote.overlaps(&other.remote)", "true")],
    },
    Planted {
        name: "Md5TableFirst",
        does: "The MD5 table's refusals come before the key table's.",
        breaks: "\"behind the key table's and then the MD5 table's refusals\"",
        file: "md5_table.rs",
        function: "fn read_bytes(&self)",
        edits: &[Before("let keys =", "read(self.md5)?;")],
    },
    Planted {
        name: "BadMd5TableTaken",
        does: "An MD5 table that is refused counts as none.",
        breaks: "\"with a table of its own ..., under refusals 10 to 17\"",
        file: "md5_table.rs",
        function: "fn read_bytes(&self)",
        edits: &[Instead("read(self.md5)?", "read(self.md5).unwrap_or_default()")],
    },
    Planted {
        name: "Md5RefusalUnmarked",
        does: "Bits 8 to 15 are zero beside the MD5 table's refusals.",
        breaks: "\"whose entry the index names, 0 the key table's, 1 the MD5 table's\"",
        file: "boundary.rs",
        function: "fn refusal_word(",
        edits: &[Instead("(refusal.in_md5 as u64) << 8", "0")],
    },
    Planted {
        name: "FortyFiveUnmarked",
        does: "Bits 8 to 15 are zero beside 45.",
        breaks: "\"(beside 45 always 1)\"",
        file: "boundary.rs",
        function: "fn refusal_word(",
        edits: &[Instead(
            "(refusal.in_md5 as u64) << 8",
            "((refusal.in_md5 && refusal.number != 45) as u64) << 8",
        )],
    },
    Planted {
        name: "FortyFiveNever",
        does: "45 is not given.",
        breaks: "\"Tables that both match some pair are refused with 45 at the first such MD5 entry\"",
        file: "md5_table.rs",
        function: "fn read_bytes(&self)",
        edits: &[Instead("md5.iter().position(both)", "None::<usize>")],
    },
    Planted {
        name: "FortyFiveAtLast",
        does: "45 at the last such MD5 entry.",
        breaks: "\"Tables that both match some pair are refused with 45 at the first such MD5 entry\"",
        file: "md5_table.rs",
        function: "fn read_bytes(&self)",
        edits: &[Instead("md5.iter().position(both)", "md5.iter().rposition(both)")],
    },
    Planted {
        name: "FortyFiveAtKeyEntry",
        does: "45 with the index of the key entry.",
        breaks: "\"Tables that both match some pair are refused with 45 at the first such MD5 entry\"",
        file: "md5_table.rs",
        function: "fn read_bytes(&self)",
        edits: &[Instead(
            "index as u32",
            "keys.iter().position(|key| md5[index].overlaps(key)).unwrap_or(0) as u32",
        )],
    },
    Planted {
        name: "FortyFiveWithoutFamily",
        does: "45 although the two entries are of different families.",
        breaks: "\"Tables that both match some pair are refused with 45\"; \"An entry matches a socket pair of its family\"",
        file: "md5_table.rs",
        function: "fn overlaps(&self, key",
        edits: &[Instead(
            "same_family && self.local.overlaps(&key.local) && self.remote.overlaps(&key.remote)",
            "self.local.overlaps(&key.local) && self.remote.overlaps(&key.remote)",
        )],
    },
    Planted {
        name: "FortyFiveByLocalSide",
        does: "45 looks at the local side only.",
        breaks: "\"Tables that both match some pair are refused with 45 at the first such MD5 entry\"",
        file: "md5_table.rs",
        function: "fn overlaps(&self, key",
        edits: &[Instead(
            "same_family && self.local.overlaps(&key.local) && self.remote.overlaps(&key.remote)",
            "same_family && self.local.overlaps(&key.local)",
        )],
    },
    Planted {
        name: "FortyFiveOfEqualSides",
        does: "45 only for entries with the same sides.",
        breaks: "\"Tables that both match some pair are refused with 45 at the first such MD5 entry\"",
        file: "md5_table.rs",
        function: "fn overlaps(&self, key",
        edits: &[Instead(
            "same_family && self.local.overlaps(&key.local) && self.remote.overlaps(&key.remote)",
            "same_family && self.local == key.local && self.remote == key.remote",
        )],
    },
    Planted {
        name: "FortyFiveBeforeMd5Table",
        does: "45 comes before the refusals of later MD5 entries.",
        breaks: "\"behind the key table's and then the MD5 table's refusals\"",
        file: "md5_table.rs",
        function: "fn read_bytes(&self)",
        edits: &[Before(
            "let md5 = read(self.md5)?;",
            "let mut end = 0;
            while let Some(bytes) = self.md5.get(end).copied().and_then(body_bytes) {
                end += 1 + bytes;
                let Some(Ok(md5)) = self.md5.get(..end).map(read) else { break };
                let both = |entry: &Md5Entry| keys.iter().any(|key| entry.overlaps(key));
                if let Some(index) = md5.iter().position(both) {
                    return Err(Refusal { number: 45, index: index as u32, in_md5: true });
                }
            }",
        )],
    },
    Planted {
        name: "FortyFiveAfterTwenty",
        does: "On a connection, 45 comes after 20.",
        breaks: "\"and before 20\"",
        file: "calls.rs",
        function: "fn take_arrival(",
        edits: &[Before(
            "// 19, 10 to 17 and 45, 44.",
            "addresses(source, destination)?;
            let both = tables.read().is_err_and(|refusal| refusal.number == 45);
            if both && Header::read(segment).is_none() { return Err(Refusal::of(20)); }",
        )],
    },
    Planted {
        name: "CheckingIgnoresMd5",
        does: "Checking looks at the key table only.",
        breaks: "\"Tables that both match some pair are refused with 45 at the first such MD5 entry\"",
        file: "calls.rs",
        function: "fn check_table(",
        edits: &[Instead(
            "tables.read()?.keys.len()",
            "Lent { md5: &[], ..*tables }.read()?.keys.len()",
        )],
    },
    Planted {
        name: "OpeningIgnoresMd5",
        does: "An active opening by TCP-AO looks at the key table only.",
        breaks: "\"Tables that both match some pair are refused with 45 at the first such MD5 entry\"",
        file: "calls.rs",
        function: "fn opening_state(",
        edits: &[Instead(
            "addresses_then_tables(pair.local, pair.remote, tables)?.keys",
            "addresses(pair.local, pair.remote)?;
            Lent { md5: &[], ..*tables }.read()?.keys",
        )],
    },
    Planted {
        name: "Md5OpeningIgnoresKeys",
        does: "An active opening by MD5 looks at the MD5 table only.",
        breaks: "\"Tables that both match some pair are refused with 45 at the first such MD5 entry\"",
        file: "calls.rs",
        function: "fn opening_state_md5(",
        edits: &[Instead(
            "addresses_then_tables(pair.local, pair.remote, tables)?",
            "addresses(pair.local, pair.remote)?;
            let keys = if tables.form == 0 { &[] } else { tables.keys };
            Lent { keys, ..*tables }.read()?",
        )],
    },
    Planted {
        name: "SynIgnoresFortyFive",
        does: "A bare SYN without a state gets no 45.",
        breaks: "\"Tables that both match some pair are refused with 45 at the first such MD5 entry\"",
        file: "calls.rs",
        function: "fn take_syn<",
        edits: &[Instead(
            "addresses_then_tables(source, destination, tables)?",
            "addresses(source, destination)?;
            match tables.read() {
                Err(refusal) if refusal.number == 45 => Tables {
                    keys: crate::table::read(tables.keys)?,
                    md5: crate::md5_table::read(tables.md5)?,
                },
                read => read?,
            }",
        )],
    },
    Planted {
        name: "JudgingIgnoresFortyFive",
        does: "Judging on a connection gives no 45.",
        breaks: "\"Tables that both match some pair are refused with 45 at the first such MD5 entry\"",
        file: "calls.rs",
        function: "fn take_arrival(",
        edits: &[Instead(
            "addresses_then_tables(source, destination, tables)?",
            "addresses(source, destination)?;
            match tables.read() {
                Err(refusal) if refusal.number == 45 => Tables {
                    keys: crate::table::read(tables.keys)?,
                    md5: crate::md5_table::read(tables.md5)?,
                },
                read => read?,
            }",
        )],
    },
    Planted {
        name: "SigningIgnoresFortyFive",
        does: "Signing gives no 45.",
        breaks: "\"Tables that both match some pair are refused with 45 at the first such MD5 entry\"",
        file: "calls.rs",
        function: "fn sign(",
        edits: &[Instead(
            "tables.read()?",
            "match tables.read() {
                Err(refusal) if refusal.number == 45 => Tables {
                    keys: crate::table::read(tables.keys)?,
                    md5: crate::md5_table::read(tables.md5)?,
                },
                read => read?,
            }",
        )],
    },
    Planted {
        name: "AskingIgnoresMd5",
        does: "Asking looks at the key table only.",
        breaks: "\"Tables that both match some pair are refused with 45 at the first such MD5 entry\"",
        file: "calls.rs",
        function: "fn ask(",
        edits: &[Instead(
            "tables.read()?.keys",
            "Lent { md5: &[], ..*tables }.read()?.keys",
        )],
    },
    // The way that a connection goes.
    Planted {
        name: "WayByAnyNonzero",
        does: "Any way but 0 is MD5.",
        breaks: "\"way: 1 MD5, any other value TCP-AO\"",
        file: "state.rs",
        function: "fn goes_by_md5(",
        edits: &[Instead("self.way == WAY_MD5", "self.way != 0")],
    },
    Planted {
        name: "WayNormalised",
        does: "A way that is not 1 is written as 0.",
        breaks: "\"reading and writing it back gives the same bytes\"",
        file: "state.rs",
        function: "fn to_bytes(",
        edits: &[Instead("self.way", "(self.way == WAY_MD5) as u8")],
    },
    Planted {
        name: "WayByTable",
        does: "A connection goes by MD5 where the MD5 table matches its pair.",
        breaks: "\"A connection goes by the way it was opened and never accepts the other\"",
        file: "calls.rs",
        function: "fn take_arrival(",
        edits: &[Instead("before.goes_by_md5()", "matching(&tables.md5, &pair).is_some()")],
    },
    Planted {
        name: "AoTakenOnMd5Way",
        does: "On a connection opened by MD5, a segment with TCP-AO is judged by it.",
        breaks: "\"A connection goes by the way it was opened and never accepts the other\"",
        file: "calls.rs",
        function: "fn take_arrival(",
        edits: &[Instead("before.goes_by_md5()", "before.goes_by_md5() && options.ao.is_none()")],
    },
    Planted {
        name: "Md5TakenOnAoWay",
        does: "On a connection opened by TCP-AO, a segment with MD5 is judged by it.",
        breaks: "\"A connection goes by the way it was opened and never accepts the other\"",
        file: "calls.rs",
        function: "fn take_arrival(",
        edits: &[Instead(
            "before.goes_by_md5()",
            "before.goes_by_md5() || options.md5.is_some()",
        )],
    },
    Planted {
        name: "SignedByTable",
        does: "Signing goes by MD5 where the MD5 table matches the pair.",
        breaks: "\"A connection goes by the way it was opened and never accepts the other\"",
        file: "calls.rs",
        function: "fn sign(",
        edits: &[Instead("state.goes_by_md5()", "matching(&tables.md5, &pair).is_some()")],
    },
    Planted {
        name: "Md5OpeningWithoutWay",
        does: "An active opening by MD5 writes the way of TCP-AO.",
        breaks: "\"A connection goes by the way it was opened and never accepts the other\"",
        file: "calls.rs",
        function: "fn opening_state_md5(",
        edits: &[Instead("state.way = WAY_MD5", "")],
    },
    Planted {
        name: "PassiveMd5WithoutWay",
        does: "A passive opening by MD5 writes the way of TCP-AO.",
        breaks: "\"A connection goes by the way it was opened and never accepts the other\"",
        file: "calls.rs",
        function: "fn open_passive(",
        edits: &[Instead("state.way = WAY_MD5", "")],
    },
    Planted {
        name: "Md5OpeningWithId",
        does: "An active opening by MD5 has 19 as its outgoing SendID.",
        breaks: "\"The MD5 openings, active and passive, set outgoing SendID and asked RecvID to 0\", the agreed reading",
        file: "calls.rs",
        function: "fn opening_state_md5(",
        edits: &[Before("Ok(state)", "state.outgoing_send_id = KIND_MD5;")],
    },
    Planted {
        name: "PassiveMd5WithId",
        does: "A passive opening by MD5 has 19 as its asked RecvID.",
        breaks: "\"The MD5 openings, active and passive, set outgoing SendID and asked RecvID to 0\", the agreed reading",
        file: "calls.rs",
        function: "fn open_passive(",
        edits: &[Instead(
            "state.way = WAY_MD5",
            "state.way = WAY_MD5; state.asked_recv_id = KIND_MD5",
        )],
    },
    Planted {
        name: "SynAckClearsWay",
        does: "The SYN+ACK that opens writes way 0 where it is not 1.",
        breaks: "\"at a SYN+ACK that opens, both IDs and the way stay as the state has them\", the agreed reading",
        file: "calls.rs",
        function: "fn open_by_syn_ack(",
        edits: &[Behind(
            "state.stage = STAGE_OPEN;",
            "if !state.goes_by_md5() { state.way = 0; }",
        )],
    },
    Planted {
        name: "SynAckClearsIds",
        does: "The SYN+ACK that opens by MD5 sets both IDs to 0.",
        breaks: "\"An operator call sets the RecvID asked of the peer; nothing else does.\"",
        file: "calls.rs",
        function: "fn open_by_syn_ack(",
        edits: &[Behind(
            "state.stage = STAGE_OPEN;",
            "if state.goes_by_md5() { (state.outgoing_send_id, state.asked_recv_id) = (0, 0); }",
        )],
    },
    Planted {
        name: "Md5OpeningLeavesReferences",
        does: "The SYN+ACK that opens by MD5 leaves the references.",
        breaks: "\"after opening neither it nor signing moves a reference\": opening sets them",
        file: "calls.rs",
        function: "fn open_by_syn_ack(",
        edits: &[Before(
            "state.signing_reference =",
            "if state.goes_by_md5() {
                state.accepted = 0;
                state.drops = [0; COUNTED.len()];
                return;
            }",
        )],
    },
    Planted {
        name: "Md5ActiveWithoutEntry",
        does: "An active opening by MD5 needs no entry.",
        breaks: "\"(opening, signing: 35; asking: always 35)\"",
        file: "calls.rs",
        function: "fn opening_state_md5(",
        edits: &[Instead("matching(&tables.md5, pair).is_none()", "false")],
    },
    Planted {
        name: "Md5ActiveByKeyTable",
        does: "An active opening by MD5 needs an entry of the key table.",
        breaks: "\"(opening, signing: 35; asking: always 35)\"",
        file: "calls.rs",
        function: "fn opening_state_md5(",
        edits: &[Instead(
            "matching(&tables.md5, pair).is_none()",
            "!any_matches(&tables.keys, pair)",
        )],
    },
    // Judging by MD5.
    Planted {
        name: "UnsignedSynPasses",
        does: "A bare SYN goes by MD5 only if it has kind 19.",
        breaks: "\"a bare SYN without one by the table that matches, else as before\"",
        file: "calls.rs",
        function: "fn take_syn<",
        edits: &[Instead(
            "matching(&tables.md5, &pair)",
            "matching(&tables.md5, &pair).filter(|_| options.md5.is_some())",
        )],
    },
    Planted {
        name: "AoSynByTheSetting",
        does: "A bare SYN with TCP-AO goes by TCP-AO although the MD5 table matches.",
        breaks: "\"a bare SYN without one by the table that matches, else as before\"",
        file: "calls.rs",
        function: "fn take_syn<",
        edits: &[Instead(
            "matching(&tables.md5, &pair)",
            "matching(&tables.md5, &pair).filter(|_| options.ao.is_none())",
        )],
    },
    Planted {
        name: "SynNeverByMd5",
        does: "No bare SYN goes by MD5.",
        breaks: "\"a bare SYN without one by the table that matches, else as before\"",
        file: "calls.rs",
        function: "fn take_syn<",
        edits: &[Instead(
            "matching(&tables.md5, &pair)",
            "matching(&tables.md5, &pair).filter(|_| false)",
        )],
    },
    Planted {
        name: "Md5SynWithoutEntryDropped",
        does: "A bare SYN with MD5 and no entry in either table is 26.",
        breaks: "\"a bare SYN without one by the table that matches, else as before\"",
        file: "calls.rs",
        function: "fn take_syn<",
        edits: &[Before(
            "// 25, or a pass.",
            "if options.md5.is_some() { return Err(Refusal::of(26)); }",
        )],
    },
    Planted {
        name: "FortySixAndSevenExchanged",
        does: "47 for kind 29 alone, and 46 for an unsigned segment.",
        breaks: "\"The MD5 way drops kind 29 alone with 46 and an unsigned segment with 47\"",
        file: "calls.rs",
        function: "fn agrees(",
        edits: &[
            Instead("Refusal::of(46)", "Refusal::of(47)"),
            Instead("Refusal::of(47)", "Refusal::of(46)"),
        ],
    },
    Planted {
        name: "TwentyFiveOnMd5Way",
        does: "25 for an unsigned segment on the MD5 way.",
        breaks: "\"The MD5 way drops kind 29 alone with 46 and an unsigned segment with 47\"; \"both tested before 25\"",
        file: "calls.rs",
        function: "fn agrees(",
        edits: &[Instead("Refusal::of(47)", "Refusal::of(25)")],
    },
    Planted {
        name: "TwentyFiveForAo",
        does: "25 for kind 29 alone on the MD5 way.",
        breaks: "\"The MD5 way drops kind 29 alone with 46 and an unsigned segment with 47\"; \"both tested before 25\"",
        file: "calls.rs",
        function: "fn agrees(",
        edits: &[Instead("Refusal::of(46)", "Refusal::of(25)")],
    },
    Planted {
        name: "EntryBeforeFortySix",
        does: "26 before 46 and 47.",
        breaks: "\"46 and ... 47, both tested before 25\"",
        file: "calls.rs",
        function: "fn agrees(",
        edits: &[Before("// 46: \"The MD5 way", "entry.ok_or(Refusal::of(26))?;")],
    },
    Planted {
        name: "Md5WithoutEntryIs35",
        does: "35 for kind 19 with no entry.",
        breaks: "\"and kind 19 with no entry with 26\"",
        file: "calls.rs",
        function: "fn agrees(",
        edits: &[Instead("Refusal::of(26)", "Refusal::of(35)")],
    },
    Planted {
        name: "Md5LengthBeforeEntry",
        does: "27 before 26 on the MD5 way.",
        breaks: "\"The first that applies, in this order, is given\"",
        file: "calls.rs",
        function: "fn agrees(",
        edits: &[Before(
            "// 26: \"and kind 19",
            "if md5.length != Md5Option::BYTES { return Err(Refusal::of(27)); }",
        )],
    },
    Planted {
        name: "LongerMd5Taken",
        does: "27 only for an MD5 that is too short.",
        breaks: "\"a length other than 18 gives 27\"",
        file: "calls.rs",
        function: "fn agrees(",
        edits: &[Instead("md5.length != Md5Option::BYTES", "md5.length < Md5Option::BYTES")],
    },
    Planted {
        name: "DigestCut",
        does: "Of the digest the first twelve bytes are compared.",
        breaks: "\"a wrong digest 29\"",
        file: "calls.rs",
        function: "fn agrees(",
        edits: &[Instead("carried != digest", "carried[..12] != digest[..12]")],
    },
    Planted {
        name: "OurSideFirstInDigest",
        does: "The digest of what arrives has our own address first.",
        breaks: "RFC 2385: \"source IP address, destination IP address\"",
        file: "calls.rs",
        function: "fn agrees(",
        edits: &[
            Instead("self.source", "self.destination"),
            Instead("self.destination", "self.source"),
        ],
    },
    Planted {
        name: "FortySixNotCounted",
        does: "46 is not counted.",
        breaks: "\"counted and within the sum\"",
        file: "calls.rs",
        function: "fn judge(",
        edits: &[Instead("state.is_open()", "state.is_open() && refusal.number != 46")],
    },
    Planted {
        name: "FortySevenNotCounted",
        does: "47 is not counted.",
        breaks: "\"counted and within the sum\"",
        file: "calls.rs",
        function: "fn judge(",
        edits: &[Instead("state.is_open()", "state.is_open() && refusal.number != 47")],
    },
    Planted {
        name: "CountsOfFortySixExchanged",
        does: "46 is counted among 47's, and 47 among 46's.",
        breaks: "\"add one to that number's count\"",
        file: "calls.rs",
        function: "fn judge(",
        edits: &[Instead(
            "after.count_drop(refusal.number)",
            "after.count_drop(match refusal.number { 46 => 47, 47 => 46, number => number })",
        )],
    },
    Planted {
        name: "Md5AcceptHasExtension",
        does: "An MD5 accept has its position's extension.",
        breaks: "\"An MD5 accept has extension 0; after opening neither it nor signing moves a reference\"",
        file: "calls.rs",
        function: "fn take_arrival(",
        edits: &[Instead(
            "Ok(0)",
            "let x = position(before.arriving_reference, header.sequence).unwrap_or(0);
            Ok(if open { extension(x) } else { 0 })",
        )],
    },
    Planted {
        name: "Md5AcceptMovesReference",
        does: "An MD5 accept moves the reference.",
        breaks: "\"An MD5 accept has extension 0; after opening neither it nor signing moves a reference\"",
        file: "calls.rs",
        function: "fn take_arrival(",
        edits: &[Before(
            "// Accepted: \"An MD5 accept",
            "if let (true, Some(x)) = (open, position(before.arriving_reference, header.sequence)) {
                state.arriving_reference = moved(before.arriving_reference, x);
            }",
        )],
    },
    Planted {
        name: "Md5PositionTested",
        does: "28 on the MD5 way.",
        breaks: "\"28 is not given\"",
        file: "calls.rs",
        function: "fn take_arrival(",
        edits: &[Before(
            "// Accepted: \"An MD5 accept",
            "if open { position(before.arriving_reference, header.sequence).ok_or(Refusal::of(28))?; }",
        )],
    },
    Planted {
        name: "Md5AcceptNotCounted",
        does: "An MD5 accept is not counted.",
        breaks: "\"Counts of acceptances and of each drop\"",
        file: "calls.rs",
        function: "fn take_arrival(",
        edits: &[Before("// Accepted: \"An MD5 accept", "if open { return Ok(0); }")],
    },
    // Signing by MD5, and asking.
    Planted {
        name: "Md5SignWithoutEntryIs26",
        does: "26 where no MD5 entry matches the pair of what is to be signed.",
        breaks: "\"(opening, signing: 35; asking: always 35)\"",
        file: "calls.rs",
        function: "fn sign_md5(",
        edits: &[Instead("Refusal::of(35)", "Refusal::of(26)")],
    },
    Planted {
        name: "Md5PaddingNotIn32",
        does: "32 does not count the two kind 1 bytes.",
        breaks: "\"with two kind 1 bytes behind it, which 32 counts\"",
        file: "calls.rs",
        function: "fn sign_md5(",
        edits: &[Instead(
            "signed_offset > 15 || signed_bytes > 65_535",
            "header.data_offset + 4 > 15 || segment.len() + Md5Option::BYTES > 65_535",
        )],
    },
    Planted {
        name: "Md5SizeBeforeKey",
        does: "32 before 35 on the MD5 way.",
        breaks: "\"32, tested now after 35\"",
        file: "calls.rs",
        function: "fn sign_md5(",
        edits: &[Before(
            "// 35: \"kind 19",
            "if header.data_offset > 10 || segment.len() + 20 > 65_535 { return Err(Refusal::of(32)); }",
        )],
    },
    Planted {
        name: "Md5SignPositionTested",
        does: "36 on the MD5 way where the number has no position.",
        breaks: "\"36 only for a SYN whose number is not our ISN\"",
        file: "calls.rs",
        function: "fn sign_md5(",
        edits: &[Before(
            "// 36: \"36 only",
            "if state.is_open() { position(state.signing_reference, header.sequence).ok_or(Refusal::of(36))?; }",
        )],
    },
    Planted {
        name: "Md5SynAckByPosition",
        does: "A SYN+ACK is signed by MD5 only if its position is our ISN.",
        breaks: "\"36 only for a SYN whose number is not our ISN\"",
        file: "calls.rs",
        function: "fn sign_md5(",
        edits: &[Instead(
            "header.sequence != state.our_isn",
            "let x = position(state.signing_reference, header.sequence);
            header.sequence != state.our_isn || state.is_open() && x != Some(state.our_isn as u64)",
        )],
    },
    Planted {
        name: "AnyMd5SynSigned",
        does: "A SYN of any number is signed by MD5.",
        breaks: "\"36 only for a SYN whose number is not our ISN\"",
        file: "calls.rs",
        function: "fn sign_md5(",
        edits: &[Instead("header.sequence != state.our_isn", "false")],
    },
    Planted {
        name: "Md5RoomBeforePosition",
        does: "37 before 36 on the MD5 way.",
        breaks: "\"The first that applies, in this order, is given\"",
        file: "calls.rs",
        function: "fn sign_md5(",
        edits: &[Before(
            "// 36: \"36 only",
            "if room < signed_bytes { return Err(Refusal::of(37)); }",
        )],
    },
    Planted {
        name: "Md5PaddingBefore",
        does: "The two kind 1 bytes stand before kind 19.",
        breaks: "\"The signer puts it after byte 20 with two kind 1 bytes behind it\"",
        file: "calls.rs",
        function: "fn sign_md5(",
        edits: &[
            Behind(
                "signed.extend_from_slice(&segment[..20]);",
                "signed.extend_from_slice(&[KIND_NO_OPERATION; 2]);",
            ),
            Instead("signed.resize(20 + Md5Option::BYTES, 0)", "signed.resize(20 + added, 0)"),
            Instead("OPTIONS_AT + Md5Option::FRONT", "OPTIONS_AT + 2 + Md5Option::FRONT"),
        ],
    },
    Planted {
        name: "Md5PaddingOfKindZero",
        does: "Kind 19 is padded with kind 0, which ends the reading.",
        breaks: "\"with two kind 1 bytes behind it\"",
        file: "calls.rs",
        function: "fn sign_md5(",
        edits: &[Instead(
            "signed.resize(20 + added, KIND_NO_OPERATION)",
            "signed.resize(20 + added, 0)",
        )],
    },
    Planted {
        name: "Md5OffsetRaisedByFour",
        does: "Signing by MD5 raises the data offset by 4.",
        breaks: "\"with two kind 1 bytes behind it\": five words",
        file: "calls.rs",
        function: "fn sign_md5(",
        edits: &[Instead("(signed_offset as u8) << 4", "((header.data_offset + 4) as u8) << 4")],
    },
    Planted {
        name: "Md5ChecksumZeroWritten",
        does: "Signing by MD5 writes checksum zero.",
        breaks: "\"The signer now writes the right TCP checksum\"",
        file: "calls.rs",
        function: "fn sign_md5(",
        edits: &[Instead("right.to_be_bytes()", "[0, 0]")],
    },
    Planted {
        name: "Md5OldChecksumSummed",
        does: "The checksum that the segment came with is in the sum of the new one, by MD5.",
        breaks: "\"The signer now writes the right TCP checksum\"",
        file: "calls.rs",
        function: "fn sign_md5(",
        edits: &[Instead("signed[CHECKSUM].fill(0)", "")],
    },
    Planted {
        name: "Md5SigningMovesReference",
        does: "Once open, signing by MD5 moves the reference.",
        breaks: "\"An MD5 accept has extension 0; after opening neither it nor signing moves a reference\"",
        file: "calls.rs",
        function: "fn sign_md5(",
        edits: &[Before(
            "Ok(Signed {",
            "if let (true, Some(x)) = (state.is_open(), position(state.signing_reference, header.sequence)) {
                after.signing_reference = moved(state.signing_reference, x);
            }",
        )],
    },
    Planted {
        name: "Md5SynLeavesReference",
        does: "The bare SYN signed by MD5 leaves the reference.",
        breaks: "\"An accepted or signed segment sets its direction's reference to the larger of the old one and X\"",
        file: "calls.rs",
        function: "fn sign_md5(",
        edits: &[Instead("!state.is_open()", "false")],
    },
    Planted {
        name: "AskTakenByMd5",
        does: "On a connection opened by MD5 a key of the key table may be asked for.",
        breaks: "\"asking: always 35\"",
        file: "calls.rs",
        function: "fn ask(",
        edits: &[Instead("state.goes_by_md5()", "false")],
    },
    Planted {
        name: "AskByMd5BeforeTables",
        does: "On a connection opened by MD5 asking is 35 before the tables.",
        breaks: "\"The first that applies, in this order, is given\"",
        file: "calls.rs",
        function: "fn ask(",
        edits: &[Before(
            "// 10 to 17 and 45, 44.",
            "if state.goes_by_md5() { return Err(Refusal::of(35)); }",
        )],
    },
    // Opening.
    Planted {
        name: "ActiveOpeningAtZero",
        does: "An active opening has our reference at 0.",
        breaks: "\"Opening sets each reference to that side's ISN\"",
        file: "calls.rs",
        function: "fn opening_state(",
        edits: &[Instead("isn as u64", "0")],
    },
    Planted {
        name: "SynAckKeepsOurReference",
        does: "The SYN+ACK that opens leaves our reference as it was.",
        breaks: "\"Opening sets each reference to that side's ISN\"",
        file: "calls.rs",
        function: "fn open_by_syn_ack(",
        edits: &[Instead("state.our_isn as u64", "state.signing_reference")],
    },
    Planted {
        name: "SynAckKeepsLargerReference",
        does: "The SYN+ACK that opens sets the peer's reference to the larger of the old one and its number.",
        breaks: "\"Opening sets each reference to that side's ISN\"",
        file: "calls.rs",
        function: "fn open_by_syn_ack(",
        edits: &[Instead(
            "sequence as u64",
            "state.arriving_reference.max(sequence as u64)",
        )],
    },
    Planted {
        name: "CountsKeptAtOpening",
        does: "The SYN+ACK that opens leaves the counts as they were.",
        breaks: "\"All are 0 at opening\"",
        file: "calls.rs",
        function: "fn open_by_syn_ack(",
        edits: &[
            Instead("state.accepted = 0", ""),
            Instead("state.drops = [0; COUNTED.len()]", ""),
        ],
    },
    Planted {
        name: "OpeningSegmentCounted",
        does: "The SYN+ACK that opens is counted.",
        breaks: "\"the segment that opens is not counted\"",
        file: "calls.rs",
        function: "fn open_by_syn_ack(",
        edits: &[Behind(
            "state.drops = [0; COUNTED.len()];",
            "state.count_accept();",
        )],
    },
    // Counts.
    Planted {
        name: "DropsCountedWhileOpening",
        does: "Drops 20 to 29 are counted while opening too.",
        breaks: "\"drops 20 to 29 on an open connection add one to that number's count\"",
        file: "calls.rs",
        function: "fn judge(",
        edits: &[Instead("state.is_open()", "true")],
    },
    Planted {
        name: "CountsWrap",
        does: "Counts go from 2^64-1 to 0.",
        breaks: "\"Counts of acceptances and of each drop stop at 2^64-1.\"",
        file: "state.rs",
        function: "impl State {",
        edits: &[
            Instead("self.accepted.saturating_add(1)", "self.accepted.wrapping_add(1)"),
            Instead("count.saturating_add(1)", "count.wrapping_add(1)"),
        ],
    },
    // The key rule.
    Planted {
        name: "KeyRuleWithoutAvailability",
        does: "RNextKeyID becomes the outgoing key whether an entry has it or not.",
        breaks: "\"and an entry matching the pair has that SendID\"",
        file: "calls.rs",
        function: "fn key_rule(",
        edits: &[Instead("by_send_id(entries, pair, rnext_key_id).is_some()", "true")],
    },
    Planted {
        name: "KeyRuleWithoutPair",
        does: "Any entry with that SendID will do, whether it matches the pair or not.",
        breaks: "\"and an entry matching the pair has that SendID\"",
        file: "calls.rs",
        function: "fn key_rule(",
        edits: &[Instead(
            "by_send_id(entries, pair, rnext_key_id).is_some()",
            "entries.iter().any(|entry| entry.send_id == rnext_key_id)",
        )],
    },
    Planted {
        name: "KeyRuleByRecvId",
        does: "An entry is looked for that has RNextKeyID as its RecvID.",
        breaks: "\"and an entry matching the pair has that SendID\"",
        file: "calls.rs",
        function: "fn key_rule(",
        edits: &[Instead(
            "by_send_id(entries, pair, rnext_key_id).is_some()",
            "by_recv_id(entries, pair, rnext_key_id).is_some()",
        )],
    },
    Planted {
        name: "KeyRuleForNewestOnly",
        does: "Not after an old or repeated segment.",
        breaks: "\"After any acceptance\"; \"Older keys may come back.\"",
        file: "calls.rs",
        function: "fn take_arrival(",
        edits: &[Instead(
            "key_rule(&entries, &pair, ao.rnext_key_id, state)",
            "if !open || x > before.arriving_reference {
                key_rule(&entries, &pair, ao.rnext_key_id, state)
            }",
        )],
    },
    Planted {
        name: "NoKeyRuleAtSynAck",
        does: "Not after the SYN+ACK that opens.",
        breaks: "\"After any acceptance\"",
        file: "calls.rs",
        function: "fn take_arrival(",
        edits: &[Instead(
            "key_rule(&entries, &pair, ao.rnext_key_id, state)",
            "if open { key_rule(&entries, &pair, ao.rnext_key_id, state) }",
        )],
    },
    Planted {
        name: "NoKeyRuleAtPassiveOpening",
        does: "Not after the SYN of a passive opening.",
        breaks: "\"opens with the entry found, then applies the key rule below\"",
        file: "calls.rs",
        function: "fn open_passive(",
        edits: &[Instead(
            "key_rule(&entries, &pair, rnext_key_id, &mut state)",
            "",
        )],
    },
    Planted {
        name: "KeyRuleAsksToo",
        does: "The RecvID asked of the peer changes with the outgoing key.",
        breaks: "\"An operator call sets the RecvID asked of the peer; nothing else does.\"",
        file: "calls.rs",
        function: "fn key_rule(",
        edits: &[Behind(
            "state.outgoing_send_id = rnext_key_id;",
            "if let Some(entry) = by_send_id(entries, pair, rnext_key_id) {
                state.asked_recv_id = entry.recv_id;
            }",
        )],
    },
    // Signing and the operator's call.
    Planted {
        name: "BareSynSignedOnceOpen",
        does: "A bare SYN is signed on an open connection like any other segment.",
        breaks: "\"each segment that carries SYN and ACK, or no SYN\"",
        file: "calls.rs",
        function: "fn sign(",
        edits: &[Instead("!header.is_bare_syn()", "true")],
    },
    Planted {
        name: "AnySynNumberSigned",
        does: "While opening, a bare SYN of any number is signed.",
        breaks: "\"A bare SYN whose number is our ISN may then be signed.\"",
        file: "calls.rs",
        function: "fn sign(",
        edits: &[Instead("header.syn()", "header.is_syn_ack()")],
    },
    Planted {
        name: "SynAckSignedAnywhere",
        does: "A SYN+ACK is signed at any position.",
        breaks: "36: \"a SYN (bare or with ACK) whose position is not our ISN\"",
        file: "calls.rs",
        function: "fn sign(",
        edits: &[Instead("header.syn()", "header.is_bare_syn()")],
    },
    Planted {
        name: "SynSignedWithPeerIsn",
        does: "A bare SYN is signed with the peer's ISN that the state holds.",
        breaks: "\"For a bare SYN (SYN set, ACK clear) the destination ISN is zero.\"",
        file: "calls.rs",
        function: "fn sign(",
        edits: &[Instead("if bare { 0 } else { state.peer_isn }", "state.peer_isn")],
    },
    Planted {
        name: "OffsetFifteenRefused",
        does: "32 where the data offset would become 15.",
        breaks: "32: \"is given when it would pass 15\"",
        file: "calls.rs",
        function: "fn sign(",
        edits: &[Instead("signed_offset > 15", "signed_offset > 14")],
    },
    Planted {
        name: "LongestRefused",
        does: "32 where the result would have 65,535 bytes.",
        breaks: "32: \"result above 65,535 bytes\"",
        file: "calls.rs",
        function: "fn sign(",
        edits: &[Instead("signed_bytes > 65_535", "signed_bytes > 65_534")],
    },
    Planted {
        name: "SigningTestsAskedKey",
        does: "35 also where no entry has the asked RecvID.",
        breaks: "35: \"no entry matching the pair has the outgoing SendID (opening, signing)\"",
        file: "calls.rs",
        function: "fn sign(",
        edits: &[Before(
            "// 36: \"no position,",
            "by_recv_id(&entries, &pair, state.asked_recv_id).ok_or(Refusal::of(35))?;",
        )],
    },
    Planted {
        name: "ReservedBitsCleared",
        does: "The low four bits of byte 12 become zero.",
        breaks: "\"raises the data offset by 4\", and of the rest of byte 12 nothing is said",
        file: "calls.rs",
        function: "fn sign(",
        edits: &[Instead("segment[12] & 0x0f", "0")],
    },
    Planted {
        name: "OldChecksumSummed",
        does: "The checksum that the segment came with is in the sum of the new one.",
        breaks: "\"The signer now writes the right TCP checksum\"",
        file: "calls.rs",
        function: "fn sign(",
        edits: &[Instead("signed[CHECKSUM].fill(0)", "")],
    },
    // The checksum: Ticket 5.
    Planted {
        name: "ChecksumZeroWritten",
        does: "Signing writes checksum zero, as before Ticket 5.",
        breaks: "\"The signer now writes the right TCP checksum\"",
        file: "calls.rs",
        function: "fn sign(",
        edits: &[Instead("right.to_be_bytes()", "[0, 0]")],
    },
    Planted {
        name: "ChecksumBeforeMac",
        does: "The checksum is computed while the MAC's bytes are zero.",
        breaks: "\"the right TCP checksum\"; \"'checksum zero' holds only for the bytes under the MAC\"",
        file: "calls.rs",
        function: "fn sign(",
        edits: &[Instead(
            "checksum::checksum(pair.local, pair.remote, &signed)",
            "let mut early = signed.clone();
            early[mac_at..mac_at + mac.len()].fill(0);
            checksum::checksum(pair.local, pair.remote, &early)",
        )],
    },
    Planted {
        name: "ChecksumOfUnsigned",
        does: "The checksum is that of the segment without TCP-AO.",
        breaks: "\"the right TCP checksum over the pseudo-header\"",
        file: "calls.rs",
        function: "fn sign(",
        edits: &[Instead(
            "checksum::checksum(pair.local, pair.remote, &signed)",
            "let mut plain = segment.to_vec();
            plain[CHECKSUM].fill(0);
            checksum::checksum(pair.local, pair.remote, &plain)",
        )],
    },
    Planted {
        name: "ZeroWrittenAsOnes",
        does: "A checksum of 0000 is written as FFFF, as in UDP.",
        breaks: "RFC 1071: \"the 1's complement of this sum is placed in the checksum field\"",
        file: "checksum.rs",
        function: "fn checksum(",
        edits: &[Instead(
            "!sum(source, destination, segment)",
            "match !sum(source, destination, segment) { 0 => 0xffff, right => right }",
        )],
    },
    Planted {
        name: "ChecksumUnderMac",
        does: "The checksum is under the MAC as it came.",
        breaks: "\"the TCP header with checksum and MAC bytes zero\"",
        file: "mac.rs",
        function: "fn message(",
        edits: &[Instead("zeroed[CHECKSUM].fill(0)", "")],
    },
    Planted {
        name: "OddByteInLowHalf",
        does: "A last odd byte is the low half of its word.",
        breaks: "RFC 1071: \"Adjacent octets to be checksummed are paired\"; a last odd byte is followed by a zero byte",
        file: "checksum.rs",
        function: "fn ones_complement_sum(",
        edits: &[Instead(
            "u16::from_be_bytes([high, low])",
            "if pair.len() == 2 { u16::from_be_bytes([high, low]) } else { high as u16 }",
        )],
    },
    Planted {
        name: "OddByteLeftOut",
        does: "A last odd byte is not in the sum.",
        breaks: "\"for both families and odd lengths\"",
        file: "checksum.rs",
        function: "fn ones_complement_sum(",
        edits: &[Instead("bytes.chunks(2)", "bytes[..bytes.len() / 2 * 2].chunks(2)")],
    },
    Planted {
        name: "CarryDropped",
        does: "The carry does not come back in.",
        breaks: "\"one's complement sum\"",
        file: "checksum.rs",
        function: "fn plus(",
        edits: &[Instead("sum + 1", "sum")],
    },
    Planted {
        name: "SumWithoutPseudoHeader",
        does: "The sum is over the segment alone.",
        breaks: "\"one's complement sum, pseudo-header and checksum included\"",
        file: "checksum.rs",
        function: "fn sum(",
        edits: &[Instead(
            "pseudo_header(source, destination, segment.len())",
            "pseudo_header(source, destination, segment.len())[..0].to_vec()",
        )],
    },
    Planted {
        name: "SumOverStateAddresses",
        does: "On a connection, the sum is over the state's addresses, not over those that came.",
        breaks: "\"Arriving segments whose one's complement sum, pseudo-header and checksum included\"",
        file: "calls.rs",
        function: "fn take_arrival(",
        edits: &[Instead(
            "readable(source, destination, segment)",
            "readable(pair.remote, pair.local, segment)",
        )],
    },
    Planted {
        name: "ChecksumBeforeSize",
        does: "40 before 20.",
        breaks: "\"tested after 20 and before 21\"",
        file: "calls.rs",
        function: "fn readable(",
        edits: &[Before(
            "// 20: \"bad length or offset\".",
            "if checksum::sum(source, destination, segment) != 0xffff { return Err(Refusal::of(40)); }",
        )],
    },
    Planted {
        name: "ChecksumAfterOptions",
        does: "40 after 21.",
        breaks: "\"tested after 20 and before 21\"",
        file: "calls.rs",
        function: "fn readable(",
        edits: &[Before(
            "// 40: \"Arriving segments",
            "read_options(segment, &header).ok_or(Refusal::of(21))?;",
        )],
    },
    Planted {
        name: "ChecksumAfterConflict",
        does: "40 after 22, where that applies; before 21.",
        breaks: "\"tested after 20 and before 21\"",
        file: "calls.rs",
        function: "fn readable(",
        edits: &[Before(
            "// 40: \"Arriving segments",
            "if let Some(options) = read_options(segment, &header) {
                if options.ao_count + options.md5_count >= 2 {
                    return Err(Refusal::of(22));
                }
            }",
        )],
    },
    Planted {
        name: "ChecksumOfSynNotTested",
        does: "Judging without a state does not give 40.",
        breaks: "\"Arriving segments ... are dropped with 40\"",
        file: "calls.rs",
        function: "fn judge_syn(",
        edits: &[Instead(
            "take_syn(tables, source, destination, segment, setting)",
            "let mut right = segment.to_vec();
            if let (true, 4 | 16) = (right.len() >= 20, source.len()) {
                right[CHECKSUM].fill(0);
                let sum = checksum::checksum(source, destination, &right);
                right[CHECKSUM].copy_from_slice(&sum.to_be_bytes());
            }
            take_syn(tables, source, destination, &right, setting)",
        )],
    },
    Planted {
        name: "ChecksumOfOpeningNotTested",
        does: "The passive opening does not give 40.",
        breaks: "\"A second call takes the same SYN and our ISN, judges it again\"",
        file: "calls.rs",
        function: "fn open_passive(",
        edits: &[Instead(
            "take_syn(tables, source, destination, segment, setting)",
            "let mut right = segment.to_vec();
            if let (true, 4 | 16) = (right.len() >= 20, source.len()) {
                right[CHECKSUM].fill(0);
                let sum = checksum::checksum(source, destination, &right);
                right[CHECKSUM].copy_from_slice(&sum.to_be_bytes());
            }
            take_syn(tables, source, destination, &right, setting)",
        )],
    },
    Planted {
        name: "ZeroChecksumTaken",
        does: "A checksum of 0000 counts as none, as in UDP.",
        breaks: "\"is not FFFF are dropped with 40\"",
        file: "calls.rs",
        function: "fn readable(",
        edits: &[Instead(
            "checksum::sum(source, destination, segment) != 0xffff",
            "segment[CHECKSUM] != [0, 0] && checksum::sum(source, destination, segment) != 0xffff",
        )],
    },
    Planted {
        name: "OnlySignersChecksumTaken",
        does: "40 unless the checksum is the one that signing writes: FFFF is not taken for 0000.",
        breaks: "\"whose one's complement sum ... is not FFFF are dropped with 40\"",
        file: "calls.rs",
        function: "fn readable(",
        edits: &[Instead(
            "checksum::sum(source, destination, segment) != 0xffff",
            "let mut blank = segment.to_vec();
            blank[CHECKSUM].fill(0);
            segment[CHECKSUM] != checksum::checksum(source, destination, &blank).to_be_bytes()",
        )],
    },
    Planted {
        name: "ChecksumNotCounted",
        does: "40 is not counted.",
        breaks: "\"the counted drops and their sum include it\"",
        file: "calls.rs",
        function: "fn judge(",
        edits: &[Instead("state.is_open()", "state.is_open() && refusal.number != 40")],
    },
    Planted {
        name: "ChecksumCountedAsMac",
        does: "40 is counted among 29's.",
        breaks: "\"add one to that number's count\"; 40's count stands behind 29's",
        file: "calls.rs",
        function: "fn judge(",
        edits: &[Instead(
            "after.count_drop(refusal.number)",
            "after.count_drop(if refusal.number == 40 { 29 } else { refusal.number })",
        )],
    },
    Planted {
        name: "AskOnlyOnceOpen",
        does: "The operator's call gives 35 while opening.",
        breaks: "\"An operator call sets the RecvID asked of the peer\"",
        file: "calls.rs",
        function: "fn ask(",
        edits: &[Before(
            "let mut after",
            "if !state.is_open() { return Err(Refusal::of(35)); }",
        )],
    },
    // The boundary.
    Planted {
        name: "RefusedOpeningEmptiesBuffer",
        does: "A refused active opening writes the empty state.",
        breaks: "\"A call that is refused leaves every buffer as it was\"",
        file: "boundary.rs",
        function: "fn tcpao_open_active(",
        edits: &[Instead("result.is_ok()", "true")],
    },
    Planted {
        name: "DroppedSynEmptiesBuffer",
        does: "A passive opening whose SYN is dropped writes the empty state.",
        breaks: "\"A call that is refused leaves every buffer as it was\"",
        file: "boundary.rs",
        function: "fn tcpao_open_passive(",
        edits: &[Instead("!matches!(verdict, Verdict::Drop(_))", "true")],
    },
    Planted {
        name: "PassedOpeningLeavesBuffer",
        does: "A passive opening that only passes leaves the bytes that were there.",
        breaks: "\"A passive opening whose SYN is only passed is no refusal: it writes the empty state, all zero\"",
        file: "boundary.rs",
        function: "fn tcpao_open_passive(",
        edits: &[Instead(
            "!matches!(verdict, Verdict::Drop(_))",
            "matches!(verdict, Verdict::Accept(_))",
        )],
    },
    Planted {
        name: "PassedOpeningClearsFamilyOnly",
        does: "A passive opening that only passes sets the family to 0 and leaves the other bytes.",
        breaks: "\"it writes the empty state, all zero\"",
        file: "boundary.rs",
        function: "fn tcpao_open_passive(",
        edits: &[Before(
            "if !matches!(verdict,",
            "if verdict == Verdict::Pass {
                state[0] = 0;
                return verdict_word(verdict);
            }",
        )],
    },
    Planted {
        name: "OtherSettingsPass",
        does: "Of the settings only 1 means drop 26.",
        breaks: "\"0 pass, any other value drop 26\"",
        file: "boundary.rs",
        function: "fn setting_of(",
        edits: &[Instead("byte == 0", "byte != 1")],
    },
    Planted {
        name: "UnusedAddressBytesCleared",
        does: "What stands behind an IPv4 address is set to zero by judging.",
        breaks: "\"IPv4 in the first four bytes; what stands behind is carried untouched\"",
        file: "boundary.rs",
        function: "fn tcpao_judge(",
        edits: &[Behind(
            "state.copy_from_slice(&after.to_bytes());",
            "if after.family == 4 {
                state[20..32].fill(0);
                state[36..48].fill(0);
            }",
        )],
    },
    Planted {
        name: "OutputFilledUp",
        does: "Signing fills the output behind the signed segment with zeros.",
        breaks: "\"Signing writes only the signed length's bytes of the output.\"",
        file: "boundary.rs",
        function: "fn tcpao_sign(",
        edits: &[Behind(
            "out[..length].copy_from_slice(&signed.segment);",
            "out[length..].fill(0);",
        )],
    },
    // The key table.
    Planted {
        name: "KindBeforeTooMany",
        does: "An unknown kind is 11 even where a 1,025th entry begins.",
        breaks: "\"The first that applies, in this order, is given\": 12, 11, 10",
        file: "table.rs",
        function: "fn walk<",
        edits: &[Before(
            "// 12: \"a 65th entry begins\".",
            "if body_bytes(rest[0]).is_none() { return Err(refused(11)); }",
        )],
    },
    // Prepared tables.
    Planted {
        name: "LimitStaysSixtyFour",
        does: "12 at the 65th entry.",
        breaks: "\"Raise 64 entries to 1,024\"",
        file: "table.rs",
        function: "fn walk<",
        edits: &[Instead(
            "entries.len() == most_entries",
            "entries.len() == 64",
        )],
    },
    Planted {
        name: "OneEntryMoreTaken",
        does: "A 1,025th entry is taken.",
        breaks: "\"Refusal 12 moves to the 1,025th\"",
        file: "table.rs",
        function: "fn walk<",
        edits: &[Instead(
            "entries.len() == most_entries",
            "entries.len() == most_entries + 1",
        )],
    },
    Planted {
        name: "CountTooLargeTaken",
        does: "A prepared table of 1,025 keys is taken.",
        breaks: "\"is given exactly if it is not (so also for fewer than 4 bytes), or n > 1,024, or m > 1,024\"",
        file: "prepared.rs",
        function: "fn counts(",
        edits: &[Instead(
            "keys > MOST_ENTRIES || md5 > MOST_ENTRIES",
            "keys > MOST_ENTRIES + 1 || md5 > MOST_ENTRIES",
        )],
    },
    Planted {
        name: "Md5CountTooLargeTaken",
        does: "A prepared table of 1,025 MD5 entries is taken.",
        breaks: "\"is given exactly if it is not (so also for fewer than 4 bytes), or n > 1,024, or m > 1,024\"",
        file: "prepared.rs",
        function: "fn counts(",
        edits: &[Instead(
            "keys > MOST_ENTRIES || md5 > MOST_ENTRIES",
            "keys > MOST_ENTRIES || md5 > MOST_ENTRIES + 1",
        )],
    },
    Planted {
        name: "CountsTakenTogether",
        does: "44 if both counts together are above 1,024.",
        breaks: "\"is given exactly if it is not (so also for fewer than 4 bytes), or n > 1,024, or m > 1,024\"",
        file: "prepared.rs",
        function: "fn counts(",
        edits: &[Instead(
            "keys > MOST_ENTRIES || md5 > MOST_ENTRIES",
            "keys + md5 > MOST_ENTRIES",
        )],
    },
    Planted {
        name: "FullCountRefused",
        does: "44 for 1,024 keys.",
        breaks: "\"is given exactly if it is not (so also for fewer than 4 bytes), or n > 1,024, or m > 1,024\"",
        file: "prepared.rs",
        function: "fn counts(",
        edits: &[Instead(
            "keys > MOST_ENTRIES || md5 > MOST_ENTRIES",
            "keys >= MOST_ENTRIES || md5 > MOST_ENTRIES",
        )],
    },
    Planted {
        name: "LongerTableTaken",
        does: "Bytes behind the last back are not looked at.",
        breaks: "\"is given exactly if it is not (so also for fewer than 4 bytes), or n > 1,024, or m > 1,024\"",
        file: "prepared.rs",
        function: "fn counts(",
        edits: &[Instead(
            "bytes.len() != prepared_bytes(keys + md5)",
            "bytes.len() < prepared_bytes(keys + md5)",
        )],
    },
    Planted {
        name: "KeyCountLittleEndian",
        does: "The number of keys has its lower byte first.",
        breaks: "\"n, big-endian\"",
        file: "prepared.rs",
        function: "fn counts(",
        edits: &[Instead(
            "u16::from_be_bytes([bytes[0], bytes[1]])",
            "u16::from_le_bytes([bytes[0], bytes[1]])",
        )],
    },
    Planted {
        name: "CountsExchanged",
        does: "The MD5 part is read as keys, and the keys as the MD5 part.",
        breaks: "\"the key entries in their order, then the MD5 entries in theirs\"",
        file: "prepared.rs",
        function: "fn counts(",
        edits: &[Instead(
            "Some((keys, md5))",
            "Some((md5, keys))",
        )],
    },
    Planted {
        name: "NoBytesAreNoEntries",
        does: "No bytes at all are a prepared table without entries.",
        breaks: "\"(so also for fewer than 4 bytes)\"",
        file: "prepared.rs",
        function: "fn read(",
        edits: &[Before(
            "let (keys, md5)",
            "if bytes.is_empty() { return Ok(Tables { keys: vec![], md5: vec![] }); }",
        )],
    },
    Planted {
        name: "FortyFourWithIndex",
        does: "44 has the length beside it.",
        breaks: "\"refused with 44, in the place of 10 to 16, without an index\"",
        file: "prepared.rs",
        function: "fn read(",
        edits: &[Instead(
            "Refusal::of(44)",
            "Refusal { index: bytes.len() as u32, ..Refusal::of(44) }",
        )],
    },
    Planted {
        name: "FortyFourIsTen",
        does: "A prepared table of a wrong length is 10.",
        breaks: "\"A prepared table with a count or an entry that valid bytes could not hold is refused with 44\"",
        file: "prepared.rs",
        function: "fn read(",
        edits: &[Instead(
            "Refusal::of(44)",
            "Refusal::of(10)",
        )],
    },
    Planted {
        name: "BackOfAnother",
        does: "The backs stand in the other order.",
        breaks: "\"the key entries in their order, then the MD5 entries in theirs\"",
        file: "prepared.rs",
        function: "fn read(",
        edits: &[Instead(
            "&backs[BACK * index..BACK * (index + 1)]",
            "&backs[BACK * (all - 1 - index)..BACK * (all - index)]",
        )],
    },
    Planted {
        name: "SlotOfAnother",
        does: "The slots stand in the other order.",
        breaks: "\"the key entries in their order, then the MD5 entries in theirs\"",
        file: "prepared.rs",
        function: "fn read(",
        edits: &[Instead(
            "&slots[SLOT * index..SLOT * (index + 1)]",
            "&slots[SLOT * (all - 1 - index)..SLOT * (all - index)]",
        )],
    },
    Planted {
        name: "MarkOfAnother",
        does: "The marks stand in the other order.",
        breaks: "\"the key entries in their order, then the MD5 entries in theirs; likewise below\"",
        file: "prepared.rs",
        function: "fn read(",
        edits: &[Instead(
            "marks[index]",
            "marks[all - 1 - index]",
        )],
    },
    Planted {
        name: "RemotePrefixOfAnother",
        does: "The remote prefix lengths stand in the other order.",
        breaks: "\"the key entries in their order, then the MD5 entries in theirs; likewise below\"",
        file: "prepared.rs",
        function: "fn read(",
        edits: &[Instead(
            "remote_prefixes[index]",
            "remote_prefixes[all - 1 - index]",
        )],
    },
    Planted {
        name: "SendIdOfAnother",
        does: "The SendIDs stand in the other order.",
        breaks: "\"the key entries in their order, then the MD5 entries in theirs\"",
        file: "prepared.rs",
        function: "fn read(",
        edits: &[Instead(
            "send_ids[index]",
            "send_ids[all - 1 - index]",
        )],
    },
    Planted {
        name: "RecvIdOfAnother",
        does: "The RecvIDs stand in the other order.",
        breaks: "\"the key entries in their order, then the MD5 entries in theirs; likewise below\"",
        file: "prepared.rs",
        function: "fn read(",
        edits: &[Instead(
            "recv_ids[index]",
            "recv_ids[all - 1 - index]",
        )],
    },
    Planted {
        name: "MarksBeforePrefixes",
        does: "The marks stand before the remote prefix lengths.",
        breaks: "\"N | the remote prefix lengths ... N | the marks\"",
        file: "prepared.rs",
        function: "fn read(",
        edits: &[Instead(
            "remote_prefixes[index]",
            "marks[index]",
        ), Instead(
            "marks[index]",
            "remote_prefixes[index]",
        )],
    },
    Planted {
        name: "Md5MarkAmongKeys",
        does: "The marks of the MD5 entries are counted from the first mark on.",
        breaks: "\"the key entries in their order, then the MD5 entries in theirs; likewise below\"",
        file: "prepared.rs",
        function: "fn read(",
        edits: &[Instead(
            "(keys..all).map(|index| stored(index).md5_entry()).collect()",
            "(keys..all).map(|index| {
                Stored { mark: marks[index - keys], ..stored(index) }.md5_entry()
            }).collect()",
        )],
    },
    Planted {
        name: "Md5BackAmongKeys",
        does: "The backs of the MD5 entries are counted from the first back on.",
        breaks: "\"the key entries in their order, then the MD5 entries in theirs\"",
        file: "prepared.rs",
        function: "fn read(",
        edits: &[Instead(
            "(keys..all).map(|index| stored(index).md5_entry()).collect()",
            "(keys..all).map(|index| {
                Stored { back: stored(index - keys).back, ..stored(index) }.md5_entry()
            }).collect()",
        )],
    },
    Planted {
        name: "Md5PartAmongKeys",
        does: "The keys are read to the end of the MD5 part.",
        breaks: "\"there are n key entries and m MD5 entries\"",
        file: "prepared.rs",
        function: "fn read(",
        edits: &[Instead(
            "(0..keys).map(|index| stored(index).key_entry()).collect()",
            "(0..all).map(|index| stored(index).key_entry()).collect()",
        )],
    },
    Planted {
        name: "KeysAmongMd5Part",
        does: "The MD5 entries are read from the first key on.",
        breaks: "\"there are n key entries and m MD5 entries\"",
        file: "prepared.rs",
        function: "fn read(",
        edits: &[Instead(
            "(keys..all).map(|index| stored(index).md5_entry()).collect()",
            "(0..all).map(|index| stored(index).md5_entry()).collect()",
        )],
    },
    Planted {
        name: "LastSuchSendId",
        does: "A search by pair and SendID takes the last such entry.",
        breaks: "\"a search by pair and ID takes the first such entry\"",
        file: "table.rs",
        function: "fn by_send_id<",
        edits: &[Before(
            "entries\n        .iter()",
            "let mut last = entries.iter().rev();
            return last.find(|entry| entry.send_id == send_id && entry.matches(pair)).copied();",
        )],
    },
    Planted {
        name: "LastSuchRecvId",
        does: "A search by pair and RecvID takes the last such entry.",
        breaks: "\"a search by pair and ID takes the first such entry\"",
        file: "table.rs",
        function: "fn by_recv_id<",
        edits: &[Before(
            "entries\n        .iter()",
            "let mut last = entries.iter().rev();
            return last.find(|entry| entry.recv_id == recv_id && entry.matches(pair)).copied();",
        )],
    },
    Planted {
        name: "LastSuchMd5Entry",
        does: "A search takes the last such MD5 entry.",
        breaks: "\"a search by pair and ID takes the first such entry\"",
        file: "prepared.rs",
        function: "fn read(",
        edits: &[Instead(
            "(keys..all).map(|index| stored(index).md5_entry()).collect()",
            "(keys..all).rev().map(|index| stored(index).md5_entry()).collect()",
        )],
    },
    Planted {
        name: "Md5AlgorithmLookedAt",
        does: "A stored MD5 entry whose algorithm is not 19 counts as none.",
        breaks: "\"algorithm ... 1 if the byte is below 1, 3 if it is above 3, else the byte | 19\"",
        file: "prepared.rs",
        function: "fn read(",
        edits: &[Instead(
            "(keys..all).map(|index| stored(index).md5_entry()).collect()",
            "(keys..all).map(stored).filter(|it| it.back[1] == KIND_MD5)
            .map(|it| it.md5_entry()).collect()",
        )],
    },
    Planted {
        name: "Md5IdsLookedAt",
        does: "A stored MD5 entry whose IDs are not 0 counts as none.",
        breaks: "\"SendID, RecvID | as they are | 0, 0\"",
        file: "prepared.rs",
        function: "fn read(",
        edits: &[Instead(
            "(keys..all).map(|index| stored(index).md5_entry()).collect()",
            "(keys..all).map(stored).filter(|it| it.send_id == 0 && it.recv_id == 0)
            .map(|it| it.md5_entry()).collect()",
        )],
    },
    Planted {
        name: "ClashTestedAgain",
        does: "17 for two keys of a prepared table that clash.",
        breaks: "\"The clash is not tested again\"",
        file: "prepared.rs",
        function: "fn read(",
        edits: &[Before(
            "Ok(Tables {",
            "let entries: Vec<Entry> = (0..keys).map(|index| stored(index).key_entry()).collect();
            let clash = |at: &usize| entries[..*at].iter().any(|before| before.clashes(&entries[*at]));
            if let Some(at) = (0..keys).find(clash) {
                return Err(Refusal { index: at as u32, ..Refusal::of(17) });
            }",
        )],
    },
    Planted {
        name: "Md5ClashTestedAgain",
        does: "44 for two MD5 entries of a prepared table that match one pair.",
        breaks: "\"The clash is not tested again\"",
        file: "prepared.rs",
        function: "fn read(",
        edits: &[Before(
            "Ok(Tables {",
            "let entries: Vec<Md5Entry> = (keys..all).map(|index| stored(index).md5_entry()).collect();
            let both = |one: &Side, other: &Side| one.address.len() == other.address.len() && one.overlaps(other);
            let clash = |at: &usize| entries[..*at].iter().any(|before| {
                both(&before.local, &entries[*at].local) && both(&before.remote, &entries[*at].remote)
            });
            if (0..md5).any(|at| clash(&at)) { return Err(Refusal::of(44)); }",
        )],
    },
    Planted {
        name: "FortyFiveTestedAgain",
        does: "45 for a prepared table.",
        breaks: "\"there 45 is treated like the clash: not tested again\"",
        file: "prepared.rs",
        function: "fn read(",
        edits: &[Before(
            "Ok(Tables {",
            "let both = |one: &Side, other: &Side| one.address.len() == other.address.len() && one.overlaps(other);
            let key = |at: usize| stored(at).key_entry();
            let overlaps = |index: &usize| (0..keys).any(|at| {
                both(&key(at).local, &stored(*index).local()) && both(&key(at).remote, &stored(*index).remote())
            });
            if let Some(index) = (keys..all).find(overlaps) {
                return Err(Refusal { number: 45, index: (index - keys) as u32, in_md5: true });
            }",
        )],
    },
    Planted {
        name: "SecondBufferNotLookedAt",
        does: "An MD5 table beside a prepared table is not looked at.",
        breaks: "\"a second buffer that is not [empty] is refused with 44\"",
        file: "md5_table.rs",
        function: "fn read(&self)",
        edits: &[Instead(
            "!self.md5.is_empty()",
            "false",
        )],
    },
    Planted {
        name: "FormOneAlone",
        does: "Only form 1 is a prepared table.",
        breaks: "\"0 their bytes, any other value a prepared table\"",
        file: "md5_table.rs",
        function: "fn read(&self)",
        edits: &[Instead(
            "self.form == FORM_BYTES",
            "self.form != 1",
        )],
    },
    Planted {
        name: "FormByLowestBit",
        does: "A form is prepared by its lowest bit.",
        breaks: "\"0 their bytes, any other value a prepared table\"",
        file: "md5_table.rs",
        function: "fn read(&self)",
        edits: &[Instead(
            "self.form == FORM_BYTES",
            "self.form % 2 == 0",
        )],
    },
    Planted {
        name: "FortyFourAfterTwenty",
        does: "On a connection, 44 comes after 20.",
        breaks: "\"in the place of 10 to 16\"",
        file: "calls.rs",
        function: "fn take_arrival(",
        edits: &[Before(
            "// 19, 10 to 17 and 45, 44.",
            "addresses(source, destination)?;
            let refused = tables.read().is_err_and(|refusal| refusal.number == 44);
            if refused && Header::read(segment).is_none() { return Err(Refusal::of(20)); }",
        )],
    },
    Planted {
        name: "FortyFourBeforeEighteen",
        does: "On a connection, 44 comes before 18.",
        breaks: "\"in the place of 10 to 16\"",
        file: "calls.rs",
        function: "fn take_arrival(",
        edits: &[Before(
            "// 18: \"state's family is neither IPv4 nor IPv6\".",
            "if tables.form != 0 { tables.read()?; }",
        )],
    },
    Planted {
        name: "FortyFourBeforeNineteen",
        does: "44 comes before 19.",
        breaks: "\"in the place of 10 to 16\"",
        file: "calls.rs",
        function: "fn addresses_then_tables<",
        edits: &[Before(
            "addresses(one, other)?;",
            "if tables.form != 0 { tables.read()?; }",
        )],
    },
    Planted {
        name: "FamilySixByItself",
        does: "Any family but 6 is IPv4.",
        breaks: "\"family | 4 if the byte is 4, else 6\"",
        file: "prepared.rs",
        function: "fn address_bytes(",
        edits: &[Instead(
            "self.slot[0] == 4",
            "self.slot[0] != 6",
        )],
    },
    Planted {
        name: "StoredPortsAsTheyAre",
        does: "Stored ports are read as they are, the low one perhaps above the high one.",
        breaks: "\"ports, low and high | the smaller and the larger of the two\"",
        file: "prepared.rs",
        function: "fn side(",
        edits: &[Instead(
            "one.min(other)",
            "one",
        ), Instead(
            "one.max(other)",
            "other",
        )],
    },
    Planted {
        name: "OnlyRemotePortsOrdered",
        does: "Only the remote ports are put in order.",
        breaks: "\"ports, low and high | the smaller and the larger of the two\"",
        file: "prepared.rs",
        function: "fn side(",
        edits: &[Instead(
            "one.min(other)",
            "if ports == 16 { one.min(other) } else { one }",
        ), Instead(
            "one.max(other)",
            "if ports == 16 { one.max(other) } else { other }",
        )],
    },
    Planted {
        name: "OnlyLocalPortsOrdered",
        does: "Only the local ports are put in order.",
        breaks: "\"ports, low and high | the smaller and the larger of the two\"",
        file: "prepared.rs",
        function: "fn side(",
        edits: &[Instead(
            "one.min(other)",
            "if ports == 20 { one.min(other) } else { one }",
        ), Instead(
            "one.max(other)",
            "if ports == 20 { one.max(other) } else { other }",
        )],
    },
    Planted {
        name: "StoredPrefixReduced",
        does: "A stored prefix length that is too long is reduced by its family's number.",
        breaks: "\"prefix lengths | lowered to 32 (family 4) or 128\"",
        file: "prepared.rs",
        function: "fn side(",
        edits: &[Instead(
            "(prefix as usize).min(8 * bytes)",
            "prefix as usize % (8 * bytes + 1)",
        )],
    },
    Planted {
        name: "LongPrefixMatchesAll",
        does: "A stored prefix length that is too long matches every address.",
        breaks: "\"prefix lengths | lowered to 32 (family 4) or 128\"",
        file: "prepared.rs",
        function: "fn side(",
        edits: &[Instead(
            "(prefix as usize).min(8 * bytes)",
            "if prefix as usize > 8 * bytes { 0 } else { prefix as usize }",
        )],
    },
    Planted {
        name: "BitsPastPrefixLookedAt",
        does: "A stored address whose last bit is set is the only one that matches.",
        breaks: "\"addresses | bits past the prefix length count as zero\"",
        file: "prepared.rs",
        function: "fn side(",
        edits: &[Instead(
            "(prefix as usize).min(8 * bytes)",
            "if address[bytes - 1] & 1 == 1 { 8 * bytes } else { (prefix as usize).min(8 * bytes) }",
        )],
    },
    Planted {
        name: "RemotePortsOfLocalSide",
        does: "The remote side has the local side's ports.",
        breaks: "\"16, 18 | remote port, low and high ... 20, 22 | local port, low and high\"",
        file: "prepared.rs",
        function: "fn remote(",
        edits: &[Instead(
            "self.side(16, &[before_last, &[last]].concat(), self.remote_prefix)",
            "self.side(20, &[before_last, &[last]].concat(), self.remote_prefix)",
        )],
    },
    Planted {
        name: "MarkOfSixteenForIpv4",
        does: "The mark of an IPv4 entry is taken for the sum of sixteen bytes: those behind the third count.",
        breaks: "\"the stored bytes before the last (three of family 4, else fifteen)\"",
        file: "prepared.rs",
        function: "fn remote(",
        edits: &[Instead(
            "self.mark.wrapping_sub(sum(before_last))",
            "self.mark.wrapping_sub(sum(&self.slot[1..16]))",
        )],
    },
    Planted {
        name: "MarkOfFourForIpv6",
        does: "The mark of an IPv6 entry is taken for the sum of its first three bytes and its last.",
        breaks: "\"the stored bytes before the last (three of family 4, else fifteen)\"",
        file: "prepared.rs",
        function: "fn remote(",
        edits: &[Instead(
            "self.mark.wrapping_sub(sum(before_last))",
            "self.mark.wrapping_sub(sum(&self.slot[1..4]))",
        )],
    },
    Planted {
        name: "LastByteIsMark",
        does: "The mark is taken for the last byte.",
        breaks: "\"then the last: the mark less their sum, modulo 256\"",
        file: "prepared.rs",
        function: "fn remote(",
        edits: &[Instead(
            "self.mark.wrapping_sub(sum(before_last))",
            "self.mark",
        )],
    },
    Planted {
        name: "MarkNotLookedAt",
        does: "The last byte of an IPv4 entry's address is the fourth stored byte, of an IPv6 entry's 0.",
        breaks: "\"then the last: the mark less their sum, modulo 256\"",
        file: "prepared.rs",
        function: "fn remote(",
        edits: &[Instead(
            "self.mark.wrapping_sub(sum(before_last))",
            "if stored == 3 { self.slot[4] } else { 0 }",
        )],
    },
    Planted {
        name: "SumLessMark",
        does: "The last byte is the sum less the mark.",
        breaks: "\"then the last: the mark less their sum, modulo 256\"",
        file: "prepared.rs",
        function: "fn remote(",
        edits: &[Instead(
            "self.mark.wrapping_sub(sum(before_last))",
            "sum(before_last).wrapping_sub(self.mark)",
        )],
    },
    Planted {
        name: "LastByteStopsAtZero",
        does: "A sum above the mark gives a last byte of 0.",
        breaks: "\"then the last: the mark less their sum, modulo 256\"",
        file: "prepared.rs",
        function: "fn remote(",
        edits: &[Instead(
            "self.mark.wrapping_sub(sum(before_last))",
            "self.mark.saturating_sub(sum(before_last))",
        )],
    },
    Planted {
        name: "MarkComparedToo",
        does: "Where the remote prefix length is not 0, only the whole stored address matches, as its mark says.",
        breaks: "\"addresses | bits past the prefix length count as zero\"",
        file: "prepared.rs",
        function: "fn remote(",
        edits: &[Instead(
            "self.side(16, &[before_last, &[last]].concat(), self.remote_prefix)",
            "self.side(16, &[before_last, &[last]].concat(), if self.remote_prefix == 0 { 0 } else { 255 })",
        )],
    },
    Planted {
        name: "SumStopsAtTop",
        does: "A sum above 255 is 255, written and read.",
        breaks: "\"the sum of the remote address's bytes (four or sixteen) modulo 256\"",
        file: "prepared.rs",
        function: "fn sum(",
        edits: &[Instead(
            "sum.wrapping_add(*byte)",
            "u8::saturating_add(sum, *byte)",
        )],
    },
    Planted {
        name: "MarkByExclusiveOr",
        does: "The mark is the bytes' exclusive or, written and read.",
        breaks: "\"the sum of the remote address's bytes (four or sixteen) modulo 256\"",
        file: "prepared.rs",
        function: "fn sum(",
        edits: &[Instead(
            "sum.wrapping_add(*byte)",
            "sum ^ *byte",
        )],
    },
    Planted {
        name: "StoredKeyLengthReduced",
        does: "A stored key length is reduced by 80.",
        breaks: "\"key length | raised to 1, lowered to 80\"",
        file: "prepared.rs",
        function: "fn key(",
        edits: &[Instead(
            "self.back[3].clamp(1, 80)",
            "(self.back[3].wrapping_sub(1) % 80 + 1)",
        )],
    },
    Planted {
        name: "StoredKeyOfNoBytes",
        does: "A stored key length of 0 is a key of no bytes.",
        breaks: "\"key length | raised to 1, lowered to 80\"",
        file: "prepared.rs",
        function: "fn key(",
        edits: &[Instead(
            "self.back[3].clamp(1, 80)",
            "self.back[3].min(80)",
        )],
    },
    Planted {
        name: "StoredKeyWhole",
        does: "All 80 bytes of a stored key count.",
        breaks: "\"key | bytes past the key length count as zero\"",
        file: "prepared.rs",
        function: "fn key(",
        edits: &[Instead(
            "&self.back[21..21 + length]",
            "&self.back[21..101]",
        )],
    },
    Planted {
        name: "StoredFlagsLowered",
        does: "Stored flags above 7 are 7.",
        breaks: "\"flags | the byte mod 8\"",
        file: "prepared.rs",
        function: "fn key_entry(&self)",
        edits: &[Instead(
            "self.back[0] % 8",
            "self.back[0].min(7)",
        )],
    },
    Planted {
        name: "StoredAlgorithmReduced",
        does: "A stored algorithm is reduced by 3.",
        breaks: "\"algorithm | 1 if the byte is below 1, 3 if it is above 3, else the byte\"",
        file: "prepared.rs",
        function: "fn key_entry(&self)",
        edits: &[Instead(
            "self.back[1]",
            "self.back[1].wrapping_sub(1) % 3 + 1",
        )],
    },
    Planted {
        name: "StoredAlgorithmAboveThreeIsOne",
        does: "A stored algorithm above 3 is 1.",
        breaks: "\"algorithm | 1 if the byte is below 1, 3 if it is above 3, else the byte\"",
        file: "prepared.rs",
        function: "fn key_entry(&self)",
        edits: &[Instead(
            "self.back[1]",
            "if self.back[1] > 3 { 1 } else { self.back[1] }",
        )],
    },
    Planted {
        name: "StoredAlgorithmZeroIsThree",
        does: "A stored algorithm of 0 is 3.",
        breaks: "\"algorithm | 1 if the byte is below 1, 3 if it is above 3, else the byte\"",
        file: "prepared.rs",
        function: "fn key_entry(&self)",
        edits: &[Instead(
            "self.back[1]",
            "if self.back[1] == 0 { 3 } else { self.back[1] }",
        )],
    },
    Planted {
        name: "StoredMacReduced",
        does: "Stored MAC bytes are reduced by 13.",
        breaks: "\"MAC bytes | raised to 4, lowered to 16\"",
        file: "prepared.rs",
        function: "fn key_entry(&self)",
        edits: &[Instead(
            "self.back[2].clamp(4, 16)",
            "(self.back[2].wrapping_sub(4) % 13 + 4)",
        )],
    },
    Planted {
        name: "StoredMacOfZeroIsTwelve",
        does: "Stored MAC bytes of 0 are 12.",
        breaks: "\"MAC bytes | raised to 4, lowered to 16\"",
        file: "prepared.rs",
        function: "fn key_entry(&self)",
        edits: &[Instead(
            "self.back[2].clamp(4, 16)",
            "if self.back[2] == 0 { 12 } else { self.back[2].clamp(4, 16) }",
        )],
    },
    Planted {
        name: "StoredMacAboveSixteenIsTwelve",
        does: "Stored MAC bytes above 16 are 12.",
        breaks: "\"MAC bytes | raised to 4, lowered to 16\"",
        file: "prepared.rs",
        function: "fn key_entry(&self)",
        edits: &[Instead(
            "self.back[2].clamp(4, 16)",
            "if self.back[2] > 16 { 12 } else { self.back[2].max(4) }",
        )],
    },
    Planted {
        name: "StoredIdsExchanged",
        does: "SendID and RecvID of a stored entry are exchanged.",
        breaks: "\"N | the SendIDs ... N | the RecvIDs\"",
        file: "prepared.rs",
        function: "fn key_entry(&self)",
        edits: &[Instead(
            "self.send_id",
            "self.recv_id",
        ), Instead(
            "self.recv_id",
            "self.send_id",
        )],
    },
    Planted {
        name: "UnsaidMacStoredAsZero",
        does: "Of an entry that does not say its MAC's length, 0 is stored.",
        breaks: "\"a call with it gives what the bytes would give\"",
        file: "prepared.rs",
        function: "fn key_entry(entry",
        edits: &[Instead(
            "entry.mac_bytes as u8",
            "if entry.kind % 2 == 0 { 0 } else { entry.mac_bytes as u8 }",
        )],
    },
    Planted {
        name: "NatNotStored",
        does: "Hidden sides are not stored.",
        breaks: "\"a call with it gives what the bytes would give\"",
        file: "prepared.rs",
        function: "fn key_entry(entry",
        edits: &[Instead(
            "covers | local_nat << 1 | remote_nat << 2",
            "covers",
        )],
    },
    Planted {
        name: "LocalPortsStoredFirst",
        does: "The local ports are stored before the remote ones.",
        breaks: "\"16, 18 | remote port, low and high ... 20, 22 | local port, low and high\"",
        file: "prepared.rs",
        function: "fn slot(",
        edits: &[Instead(
            "[&self.remote, &self.local]",
            "[&self.local, &self.remote]",
        )],
    },
    Planted {
        name: "AddressesStoredExchanged",
        does: "The local address is stored in the slot.",
        breaks: "\"1 to 15 | remote address without its last byte\"",
        file: "prepared.rs",
        function: "fn slot(",
        edits: &[Instead(
            "&self.remote.address",
            "&self.local.address",
        )],
    },
    Planted {
        name: "FourthByteStored",
        does: "Of an IPv4 address all four bytes are stored, beside the mark.",
        breaks: "\"remote address without its last byte: of IPv4 three bytes, then zeros\"",
        file: "prepared.rs",
        function: "fn slot(",
        edits: &[Instead(
            "&address[..address.len() - 1]",
            "&address[..address.len().min(15)]",
        )],
    },
    Planted {
        name: "KeyStoredUnpadded",
        does: "What stands behind a stored key is not zero.",
        breaks: "\"21 to 100 | the key, then zeros\"; \"the key, padded with zeros to 80\"",
        file: "prepared.rs",
        function: "fn back(",
        edits: &[Instead(
            "back.resize(BACK, 0)",
            "back.resize(BACK, 1)",
        )],
    },
    Planted {
        name: "LastByteStoredAsMark",
        does: "The last byte is stored in the mark's place.",
        breaks: "\"The mark is the sum of the remote address's bytes (four or sixteen) modulo 256\"",
        file: "prepared.rs",
        function: "fn write(",
        edits: &[Instead(
            "sum(&entry.remote.address)",
            "entry.remote.address[entry.remote.address.len() - 1]",
        )],
    },
    Planted {
        name: "MarkWithoutLastByte",
        does: "The mark that is stored is the sum of the bytes before the last.",
        breaks: "\"The mark is the sum of the remote address's bytes (four or sixteen) modulo 256\"",
        file: "prepared.rs",
        function: "fn write(",
        edits: &[Instead(
            "sum(&entry.remote.address)",
            "sum(&entry.remote.address[..entry.remote.address.len() - 1])",
        )],
    },
    Planted {
        name: "MarkOfLocalAddress",
        does: "The mark that is stored is the local address's.",
        breaks: "\"The mark is the sum of the remote address's bytes (four or sixteen) modulo 256\"",
        file: "prepared.rs",
        function: "fn write(",
        edits: &[Instead(
            "sum(&entry.remote.address)",
            "sum(&entry.local.address)",
        )],
    },
    Planted {
        name: "Md5StoredFirst",
        does: "The MD5 entries are stored before the keys.",
        breaks: "\"the key entries in their order, then the MD5 entries in theirs\"",
        file: "prepared.rs",
        function: "fn write(",
        edits: &[Instead(
            "keys.chain(md5).collect()",
            "md5.chain(keys).collect()",
        )],
    },
    Planted {
        name: "AllEntriesCounted",
        does: "The number of keys that is stored is that of all entries.",
        breaks: "\"there are n key entries and m MD5 entries\"",
        file: "prepared.rs",
        function: "fn write(",
        edits: &[Instead(
            "tables.keys.len() as u16",
            "(tables.keys.len() + tables.md5.len()) as u16",
        )],
    },
    Planted {
        name: "NoRoomBeforeTables",
        does: "37 before the tables' refusals, where there is no room at all.",
        breaks: "\"gives the table's refusal, or 37 if the output is too short\"",
        file: "calls.rs",
        function: "fn prepare(",
        edits: &[Before(
            "let prepared =",
            "if room == 0 { return Err(Refusal::of(37)); }",
        )],
    },
    Planted {
        name: "ExactRoomTooShort",
        does: "37 where the prepared table just fits.",
        breaks: "\"gives the table's refusal, or 37 if the output is too short\"",
        file: "calls.rs",
        function: "fn prepare(",
        edits: &[Instead(
            "room < prepared.len()",
            "room <= prepared.len()",
        )],
    },
    Planted {
        name: "PreparingIgnores45",
        does: "Preparing gives no 45.",
        breaks: "\"Preparing takes both tables and tests 45 once\"",
        file: "calls.rs",
        function: "fn prepare(",
        edits: &[Instead(
            "tables.read()?",
            "match tables.read() {
                Err(refusal) if refusal.number == 45 => Tables {
                    keys: crate::table::read(tables.keys)?,
                    md5: crate::md5_table::read(tables.md5)?,
                },
                read => read?,
            }",
        )],
    },
    Planted {
        name: "PreparingWritesBehind",
        does: "Preparing clears what stands behind.",
        breaks: "\"writes only its own length\"",
        file: "boundary.rs",
        function: "fn tcpao_prepare(",
        edits: &[Before(
            "word(0, prepared.len() as u32)",
            "out[prepared.len()..].fill(0);",
        )],
    },
    Planted {
        name: "RefusedPreparingWrites",
        does: "Preparing that is refused clears the output.",
        breaks: "\"A call that is refused leaves every buffer as it was\"",
        file: "boundary.rs",
        function: "fn tcpao_prepare(",
        edits: &[Instead(
            "refusal_word(refusal)",
            "out.fill(0); refusal_word(refusal)",
        )],
    },
    Planted {
        name: "PreparingGivesEntries",
        does: "Preparing gives how many entries there are.",
        breaks: "\"of `prepare` the length written\"",
        file: "boundary.rs",
        function: "fn tcpao_prepare(",
        edits: &[Instead(
            "prepared.len() as u32",
            "(prepared.len() / 129) as u32",
        )],
    },
    Planted {
        name: "Md5LimitStaysSixtyFour",
        does: "12 at the 65th entry of the MD5 table.",
        breaks: "the reading of the MD5 table: \"the same limit of entries\"",
        file: "md5_table.rs",
        function: "fn read(table",
        edits: &[Instead("MOST_ENTRIES", "64")],
    },
    Planted {
        name: "EntriesTakenTogether",
        does: "12 where both tables together have more than 1,024 entries.",
        breaks: "the reading of the MD5 table: \"the same limit of entries\"",
        file: "md5_table.rs",
        function: "fn read_bytes(&self)",
        edits: &[Before(
            "// 45: \"Tables that both match",
            "if keys.len() + md5.len() > MOST_ENTRIES {
                let index = (MOST_ENTRIES - keys.len()) as u32;
                return Err(Refusal { number: 12, index, in_md5: true });
            }",
        )],
    },
    Planted {
        name: "CutBeforeTooMany",
        does: "A cut entry is 10 even where a 1,025th entry begins.",
        breaks: "\"The first that applies, in this order, is given\": 12, 11, 10",
        file: "table.rs",
        function: "fn walk<",
        edits: &[Before(
            "// 12: \"a 65th entry begins\".",
            "if body_bytes(rest[0]).is_some_and(|bytes| rest.len() < 1 + bytes) { return Err(refused(10)); }",
        )],
    },
    Planted {
        name: "ClashAmongLastOnly",
        does: "17 looks at the last 64 entries before an entry.",
        breaks: "\"the clash rule is unchanged\"",
        file: "table.rs",
        function: "fn walk<",
        edits: &[Instead(
            "entries.iter().any(|before| clash(before, &entry))",
            "entries.iter().rev().take(64).any(|before| clash(before, &entry))",
        )],
    },
    Planted {
        name: "ClashAmongFirstOnly",
        does: "17 looks at the first 64 entries.",
        breaks: "\"the clash rule is unchanged\"",
        file: "table.rs",
        function: "fn walk<",
        edits: &[Instead(
            "entries.iter().any(|before| clash(before, &entry))",
            "entries.iter().take(64).any(|before| clash(before, &entry))",
        )],
    },
    Planted {
        name: "BothWaysAmongFirstKeys",
        does: "45 looks at the first 64 keys.",
        breaks: "\"Tables that both match some pair are refused with 45 at the first such MD5 entry\"",
        file: "md5_table.rs",
        function: "fn read_bytes(&self)",
        edits: &[Instead(
            "keys.iter().any(|key| entry.overlaps(key))",
            "keys.iter().take(64).any(|key| entry.overlaps(key))",
        )],
    },
    Planted {
        name: "BothWaysAmongFirstMd5",
        does: "45 looks at the first 64 MD5 entries.",
        breaks: "\"Tables that both match some pair are refused with 45 at the first such MD5 entry\"",
        file: "md5_table.rs",
        function: "fn read_bytes(&self)",
        edits: &[Instead(
            "md5.iter().position(both)",
            "md5.iter().take(64).position(both)",
        )],
    },
    Planted {
        name: "SendIdAmongFirst",
        does: "A SendID is looked for among the first 64 entries.",
        breaks: "\"a search by pair and ID takes the first such entry\"",
        file: "table.rs",
        function: "fn by_send_id<",
        edits: &[Before(
            "entries\n        .iter()",
            "let mut first = entries.iter().take(64);
            return first.find(|entry| entry.send_id == send_id && entry.matches(pair)).copied();",
        )],
    },
    Planted {
        name: "RecvIdAmongFirst",
        does: "A RecvID is looked for among the first 64 entries.",
        breaks: "\"a search by pair and ID takes the first such entry\"",
        file: "table.rs",
        function: "fn by_recv_id<",
        edits: &[Before(
            "entries\n        .iter()",
            "let mut first = entries.iter().take(64);
            return first.find(|entry| entry.recv_id == recv_id && entry.matches(pair)).copied();",
        )],
    },
    Planted {
        name: "PairAmongFirst",
        does: "Whether an entry matches a pair is looked for among the first 64.",
        breaks: "\"25 if any entry matches the pair, otherwise pass\"",
        file: "table.rs",
        function: "fn any_matches(",
        edits: &[Instead(
            "entries.iter().any(|entry| entry.matches(pair))",
            "entries.iter().take(64).any(|entry| entry.matches(pair))",
        )],
    },
    Planted {
        name: "Md5AmongFirst",
        does: "An MD5 entry is looked for among the first 64.",
        breaks: "\"a search by pair and ID takes the first such entry\"",
        file: "md5_table.rs",
        function: "fn matching<",
        edits: &[Instead(
            "entries.iter().find(|entry| entry.matches(pair)).copied()",
            "entries.iter().take(64).find(|entry| entry.matches(pair)).copied()",
        )],
    },
    Planted {
        name: "Md5CountLittleEndian",
        does: "The number of MD5 entries has its lower byte first.",
        breaks: "\"m, big-endian\"",
        file: "prepared.rs",
        function: "fn counts(",
        edits: &[Instead(
            "u16::from_be_bytes([bytes[2], bytes[3]])",
            "u16::from_le_bytes([bytes[2], bytes[3]])",
        )],
    },
    Planted {
        name: "Md5FlagsLookedAt",
        does: "A stored MD5 entry whose flags are not 0 counts as none.",
        breaks: "\"flags | the byte mod 8 | 0\"",
        file: "prepared.rs",
        function: "fn read(",
        edits: &[Instead(
            "(keys..all).map(|index| stored(index).md5_entry()).collect()",
            "(keys..all).map(stored).filter(|it| it.back[0] == 0)
            .map(|it| it.md5_entry()).collect()",
        )],
    },
    Planted {
        name: "Md5MacBytesLookedAt",
        does: "A stored MD5 entry whose MAC bytes are not 16 counts as none.",
        breaks: "\"MAC bytes | raised to 4, lowered to 16 | 16\"",
        file: "prepared.rs",
        function: "fn read(",
        edits: &[Instead(
            "(keys..all).map(|index| stored(index).md5_entry()).collect()",
            "(keys..all).map(stored).filter(|it| it.back[2] == DIGEST_BYTES)
            .map(|it| it.md5_entry()).collect()",
        )],
    },
    Planted {
        name: "LocalPrefixReadTwice",
        does: "A stored entry's local prefix length is read as the remote one too.",
        breaks: "\"N | the remote prefix lengths\"",
        file: "prepared.rs",
        function: "fn remote(",
        edits: &[Instead(
            "self.side(16, &[before_last, &[last]].concat(), self.remote_prefix)",
            "self.side(16, &[before_last, &[last]].concat(), self.back[4])",
        )],
    },
    Planted {
        name: "LocalPrefixStoredTwice",
        does: "The local prefix length is stored as the remote one too.",
        breaks: "\"N | the remote prefix lengths\"",
        file: "prepared.rs",
        function: "fn write(",
        edits: &[Instead("entry.remote.prefix", "entry.local.prefix")],
    },
    Planted {
        name: "Md5StoredWithoutAlgorithm",
        does: "Of an MD5 entry 0 is stored as algorithm.",
        breaks: "\"Of an MD5 entry 0, 0, 0, 19 and 16 are written as SendID, RecvID, flags, algorithm and MAC bytes.\"",
        file: "prepared.rs",
        function: "fn md5_entry(entry",
        edits: &[Instead("KIND_MD5", "0")],
    },
    Planted {
        name: "Md5StoredWithoutMac",
        does: "Of an MD5 entry 0 is stored as MAC bytes.",
        breaks: "\"Of an MD5 entry 0, 0, 0, 19 and 16 are written as SendID, RecvID, flags, algorithm and MAC bytes.\"",
        file: "prepared.rs",
        function: "fn md5_entry(entry",
        edits: &[Instead("DIGEST_BYTES", "0")],
    },
    Planted {
        name: "PreparingLeavesMd5Out",
        does: "Preparing looks at the key table alone.",
        breaks: "\"Preparing takes both tables and tests 45 once; the MD5 entries are part of what is prepared\"",
        file: "calls.rs",
        function: "fn prepare(",
        edits: &[Instead("tables.read()?", "Lent { md5: &[], ..*tables }.read()?")],
    },
    Planted {
        name: "FortyFourAfterTwentyOfSyn",
        does: "Of a bare SYN, 44 comes after 20.",
        breaks: "\"in the place of 10 to 16\"",
        file: "calls.rs",
        function: "fn take_syn<",
        edits: &[Before(
            "let tables = addresses_then_tables(source, destination, tables)?;",
            "addresses(source, destination)?;
            let refused = tables.read().is_err_and(|refusal| refusal.number == 44);
            if refused && Header::read(segment).is_none() { return Err(Refusal::of(20)); }",
        )],
    },
    Planted {
        name: "FortyFourAfterThirty",
        does: "Of signing, 44 comes after 30.",
        breaks: "\"in the place of 10 to 16\"",
        file: "calls.rs",
        function: "fn sign(",
        edits: &[Before(
            "// 10 to 17 and 45, 44.",
            "let refused = tables.read().is_err_and(|refusal| refusal.number == 44);
            if refused && Header::read(segment).is_none() { return Err(Refusal::of(30)); }",
        )],
    },
    Planted {
        name: "SigningFortyFourBeforeEighteen",
        does: "Of signing, 44 comes before 18.",
        breaks: "\"in the place of 10 to 16\"",
        file: "calls.rs",
        function: "fn sign(",
        edits: &[Before(
            "// 18: \"state's family is neither IPv4 nor IPv6\".",
            "if tables.form != 0 { tables.read()?; }",
        )],
    },
    Planted {
        name: "AskingFortyFourBeforeEighteen",
        does: "Of asking, 44 comes before 18.",
        breaks: "\"in the place of 10 to 16\"",
        file: "calls.rs",
        function: "fn ask(",
        edits: &[Before(
            "// 18: \"state's family is neither IPv4 nor IPv6\".",
            "if tables.form != 0 { tables.read()?; }",
        )],
    },
    Planted {
        name: "OpeningFortyFourBeforeLength",
        does: "Of an active opening, 44 comes before the 18 of a state's length.",
        breaks: "\"A state buffer of another length gets 18 from every call that takes one, before any other number.\"",
        file: "boundary.rs",
        function: "fn tcpao_open_active(",
        edits: &[Before(
            "if State::from_bytes(state).is_none()",
            "if form != 0 && (Lent { form, keys, md5 }).read().is_err() { return word(44, 0); }",
        )],
    },
    Planted {
        name: "FortyFourCounted",
        does: "On an open connection 44 adds one to the count of 20.",
        breaks: "\"drops 20 to 29 on an open connection add one to that number's count\"",
        file: "calls.rs",
        function: "fn judge(",
        edits: &[Behind("if state.is_open() {", "if refusal.number == 44 { after.count_drop(20); }")],
    },
    Planted {
        name: "CheckingCountsMd5",
        does: "Checking a prepared table counts its MD5 entries, too.",
        breaks: "\"of `check_table` how many key entries\"",
        file: "calls.rs",
        function: "fn check_table(",
        edits: &[Instead(
            "tables.read()?.keys.len()",
            "{
                let read = tables.read()?;
                read.keys.len() + if tables.form == 0 { 0 } else { read.md5.len() }
            }",
        )],
    },
    Planted {
        name: "CheckingByBytesAlone",
        does: "`tcpao_check_table` takes every table as bytes.",
        breaks: "\"Each call takes the tables' form\"",
        file: "boundary.rs",
        function: "fn tcpao_check_table(",
        edits: &[Instead(
            "Lent { form, keys, md5 }",
            "Lent::of_bytes(keys, md5)",
        )],
    },
    Planted {
        name: "OpeningByBytesAlone",
        does: "`tcpao_open_active` takes every table as bytes.",
        breaks: "\"Each call takes the tables' form\"",
        file: "boundary.rs",
        function: "fn tcpao_open_active(",
        edits: &[Instead(
            "Lent { form, keys, md5 }",
            "Lent::of_bytes(keys, md5)",
        )],
    },
    Planted {
        name: "Md5OpeningByBytesAlone",
        does: "`tcpmd5_open_active` takes every table as bytes.",
        breaks: "\"Each call takes the tables' form\"",
        file: "boundary.rs",
        function: "fn tcpmd5_open_active(",
        edits: &[Instead(
            "Lent { form, keys, md5 }",
            "Lent::of_bytes(keys, md5)",
        )],
    },
    Planted {
        name: "SynByBytesAlone",
        does: "`tcpao_judge_syn` takes every table as bytes.",
        breaks: "\"Each call takes the tables' form\"",
        file: "boundary.rs",
        function: "fn tcpao_judge_syn(",
        edits: &[Instead(
            "Lent { form, keys, md5 }",
            "Lent::of_bytes(keys, md5)",
        )],
    },
    Planted {
        name: "PassiveOpeningByBytesAlone",
        does: "`tcpao_open_passive` takes every table as bytes.",
        breaks: "\"Each call takes the tables' form\"",
        file: "boundary.rs",
        function: "fn tcpao_open_passive(",
        edits: &[Instead(
            "Lent { form, keys, md5 }",
            "Lent::of_bytes(keys, md5)",
        )],
    },
    Planted {
        name: "JudgingByBytesAlone",
        does: "`tcpao_judge` takes every table as bytes.",
        breaks: "\"Each call takes the tables' form\"",
        file: "boundary.rs",
        function: "fn tcpao_judge(",
        edits: &[Instead(
            "Lent { form, keys, md5 }",
            "Lent::of_bytes(keys, md5)",
        )],
    },
    Planted {
        name: "SigningByBytesAlone",
        does: "`tcpao_sign` takes every table as bytes.",
        breaks: "\"Each call takes the tables' form\"",
        file: "boundary.rs",
        function: "fn tcpao_sign(",
        edits: &[Instead(
            "Lent { form, keys, md5 }",
            "Lent::of_bytes(keys, md5)",
        )],
    },
    Planted {
        name: "AskingByBytesAlone",
        does: "`tcpao_ask` takes every table as bytes.",
        breaks: "\"Each call takes the tables' form\"",
        file: "boundary.rs",
        function: "fn tcpao_ask(",
        edits: &[Instead(
            "Lent { form, keys, md5 }",
            "Lent::of_bytes(keys, md5)",
        )],
    },
    // The desk.
    Planted {
        name: "DeskStateNotHandedOn",
        does: "Each segment is judged in the state just after the opening.",
        breaks: "\"What it prints must be what the live calls would give.\"",
        file: "desk.rs",
        function: "fn read(",
        edits: &[Instead("Some(after)", "Some(state)")],
    },
    Planted {
        name: "DeskLinesCountRecords",
        does: "A segment's line has the record's index.",
        breaks: "\"index, verdict number, extension\"; \"segments and records counted from 0\"",
        file: "desk.rs",
        function: "fn read(",
        edits: &[Instead("format!(\"{segments} {line}\\n\")", "format!(\"{records} {line}\\n\")")],
    },
    Planted {
        name: "DeskStopsAtSegment",
        does: "The last line has the index of the segment, not of the record.",
        breaks: "\"a last line of 38 and the record's index\"",
        file: "desk.rs",
        function: "fn read(",
        edits: &[Instead("Stop::AtRecord(records)", "Stop::AtRecord(segments)")],
    },
    Planted {
        name: "DeskEndCountsNothing",
        does: "An early end is at 0, whatever stands before it.",
        breaks: "\"(at an early end, the number of records)\"",
        file: "desk.rs",
        function: "fn read(",
        edits: &[Instead("Stop::AtEnd(records)", "Stop::AtEnd(0)")],
    },
    Planted {
        name: "DeskSegmentsFromOne",
        does: "Segments are counted from 1.",
        breaks: "\"segments and records counted from 0\"",
        file: "desk.rs",
        function: "fn read(",
        edits: &[Instead("(0_u64, 0_u64)", "(0_u64, 1_u64)")],
    },
    Planted {
        name: "DeskRecordsFromOne",
        does: "Records are counted from 1.",
        breaks: "\"segments and records counted from 0\"",
        file: "desk.rs",
        function: "fn read(",
        edits: &[Instead("(0_u64, 0_u64)", "(1_u64, 0_u64)")],
    },
    Planted {
        name: "DeskSecondOpeningTaken",
        does: "A second opening opens again.",
        breaks: "\"they stand before the one opening\"",
        file: "desk.rs",
        function: "fn read(",
        edits: &[Before(
            "match (record, connection) {",
            "if matches!(record, Record::Opening(_)) { connection = None; }",
        )],
    },
    Planted {
        name: "DeskEntryBehindOpeningTaken",
        does: "An entry behind the opening is joined to the table.",
        breaks: "\"they stand before the one opening\"",
        file: "desk.rs",
        function: "fn read(",
        edits: &[Before(
            "match (record, connection) {",
            "if let (Record::Entry(bytes), Some(_)) = (&record, connection) {
                table.extend(*bytes);
                records += 1;
                rest = behind;
                continue;
            }",
        )],
    },
    Planted {
        name: "DeskEarlySegmentSkipped",
        does: "A segment before the opening is skipped.",
        breaks: "\"and it before all segments\"",
        file: "desk.rs",
        function: "fn read(",
        edits: &[Before(
            "match (record, connection) {",
            "if matches!(record, Record::Segment(_)) && connection.is_none() {
                records += 1;
                rest = behind;
                continue;
            }",
        )],
    },
    Planted {
        name: "DeskLineBehindTheLast",
        does: "Behind a misplaced record the reading goes on.",
        breaks: "\"stops it with a last line\"",
        file: "desk.rs",
        function: "fn read(",
        edits: &[Before(
            "match (record, connection) {",
            "if connection.is_some() && !matches!(record, Record::Segment(_)) {
                *lines += &last_line(stop);
                records += 1;
                rest = behind;
                continue;
            }",
        )],
    },
    Planted {
        name: "DeskCutRecordNotReported",
        does: "A record that is cut counts as the end.",
        breaks: "\"A cut, unknown or misplaced record\"",
        file: "desk.rs",
        function: "fn read(",
        edits: &[Before(
            "let Some((record, behind))",
            "if matches!(rest[0], 1..=3) && rest.len() < [131, 48, 1_601][usize::from(rest[0]) - 1] {
                break;
            }",
        )],
    },
    Planted {
        name: "DeskZeroSkipped",
        does: "Zeros between records are skipped.",
        breaks: "\"A cut, unknown or misplaced record\"",
        file: "desk.rs",
        function: "fn read(",
        edits: &[Before(
            "let Some((record, behind))",
            "if rest[0] == 0 {
                rest = &rest[1..];
                continue;
            }",
        )],
    },
    Planted {
        name: "DeskNoOpeningIsGood",
        does: "A recording of entries alone ends well.",
        breaks: "\"an end before the opening\"",
        file: "desk.rs",
        function: "fn read(",
        edits: &[Before("match connection {", "if records > 0 { return Ok(()); }")],
    },
    Planted {
        name: "DeskEmptyIsGood",
        does: "A recording of no bytes ends well.",
        breaks: "\"an end before the opening\"",
        file: "desk.rs",
        function: "fn read(",
        edits: &[Before("match connection {", "if records == 0 { return Ok(()); }")],
    },
    Planted {
        name: "DeskTableJudgedEarly",
        does: "A bad table stops the reading at its own record.",
        breaks: "\"judged at the opening record\"",
        file: "desk.rs",
        function: "fn read(",
        edits: &[Before(
            "match (record, connection) {",
            "if let Record::Entry(bytes) = record {
                match table::read_at_most(MOST_ENTRIES, &[&table[..], bytes].concat()) {
                    Err(refusal) if refusal.number != 10 => return Err(Stop::Opening(refusal.number)),
                    _ => {}
                }
            }",
        )],
    },
    Planted {
        name: "DeskEntryInOneRecord",
        does: "10 for a record that does not end with an entry.",
        breaks: "\"All entries, joined in order, make the table\"",
        file: "desk.rs",
        function: "fn read(",
        edits: &[Before(
            "match (record, connection) {",
            "if let Record::Entry(bytes) = record {
                if table::read(bytes).is_err_and(|refusal| refusal.number == 10) {
                    return Err(Stop::Opening(10));
                }
            }",
        )],
    },
    Planted {
        name: "DeskEntriesReversed",
        does: "A later entry is put before the others.",
        breaks: "\"All entries, joined in order, make the table\"",
        file: "desk.rs",
        function: "fn read(",
        edits: &[Instead("table.extend(bytes)", "drop(table.splice(..0, bytes.iter().copied()))")],
    },
    Planted {
        name: "DeskEntryLength130",
        does: "An entry length of 130 is let through.",
        breaks: "\"an entry length above 129\"",
        file: "desk.rs",
        function: "fn first_record(",
        edits: &[Instead(
            "body[1..].get(..length)?",
            "if length == 130 { body } else { body[1..].get(..length)? }",
        )],
    },
    Planted {
        name: "DeskUsedLength1599",
        does: "A used length of 1,599 is let through.",
        breaks: "\"or a used length above 1,598\"",
        file: "desk.rs",
        function: "fn first_record(",
        edits: &[Instead(
            "body[2..].get(..length)?",
            "if length == 1_599 { &body[1..] } else { body[2..].get(..length)? }",
        )],
    },
    Planted {
        name: "DeskLongestEntryRefused",
        does: "An entry length of 129 stops the reading.",
        breaks: "\"an entry length above 129\"",
        file: "desk.rs",
        function: "fn first_record(",
        edits: &[Instead("body[1..].get(..length)?", "body[1..129].get(..length)?")],
    },
    Planted {
        name: "DeskLongestSegmentRefused",
        does: "A used length of 1,598 stops the reading.",
        breaks: "\"or a used length above 1,598\"",
        file: "desk.rs",
        function: "fn first_record(",
        edits: &[Instead("body[2..].get(..length)?", "body[2..1_599].get(..length)?")],
    },
    Planted {
        name: "DeskWholeRoomJoined",
        does: "What stands behind an entry's length is joined to the table too.",
        breaks: "\"a table entry's length and bytes in a fixed 130-byte body\"",
        file: "desk.rs",
        function: "fn first_record(",
        edits: &[Instead("body[1..].get(..length)?", "{ body[1..].get(..length)?; &body[1..] }")],
    },
    Planted {
        name: "DeskWholeRoomJudged",
        does: "What stands behind a segment's used length is judged too.",
        breaks: "\"two bytes of used length\"",
        file: "desk.rs",
        function: "fn first_record(",
        edits: &[Instead("body[2..].get(..length)?", "{ body[2..].get(..length)?; &body[2..] }")],
    },
    Planted {
        name: "DeskShortSegmentStops",
        does: "A used length below 20 stops the reading, where the segment is to be judged.",
        breaks: "\"What it prints must be what the live calls would give.\"",
        file: "desk.rs",
        function: "fn first_record(",
        edits: &[Instead(
            "body[2..].get(..length)?",
            "{ if length < 20 { return None; } body[2..].get(..length)? }",
        )],
    },
    Planted {
        name: "DeskLengthLittleEndian",
        does: "The used length is read with its low byte first.",
        breaks: "\"two bytes of used length, big-endian, first\"",
        file: "desk.rs",
        function: "fn first_record(",
        edits: &[Instead("u16::from_be_bytes", "u16::from_le_bytes")],
    },
    Planted {
        name: "DeskCutSegmentJudged",
        does: "A segment whose used bytes are all there is judged, though its record is cut.",
        breaks: "\"A cut, unknown or misplaced record\"",
        file: "desk.rs",
        function: "fn first_record(",
        edits: &[Before(
            "let body = recording",
            "if kind == 3 && (3..1_601).contains(&recording.len()) {
                let length = usize::from(u16::from_be_bytes([recording[1], recording[2]]));
                return Some((Record::Segment(recording[3..].get(..length)?), &[]));
            }",
        )],
    },
    Planted {
        name: "DeskFamilyBehindTable",
        does: "18 behind the table's numbers.",
        breaks: "\"judged at the opening record in 01's order\"",
        file: "desk.rs",
        function: "fn opened(",
        edits: &[Before(
            "// 18:",
            "if let Err(refusal) = table::read_at_most(MOST_ENTRIES, table) {
                return Err(Stop::Opening(refusal.number));
            }",
        )],
    },
    Planted {
        name: "DeskLongTableCut",
        does: "Of a table no more is kept than 64 entries can have, and 12 is not seen.",
        breaks: "12: \"a 65th entry begins\"",
        file: "desk.rs",
        function: "fn opened(",
        edits: &[Instead(
            "table::read_at_most(MOST_ENTRIES, table)",
            "table::read_at_most(MOST_ENTRIES, &table[..table.len().min(64 * 129)])",
        )],
    },
    Planted {
        name: "DeskTakesThousandEntries",
        does: "The desk takes 1,024 entries, as the calls do.",
        breaks: "\"Ticket 1's program stays at 64 entries\"",
        file: "desk.rs",
        function: "fn opened(",
        edits: &[Instead("table::read_at_most(MOST_ENTRIES, table)", "table::read(table)")],
    },
    Planted {
        name: "DeskTakesOneEntryMore",
        does: "The desk takes a 65th entry.",
        breaks: "12: \"a 65th entry begins\"; \"Ticket 1's program stays at 64 entries\"",
        file: "desk.rs",
        function: "fn opened(",
        edits: &[Instead(
            "table::read_at_most(MOST_ENTRIES, table)",
            "table::read_at_most(MOST_ENTRIES + 1, table)",
        )],
    },
    Planted {
        name: "DeskFullTableRefused",
        does: "12 at the desk's 64th entry.",
        breaks: "12: \"a 65th entry begins\"; \"Ticket 1's program stays at 64 entries\"",
        file: "desk.rs",
        function: "fn opened(",
        edits: &[Instead(
            "table::read_at_most(MOST_ENTRIES, table)",
            "table::read_at_most(MOST_ENTRIES - 1, table)",
        )],
    },
    Planted {
        name: "DeskSendIdNotTested",
        does: "35 for the SendID is not given.",
        breaks: "\"35 for either ID\"",
        file: "desk.rs",
        function: "fn opened(",
        edits: &[Instead("by_send_id(&entries, &pair, state.outgoing_send_id).is_none()", "false")],
    },
    Planted {
        name: "DeskRecvIdNotTested",
        does: "35 for the RecvID is not given.",
        breaks: "\"35 for either ID\"",
        file: "desk.rs",
        function: "fn opened(",
        edits: &[Instead("by_recv_id(&entries, &pair, state.asked_recv_id).is_none()", "false")],
    },
    Planted {
        name: "DeskSendIdOfAnyPair",
        does: "35 for the SendID asks no entry for the pair.",
        breaks: "35: \"no entry matching the pair has the outgoing SendID\"",
        file: "desk.rs",
        function: "fn opened(",
        edits: &[Instead(
            "by_send_id(&entries, &pair, state.outgoing_send_id).is_none()",
            "!entries.iter().any(|entry| entry.send_id == state.outgoing_send_id)",
        )],
    },
    Planted {
        name: "DeskAskedIdIsSendId",
        does: "The RecvID to ask is looked for among the SendIDs.",
        breaks: "35: \"or the RecvID to ask (operator call)\"",
        file: "desk.rs",
        function: "fn opened(",
        edits: &[Instead(
            "by_recv_id(&entries, &pair, state.asked_recv_id).is_none()",
            "by_send_id(&entries, &pair, state.asked_recv_id).is_none()",
        )],
    },
    Planted {
        name: "DeskNumberNotAlone",
        does: "Beside the opening's number stands an index.",
        breaks: "\"with 01's number alone\"",
        file: "desk.rs",
        function: "fn last_line(",
        edits: &[Instead("format!(\"{number}\\n\")", "format!(\"{number} 0\\n\")")],
    },
    Planted {
        name: "DeskReferenceFromZero",
        does: "The arriving reference starts at 0.",
        breaks: "\"Opening sets each reference to that side's ISN\"",
        file: "desk.rs",
        function: "fn just_opened(",
        edits: &[Instead("four(11).into()", "0")],
    },
    Planted {
        name: "DeskIsnsExchanged",
        does: "Our ISN and the peer's are exchanged.",
        breaks: "the reading of kind 2: \"our ISN, the peer's ISN (four each)\"",
        file: "desk.rs",
        function: "fn just_opened(",
        edits: &[Behind(
            "state.remote.copy_from_slice(&body[31..47]);",
            "std::mem::swap(&mut state.our_isn, &mut state.peer_isn);",
        )],
    },
    Planted {
        name: "DeskStillOpening",
        does: "The connection is still opening.",
        breaks: "\"kind 2 the connection just after opening\"",
        file: "desk.rs",
        function: "fn just_opened(",
        edits: &[Instead("STAGE_OPEN", "0")],
    },
    Planted {
        name: "DeskFromOurSide",
        does: "A segment comes from our side to the remote one.",
        breaks: "\"kind 3 an arriving segment of it\"",
        file: "desk.rs",
        function: "fn judged(",
        edits: &[Instead("(pair.remote, pair.local)", "(pair.local, pair.remote)")],
    },
    Planted {
        name: "DeskDropsExtensionPrinted",
        does: "A drop prints the reference's extension.",
        breaks: "\"a drop's extension prints as 0\"",
        file: "desk.rs",
        function: "fn judged(",
        edits: &[Instead(
            "(refusal.number, 0)",
            "(refusal.number, (state.arriving_reference >> 32) as u32)",
        )],
    },
    Planted {
        name: "DeskAcceptPrintsOne",
        does: "Accept prints as number 1.",
        breaks: "\"Accept prints as number 0\"",
        file: "desk.rs",
        function: "fn judged(",
        edits: &[Instead("(0, extension)", "(1, extension)")],
    },
];
