//! The faults of a state's record (Ticket 12), each as an edit of the reference's text.

use crate::switches::Edit::{Before, Instead};
use crate::switches::Planted;

pub const FAULTS: &[Planted] = &[
    Planted {
        name: "EmptyStateWritten",
        does: "A state that 18 refuses is written.",
        breaks: "\"A state that 18 refuses is not written, and 18 is the answer.\"",
        file: "record.rs",
        function: "fn write(",
        edits: &[Instead("state.pair().is_none()", "false")],
    },
    Planted {
        name: "RefusedStateFortyNine",
        does: "Writing a state that 18 refuses gives 49.",
        breaks: "\"A state that 18 refuses is not written, and 18 is the answer.\"",
        file: "record.rs",
        function: "fn write(",
        edits: &[Instead("Refusal::of(18)", "Refusal::of(49)")],
    },
    Planted {
        name: "RoomBeforeRecordsFamily",
        does: "37 before 18, when writing.",
        breaks: "\"Writing: 18, 37.\"",
        file: "record.rs",
        function: "fn write(",
        edits: &[Before(
            "// 18: \"A state",
            "if room < RECORD_BYTES { return Err(Refusal::of(37)); }",
        )],
    },
    Planted {
        name: "RecordNeedsMoreRoom",
        does: "Room for the record alone is too little.",
        breaks: "37: \"output too short\"",
        file: "record.rs",
        function: "fn write(",
        edits: &[Instead("room < RECORD_BYTES", "room <= RECORD_BYTES")],
    },
    Planted {
        name: "OnlyOpenWritten",
        does: "Only an open connection is written.",
        breaks: "\"Write the state as one house record\": every state that 18 allows",
        file: "record.rs",
        function: "fn write(",
        edits: &[Instead(
            "state.pair().is_none()",
            "state.pair().is_none() || !state.is_open()",
        )],
    },
    Planted {
        name: "RecordOfKindThirtyTwo",
        does: "Another kind is written and read.",
        breaks: "\"one house record, kind 33\"",
        file: "record.rs",
        function: "fn write(",
        edits: &[Instead("[KIND, LAYOUT]", "[KIND - 1, LAYOUT]")],
    },
    Planted {
        name: "RecordOfLayoutTwo",
        does: "Another layout is written.",
        breaks: "\"33, layout 1, then the state's bytes\"",
        file: "record.rs",
        function: "fn write(",
        edits: &[Instead("[KIND, LAYOUT]", "[KIND, LAYOUT + 1]")],
    },
    Planted {
        name: "RecordWithoutCounts",
        does: "The counts are written as 0.",
        breaks: "\"Reading a written state gives that state\"; \"totals are counted from the restored ones\"",
        file: "record.rs",
        function: "fn write(",
        edits: &[Instead(
            "state.to_bytes()",
            "State { accepted: 0, drops: [0; crate::state::COUNTED.len()], ..*state }.to_bytes()",
        )],
    },
    Planted {
        name: "RecordWithoutWay",
        does: "The way is written as TCP-AO's.",
        breaks: "\"Reading a written state gives that state\"",
        file: "record.rs",
        function: "fn write(",
        edits: &[Instead("state.to_bytes()", "State { way: 0, ..*state }.to_bytes()")],
    },
    Planted {
        name: "RecordWithoutBytesBehind",
        does: "What stands behind an IPv4 address is written as zeros.",
        breaks: "\"Reading a written state gives that state\"",
        file: "record.rs",
        function: "fn write(",
        edits: &[Instead(
            "state.to_bytes()",
            "let mut state = *state;
            if state.family == 4 { state.remote[4..].fill(0); }
            state.to_bytes()",
        )],
    },
    Planted {
        name: "RecordOfStageOneOrZero",
        does: "A stage that is not 1 is written as 0.",
        breaks: "\"Reading a written state gives that state\"",
        file: "record.rs",
        function: "fn write(",
        edits: &[Instead(
            "state.to_bytes()",
            "State { stage: state.is_open() as u8, ..*state }.to_bytes()",
        )],
    },
    Planted {
        name: "LongerRecordTaken",
        does: "Bytes behind a record are not looked at.",
        breaks: "\"bytes that no state writes are refused with 49\"",
        file: "record.rs",
        function: "fn read(",
        edits: &[
            Instead("record.len() != RECORD_BYTES", "record.len() < RECORD_BYTES"),
            Instead("&record[2..]", "&record[2..RECORD_BYTES]"),
        ],
    },
    Planted {
        name: "KindNotLookedAt",
        does: "A record of any kind is read.",
        breaks: "\"bytes that no state writes are refused with 49\"",
        file: "record.rs",
        function: "fn read(",
        edits: &[Instead("record[0] != KIND", "false")],
    },
    Planted {
        name: "LayoutNotLookedAt",
        does: "A record of any layout is read.",
        breaks: "\"bytes that no state writes are refused with 49\"",
        file: "record.rs",
        function: "fn read(",
        edits: &[Instead("record[1] != LAYOUT", "false")],
    },
    Planted {
        name: "LayoutZeroTaken",
        does: "A record of layout 0 is read too.",
        breaks: "\"bytes that no state writes are refused with 49\"",
        file: "record.rs",
        function: "fn read(",
        edits: &[Instead("record[1] != LAYOUT", "record[1] > LAYOUT")],
    },
    Planted {
        name: "RecordOfNoFamilyTaken",
        does: "A record with a family other than 4 and 6 is read.",
        breaks: "\"bytes that no state writes are refused with 49\"; \"A state that 18 refuses is not written\"",
        file: "record.rs",
        function: "fn read(",
        edits: &[Instead("state.pair().is_none()", "false")],
    },
    Planted {
        name: "RecordsFamilyEighteen",
        does: "A record with a family other than 4 and 6 gives 18.",
        breaks: "\"bytes that no state writes are refused with 49\"",
        file: "record.rs",
        function: "fn read(",
        edits: &[Before(
            "// 49: \"a family",
            "if state.pair().is_none() { return Err(Refusal::of(18)); }",
        )],
    },
    Planted {
        name: "OpeningRecordRefused",
        does: "A record of a connection that is opening is refused.",
        breaks: "49 exactly for \"bytes that no state writes\"",
        file: "record.rs",
        function: "fn read(",
        edits: &[Instead(
            "state.pair().is_none()",
            "state.pair().is_none() || !state.is_open()",
        )],
    },
    Planted {
        name: "OddStageRefused",
        does: "A record with a stage or a way above 1 is refused.",
        breaks: "49 exactly for \"bytes that no state writes\"; \"Every value of these bytes is a state\"",
        file: "record.rs",
        function: "fn read(",
        edits: &[Instead(
            "state.pair().is_none()",
            "state.pair().is_none() || state.stage > 1 || state.way > 1",
        )],
    },
    Planted {
        name: "BytesBehindAddressRefused",
        does: "A record with bytes behind an IPv4 address that are not zero is refused.",
        breaks: "49 exactly for \"bytes that no state writes\"",
        file: "record.rs",
        function: "fn read(",
        edits: &[Instead(
            "state.pair().is_none()",
            "state.pair().is_none() || state.family == 4 && state.local[4..] != [0; 12]",
        )],
    },
    Planted {
        name: "ReadingStartsCountsAnew",
        does: "Reading sets the counts to 0, as an opening does.",
        breaks: "\"totals are counted from the restored ones\"",
        file: "record.rs",
        function: "fn read(",
        edits: &[Instead(
            "Ok(state)",
            "Ok(State { accepted: 0, drops: [0; crate::state::COUNTED.len()], ..state })",
        )],
    },
    Planted {
        name: "ReadingSetsReferences",
        does: "Reading sets each reference to that side's ISN, as an opening does.",
        breaks: "\"demand 3 then starts at the restored reference\"",
        file: "record.rs",
        function: "fn read(",
        edits: &[Instead(
            "Ok(state)",
            "Ok(State {
                signing_reference: state.our_isn.into(),
                arriving_reference: state.peer_isn.into(),
                ..state
            })",
        )],
    },
    Planted {
        name: "WrittenRoomBeforePair",
        does: "37 before 19 and 23, among many connections.",
        breaks: "\"In the table: writing 18, 19, 23, 37\"",
        file: "record.rs",
        function: "fn write_of(",
        edits: &[Before(
            "// 19, 23.",
            "if room < RECORD_BYTES { return Err(Refusal::of(37)); }",
        )],
    },
    Planted {
        name: "WrittenIsClosed",
        does: "What is not in use is written as the first connection.",
        breaks: "\"writing needs a pair in use (23)\"",
        file: "record.rs",
        function: "fn write_of(",
        edits: &[Instead(
            "find(pair, connections)?",
            "match find(pair, connections) {
                Err(Refusal { number: 23, .. }) if !connections.places.is_empty() => 0,
                found => found?,
            }",
        )],
    },
    Planted {
        name: "ReadInUseBeforeRecord",
        does: "42 before 49.",
        breaks: "\"with 41 and 42 behind 49\"",
        file: "record.rs",
        function: "fn read_into(",
        edits: &[Before(
            "// 49.",
            "connections.first_free().ok_or(Refusal::of(42))?;",
        )],
    },
    Planted {
        name: "ReadingReplaces",
        does: "A record of a pair in use takes that connection's place.",
        breaks: "\"reading is an opening, with 41 and 42\"",
        file: "record.rs",
        function: "fn read_into(",
        edits: &[Before(
            "// 41, 42.",
            "if let Some(place) = state.pair().and_then(|pair| connections.in_use(&pair)) {
                connections.places[place] = state;
                return Ok(place as u32);
            }",
        )],
    },
    Planted {
        name: "ReadPlaceNotNamed",
        does: "Reading into connections gives 0 beside its 0.",
        breaks: "\"reading into connections gives the place's index\"",
        file: "record.rs",
        function: "fn read_into(",
        edits: &[Instead("connections.put(state)", "connections.put(state).map(|_| 0)")],
    },
];
