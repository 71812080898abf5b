//! The directed cases: every number of every call, and every rule that a planted fault turns round.

pub mod ask;
pub mod checksum;
pub mod inputs;
pub mod judge;
pub mod key_ids;
pub mod large;
pub mod mac_lengths;
pub mod md5;
pub mod open;
pub mod prepared;
pub mod sha256;
pub mod sign;
pub mod table;
pub mod translation;

use super::calls::{Case, REFERENCE};
use super::ends::*;
use kit::segment::{summed, ACK, SYN};
use kit::{Call, End, Entry, Function, Segment, State};
use reference::mac::Ends;

pub fn cases() -> Vec<Case> {
    let scene = Scene::new();
    let mut list = List(vec![]);
    table::refused(&scene, &mut list);
    table::taken(&scene, &mut list);
    table::too_many(&scene, &mut list);
    inputs::states(&scene, &mut list);
    inputs::addresses(&scene, &mut list);
    open::active(&scene, &mut list);
    judge::unreadable(&scene, &mut list);
    open::bare_syn(&scene, &mut list);
    key_ids::unknown(&scene, &mut list);
    open::passed(&scene, &mut list);
    judge::opening(&scene, &mut list);
    judge::positions(&scene, &mut list);
    judge::open(&scene, &mut list);
    judge::other_pairs(&scene, &mut list);
    sign::segments(&scene, &mut list);
    sign::rooms(&scene, &mut list);
    mac_lengths::taken(&scene, &mut list);
    mac_lengths::families(&scene, &mut list);
    mac_lengths::arriving(&scene, &mut list);
    mac_lengths::signing(&scene, &mut list);
    mac_lengths::largest(&scene, &mut list);
    sha256::calls(&scene, &mut list);
    checksum::wrong(&scene, &mut list);
    checksum::order(&scene, &mut list);
    checksum::other_addresses(&scene, &mut list);
    checksum::lengths(&mut list);
    checksum::zero(&mut list);
    translation::taken(&scene, &mut list);
    translation::hidden(&mut list);
    translation::not_hidden(&mut list);
    translation::as_seen(&mut list);
    md5::bad_tables(&scene, &mut list);
    md5::too_many(&mut list);
    md5::both_tables(&scene, &mut list);
    md5::openings(&scene, &mut list);
    md5::bare_syn(&scene, &mut list);
    md5::opening(&scene, &mut list);
    md5::open(&scene, &mut list);
    md5::other_way(&scene, &mut list);
    md5::signing(&scene, &mut list);
    md5::asking(&scene, &mut list);
    md5::digests(&mut list);
    ask::ids(&scene, &mut list);
    prepared::refused(&scene, &mut list);
    prepared::done(&scene, &mut list);
    prepared::read_as(&mut list);
    prepared::not_matched(&scene, &mut list);
    prepared::marks(&mut list);
    prepared::not_tested_again(&scene, &mut list);
    prepared::preparing(&scene, &mut list);
    large::found(&scene, &mut list);
    large::clashes(&scene, &mut list);
    large::full(&scene, &mut list);
    list.0
}

/// What the answer must be: the number and the value beside it. Of the MD5 table's refusals, see
/// [`List::add_with`].
pub type Answer = (u8, u32);

/// The cases so far.
pub struct List(Vec<Case>);

impl List {
    /// With no MD5 table but the call's.
    pub fn add(&mut self, name: &str, table: &[u8], state: &[u8], call: Call, answer: Answer) {
        let md5 = call.md5.clone();
        let answer = kit::word(answer.0, answer.1);
        self.add_with(name, (table, &md5), state, call, answer);
    }

    /// With a key table and an MD5 table, and the answer's word.
    pub fn add_with(
        &mut self,
        name: &str,
        tables: (&[u8], &[u8]),
        state: &[u8],
        call: Call,
        answer: u64,
    ) {
        self.0.push(Case {
            name: name.to_string(),
            call: Call {
                table: tables.0.to_vec(),
                md5: tables.1.to_vec(),
                state: state.to_vec(),
                ..call
            },
            answer,
        });
    }
}

/// What the cases are made of: A and B in IPv4, and what a call gets where nothing is wrong.
pub struct Scene {
    /// As A holds them.
    pub keys: Vec<Entry>,
    /// A and B, open.
    pub a: End,
    pub b: End,
    /// A and B, not opened.
    pub new_a: End,
    pub new_b: End,
    /// A, opening.
    pub opening: End,
    /// The empty state.
    pub empty: Vec<u8>,
    /// A's SYN before it is signed, and after.
    pub plain_syn: Segment,
    pub syn: Vec<u8>,
    /// A segment for A to sign.
    pub data: Vec<u8>,
    /// A segment that B has signed.
    pub from_b: Vec<u8>,
    /// A's own segment, with RST: arriving at A it has the wrong ports, and it is wrong for every stage.
    pub elsewhere: Segment,
}

impl Scene {
    fn new() -> Scene {
        let (a, b) = opened(&A4, &B4);
        let (new_a, new_b) = ends(&A4, &B4);
        let mut opening = new_a.clone();
        assert_eq!(opening.open_active(A_ISN, 1), 0);
        Scene {
            keys: keys(&A4, &B4),
            empty: State::default().bytes(),
            plain_syn: new_a.segment(A_ISN, SYN, b""),
            syn: opening.clone().sign(A_ISN, SYN, b""),
            data: a.segment(A_ISN + 1, ACK, b"data").bytes(),
            from_b: b.clone().sign(B_ISN + 1, ACK, b"from B"),
            elsewhere: a.segment(0, kit::segment::RST, b""),
            a,
            b,
            new_a,
            new_b,
            opening,
        }
    }

    /// A segment of B's with the MAC of the first key, at extension 0.
    pub fn sealed(&self, segment: Segment) -> Vec<u8> {
        seal(&self.keys[0], &B_TO_A, 0, segment.bytes())
    }

    /// A's open state with both references here.
    pub fn at(&self, reference: u64) -> Vec<u8> {
        let state = State {
            arriving_reference: reference,
            signing_reference: reference,
            ..self.a.state()
        };
        state.bytes()
    }
}

/// The ends of a bare SYN that A sends to B.
pub const SYN_TO_B: Ends = Ends {
    source: &A4,
    destination: &B4,
    source_port: A_PORT,
    destination_port: B_PORT,
    source_isn: A_ISN,
    destination_isn: 0,
};

/// The ends of a segment that B sends to A.
pub const B_TO_A: Ends = Ends {
    source: &B4,
    destination: &A4,
    source_port: B_PORT,
    destination_port: A_PORT,
    source_isn: B_ISN,
    destination_isn: A_ISN,
};

pub fn check_table() -> Call {
    Call::new(Function::CheckTable, &[])
}

/// A opens.
pub fn active(send_id: u8) -> Call {
    Call {
        source: A4.to_vec(),
        destination: B4.to_vec(),
        local_port: A_PORT,
        remote_port: B_PORT,
        isn: A_ISN,
        byte: send_id,
        ..Call::new(Function::OpenActive, &[])
    }
}

/// A opens by MD5.
pub fn active_md5() -> Call {
    Call {
        function: Function::OpenActiveMd5,
        byte: 0,
        ..active(0)
    }
}

/// A segment from A arrives at B, which listens; with its right checksum, as in all calls here that take an
/// arriving segment.
pub fn judge_syn(segment: &[u8], setting: u8) -> Call {
    Call {
        source: A4.to_vec(),
        destination: B4.to_vec(),
        segment: summed(&A4, &B4, segment),
        byte: setting,
        ..Call::new(Function::JudgeSyn, &[])
    }
}

/// B opens by a segment from A.
pub fn passive(segment: &[u8], setting: u8) -> Call {
    Call {
        function: Function::OpenPassive,
        isn: B_ISN,
        ..judge_syn(segment, setting)
    }
}

/// A segment from B arrives at A.
pub fn judge(segment: &[u8]) -> Call {
    Call {
        source: B4.to_vec(),
        destination: A4.to_vec(),
        segment: summed(&B4, &A4, segment),
        ..Call::new(Function::Judge, &[])
    }
}

/// Into a buffer that is just long enough.
pub fn sign(segment: &[u8]) -> Call {
    sign_into(segment, segment.len() + 16)
}

pub fn sign_into(segment: &[u8], room: usize) -> Call {
    Call {
        segment: segment.to_vec(),
        out: vec![0xee; room],
        ..Call::new(Function::Sign, &[])
    }
}

pub fn ask(recv_id: u8) -> Call {
    Call {
        byte: recv_id,
        ..Call::new(Function::Ask, &[])
    }
}

/// A call with other addresses; the segment's checksum is right for these.
pub fn with_addresses(call: Call, source: &[u8], destination: &[u8]) -> Call {
    Call {
        source: source.to_vec(),
        destination: destination.to_vec(),
        segment: summed(source, destination, &call.segment),
        ..call
    }
}

/// A call with this segment, whatever its checksum.
pub fn as_it_is(call: Call, segment: &[u8]) -> Call {
    Call {
        segment: segment.to_vec(),
        ..call
    }
}
