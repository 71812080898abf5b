//! Recordings, and what the program must print for each: document 02, Ticket 1.

use super::ends::*;
use kit::entry::table;
use kit::recording::{self, entry, opening, segment};
use kit::segment::ACK;
use kit::{End, Entry, Side, State};

/// A recording, and its lines.
pub struct Recording {
    pub name: String,
    pub bytes: Vec<u8>,
    pub lines: String,
}

/// A's connection with B just before the rollover of B's numbers: what stands in a recording, part by part.
struct Scene {
    keys: Vec<Entry>,
    state: State,
    /// Segments of B's: as signed, behind the rollover, damaged, forged, as signed.
    segments: [Vec<u8>; 5],
    /// Two more, in leaps of nearly 2^31: where the second lies is seen from the first alone.
    leaps: [Vec<u8>; 2],
}

/// What those segments get.
const LINES: &str = "0 0 0\n1 0 1\n2 40 0\n3 29 0\n4 0 0\n";
const NEAR_ROLLOVER: u32 = 0xffff_ffe0;

impl Scene {
    fn new(a: &[u8], b: &[u8]) -> Scene {
        let (mut from, mut to) = ends(a, b);
        let at = |end: &mut End, (isn, peer_isn): (u32, u32), (send_id, ask_id): (u8, u8)| {
            end.set(State {
                stage: 1,
                outgoing_send_id: send_id,
                asked_recv_id: ask_id,
                our_isn: isn,
                peer_isn,
                signing_reference: isn.into(),
                arriving_reference: peer_isn.into(),
                ..State::of_pair(&end.pair)
            });
        };
        at(&mut from, (A_ISN, NEAR_ROLLOVER), (1, 2));
        at(&mut to, (NEAR_ROLLOVER, A_ISN), (2, 1));
        let first = to.sign(NEAR_ROLLOVER + 1, ACK, b"first");
        let behind = to.sign(0x10, ACK, b"behind the rollover");
        let mut damaged = behind.clone();
        *damaged.last_mut().unwrap() ^= 1;
        let forged = from.arriving(&damaged);
        let late = to.sign(NEAR_ROLLOVER + 6, ACK, b"late");
        let leaps = [0x7000_0000, 0xe000_0000].map(|number| to.sign(number, ACK, b"far"));
        Scene {
            keys: keys(a, b),
            state: from.state(),
            segments: [first, behind, damaged, forged, late],
            leaps,
        }
    }

    /// Each entry in its own record.
    fn entries(&self) -> Vec<u8> {
        self.keys
            .iter()
            .flat_map(|key| entry(&key.bytes()))
            .collect()
    }

    fn opening(&self) -> Vec<u8> {
        opening(&self.state)
    }

    /// Entries and opening.
    fn front(&self) -> Vec<u8> {
        [self.entries(), self.opening()].concat()
    }

    fn segments(&self) -> Vec<u8> {
        self.segments
            .iter()
            .flat_map(|bytes| segment(bytes))
            .collect()
    }

    /// These bytes as the table, in records of so many bytes, and then the opening and the segments.
    fn with_table(&self, bytes: &[u8], piece: usize) -> Vec<u8> {
        let entries = recording::table(bytes.chunks(piece));
        [entries, self.opening(), self.segments()].concat()
    }

    /// Another state opens.
    fn with_state(&self, state: State) -> Vec<u8> {
        [self.entries(), opening(&state), self.segments()].concat()
    }
}

struct List(Vec<Recording>);

impl List {
    fn add(&mut self, name: &str, parts: &[&[u8]], lines: &str) {
        self.0.push(Recording {
            name: name.to_string(),
            bytes: parts.concat(),
            lines: lines.to_string(),
        });
    }
}

pub fn recordings() -> Vec<Recording> {
    let mut list = List(vec![]);
    let scene = Scene::new(&A4, &B4);
    good(&scene, &mut list);
    let six = Scene::new(&A6, &B6);
    list.add("IPv6", &[&six.front(), &six.segments()], LINES);
    stopped(&scene, &mut list);
    cut(&scene, &mut list);
    bad_openings(&scene, &mut list);
    list.0
}

fn good(scene: &Scene, list: &mut List) {
    let (front, segments) = (scene.front(), scene.segments());
    list.add("as it was", &[&front, &segments], LINES);
    let leaps: Vec<u8> = scene
        .leaps
        .iter()
        .flat_map(|bytes| segment(bytes))
        .collect();
    let lines = format!("{LINES}5 0 1\n6 0 1\n");
    list.add("with leaps", &[&front, &segments, &leaps], &lines);
    list.add("no segments", &[&front], "");
    for piece in [1, 7, 103, 105, 129] {
        let bytes = scene.with_table(&table(&scene.keys), piece);
        list.add(&format!("a table in pieces of {piece}"), &[&bytes], LINES);
    }
    let nothing = entry(b"");
    list.add("an empty entry", &[&nothing, &front, &segments], LINES);
    // The longest entry, and the longest segment, whose options go on behind what is used.
    let longest = Entry::between(&A6, &B6).mac_length(16).bytes();
    assert_eq!(longest.len(), recording::ENTRY_ROOM);
    list.add(
        "the longest entry",
        &[&entry(&longest), &front, &segments],
        LINES,
    );
    for length in [0, 1, 19] {
        let short = segment(&scene.segments[0][..length]);
        let name = format!("a segment of {length} bytes");
        list.add(
            &name,
            &[&front, &short, &segments],
            &renumbered("0 20 0\n", LINES),
        );
    }
    let long = [&scene.segments[0][..], &[0; recording::SEGMENT_ROOM]].concat();
    let long = segment(&long[..recording::SEGMENT_ROOM]);
    list.add(
        "the longest segment",
        &[&front, &long, &segments],
        &renumbered("0 40 0\n", LINES),
    );
}

/// Lines behind another one, with their own indices.
fn renumbered(first: &str, lines: &str) -> String {
    let numbers = lines.lines().map(|line| line.split_once(' ').unwrap().1);
    let behind = (1..)
        .zip(numbers)
        .map(|(index, rest)| format!("{index} {rest}\n"));
    first.to_string() + &behind.collect::<String>()
}

/// 38: unknown and misplaced records, lengths that are too large, early ends.
fn stopped(scene: &Scene, list: &mut List) {
    let (entries, opening) = (scene.entries(), scene.opening());
    let (front, segments) = (scene.front(), scene.segments());
    let one = segment(&scene.segments[0]);
    let more = entry(&scene.keys[0].bytes());
    let behind = |record: &[u8]| [&front, &one, record, &segments].concat();
    for kind in [0, 4, 33, 255] {
        let mut record = one.clone();
        record[0] = kind;
        let name = format!("a record of kind {kind}");
        list.add(&name, &[&behind(&record)], "0 0 0\n38 5\n");
        list.add(&name, &[&[kind], &front, &segments], "38 0\n");
    }
    list.add(
        "an entry behind the opening",
        &[&behind(&more)],
        "0 0 0\n38 5\n",
    );
    list.add("a second opening", &[&behind(&opening)], "0 0 0\n38 5\n");
    list.add("two openings", &[&front, &opening, &segments], "38 4\n");
    list.add("a segment first", &[&one, &front, &segments], "38 0\n");
    list.add(
        "a segment before the opening",
        &[&entries, &one, &opening, &segments],
        "38 3\n",
    );
    let long = |used: u16| {
        let mut record = one.clone();
        record[1..3].copy_from_slice(&used.to_be_bytes());
        record
    };
    for used in [1_599, 1_600, 0x8000, 0xffff] {
        let name = format!("a used length of {used}");
        list.add(&name, &[&behind(&long(used))], "0 0 0\n38 5\n");
    }
    for length in [130, 131, 255] {
        let mut record = more.clone();
        record[1] = length;
        let name = format!("an entry length of {length}");
        list.add(&name, &[&entries, &record, &opening, &segments], "38 3\n");
    }
    list.add("empty", &[], "38 0\n");
    list.add("no opening", &[&entries], "38 3\n");
    // A table that is bad, and no opening at which it would be judged.
    list.add("no opening, a bad table", &[&entry(&[9; 5])], "38 1\n");
}

/// The recording cut everywhere within its records.
fn cut(scene: &Scene, list: &mut List) {
    let (front, segments) = (scene.front(), scene.segments());
    let all = [front.clone(), segments].concat();
    let [entry, opening, segment] = recording::RECORDS;
    for at in [1, 2, 105, entry - 1] {
        list.add(&format!("cut at {at}"), &[&all[..at]], "38 0\n");
        let second = entry + at;
        list.add(&format!("cut at {second}"), &[&all[..second]], "38 1\n");
    }
    for at in [1, 2, 16, opening - 1] {
        let at = 3 * entry + at;
        list.add(&format!("cut at {at}"), &[&all[..at]], "38 3\n");
    }
    for at in [1, 2, 3, 60, segment - 1] {
        let at = front.len() + segment + at;
        list.add(&format!("cut at {at}"), &[&all[..at]], "0 0 0\n38 5\n");
    }
    let whole = front.len() + 2 * segment;
    list.add("two segments", &[&all[..whole]], "0 0 0\n1 0 1\n");
}

/// 18, 10 to 17 and 35, at the opening record.
fn bad_openings(scene: &Scene, list: &mut List) {
    for family in [0, 5, 7, 255] {
        let state = State {
            family,
            ..scene.state
        };
        list.add(
            &format!("family {family}"),
            &[&scene.with_state(state)],
            "18\n",
        );
    }
    let first = scene.keys[0].bytes();
    let with = |at: usize, byte: u8| {
        let mut bytes = table(&scene.keys);
        bytes[at] = byte;
        bytes
    };
    let clash = table(&[scene.keys[0].clone(), scene.keys[0].clone()]);
    let bad = [
        (10, first[..103].to_vec()),
        (11, with(104, 9)),
        (13, with(2, 9)),
        (14, with(9, 255)),
        (15, with(17, 33)),
        (16, with(23, 81)),
        (17, clash),
    ];
    for (number, bytes) in &bad {
        let name = format!("a table with {number}");
        list.add(
            &name,
            &[&scene.with_table(bytes, 129)],
            &format!("{number}\n"),
        );
    }
    // 18 comes first; the number is the opening's, not the table's record's.
    let mut family = scene.with_table(&bad[1].1, 129);
    let opening = family.len() - 5 * recording::RECORDS[2] - recording::RECORDS[1];
    family[opening + 1] = 7;
    list.add("family and table", &[&family], "18\n");
    let misplaced = [&entry(&[9])[..], &segment(b"")].concat();
    list.add(
        "a bad table, and a segment before the opening",
        &[&misplaced],
        "38 1\n",
    );
    // 64 entries of the longest kind and one more; or another number among them.
    let many: Vec<Entry> = (0..65)
        .map(|i| Entry::between(&A6, &B6).mac_length(16).ids(i, i))
        .collect();
    for count in [64, 65] {
        let bytes = table(&many[..count]);
        let number = if count == 64 { "35\n" } else { "12\n" };
        list.add(
            &format!("{count} entries"),
            &[&scene.with_table(&bytes, 129)],
            number,
        );
    }
    let mut begun = table(&many[..64]);
    begun.push(0);
    list.add(
        "64 entries and a byte",
        &[&scene.with_table(&begun, 129)],
        "12\n",
    );
    let mut early = table(&many).repeat(3);
    early[63 * 129 + 2] = 0;
    list.add(
        "195 entries, the 64th bad",
        &[&scene.with_table(&early, 100)],
        "13\n",
    );
    // 35, for either ID: of no entry, of an entry for another pair, of the other kind.
    let ids = |send_id, ask_id| State {
        outgoing_send_id: send_id,
        asked_recv_id: ask_id,
        ..scene.state
    };
    for (send_id, ask_id, line) in [
        (3, 2, LINES),
        (1, 4, LINES),
        (9, 2, "35\n"),
        (1, 9, "35\n"),
        (5, 2, "35\n"),
        (1, 6, "35\n"),
        (2, 2, "35\n"),
        (1, 1, "35\n"),
    ] {
        let name = format!("SendID {send_id}, RecvID {ask_id}");
        list.add(&name, &[&scene.with_state(ids(send_id, ask_id))], line);
    }
    list.add("no table", &[&scene.opening(), &scene.segments()], "35\n");
    let elsewhere = Entry {
        local: Side::host(&A4).ports(1, 2),
        ..scene.keys[0].clone()
    };
    list.add(
        "other ports",
        &[&scene.with_table(&elsewhere.bytes(), 60)],
        "35\n",
    );
}
