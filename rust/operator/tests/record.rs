//! Which connection is recorded, which entries stand in the recording, and what is left out.

mod common;

use common::*;
use embankery::{Entry, KeyTable};
use formats::recording::SEGMENT_ROOM;
use kit::capture::{Form, Wrap};
use operator::desk::Choice;
use operator::{Direction, Stop};

const IN: Direction = Direction::In;
const OUT: Direction = Direction::Out;

fn refused(
    file: &[u8],
    endpoint: &operator::tables::Endpoint,
    choice: Choice,
    status: u8,
    words: &str,
) {
    match recording(file, endpoint, choice, IN) {
        Ok(_) => panic!("recorded"),
        Err(Stop {
            status: given,
            words: said,
            ..
        }) => assert!(given == status && said.contains(words), "{given} {said}"),
    }
}

fn connection(number: usize) -> Choice {
    Choice {
        connection: Some(number),
        ..Choice::default()
    }
}

#[test]
fn one_of_several() {
    let mut first = Line::open(ISNS);
    first.sends(1, 1, b"a").sends(1, 2, b"b").sends(0, 1, b"c");
    let mut second = Line::open([7_000, 8_000]);
    second.sends(1, 1, b"a");
    let file = plain(&[first.packets.clone(), second.packets].concat());
    let endpoint = first.endpoint();
    refused(
        &file,
        &endpoint,
        Choice::default(),
        2,
        "choose one with --connection",
    );
    for (number, direction, segments) in [(1, IN, 2), (1, OUT, 1), (2, IN, 1), (2, OUT, 0)] {
        let (bytes, recorded) = recording(&file, &endpoint, connection(number), direction).unwrap();
        assert_eq!((recorded.segments, recorded.left_out), (segments, 0));
        assert_eq!(bytes.len() as u64, 131 + 48 + segments * 1_601);
    }
}

#[test]
fn none_that_can_be() {
    let mut line = Line::open(ISNS);
    line.sends(1, 1, b"a");
    let (whole, endpoint) = (plain(&line.packets), line.endpoint());
    let cut = plain(&line.packets[1..]);
    refused(
        &cut,
        &endpoint,
        Choice::default(),
        1,
        "has both its SYN and an entry",
    );
    refused(
        &cut,
        &endpoint,
        connection(1),
        1,
        "connection 1 has no opening in the capture",
    );
    refused(
        &cut,
        &endpoint,
        connection(2),
        2,
        "there is no connection 2",
    );
    let other = common::endpoint(&tables(b"another key")[0]);
    let words = "connection 1 was not opened at 10.0.0.1:40000: packet 2 was dropped with 29";
    refused(&whole, &other, Choice::default(), 1, words);
    let nobody = Entry::ipv4().remote([192, 0, 2, 1], 32).key(b"key").build();
    let nobody = KeyTable::new([&nobody.unwrap()]).unwrap();
    let nobody = common::endpoint(&nobody);
    refused(
        &whole,
        &nobody,
        connection(1),
        1,
        "connection 1: no entry matches it",
    );
}

/// Keys of other connections do not stand in the recording.
#[test]
fn only_entries_that_match() {
    let [keys, _] = tables(b"the key");
    let other = |last: u8| {
        Entry::ipv4()
            .remote([192, 0, 2, last], 32)
            .key(b"another's key")
    };
    let others: Vec<Entry> = (0..40).map(|last| other(last).build().unwrap()).collect();
    let (before, behind) = others.split_at(20);
    let bytes = |entries: &[Entry]| -> Vec<u8> {
        entries
            .iter()
            .flat_map(|entry| entry.as_bytes().to_vec())
            .collect()
    };
    let all = [bytes(before), keys.as_bytes().to_vec(), bytes(behind)].concat();
    let all = KeyTable::from_bytes(all).unwrap();
    let mut line = Line::open(ISNS);
    line.sends(1, 1, b"a");
    let file = plain(&line.packets);
    for direction in [IN, OUT] {
        let (few, _) = recording(&file, &line.endpoint(), Choice::default(), direction).unwrap();
        let (of_all, _) = recording(&file, &endpoint(&all), Choice::default(), direction).unwrap();
        assert_eq!(few, of_all);
    }
}

/// A recording has at most 64 entries (document 02, Ticket 8), though more may match the connection.
#[test]
fn at_most_sixty_four_entries() {
    let table = |count: u8, local: [u8; 4], remote: [u8; 4]| {
        let entry = |id: u8| {
            let sides = Entry::ipv4().local(local, 32).remote(remote, 32);
            let entry = sides.send_id(id).recv_id(id).key(b"the key");
            entry.build().unwrap()
        };
        let entries: Vec<Entry> = (0..count).map(entry).collect();
        KeyTable::new(&entries).unwrap()
    };
    for count in [1, 64, 65, 255] {
        let ends = [(CLIENT.0, SERVER.0), (SERVER.0, CLIENT.0)];
        let tables = ends.map(|(local, remote)| table(count, local, remote));
        let mut line = Line::open_with(tables, ISNS, 0);
        line.sends(1, 1, b"a");
        let (file, endpoint) = (plain(&line.packets), line.endpoint());
        if count <= 64 {
            let (bytes, recorded) = recording(&file, &endpoint, Choice::default(), IN).unwrap();
            assert_eq!(recorded.segments, 1);
            assert_eq!(bytes.len(), 131 * usize::from(count) + 48 + 1_601);
        } else {
            let words =
                format!("connection 1: {count} entries match it, and a recording may have 64");
            refused(&file, &endpoint, Choice::default(), 1, &words);
        }
        // The desk judges it all the same.
        assert_eq!(numbers(&file, &endpoint), [Some(0); 3]);
    }
}

/// Segments that are longer than a record, or that the capture has not whole, are left out and counted.
#[test]
fn left_out() {
    let mut line = Line::open(ISNS);
    // With TCP-AO the header has 36 bytes.
    line.sends(1, 1, &[7; SEGMENT_ROOM - 36])
        .sends(1, 2_000, &[7; SEGMENT_ROOM - 35])
        .sends(1, 4_000, &[7; 100]);
    line.packets[4].truncate(80);
    let file = captured(&line.packets, Form::ALL[0], Wrap::Raw);
    let (_, recorded) = recording(&file, &line.endpoint(), Choice::default(), IN).unwrap();
    assert_eq!((recorded.segments, recorded.left_out), (1, 2));
    let (lines, _) = at_desk(&file, &line.endpoint(), Choice::default()).unwrap();
    let seen: Vec<_> = lines
        .iter()
        .map(|line| (line.number(), line.index))
        .collect();
    assert_eq!(
        seen[2..],
        [(Some(0), Some(0)), (Some(0), None), (None, None)]
    );
}
