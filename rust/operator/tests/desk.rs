//! The desk on captures of our own making: damaged, cut, reordered and forged packets, openings that are not there,
//! and connections beside each other.

mod common;

use common::*;
use embankery::{Entry, KeyTable};
use kit::capture::{packet, Form, Wrap};
use kit::segment::{summed, ACK, SYN};
use operator::desk::{Choice, Fate};
use operator::{Direction, Side};

/// The opening, then six segments of the client and two of the server.
fn line() -> Line {
    let mut line = Line::open(ISNS);
    for i in 0..6 {
        line.sends(0, 1 + 100 * i, &[i as u8; 100]);
    }
    line.sends(1, 1, b"answer").sends(1, 7, b"again");
    line
}

fn all_accepted(line: &Line) -> Vec<Option<u8>> {
    vec![Some(0); line.packets.len()]
}

#[test]
fn as_sent() {
    let line = line();
    let (lines, report) =
        at_desk(&plain(&line.packets), &line.endpoint(), Choice::default()).unwrap();
    assert!(report.is_good());
    let seen: Vec<(u64, Option<u64>)> =
        lines.iter().map(|line| (line.packet, line.index)).collect();
    let expected = [
        (1, None),
        (2, None),
        (3, Some(0)),
        (4, Some(1)),
        (5, Some(2)),
        (6, Some(3)),
        (7, Some(4)),
        (8, Some(5)),
        (9, Some(0)),
        (10, Some(1)),
    ];
    assert_eq!(seen, expected);
    let [client, server] = counts(&report, 0);
    assert_eq!((client.accepted, server.accepted), (3, 7));
    assert_eq!(lines[0].direction, Direction::Out);
    assert_eq!(lines[1].direction, Direction::In);
}

/// The connection's entry is the last of 1,024 (document 02, Ticket 8): the same lines as with that entry alone.
#[test]
fn a_thousand_keys() {
    let mut line = line();
    line.packets[4][70] ^= 1;
    let file = plain(&line.packets);
    let other = |i: u16| {
        let [high, low] = i.to_be_bytes();
        Entry::ipv4().remote([192, 168, high, low], 32).key(b"key")
    };
    let others: Vec<Entry> = (0..1_023).map(|i| other(i).build().unwrap()).collect();
    let mut bytes: Vec<u8> = others.iter().flat_map(|e| e.as_bytes().to_vec()).collect();
    bytes.extend_from_slice(line.tables[0].as_bytes());
    let all = KeyTable::from_bytes(bytes).unwrap();
    assert_eq!(all.len(), 1_024);
    let lines = |endpoint: &_| at_desk(&file, endpoint, Choice::default()).unwrap().0;
    let alone = lines(&line.endpoint());
    assert_eq!(alone.len(), line.packets.len());
    assert_eq!(lines(&endpoint(&all)), alone);
}

#[test]
fn damaged() {
    let mut line = line();
    line.packets[4][70] ^= 1;
    let last = line.packets[5].len() - 1;
    line.packets[5][last] ^= 0x80;
    let mut expected = all_accepted(&line);
    (expected[4], expected[5]) = (Some(40), Some(40));
    let (lines, report) =
        at_desk(&plain(&line.packets), &line.endpoint(), Choice::default()).unwrap();
    let seen: Vec<Option<u8>> = lines.iter().map(Judged::number).collect();
    assert_eq!(seen, expected);
    assert!(!report.is_good());
    assert_eq!(counts(&report, 0)[1].dropped, [(40, 2)].into());
}

/// With their checksums set right, segments from a capture of the sender's are accepted, and damaged ones are found.
#[test]
fn checksums_not_set() {
    let mut line = line();
    for packet in &mut line.packets {
        packet[36..38].fill(0);
    }
    line.packets[4][70] ^= 1;
    let file = plain(&line.packets);
    let numbers = |set_checksums| {
        let choice = Choice {
            set_checksums,
            ..Choice::default()
        };
        let (lines, _) = at_desk(&file, &line.endpoint(), choice).unwrap();
        lines.iter().map(Judged::number).collect::<Vec<_>>()
    };
    assert!(numbers(false)
        .iter()
        .all(|number| *number == Some(40) || number.is_none()));
    let mut expected = all_accepted(&line);
    expected[4] = Some(29);
    assert_eq!(numbers(true), expected);
}

#[test]
fn forged() {
    let mut line = line();
    let forged = |packet: &[u8], at: usize| {
        let mut segment = packet[20..].to_vec();
        segment[at] ^= 1;
        sent(0, &summed(&CLIENT.0, &SERVER.0, &segment))
    };
    // The data, the MAC, the KeyID; and the number far ahead, which moves no reference.
    let forgeries: Vec<Vec<u8>> = [60, 30, 22].map(|at| forged(&line.packets[3], at)).to_vec();
    let mut far = line.packets[3][20..].to_vec();
    far[4] ^= 0x70;
    let far = sent(0, &summed(&CLIENT.0, &SERVER.0, &far));
    line.packets.splice(3..3, forgeries);
    line.packets.insert(3, far);
    let mut expected = all_accepted(&line);
    expected.splice(3..7, [Some(29), Some(29), Some(29), Some(26)]);
    assert_eq!(numbers(&plain(&line.packets), &line.endpoint()), expected);
}

/// Once open, the order decides nothing.
#[test]
fn reordered() {
    let mut line = Line::open([0xFFFF_FF00, 0xFFFF_FFFE]);
    for i in 0..8 {
        line.sends(0, 1 + 100 * i, &[7; 100]);
    }
    line.packets[2..].reverse();
    let repeated = line.packets[4].clone();
    line.packets.push(repeated);
    assert_eq!(
        numbers(&plain(&line.packets), &line.endpoint()),
        all_accepted(&line)
    );
}

/// Packets that the capture has not whole are not judged, and neither are fragments; both are said.
#[test]
fn cut_and_fragments() {
    let line = line();
    let mut packets = line.packets.clone();
    packets[3].truncate(60);
    let mut fragments = [packets[5].clone(), packets[5].clone()];
    fragments[0][6] = 0x20;
    fragments[1][7] = 9;
    packets.splice(5..6, fragments);
    packets.push(vec![0x45, 0, 0]);
    // Ethernet would fill a cut packet up again.
    let file = captured(&packets, Form::ALL[0], Wrap::Raw);
    let (lines, report) = at_desk(&file, &line.endpoint(), Choice::default()).unwrap();
    let not_judged: Vec<u64> = lines
        .iter()
        .filter(|line| matches!(line.fate, Fate::NotJudged(_)))
        .map(|line| line.packet)
        .collect();
    assert_eq!(not_judged, [4, 6]);
    let accepted = lines.iter().filter(|line| line.number() == Some(0)).count();
    assert_eq!(accepted, 8);
    assert_eq!(report.unread.values().sum::<u64>(), 2);
    assert!(!report.is_good());
}

#[test]
fn no_opening() {
    let line = line();
    for (from, judged, unopened) in [(1, 0, vec![1]), (2, 0, vec![1])] {
        let file = plain(&line.packets[from..]);
        let (lines, report) = at_desk(&file, &line.endpoint(), Choice::default()).unwrap();
        assert_eq!((lines.len(), report.unopened.clone()), (judged, unopened));
        assert!(!report.is_good());
    }
    // The SYN alone is judged; what follows cannot be.
    let mut packets = line.packets.clone();
    packets.remove(1);
    let (lines, report) = at_desk(&plain(&packets), &line.endpoint(), Choice::default()).unwrap();
    assert_eq!(lines[0].number(), Some(0));
    assert!(lines[1..7]
        .iter()
        .all(|line| matches!(line.fate, Fate::NotJudged(_))));
    // At the client the connection is still opening.
    assert!(lines[7..].iter().all(|line| line.number() == Some(24)));
    assert!(!report.is_good());
}

/// A damaged or forged SYN or SYN+ACK before the true one opens nothing.
#[test]
fn openings_that_fail_first() {
    let line = line();
    let mut packets = line.packets.clone();
    let mut damaged = packets[0].clone();
    damaged[50] ^= 1;
    let mut forged = packets[1][20..].to_vec();
    forged[7] ^= 1; // another ISN
    let forged = sent(1, &summed(&SERVER.0, &CLIENT.0, &forged));
    packets.insert(1, forged);
    packets.insert(0, damaged);
    let mut expected = vec![Some(40), Some(0), Some(29)];
    expected.extend(vec![Some(0); line.packets.len() - 1]);
    assert_eq!(numbers(&plain(&packets), &line.endpoint()), expected);
}

/// A forged SYN in the middle takes no segments from the connection, also if somebody answers it.
#[test]
fn a_syn_in_the_middle() {
    let line = line();
    let syn = |isn: u32| {
        sent(
            0,
            &summed(&CLIENT.0, &SERVER.0, &unsigned(0, isn, 0, SYN, b"")),
        )
    };
    let answer = unsigned(1, 77, 5_001, SYN | ACK, b"");
    let answer = sent(1, &summed(&SERVER.0, &CLIENT.0, &answer));
    let mut packets = line.packets.clone();
    packets.insert(4, syn(4_000));
    packets.insert(6, syn(5_000));
    packets.insert(7, answer);
    let mut expected = vec![Some(0); packets.len()];
    (expected[4], expected[6], expected[7]) = (Some(24), Some(24), Some(25));
    assert_eq!(numbers(&plain(&packets), &line.endpoint()), expected);
}

/// The pair is used again: two connections, each with its own ISNs.
#[test]
fn a_pair_used_again() {
    let (first, mut second) = (line(), Line::open([50_000, 60_000]));
    second.sends(0, 1, b"new").sends(1, 1, b"answer");
    let packets = [first.packets.clone(), second.packets.clone()].concat();
    let (lines, report) = at_desk(&plain(&packets), &first.endpoint(), Choice::default()).unwrap();
    assert!(report.is_good(), "{report:?}");
    let connections: Vec<usize> = lines.iter().map(|line| line.connection).collect();
    let expected = [vec![1; first.packets.len()], vec![2; second.packets.len()]].concat();
    assert_eq!(connections, expected);
    let choice = Choice {
        connection: Some(2),
        ..Choice::default()
    };
    let (lines, _) = at_desk(&plain(&packets), &first.endpoint(), choice).unwrap();
    let second_alone = lines.iter().filter(|line| line.number() == Some(0)).count();
    assert_eq!(second_alone, second.packets.len());
    let choice = Choice {
        connection: Some(3),
        ..Choice::default()
    };
    assert_eq!(
        at_desk(&plain(&packets), &first.endpoint(), choice)
            .unwrap_err()
            .status,
        2
    );
}

/// Tables with another key, with none for this pair, and for the other end.
#[test]
fn other_tables() {
    let line = line();
    let file = plain(&line.packets);
    let other = endpoint(&tables(b"another key")[0]);
    let (lines, report) = at_desk(&file, &other, Choice::default()).unwrap();
    assert_eq!((lines[0].number(), lines[1].number()), (Some(29), Some(29)));
    assert!(!report.is_good());
    let why: Vec<&String> = counts(&report, 0)[1].not_judged.keys().collect();
    assert_eq!(why, ["its SYN in packet 1 was dropped with 29"]);

    let nobody = embankery::Entry::ipv4()
        .remote([192, 0, 2, 1], 32)
        .key(b"key");
    let nobody = embankery::KeyTable::new([&nobody.build().unwrap()]).unwrap();
    let (lines, report) = at_desk(&file, &endpoint(&nobody), Choice::default()).unwrap();
    assert_eq!((lines.len(), report.others), (0, 1));
    assert!(!report.is_good());

    let server = endpoint(&line.tables[1]);
    let (lines, report) = at_desk(&file, &server, Choice::default()).unwrap();
    assert!(report.is_good());
    assert_eq!(lines[0].direction, Direction::In);
    for (ours, good) in [(CLIENT.0, false), (SERVER.0, true), ([9; 4], false)] {
        let choice = Choice {
            ours: Some(ours.into()),
            ..Choice::default()
        };
        let (_, report) = at_desk(&file, &server, choice).unwrap();
        assert_eq!(report.is_good(), good);
    }
}

/// A client behind address translation, captured on the server's side: its address and port are others there.
#[test]
fn translated() {
    let outside = ([203, 0, 113, 9], 61_001);
    let entry = |local: [u8; 4], remote: [u8; 4]| {
        let entry = embankery::Entry::ipv4().local(local, 32).remote(remote, 32);
        entry.key(b"the key")
    };
    let client = entry(CLIENT.0, SERVER.0)
        .send_id(1)
        .recv_id(2)
        .local_nat(true);
    let server = entry(SERVER.0, outside.0)
        .send_id(2)
        .recv_id(1)
        .remote_nat(true);
    let table = |entry: embankery::EntryBuilder| {
        embankery::KeyTable::new([&entry.build().unwrap()]).unwrap()
    };
    let (client, server) = (table(client), table(server));
    // The client's segments, with the source that the translator writes.
    let translated = |segment: &[u8]| {
        let mut segment = segment.to_vec();
        segment[0..2].copy_from_slice(&u16::to_be_bytes(outside.1));
        summed(&outside.0, &SERVER.0, &segment)
    };
    let mut connection =
        embankery::Connection::open_active(&client, CLIENT, SERVER, ISNS[0], 1).unwrap();
    let syn = connection
        .sign(&client, &unsigned(0, ISNS[0], 0, SYN, b""))
        .unwrap();
    let syn = translated(&syn);
    let drop = embankery::UnknownKeyId::Drop;
    let opened =
        embankery::Connection::open_passive(&server, outside.0, SERVER.0, &syn, ISNS[1], drop);
    let mut answer = unsigned(1, ISNS[1], ISNS[0] + 1, SYN | ACK, b"");
    answer[2..4].copy_from_slice(&u16::to_be_bytes(outside.1));
    let answer = opened.unwrap().unwrap().sign(&server, &answer).unwrap();
    let mut inside = answer.clone();
    inside[2..4].copy_from_slice(&CLIENT.1.to_be_bytes());
    let inside = summed(&SERVER.0, &CLIENT.0, &inside);
    let _ = connection.judge(&client, SERVER.0, CLIENT.0, &inside);
    let data = unsigned(0, ISNS[0] + 1, 1, ACK, b"data");
    let data = translated(&connection.sign(&client, &data).unwrap());
    let packets = [
        packet(&outside.0, &SERVER.0, &syn),
        packet(&SERVER.0, &outside.0, &answer),
        packet(&outside.0, &SERVER.0, &data),
    ];
    assert_eq!(numbers(&plain(&packets), &endpoint(&server)), [Some(0); 3]);
    // On the client's side they are as it signed them.
    let packets = [
        sent(
            0,
            &summed(
                &CLIENT.0,
                &SERVER.0,
                &[&CLIENT.1.to_be_bytes()[..], &syn[2..]].concat(),
            ),
        ),
        sent(1, &inside),
    ];
    assert_eq!(numbers(&plain(&packets), &endpoint(&client)), [Some(0); 2]);
}

/// A table that fits both ends: that is said, and `--local` decides.
#[test]
fn either_end() {
    let any = |send, recv, key: &[u8]| {
        let entry = embankery::Entry::ipv4().send_id(send).recv_id(recv);
        entry.key(key).build().unwrap()
    };
    let (same, other) = (any(1, 1, b"the key"), any(7, 9, b"another"));
    let table = embankery::KeyTable::new([&same, &other]).unwrap();
    let mut line = Line::open_with([table.clone(), table], ISNS, 1);
    line.sends(0, 1, b"data");
    let file = plain(&line.packets);
    let of = |ours: Option<[u8; 4]>| {
        let choice = Choice {
            ours: ours.map(Into::into),
            ..Choice::default()
        };
        let (_, report) = at_desk(&file, &line.endpoint(), choice).unwrap();
        assert!(report.is_good());
        (report.judged[0].0.either, report.judged[0].0.ours)
    };
    assert_eq!(of(None), (true, Side::Server));
    assert_eq!(of(Some(CLIENT.0)), (false, Side::Client));
    assert_eq!(of(Some(SERVER.0)), (false, Side::Server));
}

/// A connection without keys beside one with keys is not looked at.
#[test]
fn other_connections() {
    let line = line();
    let other = |flags, sequence, acknowledgment| {
        let mut segment = unsigned(0, sequence, acknowledgment, flags, b"");
        segment[0..2].copy_from_slice(&[0, 22]);
        packet(&[172, 16, 0, 1], &[172, 16, 0, 2], &segment)
    };
    let mut packets = line.packets.clone();
    packets.insert(0, other(SYN, 5, 0));
    packets.push(other(ACK, 6, 1));
    let (lines, report) = at_desk(&plain(&packets), &line.endpoint(), Choice::default()).unwrap();
    assert_eq!(lines.len(), line.packets.len());
    assert_eq!((report.others, report.is_good()), (1, true));
}

/// The receiver's key changes when the sender asks for another one.
#[test]
fn a_key_change() {
    let name = "mixed-v4";
    let (lines, _) = at_desk(&bytes("mixed-v4.pcap"), &client(name), Choice::default()).unwrap();
    let notes: Vec<(u64, &str)> = lines
        .iter()
        .skip(2)
        .filter(|line| !line.note.is_empty())
        .map(|line| (line.packet, line.note.as_str()))
        .collect();
    let signs = |key: u8| format!("the receiver signs under key {key} from here on");
    assert_eq!(
        notes,
        [
            (8, signs(9).as_str()),
            (10, &signs(9)),
            (17, &signs(7)),
            (18, &signs(7))
        ]
    );
}

/// What stands before the fault in a damaged file is judged, and the fault is said.
#[test]
fn a_file_cut_off() {
    let line = line();
    let file = plain(&line.packets);
    let cut = &file[..file.len() - 10];
    let (lines, report) = at_desk(cut, &line.endpoint(), Choice::default()).unwrap();
    assert_eq!(lines.len(), line.packets.len() - 1);
    assert!(report.walked.fault.is_some() && !report.is_good());
    assert_eq!(
        at_desk(b"no capture", &line.endpoint(), Choice::default())
            .unwrap_err()
            .status,
        1
    );
}

/// Whatever stands in a capture, the desk ends, in an answer; and what is changed on the way is not accepted.
#[test]
fn any_bytes() {
    let line = line();
    let file = plain(&line.packets);
    let endpoint = line.endpoint();
    let was_sent = |segment: &[u8]| line.packets.iter().any(|packet| packet[20..] == *segment);
    for at in 0..file.len() {
        let mut changed = file.clone();
        changed[at] ^= 1 << (at % 8);
        if let Ok((lines, _)) = at_desk(&changed, &endpoint, Choice::default()) {
            let mut accepted = lines.iter().filter(|line| line.number() == Some(0));
            assert!(accepted.all(|line| was_sent(&line.segment)), "byte {at}");
        }
    }
    let mut bytes = kit::Bytes(11);
    for _ in 0..500 {
        let mut changed = file.clone();
        for _ in 0..20 {
            let at = bytes.below(changed.len());
            changed[at] = bytes.byte();
        }
        let _ = at_desk(&changed, &endpoint, Choice::default());
    }
}
