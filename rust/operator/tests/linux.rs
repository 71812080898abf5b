//! Twenty connections between two sockets of Linux 6.12, with its own TCP-AO and TCP MD5, at the desk.

mod common;

use common::*;
use kit::capture::{Form, Wrap};
use operator::desk::Choice;
use operator::{Direction, Side};

/// Every segment is accepted, at both ends, whichever end's tables are given.
#[test]
fn every_segment_is_accepted() {
    assert_eq!(names().len(), 20);
    for name in names() {
        let file = bytes(&format!("{name}.pcap"));
        let at_client = client(&name);
        let at_server = at_client.mirrored().unwrap();
        for (endpoint, ours) in [(&at_client, Side::Client), (&at_server, Side::Server)] {
            let (lines, report) = at_desk(&file, endpoint, Choice::default()).unwrap();
            assert!(report.is_good(), "{name}: {report:?}");
            assert_eq!(lines.len() as u64, report.walked.packets, "{name}");
            assert!(lines.iter().all(|line| line.number() == Some(0)), "{name}");
            assert_eq!(report.judged.len(), 1);
            let opening = &report.judged[0].0;
            assert_eq!(opening.ours, ours, "{name}");
            let arrives = |direction| {
                lines
                    .iter()
                    .filter(|line| line.direction == direction)
                    .count()
            };
            assert!(arrives(Direction::In) > 3 && arrives(Direction::Out) > 3);
        }
    }
}

/// Where the extension was another than 0 Linux said so; the desk finds it by itself.
#[test]
fn extensions() {
    let name = "sha1-isnfffffffe-v4";
    let (lines, _) = at_desk(
        &bytes(&format!("{name}.pcap")),
        &client(name),
        Choice::default(),
    )
    .unwrap();
    let extension = |line: &Judged| match line.fate {
        operator::desk::Fate::Judged(embankery::Verdict::Accept { extension }) => extension,
        _ => panic!("{line:?}"),
    };
    let out: Vec<u32> = lines
        .iter()
        .filter(|line| line.direction == Direction::Out)
        .map(extension)
        .collect();
    assert_eq!(out[0], 0);
    assert_eq!(out[out.len() - 1], 1);
    assert!(out.is_sorted());
}

/// The same packets in every form of capture, and on every link, get the same.
#[test]
fn every_form_and_link() {
    for name in [
        "mixed-v4",
        "cmac-urgent-v6",
        "beyond-md5-v4",
        "beyond-md5-reset-v6",
    ] {
        let packets = packets(&bytes(&format!("{name}.pcap")));
        let endpoint = client(name);
        for form in Form::ALL {
            for wrap in Wrap::ALL {
                let file = captured(&packets, form, wrap);
                let numbers = numbers(&file, &endpoint);
                assert_eq!(
                    numbers,
                    vec![Some(0); packets.len()],
                    "{name} {form:?} {wrap:?}"
                );
            }
        }
    }
}

/// All of them in one capture: each connection by itself, with all keys in two tables.
#[test]
fn all_in_one_capture() {
    let captures: Vec<Vec<Vec<u8>>> = names()
        .iter()
        .map(|name| packets(&bytes(&format!("{name}.pcap"))))
        .collect();
    let longest = captures.iter().map(Vec::len).max().unwrap();
    // A packet of each in turn.
    let mixed: Vec<Vec<u8>> = (0..longest)
        .flat_map(|i| {
            captures
                .iter()
                .filter_map(move |packets| packets.get(i).cloned())
        })
        .collect();
    let file = plain(&mixed);
    for (number, name) in (1..).zip(names()) {
        let choice = Choice {
            connection: Some(number),
            ..Choice::default()
        };
        let (lines, report) = at_desk(&file, &client(&name), choice).unwrap();
        assert_eq!(lines.len(), captures[number - 1].len(), "{name}");
        assert!(lines.iter().all(|line| line.number() == Some(0)), "{name}");
        assert_eq!(report.found.len(), 20);
    }
}
