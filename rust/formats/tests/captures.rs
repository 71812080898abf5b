//! Captures in every form, whole, cut and damaged.

use formats::capture::ip::{content, Content, Datagram, Whole};
use formats::capture::{walk, Capture, Event, Fault, Walked};
use kit::capture::{packet, Form, Wrap};
use kit::Bytes;
use std::net::IpAddr;
use std::ops::ControlFlow;

const A4: [u8; 4] = [10, 9, 0, 1];
const B4: [u8; 4] = [10, 9, 0, 2];
const A6: [u8; 16] = [0xFD; 16];
const B6: [u8; 16] = [0xFC; 16];

fn segments() -> Vec<Vec<u8>> {
    let lengths = [20, 24, 60, 1_480];
    let numbered = (1..).zip(lengths);
    numbered
        .map(|(seed, length)| Bytes(seed).take(length))
        .collect()
}

fn packets() -> Vec<Vec<u8>> {
    let of = |segment: &Vec<u8>| [packet(&A4, &B4, segment), packet(&B6, &A6, segment)];
    segments().iter().flat_map(of).collect()
}

/// A segment's ends, its bytes and its time.
type Segment = (IpAddr, IpAddr, Vec<u8>, String);

/// What a reading gives: each segment, and what was said of the whole.
fn read(file: &[u8]) -> (Vec<Segment>, Result<Walked, Fault>) {
    let mut seen = Vec::new();
    let walked = walk(file, |event| {
        if let Event::Segment(one) = event {
            assert_eq!(one.whole, Whole::Yes);
            let time = one.time.map_or(String::new(), |time| time.to_string());
            let (source, destination) = (one.source.ip(), one.destination.ip());
            seen.push((source, destination, one.segment.to_vec(), time));
        }
        ControlFlow::Continue(())
    });
    (seen, walked)
}

#[test]
fn every_form_and_link() {
    for form in Form::ALL {
        for wrap in Wrap::ALL {
            let frames: Vec<Vec<u8>> = packets().iter().map(|one| wrap.frame(one)).collect();
            let file = form.file(wrap.link(), frames.iter().map(Vec::as_slice));
            let (seen, walked) = read(&file);
            let walked = walked.unwrap();
            assert!(
                walked.fault.is_none(),
                "{form:?} {wrap:?} {:?}",
                walked.fault
            );
            assert_eq!((walked.packets, walked.unknown), (8, 0));
            assert_eq!(
                walked.first.unwrap().to_string(),
                "1970-01-01 00:00:01.000000 UTC"
            );
            for (i, segment) in segments().iter().enumerate() {
                let second = |i: usize| format!("1970-01-01 00:00:{:02}.000000 UTC", i + 1);
                let ipv4 = (A4.into(), B4.into(), segment.clone(), second(2 * i));
                let ipv6 = (B6.into(), A6.into(), segment.clone(), second(2 * i + 1));
                assert_eq!(seen[2 * i..2 * i + 2], [ipv4, ipv6], "{form:?} {wrap:?}");
            }
        }
    }
}

/// A capture that is cut anywhere is read up to there; its head must be whole.
#[test]
fn cut_anywhere() {
    for form in Form::ALL {
        let frames: Vec<Vec<u8>> = packets()
            .iter()
            .take(3)
            .map(|one| Wrap::Ethernet.frame(one))
            .collect();
        let file = form.file(1, frames.iter().map(Vec::as_slice));
        let mut whole = vec![form.head(1).len()];
        for frame in &frames {
            whole.push(whole[whole.len() - 1] + form.packet(0, frame).len());
        }
        let head = match form {
            Form::Pcap { .. } => whole[0],
            Form::Pcapng { .. } => form.block(0, &[0; 16]).len(),
        };
        for length in 0..file.len() {
            let (seen, walked) = read(&file[..length]);
            match walked {
                Err(Fault::NoCapture(_)) => assert!(length < 4),
                Err(Fault::Damaged { .. }) => {
                    assert!((4..head).contains(&length), "{form:?} {length}")
                }
                Err(other) => panic!("{other:?}"),
                Ok(walked) => {
                    let packets = whole[1..].iter().filter(|end| **end <= length).count();
                    assert_eq!(seen.len(), packets);
                    let clean = whole.contains(&length) || length == head;
                    assert_eq!(walked.fault.is_none(), clean, "{form:?} {length}");
                }
            }
        }
    }
}

/// Whatever stands in the file, reading ends, in an answer.
#[test]
fn damaged_anywhere() {
    for form in Form::ALL {
        let frames: Vec<Vec<u8>> = packets()
            .iter()
            .take(4)
            .map(|one| Wrap::Tagged.frame(one))
            .collect();
        let file = form.file(1, frames.iter().map(Vec::as_slice));
        for at in 0..file.len().min(600) {
            for change in [1, 0x80, 0xFF] {
                let mut damaged = file.clone();
                damaged[at] ^= change;
                let _ = read_any(&damaged);
            }
        }
    }
    let mut bytes = Bytes(7);
    for length in 0..300 {
        let _ = read_any(&bytes.take(length));
    }
}

fn read_any(file: &[u8]) -> Result<Walked, Fault> {
    walk(file, |_| ControlFlow::Continue(()))
}

#[test]
fn no_captures() {
    let words = |bytes: &[u8]| match Capture::open(bytes) {
        Ok(_) => panic!("a capture"),
        Err(fault) => fault.to_string(),
    };
    assert_eq!(words(b""), "this is no capture: it is empty");
    assert!(words(b"hello, world").contains("neither pcap nor pcapng"));
    assert!(words(&[0x1F, 0x8B, 8, 0]).contains("gzip"));
    assert!(words(&[0x28, 0xB5, 0x2F, 0xFD]).contains("zstd"));
    assert!(words(&[4, 1, 1, 1]).contains("key table"));
    let mut old = Form::ALL[0].head(1);
    old[4] = 1;
    assert!(words(&old).contains("version"));
}

#[test]
fn lengths_that_cannot_be() {
    let form = Form::ALL[0];
    let mut file = form.file(1, []);
    file.extend([0; 8]);
    file.extend(form.u32(300_000));
    file.extend(form.u32(300_000));
    file.resize(400_000, 0);
    let fault = read_any(&file).unwrap().fault.unwrap().to_string();
    assert_eq!(
        fault,
        "the capture is damaged at byte 32: a packet of 300000 bytes; 262144 is the most"
    );
    let form = Form::ALL[4];
    for length in [0, 4, 11, 13, 15, u32::MAX] {
        let mut file = form.file(1, []);
        file.extend(form.u32(6));
        file.extend(form.u32(length));
        file.resize(file.len() + 64, 0);
        assert!(read_any(&file).unwrap().fault.is_some(), "{length}");
    }
    let mut file = form.file(1, [&[0; 60][..]]);
    let end = file.len();
    file[end - 1] ^= 1;
    assert!(read_any(&file)
        .unwrap()
        .fault
        .unwrap()
        .to_string()
        .contains("behind it"));
    let unnamed = [form.file(1, []), form.block(6, &[9; 40])].concat();
    assert!(read_any(&unnamed)
        .unwrap()
        .fault
        .unwrap()
        .to_string()
        .contains("interface"));
}

/// What pcapng has and pcap has not: other sections in the other byte order, blocks that are read over, several
/// interfaces, other units of time, and two more kinds of packets.
#[test]
fn blocks_of_pcapng() {
    let (little, big) = (Form::Pcapng { big: false }, Form::Pcapng { big: true });
    let frame = Wrap::Ethernet.frame(&packet(&A4, &B4, &[1; 20]));
    let raw = packet(&A4, &B4, &[2; 20]);
    let stamped = |form: Form, interface: u32, ticks: u64, frame: &[u8]| {
        let mut body = form.u32(interface).to_vec();
        body.extend(form.u32((ticks >> 32) as u32));
        body.extend(form.u32(ticks as u32));
        body.extend(form.u32(frame.len() as u32));
        body.extend(form.u32(frame.len() as u32));
        body.extend(frame);
        body.resize(body.len().next_multiple_of(4), 0);
        body.extend([1, 0, 4, 0, 9, 9, 9, 9]); // a comment
        form.block(6, &body)
    };
    let offset = 5_u64.to_be_bytes();
    let powers = big.interface(101, &[(2, b"eth0"), (9, &[0x80 | 10]), (14, &offset)]);
    let nanos = little.interface(1, &[(9, &[9])]);
    let simple = [&big.u32(frame.len() as u32)[..], &frame].concat();
    let mut old = little.u32(0x0000_0001).to_vec(); // interface 1, no packet lost
    old.extend(little.u32(0));
    old.extend(little.u32(3_000_000_000));
    old.extend(little.u32(frame.len() as u32));
    old.extend(little.u32(frame.len() as u32));
    old.extend(&frame);
    let file = [
        little.head(1),
        little.block(5, &[7; 100]),
        nanos,
        stamped(little, 1, 2_000_000_000, &frame),
        little.block(2, &old),
        big.head(1),
        powers,
        stamped(big, 1, 7 << 10, &raw),
        big.block(3, &simple),
        big.block(0x0BAD, &[]),
    ]
    .concat();
    let (seen, walked) = read(&file);
    let walked = walked.unwrap();
    assert!(walked.fault.is_none(), "{:?}", walked.fault);
    let times: Vec<&str> = seen.iter().map(|(_, _, _, time)| time.as_str()).collect();
    let at = |second: u32| format!("1970-01-01 00:00:{second:02}.000000 UTC");
    assert_eq!(times, [at(2).as_str(), &at(3), &at(12), ""]);
    let links: Vec<&str> = walked.links.into_iter().collect();
    assert_eq!(links, ["Ethernet", "raw IP"]);
    let (_, walked) = read(&Form::ALL[4].file(147, [&frame[..]]));
    assert_eq!(walked.unwrap().unknown, 1);
}

fn tcp(packet: &[u8]) -> Datagram<'_> {
    match content(packet) {
        Content::Tcp(datagram) => datagram,
        other => panic!("{other:?}"),
    }
}

#[test]
fn ipv4() {
    let segment = Bytes(3).take(40);
    let plain = packet(&A4, &B4, &segment);
    let padded = [&plain[..], &[0xEE; 6]].concat();
    let mut options = [&plain[..20], &[1; 8], &segment].concat();
    (options[0], options[3]) = (0x47, 68);
    for packet in [&plain, &padded, &options] {
        let datagram = tcp(packet);
        assert_eq!(
            (datagram.segment, datagram.whole),
            (&segment[..], Whole::Yes)
        );
    }
    for length in 20..plain.len() {
        let datagram = tcp(&plain[..length]);
        let there = &segment[..length - 20];
        assert_eq!((datagram.segment, datagram.whole), (there, Whole::Cut(40)));
    }
    for length in 0..20 {
        assert!(matches!(content(&plain[..length]), Content::Unclear(_)));
    }
    let changed = |at: usize, value: u8| {
        let mut packet = plain.clone();
        packet[at] = value;
        packet
    };
    assert_eq!(tcp(&changed(6, 0x20)).whole, Whole::FirstFragment);
    assert_eq!(tcp(&changed(7, 5)).whole, Whole::LaterFragment);
    assert_eq!(content(&changed(9, 17)), Content::Other);
    let unclear = [(0, 0x44), (0, 0x55), (3, 0), (3, 19)];
    for (at, value) in unclear {
        assert!(
            matches!(content(&changed(at, value)), Content::Unclear(_)),
            "{at}"
        );
    }
}

#[test]
fn ipv6() {
    let segment = Bytes(4).take(40);
    let plain = packet(&A6, &B6, &segment);
    // An extension header: the next one's kind, its own length, and its body.
    let behind = |first: u8, headers: &[&[u8]]| {
        let headers = headers.concat();
        let mut packet = [&plain[..40], &headers, &segment].concat();
        packet[5] = (headers.len() + 40) as u8;
        packet[6] = first;
        packet
    };
    let hop = [60, 1, 5, 12, 0, 0, 0, 0, 0, 0, 0, 0, 0, 0, 0, 0];
    let options = [51, 0, 1, 4, 0, 0, 0, 0];
    let authentication = [43, 1, 0, 0, 0, 0, 0, 0, 0, 0, 0, 0];
    let routing = [44, 0, 4, 0, 0, 0, 0, 0];
    let atomic = [6, 0, 0, 0, 0, 0, 0, 1];
    let all: [&[u8]; 5] = [&hop, &options, &authentication, &routing, &atomic];
    let packet = behind(0, &all);
    let datagram = tcp(&packet);
    assert_eq!(
        (datagram.segment, datagram.whole),
        (&segment[..], Whole::Yes)
    );
    assert_eq!(
        (datagram.source, datagram.destination),
        (A6.into(), B6.into())
    );
    for length in 0..packet.len() {
        match content(&packet[..length]) {
            Content::Tcp(datagram) => assert_eq!(datagram.whole, Whole::Cut(40)),
            Content::Unclear(_) => {}
            Content::Other => panic!("{length}"),
        }
    }
    let first = behind(44, &[&[6, 0, 0, 1, 0, 0, 0, 1]]);
    assert_eq!(tcp(&first).whole, Whole::FirstFragment);
    let later = behind(44, &[&[6, 0, 1, 0, 0, 0, 0, 1]]);
    assert_eq!(tcp(&later).whole, Whole::LaterFragment);
    let further = behind(43, &[&[6, 0, 4, 1, 0, 0, 0, 0]]);
    assert!(matches!(content(&further), Content::Unclear(_)));
    assert_eq!(content(&behind(17, &[])), Content::Other);
    assert_eq!(content(&behind(58, &[])), Content::Other);
    let mut jumbo = plain.clone();
    (jumbo[4], jumbo[5]) = (0, 0);
    assert!(matches!(content(&jumbo), Content::Unclear(_)));
}
