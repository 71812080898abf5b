//! The desk's lines are those of the program `desk` on the recording that it wrote.
//!
//! The program is Rattle's, proved; `make` puts it into target/bin. Where it is not there, nothing is compared, and
//! the test says so; in the gate, which makes it before the tests, that is a failure.

mod common;

use common::*;
use embankery::Verdict;
use kit::program::{desk, printed};
use operator::desk::{Choice, Fate};
use operator::tables::Endpoint;
use operator::Direction;

/// The desk's lines of one direction, as document 02 has them: index, number, extension.
fn lines(file: &[u8], endpoint: &Endpoint, choice: Choice, direction: Direction) -> String {
    let (lines, _) = at_desk(file, endpoint, choice).unwrap();
    let mut text = String::new();
    for line in lines.iter().filter(|line| line.direction == direction) {
        let Some(index) = line.index else { continue };
        let extension = match line.fate {
            Fate::Judged(Verdict::Accept { extension }) => extension,
            _ => 0,
        };
        text.push_str(&format!("{index} {} {extension}\n", line.number().unwrap()));
    }
    text
}

/// Both directions of a capture's connection, by the desk and by the program.
fn compare(file: &[u8], endpoint: &Endpoint, choice: Choice) -> usize {
    let mut compared = 0;
    for direction in [Direction::In, Direction::Out] {
        let expected = lines(file, endpoint, choice, direction);
        let (recording, recorded) = recording(file, endpoint, choice, direction).unwrap();
        assert_eq!(recorded.segments, expected.lines().count() as u64);
        if let Some(program) = desk() {
            assert_eq!(printed(&program, &recording, 1 << 16), expected);
            compared += 1;
        }
    }
    compared
}

#[test]
fn the_program_says_the_same() {
    let mut compared = 0;
    for name in names().iter().filter(|name| !is_md5(name)) {
        let file = bytes(&format!("{name}.pcap"));
        let at_client = client(name);
        compared += compare(&file, &at_client, Choice::default());
        compared += compare(&file, &at_client.mirrored().unwrap(), Choice::default());
    }
    // Damaged, forged, reordered and repeated segments.
    let mut line = Line::open([0xFFFF_FF00, 0xFFFF_FFFE]);
    for i in 0..20 {
        line.sends(0, 1 + 100 * i, &[7; 100])
            .sends(1, 1 + 50 * i, &[8; 50]);
    }
    line.packets[2..].reverse();
    for (i, packet) in line.packets.iter_mut().enumerate().skip(2).step_by(3) {
        packet[40 + i % 30] ^= 1;
    }
    for set_checksums in [false, true] {
        let choice = Choice {
            set_checksums,
            ..Choice::default()
        };
        compared += compare(&plain(&line.packets), &line.endpoint(), choice);
    }
    match compared {
        0 => println!("target/bin/desk is not there: nothing was compared with it"),
        _ => println!("{compared} recordings compared with the program desk"),
    }
}
