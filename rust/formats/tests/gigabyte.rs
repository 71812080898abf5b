//! A capture of a gigabyte is read in bounded memory. It is made while it is read, and it is the only test of this
//! file, so that the process's memory is the reading's.

use formats::capture::{walk, Event};
use formats::connections::Finder;
use kit::capture::{most_memory, packet, Endless, Form, Wrap};
use kit::segment::{ACK, SYN};
use kit::Segment;
use std::ops::ControlFlow;

const GIGABYTE: u64 = 1 << 30;
/// How much more memory the reading may take than there was before.
const ALLOWED: u64 = 8 << 20;

fn frame(from: [u8; 4], to: [u8; 4], flags: u8, data: usize) -> Vec<u8> {
    let segment = Segment {
        flags,
        acknowledgment: 1,
        data: vec![7; data],
        ..Segment::default()
    };
    Wrap::Ethernet.frame(&packet(&from, &to, &segment.bytes()))
}

#[test]
fn a_gigabyte() {
    for form in [Form::ALL[0], Form::ALL[4]] {
        let (a, b) = ([10, 0, 0, 1], [10, 0, 0, 2]);
        let opening = [frame(a, b, SYN, 0), frame(b, a, SYN | ACK, 0)];
        let opening = form.file(1, opening.iter().map(Vec::as_slice));
        let data = form.packet(5, &frame(a, b, ACK, 1_400)).repeat(100);
        let file = Endless::new(opening, data, GIGABYTE);
        let packets = 2 + 100 * file.times;
        let before = most_memory();
        let mut finder = Finder::default();
        let walked = walk(file, |event| {
            if let Event::Segment(seen) = event {
                finder.take(seen);
            }
            ControlFlow::Continue(())
        });
        let walked = walked.unwrap();
        assert_eq!((walked.packets, walked.fault.is_none()), (packets, true));
        assert_eq!(finder.found().len(), 1);
        assert!(finder.found()[0].has_opening());
        let taken = most_memory().saturating_sub(before);
        assert!(taken < ALLOWED, "{form:?} took {taken} bytes more");
    }
}
