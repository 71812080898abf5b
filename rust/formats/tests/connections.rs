//! Which connections a capture has, and the segments that opened them.

use formats::capture::ip::Whole;
use formats::capture::tcp::Header;
use formats::capture::Seen;
use formats::connections::{Finder, Found, MOST_BYTES};
use kit::segment::{ACK, SYN};
use kit::Segment;
use std::net::SocketAddr;

fn end(text: &str) -> SocketAddr {
    text.parse().unwrap()
}

/// A finder, and the number of the packet that it gets next.
#[derive(Default)]
struct Trial {
    finder: Finder,
    number: u64,
}

impl Trial {
    fn gets(&mut self, from: &str, to: &str, flags: u8, sequence: u32, acknowledgment: u32) {
        let (source, destination) = (end(from), end(to));
        let segment = Segment {
            source_port: source.port(),
            destination_port: destination.port(),
            sequence,
            acknowledgment,
            flags,
            ..Segment::default()
        };
        self.gets_bytes(source, destination, &segment.bytes(), Whole::Yes);
    }

    fn gets_bytes(
        &mut self,
        source: SocketAddr,
        destination: SocketAddr,
        segment: &[u8],
        whole: Whole,
    ) {
        self.number += 1;
        self.finder.take(Seen {
            number: self.number,
            time: None,
            source,
            destination,
            segment,
            whole,
            header: Header::of(segment),
        });
    }

    fn found(&self) -> &[Found] {
        self.finder.found()
    }
}

const A: &str = "10.0.0.1:40000";
const B: &str = "10.0.0.2:179";

/// The packets that opened it.
fn opened_by(found: &Found) -> (Vec<u64>, Vec<u64>) {
    let numbers = |kept: &[formats::connections::Kept]| kept.iter().map(|one| one.number).collect();
    (numbers(&found.syns), numbers(&found.answers))
}

#[test]
fn an_opening() {
    let mut trial = Trial::default();
    trial.gets(A, B, SYN, 100, 0);
    trial.gets(B, A, SYN | ACK, 900, 101);
    trial.gets(A, B, ACK, 101, 901);
    trial.gets(B, A, ACK, 901, 101);
    let found = &trial.found()[0];
    assert_eq!(trial.found().len(), 1);
    assert_eq!((found.client, found.server), (end(A), end(B)));
    assert_eq!((found.first, found.segments, found.isn), (1, 4, Some(100)));
    assert_eq!(opened_by(found), (vec![1], vec![2]));
    assert_eq!(found.answers[0].sequence(), 900);
}

/// A SYN that is sent again is kept once; others with the same ISN are kept beside it, and so are SYN+ACKs with another.
#[test]
fn sent_again_or_forged() {
    let mut trial = Trial::default();
    for _ in 0..3 {
        trial.gets(A, B, SYN, 100, 0);
    }
    trial.gets(A, B, SYN, 100, 1);
    trial.gets(B, A, SYN | ACK, 7, 101);
    trial.gets(B, A, SYN | ACK, 900, 101);
    trial.gets(B, A, SYN | ACK, 900, 101);
    assert_eq!(trial.found().len(), 1);
    assert_eq!(opened_by(&trial.found()[0]), (vec![1, 4], vec![5, 6]));
    assert_eq!(trial.found()[0].segments, 7);
}

/// The SYN+ACK may stand before the SYN.
#[test]
fn out_of_order() {
    let mut trial = Trial::default();
    trial.gets(B, A, SYN | ACK, 900, 0);
    trial.gets(A, B, SYN, u32::MAX, 0);
    assert_eq!(trial.found().len(), 1);
    assert_eq!(opened_by(&trial.found()[0]), (vec![2], vec![1]));
    assert!(trial.found()[0].has_opening());
}

/// A pair that is used again is another connection; a SYN that nobody answers takes no segments from one that is open.
#[test]
fn a_pair_used_again() {
    let mut trial = Trial::default();
    trial.gets(A, B, SYN, 100, 0);
    trial.gets(B, A, SYN | ACK, 900, 101);
    trial.gets(A, B, SYN, 555, 0);
    trial.gets(A, B, ACK, 101, 901);
    trial.gets(A, B, SYN, 7_000, 0);
    trial.gets(B, A, SYN | ACK, 70, 7_001);
    trial.gets(A, B, ACK, 7_001, 71);
    let segments: Vec<u64> = trial.found().iter().map(|found| found.segments).collect();
    assert_eq!(segments, [3, 1, 3]);
    let opened: Vec<bool> = trial.found().iter().map(Found::has_opening).collect();
    assert_eq!(opened, [true, false, true]);
}

#[test]
fn no_opening() {
    let mut trial = Trial::default();
    trial.gets(B, A, ACK, 5, 6);
    trial.gets(A, B, ACK, 6, 5);
    trial.gets("[fd00::1]:1", "[fd00::2]:2", SYN | ACK, 6, 5);
    trial.gets_bytes(end(A), end(B), &[0; 12], Whole::Yes);
    let syn = Segment::default().flags(SYN).bytes();
    trial.gets_bytes(end("1.1.1.1:1"), end(B), &syn, Whole::Cut(60));
    let found = trial.found();
    assert_eq!(found.len(), 3);
    assert_eq!(
        (found[0].client, found[0].segments, found[0].isn),
        (end(B), 3, None)
    );
    assert_eq!(opened_by(&found[1]), (vec![], vec![3]));
    assert_eq!(found[1].client, end("[fd00::2]:2"));
    // A SYN of which only the front is there is not kept.
    assert_eq!(
        (opened_by(&found[2]), found[2].isn),
        ((vec![], vec![]), Some(0))
    );
}

/// However many connections begin, what is kept has a limit; the others are counted.
#[test]
fn many_connections() {
    let mut trial = Trial::default();
    let most = MOST_BYTES as u64 / 512;
    for i in 0..most as u32 + 1_000 {
        trial.gets(A, B, SYN, i, 0);
    }
    let kept = trial.found().len() as u64;
    assert!(kept < most && kept > most / 2, "{kept}");
    assert_eq!(trial.finder.left_out(), most + 1_000 - kept);
}
