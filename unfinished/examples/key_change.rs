//! A key change in both directions, while late, damaged and forged segments arrive: who signs under which
//! key, step by step. While both ends have both keys no true segment is dropped, and what a late one brings
//! back the next one changes again.

use embankery::{Connection, Entry, KeyTable, Refusal, UnknownKeyId, Verdict};
use std::error::Error;

const A: ([u8; 4], u16) = ([10, 0, 0, 1], 40_000);
const B: ([u8; 4], u16) = ([10, 0, 0, 2], 179);
const SYN: u8 = 2;
const ACK: u8 = 16;
const ACCEPTED: Verdict = Verdict::Accept { extension: 0 };
const FORGED: Verdict = Verdict::Drop(Refusal::MacDiffers);
const DAMAGED: Verdict = Verdict::Drop(Refusal::Checksum);
const UNKNOWN: Verdict = Verdict::Drop(Refusal::UnknownKeyId);

/// The KeyIDs of keys 1 and 2 in what A signs, and in what B signs.
const FROM_A: [u8; 2] = [1, 3];
const FROM_B: [u8; 2] = [2, 4];

/// One end's table: these keys, of which the IDs are exchanged at the other end.
fn table(keys: &[usize], send: [u8; 2], recv: [u8; 2]) -> Result<KeyTable, Refusal> {
    let entry = |&key: &usize| {
        Entry::ipv4()
            .send_id(send[key - 1])
            .recv_id(recv[key - 1])
            .key(["the old key", "the new key"][key - 1])
            .build()
    };
    let entries: Vec<Entry> = keys.iter().map(entry).collect::<Result<_, _>>()?;
    KeyTable::new(&entries)
}

/// A segment as a small TCP would hand it down: no options, checksum zero.
fn segment(from: u16, to: u16, number: u32, flags: u8) -> Vec<u8> {
    let mut segment = [from.to_be_bytes(), to.to_be_bytes()].concat();
    segment.extend(number.to_be_bytes());
    segment.extend([0, 0, 0, 0, 0x50, flags, 0xFF, 0xFF, 0, 0, 0, 0]);
    segment.extend(b"level");
    segment
}

/// One end, with its table, the KeyIDs of what it signs and of what its peer signs, and its next number.
struct End {
    here: ([u8; 4], u16),
    peer: ([u8; 4], u16),
    send: [u8; 2],
    recv: [u8; 2],
    table: KeyTable,
    connection: Connection,
    number: u32,
}

impl End {
    /// The key that it signs under.
    fn key(&self) -> usize {
        if self.connection.send_id() == self.send[0] {
            1
        } else {
            2
        }
    }
}

/// Both ends of an open connection, and how many steps were printed.
struct Line {
    a: End,
    b: End,
    steps: usize,
}

impl Line {
    /// A's SYN opens B's end, B's SYN+ACK opens A's, both under key 1.
    fn open() -> Result<Line, Box<dyn Error>> {
        let table_a = table(&[1, 2], FROM_A, FROM_B)?;
        let table_b = table(&[1, 2], FROM_B, FROM_A)?;
        let mut a = Connection::open_active(&table_a, A, B, 1_000, FROM_A[0])?;
        let syn = a.sign(&table_a, &segment(A.1, B.1, 1_000, SYN))?;
        let mut b = Connection::open_passive(&table_b, A.0, B.0, &syn, 2_000, UnknownKeyId::Drop)?
            .ok_or("the SYN was only passed")?;
        let syn_ack = b.sign(&table_b, &segment(B.1, A.1, 2_000, SYN | ACK))?;
        assert_eq!(a.judge(&table_a, B.0, A.0, &syn_ack), ACCEPTED);
        let a = End {
            here: A,
            peer: B,
            send: FROM_A,
            recv: FROM_B,
            table: table_a,
            connection: a,
            number: 1_001,
        };
        let b = End {
            here: B,
            peer: A,
            send: FROM_B,
            recv: FROM_A,
            table: table_b,
            connection: b,
            number: 2_001,
        };
        Ok(Line { a, b, steps: 0 })
    }

    fn end(&mut self, name: char) -> &mut End {
        match name {
            'A' => &mut self.a,
            _ => &mut self.b,
        }
    }

    /// Prints a step, and looks that A and B now sign under these keys.
    fn row(&mut self, what: &str, ids: &str, verdict: &str, keys: (usize, usize)) {
        self.steps += 1;
        let (a, b) = (self.a.key(), self.b.key());
        println!(
            "{:>4}  {what:<28}{ids:>5}  {verdict:<9}  key {a}    key {b}",
            self.steps
        );
        assert_eq!((a, b), keys, "step {}", self.steps);
    }

    /// The operator call: the peer is to sign under this key. Nothing else changes.
    fn asks(&mut self, name: char, key: usize) -> Result<(), Refusal> {
        let keys = (self.a.key(), self.b.key());
        let end = self.end(name);
        end.connection.ask(&end.table, end.recv[key - 1])?;
        assert_eq!(end.connection.ask_id(), end.recv[key - 1]);
        self.row(&format!("{name} asks for key {key}"), "", "", keys);
        Ok(())
    }

    /// Signs the next segment, which has these IDs. No key changes.
    fn signs(&mut self, name: char, label: &str, ids: [u8; 2]) -> Result<Vec<u8>, Refusal> {
        let keys = (self.a.key(), self.b.key());
        let end = self.end(name);
        let unsigned = segment(end.here.1, end.peer.1, end.number, ACK);
        end.number += 5;
        let signed = end.connection.sign(&end.table, &unsigned)?;
        assert_eq!(signed[22..24], ids);
        self.row(&format!("{name} signs {label}"), &shown(&signed), "", keys);
        Ok(signed)
    }

    /// Judges an arrival, which gets this verdict; then A and B sign under these keys.
    fn judges(
        &mut self,
        name: char,
        label: &str,
        segment: &[u8],
        expected: Verdict,
        keys: (usize, usize),
    ) {
        let end = self.end(name);
        let verdict = end
            .connection
            .judge(&end.table, end.peer.0, end.here.0, segment);
        assert_eq!(verdict, expected);
        let word = match verdict {
            Verdict::Drop(refusal) => format!("drop {}", refusal.number()),
            _ => "accepted".to_string(),
        };
        let what = format!("{name} judges {label}");
        self.row(&what, &shown(segment), &word, keys);
    }

    /// Takes key 1 out of one end's table, which neither signs under it nor asks for it.
    fn removes(&mut self, name: char) -> Result<(), Refusal> {
        let keys = (self.a.key(), self.b.key());
        let end = self.end(name);
        assert_ne!(end.connection.send_id(), end.send[0]);
        assert_ne!(end.connection.ask_id(), end.recv[0]);
        end.table = table(&[2], end.send, end.recv)?;
        self.row(&format!("{name} takes key 1 away"), "", "", keys);
        Ok(())
    }
}

/// The KeyID and the RNextKeyID of a signed segment without other options.
fn shown(signed: &[u8]) -> String {
    format!("{} {}", signed[22], signed[23])
}

/// Two words of the MAC exchanged: the checksum stays right.
fn forged(signed: &[u8]) -> Vec<u8> {
    let mut forged = signed.to_vec();
    forged[24..28].rotate_left(2);
    forged
}

fn damaged(signed: &[u8]) -> Vec<u8> {
    let mut damaged = signed.to_vec();
    damaged[36] ^= 1;
    damaged
}

fn main() -> Result<(), Box<dyn Error>> {
    let mut line = Line::open()?;
    println!("Key 1: KeyID 1 from A, 2 from B. Key 2: KeyID 3 from A, 4 from B. ids: KeyID and RNextKeyID.");
    println!("step  what                          ids  verdict    A signs  B signs");

    // Signed before either asks; both come late.
    let a1 = line.signs('A', "a1", [1, 2])?;
    let b1 = line.signs('B', "b1", [2, 1])?;

    // Each direction is by itself, and the segments that ask may come in any order.
    line.asks('A', 2)?;
    line.asks('B', 2)?;
    let a2 = line.signs('A', "a2", [1, 4])?;
    let a3 = line.signs('A', "a3", [1, 4])?;
    line.judges('B', "a3", &a3, ACCEPTED, (1, 2));
    line.judges('B', "a2, forged", &forged(&a2), FORGED, (1, 2));
    line.judges('B', "a2", &a2, ACCEPTED, (1, 2));
    let b2 = line.signs('B', "b2", [4, 3])?;
    line.judges('A', "b2, damaged", &damaged(&b2), DAMAGED, (1, 2));
    line.judges('A', "b2", &b2, ACCEPTED, (2, 2));

    // A late segment brings the old key back; what is then signed under it is accepted.
    line.judges('B', "a1, late", &a1, ACCEPTED, (2, 1));
    let b3 = line.signs('B', "b3", [2, 3])?;
    line.judges('A', "b3", &b3, ACCEPTED, (2, 1));
    line.judges('A', "b1, late", &b1, ACCEPTED, (1, 1));
    let a4 = line.signs('A', "a4", [1, 4])?;

    // The next segment of each end that has asked brings the new one again.
    line.judges('B', "a4", &a4, ACCEPTED, (1, 2));
    let b4 = line.signs('B', "b4", [4, 3])?;
    line.judges('A', "b4", &b4, ACCEPTED, (2, 2));

    // The old entry goes, at one end and then at the other. What is later still changes nothing.
    line.removes('B')?;
    line.judges('B', "a1, later still", &a1, UNKNOWN, (2, 2));
    let a5 = line.signs('A', "a5", [3, 4])?;
    line.judges('B', "a5", &a5, ACCEPTED, (2, 2));
    line.removes('A')?;
    let b5 = line.signs('B', "b5", [4, 3])?;
    line.judges('A', "b5", &b5, ACCEPTED, (2, 2));
    Ok(())
}
