//! Both ends of one connection in one program: A signs a segment, B accepts it, and drops a
//! damaged copy.

use embankery::{Connection, Entry, KeyTable, Refusal, UnknownKeyId, Verdict};
use std::error::Error;

const A: ([u8; 4], u16) = ([10, 0, 0, 1], 40_000);
const B: ([u8; 4], u16) = ([10, 0, 0, 2], 179);
const SYN: u8 = 2;
const ACK: u8 = 16;
const ACCEPTED: Verdict = Verdict::Accept { extension: 0 };

/// A key table with one entry, for one peer. The two ends' IDs are exchanged, the key is the same.
fn table(local: [u8; 4], remote: [u8; 4], send_id: u8, recv_id: u8) -> Result<KeyTable, Refusal> {
    let entry = Entry::ipv4()
        .local(local, 32)
        .remote(remote, 32)
        .send_id(send_id)
        .recv_id(recv_id)
        .key(b"our master key")
        .build()?;
    KeyTable::new([&entry])
}

/// A segment as a small TCP would hand it down: no options, checksum zero.
fn segment(from: u16, to: u16, number: u32, flags: u8, data: &[u8]) -> Vec<u8> {
    let mut segment = [from.to_be_bytes(), to.to_be_bytes()].concat();
    segment.extend(number.to_be_bytes());
    segment.extend([0, 0, 0, 0, 0x50, flags, 0xFF, 0xFF, 0, 0, 0, 0]);
    segment.extend(data);
    segment
}

fn main() -> Result<(), Box<dyn Error>> {
    let (table_a, table_b) = (table(A.0, B.0, 1, 2)?, table(B.0, A.0, 2, 1)?);

    // A's SYN opens B's end, B's SYN+ACK opens A's.
    let mut a = Connection::open_active(&table_a, A, B, 1_000, 1)?;
    let syn = a.sign(&table_a, &segment(A.1, B.1, 1_000, SYN, b""))?;
    let mut b = Connection::open_passive(&table_b, A.0, B.0, &syn, 2_000, UnknownKeyId::Drop)?
        .ok_or("the SYN was only passed")?;
    let syn_ack = b.sign(&table_b, &segment(B.1, A.1, 2_000, SYN | ACK, b""))?;
    assert_eq!(a.judge(&table_a, B.0, A.0, &syn_ack), ACCEPTED);

    let signed = a.sign(&table_a, &segment(A.1, B.1, 1_001, ACK, b"hello"))?;
    println!("signed: {} bytes", signed.len());

    let verdict = b.judge(&table_b, A.0, B.0, &signed);
    println!("as signed: {verdict}");
    assert_eq!(verdict, ACCEPTED);

    let mut damaged = signed;
    damaged[36] ^= 1; // the first byte of the data
    let verdict = b.judge(&table_b, A.0, B.0, &damaged);
    println!("damaged: {verdict}");
    assert_eq!(verdict, Verdict::Drop(Refusal::Checksum));
    Ok(())
}
