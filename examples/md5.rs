//! A server whose peers sign by TCP-AO, but for an old one that signs only by TCP MD5 (RFC 2385): both
//! ends of the old one's connection.

use embankery::{Connection, Entry, KeyTable, Md5Entry, Md5Table, Tables, UnknownKeyId, Verdict};
use std::error::Error;

const SERVER: ([u8; 4], u16) = ([10, 0, 0, 1], 179);
const OLD: ([u8; 4], u16) = ([10, 1, 0, 7], 40_000);
const SYN: u8 = 2;
const ACK: u8 = 16;

/// A segment as a small TCP would hand it down: no options, checksum zero.
fn segment(from: u16, to: u16, number: u32, flags: u8, data: &[u8]) -> Vec<u8> {
    let mut segment = [from.to_be_bytes(), to.to_be_bytes()].concat();
    segment.extend(number.to_be_bytes());
    segment.extend([0, 0, 0, 0, 0x50, flags, 0xFF, 0xFF, 0, 0, 0, 0]);
    segment.extend(data);
    segment
}

fn main() -> Result<(), Box<dyn Error>> {
    // The server: a table for each way. No pair may have an entry in both.
    let md5_entry = |peer| Md5Entry::ipv4().remote(peer, 32).key(b"old key").build();
    let ao_entry = |peers| Entry::ipv4().remote(peers, 16).key(b"key").build();
    let keys = KeyTable::new([&ao_entry([10, 0, 0, 0])?])?;
    let md5 = Md5Table::new([&md5_entry(OLD.0)?])?;
    let tables = Tables::new(&keys, &md5)?;

    // The old peer opens by its MD5 table, and the server by the one that has an entry for the SYN.
    let table = Md5Table::new([&md5_entry(SERVER.0)?])?;
    let mut old = Connection::open_active_md5(&table, OLD, SERVER, 1_000)?;
    let syn = old.sign(&table, &segment(OLD.1, SERVER.1, 1_000, SYN, b""))?;
    let unknown = UnknownKeyId::Drop;
    let mut server = Connection::open_passive(tables, OLD.0, SERVER.0, &syn, 2_000, unknown)?
        .ok_or("the SYN was only passed")?;
    println!("opened: {:?}", server.way());
    let syn_ack = server.sign(tables, &segment(SERVER.1, OLD.1, 2_000, SYN | ACK, b""))?;
    let verdict = old.judge(&table, SERVER.0, OLD.0, &syn_ack);
    assert_eq!(verdict, Verdict::Accept { extension: 0 });

    let signed = old.sign(&table, &segment(OLD.1, SERVER.1, 1_001, ACK, b"level 3"))?;
    println!("signed: {} bytes, option kind {}", signed.len(), signed[20]);
    println!(
        "as signed: {}",
        server.judge(tables, OLD.0, SERVER.0, &signed)
    );
    Ok(())
}
