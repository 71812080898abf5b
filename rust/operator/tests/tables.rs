//! Tables from text and from bytes, and what is wrong with them in words.

mod common;

use formats::text::{Keys, Kind};
use kit::{Entry, Side};
use operator::tables::{checked, Endpoint, File};
use operator::Stop;

/// The tables of these two files, each text or bytes.
fn both(keys: &[u8], md5: &[u8]) -> Result<Endpoint, Stop> {
    let keys = File::of("keys.txt", keys.to_vec(), Kind::Keys)?;
    let md5 = File::of("md5.txt", md5.to_vec(), Kind::Md5)?;
    checked(&keys, &md5)
}

fn of(keys: &[u8]) -> Result<Endpoint, Stop> {
    both(keys, b"")
}

fn words(keys: &[u8]) -> String {
    let stop = of(keys).unwrap_err();
    assert_eq!(stop.status, 1);
    stop.words
}

/// Entries of every kind that can stand in one table.
fn every_kind() -> Vec<Entry> {
    let mut entries = Vec::new();
    let mut id = 0;
    for bytes in [4, 16] {
        for algorithm in 1..=3 {
            for flags in 0..8 {
                let local = Side::any(bytes)
                    .prefix(&vec![0; bytes], id % 3)
                    .ports(u16::from(id), 60_000);
                entries.push(
                    Entry {
                        flags,
                        algorithm,
                        local,
                        remote: Side::host(&vec![id; bytes]),
                        mac_length: (id % 2 == 0).then_some(4 + id % 13),
                        key: vec![id; usize::from(id % 80) + 1],
                        ..Entry::default()
                    }
                    .ids(id, 255 - id),
                );
                id += 1;
            }
        }
    }
    entries
}

fn md5_entry(remote: Side) -> Entry {
    Entry {
        flags: 0,
        algorithm: 19,
        local: Side::any(remote.address.len()),
        remote,
        key: b"old key".to_vec(),
        ..Entry::default()
    }
    .ids(0, 0)
}

/// Bytes to text to bytes, and text to bytes to text.
#[test]
fn round_trips() {
    let keys: Vec<u8> = every_kind().iter().flat_map(Entry::bytes).collect();
    let hosts = [
        Side::host(&[192, 0, 2, 1]).ports(7, 7),
        Side::host(&[9; 16]),
    ];
    let md5: Vec<u8> = hosts
        .into_iter()
        .flat_map(|host| md5_entry(host).bytes())
        .collect();
    let endpoint = both(&keys, &md5).unwrap();
    assert_eq!((endpoint.keys().len(), endpoint.md5().len()), (48, 2));
    for (keys, md5) in [(&keys[..], &b""[..]), (b"", &md5)] {
        let endpoint = both(keys, md5).unwrap();
        let text = endpoint.text(Keys::Shown);
        let again = match md5.is_empty() {
            true => both(text.as_bytes(), b"").unwrap(),
            false => both(b"", text.as_bytes()).unwrap(),
        };
        assert_eq!(again.keys().as_bytes(), keys);
        assert_eq!(again.md5().as_bytes(), md5);
        assert_eq!(again.text(Keys::Shown), text);
        assert_eq!(
            again.text(Keys::Hidden).matches("not shown").count(),
            text.matches("hex").count()
        );
        assert!(!again.text(Keys::Hidden).contains("hex"));
    }
    assert_eq!(of(b"").unwrap().text(Keys::Shown), "");
}

/// The mirror of a table is a table, whose mirror is the first.
#[test]
fn mirrors() {
    let keys: Vec<u8> = every_kind().iter().flat_map(Entry::bytes).collect();
    let endpoint = of(&keys).unwrap();
    let mirrored = endpoint.mirrored().unwrap();
    assert_ne!(mirrored.keys().as_bytes(), keys);
    assert_eq!(mirrored.mirrored().unwrap().keys().as_bytes(), keys);
}

/// A text with a second entry that is changed in one place.
fn changed(old: &str, new: &str) -> String {
    let entry = |name: &str, last: u8, id: u8| {
        format!(
            "entry {name}\n  local 10.0.0.1\n  remote 10.0.7.{last}\n  send-id {id}\n  recv-id {id}\n  \
             algorithm hmac-sha-1\n  mac-length 16\n  local-ports 1-2\n  key hex 00ff\n"
        )
    };
    let second = entry("second", 2, 2);
    assert!(second.contains(old));
    entry("first", 1, 1) + &second.replacen(old, new, 1)
}

/// Entries that do not clash.
fn numbered(i: usize) -> Vec<u8> {
    let remote = Side::host(&[10, 0, (i / 256) as u8, (i % 256) as u8]);
    Entry {
        remote,
        ..Entry::default()
    }
    .bytes()
}

/// How many entries a table may have (document 02, Ticket 8).
const MOST_ENTRIES: usize = 1_024;

/// Every refusal of a table's entry, from text: the line, the entry, the number and its meaning.
#[test]
fn every_refusal_from_text() {
    of(changed("", "").as_bytes()).unwrap();
    let long_key = format!("key hex {}", "00".repeat(81));
    let cases = [
        ("mac-length 16", "mac-length 17", 13),
        ("mac-length 16", "mac-length 3", 13),
        ("mac-length 16", "mac-length 999", 13),
        ("local-ports 1-2", "local-ports 2-1", 14),
        ("remote 10.0.7.2", "remote 10.0.7.2/24", 15),
        ("remote 10.0.7.2", "remote 10.0.7.2/33", 15),
        ("remote 10.0.7.2", "remote 10.0.7.2/999", 15),
        ("key hex 00ff", "key hex", 16),
        ("key hex 00ff", &long_key, 16),
        (
            "remote 10.0.7.2\n  send-id 2",
            "remote 10.0.7.1\n  send-id 1",
            17,
        ),
        (
            "remote 10.0.7.2\n  send-id 2\n  recv-id 2",
            "remote 10.0.7.1\n  send-id 2\n  recv-id 1",
            17,
        ),
    ];
    for (old, new, number) in cases {
        let said = words(changed(old, new).as_bytes());
        let place = format!("keys.txt, line 10, entry 1 (second): {number}: ");
        assert!(said.starts_with(&place), "{new}: {said}");
        let meaning = embankery::Refusal::meaning_of(number).unwrap();
        assert!(said.contains(meaning), "{said}");
    }
    let most = MOST_ENTRIES;
    let many: String = (0..=most)
        .map(|i| {
            let (high, low) = (i / 256, i % 256);
            let sides = format!("local 10.0.0.1\nremote 10.0.{high}.{low}");
            format!("entry\n{sides}\nsend-id 1\nrecv-id 1\nalgorithm hmac-sha-1\nkey hex 01\n")
        })
        .collect();
    let said = words(many.as_bytes());
    let place = format!("keys.txt, line {}, entry {most}: 12: ", 7 * most + 1);
    assert!(said.starts_with(&place), "{said}");
    // The first refusal counts: what is wrong behind it is not said.
    let worse = many + "entry\nlocal 1.1.1.1/0\nremote 1.1.1.1\nsend-id 1\nrecv-id 1\nalgorithm hmac-sha-1\nkey hex\n";
    assert_eq!(words(worse.as_bytes()), said);
}

/// Every refusal from bytes, with the byte where the entry begins.
#[test]
fn every_refusal_from_bytes() {
    let good = Entry::default().ids(1, 1);
    let with = |change: &dyn Fn(&mut Vec<u8>)| {
        let mut second = Entry::default().ids(2, 2).bytes();
        change(&mut second);
        [good.bytes(), second].concat()
    };
    type Change = Box<dyn Fn(&mut Vec<u8>)>;
    let set =
        |at: usize, value: u8| -> Change { Box::new(move |entry: &mut Vec<u8>| entry[at] = value) };
    let cases: [(u8, Change); 9] = [
        (10, Box::new(|entry| entry.truncate(103))),
        (11, set(0, 8)),
        (13, set(1, 8)),
        (13, set(2, 4)),
        (14, set(5, 255)),
        (15, set(17, 33)),
        (16, set(23, 0)),
        (16, set(103, 1)),
        (17, set(3, 1)),
    ];
    for (number, change) in cases {
        let table = match number {
            14 => with(&|entry| {
                entry[5] = 255;
                entry[7..9].fill(0);
            }),
            _ => with(&change),
        };
        let said = words(&table);
        let place = format!("keys.txt, byte 104, entry 1: {number}: ");
        assert!(said.starts_with(&place), "{number}: {said}");
    }
    let most = MOST_ENTRIES;
    let many: Vec<u8> = (0..=most).flat_map(numbered).collect();
    let full = of(&many[..104 * most]).unwrap();
    assert_eq!(full.keys().len(), most);
    let place = format!("keys.txt, byte {}, entry {most}: 12: ", 104 * most);
    assert!(words(&many).starts_with(&place));
    assert!(words(&good.bytes()[..50]).starts_with("keys.txt, byte 0, entry 0: 10: "));
}

#[test]
fn the_md5_table() {
    let peer = |last: u8| md5_entry(Side::host(&[10, 1, 0, last]));
    let said = |md5: &[u8]| both(b"", md5).unwrap_err().words;
    let keys = Entry::default().bytes();
    assert!(said(&keys).starts_with("md5.txt, byte 0, entry 0: 13: "));
    let longer = Entry {
        mac_length: Some(12),
        ..peer(1)
    };
    assert!(said(&longer.bytes()).starts_with("md5.txt, byte 0, entry 0: 11: "));
    let clash = [peer(1).bytes(), peer(2).bytes(), peer(1).bytes()].concat();
    let expected = "\
md5.txt, byte 208, entry 2: 17: a socket pair exists that this entry and an earlier one both match, \
and they share SendID or RecvID
    md5.txt, byte 0, entry 0: local 0.0.0.0/0, remote 10.1.0.1/32, algorithm tcp-md5
    md5.txt, byte 208, entry 2: local 0.0.0.0/0, remote 10.1.0.1/32, algorithm tcp-md5
    both match local 0.0.0.0:0, remote 10.1.0.1:0";
    assert_eq!(said(&clash), expected);
    assert!(words(&peer(1).bytes()).starts_with("keys.txt, byte 0, entry 0: 13: "));
}

/// Both tables full: 1,024 entries each, and one more of either.
#[test]
fn two_full_tables() {
    let keys: Vec<u8> = (0..=MOST_ENTRIES).flat_map(numbered).collect();
    let peer = |i: usize| md5_entry(Side::host(&[172, 16, (i / 256) as u8, (i % 256) as u8]));
    let md5: Vec<u8> = (0..=MOST_ENTRIES).flat_map(|i| peer(i).bytes()).collect();
    let (full_keys, full_md5) = (&keys[..104 * MOST_ENTRIES], &md5[..104 * MOST_ENTRIES]);
    let endpoint = both(full_keys, full_md5).unwrap();
    let lengths = |endpoint: &Endpoint| (endpoint.keys().len(), endpoint.md5().len());
    assert_eq!(lengths(&endpoint), (MOST_ENTRIES, MOST_ENTRIES));
    let mirrored = endpoint.mirrored().unwrap();
    assert_eq!(lengths(&mirrored), (MOST_ENTRIES, MOST_ENTRIES));
    let again = mirrored.mirrored().unwrap();
    assert_eq!(again.keys().as_bytes(), full_keys);
    assert_eq!(again.md5().as_bytes(), full_md5);
    let text = both(full_keys, b"").unwrap().text(Keys::Shown);
    assert_eq!(of(text.as_bytes()).unwrap().keys().as_bytes(), full_keys);

    let said = |keys: &[u8], md5: &[u8]| both(keys, md5).unwrap_err().words;
    let place = |file: &str| {
        format!(
            "{file}, byte {}, entry {MOST_ENTRIES}: 12: ",
            104 * MOST_ENTRIES
        )
    };
    assert!(said(&keys, full_md5).starts_with(&place("keys.txt")));
    assert!(said(full_keys, &md5).starts_with(&place("md5.txt")));
    // 45 at the last entry of each.
    let last = [
        &md5[..104 * (MOST_ENTRIES - 1)],
        &md5_entry(Side::host(&[10, 0, 3, 255])).bytes(),
    ];
    let words = said(full_keys, &last.concat());
    assert!(words.starts_with(&format!("md5.txt, byte {}, entry 1023: 45: ", 104 * 1_023)));
    assert!(
        words.contains("keys.txt, byte 106392, entry 1023: "),
        "{words}"
    );
}

/// Of a clash, both entries and a pair that both match.
#[test]
fn clashes_in_words() {
    let text = "\
entry all
    local 10.0.0.0/8
    local-ports 100-200
    remote 0.0.0.0/0
    send-id 1
    recv-id 2
    algorithm hmac-sha-1
    key hex 01
entry elsewhere
    local 172.16.0.0/12
    remote 0.0.0.0/0
    send-id 3
    recv-id 2
    algorithm hmac-sha-1
    key hex 01
entry one
    local 10.1.0.0/16
    local-ports 150-300
    remote 10.2.0.7
    remote-ports 179
    send-id 3
    recv-id 2
    algorithm aes-128-cmac
    key hex 02
";
    let expected = "\
keys.txt, line 16, entry 2 (one): 17: a socket pair exists that this entry and an earlier one both match, \
and they share SendID or RecvID
    keys.txt, line 1, entry 0 (all): local 10.0.0.0/8, local-ports 100-200, remote 0.0.0.0/0, send-id 1, recv-id 2, \
algorithm hmac-sha-1
    keys.txt, line 16, entry 2 (one): local 10.1.0.0/16, local-ports 150-300, remote 10.2.0.7/32, \
remote-ports 179, send-id 3, recv-id 2, algorithm aes-128-cmac
    both match local 10.1.0.0:150, remote 10.2.0.7:179, and share RecvID 2";
    assert_eq!(words(text.as_bytes()), expected);
    let apart = text.replace("150-300", "201-300");
    assert_eq!(of(apart.as_bytes()).unwrap().keys().len(), 3);
}

/// 45: the MD5 entry and the key entry, and a pair that both match.
#[test]
fn two_ways_in_words() {
    let keys = "entry new\nlocal 10.0.0.1\nremote 10.1.0.0/16\nsend-id 1\nrecv-id 1\nalgorithm hmac-sha-1\nkey hex 01\n";
    let md5 = "\
entry far
local 10.0.0.1
remote 10.2.0.1
algorithm tcp-md5
key hex 01
entry old
local 10.0.0.1
local-ports 179
remote 10.1.0.1
algorithm tcp-md5
key hex 01
";
    let said = both(keys.as_bytes(), md5.as_bytes()).unwrap_err().words;
    let expected = "\
md5.txt, line 6, entry 1 (old): 45: a socket pair exists that this entry of the MD5 table and one of the key table both match
    keys.txt, line 1, entry 0 (new): local 10.0.0.1/32, remote 10.1.0.0/16, send-id 1, recv-id 1, algorithm hmac-sha-1
    md5.txt, line 6, entry 1 (old): local 10.0.0.1/32, local-ports 179, remote 10.1.0.1/32, algorithm tcp-md5
    both match local 10.0.0.1:179, remote 10.1.0.1:0";
    assert_eq!(said, expected);
}
