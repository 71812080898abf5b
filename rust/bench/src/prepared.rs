//! Prepared tables: signing and judging 1,400 bytes with HMAC-SHA-1 where there are 64 or 1,024 entries, against one
//! entry, against a hash map's look-up in plain Rust, and against the tables' bytes; and what preparing takes.

use crate::connection::{opened, ISNS, KEY};
use crate::count;
use crate::timing::{Limit, Outcome, Table};
use bench::{Bytes, ARCHIVE};
use kit::entry::table;
use kit::segment::{summed, ACK, SYN};
use kit::{prepared, End, Entry, Pair, Segment, Side};
use std::collections::HashMap;
use std::hint::black_box;

/// A test makes each row once, whatever it takes.
const ROUNDS: usize = if cfg!(test) { 1 } else { 61 };
const BYTES: usize = 1_400;
const PORTS: [u16; 2] = [179, 50_000];
/// The server's address, and peers' of which the last two bytes differ.
const SERVER: [&[u8]; 2] = [&[10, 1, 1, 1], b"\x20\x01\x0d\xb8 IPv6 server"];
const PEERS: [&[u8]; 2] = [&[10, 2, 0, 0], b"\x20\x01\x0d\xb8 IPv6 peer\0\0"];

/// 0 IPv4, 1 IPv6.
type Family = usize;
const FAMILIES: [&str; 2] = ["IPv4", "IPv6"];

/// The address with its last two bytes by an index.
fn numbered(address: &[u8], i: usize) -> Vec<u8> {
    let before = &address[..address.len() - 2];
    [before, &(i as u16).to_be_bytes()].concat()
}

fn peer(family: Family, i: usize) -> Vec<u8> {
    numbered(PEERS[family], i)
}

/// A peer's prefix, by its index: of IPv4 a /30 in one of four /24, of IPv6 a /112, all of them in one /64.
fn prefix(family: Family, i: usize) -> Side {
    if family == 0 {
        Side::any(4).prefix(&peer(0, i % 4 * 256 + i / 4 * 4), 30)
    } else {
        let before = &PEERS[1][..12];
        let address = [before, &(i as u16).to_be_bytes(), &[0, 0]].concat();
        Side::any(16).prefix(&address, 112)
    }
}

/// A host that a side matches: where it has a prefix, not the prefix's own address.
fn host(side: &Side) -> Vec<u8> {
    let mut address = side.address.clone();
    if usize::from(side.prefix) < 8 * address.len() {
        address[side.address.len() - 1] |= 1;
    }
    address
}

/// An entry at the server for a peer, by its index.
fn entry(family: Family, i: usize) -> Entry {
    Entry {
        key: KEY.to_vec(),
        ..Entry::between(SERVER[family], &peer(family, i))
    }
}

/// The server's key table: its entries by their index. The last one is in use.
#[derive(Clone, Copy)]
struct Keys {
    name: &'static str,
    entry: fn(Family, usize) -> Entry,
}

/// Five keys for each of 205 peers.
const FEW_IDS: Keys = Keys {
    name: "peers x 5 IDs",
    entry: |family, i| entry(family, i / 5).ids(1 + (i % 5) as u8, 11 + (i % 5) as u8),
};

/// 256 IDs, which is as many as one peer can have; so 1,024 entries have four.
const DIFFERENT_IDS: Keys = Keys {
    name: "different IDs",
    entry: |family, i| entry(family, i / 256).ids(i as u8, i as u8),
};

const REMOTE_PORTS: Keys = Keys {
    name: "remote ports",
    entry: |family, i| {
        let port = PORTS[1] - 1_023 + i as u16;
        Entry {
            remote: Side::host(&peer(family, 0)).ports(port, port),
            ..entry(family, 0).ids(1, 2)
        }
    },
};

const LOCAL_PORTS: Keys = Keys {
    name: "local ports",
    entry: |family, i| {
        let port = PORTS[0] + 1_023 - i as u16;
        Entry {
            local: Side::host(SERVER[family]).ports(port, port),
            ..entry(family, 0).ids(1, 2)
        }
    },
};

const LOCAL_ADDRESSES: Keys = Keys {
    name: "local addresses",
    entry: |family, i| Entry {
        local: Side::host(&numbered(SERVER[family], i)),
        ..entry(family, 0).ids(1, 2)
    },
};

/// As `FEW_IDS`, but each peer has a prefix.
const PREFIXES: Keys = Keys {
    name: "prefixes",
    entry: |family, i| Entry {
        remote: prefix(family, i / 5),
        ..(FEW_IDS.entry)(family, i)
    },
};

impl Keys {
    /// So many entries, of which the last is the last of 1,024.
    fn entries(self, family: Family, n: usize) -> Vec<Entry> {
        let all = (1_024 - n..1_024).map(|i| (self.entry)(family, i));
        all.collect()
    }
}

/// The server with an open connection to the peer of the last entry, a segment for it to sign and one for it to
/// judge.
#[derive(Clone)]
struct Server {
    end: End,
    leaving: Vec<u8>,
    out: Vec<u8>,
    arriving: Vec<u8>,
}

impl Server {
    /// With the tables' bytes.
    fn new(entries: &[Entry]) -> Server {
        let used = &entries[entries.len() - 1];
        let pair = Pair {
            local: host(&used.local),
            remote: host(&used.remote),
            local_port: PORTS[0],
            remote_port: PORTS[1],
        };
        let server = opened(pair.clone(), entries, ISNS);
        let mut peer = opened(pair.mirror(), &[used.mirror()], [ISNS[1], ISNS[0]]);
        let data = Bytes(9).take(BYTES - 20);
        let arriving = peer.sign(ISNS[1] + 1, ACK, &data);
        let leaving = server.segment(ISNS[0] + 1, ACK, &data).bytes();
        Server {
            end: server,
            out: vec![0; leaving.len() + 16],
            leaving,
            arriving,
        }
    }

    fn prepared(&self) -> Server {
        Server {
            end: self.end.prepared(),
            ..self.clone()
        }
    }

    fn sign(&mut self) {
        let answer = self.end.sign_into(&self.leaving, &mut self.out);
        assert_eq!(answer & 255, 0);
    }

    fn judge(&mut self) {
        assert_eq!(self.end.judge(&self.arriving) & 255, 0);
    }

    /// Both must give the same before their times mean anything.
    fn compare(&mut self, other: &mut Server) {
        self.sign();
        other.sign();
        assert_eq!(self.out, other.out);
        self.judge();
        other.judge();
        assert_eq!(self.end.state, other.end.state);
    }
}

/// Where a call is timed.
type Timed = (&'static str, fn(&mut Server));
const CALLS: [Timed; 2] = [("sign", Server::sign), ("judge", Server::judge)];

fn against_one(table: &mut Table, keys: Keys, sizes: &[usize]) {
    for (family, name) in FAMILIES.iter().enumerate() {
        let mut one = Server::new(&keys.entries(family, 1)).prepared();
        for &n in sizes {
            let bytes = Server::new(&keys.entries(family, n));
            let mut many = bytes.prepared();
            many.compare(&mut bytes.clone());
            for (call, timed) in CALLS {
                table.row(
                    &format!("{call:<5} {name} {:<15} {n:>5}", keys.name),
                    true,
                    count(BYTES),
                    &mut || timed(black_box(&mut many)),
                    &mut || timed(black_box(&mut one)),
                );
            }
        }
    }
}

pub fn few_ids() -> Outcome {
    let mut table = Table::new(
        "Prepared tables, 1,400 bytes, HMAC-SHA-1: 205 peers with five keys each, against\n\
         one entry. The entry in use is the last.",
        "call, entries",
        "one entry",
        ROUNDS,
        Limit {
            rows: "1,024 prepared entries by one, peers with five keys each",
            ratio: 1.4,
            wanted: true,
        },
    );
    against_one(&mut table, FEW_IDS, &[1, 64, 1_024]);
    table.end()
}

pub fn different_ids() -> Outcome {
    let mut table = Table::new(
        "The same where the IDs differ: 256 of them, so that 1,024 entries are for four peers.",
        "call, entries",
        "one entry",
        ROUNDS,
        Limit {
            rows: "1,024 prepared entries by one, different IDs",
            ratio: 2.0,
            wanted: true,
        },
    );
    against_one(&mut table, DIFFERENT_IDS, &[1, 64, 1_024]);
    table.end()
}

/// The options of a SYN as Linux sends it: MSS, SACK, timestamps and the window's scale.
const SYN_OPTIONS: &[u8] = b"\x02\x04\x05\xb4\x04\x02\x08\x0a12345678\x01\x03\x03\x07";

/// Whose SYN it is: an address that no entry matches, and how it is said behind the table's name.
#[derive(Clone, Copy)]
struct Stranger {
    name: &'static str,
    address: fn(Family) -> Vec<u8>,
}

const ANY_STRANGER: Stranger = Stranger {
    name: "",
    address: |family| peer(family, 60_000),
};

/// He has the first peer's mark: the sum of the address's bytes, by which a prepared table is searched first.
const SAME_MARK: Stranger = Stranger {
    name: "*",
    address: |family| peer(family, 0x8080),
};

/// He stands between the peers' prefixes.
const BETWEEN_PREFIXES: Stranger = Stranger {
    name: "",
    address: |family| host(&prefix(family, 240)),
};

/// A stranger's bare SYN, of 40 bytes or with TCP-AO of 56. No entry matches it, so no MAC is computed.
struct StrangersSyn {
    label: String,
    /// With one entry and with 1,024.
    listening: [End; 2],
    syn: Vec<u8>,
    /// With one entry, where 1,400 bytes are judged.
    judging: Server,
}

impl StrangersSyn {
    fn new(keys: Keys, stranger: Stranger, family: Family, signed: bool) -> StrangersSyn {
        let from = (stranger.address)(family);
        let servers = [1, 1_024].map(|n| Server::new(&keys.entries(family, n)).prepared());
        let listening = servers.clone().map(|server| {
            let mut end = server.end;
            end.pair.remote.clone_from(&from);
            end
        });
        let syn = Segment {
            source_port: PORTS[1],
            destination_port: PORTS[0],
            flags: SYN,
            options: SYN_OPTIONS.to_vec(),
            ..Segment::default()
        };
        let syn = if signed { syn.ao(16, 11, 1) } else { syn };
        let signed = if signed { "TCP-AO" } else { "no AO" };
        let [judging, _] = servers;
        StrangersSyn {
            label: format!(
                "SYN {} {signed:<6} {}{}",
                FAMILIES[family], keys.name, stranger.name
            ),
            syn: summed(&from, SERVER[family], &syn.bytes()),
            listening,
            judging,
        }
    }

    /// IPv4 and IPv6, with TCP-AO and without.
    fn all(keys: Keys, stranger: Stranger) -> impl Iterator<Item = StrangersSyn> {
        let ways = [(0, false), (0, true), (1, false), (1, true)];
        let new = move |(family, signed)| StrangersSyn::new(keys, stranger, family, signed);
        ways.into_iter().map(new)
    }

    fn passes(&self, listening: usize) {
        let end = black_box(&self.listening[listening]);
        assert_eq!(end.judge_syn(&self.syn, 0), 1);
    }

    /// By judging 1,400 bytes under one entry.
    fn by_judging(&self, table: &mut Table) {
        let mut judging = self.judging.clone();
        table.row(
            &format!("{} by judging", self.label),
            true,
            count(BYTES),
            &mut || self.passes(1),
            &mut || black_box(&mut judging).judge(),
        );
    }

    /// By the same SYN where there is one entry.
    fn by_itself(&self, table: &mut Table, limited: bool) {
        table.row(
            &format!("{} by itself", self.label),
            limited,
            count(BYTES),
            &mut || self.passes(1),
            &mut || self.passes(0),
        );
    }
}

pub fn hard() -> Outcome {
    let mut table = Table::new(
        "The same where only the ports tell 1,024 entries apart, one peer and one ID; where 205 peers with five keys\n\
         each have prefixes, /30 in four /24, or /112 in one /64; and a stranger's bare SYN, which no entry matches, of\n\
         40 bytes or with TCP-AO of 56: by judging 1,400 bytes under one entry, and by itself where there is one\n\
         entry. *: the bytes of his address have the same sum as the peer's; by itself that is only reported.",
        "call, entries",
        "one entry",
        ROUNDS,
        Limit {
            rows: "1,024 prepared entries by one, the hard ones",
            ratio: 2.0,
            wanted: true,
        },
    );
    against_one(&mut table, REMOTE_PORTS, &[1_024]);
    against_one(&mut table, LOCAL_PORTS, &[1_024]);
    against_one(&mut table, PREFIXES, &[1_024]);
    for (keys, stranger, limited) in [
        (FEW_IDS, ANY_STRANGER, true),
        (REMOTE_PORTS, ANY_STRANGER, true),
        (REMOTE_PORTS, SAME_MARK, false),
    ] {
        for syn in StrangersSyn::all(keys, stranger) {
            syn.by_judging(&mut table);
            syn.by_itself(&mut table, limited);
        }
    }
    table.end()
}

pub fn addresses() -> Outcome {
    let mut table = Table::new(
        "The same where only the local address tells 1,024 entries apart, one peer and one ID; and the stranger's bare\n\
         SYN, by judging, where the peers have prefixes and his address is between theirs.",
        "call, entries",
        "one entry",
        ROUNDS,
        Limit {
            rows: "1,024 prepared entries by one, local addresses; a SYN among prefixes",
            ratio: 3.5,
            wanted: false,
        },
    );
    against_one(&mut table, LOCAL_ADDRESSES, &[1_024]);
    for syn in StrangersSyn::all(PREFIXES, BETWEEN_PREFIXES) {
        syn.by_judging(&mut table);
    }
    table.end()
}

pub fn against_bytes() -> Outcome {
    let mut table = Table::new(
        "Prepared tables against their own bytes, which every call checks, and against one entry found by a hash\n\
         map in plain Rust (by address and ID).",
        "call, entries",
        "other",
        ROUNDS,
        Limit {
            rows: "prepared tables of 64 and more entries by their bytes",
            ratio: 1.0,
            wanted: false,
        },
    );
    for keys in [FEW_IDS, DIFFERENT_IDS] {
        for family in [0, 1] {
            for n in [1, 64, 1_024] {
                by_bytes_and_map(&mut table, keys, family, n);
            }
        }
    }
    table.end()
}

fn by_bytes_and_map(table: &mut Table, keys: Keys, family: Family, n: usize) {
    let mut one = Server::new(&keys.entries(family, 1)).prepared();
    let entries = keys.entries(family, n);
    let mut bytes = Server::new(&entries);
    let mut prepared = bytes.prepared();
    let places = entries.iter().enumerate();
    let map: HashMap<(Vec<u8>, u8), usize> = places
        .map(|(at, entry)| ((entry.remote.address.clone(), entry.recv_id), at))
        .collect();
    let used = &entries[n - 1];
    let name_of = (used.remote.address.clone(), used.recv_id);
    for (call, timed) in CALLS {
        let label = |by: &str| format!("{call:<5} {} {} {n:>4} {by}", FAMILIES[family], keys.name);
        table.row(
            &label("by bytes"),
            n >= 64,
            if n == 1_024 { 1 } else { count(BYTES) },
            &mut || timed(black_box(&mut prepared)),
            &mut || timed(black_box(&mut bytes)),
        );
        table.row(
            &label("by a map"),
            false,
            count(BYTES),
            &mut || timed(black_box(&mut prepared)),
            &mut || {
                assert_eq!(black_box(&map).get(black_box(&name_of)), Some(&(n - 1)));
                timed(black_box(&mut one));
            },
        );
    }
}

/// What preparing takes, and how it and the check grow.
pub fn preparing() -> Outcome {
    let mut table = Table::new(
        "Preparing tables against checking their bytes.",
        "entries",
        "checking",
        ROUNDS,
        Limit {
            rows: "preparing by checking",
            ratio: 4.0,
            wanted: false,
        },
    );
    let mut growth = String::new();
    for keys in [FEW_IDS, DIFFERENT_IDS] {
        for (family, name) in FAMILIES.iter().enumerate() {
            let checks = [64, 256, 1_024].map(|n| {
                let label = format!("{name} {:<14} {n:>5}", keys.name);
                prepare(&mut table, &label, &keys.entries(family, n), &[])
            });
            growth += &format!(
                "{name}, {}: {:.1} times as long for 256 entries as for 64, {:.1} times for 1,024 as for 256.\n",
                keys.name,
                checks[1] / checks[0],
                checks[2] / checks[1],
            );
        }
    }
    let md5 = |i: usize| Entry::md5(SERVER[0], &peer(0, 1_000 + i));
    let md5: Vec<Entry> = (0..1_024).map(md5).collect();
    let label = format!("IPv4 {} 1024 + 1024 MD5", FEW_IDS.name);
    prepare(&mut table, &label, &FEW_IDS.entries(0, 1_024), &md5);
    println!("\nChecking, as the number of entries grows fourfold:\n{growth}");
    println!(
        "An entry that shares an ID is compared with all before it, so that of such tables the check grows towards\n\
         sixteen times. Up to 256 different IDs nothing is compared, and it grows fourfold; then all is."
    );
    table.end()
}

/// One row; gives what checking takes.
fn prepare(rows: &mut Table, label: &str, keys: &[Entry], md5: &[Entry]) -> f64 {
    let entries = [keys.len(), md5.len()];
    let [keys, md5] = [keys, md5].map(table);
    let mut out = vec![0; prepared::length(entries.iter().sum())];
    let done = (out.len() as u64) << 32;
    let [_, check] = rows.row(
        label,
        true,
        1,
        &mut || {
            let answer = (ARCHIVE.prepare)(black_box(&keys), &md5, black_box(&mut out));
            assert_eq!(answer, done);
        },
        &mut || {
            let answer = (ARCHIVE.check_table)(0, black_box(&keys), &md5);
            assert_eq!(answer, (entries[0] as u64) << 32);
        },
    );
    check
}

#[cfg(test)]
mod tests {
    use super::*;

    /// Both sides of every row give what they should; how long they take is not looked at.
    #[test]
    fn every_row() {
        for part in [
            few_ids,
            different_ids,
            hard,
            addresses,
            against_bytes,
            preparing,
        ] {
            part();
        }
    }
}
