//! Key tables and MD5 tables: from text or bytes, checked by the archive, and what is wrong with them in words.

use crate::stop::Stop;
use embankery::{Connection, Covered, Entry as Builder, KeyTable, Md5Entry};
use embankery::{Md5Table, PreparedTables, Refusal, Table, Tables};
use formats::entry::{split, Algorithm, Entry, Signing};
use formats::text::{self, Keys, Kind};
use std::fs;
use std::net::SocketAddr;
use std::path::Path;

/// A table's file: its bytes, and where each entry stands if it was text.
#[derive(Clone, Debug)]
pub struct File {
    path: String,
    kind: Kind,
    bytes: Vec<u8>,
    places: Vec<(usize, Option<String>)>,
}

/// Both tables of an endpoint, which the archive has checked.
#[derive(Clone, Debug)]
pub struct Endpoint {
    keys: KeyTable,
    md5: Md5Table,
    /// Both once more, so that no call checks them again: with a thousand keys each would take a thousandth of a second
    /// and more.
    prepared: PreparedTables,
}

impl File {
    /// Reads a table's file, as text or as bytes. No table's bytes are text: they hold zeros.
    pub fn read(path: &str, kind: Kind) -> Result<File, Stop> {
        let bytes = fs::read(path).map_err(|error| Stop::file(path, error))?;
        File::of(path, bytes, kind)
    }

    /// The same of bytes that are there; `path` names them, and keys in files are looked for beside it.
    pub fn of(path: &str, bytes: Vec<u8>, kind: Kind) -> Result<File, Stop> {
        let Some(text) = as_text(&bytes) else {
            return Ok(File {
                path: path.to_string(),
                kind,
                bytes,
                places: Vec::new(),
            });
        };
        let folder = Path::new(path).parent().unwrap_or(Path::new(""));
        let mut read_key = |name: &str| {
            let file = folder.join(name);
            fs::read(&file).map_err(|error| format!("{}: {error}", file.display()))
        };
        let blocks = text::parse(text, kind, &mut read_key);
        let blocks = blocks.map_err(|mistake| Stop::refused(format!("{path}, {mistake}")))?;
        Ok(File {
            path: path.to_string(),
            kind,
            bytes: blocks
                .iter()
                .flat_map(|block| bytes_of(&block.entry))
                .collect(),
            places: blocks
                .into_iter()
                .map(|block| (block.line, block.name))
                .collect(),
        })
    }

    /// An empty table.
    pub fn empty(kind: Kind) -> File {
        File {
            path: String::new(),
            kind,
            bytes: Vec::new(),
            places: Vec::new(),
        }
    }

    /// Where an entry stands, for a person who looks for it.
    fn place(&self, index: usize) -> String {
        let path = &self.path;
        match self.places.get(index) {
            Some((line, Some(name))) => format!("{path}, line {line}, entry {index} ({name})"),
            Some((line, None)) => format!("{path}, line {line}, entry {index}"),
            None => {
                let before: usize = split(&self.bytes)
                    .iter()
                    .take(index)
                    .map(|entry| entry.len())
                    .sum();
                format!("{path}, byte {before}, entry {index}")
            }
        }
    }

    fn entry(&self, index: usize) -> Option<(&[u8], Entry)> {
        let bytes = *split(&self.bytes).get(index)?;
        Some((bytes, Entry::read(bytes)?))
    }
}

/// The text that a file has, if it has no bytes that no text has.
fn as_text(bytes: &[u8]) -> Option<&str> {
    let text = std::str::from_utf8(bytes).ok()?;
    let odd = |c: char| c.is_control() && !matches!(c, '\n' | '\r' | '\t');
    (!text.contains(odd)).then_some(text)
}

/// An entry's bytes, allowed or not.
fn bytes_of(entry: &Entry) -> Vec<u8> {
    let (local, remote) = (entry.local, entry.remote);
    let ipv4 = local.address.is_ipv4();
    match entry.signing {
        Signing::TcpMd5 => if ipv4 {
            Md5Entry::ipv4()
        } else {
            Md5Entry::ipv6()
        }
        .local(local.address, local.prefix)
        .local_ports(local.low..=local.high)
        .remote(remote.address, remote.prefix)
        .remote_ports(remote.low..=remote.high)
        .key(&entry.key)
        .bytes(),
        Signing::TcpAo(ao) => {
            let builder = if ipv4 {
                Builder::ipv4()
            } else {
                Builder::ipv6()
            }
            .local(local.address, local.prefix)
            .local_ports(local.low..=local.high)
            .remote(remote.address, remote.prefix)
            .remote_ports(remote.low..=remote.high)
            .send_id(ao.send_id)
            .recv_id(ao.recv_id)
            .algorithm(match ao.algorithm {
                Algorithm::HmacSha1 => embankery::Algorithm::HmacSha1_96,
                Algorithm::Aes128Cmac => embankery::Algorithm::Aes128Cmac96,
                Algorithm::HmacSha256 => embankery::Algorithm::HmacSha256,
            })
            .covered(match ao.all_options {
                true => Covered::AllOptions,
                false => Covered::OnlyTcpAo,
            })
            .local_nat(ao.local_nat)
            .remote_nat(ao.remote_nat)
            .key(&entry.key);
            match ao.mac_length {
                Some(length) => builder.mac_length(length).bytes(),
                None => builder.bytes(),
            }
        }
    }
}

/// Both files as an endpoint's tables; what is wrong with them, in words.
pub fn checked(keys: &File, md5: &File) -> Result<Endpoint, Stop> {
    let endpoint = Endpoint::new(&keys.bytes, &md5.bytes);
    endpoint.map_err(|refusal| Stop::refused(in_words(refusal, keys, md5)))
}

/// A table's refusal: where, its number, its meaning; of a clash both entries and a pair that both match.
fn in_words(refusal: Refusal, keys: &File, md5: &File) -> String {
    let Some((table, entry)) = refusal.entry() else {
        return refusal.to_string();
    };
    let file = match table {
        Table::Keys => keys,
        Table::Md5 => md5,
    };
    let index = entry as usize;
    let (number, meaning) = (refusal.number(), refusal.meaning());
    let words = format!("{}: {number}: {meaning}", file.place(index));
    let earlier = match refusal {
        Refusal::IdClash { .. } => Some((file, index)),
        Refusal::TwoWays { .. } => Some((keys, usize::MAX)),
        _ => None,
    };
    let clash = earlier.and_then(|(other, before)| clash([file, other], index, before));
    [Some(words), clash]
        .into_iter()
        .flatten()
        .collect::<Vec<_>>()
        .join("\n")
}

/// An entry and the first one of the other file, before an index, that it clashes with: the archive is asked of each
/// two. Then both in words, and a pair that the archive says both match.
fn clash([file, other]: [&File; 2], index: usize, before: usize) -> Option<String> {
    let (bytes, entry) = file.entry(index)?;
    let clashes = |other_bytes: &[u8]| match (file.kind, other.kind) {
        (Kind::Keys, _) => KeyTable::from_bytes([other_bytes, bytes].concat()).is_err(),
        (Kind::Md5, Kind::Md5) => Md5Table::from_bytes([other_bytes, bytes].concat()).is_err(),
        (Kind::Md5, Kind::Keys) => {
            let tables = (
                KeyTable::from_bytes(other_bytes),
                Md5Table::from_bytes(bytes),
            );
            matches!(tables, (Ok(keys), Ok(md5)) if Tables::new(&keys, &md5).is_err())
        }
    };
    let others = split(&other.bytes);
    let place = others
        .iter()
        .take(before)
        .position(|bytes| clashes(bytes))?;
    let (other_bytes, other_entry) = other.entry(place)?;
    let pair = entry.common_pair(&other_entry);
    let mut lines = vec![
        format!("    {}: {}", other.place(place), one_line(&other_entry)),
        format!("    {}: {}", file.place(index), one_line(&entry)),
    ];
    let sides = [(other_bytes, &other_entry), (bytes, &entry)];
    if sides
        .iter()
        .all(|(bytes, entry)| matches(bytes, entry, pair))
    {
        let shared = shared(&entry, &other_entry);
        let [local, remote] = pair;
        lines.push(format!(
            "    both match local {local}, remote {remote}{shared}"
        ));
    }
    Some(lines.join("\n"))
}

/// The entries of a key table that match a pair, in their order.
pub fn matching(table: &KeyTable, pair: [SocketAddr; 2]) -> Vec<&[u8]> {
    let entries = split(table.as_bytes()).into_iter();
    let fits = |bytes: &&[u8]| Entry::read(bytes).is_some_and(|entry| matches(bytes, &entry, pair));
    entries.filter(fits).collect()
}

/// Whether an entry matches a pair: the archive opens a connection of this pair by it.
fn matches(bytes: &[u8], entry: &Entry, [local, remote]: [SocketAddr; 2]) -> bool {
    match entry.signing {
        Signing::TcpAo(ao) => KeyTable::from_bytes(bytes)
            .and_then(|table| Connection::open_active(&table, local, remote, 0, ao.send_id))
            .is_ok(),
        Signing::TcpMd5 => Md5Table::from_bytes(bytes)
            .and_then(|table| Connection::open_active_md5(&table, local, remote, 0))
            .is_ok(),
    }
}

/// Which IDs two entries of a key table share.
fn shared(one: &Entry, other: &Entry) -> String {
    let (Signing::TcpAo(one), Signing::TcpAo(other)) = (one.signing, other.signing) else {
        return String::new();
    };
    let send = (one.send_id == other.send_id).then(|| format!("SendID {}", one.send_id));
    let recv = (one.recv_id == other.recv_id).then(|| format!("RecvID {}", one.recv_id));
    let both: Vec<String> = [send, recv].into_iter().flatten().collect();
    format!(", and share {}", both.join(" and "))
}

/// An entry in one line, without its key.
fn one_line(entry: &Entry) -> String {
    let text = text::write(entry, 0, Keys::Hidden);
    let lines = text.lines().skip(1).filter(|line| !line.contains('#'));
    let fields = lines.map(|line| line.split_whitespace().collect::<Vec<_>>().join(" "));
    fields.collect::<Vec<_>>().join(", ")
}

impl Endpoint {
    /// Of both tables' bytes.
    fn new(keys: &[u8], md5: &[u8]) -> Result<Endpoint, Refusal> {
        let (keys, md5) = (KeyTable::from_bytes(keys)?, Md5Table::from_bytes(md5)?);
        let prepared = Tables::new(&keys, &md5)?.prepared()?;
        Ok(Endpoint {
            keys,
            md5,
            prepared,
        })
    }

    /// Both tables, as the archive's calls take them.
    pub fn tables(&self) -> Tables<'_> {
        Tables::from(&self.prepared)
    }

    /// The tables of an endpoint at the other end of each connection: every entry mirrored.
    pub fn mirrored(&self) -> Result<Endpoint, Stop> {
        let mirrored = |table: &[u8]| -> Vec<u8> {
            let entries = split(table).into_iter().filter_map(Entry::read);
            entries
                .flat_map(|entry| bytes_of(&entry.mirrored()))
                .collect()
        };
        let (keys, md5) = (self.keys.as_bytes(), self.md5.as_bytes());
        Ok(Endpoint::new(&mirrored(keys), &mirrored(md5))?)
    }

    /// The key table.
    pub fn keys(&self) -> &KeyTable {
        &self.keys
    }

    /// The MD5 table.
    pub fn md5(&self) -> &Md5Table {
        &self.md5
    }

    /// Both tables as text.
    pub fn text(&self, keys: Keys) -> String {
        let mut text = String::new();
        for (name, table) in [("key", self.keys.as_bytes()), ("MD5", self.md5.as_bytes())] {
            let entries = split(table);
            if !entries.is_empty() {
                text.push_str(&format!(
                    "# {name} table, {}\n",
                    counted(entries.len(), "entry", "entries")
                ));
            }
            for (index, entry) in entries.into_iter().filter_map(Entry::read).enumerate() {
                text.push_str(&text::write(&entry, index, keys));
                text.push('\n');
            }
        }
        text
    }
}

/// A number and what it counts.
pub fn counted(count: usize, one: &str, more: &str) -> String {
    match count {
        1 => format!("1 {one}"),
        _ => format!("{count} {more}"),
    }
}
