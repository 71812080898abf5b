//! A table as a person writes it: one block to an entry. docs/OPERATING.md has the grammar.
//!
//! ```text
//! entry peer-7
//!     local         10.0.0.1
//!     remote        10.0.7.0/24
//!     remote-ports  1024-65535
//!     send-id       1
//!     recv-id       2
//!     algorithm     hmac-sha-1
//!     key           hex 00112233445566778899aabbccddeeff00112233
//! ```

use crate::entry::{Algorithm, Entry, Side, Signing, TcpAo};
use std::collections::BTreeMap;
use std::fmt;
use std::net::IpAddr;

/// An entry, and where it stands in the text.
#[derive(Clone, Debug, PartialEq, Eq)]
pub struct Block {
    /// The line on which it begins, from 1.
    pub line: usize,
    /// Its name, if it has one.
    pub name: Option<String>,
    /// What it says.
    pub entry: Entry,
}

/// Which table a text is for.
#[derive(Clone, Copy, Debug, PartialEq, Eq)]
pub enum Kind {
    /// The key table.
    Keys,
    /// The MD5 table.
    Md5,
}

/// What is wrong in a text.
#[derive(Clone, Debug, PartialEq, Eq)]
pub struct Mistake {
    /// The line, from 1.
    pub line: usize,
    /// The entry's index, from 0, and its name; nothing before the first one.
    pub entry: Option<(usize, Option<String>)>,
    /// What is wrong.
    pub what: String,
}

impl fmt::Display for Mistake {
    fn fmt(&self, f: &mut fmt::Formatter) -> fmt::Result {
        write!(f, "line {}", self.line)?;
        match &self.entry {
            Some((index, Some(name))) => write!(f, ", entry {index} ({name})")?,
            Some((index, None)) => write!(f, ", entry {index}")?,
            None => {}
        }
        write!(f, ": {}", self.what)
    }
}

impl std::error::Error for Mistake {}

/// The fields that a block may have, in the order in which they are written. Those of the second list are not for
/// TCP MD5.
const FIELDS: [&str; 6] = [
    "local",
    "local-ports",
    "remote",
    "remote-ports",
    "algorithm",
    "key",
];
const AO_FIELDS: [&str; 5] = ["send-id", "recv-id", "mac-length", "options", "nat"];

const MD5: &str = "tcp-md5";
const ALGORITHMS: [(&str, Algorithm); 3] = [
    ("hmac-sha-1", Algorithm::HmacSha1),
    ("aes-128-cmac", Algorithm::Aes128Cmac),
    ("hmac-sha-256", Algorithm::HmacSha256),
];
const COVERED: [(&str, bool); 2] = [("covered", true), ("not-covered", false)];
const NAT: [(&str, [bool; 2]); 4] = [
    ("none", [false, false]),
    ("local", [true, false]),
    ("remote", [false, true]),
    ("both", [true, true]),
];

/// Reads the file that a `key file` names, as its whole content is the key.
pub type ReadKey<'a> = &'a mut dyn FnMut(&str) -> Result<Vec<u8>, String>;

/// The entries of a text, in order; or the first mistake in it.
pub fn parse(text: &str, kind: Kind, read_key: ReadKey) -> Result<Vec<Block>, Mistake> {
    let mut blocks = Vec::new();
    let mut open: Option<Lines> = None;
    for (index, line) in text.lines().enumerate() {
        let line_number = index + 1;
        let words = without_comment(line).trim();
        let (first, rest) = words.split_once(char::is_whitespace).unwrap_or((words, ""));
        let rest = rest.trim();
        if first.is_empty() {
            continue;
        }
        if first == "entry" {
            if let Some(lines) = open.take() {
                blocks.push(lines.block(kind, read_key)?);
            }
            open = Some(Lines {
                line: line_number,
                index: blocks.len(),
                name: (!rest.is_empty()).then(|| rest.to_string()),
                fields: BTreeMap::new(),
            });
            continue;
        }
        let Some(lines) = &mut open else {
            return Err(Mistake {
                line: line_number,
                entry: None,
                what: format!("\"{first}\" stands before the first \"entry\""),
            });
        };
        lines.add(line_number, first, rest)?;
    }
    if let Some(lines) = open {
        blocks.push(lines.block(kind, read_key)?);
    }
    Ok(blocks)
}

/// A line up to a `#` that stands at its front or behind a space.
fn without_comment(line: &str) -> &str {
    let mut marks = line.match_indices('#');
    let comment = marks.find(|(at, _)| {
        line[..*at]
            .chars()
            .next_back()
            .is_none_or(char::is_whitespace)
    });
    comment.map_or(line, |(at, _)| &line[..at])
}

/// The lines of a block: each field's line and value.
struct Lines<'a> {
    line: usize,
    index: usize,
    name: Option<String>,
    fields: BTreeMap<&'a str, (usize, &'a str)>,
}

impl<'a> Lines<'a> {
    fn mistake(&self, line: usize, what: String) -> Mistake {
        Mistake {
            line,
            entry: Some((self.index, self.name.clone())),
            what,
        }
    }

    fn add(&mut self, line: usize, field: &'a str, value: &'a str) -> Result<(), Mistake> {
        if !FIELDS.contains(&field) && !AO_FIELDS.contains(&field) {
            let known = [&FIELDS[..], &AO_FIELDS].concat().join(", ");
            let what = format!("there is no field \"{field}\"; the fields are {known}");
            return Err(self.mistake(line, what));
        }
        if let Some((before, _)) = self.fields.get(field) {
            let what = format!("\"{field}\" was said on line {before} already");
            return Err(self.mistake(line, what));
        }
        if value.is_empty() {
            let what = format!("\"{field}\" has no value");
            return Err(self.mistake(line, what));
        }
        self.fields.insert(field, (line, value));
        Ok(())
    }

    /// The value of a field, read by a function that says what is wrong with it.
    fn optional<T>(
        &self,
        field: &str,
        read: impl FnOnce(&str) -> Result<T, String>,
    ) -> Result<Option<T>, Mistake> {
        let Some((line, value)) = self.fields.get(field) else {
            return Ok(None);
        };
        let value = read(value).map_err(|what| self.mistake(*line, format!("{field}: {what}")))?;
        Ok(Some(value))
    }

    fn required<T>(
        &self,
        field: &str,
        read: impl FnOnce(&str) -> Result<T, String>,
    ) -> Result<T, Mistake> {
        let missing = || self.mistake(self.line, format!("\"{field}\" is missing"));
        self.optional(field, read)?.ok_or_else(missing)
    }

    fn block(self, kind: Kind, read_key: ReadKey) -> Result<Block, Mistake> {
        let side = |field: &str, ports: &str| {
            let (address, prefix) = self.required(field, network)?;
            let (low, high) = self.optional(ports, port_range)?.unwrap_or((0, u16::MAX));
            Ok(Side {
                address,
                prefix,
                low,
                high,
            })
        };
        let (local, remote) = (
            side("local", "local-ports")?,
            side("remote", "remote-ports")?,
        );
        if local.address.is_ipv4() != remote.address.is_ipv4() {
            let what = "local and remote are not both IPv4 or both IPv6".to_string();
            return Err(self.mistake(self.line, what));
        }
        let signing = self.signing(kind)?;
        let key = self.required("key", |value| key(value, read_key))?;
        Ok(Block {
            line: self.line,
            name: self.name.clone(),
            entry: Entry {
                local,
                remote,
                signing,
                key,
            },
        })
    }

    fn signing(&self, kind: Kind) -> Result<Signing, Mistake> {
        let algorithm = self.required("algorithm", |value| {
            let names = ALGORITHMS.map(|(name, algorithm)| (name, Some(algorithm)));
            let mut names = names.to_vec();
            names.push((MD5, None));
            chosen(value, &names)
        })?;
        let line = self.fields["algorithm"].0;
        let Some(algorithm) = algorithm else {
            if kind == Kind::Keys {
                let what = "tcp-md5 is for the MD5 table (--md5), and this is the key table";
                return Err(self.mistake(line, what.to_string()));
            }
            return match AO_FIELDS
                .iter()
                .find_map(|field| self.fields.get_key_value(field))
            {
                Some((field, (line, _))) => {
                    Err(self.mistake(*line, format!("an entry for TCP MD5 has no \"{field}\"")))
                }
                None => Ok(Signing::TcpMd5),
            };
        };
        if kind == Kind::Md5 {
            let what = "this is the MD5 table, whose algorithm is tcp-md5";
            return Err(self.mistake(line, what.to_string()));
        }
        let nat = self.optional("nat", |value| chosen(value, &NAT))?;
        let [local_nat, remote_nat] = nat.unwrap_or_default();
        Ok(Signing::TcpAo(TcpAo {
            send_id: self.required("send-id", number)?,
            recv_id: self.required("recv-id", number)?,
            algorithm,
            mac_length: self.optional("mac-length", byte)?,
            all_options: self
                .optional("options", |value| chosen(value, &COVERED))?
                .unwrap_or(true),
            local_nat,
            remote_nat,
        }))
    }
}

fn chosen<T: Copy>(value: &str, names: &[(&str, T)]) -> Result<T, String> {
    let found = names.iter().find(|(name, _)| *name == value);
    found.map(|(_, meant)| *meant).ok_or_else(|| {
        let names: Vec<&str> = names.iter().map(|(name, _)| *name).collect();
        format!("\"{value}\" is none of {}", names.join(", "))
    })
}

/// An address, or an address and the length of its prefix.
fn network(value: &str) -> Result<(IpAddr, u8), String> {
    let (address, prefix) = match value.split_once('/') {
        Some((address, prefix)) => (address, Some(prefix)),
        None => (value, None),
    };
    let parsed: Result<IpAddr, _> = address.parse();
    let address = parsed.map_err(|_| format!("\"{address}\" is no address of IPv4 or IPv6"))?;
    let prefix = match prefix {
        Some(prefix) => byte(prefix)?,
        None if address.is_ipv4() => 32,
        None => 128,
    };
    Ok((address, prefix))
}

/// A number for a byte. One that is larger than a byte can be is taken as 255, which the archive refuses wherever
/// this is used.
fn byte(value: &str) -> Result<u8, String> {
    let digits = !value.is_empty() && value.bytes().all(|byte| byte.is_ascii_digit());
    match digits {
        true => Ok(value.parse().unwrap_or(u8::MAX)),
        false => Err(format!("\"{value}\" is no number")),
    }
}

/// A SendID or a RecvID.
fn number(value: &str) -> Result<u8, String> {
    let not_one = || format!("\"{value}\" is no number from 0 to 255");
    value.parse().map_err(|_| not_one())
}

/// `any`, a port, or the lowest and the highest of a range.
fn port_range(value: &str) -> Result<(u16, u16), String> {
    if value == "any" {
        return Ok((0, u16::MAX));
    }
    let (low, high) = value.split_once('-').unwrap_or((value, value));
    let port = |text: &str| {
        let not_one = || format!("\"{}\" is no port from 0 to 65535", text.trim());
        text.trim().parse::<u16>().map_err(|_| not_one())
    };
    Ok((port(low)?, port(high)?))
}

/// `hex` and digits, with or without spaces, or `file` and a file's name.
fn key(value: &str, read_key: ReadKey) -> Result<Vec<u8>, String> {
    let (how, rest) = value.split_once(char::is_whitespace).unwrap_or((value, ""));
    match how {
        "hex" => hex(rest),
        "file" if !rest.trim().is_empty() => read_key(rest.trim()),
        _ => Err("a key is \"hex\" and its digits, or \"file\" and a file's name".to_string()),
    }
}

fn hex(digits: &str) -> Result<Vec<u8>, String> {
    let mut half = None;
    let mut bytes = Vec::new();
    for digit in digits.chars().filter(|digit| !digit.is_whitespace()) {
        let Some(value) = digit.to_digit(16) else {
            return Err(format!("'{digit}' is no hexadecimal digit"));
        };
        half = match half {
            None => Some(value),
            Some(upper) => {
                bytes.push((upper << 4 | value) as u8);
                None
            }
        };
    }
    match half {
        Some(_) => Err("the number of hexadecimal digits is odd".to_string()),
        None => Ok(bytes),
    }
}

/// Whether a text shows its keys.
#[derive(Clone, Copy, Debug, PartialEq, Eq)]
pub enum Keys {
    /// Each key in hexadecimal, so that the text can be read again.
    Shown,
    /// Only how many bytes each key has.
    Hidden,
}

/// The text of an entry. What has its usual value is not said, so that an entry is as short as it can be.
pub fn write(entry: &Entry, index: usize, keys: Keys) -> String {
    let mut text = format!("entry  # {index}\n");
    let mut line = |field: &str, value: String| {
        text.push_str(format!("    {field:<14}{value}").trim_end());
        text.push('\n');
    };
    for (name, side) in [("local", &entry.local), ("remote", &entry.remote)] {
        line(name, format!("{}/{}", side.address, side.prefix));
        match (side.low, side.high) {
            (0, u16::MAX) => {}
            (low, high) if low == high => line(&format!("{name}-ports"), low.to_string()),
            (low, high) => line(&format!("{name}-ports"), format!("{low}-{high}")),
        }
    }
    match entry.signing {
        Signing::TcpMd5 => line("algorithm", MD5.to_string()),
        Signing::TcpAo(ao) => {
            line("send-id", ao.send_id.to_string());
            line("recv-id", ao.recv_id.to_string());
            line("algorithm", name_of(&ALGORITHMS, ao.algorithm));
            if let Some(bytes) = ao.mac_length {
                line("mac-length", bytes.to_string());
            }
            if !ao.all_options {
                line("options", name_of(&COVERED, ao.all_options));
            }
            if ao.local_nat || ao.remote_nat {
                line("nat", name_of(&NAT, [ao.local_nat, ao.remote_nat]));
            }
        }
    }
    match keys {
        Keys::Shown => {
            let digits: String = entry.key.iter().map(|byte| format!("{byte:02x}")).collect();
            line("key", format!("hex {digits}"));
        }
        Keys::Hidden => line("# key:", format!("{} bytes, not shown", entry.key.len())),
    }
    text
}

fn name_of<T: Copy + PartialEq>(names: &[(&str, T)], meant: T) -> String {
    let found = names.iter().find(|(_, one)| *one == meant);
    found.map_or_else(String::new, |(name, _)| (*name).to_string())
}
