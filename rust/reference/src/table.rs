//! "Key table (house bytes)": reading and checking the bytes, matching, and the searches.

use crate::answer::Refusal;
use std::ops::Deref;

/// "At most 64 entries; none is allowed." Ticket 8: "Raise 64 entries to 1,024."
pub const MOST_ENTRIES: usize = 1_024;

/// "MAC bytes (12 and 12)": of entries that do not choose their MAC's length, kinds 4 and 6.
pub const MAC_BYTES: usize = 12;

/// A socket pair as our own end holds it. Addresses have 4 or 16 bytes.
#[derive(Clone, Copy, Debug, PartialEq, Eq)]
pub struct Pair<'a> {
    /// Our address.
    pub local: &'a [u8],
    /// The peer's address.
    pub remote: &'a [u8],
    /// Our port.
    pub local_port: u16,
    /// The peer's port.
    pub remote_port: u16,
}

/// "algorithm (1 HMAC-SHA-1-96, 2 AES-128-CMAC-96)"; Ticket 13: "Add algorithm 3: HMAC-SHA-256".
#[derive(Clone, Copy, Debug, PartialEq, Eq)]
pub enum Algorithm {
    /// 1, HMAC-SHA-1-96.
    HmacSha1,
    /// 2, AES-128-CMAC-96.
    AesCmac,
    /// 3, HMAC-SHA-256.
    HmacSha256,
}

impl Algorithm {
    /// The algorithm of a listed number.
    pub fn of(number: u8) -> Option<Algorithm> {
        match number {
            1 => Some(Algorithm::HmacSha1),
            2 => Some(Algorithm::AesCmac),
            3 => Some(Algorithm::HmacSha256),
            _ => None,
        }
    }

    /// Its number.
    pub fn number(self) -> u8 {
        match self {
            Algorithm::HmacSha1 => 1,
            Algorithm::AesCmac => 2,
            Algorithm::HmacSha256 => 3,
        }
    }

    /// "Each algorithm has its own fixed numbers: traffic key bytes (20 and 16)". Ticket 13: "with output
    /// length 256".
    pub fn traffic_key_bytes(self) -> usize {
        match self {
            Algorithm::HmacSha1 => 20,
            Algorithm::AesCmac => 16,
            Algorithm::HmacSha256 => 32,
        }
    }
}

/// An address of an entry, with bytes of its own: of a prepared table's remote addresses one byte is computed.
#[derive(Clone, Copy, Debug, PartialEq, Eq)]
pub struct Address {
    /// 4 or 16.
    length: usize,
    /// Behind the length zeros.
    bytes: [u8; 16],
}

impl Address {
    /// The address of these bytes, 4 or 16.
    pub fn of(bytes: &[u8]) -> Address {
        let mut address = Address {
            length: bytes.len(),
            bytes: [0; 16],
        };
        address.bytes[..bytes.len()].copy_from_slice(bytes);
        address
    }
}

impl Deref for Address {
    type Target = [u8];

    fn deref(&self) -> &[u8] {
        &self.bytes[..self.length]
    }
}

/// One side of an entry: a range of ports, "ends included", and a prefix of addresses.
#[derive(Clone, Copy, Debug, PartialEq, Eq)]
pub struct Side {
    /// The lowest port.
    pub low: u16,
    /// The highest port.
    pub high: u16,
    /// 4 or 16 bytes; zero behind the prefix.
    pub address: Address,
    /// The prefix's length in bits.
    pub prefix: usize,
}

impl Side {
    /// "both ports lie in the ranges and, on each side, the first prefix-length bits agree. Prefix
    /// 0 matches every address."
    pub fn matches(&self, address: &[u8], port: u16) -> bool {
        let in_range = self.low <= port && port <= self.high;
        in_range && first_bits_agree(&self.address, address, self.prefix)
    }

    /// Whether an address and a port exist that both sides match.
    ///
    /// Two ranges share a port exactly if the larger of the low ends is not above the smaller of
    /// the high ends. Two prefixes share an address exactly if they agree as far as the shorter
    /// one goes: the longer one's own address is then in both.
    pub fn overlaps(&self, other: &Side) -> bool {
        let ports = self.low.max(other.low) <= self.high.min(other.high);
        let shorter = self.prefix.min(other.prefix);
        ports && first_bits_agree(&self.address, &other.address, shorter)
    }
}

/// An entry of a table that was found well formed.
#[derive(Clone, Copy, Debug, PartialEq, Eq)]
pub struct Entry<'a> {
    /// 4 to 7. Its family is that of the addresses: IPv4 for 4 and 5, IPv6 for 6 and 7. A prepared table does
    /// not keep it; 5 or 7 there.
    pub kind: u8,
    /// "flags (1: all options covered by the MAC; 0: only TCP-AO)".
    pub covers_options: bool,
    /// RFC 6978's localNAT: our own side is translated on the way. Ticket 10: "flags 2 for the local and 4
    /// for the remote side".
    pub local_nat: bool,
    /// RFC 6978's remoteNAT: the peer's side is.
    pub remote_nat: bool,
    /// The algorithm.
    pub algorithm: Algorithm,
    /// The KeyID of segments that we sign with this entry.
    pub send_id: u8,
    /// The KeyID of segments that the peer signs with this entry.
    pub recv_id: u8,
    /// Our side.
    pub local: Side,
    /// The peer's side.
    pub remote: Side,
    /// How many bytes its MACs have. Ticket 4: "Add entry kinds 5 and 7, like 4 and 6 with one more
    /// byte, 4 to 16, before the key length."
    pub mac_bytes: usize,
    /// The master key, 1 to 80 bytes.
    pub key: &'a [u8],
}

impl Entry<'_> {
    /// "An entry matches a socket pair of its family when both ports lie in the ranges and, on each
    /// side, the first prefix-length bits agree."
    pub fn matches(&self, pair: &Pair) -> bool {
        let family = self.local.address.len();
        pair.local.len() == family
            && pair.remote.len() == family
            && self.local.matches(pair.local, pair.local_port)
            && self.remote.matches(pair.remote, pair.remote_port)
    }

    /// "a socket pair exists that two entries both match while they share SendID or share RecvID."
    pub fn clashes(&self, other: &Entry) -> bool {
        let shared = self.send_id == other.send_id || self.recv_id == other.recv_id;
        let same_family = self.local.address.len() == other.local.address.len();
        shared
            && same_family
            && self.local.overlaps(&other.local)
            && self.remote.overlaps(&other.remote)
    }
}

/// Whether the first `count` bits of two addresses of the same length agree.
fn first_bits_agree(a: &[u8], b: &[u8], count: usize) -> bool {
    let whole = count / 8;
    let rest = count % 8;
    a[..whole] == b[..whole] && (rest == 0 || (a[whole] ^ b[whole]) >> (8 - rest) == 0)
}

/// Whether every bit of an address behind its first `count` ones is zero.
fn bits_behind_are_zero(address: &[u8], count: usize) -> bool {
    let whole = count / 8;
    let rest = count % 8;
    let whole_bytes_from = if rest == 0 { whole } else { whole + 1 };
    (rest == 0 || address[whole] << rest == 0)
        && address[whole_bytes_from..].iter().all(|byte| *byte == 0)
}

/// Takes a table's entries one after another, or gives the number and the index of the first that is refused.
/// There are at most so many entries; a kind has a body of so many bytes, or none; a body is read, or gives 13 to
/// 16; two entries clash.
///
/// "The first that applies, in this order, is given; table entries are taken one after another,
/// each through to 17 against those before it, with the entry's index from 0."
pub fn walk<'t, E>(
    table: &'t [u8],
    most_entries: usize,
    body_bytes: fn(u8) -> Option<usize>,
    read_body: fn(u8, &'t [u8]) -> Result<E, u8>,
    clash: fn(&E, &E) -> bool,
) -> Result<Vec<E>, (u8, u32)> {
    let mut entries: Vec<E> = Vec::new();
    let mut rest = table;
    while !rest.is_empty() {
        let index = entries.len() as u32;
        let refused = |number| (number, index);

        // 12: "a 65th entry begins". Ticket 8: "Refusal 12 moves to the 1,025th".
        if entries.len() == most_entries {
            return Err(refused(12));
        }

        // 11: "unknown kind". "One byte of kind, then a body whose length the kind fixes".
        let kind = rest[0];
        let bytes = body_bytes(kind).ok_or(refused(11))?;

        // 10: "entry cut".
        if rest.len() < 1 + bytes {
            return Err(refused(10));
        }

        // 13 to 16.
        let entry = read_body(kind, &rest[1..1 + bytes]).map_err(refused)?;

        // 17: "ID clash, at the later entry".
        if entries.iter().any(|before| clash(before, &entry)) {
            return Err(refused(17));
        }

        entries.push(entry);
        rest = &rest[1 + bytes..];
    }
    Ok(entries)
}

/// Reads a key table, or says what the first refused entry is refused with.
pub fn read(table: &[u8]) -> Result<Vec<Entry<'_>>, Refusal> {
    read_at_most(MOST_ENTRIES, table)
}

/// The same, where another number of entries is allowed.
pub fn read_at_most(most_entries: usize, table: &[u8]) -> Result<Vec<Entry<'_>>, Refusal> {
    walk(table, most_entries, body_bytes, read_body, |one, other| {
        one.clashes(other)
    })
    .map_err(|(number, index)| Refusal {
        number,
        index,
        in_md5: false,
    })
}

/// "kind 4 (IPv4) has 103 bytes, kind 6 (IPv6) 127." Kinds 5 and 7: "one more byte". The others are unknown.
pub fn body_bytes(kind: u8) -> Option<usize> {
    match kind {
        4 => Some(103),
        5 => Some(104),
        6 => Some(127),
        7 => Some(128),
        _ => None,
    }
}

/// How many bytes the addresses of a known kind have.
pub fn address_bytes(kind: u8) -> usize {
    if kind < 6 {
        4
    } else {
        16
    }
}

/// Reads one body, of the length that its kind has, or gives 13, 14, 15 or 16.
///
/// "The body is: flags (1: all options covered by the MAC; 0: only TCP-AO), algorithm (1
/// HMAC-SHA-1-96, 2 AES-128-CMAC-96), SendID, RecvID; local port low and high, remote port low and
/// high (two bytes each, big-endian, ends included); local address, its prefix length; remote
/// address, its prefix length; key length 1 to 80; the key, padded with zeros to 80." Kinds 5 and 7 have
/// "one more byte, 4 to 16, before the key length": the MAC's length.
fn read_body(kind: u8, body: &[u8]) -> Result<Entry<'_>, u8> {
    let (local, remote, rest) = read_sides(address_bytes(kind), body);
    let (mac_bytes, key_part) = match kind {
        5 | 7 => (rest[0] as usize, &rest[1..]),
        _ => (MAC_BYTES, rest),
    };

    // 13: "flags or algorithm not listed". Ticket 10: "Refusal 13 admits both bits", 2 and 4, beside 1.
    // Ticket 13: "Refusal 13 admits 3."
    let flags = body[0];
    if flags > 7 {
        return Err(13);
    }
    let algorithm = Algorithm::of(body[1]).ok_or(13u8)?;
    // "Refusal 13 also covers the new byte".
    if !(4..=16).contains(&mac_bytes) {
        return Err(13);
    }

    // 14 and 15.
    test_sides(&local, &remote)?;

    // 16.
    let key = read_key(key_part[0] as usize, &key_part[1..])?;

    Ok(Entry {
        kind,
        covers_options: flags & 1 != 0,
        local_nat: flags & 2 != 0,
        remote_nat: flags & 4 != 0,
        algorithm,
        send_id: body[2],
        recv_id: body[3],
        local,
        remote,
        mac_bytes,
        key,
    })
}

/// A body's two sides, with addresses of 4 or 16 bytes, and what stands behind them: "local port low and
/// high, remote port low and high (two bytes each, big-endian, ends included); local address, its prefix
/// length; remote address, its prefix length".
pub fn read_sides(address_bytes: usize, body: &[u8]) -> (Side, Side, &[u8]) {
    let port = |at: usize| u16::from_be_bytes([body[at], body[at + 1]]);
    let (local_part, rest) = body[12..].split_at(address_bytes + 1);
    let (remote_part, rest) = rest.split_at(address_bytes + 1);
    let local = Side {
        low: port(4),
        high: port(6),
        address: Address::of(&local_part[..address_bytes]),
        prefix: local_part[address_bytes] as usize,
    };
    let remote = Side {
        low: port(8),
        high: port(10),
        address: Address::of(&remote_part[..address_bytes]),
        prefix: remote_part[address_bytes] as usize,
    };
    (local, remote, rest)
}

/// 14 and 15 of an entry's sides.
pub fn test_sides(local: &Side, remote: &Side) -> Result<(), u8> {
    // 14: "low port above high".
    let bad = |side: &Side| side.low > side.high;
    if bad(local) || bad(remote) {
        return Err(14);
    }

    // 15: "prefix above 32 or 128, or address bits set past it".
    let too_long = |side: &Side| side.prefix > 8 * side.address.len();
    if too_long(local) || too_long(remote) {
        return Err(15);
    }
    let bits_set = |side: &Side| !bits_behind_are_zero(&side.address, side.prefix);
    if bits_set(local) || bits_set(remote) {
        return Err(15);
    }
    Ok(())
}

/// 16: "key length 0 or above 80, or padding not zero"; `padded` is "the key, padded with zeros to 80".
pub fn read_key(key_bytes: usize, padded: &[u8]) -> Result<&[u8], u8> {
    if key_bytes == 0 || key_bytes > 80 {
        return Err(16);
    }
    let (key, padding) = padded.split_at(key_bytes);
    if padding.iter().any(|byte| *byte != 0) {
        return Err(16);
    }
    Ok(key)
}

/// Whether any entry matches the pair, whatever its IDs.
pub fn any_matches(entries: &[Entry], pair: &Pair) -> bool {
    entries.iter().any(|entry| entry.matches(pair))
}

/// The entry matching the pair that has this SendID; by 17 there is at most one, but in a prepared table, where
/// "a search by pair and ID takes the first such entry".
pub fn by_send_id<'t>(entries: &[Entry<'t>], pair: &Pair, send_id: u8) -> Option<Entry<'t>> {
    entries
        .iter()
        .find(|entry| entry.send_id == send_id && entry.matches(pair))
        .copied()
}

/// The entry matching the pair that has this RecvID, likewise.
pub fn by_recv_id<'t>(entries: &[Entry<'t>], pair: &Pair, recv_id: u8) -> Option<Entry<'t>> {
    entries
        .iter()
        .find(|entry| entry.recv_id == recv_id && entry.matches(pair))
        .copied()
}
