//! What an entry of a table says: document 01's bytes, with document 02's kinds and flags, as fields.
//!
//! Reading asks nothing but that the bytes are there: which of them a table may hold is the archive's to say.

use std::net::{IpAddr, SocketAddr};

/// The addresses and ports of one side of the connections that an entry is for.
#[derive(Clone, Copy, Debug, PartialEq, Eq)]
pub struct Side {
    /// An address, of which the first bits count.
    pub address: IpAddr,
    /// How many bits of it count.
    pub prefix: u8,
    /// The lowest port.
    pub low: u16,
    /// The highest port.
    pub high: u16,
}

impl Side {
    /// This address alone, or this prefix, with any port.
    pub fn new(address: impl Into<IpAddr>, prefix: u8) -> Side {
        Side {
            address: address.into(),
            prefix,
            low: 0,
            high: u16::MAX,
        }
    }

    /// Where two sides have an address and a port in common, one such: the address of the longer prefix, and the
    /// higher of the lowest ports.
    fn common(&self, other: &Side) -> SocketAddr {
        let longer = if self.prefix < other.prefix {
            other
        } else {
            self
        };
        SocketAddr::new(longer.address, self.low.max(other.low))
    }
}

/// The algorithm of an entry.
#[derive(Clone, Copy, Debug, PartialEq, Eq)]
pub enum Algorithm {
    /// 1: HMAC-SHA-1.
    HmacSha1,
    /// 2: AES-128-CMAC.
    Aes128Cmac,
    /// 3: HMAC-SHA-256.
    HmacSha256,
}

/// How the segments are signed that an entry is for.
#[derive(Clone, Copy, Debug, PartialEq, Eq)]
pub enum Signing {
    /// By TCP-AO: an entry of a key table.
    TcpAo(TcpAo),
    /// By TCP MD5: an entry of an MD5 table.
    TcpMd5,
}

/// What an entry of a key table says beside its sides and its key.
#[derive(Clone, Copy, Debug, PartialEq, Eq)]
pub struct TcpAo {
    /// The KeyID of segments that we sign by it.
    pub send_id: u8,
    /// The KeyID of segments that the peer signs by it.
    pub recv_id: u8,
    /// The algorithm of the MAC and of the key derivation.
    pub algorithm: Algorithm,
    /// The MAC's bytes, where the entry says how many: kinds 5 and 7.
    pub mac_length: Option<u8>,
    /// Whether the MAC covers all options.
    pub all_options: bool,
    /// Whether our side is translated on the way.
    pub local_nat: bool,
    /// Whether the peer's side is.
    pub remote_nat: bool,
}

/// An entry of a key table or of an MD5 table.
#[derive(Clone, PartialEq, Eq)]
pub struct Entry {
    /// Our side.
    pub local: Side,
    /// The peer's side.
    pub remote: Side,
    /// How segments are signed.
    pub signing: Signing,
    /// The key.
    pub key: Vec<u8>,
}

/// Shows no key.
impl std::fmt::Debug for Entry {
    fn fmt(&self, f: &mut std::fmt::Formatter) -> std::fmt::Result {
        f.debug_struct("Entry")
            .field("local", &self.local)
            .field("remote", &self.remote)
            .field("signing", &self.signing)
            .finish_non_exhaustive()
    }
}

/// How many bytes an entry of this kind has.
fn size(kind: u8) -> Option<usize> {
    match kind {
        4 => Some(104),
        5 => Some(105),
        6 => Some(128),
        7 => Some(129),
        _ => None,
    }
}

/// The bytes of a table's entries, one after another, as far as their kinds are known and they are whole.
pub fn split(table: &[u8]) -> Vec<&[u8]> {
    let (mut rest, mut entries) = (table, Vec::new());
    while let Some(size) = rest.first().and_then(|kind| size(*kind)) {
        let Some((entry, behind)) = rest.split_at_checked(size) else {
            break;
        };
        entries.push(entry);
        rest = behind;
    }
    entries
}

/// The algorithm in the entries of an MD5 table.
const MD5: u8 = 19;

impl Entry {
    /// The entry of these bytes, if they are as many as their kind has and its algorithm is known.
    pub fn read(bytes: &[u8]) -> Option<Entry> {
        let kind = *bytes.first()?;
        if size(kind) != Some(bytes.len()) {
            return None;
        }
        let address_bytes = if kind < 6 { 4 } else { 16 };
        let port = |at: usize| u16::from_be_bytes([bytes[at], bytes[at + 1]]);
        let side = |ports: usize, at: usize| Side {
            address: address(&bytes[at..at + address_bytes]),
            prefix: bytes[at + address_bytes],
            low: port(ports),
            high: port(ports + 2),
        };
        let behind = 13 + 2 * (address_bytes + 1);
        let said = kind % 2 == 1;
        let (flags, key) = (bytes[1], &bytes[behind + usize::from(said)..]);
        let algorithm = match bytes[2] {
            1 => Some(Algorithm::HmacSha1),
            2 => Some(Algorithm::Aes128Cmac),
            3 => Some(Algorithm::HmacSha256),
            MD5 => None,
            _ => return None,
        };
        let by_ao = |algorithm| {
            Signing::TcpAo(TcpAo {
                send_id: bytes[3],
                recv_id: bytes[4],
                algorithm,
                mac_length: said.then_some(bytes[behind]),
                all_options: flags & 1 != 0,
                local_nat: flags & 2 != 0,
                remote_nat: flags & 4 != 0,
            })
        };
        let signing = algorithm.map_or(Signing::TcpMd5, by_ao);
        let (length, key) = key.split_first()?;
        Some(Entry {
            local: side(5, 13),
            remote: side(9, 13 + address_bytes + 1),
            signing,
            key: key.get(..usize::from(*length))?.to_vec(),
        })
    }

    /// The entry as the peer has it: sides, IDs and translated sides exchanged.
    pub fn mirrored(&self) -> Entry {
        let signing = match self.signing {
            Signing::TcpMd5 => Signing::TcpMd5,
            Signing::TcpAo(ao) => Signing::TcpAo(TcpAo {
                send_id: ao.recv_id,
                recv_id: ao.send_id,
                local_nat: ao.remote_nat,
                remote_nat: ao.local_nat,
                ..ao
            }),
        };
        Entry {
            local: self.remote,
            remote: self.local,
            signing,
            key: self.key.clone(),
        }
    }

    /// Where two entries match one pair, local and remote end of such a pair.
    pub fn common_pair(&self, other: &Entry) -> [SocketAddr; 2] {
        let local = self.local.common(&other.local);
        [local, self.remote.common(&other.remote)]
    }
}

fn address(bytes: &[u8]) -> IpAddr {
    match <[u8; 4]>::try_from(bytes) {
        Ok(bytes) => bytes.into(),
        Err(_) => {
            let mut sixteen = [0; 16];
            sixteen.copy_from_slice(bytes);
            sixteen.into()
        }
    }
}

#[cfg(test)]
mod tests {
    use super::*;

    fn ao(entry: &Entry) -> (u8, u8, Option<u8>, [bool; 3]) {
        let Signing::TcpAo(ao) = entry.signing else {
            panic!("an MD5 entry");
        };
        let flags = [ao.all_options, ao.local_nat, ao.remote_nat];
        (ao.send_id, ao.recv_id, ao.mac_length, flags)
    }

    /// The bytes are `kit`'s, which knows them from the papers.
    #[test]
    fn bytes() {
        let local = kit::Side::any(4).prefix(&[10, 0, 0, 0], 8).ports(100, 179);
        let mut entry = kit::Entry {
            flags: 3,
            algorithm: 2,
            local,
            remote: kit::Side::host(&[10, 0, 0, 2]),
            key: b"key".to_vec(),
            ..kit::Entry::default()
        }
        .ids(61, 84);
        let read = Entry::read(&entry.bytes()).unwrap();
        assert_eq!(ao(&read), (61, 84, None, [true, true, false]));
        let side = Side::new([10, 0, 0, 0], 8);
        let (low, high) = (100, 179);
        assert_eq!(read.local, Side { low, high, ..side });
        assert_eq!(read.remote, Side::new([10, 0, 0, 2], 32));
        assert_eq!(read.key, b"key");
        let mirrored = read.mirrored();
        assert_eq!(ao(&mirrored), (84, 61, None, [true, false, true]));
        assert_eq!((mirrored.local, mirrored.remote), (read.remote, read.local));
        assert_eq!(mirrored.mirrored(), read);

        entry.mac_length = Some(16);
        entry.local = kit::Side::any(16);
        entry.remote = kit::Side::host(&[0xFD; 16]);
        let read = Entry::read(&entry.bytes()).unwrap();
        assert_eq!(ao(&read).2, Some(16));
        assert_eq!(read.remote, Side::new([0xFD; 16], 128));
    }

    #[test]
    fn tables() {
        let entry = kit::Entry::default().bytes();
        let longer = kit::Entry {
            mac_length: Some(4),
            ..kit::Entry::default()
        };
        let table = [entry.clone(), longer.bytes(), entry.clone()].concat();
        assert_eq!(split(&table), [&entry[..], &longer.bytes(), &entry]);
        assert_eq!(split(&table[..table.len() - 1]).len(), 2);
        assert!(split(b"hello").is_empty());
        assert_eq!(Entry::read(&entry[1..]), None);
        assert_eq!(Entry::read(&[]), None);
    }
}
