//! The table of TCP MD5's keys and its entries. Document 02, Ticket 9.

use crate::answer::{Answer, Refusal};
use crate::raw;
use crate::table::{entries, entry_bytes, Side, BYTES};
use std::fmt;
use std::net::{IpAddr, Ipv4Addr, Ipv6Addr};
use std::ops::RangeInclusive;

/// A table of keys for peers that sign only by TCP MD5 (RFC 2385), which the archive has checked: none of 10
/// to 17 applies to it.
///
/// It is given to the calls by itself or, beside a [`KeyTable`](crate::KeyTable), as
/// [`Tables`](crate::Tables). TCP MD5 is for those that have nothing better: where the peer knows TCP-AO, give
/// it an [`Entry`](crate::Entry).
///
/// ```
/// use embankery::{Md5Entry, Md5Table, Refusal, Table};
///
/// let peer = |last| Md5Entry::ipv4().remote([10, 1, 0, last], 32).key(b"old key").build();
/// let table = Md5Table::new([&peer(1)?, &peer(2)?])?;
/// assert_eq!(table.len(), 2);
///
/// // Two entries that match one pair are refused.
/// let all = Md5Entry::ipv4().remote([10, 1, 0, 0], 16).key(b"another").build()?;
/// let refused = Refusal::IdClash { table: Table::Md5, entry: 1 };
/// assert_eq!(Md5Table::new([&peer(1)?, &all]).unwrap_err(), refused);
/// # Ok::<(), embankery::Refusal>(())
/// ```
#[derive(Clone, PartialEq, Eq)]
pub struct Md5Table {
    bytes: Vec<u8>,
    len: usize,
}

impl Md5Table {
    /// A table of these entries, at most 1,024, in this order. None is allowed: such a table matches no connection.
    pub fn new<'a>(entries: impl IntoIterator<Item = &'a Md5Entry>) -> Result<Md5Table, Refusal> {
        let mut bytes = Vec::new();
        for entry in entries {
            bytes.extend_from_slice(entry.as_bytes());
        }
        Md5Table::from_bytes(bytes)
    }

    /// A table from its bytes: document 01's entries of kinds 4 and 6, with flags 0, algorithm 19 and both IDs
    /// 0. A key table is refused with 13, or 11.
    pub fn from_bytes(bytes: impl Into<Vec<u8>>) -> Result<Md5Table, Refusal> {
        let bytes = bytes.into();
        Answer(raw::check_table(BYTES, &[], &bytes)).done()?;
        let len = entries(&bytes);
        Ok(Md5Table { bytes, len })
    }

    /// The table's bytes. They hold the keys.
    pub fn as_bytes(&self) -> &[u8] {
        &self.bytes
    }

    /// How many entries there are.
    pub fn len(&self) -> usize {
        self.len
    }

    /// Whether there are none.
    pub fn is_empty(&self) -> bool {
        self.len == 0
    }
}

/// Shows no key.
impl fmt::Debug for Md5Table {
    fn fmt(&self, f: &mut fmt::Formatter) -> fmt::Result {
        f.debug_struct("Md5Table")
            .field("len", &self.len)
            .finish_non_exhaustive()
    }
}

/// One entry of an MD5 table, made by [`Md5Entry::ipv4`] or [`Md5Entry::ipv6`].
#[derive(Clone, PartialEq, Eq)]
pub struct Md5Entry {
    bytes: Vec<u8>,
}

impl Md5Entry {
    /// An entry for IPv4. Until the builder is told otherwise it matches every address and port, and has no
    /// key, which [`build`] refuses.
    ///
    /// [`build`]: Md5EntryBuilder::build
    pub fn ipv4() -> Md5EntryBuilder {
        Md5EntryBuilder::new(Ipv4Addr::UNSPECIFIED.into())
    }

    /// An entry for IPv6, otherwise as [`Md5Entry::ipv4`] has it.
    pub fn ipv6() -> Md5EntryBuilder {
        Md5EntryBuilder::new(Ipv6Addr::UNSPECIFIED.into())
    }

    /// The entry's bytes in a table. They hold the key.
    pub fn as_bytes(&self) -> &[u8] {
        &self.bytes
    }
}

/// Shows no key.
impl fmt::Debug for Md5Entry {
    fn fmt(&self, f: &mut fmt::Formatter) -> fmt::Result {
        f.debug_struct("Md5Entry").finish_non_exhaustive()
    }
}

/// What an [`Md5Entry`] is made from. Nothing is tested before [`build`](Md5EntryBuilder::build).
#[derive(Clone)]
#[must_use = "an entry is made by build()"]
pub struct Md5EntryBuilder {
    any: IpAddr,
    local: Side,
    remote: Side,
    key: Vec<u8>,
}

impl Md5EntryBuilder {
    fn new(any: IpAddr) -> Md5EntryBuilder {
        Md5EntryBuilder {
            any,
            local: Side::any(any),
            remote: Side::any(any),
            key: Vec::new(),
        }
    }

    /// Our own address; its first `prefix` bits count, and the others must be zero.
    pub fn local(mut self, address: impl Into<IpAddr>, prefix: u8) -> Md5EntryBuilder {
        self.local.address = address.into();
        self.local.prefix = prefix;
        self
    }

    /// The peer's address; its first `prefix` bits count, and the others must be zero.
    pub fn remote(mut self, address: impl Into<IpAddr>, prefix: u8) -> Md5EntryBuilder {
        self.remote.address = address.into();
        self.remote.prefix = prefix;
        self
    }

    /// Our own ports, both ends included.
    pub fn local_ports(mut self, ports: RangeInclusive<u16>) -> Md5EntryBuilder {
        self.local.ports = ports;
        self
    }

    /// The peer's ports, both ends included.
    pub fn remote_ports(mut self, ports: RangeInclusive<u16>) -> Md5EntryBuilder {
        self.remote.ports = ports;
        self
    }

    /// The key, 1 to 80 bytes, the same at both ends.
    pub fn key(mut self, key: impl AsRef<[u8]>) -> Md5EntryBuilder {
        self.key = key.as_ref().to_vec();
        self
    }

    /// The entry, if the archive allows it: a bad port range is refused with 14, a bad prefix with 15, a key
    /// without bytes or with more than 80 with 16. An address of the other family is refused with 19, which is
    /// this builder's own rule: no table could hold it.
    ///
    /// ```
    /// use embankery::{Md5Entry, Refusal};
    ///
    /// let entry = Md5Entry::ipv6().remote_ports(179..=179).key(b"key");
    /// assert_eq!(entry.clone().build()?.as_bytes().len(), 128);
    /// assert_eq!(entry.clone().key(b"").build().unwrap_err().number(), 16);
    /// assert_eq!(entry.local([10, 0, 0, 1], 32).build(), Err(Refusal::AddressSizes));
    /// # Ok::<(), Refusal>(())
    /// ```
    pub fn build(self) -> Result<Md5Entry, Refusal> {
        let family = |address: IpAddr| address.is_ipv4() == self.any.is_ipv4();
        if !family(self.local.address) || !family(self.remote.address) {
            return Err(Refusal::AddressSizes);
        }
        let bytes = self.bytes();
        Answer(raw::check_table(BYTES, &[], &bytes)).done()?;
        Ok(Md5Entry { bytes })
    }

    /// The entry's bytes in a table, whether the archive allows them or not, as
    /// [`EntryBuilder::bytes`](crate::EntryBuilder::bytes) has it. They hold the key.
    pub fn bytes(&self) -> Vec<u8> {
        let kind = if self.any.is_ipv4() { 4 } else { 6 };
        let (front, sides) = ([kind, 0, 19, 0, 0], [&self.local, &self.remote]);
        entry_bytes(front, sides, None, &self.key)
    }
}

/// Shows no key.
impl fmt::Debug for Md5EntryBuilder {
    fn fmt(&self, f: &mut fmt::Formatter) -> fmt::Result {
        f.debug_struct("Md5EntryBuilder").finish_non_exhaustive()
    }
}
