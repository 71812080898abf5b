//! The key table and its entries, and both tables together. Document 01, "Key table"; document 02.

use crate::answer::{Answer, Refusal};
use crate::md5::Md5Table;
use crate::raw;
use std::fmt;
use std::net::{IpAddr, Ipv4Addr, Ipv6Addr};
use std::ops::RangeInclusive;

/// The forms of tables that the archive takes: their own bytes, and prepared.
pub(crate) const BYTES: u8 = 0;
const PREPARED: u8 = 1;

/// A key table that the archive has checked: none of 10 to 17 applies to it.
///
/// ```
/// use embankery::{Entry, KeyTable, Table};
///
/// let old = Entry::ipv4().send_id(1).recv_id(1).key(b"last year's key").build()?;
/// let new = Entry::ipv4().send_id(2).recv_id(2).key(b"this year's key").build()?;
/// let table = KeyTable::new([&old, &new])?;
/// assert_eq!(table.len(), 2);
///
/// // Both match every IPv4 connection, so they must not share an ID.
/// let refusal = KeyTable::new([&old, &old]).unwrap_err();
/// assert_eq!((refusal.number(), refusal.entry()), (17, Some((Table::Keys, 1))));
/// # Ok::<(), embankery::Refusal>(())
/// ```
#[derive(Clone, PartialEq, Eq)]
pub struct KeyTable {
    bytes: Vec<u8>,
    len: usize,
}

impl KeyTable {
    /// A table of these entries, at most 1,024, in this order. None is allowed: such a table matches no connection.
    pub fn new<'a>(entries: impl IntoIterator<Item = &'a Entry>) -> Result<KeyTable, Refusal> {
        let mut bytes = Vec::new();
        for entry in entries {
            bytes.extend_from_slice(entry.as_bytes());
        }
        KeyTable::from_bytes(bytes)
    }

    /// A table from its bytes, of which document 01 fixes each.
    ///
    /// ```
    /// use embankery::{Entry, KeyTable};
    ///
    /// let entry = Entry::ipv6().send_id(7).recv_id(9).key(b"key").build()?;
    /// let table = KeyTable::from_bytes(entry.as_bytes())?;
    /// assert_eq!(table, KeyTable::new([&entry])?);
    /// assert_eq!(KeyTable::from_bytes([8]).unwrap_err().number(), 11);
    /// # Ok::<(), embankery::Refusal>(())
    /// ```
    pub fn from_bytes(bytes: impl Into<Vec<u8>>) -> Result<KeyTable, Refusal> {
        let bytes = bytes.into();
        let len = Answer(raw::check_table(BYTES, &bytes, &[])).done()? as usize;
        Ok(KeyTable { bytes, len })
    }

    /// The table's bytes. They hold the master keys.
    pub fn as_bytes(&self) -> &[u8] {
        &self.bytes
    }

    /// How many entries there are.
    pub fn len(&self) -> usize {
        self.len
    }

    /// Whether there are none.
    pub fn is_empty(&self) -> bool {
        self.len == 0
    }
}

/// Shows no key.
impl fmt::Debug for KeyTable {
    fn fmt(&self, f: &mut fmt::Formatter) -> fmt::Result {
        f.debug_struct("KeyTable")
            .field("len", &self.len)
            .finish_non_exhaustive()
    }
}

/// Both tables, as every call on a connection takes them. A `&KeyTable` or a `&Md5Table` stands for one without
/// the other, a `&PreparedTables` for both.
///
/// Every call checks the tables anew, which takes long where they have many entries:
/// [`prepared`](Tables::prepared) does that once.
///
/// A pair goes by the table that has an entry for it: by TCP-AO or by TCP MD5, never by both.
///
/// ```
/// use embankery::{Entry, KeyTable, Md5Entry, Md5Table, Refusal, Table, Tables};
///
/// let keys = KeyTable::new([&Entry::ipv4().remote([10, 0, 0, 0], 16).key(b"key").build()?])?;
/// let md5_entry = |address| Md5Entry::ipv4().remote(address, 32).key(b"old key").build();
/// let md5 = Md5Table::new([&md5_entry([10, 1, 0, 1])?, &md5_entry([10, 1, 0, 2])?])?;
/// let tables = Tables::new(&keys, &md5)?;
///
/// // The second of these is for a pair of the other table, too.
/// let md5 = Md5Table::new([&md5_entry([10, 1, 0, 1])?, &md5_entry([10, 0, 0, 9])?])?;
/// let refused = Refusal::TwoWays { table: Table::Md5, entry: 1 };
/// assert_eq!(Tables::new(&keys, &md5).unwrap_err(), refused);
/// # Ok::<(), embankery::Refusal>(())
/// ```
#[derive(Clone, Copy)]
pub struct Tables<'a> {
    /// 0: the tables' own bytes; else `keys` is a prepared table, and `md5` empty.
    pub(crate) form: u8,
    pub(crate) keys: &'a [u8],
    pub(crate) md5: &'a [u8],
}

impl<'a> Tables<'a> {
    /// Both tables. Refused with 45 if a socket pair exists that an entry of each matches.
    pub fn new(keys: &'a KeyTable, md5: &'a Md5Table) -> Result<Tables<'a>, Refusal> {
        let (keys, md5) = (keys.as_bytes(), md5.as_bytes());
        Answer(raw::check_table(BYTES, keys, md5)).done()?;
        Ok(Tables::of_bytes(keys, md5))
    }

    fn of_bytes(keys: &'a [u8], md5: &'a [u8]) -> Tables<'a> {
        Tables {
            form: BYTES,
            keys,
            md5,
        }
    }

    /// The tables prepared, so that the calls need not check them again. The archive checks them once more for
    /// it; what was checked here before is not refused.
    pub fn prepared(self) -> Result<PreparedTables, Refusal> {
        if self.form != BYTES {
            return PreparedTables::from_bytes(self.keys);
        }
        let room = PreparedTables::length(entries(self.keys) + entries(self.md5));
        let mut bytes = vec![0; room];
        let length = Answer(raw::prepare(self.keys, self.md5, &mut bytes)).done()?;
        bytes.truncate(length as usize);
        PreparedTables::from_bytes(bytes)
    }
}

/// How many entries tables have that are not refused.
pub(crate) fn entries(table: &[u8]) -> usize {
    let (mut rest, mut count) = (table, 0);
    while let Some(kind) = rest.first() {
        let bytes = match kind {
            4 => 104,
            5 => 105,
            6 => 128,
            _ => 129,
        };
        rest = rest.get(bytes..).unwrap_or_default();
        count += 1;
    }
    count
}

/// Both tables, prepared once: a call with them gives what it gives with the tables that they were made of, and
/// does not check them again. That pays from a few entries on; with a thousand a call would spend nearly all its
/// time on the check.
///
/// They do not follow the tables: where these change, prepare anew. Keep them as safe as the tables. They may be
/// shared between threads, and kept as bytes for the same version of the library.
///
/// ```
/// use embankery::{Connection, Entry, KeyTable, PreparedTables, Tables};
///
/// let peer = |last| Entry::ipv4().remote([10, 0, 0, last], 32).key(b"key").build();
/// let peers = (0..=255).map(peer).collect::<Result<Vec<_>, _>>()?;
/// let keys = KeyTable::new(&peers)?;
/// let prepared = Tables::from(&keys).prepared()?;
/// assert_eq!(prepared.len(), 256);
///
/// let (here, there) = (([192, 0, 2, 1], 40_000), ([10, 0, 0, 77], 179));
/// let connection = Connection::open_active(&prepared, here, there, 1_000, 0)?;
/// assert_eq!(connection, Connection::open_active(&keys, here, there, 1_000, 0)?);
///
/// // They may be kept as bytes.
/// let read = PreparedTables::from_bytes(prepared.as_bytes())?;
/// assert_eq!(read, prepared);
/// # Ok::<(), embankery::Refusal>(())
/// ```
#[derive(Clone, PartialEq, Eq)]
pub struct PreparedTables {
    bytes: Vec<u8>,
}

impl PreparedTables {
    /// How many bytes the prepared form of so many entries has, of both tables together; `usize::MAX` where it would be
    /// more, which no tables have.
    ///
    /// ```
    /// use embankery::PreparedTables;
    ///
    /// assert_eq!(PreparedTables::length(2 * 1_024), 264_196);
    /// assert_eq!(PreparedTables::length(usize::MAX), usize::MAX);
    /// ```
    pub const fn length(entries: usize) -> usize {
        entries.saturating_mul(129).saturating_add(4)
    }

    /// From the bytes of prepared tables, which `docs/BOUNDARY.md` has one by one. Refused with 44 if their length
    /// is not that of their counts, or a count is above 1,024. Nothing else is tested: what stands there reads as
    /// entries, whatever it is. So this is for bytes that [`as_bytes`](PreparedTables::as_bytes) gave; of others
    /// the entries may clash, and the first that fits is taken.
    ///
    /// ```
    /// use embankery::{PreparedTables, Refusal};
    ///
    /// assert!(PreparedTables::from_bytes([0; 4])?.is_empty());
    /// assert_eq!(PreparedTables::from_bytes([0; 5]), Err(Refusal::Prepared));
    /// # Ok::<(), embankery::Refusal>(())
    /// ```
    pub fn from_bytes(bytes: impl Into<Vec<u8>>) -> Result<PreparedTables, Refusal> {
        let bytes = bytes.into();
        Answer(raw::check_table(PREPARED, &bytes, &[])).done()?;
        Ok(PreparedTables { bytes })
    }

    /// The bytes. They hold the keys.
    pub fn as_bytes(&self) -> &[u8] {
        &self.bytes
    }

    /// How many entries of the key table there are.
    pub fn len(&self) -> usize {
        usize::from(u16::from_be_bytes([self.bytes[0], self.bytes[1]]))
    }

    /// How many entries of the MD5 table there are.
    pub fn md5_len(&self) -> usize {
        usize::from(u16::from_be_bytes([self.bytes[2], self.bytes[3]]))
    }

    /// Whether neither table has one: not so, if only the MD5 table does, though [`len`](PreparedTables::len) is 0.
    pub fn is_empty(&self) -> bool {
        self.len() + self.md5_len() == 0
    }
}

/// Shows no key.
impl fmt::Debug for PreparedTables {
    fn fmt(&self, f: &mut fmt::Formatter) -> fmt::Result {
        f.debug_struct("PreparedTables")
            .field("len", &self.len())
            .field("md5_len", &self.md5_len())
            .finish_non_exhaustive()
    }
}

impl<'a> From<&'a PreparedTables> for Tables<'a> {
    fn from(prepared: &'a PreparedTables) -> Tables<'a> {
        Tables {
            form: PREPARED,
            keys: &prepared.bytes,
            md5: &[],
        }
    }
}

impl<'a> From<&'a KeyTable> for Tables<'a> {
    fn from(keys: &'a KeyTable) -> Tables<'a> {
        Tables::of_bytes(keys.as_bytes(), &[])
    }
}

impl<'a> From<&'a Md5Table> for Tables<'a> {
    fn from(md5: &'a Md5Table) -> Tables<'a> {
        Tables::of_bytes(&[], md5.as_bytes())
    }
}

/// Shows no key.
impl fmt::Debug for Tables<'_> {
    fn fmt(&self, f: &mut fmt::Formatter) -> fmt::Result {
        f.debug_struct("Tables").finish_non_exhaustive()
    }
}

/// The MAC algorithm of an entry, with its key derivation (RFC 5926, and for HMAC-SHA-256 document 02). Its
/// MAC has 96 bits, 12 bytes, unless the entry says otherwise: [`EntryBuilder::mac_length`].
#[derive(Clone, Copy, Debug, PartialEq, Eq, Hash)]
#[non_exhaustive]
pub enum Algorithm {
    /// 1: HMAC-SHA-1-96.
    HmacSha1_96,
    /// 2: AES-128-CMAC-96.
    Aes128Cmac96,
    /// 3: HMAC-SHA-256, as MAC and in key derivation.
    HmacSha256,
}

/// Which of a segment's options the MAC covers.
#[derive(Clone, Copy, Debug, PartialEq, Eq, Hash)]
pub enum Covered {
    /// Flag 0: TCP-AO only, so that others may change on the way.
    OnlyTcpAo,
    /// Flag 1: all of them.
    AllOptions,
}

/// One entry of a key table (an MKT), made by [`Entry::ipv4`] or [`Entry::ipv6`].
///
/// ```
/// use embankery::{Algorithm, Covered, Entry};
///
/// let entry = Entry::ipv4()
///     .local([192, 0, 2, 1], 32)
///     .remote([198, 51, 100, 0], 24)
///     .local_ports(179..=179)
///     .send_id(61)
///     .recv_id(84)
///     .algorithm(Algorithm::Aes128Cmac96)
///     .covered(Covered::OnlyTcpAo)
///     .key(b"testvector")
///     .build()?;
/// assert_eq!(entry.as_bytes().len(), 104);
/// # Ok::<(), embankery::Refusal>(())
/// ```
#[derive(Clone, PartialEq, Eq)]
pub struct Entry {
    bytes: Vec<u8>,
}

// Where the IDs stand in an entry's bytes.
const SEND_ID: usize = 3;
const RECV_ID: usize = 4;

impl Entry {
    /// An entry for IPv4. Until the builder is told otherwise it matches every address and port,
    /// has SendID and RecvID 0, HMAC-SHA-1-96, a MAC of 12 bytes, all options covered, no side translated
    /// on the way, and no key, which [`build`] refuses.
    ///
    /// [`build`]: EntryBuilder::build
    pub fn ipv4() -> EntryBuilder {
        EntryBuilder::new(Ipv4Addr::UNSPECIFIED.into())
    }

    /// An entry for IPv6, otherwise as [`Entry::ipv4`] has it.
    pub fn ipv6() -> EntryBuilder {
        EntryBuilder::new(Ipv6Addr::UNSPECIFIED.into())
    }

    /// The entry's bytes in a table. They hold the master key.
    pub fn as_bytes(&self) -> &[u8] {
        &self.bytes
    }
}

/// Shows no key.
impl fmt::Debug for Entry {
    fn fmt(&self, f: &mut fmt::Formatter) -> fmt::Result {
        f.debug_struct("Entry")
            .field("send_id", &self.bytes[SEND_ID])
            .field("recv_id", &self.bytes[RECV_ID])
            .finish_non_exhaustive()
    }
}

/// A side of the connections that an entry is for.
#[derive(Clone)]
pub(crate) struct Side {
    pub address: IpAddr,
    pub prefix: u8,
    pub ports: RangeInclusive<u16>,
}

impl Side {
    /// Every address of this one's family, and every port.
    pub fn any(any: IpAddr) -> Side {
        Side {
            address: any,
            prefix: 0,
            ports: 0..=u16::MAX,
        }
    }
}

/// An entry's bytes, in document 01's order: kind, flags, algorithm and IDs, the sides, the MAC's length if it
/// is said (document 02, Ticket 4), the key. A key that does not fit is cut to 80 bytes, with a length above 80
/// beside it that the archive refuses.
pub(crate) fn entry_bytes(
    front: [u8; 5],
    sides: [&Side; 2],
    mac_length: Option<u8>,
    key: &[u8],
) -> Vec<u8> {
    const KEY_BYTES: usize = 80;
    let mut bytes = front.to_vec();
    for side in sides {
        bytes.extend(side.ports.start().to_be_bytes());
        bytes.extend(side.ports.end().to_be_bytes());
    }
    for side in sides {
        match side.address {
            IpAddr::V4(address) => bytes.extend(address.octets()),
            IpAddr::V6(address) => bytes.extend(address.octets()),
        }
        bytes.push(side.prefix);
    }
    bytes.extend(mac_length);
    bytes.push(key.len().min(255) as u8);
    let end = bytes.len() + KEY_BYTES;
    bytes.extend(key.iter().take(KEY_BYTES));
    bytes.resize(end, 0);
    bytes
}

/// What an [`Entry`] is made from. Nothing is tested before [`build`](EntryBuilder::build).
#[derive(Clone)]
#[must_use = "an entry is made by build()"]
pub struct EntryBuilder {
    any: IpAddr,
    local: Side,
    remote: Side,
    send_id: u8,
    recv_id: u8,
    algorithm: Algorithm,
    covered: Covered,
    local_nat: bool,
    remote_nat: bool,
    mac_length: Option<u8>,
    key: Vec<u8>,
}

impl EntryBuilder {
    fn new(any: IpAddr) -> EntryBuilder {
        EntryBuilder {
            any,
            local: Side::any(any),
            remote: Side::any(any),
            send_id: 0,
            recv_id: 0,
            algorithm: Algorithm::HmacSha1_96,
            covered: Covered::AllOptions,
            local_nat: false,
            remote_nat: false,
            mac_length: None,
            key: Vec::new(),
        }
    }

    /// Our own address; its first `prefix` bits count, and the others must be zero.
    pub fn local(mut self, address: impl Into<IpAddr>, prefix: u8) -> EntryBuilder {
        self.local.address = address.into();
        self.local.prefix = prefix;
        self
    }

    /// The peer's address; its first `prefix` bits count, and the others must be zero.
    pub fn remote(mut self, address: impl Into<IpAddr>, prefix: u8) -> EntryBuilder {
        self.remote.address = address.into();
        self.remote.prefix = prefix;
        self
    }

    /// Our own ports, both ends included.
    pub fn local_ports(mut self, ports: RangeInclusive<u16>) -> EntryBuilder {
        self.local.ports = ports;
        self
    }

    /// The peer's ports, both ends included.
    pub fn remote_ports(mut self, ports: RangeInclusive<u16>) -> EntryBuilder {
        self.remote.ports = ports;
        self
    }

    /// The KeyID in segments that we sign by this entry. The peer has it as RecvID.
    pub fn send_id(mut self, id: u8) -> EntryBuilder {
        self.send_id = id;
        self
    }

    /// The KeyID in segments that the peer signs by this entry. The peer has it as SendID.
    pub fn recv_id(mut self, id: u8) -> EntryBuilder {
        self.recv_id = id;
        self
    }

    /// The MAC algorithm, the same at both ends.
    pub fn algorithm(mut self, algorithm: Algorithm) -> EntryBuilder {
        self.algorithm = algorithm;
        self
    }

    /// Which options the MAC covers, the same at both ends.
    pub fn covered(mut self, covered: Covered) -> EntryBuilder {
        self.covered = covered;
        self
    }

    /// Whether our own address and port are translated on the way (RFC 6978's localNAT). They then count as
    /// zero for the MAC and for the traffic key, so that whoever translates them may change either or both;
    /// the checksum is his to set right. The peer's entry says the same of its [`remote_nat`].
    ///
    /// All else goes by what is seen at each end: an entry matches, a segment arrives and a connection holds
    /// the addresses and ports as they are there.
    ///
    /// A client at 192.168.1.7, port 40000, that others see as 203.0.113.9, port 61001:
    ///
    /// ```
    /// use embankery::{Connection, Entry, KeyTable, UnknownKeyId};
    /// # fn summed(source: [u8; 4], destination: [u8; 4], segment: &mut [u8]) {
    /// #     segment[16..18].fill(0);
    /// #     let length = segment.len() as u8;
    /// #     let bytes = [&source[..], &destination, &[0, 6, 0, length], segment].concat();
    /// #     let words = bytes.chunks(2).map(|pair| u32::from(pair[0]) << 8 | u32::from(pair[1]));
    /// #     let sum: u32 = words.sum();
    /// #     segment[16..18].copy_from_slice(&(!(sum % 0xffff) as u16).to_be_bytes());
    /// # }
    ///
    /// let (inside, outside, server) = ([192, 168, 1, 7], [203, 0, 113, 9], [198, 51, 100, 1]);
    /// let entry = || Entry::ipv4().key(b"key");
    /// let at_client = entry().local(inside, 32).remote(server, 32).local_nat(true).build()?;
    /// let at_server = entry().local(server, 32).remote(outside, 32).remote_nat(true).build()?;
    /// let (client_keys, server_keys) = (KeyTable::new([&at_client])?, KeyTable::new([&at_server])?);
    ///
    /// let (from, to) = ((inside, 40_000), (server, 179));
    /// let mut client = Connection::open_active(&client_keys, from, to, 1_000, 0)?;
    /// let mut syn = [0; 20];
    /// syn[0..4].copy_from_slice(&[0x9c, 0x40, 0, 179]); // ports 40000 and 179
    /// syn[4..8].copy_from_slice(&1_000_u32.to_be_bytes());
    /// syn[12] = 0x50; // data offset: five words
    /// syn[13] = 0x02; // SYN
    /// let mut sent = client.sign(&client_keys, &syn)?;
    /// assert_eq!(sent[0..4], syn[0..4]);
    ///
    /// // On the way the address and the port become others, and `summed` puts in the checksum.
    /// sent[0..2].copy_from_slice(&61_001_u16.to_be_bytes());
    /// summed(outside, server, &mut sent);
    /// let drop = UnknownKeyId::Drop;
    /// let opened = Connection::open_passive(&server_keys, outside, server, &sent, 2_000, drop)?;
    /// assert_eq!(opened.expect("accepted").remote(), (outside, 61_001).into());
    /// # Ok::<(), embankery::Refusal>(())
    /// ```
    ///
    /// [`remote_nat`]: EntryBuilder::remote_nat
    pub fn local_nat(mut self, translated: bool) -> EntryBuilder {
        self.local_nat = translated;
        self
    }

    /// Whether the peer's address and port are translated on the way (RFC 6978's remoteNAT), as
    /// [`local_nat`](EntryBuilder::local_nat) has it for our own.
    pub fn remote_nat(mut self, translated: bool) -> EntryBuilder {
        self.remote_nat = translated;
        self
    }

    /// How many bytes the MAC has, 4 to 16, the same at both ends; 12 where it is not said. Said or not,
    /// 12 is the same MAC: the entry is of another kind, 5 (IPv4) or 7 (IPv6) where it is said and 4 or
    /// 6 where it is not.
    ///
    /// Signing adds 4 bytes and the MAC to a segment, and fills up to whole words: a MAC of 4 bytes costs
    /// 8, one of 5 to 8 bytes 12, one of 9 to 12 bytes 16, one of 13 to 16 bytes 20.
    ///
    /// ```
    /// use embankery::{Entry, Refusal};
    ///
    /// let entry = |bytes| Entry::ipv4().mac_length(bytes).key(b"key").build();
    /// assert_eq!(entry(16)?.as_bytes().len(), 105);
    /// assert_eq!(entry(17).unwrap_err().number(), 13);
    /// # Ok::<(), Refusal>(())
    /// ```
    pub fn mac_length(mut self, bytes: u8) -> EntryBuilder {
        self.mac_length = Some(bytes);
        self
    }

    /// The master key, 1 to 80 bytes, the same at both ends.
    pub fn key(mut self, key: impl AsRef<[u8]>) -> EntryBuilder {
        self.key = key.as_ref().to_vec();
        self
    }

    /// The entry, if the archive allows it: a bad length of the MAC is refused with 13, a bad port range
    /// with 14, a bad prefix with 15, a key without bytes or with more than 80 with 16. An address of the
    /// other family is refused with 19, which is this builder's own rule: no table could hold it.
    ///
    /// ```
    /// use embankery::{Entry, EntryBuilder, Refusal};
    ///
    /// let entry = |key: &[u8]| Entry::ipv4().local([10, 0, 0, 0], 8).key(key);
    /// let number = |entry: EntryBuilder| entry.build().unwrap_err().number();
    /// assert!(entry(&[1; 80]).build().is_ok());
    /// assert_eq!(number(entry(&[1; 81])), 16);
    /// assert_eq!(number(entry(b"key").remote([10, 0, 0, 0], 33)), 15);
    /// assert_eq!(entry(b"key").remote([0u16; 8], 0).build(), Err(Refusal::AddressSizes));
    /// ```
    pub fn build(self) -> Result<Entry, Refusal> {
        let family = |address: IpAddr| address.is_ipv4() == self.any.is_ipv4();
        if !family(self.local.address) || !family(self.remote.address) {
            return Err(Refusal::AddressSizes);
        }
        let bytes = self.bytes();
        Answer(raw::check_table(BYTES, &bytes, &[])).done()?;
        Ok(Entry { bytes })
    }

    /// The entry's bytes in a table, whether the archive allows them or not: a table with them tells. With
    /// addresses of two families they are no entry's. They hold the master key.
    ///
    /// ```
    /// use embankery::{Entry, KeyTable};
    ///
    /// let good = Entry::ipv4().key(b"key");
    /// assert_eq!(good.bytes(), good.clone().build()?.as_bytes());
    /// let table = [good.bytes(), good.local_ports(9..=8).bytes()].concat();
    /// assert_eq!(KeyTable::from_bytes(table).unwrap_err().number(), 14);
    /// # Ok::<(), embankery::Refusal>(())
    /// ```
    pub fn bytes(&self) -> Vec<u8> {
        // The flags of translated sides are document 02's, Ticket 10.
        let family = if self.any.is_ipv4() { 4 } else { 6 };
        let kind = family + u8::from(self.mac_length.is_some());
        let covered = match self.covered {
            Covered::OnlyTcpAo => 0,
            Covered::AllOptions => 1,
        };
        let flags = covered | u8::from(self.local_nat) << 1 | u8::from(self.remote_nat) << 2;
        let algorithm = match self.algorithm {
            Algorithm::HmacSha1_96 => 1,
            Algorithm::Aes128Cmac96 => 2,
            Algorithm::HmacSha256 => 3,
        };
        let front = [kind, flags, algorithm, self.send_id, self.recv_id];
        let sides = [&self.local, &self.remote];
        entry_bytes(front, sides, self.mac_length, &self.key)
    }
}

/// Shows no key.
impl fmt::Debug for EntryBuilder {
    fn fmt(&self, f: &mut fmt::Formatter) -> fmt::Result {
        f.debug_struct("EntryBuilder")
            .field("send_id", &self.send_id)
            .field("recv_id", &self.recv_id)
            .finish_non_exhaustive()
    }
}
