//! A connection's state and the calls on it. Document 01, "A connection's life".

use crate::answer::{Answer, Refusal, Verdict};
use crate::raw;
use crate::table::Tables;
use std::fmt;
use std::net::{IpAddr, SocketAddr};

/// What a bare SYN with TCP-AO gets where no entry matches its pair.
///
/// This decides nothing where an entry matches the pair: if none that matches has the segment's
/// KeyID as RecvID, the SYN is dropped with 26 whatever is chosen here. So a wrong KeyID is no way
/// around the keys of a pair. Nor does it where an entry of the MD5 table matches: the SYN is then
/// dropped with 46.
#[derive(Clone, Copy, Debug, PartialEq, Eq, Hash)]
pub enum UnknownKeyId {
    /// It passes: TCP may go on without TCP-AO.
    Pass,
    /// It is dropped with 26.
    Drop,
}

impl UnknownKeyId {
    /// The archive's setting: 0 pass, any other value drop 26.
    fn setting(self) -> u8 {
        match self {
            UnknownKeyId::Pass => 0,
            UnknownKeyId::Drop => 1,
        }
    }
}

/// An address as the archive takes it: 4 or 16 bytes, so an IPv4-mapped one is IPv6.
struct Octets {
    bytes: [u8; 16],
    len: usize,
}

impl Octets {
    fn of(address: IpAddr) -> Octets {
        match address {
            IpAddr::V4(address) => {
                let mut bytes = [0; 16];
                bytes[..4].copy_from_slice(&address.octets());
                Octets { bytes, len: 4 }
            }
            IpAddr::V6(address) => Octets {
                bytes: address.octets(),
                len: 16,
            },
        }
    }

    fn as_slice(&self) -> &[u8] {
        &self.bytes[..self.len]
    }
}

/// Which way the segments of a connection are signed. It is the way by which it was opened, and the other is
/// never accepted.
#[derive(Clone, Copy, Debug, PartialEq, Eq, Hash)]
pub enum Way {
    /// By TCP-AO, with the keys of a [`KeyTable`](crate::KeyTable).
    TcpAo,
    /// By TCP MD5 (RFC 2385), with the keys of an [`Md5Table`](crate::Md5Table).
    TcpMd5,
}

/// Judges an arriving bare SYN without a connection. [`Connection::open_passive`] judges it again.
///
/// It goes by the table that has an entry for its pair. Where that is the MD5 table, a SYN with TCP-AO gets 46
/// and one with neither 47.
///
/// ```
/// use embankery::{judge_syn, Entry, KeyTable, Refusal, UnknownKeyId, Verdict};
///
/// let table = KeyTable::new([&Entry::ipv4().remote([10, 0, 0, 0], 8).key(b"key").build()?])?;
/// let (here, peer, other) = ([192, 0, 2, 1], [10, 0, 0, 1], [192, 0, 2, 9]);
/// # fn summed(source: [u8; 4], destination: [u8; 4], segment: &[u8]) -> Vec<u8> {
/// #     let length = segment.len() as u8;
/// #     let bytes = [&source[..], &destination, &[0, 6, 0, length], segment].concat();
/// #     let words = bytes.chunks(2).map(|pair| u32::from(pair[0]) << 8 | u32::from(pair[1]));
/// #     let sum: u32 = words.sum();
/// #     let mut segment = segment.to_vec();
/// #     segment[16..18].copy_from_slice(&(!(sum % 0xffff) as u16).to_be_bytes());
/// #     segment
/// # }
/// // `summed` puts in the checksum.
/// let mut syn = [0; 20];
/// syn[12] = 0x50; // data offset: five words
/// syn[13] = 0x02; // SYN
///
/// // An entry matches peers from 10.0.0.0/8, so these must sign.
/// let arrives = summed(peer, here, &syn);
/// let verdict = judge_syn(&table, peer, here, &arrives, UnknownKeyId::Drop);
/// assert_eq!(verdict, Verdict::Drop(Refusal::OptionMissing));
///
/// // None matches other peers, so TCP may go on without TCP-AO.
/// let arrives = summed(other, here, &syn);
/// let verdict = judge_syn(&table, other, here, &arrives, UnknownKeyId::Drop);
/// assert_eq!(verdict, Verdict::Pass);
///
/// // With TCP-AO and a KeyID that no entry has: dropped where an entry matches, whatever is chosen.
/// let mut syn = [syn.to_vec(), vec![29, 16, 7, 7], vec![0; 12]].concat();
/// syn[12] = 0x90; // data offset: nine words
/// let arrives = summed(peer, here, &syn);
/// let verdict = judge_syn(&table, peer, here, &arrives, UnknownKeyId::Pass);
/// assert_eq!(verdict, Verdict::Drop(Refusal::UnknownKeyId));
/// let arrives = summed(other, here, &syn);
/// let verdict = judge_syn(&table, other, here, &arrives, UnknownKeyId::Pass);
/// assert_eq!(verdict, Verdict::Pass);
///
/// // With a wrong checksum nothing else is looked at.
/// let verdict = judge_syn(&table, other, here, &syn, UnknownKeyId::Pass);
/// assert_eq!(verdict, Verdict::Drop(Refusal::Checksum));
/// # Ok::<(), embankery::Refusal>(())
/// ```
pub fn judge_syn<'a>(
    tables: impl Into<Tables<'a>>,
    source: impl Into<IpAddr>,
    destination: impl Into<IpAddr>,
    segment: &[u8],
    unknown: UnknownKeyId,
) -> Verdict {
    let tables = tables.into();
    Answer(raw::judge_syn(
        tables.form,
        tables.keys,
        tables.md5,
        Octets::of(source.into()).as_slice(),
        Octets::of(destination.into()).as_slice(),
        segment,
        unknown.setting(),
    ))
    .verdict()
}

/// One end of a connection: the state that each call is given and changes.
///
/// It holds no key; the tables go beside it to each call, and may change between calls. A value is
/// always a state of IPv4 or IPv6. Copies are apart from each other: of two that both sign, the peer
/// sees one sender. `==` compares all bytes of two states, also the twelve behind an IPv4 address,
/// which mean nothing; an opening sets these to zero.
///
/// Addresses are taken as they are: an IPv4-mapped one counts as IPv6, and of an IPv6 socket address
/// the scope and the flow are dropped.
///
/// ```
/// use embankery::{Connection, Entry, KeyTable, UnknownKeyId, Verdict};
/// # fn segment(from: u16, to: u16, number: u32, flags: u8) -> Vec<u8> {
/// #     let mut bytes = [from.to_be_bytes(), to.to_be_bytes()].concat();
/// #     bytes.extend(number.to_be_bytes());
/// #     bytes.extend([0, 0, 0, 0, 0x50, flags, 0, 0, 0, 0, 0, 0]);
/// #     bytes
/// # }
///
/// let here = ([192, 0, 2, 1], 40_000);
/// let there = ([192, 0, 2, 2], 179);
/// let ours = KeyTable::new([&Entry::ipv4().send_id(1).recv_id(2).key(b"key").build()?])?;
/// let theirs = KeyTable::new([&Entry::ipv4().send_id(2).recv_id(1).key(b"key").build()?])?;
///
/// // We open actively and sign our SYN; `segment` has ports, sequence number and flags.
/// let mut us = Connection::open_active(&ours, here, there, 1_000, 1)?;
/// let syn = us.sign(&ours, &segment(here.1, there.1, 1_000, 0x02))?;
///
/// // The peer opens passively with it and signs its SYN+ACK, which opens our end.
/// let mut peer =
///     Connection::open_passive(&theirs, here.0, there.0, &syn, 2_000, UnknownKeyId::Drop)?
///         .expect("an entry has this KeyID");
/// let syn_ack = peer.sign(&theirs, &segment(there.1, here.1, 2_000, 0x12))?;
/// assert!(!us.is_open());
/// assert_eq!(us.judge(&ours, there.0, here.0, &syn_ack), Verdict::Accept { extension: 0 });
/// assert!(us.is_open() && peer.is_open());
/// assert_eq!((us.peer_isn(), us.seen_reference()), (2_000, 2_000));
/// # Ok::<(), embankery::Refusal>(())
/// ```
#[derive(Clone, PartialEq, Eq, Hash)]
pub struct Connection {
    bytes: [u8; Connection::BYTES],
}

// Where the fields stand in a state's bytes.
const FAMILY: usize = 0;
const STAGE: usize = 1;
const SEND_ID: usize = 2;
const ASK_ID: usize = 3;
const LOCAL_PORT: usize = 4;
const REMOTE_PORT: usize = 6;
const ISN: usize = 8;
const PEER_ISN: usize = 12;
const LOCAL: usize = 16;
const REMOTE: usize = 32;
const SENT: usize = 48;
const SEEN: usize = 56;
const ACCEPTED: usize = 64;
const DROPS: usize = 72;
const WAY: usize = 176;

/// The drops that are counted, in the order of their counts.
const COUNTED: [u8; 13] = [20, 21, 22, 23, 24, 25, 26, 27, 28, 29, 40, 46, 47];

/// No option makes a header longer than by the whole option area.
const LONGEST_OPTIONS: usize = 40;

impl Connection {
    /// How many bytes a state has.
    pub const BYTES: usize = 177;

    /// Opens actively by TCP-AO: a bare SYN with the sequence number `isn` may then be signed, under the
    /// entry that has this SendID. Refused with 35 if no entry that matches has it, with 19 if one
    /// address is IPv4 and the other IPv6.
    ///
    /// ```
    /// use embankery::{Connection, Entry, KeyTable, Refusal};
    ///
    /// let table = KeyTable::new([&Entry::ipv4().send_id(1).recv_id(2).key(b"key").build()?])?;
    /// let (here, there) = (([10, 0, 0, 1], 40_000), ([10, 0, 0, 2], 179));
    /// let connection = Connection::open_active(&table, here, there, 1_000, 1)?;
    /// assert_eq!(connection.ask_id(), 2);
    /// assert_eq!(Connection::open_active(&table, here, there, 1_000, 7), Err(Refusal::NoEntry));
    /// # Ok::<(), embankery::Refusal>(())
    /// ```
    pub fn open_active<'a>(
        tables: impl Into<Tables<'a>>,
        local: impl Into<SocketAddr>,
        remote: impl Into<SocketAddr>,
        isn: u32,
        send_id: u8,
    ) -> Result<Connection, Refusal> {
        let tables = tables.into();
        let (local, remote) = (local.into(), remote.into());
        let mut bytes = [0; Connection::BYTES];
        Answer(raw::open_active(
            tables.form,
            tables.keys,
            tables.md5,
            Octets::of(local.ip()).as_slice(),
            Octets::of(remote.ip()).as_slice(),
            local.port(),
            remote.port(),
            isn,
            send_id,
            &mut bytes,
        ))
        .done()?;
        Ok(Connection { bytes })
    }

    /// Opens actively by TCP MD5: a bare SYN with the sequence number `isn` may then be signed. Refused with 35
    /// if no entry of the MD5 table matches, with 19 if one address is IPv4 and the other IPv6.
    ///
    /// ```
    /// use embankery::{Connection, Md5Entry, Md5Table, Refusal, Way};
    ///
    /// let table = Md5Table::new([&Md5Entry::ipv4().remote([10, 0, 0, 2], 32).key(b"key").build()?])?;
    /// let (here, there) = (([10, 0, 0, 1], 40_000), ([10, 0, 0, 2], 179));
    /// let mut connection = Connection::open_active_md5(&table, here, there, 1_000)?;
    /// assert_eq!(connection.way(), Way::TcpMd5);
    ///
    /// let mut syn = [0; 20];
    /// syn[0..4].copy_from_slice(&[0x9c, 0x40, 0, 179]); // ports 40000 and 179
    /// syn[4..8].copy_from_slice(&1_000_u32.to_be_bytes());
    /// syn[12] = 0x50; // data offset: five words
    /// syn[13] = 0x02; // SYN
    /// let signed = connection.sign(&table, &syn)?;
    /// assert_eq!((signed.len(), &signed[20..22]), (40, &[19, 18][..]));
    ///
    /// let elsewhere = ([10, 0, 0, 3], 179);
    /// let refused = Connection::open_active_md5(&table, here, elsewhere, 1_000);
    /// assert_eq!(refused, Err(Refusal::NoEntry));
    /// # Ok::<(), embankery::Refusal>(())
    /// ```
    pub fn open_active_md5<'a>(
        tables: impl Into<Tables<'a>>,
        local: impl Into<SocketAddr>,
        remote: impl Into<SocketAddr>,
        isn: u32,
    ) -> Result<Connection, Refusal> {
        let tables = tables.into();
        let (local, remote) = (local.into(), remote.into());
        let mut bytes = [0; Connection::BYTES];
        Answer(raw::open_active_md5(
            tables.form,
            tables.keys,
            tables.md5,
            Octets::of(local.ip()).as_slice(),
            Octets::of(remote.ip()).as_slice(),
            local.port(),
            remote.port(),
            isn,
            &mut bytes,
        ))
        .done()?;
        Ok(Connection { bytes })
    }

    /// Opens passively with an arriving bare SYN, which is judged as by [`judge_syn`]; `isn` is our
    /// own. The connection goes the way that the SYN is signed, and the SYN+ACK may then be signed. `None`
    /// means that the SYN only passed: no entry matches its pair, TCP may go on without TCP-AO, and there
    /// is no connection here. A SYN that is dropped is an error, also with 26 where an entry matches the
    /// pair and none has the KeyID, whatever `unknown` is.
    pub fn open_passive<'a>(
        tables: impl Into<Tables<'a>>,
        source: impl Into<IpAddr>,
        destination: impl Into<IpAddr>,
        segment: &[u8],
        isn: u32,
        unknown: UnknownKeyId,
    ) -> Result<Option<Connection>, Refusal> {
        let tables = tables.into();
        let mut bytes = [0; Connection::BYTES];
        let answer = Answer(raw::open_passive(
            tables.form,
            tables.keys,
            tables.md5,
            Octets::of(source.into()).as_slice(),
            Octets::of(destination.into()).as_slice(),
            segment,
            isn,
            unknown.setting(),
            &mut bytes,
        ));
        match answer.verdict() {
            Verdict::Accept { .. } => Ok(Some(Connection { bytes })),
            Verdict::Pass => Ok(None),
            Verdict::Drop(refusal) => Err(refusal),
        }
    }

    /// Judges an arriving segment, of which `source` is the peer's address. Addresses and ports are taken as
    /// the segment arrives with them, also of a side that the entry says is translated on the way.
    ///
    /// While the connection is opening, an accepted SYN+ACK opens it: that sets the peer's ISN and both
    /// references, to the ISNs, and clears the counts. Once open, acceptance sets the arriving
    /// direction's reference to the larger of the old one and the segment's position, and is counted.
    /// In both cases it may change the outgoing key. A drop 20 to 29, 40, 46 or 47 changes nothing but, once
    /// open, its count. Addresses of two families get 19, which is not counted.
    ///
    /// By TCP MD5, acceptance once open is counted and changes nothing else, whatever the segment's number.
    ///
    /// The checksum is tested first, over the addresses that are given here: a segment that was damaged on
    /// the way gets 40, one that was forged, with a right checksum, 29.
    pub fn judge<'a>(
        &mut self,
        tables: impl Into<Tables<'a>>,
        source: impl Into<IpAddr>,
        destination: impl Into<IpAddr>,
        segment: &[u8],
    ) -> Verdict {
        let tables = tables.into();
        Answer(raw::judge(
            tables.form,
            tables.keys,
            tables.md5,
            Octets::of(source.into()).as_slice(),
            Octets::of(destination.into()).as_slice(),
            segment,
            &mut self.bytes,
        ))
        .verdict()
    }

    /// Signs a segment that has neither TCP-AO nor TCP MD5. It gets longer by TCP-AO: 4 bytes and the MAC
    /// of the outgoing key's entry, filled up to whole words; by TCP MD5, 20 bytes. The result's checksum is right, over the
    /// connection's own addresses; the one that the segment has does not matter.
    pub fn sign<'a>(
        &mut self,
        tables: impl Into<Tables<'a>>,
        segment: &[u8],
    ) -> Result<Vec<u8>, Refusal> {
        // Longer segments are refused before the output's length matters.
        let longest = segment.len().min(usize::from(u16::MAX));
        let mut out = vec![0; longest + LONGEST_OPTIONS];
        let length = self.sign_into(tables, segment, &mut out)?;
        out.truncate(length);
        Ok(out)
    }

    /// Signs as [`sign`](Connection::sign) does, into a buffer, and gives how many bytes it wrote
    /// at the buffer's front. What stands behind them stays. A buffer that is too short gets 37.
    ///
    /// ```
    /// use embankery::{Connection, Entry, KeyTable, Refusal};
    ///
    /// let table = KeyTable::new([&Entry::ipv4().key(b"key").build()?])?;
    /// let (here, there) = (([10, 0, 0, 1], 1), ([10, 0, 0, 2], 2));
    /// let mut connection = Connection::open_active(&table, here, there, 0, 0)?;
    /// let syn = [0, 1, 0, 2, 0, 0, 0, 0, 0, 0, 0, 0, 0x50, 0x02, 0, 0, 0, 0, 0, 0];
    /// let mut out = [0xAA; 40];
    /// assert_eq!(connection.sign_into(&table, &syn, &mut out[..35]), Err(Refusal::OutputTooShort));
    /// assert_eq!(out, [0xAA; 40]);
    /// assert_eq!(connection.sign_into(&table, &syn, &mut out), Ok(36));
    /// assert_eq!(out[36..], [0xAA; 4]);
    /// # Ok::<(), embankery::Refusal>(())
    /// ```
    pub fn sign_into<'a>(
        &mut self,
        tables: impl Into<Tables<'a>>,
        segment: &[u8],
        out: &mut [u8],
    ) -> Result<usize, Refusal> {
        let Tables { form, keys, md5 } = tables.into();
        let answer = Answer(raw::sign(form, keys, md5, segment, out, &mut self.bytes));
        Ok(answer.done()? as usize)
    }

    /// Asks the peer, in what is signed from now on, to sign under the entry with this RecvID; also
    /// while opening. Refused with 35 if no entry that matches has it, and always by TCP MD5.
    pub fn ask<'a>(&mut self, tables: impl Into<Tables<'a>>, recv_id: u8) -> Result<(), Refusal> {
        let Tables { form, keys, md5 } = tables.into();
        Answer(raw::ask(form, keys, md5, recv_id, &mut self.bytes)).done()?;
        Ok(())
    }

    /// The state's bytes, to be kept and read again with [`from_bytes`](Connection::from_bytes).
    pub fn as_bytes(&self) -> &[u8; Connection::BYTES] {
        &self.bytes
    }

    /// A connection from its bytes. Bytes that every call would refuse with 18 are refused with 18:
    /// those that are not 177, or whose family is neither IPv4 nor IPv6. All others are a state, so
    /// an old copy is one too: it takes back the references, keys and counts.
    ///
    /// ```
    /// use embankery::{Connection, Refusal};
    ///
    /// let mut bytes = [0; Connection::BYTES];
    /// assert_eq!(Connection::from_bytes(&bytes), Err(Refusal::State));
    /// bytes[0] = 6;
    /// assert_eq!(Connection::from_bytes(&bytes)?.as_bytes(), &bytes);
    /// assert_eq!(Connection::from_bytes(&bytes[1..]), Err(Refusal::State));
    /// # Ok::<(), embankery::Refusal>(())
    /// ```
    pub fn from_bytes(bytes: &[u8]) -> Result<Connection, Refusal> {
        match <[u8; Connection::BYTES]>::try_from(bytes) {
            Ok(bytes) if matches!(bytes[FAMILY], 4 | 6) => Ok(Connection { bytes }),
            _ => Err(Refusal::State),
        }
    }

    /// The `N` bytes at a field's place.
    fn field<const N: usize>(&self, at: usize) -> [u8; N] {
        let mut field = [0; N];
        field.copy_from_slice(&self.bytes[at..at + N]);
        field
    }

    fn address(&self, at: usize) -> IpAddr {
        match self.bytes[FAMILY] {
            4 => IpAddr::from(self.field::<4>(at)),
            _ => IpAddr::from(self.field::<16>(at)),
        }
    }

    /// Our address and port.
    pub fn local(&self) -> SocketAddr {
        let port = u16::from_be_bytes(self.field(LOCAL_PORT));
        SocketAddr::new(self.address(LOCAL), port)
    }

    /// The peer's address and port.
    pub fn remote(&self) -> SocketAddr {
        let port = u16::from_be_bytes(self.field(REMOTE_PORT));
        SocketAddr::new(self.address(REMOTE), port)
    }

    /// Whether the connection is open. Before that it is opening: actively, and its SYN+ACK has not
    /// been accepted yet.
    pub fn is_open(&self) -> bool {
        self.bytes[STAGE] == 1
    }

    /// Which way its segments are signed.
    pub fn way(&self) -> Way {
        match self.bytes[WAY] {
            1 => Way::TcpMd5,
            _ => Way::TcpAo,
        }
    }

    /// The SendID of the outgoing key (RFC 5925's current_key); by TCP MD5 it means nothing.
    pub fn send_id(&self) -> u8 {
        self.bytes[SEND_ID]
    }

    /// The RecvID asked of the peer (RFC 5925's rnext_key); by TCP MD5 it means nothing.
    pub fn ask_id(&self) -> u8 {
        self.bytes[ASK_ID]
    }

    /// Our initial sequence number.
    pub fn isn(&self) -> u32 {
        u32::from_be_bytes(self.field(ISN))
    }

    /// The peer's initial sequence number; 0 until it is known.
    pub fn peer_isn(&self) -> u32 {
        u32::from_be_bytes(self.field(PEER_ISN))
    }

    /// The reference of the direction that we sign: the largest of our ISN and the positions
    /// signed; by TCP MD5, our ISN.
    pub fn sent_reference(&self) -> u64 {
        u64::from_be_bytes(self.field(SENT))
    }

    /// The reference of the arriving direction: 0 until the peer's ISN is known, then the largest of
    /// it and the positions accepted; by TCP MD5, it alone.
    pub fn seen_reference(&self) -> u64 {
        u64::from_be_bytes(self.field(SEEN))
    }

    /// How many segments were accepted since opening; the segment that opens is not counted. This and
    /// the counts of drops stop at 2^64-1.
    pub fn accepted(&self) -> u64 {
        u64::from_be_bytes(self.field(ACCEPTED))
    }

    /// How many segments were dropped with this number since opening, if it is one of those
    /// counted: 20 to 29, 40, 46 and 47.
    pub fn dropped(&self, number: u8) -> Option<u64> {
        let slot = COUNTED.iter().position(|counted| *counted == number)?;
        Some(u64::from_be_bytes(self.field(DROPS + 8 * slot)))
    }

    /// The counts of all drops, each beside its number.
    pub fn drops(&self) -> impl Iterator<Item = (u8, u64)> + '_ {
        COUNTED
            .into_iter()
            .filter_map(|number| Some((number, self.dropped(number)?)))
    }
}

impl fmt::Debug for Connection {
    fn fmt(&self, f: &mut fmt::Formatter) -> fmt::Result {
        f.debug_struct("Connection")
            .field("local", &self.local())
            .field("remote", &self.remote())
            .field("way", &self.way())
            .field("is_open", &self.is_open())
            .field("send_id", &self.send_id())
            .field("ask_id", &self.ask_id())
            .field("isn", &self.isn())
            .field("peer_isn", &self.peer_isn())
            .field("sent_reference", &self.sent_reference())
            .field("seen_reference", &self.seen_reference())
            .field("accepted", &self.accepted())
            .field("drops", &self.drops().collect::<Vec<_>>())
            .finish()
    }
}
