//! Many connections over one pair of tables, found by their socket pairs. Document 02, Ticket 6.

use crate::answer::{Answer, Refusal, Verdict};
use crate::connection::{Connection, Octets, UnknownKeyId, LONGEST_OPTIONS};
use crate::raw;
use crate::table::Tables;
use std::fmt;
use std::net::{IpAddr, SocketAddr};

/// Up to 256 connections, each in a place of its own, found by socket pair.
///
/// Each call finds its place by the pair and does there what the call of [`Connection`] does; no other place
/// changes. An opening takes the first free place. Of two places with one pair, which only
/// [`from_bytes`](Connections::from_bytes) can bring, the first counts; closing it brings the second into use.
///
/// ```
/// use embankery::{Connections, Entry, KeyTable, Refusal};
///
/// let table = KeyTable::new([&Entry::ipv4().send_id(1).recv_id(2).key(b"key").build()?])?;
/// let mut connections = Connections::new(2)?;
/// let (here, there) = (([10, 0, 0, 1], 40_000), ([10, 0, 0, 2], 179));
/// assert_eq!(connections.open_active(&table, here, there, 1_000, 1)?, 0);
/// assert_eq!(connections.open_active(&table, here, there, 1_000, 1), Err(Refusal::PairInUse));
/// let other = ([10, 0, 0, 3], 179);
/// assert_eq!(connections.open_active(&table, here, other, 1_000, 1)?, 1);
/// let third = ([10, 0, 0, 4], 179);
/// assert_eq!(connections.open_active(&table, here, third, 1_000, 1), Err(Refusal::NoFreePlace));
///
/// // Closing empties a place, and the next opening takes it.
/// connections.close(here, there)?;
/// assert_eq!(connections.find(here, there), Err(Refusal::OtherPair));
/// assert_eq!(connections.open_active(&table, here, third, 1_000, 1)?, 0);
/// assert_eq!(connections.find(here, other)?, 1);
/// # Ok::<(), embankery::Refusal>(())
/// ```
#[derive(Clone, PartialEq, Eq, Hash)]
pub struct Connections {
    bytes: Vec<u8>,
}

impl Connections {
    /// How many places there are at most.
    pub const MOST: usize = 256;

    /// So many places, all of them free. More than 256 are refused with 18.
    ///
    /// ```
    /// use embankery::{Connections, Refusal};
    ///
    /// assert_eq!(Connections::new(256)?.places(), 256);
    /// assert_eq!(Connections::new(257), Err(Refusal::State));
    /// # Ok::<(), embankery::Refusal>(())
    /// ```
    pub fn new(places: usize) -> Result<Connections, Refusal> {
        if places > Connections::MOST {
            return Err(Refusal::State);
        }
        let bytes = vec![0; places * Connection::BYTES];
        Ok(Connections { bytes })
    }

    /// Places from their bytes, the states of all places one behind the other. A length that is no multiple
    /// of a state's, or that of more than 256 states, is refused with 18.
    pub fn from_bytes(bytes: impl Into<Vec<u8>>) -> Result<Connections, Refusal> {
        let bytes = bytes.into();
        if bytes.len() % Connection::BYTES != 0
            || bytes.len() / Connection::BYTES > Connections::MOST
        {
            return Err(Refusal::State);
        }
        Ok(Connections { bytes })
    }

    /// The bytes of all places.
    pub fn as_bytes(&self) -> &[u8] {
        &self.bytes
    }

    /// How many places there are.
    pub fn places(&self) -> usize {
        self.bytes.len() / Connection::BYTES
    }

    /// The state in a place: none if the place is free, or there is no such place.
    pub fn get(&self, place: usize) -> Option<Connection> {
        let state = self.bytes.chunks_exact(Connection::BYTES).nth(place)?;
        Connection::from_bytes(state).ok()
    }

    /// Opens actively by TCP-AO, as [`Connection::open_active`] does, in the first free place, whose index is
    /// given. Behind the numbers there: 41 if the pair is in use, 42 if no place is free.
    pub fn open_active<'a>(
        &mut self,
        tables: impl Into<Tables<'a>>,
        local: impl Into<SocketAddr>,
        remote: impl Into<SocketAddr>,
        isn: u32,
        send_id: u8,
    ) -> Result<usize, Refusal> {
        let Tables { form, keys, md5 } = tables.into();
        let (local, remote) = (local.into(), remote.into());
        let answer = Answer(raw::connections_open_active(
            form,
            keys,
            md5,
            Octets::of(local.ip()).as_slice(),
            Octets::of(remote.ip()).as_slice(),
            local.port(),
            remote.port(),
            isn,
            send_id,
            &mut self.bytes,
        ));
        Ok(answer.done()? as usize)
    }

    /// Opens actively by TCP MD5, as [`Connection::open_active_md5`] does, likewise.
    pub fn open_active_md5<'a>(
        &mut self,
        tables: impl Into<Tables<'a>>,
        local: impl Into<SocketAddr>,
        remote: impl Into<SocketAddr>,
        isn: u32,
    ) -> Result<usize, Refusal> {
        let Tables { form, keys, md5 } = tables.into();
        let (local, remote) = (local.into(), remote.into());
        let answer = Answer(raw::connections_open_active_md5(
            form,
            keys,
            md5,
            Octets::of(local.ip()).as_slice(),
            Octets::of(remote.ip()).as_slice(),
            local.port(),
            remote.port(),
            isn,
            &mut self.bytes,
        ));
        Ok(answer.done()? as usize)
    }

    /// Opens passively, as [`Connection::open_passive`] does, in the first free place, whose index is given.
    /// A SYN that is only passed opens nothing and needs no place. Where it would open: 41 if the pair is in
    /// use, 42 if no place is free.
    pub fn open_passive<'a>(
        &mut self,
        tables: impl Into<Tables<'a>>,
        source: impl Into<IpAddr>,
        destination: impl Into<IpAddr>,
        segment: &[u8],
        isn: u32,
        unknown: UnknownKeyId,
    ) -> Result<Option<usize>, Refusal> {
        let Tables { form, keys, md5 } = tables.into();
        let answer = Answer(raw::connections_open_passive(
            form,
            keys,
            md5,
            Octets::of(source.into()).as_slice(),
            Octets::of(destination.into()).as_slice(),
            segment,
            isn,
            unknown.setting(),
            &mut self.bytes,
        ));
        match answer.verdict() {
            Verdict::Accept { extension: place } => Ok(Some(place as usize)),
            Verdict::Pass => Ok(None),
            Verdict::Drop(refusal) => Err(refusal),
        }
    }

    /// Judges an arriving segment on the connection that it is for, as [`Connection::judge`] does. Where its
    /// pair is not in use, a bare SYN is judged as by [`judge_syn`](crate::judge_syn), and any other segment
    /// gets 23; nothing changes then. A segment under 4 bytes has no ports: it gets 20 and is counted nowhere.
    pub fn judge<'a>(
        &mut self,
        tables: impl Into<Tables<'a>>,
        source: impl Into<IpAddr>,
        destination: impl Into<IpAddr>,
        segment: &[u8],
        unknown: UnknownKeyId,
    ) -> Verdict {
        let Tables { form, keys, md5 } = tables.into();
        Answer(raw::connections_judge(
            form,
            keys,
            md5,
            Octets::of(source.into()).as_slice(),
            Octets::of(destination.into()).as_slice(),
            segment,
            unknown.setting(),
            &mut self.bytes,
        ))
        .verdict()
    }

    /// Signs a segment from `local` to `remote`, whose ports it has, as [`Connection::sign`] does. 23 if the
    /// pair is not in use, 30 for a segment under 4 bytes.
    pub fn sign<'a>(
        &mut self,
        tables: impl Into<Tables<'a>>,
        local: impl Into<IpAddr>,
        remote: impl Into<IpAddr>,
        segment: &[u8],
    ) -> Result<Vec<u8>, Refusal> {
        // Longer segments are refused before the output's length matters.
        let longest = segment.len().min(usize::from(u16::MAX));
        let mut out = vec![0; longest + LONGEST_OPTIONS];
        let length = self.sign_into(tables, local, remote, segment, &mut out)?;
        out.truncate(length);
        Ok(out)
    }

    /// Signs as [`sign`](Connections::sign) does, into a buffer, as [`Connection::sign_into`] does.
    pub fn sign_into<'a>(
        &mut self,
        tables: impl Into<Tables<'a>>,
        local: impl Into<IpAddr>,
        remote: impl Into<IpAddr>,
        segment: &[u8],
        out: &mut [u8],
    ) -> Result<usize, Refusal> {
        let Tables { form, keys, md5 } = tables.into();
        let answer = Answer(raw::connections_sign(
            form,
            keys,
            md5,
            Octets::of(local.into()).as_slice(),
            Octets::of(remote.into()).as_slice(),
            segment,
            out,
            &mut self.bytes,
        ));
        Ok(answer.done()? as usize)
    }

    /// Asks the peer of a pair for another key, as [`Connection::ask`] does. 23 if the pair is not in use.
    pub fn ask<'a>(
        &mut self,
        tables: impl Into<Tables<'a>>,
        local: impl Into<SocketAddr>,
        remote: impl Into<SocketAddr>,
        recv_id: u8,
    ) -> Result<(), Refusal> {
        let Tables { form, keys, md5 } = tables.into();
        let (local, remote) = (local.into(), remote.into());
        Answer(raw::connections_ask(
            form,
            keys,
            md5,
            Octets::of(local.ip()).as_slice(),
            Octets::of(remote.ip()).as_slice(),
            local.port(),
            remote.port(),
            recv_id,
            &mut self.bytes,
        ))
        .done()?;
        Ok(())
    }

    /// Closes the connection of a pair: its place is then free. 23 if the pair is not in use.
    pub fn close(
        &mut self,
        local: impl Into<SocketAddr>,
        remote: impl Into<SocketAddr>,
    ) -> Result<(), Refusal> {
        let (local, remote) = (local.into(), remote.into());
        Answer(raw::connections_close(
            Octets::of(local.ip()).as_slice(),
            Octets::of(remote.ip()).as_slice(),
            local.port(),
            remote.port(),
            &mut self.bytes,
        ))
        .done()?;
        Ok(())
    }

    /// The index of the place that a pair uses. 23 if the pair is not in use.
    pub fn find(
        &self,
        local: impl Into<SocketAddr>,
        remote: impl Into<SocketAddr>,
    ) -> Result<usize, Refusal> {
        let (local, remote) = (local.into(), remote.into());
        let answer = Answer(raw::connections_find(
            Octets::of(local.ip()).as_slice(),
            Octets::of(remote.ip()).as_slice(),
            local.port(),
            remote.port(),
            &self.bytes,
        ));
        Ok(answer.done()? as usize)
    }
}

impl fmt::Debug for Connections {
    fn fmt(&self, f: &mut fmt::Formatter) -> fmt::Result {
        let used = (0..self.places()).filter_map(|place| Some((place, self.get(place)?)));
        f.debug_map().entries(used).finish()
    }
}
