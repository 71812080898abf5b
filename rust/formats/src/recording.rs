//! Document 02's recording (Ticket 1): records of a fixed length each, kind first. Kind 1 has an entry of the key
//! table, kind 2 the connection just after its opening, kind 3 a segment that arrives on it.

use std::io::{self, Write};
use std::net::{IpAddr, SocketAddr};

/// The bytes that an entry's record has room for.
pub const ENTRY_ROOM: usize = 129;
/// How many entries the table of a recording may have: a 65th is refused with 12 (document 02, Ticket 8: "Ticket 1's
/// program stays at 64 entries"), though a key table may have 1,024.
pub const MOST_ENTRIES: usize = 64;
/// The bytes that a segment's record has room for.
pub const SEGMENT_ROOM: usize = 1_598;

/// A connection just after its opening, as the end holds it at which the segments arrive.
#[derive(Clone, Copy, Debug, PartialEq, Eq)]
pub struct Opened {
    /// That end.
    pub local: SocketAddr,
    /// The end that sends them.
    pub remote: SocketAddr,
    /// That end's ISN.
    pub isn: u32,
    /// The sender's ISN.
    pub peer_isn: u32,
    /// That end's outgoing SendID.
    pub send_id: u8,
    /// The RecvID that it asks the sender for.
    pub ask_id: u8,
}

/// Why a segment or an entry cannot stand in a recording.
#[derive(Clone, Copy, Debug, PartialEq, Eq)]
pub struct TooLong;

/// Writes a recording.
pub struct Recording<W> {
    out: W,
}

impl<W: Write> Recording<W> {
    /// Begins a recording: the entries of the key table, each in a record of its own, then the opening.
    pub fn begin<'a>(
        mut out: W,
        entries: impl IntoIterator<Item = &'a [u8]>,
        opened: &Opened,
    ) -> io::Result<Recording<W>> {
        for entry in entries {
            if entry.len() > ENTRY_ROOM {
                let what = "an entry that is longer than any kind of entry";
                return Err(io::Error::new(io::ErrorKind::InvalidInput, what));
            }
            let mut record = [0; 2 + ENTRY_ROOM];
            record[..2].copy_from_slice(&[1, entry.len() as u8]);
            record[2..2 + entry.len()].copy_from_slice(entry);
            out.write_all(&record)?;
        }
        out.write_all(&opened.record())?;
        Ok(Recording { out })
    }

    /// Adds a segment that arrives; one that is longer than [`SEGMENT_ROOM`] is not written.
    pub fn segment(&mut self, segment: &[u8]) -> io::Result<Result<(), TooLong>> {
        if segment.len() > SEGMENT_ROOM {
            return Ok(Err(TooLong));
        }
        let mut record = [0; 3 + SEGMENT_ROOM];
        record[0] = 3;
        record[1..3].copy_from_slice(&(segment.len() as u16).to_be_bytes());
        record[3..3 + segment.len()].copy_from_slice(segment);
        self.out.write_all(&record).map(Ok)
    }

    /// What it was written to.
    pub fn into_inner(self) -> W {
        self.out
    }
}

impl Opened {
    fn record(&self) -> [u8; 48] {
        let family = if self.local.is_ipv4() { 4 } else { 6 };
        let mut record = [0; 48];
        record[..4].copy_from_slice(&[2, family, self.send_id, self.ask_id]);
        record[4..6].copy_from_slice(&self.local.port().to_be_bytes());
        record[6..8].copy_from_slice(&self.remote.port().to_be_bytes());
        record[8..12].copy_from_slice(&self.isn.to_be_bytes());
        record[12..16].copy_from_slice(&self.peer_isn.to_be_bytes());
        put(&mut record[16..32], self.local.ip());
        put(&mut record[32..48], self.remote.ip());
        record
    }
}

/// An address in sixteen bytes, IPv4 in the first four.
fn put(place: &mut [u8], address: IpAddr) {
    match address {
        IpAddr::V4(address) => place[..4].copy_from_slice(&address.octets()),
        IpAddr::V6(address) => place.copy_from_slice(&address.octets()),
    }
}

#[cfg(test)]
mod tests {
    use super::*;

    fn opened(local: &str, remote: &str) -> Opened {
        Opened {
            local: local.parse().unwrap(),
            remote: remote.parse().unwrap(),
            isn: 0x0102_0304,
            peer_isn: 0x0506_0708,
            send_id: 61,
            ask_id: 84,
        }
    }

    /// The bytes as Ticket 1 and READINGS 4 and 5 have them.
    #[test]
    fn records() {
        let entries: [&[u8]; 2] = [&[7; 129], &[4; 104]];
        let opened = opened("10.9.0.1:179", "10.9.0.2:40000");
        let mut recording = Recording::begin(Vec::new(), entries, &opened).unwrap();
        assert_eq!(recording.segment(&[9; SEGMENT_ROOM]).unwrap(), Ok(()));
        assert_eq!(
            recording.segment(&[9; SEGMENT_ROOM + 1]).unwrap(),
            Err(TooLong)
        );
        assert_eq!(recording.segment(b"").unwrap(), Ok(()));
        let bytes = recording.into_inner();
        assert_eq!(bytes.len(), 2 * 131 + 48 + 2 * 1_601);
        assert_eq!((bytes[..2].to_vec(), bytes[130]), (vec![1, 129], 7));
        assert_eq!(bytes[131..133], [1, 104]);
        assert_eq!((bytes[131 + 105], bytes[131 + 106]), (4, 0));
        let opening = &bytes[262..310];
        assert_eq!(
            opening[..16],
            [2, 4, 61, 84, 0, 179, 156, 64, 1, 2, 3, 4, 5, 6, 7, 8]
        );
        assert_eq!(opening[16..21], [10, 9, 0, 1, 0]);
        assert_eq!(opening[32..37], [10, 9, 0, 2, 0]);
        assert_eq!(bytes[310..314], [3, 6, 62, 9]);
        assert_eq!(bytes[1_911..1_915], [3, 0, 0, 0]);
    }

    #[test]
    fn ipv6() {
        let opened = opened("[fd00::1]:1", "[fd00::2]:2");
        let recording = Recording::begin(Vec::new(), [], &opened).unwrap();
        let bytes = recording.into_inner();
        assert_eq!((bytes.len(), bytes[1]), (48, 6));
        assert_eq!(
            (bytes[16], bytes[31], bytes[32], bytes[47]),
            (0xFD, 1, 0xFD, 2)
        );
        let long: &[u8] = &[4; ENTRY_ROOM + 1];
        assert!(Recording::begin(Vec::new(), [long], &opened).is_err());
    }
}
