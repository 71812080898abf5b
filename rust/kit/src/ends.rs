//! Socket pairs, and one end of a connection.

use crate::calls::{number, value, Boundary};
use crate::segment::{sum, summed, Segment};
use crate::state::State;

/// A socket pair as one end holds it. Addresses have 4 or 16 bytes.
#[derive(Clone, Debug, PartialEq, Eq)]
pub struct Pair {
    pub local: Vec<u8>,
    pub remote: Vec<u8>,
    pub local_port: u16,
    pub remote_port: u16,
}

impl Pair {
    /// The pair as the other end holds it.
    pub fn mirror(&self) -> Pair {
        Pair {
            local: self.remote.clone(),
            remote: self.local.clone(),
            local_port: self.remote_port,
            remote_port: self.local_port,
        }
    }
}

/// The segment that one end sends, as it comes to the other: where the two hold another address or port of a
/// side, that was translated on the way. Ports that are not the sender's stay, and so does a wrong checksum.
pub fn translated(segment: &[u8], sender: &Pair, receiver: &Pair) -> Vec<u8> {
    let mut translated = segment.to_vec();
    if segment.len() < 4 || *receiver == sender.mirror() {
        return translated;
    }
    let ports = [
        (sender.local_port, receiver.remote_port),
        (sender.remote_port, receiver.local_port),
    ];
    for (port, (sent, seen)) in translated.chunks_exact_mut(2).zip(ports) {
        if port == sent.to_be_bytes() {
            port.copy_from_slice(&seen.to_be_bytes());
        }
    }
    if sum(&sender.local, &sender.remote, segment) == 0xffff {
        translated = summed(&receiver.remote, &receiver.local, &translated);
    }
    translated
}

/// One end of a connection, and which side makes its calls.
#[derive(Clone, Debug)]
pub struct End {
    pub boundary: Boundary,
    pub pair: Pair,
    /// 0: the tables are their own bytes; any other value: `table` is a prepared table.
    pub form: u8,
    /// The key table.
    pub table: Vec<u8>,
    /// The MD5 table.
    pub md5: Vec<u8>,
    pub state: Vec<u8>,
}

impl End {
    /// With the empty state, and no MD5 table.
    pub fn new(boundary: Boundary, pair: Pair, table: Vec<u8>) -> End {
        End {
            boundary,
            pair,
            form: 0,
            table,
            md5: vec![],
            state: State::default().bytes(),
        }
    }

    /// The same end with its tables prepared, which are not refused.
    pub fn prepared(&self) -> End {
        assert_eq!(self.form, 0);
        let table = crate::prepared::by(self.boundary.prepare, &self.table, &self.md5);
        End {
            form: 1,
            table: table.expect("tables that are not refused"),
            md5: vec![],
            ..self.clone()
        }
    }

    pub fn state(&self) -> State {
        State::read(&self.state).unwrap()
    }

    pub fn set(&mut self, state: State) {
        self.state = state.bytes();
    }

    /// A segment from here to the peer.
    pub fn segment(&self, sequence: u32, flags: u8, data: &[u8]) -> Segment {
        Segment {
            source_port: self.pair.local_port,
            destination_port: self.pair.remote_port,
            sequence,
            flags,
            checksum: 0xbeef,
            data: data.to_vec(),
            ..Segment::default()
        }
    }

    /// A segment from the peer with its right checksum.
    pub fn arriving(&self, segment: &[u8]) -> Vec<u8> {
        summed(&self.pair.remote, &self.pair.local, segment)
    }

    pub fn open_active(&mut self, isn: u32, send_id: u8) -> u64 {
        let Pair {
            local,
            remote,
            local_port,
            remote_port,
        } = &self.pair;
        (self.boundary.open_active)(
            self.form,
            &self.table,
            &self.md5,
            local,
            remote,
            *local_port,
            *remote_port,
            isn,
            send_id,
            &mut self.state,
        )
    }

    pub fn open_active_md5(&mut self, isn: u32) -> u64 {
        let Pair {
            local,
            remote,
            local_port,
            remote_port,
        } = &self.pair;
        (self.boundary.open_active_md5)(
            self.form,
            &self.table,
            &self.md5,
            local,
            remote,
            *local_port,
            *remote_port,
            isn,
            &mut self.state,
        )
    }

    pub fn judge_syn(&self, segment: &[u8], setting: u8) -> u64 {
        let (form, keys, md5) = (self.form, &self.table, &self.md5);
        let Pair { local, remote, .. } = &self.pair;
        (self.boundary.judge_syn)(form, keys, md5, remote, local, segment, setting)
    }

    pub fn open_passive(&mut self, segment: &[u8], isn: u32, setting: u8) -> u64 {
        let (form, keys, md5) = (self.form, &self.table, &self.md5);
        let Pair { local, remote, .. } = &self.pair;
        let state = &mut self.state;
        (self.boundary.open_passive)(form, keys, md5, remote, local, segment, isn, setting, state)
    }

    pub fn judge(&mut self, segment: &[u8]) -> u64 {
        let (form, keys, md5) = (self.form, &self.table, &self.md5);
        let Pair { local, remote, .. } = &self.pair;
        (self.boundary.judge)(form, keys, md5, remote, local, segment, &mut self.state)
    }

    pub fn ask(&mut self, recv_id: u8) -> u64 {
        (self.boundary.ask)(self.form, &self.table, &self.md5, recv_id, &mut self.state)
    }

    pub fn sign_into(&mut self, segment: &[u8], out: &mut [u8]) -> u64 {
        (self.boundary.sign)(
            self.form,
            &self.table,
            &self.md5,
            segment,
            out,
            &mut self.state,
        )
    }

    /// Signs into a buffer that is long enough, of which only the signed length's bytes may change,
    /// and none if signing is refused.
    pub fn try_sign(&mut self, segment: &[u8]) -> Result<Vec<u8>, u64> {
        let mut out = vec![0xee; segment.len() + 40];
        let word = self.sign_into(segment, &mut out);
        let signed = if number(word) == 0 {
            value(word) as usize
        } else {
            0
        };
        let behind = out.split_off(signed);
        assert!(behind.iter().all(|byte| *byte == 0xee));
        if number(word) == 0 {
            Ok(out)
        } else {
            Err(word)
        }
    }

    /// Signs what must be signed.
    pub fn sign(&mut self, sequence: u32, flags: u8, data: &[u8]) -> Vec<u8> {
        let segment = self.segment(sequence, flags, data).bytes();
        self.try_sign(&segment)
            .unwrap_or_else(|word| panic!("signing gave {}", number(word)))
    }
}
