//! Connections between two sockets of Linux 6.12 (tests/data), once more with our own ends: each
//! segment, without its TCP-AO, is signed by the end that sent it and gives Linux's bytes, and is judged
//! by the other, which accepts it with Linux's extension and takes the key that it asks for. Of TCP MD5 too,
//! but that Linux puts the option behind the two bytes that pad it and we before them: the digest is the same,
//! and both orders are accepted.
//!
//! Both ends are held by the wrapper and by the reference, which must agree in every state.

use embankery::{judge_syn, Connection, KeyTable, Md5Table, Tables, UnknownKeyId, Verdict};
use kit::linux::{captured, Captured, MacBytes, Sent};
use kit::{calls_of, number, value, word, Boundary, Pair, State};
use reference::segment::Header;
use reference::tcp_md5::digest;
use std::net::{IpAddr, SocketAddr};

/// Every case of the file, and how many segments it has.
const CASES: [(&str, usize); 20] = [
    ("sha1-v4-all", 25),
    ("cmac-v4-aoonly", 25),
    ("mixed-v4", 24),
    ("syn-asks-other-v4", 13),
    ("sha1-reset-v4", 10),
    ("sha1-key1-v4", 13),
    ("sha1-isnfffffffe-v4", 49),
    ("sha1-v6-aoonly", 25),
    ("cmac-v6-all", 25),
    ("cmac-urgent-v6", 19),
    ("cmac-key80-v6", 13),
    ("cmac-isnffffff00-v6", 49),
    ("beyond-sha1-mac4-v4-all", 25),
    ("beyond-sha1-mac13-v4-aoonly", 13),
    ("beyond-sha256-mac12-v4-all", 25),
    ("beyond-md5-v4", 13),
    ("beyond-sha1-mac10-v6-all", 25),
    ("beyond-sha256-mac16-v6-aoonly", 13),
    ("beyond-cmac-mac16-v6-all", 25),
    ("beyond-md5-reset-v6", 10),
];

/// What is in all of them.
const RUN: Counts = Counts {
    segments: 439,
    by_md5: 23,
    asked: 37,
    put: 9,
};

const SEGMENTS: &str = include_str!("data/linux-6.12.txt");
const ENDS: &str = include_str!("data/linux-6.12-ends.txt");

const REFERENCE: Boundary = calls_of!(Boundary, reference::boundary);

#[derive(Clone, Copy, Debug, Default, PartialEq, Eq)]
struct Counts {
    /// Signed again, and judged.
    segments: usize,
    /// Of these, by TCP MD5.
    by_md5: usize,
    /// How often an operator asked the peer for another key.
    asked: usize,
    /// How often an operator put another outgoing key in its place, for which document 01 has no call.
    put: usize,
}

/// Both tables of an end; one of them is empty.
#[derive(Clone)]
struct Keys {
    keys: KeyTable,
    md5: Md5Table,
}

impl Keys {
    fn of(case: &Captured, end: usize, mac_bytes: MacBytes) -> Keys {
        let table = case.table(end, mac_bytes);
        let [keys, md5] = if case.by_md5() {
            [vec![], table]
        } else {
            [table, vec![]]
        };
        Keys {
            keys: KeyTable::from_bytes(keys).unwrap(),
            md5: Md5Table::from_bytes(md5).unwrap(),
        }
    }

    fn tables(&self) -> Tables<'_> {
        Tables::new(&self.keys, &self.md5).unwrap()
    }

    /// An end of the reference with them.
    fn reference(&self, pair: Pair) -> kit::End {
        kit::End {
            md5: self.md5.as_bytes().to_vec(),
            ..kit::End::new(REFERENCE, pair, self.keys.as_bytes().to_vec())
        }
    }
}

/// One end of a connection. Each call is made by the wrapper and by the reference.
#[derive(Clone)]
struct End {
    keys: Keys,
    connection: Connection,
    reference: kit::End,
    counts: Counts,
}

impl End {
    /// By TCP-AO with the key of the SYN, or by TCP MD5.
    fn open_active(pair: Pair, keys: Keys, isn: u32, send_id: Option<u8>) -> End {
        let [local, remote] = sockets(&pair);
        let mut reference = keys.reference(pair);
        let tables = keys.tables();
        let connection = match send_id {
            Some(send_id) => {
                assert_eq!(reference.open_active(isn, send_id), word(0, 0));
                Connection::open_active(tables, local, remote, isn, send_id)
            }
            None => {
                assert_eq!(reference.open_active_md5(isn), word(0, 0));
                Connection::open_active_md5(tables, local, remote, isn)
            }
        };
        End::new(keys.clone(), connection.unwrap(), reference)
    }

    /// The bare SYN is judged, and opens.
    fn open_passive(pair: Pair, keys: Keys, isn: u32, syn: &Sent) -> End {
        let [to, from] = sockets(&pair).map(|socket| socket.ip());
        let mut reference = keys.reference(pair.clone());
        let (tables, unknown) = (keys.tables(), UnknownKeyId::Drop);
        for bytes in [syn.as_ours(), syn.bytes.clone()] {
            assert_eq!(reference.judge_syn(&bytes, 1), word(0, 0));
            let verdict = judge_syn(tables, from, to, &bytes, unknown);
            assert_eq!(verdict, Verdict::Accept { extension: 0 });
        }
        assert_eq!(reference.open_passive(&syn.bytes, isn, 1), word(0, 0));
        let connection = Connection::open_passive(tables, from, to, &syn.bytes, isn, unknown);
        let end = End::new(keys.clone(), connection.unwrap().unwrap(), reference);
        let opened = State {
            stage: 1,
            outgoing_send_id: syn.rnext_key_id,
            asked_recv_id: syn.key_id,
            our_isn: isn,
            peer_isn: syn.number(),
            signing_reference: u64::from(isn),
            arriving_reference: syn.position(),
            way: u8::from(syn.by_md5()),
            ..State::of_pair(&pair)
        };
        assert_eq!(end.state(), opened);
        end
    }

    fn new(keys: Keys, connection: Connection, reference: kit::End) -> End {
        End {
            keys,
            connection,
            reference,
            counts: Counts::default(),
        }
    }

    /// The state, the same to the last byte.
    fn state(&self) -> State {
        assert_eq!(self.connection.as_bytes()[..], self.reference.state);
        self.reference.state()
    }

    /// The operator's call.
    fn ask(&mut self, recv_id: u8) {
        self.counts.asked += 1;
        self.connection.ask(self.keys.tables(), recv_id).unwrap();
        assert_eq!(self.reference.ask(recv_id), word(0, 0));
    }

    /// Linux lets its operator set the outgoing key too. Here only the state's own byte can be changed.
    fn put_outgoing(&mut self, send_id: u8) {
        self.counts.put += 1;
        let mut state = self.state();
        state.outgoing_send_id = send_id;
        self.connection = Connection::from_bytes(&state.bytes()).unwrap();
        self.reference.set(state);
    }

    fn sign(&mut self, segment: &[u8]) -> Vec<u8> {
        let signed = self.connection.sign(self.keys.tables(), segment).unwrap();
        let mut out = vec![0; signed.len()];
        let answer = self.reference.sign_into(segment, &mut out);
        assert_eq!((number(answer), value(answer) as usize), (0, out.len()));
        assert_eq!(out, signed);
        signed
    }

    /// Signs what Linux sent from this end, after what its operator did before.
    fn sends(&mut self, sent: &Sent) {
        if self.state().outgoing_send_id != sent.key_id {
            self.put_outgoing(sent.key_id);
        }
        if self.state().asked_recv_id != sent.rnext_key_id {
            self.ask(sent.rnext_key_id);
        }
        let before = self.state();
        let signed = self.sign(&sent.unsigned());
        assert_eq!(signed, sent.as_ours());
        if sent.by_md5() {
            self.counts.by_md5 += 1;
            assert_eq!(signed[22..38], self.digest(&signed));
        }
        // By TCP MD5 no reference moves once it is open, and before that the SYN is at our ISN.
        let position = match sent.by_md5() {
            true => u64::from(before.our_isn),
            false => sent.position(),
        };
        let after = State {
            signing_reference: before.signing_reference.max(position),
            ..before
        };
        assert_eq!(self.state(), after);
    }

    /// The digest of a segment that this end sends, made by the reference.
    fn digest(&self, segment: &[u8]) -> [u8; 16] {
        let Pair { local, remote, .. } = &self.reference.pair;
        let entries = reference::md5_table::read(&self.reference.md5).unwrap();
        let header = Header::read(segment).unwrap();
        digest(local, remote, segment, &header, entries[0].key)
    }

    /// Accepts what Linux sent to this end, as it came and as we would have sent it. The keys are such that
    /// what is asked for is always there.
    fn receives(&mut self, sent: &Sent) {
        let mut twin = self.clone();
        twin.accepts(sent, &sent.as_ours());
        self.accepts(sent, &sent.bytes);
        assert_eq!(self.state(), twin.state());
    }

    fn accepts(&mut self, sent: &Sent, bytes: &[u8]) {
        let before = self.state();
        let [to, from] = sockets(&self.reference.pair).map(|socket| socket.ip());
        let verdict = self.connection.judge(self.keys.tables(), from, to, bytes);
        let extension = sent.extension;
        assert_eq!(verdict, Verdict::Accept { extension });
        assert_eq!(self.reference.judge(bytes), word(0, extension));
        let kept = if before.is_open() {
            State {
                accepted: before.accepted + 1,
                ..before
            }
        } else {
            State {
                stage: 1,
                peer_isn: sent.number(),
                ..before
            }
        };
        let position = match sent.by_md5() {
            true => u64::from(kept.peer_isn),
            false => sent.position(),
        };
        let after = State {
            outgoing_send_id: sent.rnext_key_id,
            arriving_reference: before.arriving_reference.max(position),
            ..kept
        };
        assert_eq!(self.state(), after);
    }
}

/// Both sockets of a pair, the local one first.
fn sockets(pair: &Pair) -> [SocketAddr; 2] {
    let socket = |address: &[u8], port| {
        let ip = match address.len() {
            4 => IpAddr::from(<[u8; 4]>::try_from(address).unwrap()),
            _ => IpAddr::from(<[u8; 16]>::try_from(address).unwrap()),
        };
        SocketAddr::new(ip, port)
    };
    [
        socket(&pair.local, pair.local_port),
        socket(&pair.remote, pair.remote_port),
    ]
}

/// Both ends through all segments.
fn replay(case: &Captured, mac_bytes: MacBytes) -> Counts {
    let [client, server] = [0, 1];
    let (syn, others) = case.segments.split_first().unwrap();
    let pair = |end| {
        let keys = Keys::of(case, end, mac_bytes);
        (case.pair(end), keys, case.isn(end))
    };

    let (client_pair, keys, isn) = pair(client);
    let send_id = (!case.by_md5()).then_some(syn.key_id);
    let mut active = End::open_active(client_pair, keys, isn, send_id);
    active.sends(syn);
    let (server_pair, keys, isn) = pair(server);
    let passive = End::open_passive(server_pair, keys, isn, syn);

    let mut ends = [active, passive];
    let mut segments = 1;
    for sent in others {
        eprintln!("{}, {mac_bytes:?}: segment {segments}", case.name);
        ends[sent.by].sends(sent);
        ends[1 - sent.by].receives(sent);
        segments += 1;
    }
    // Of TCP MD5 Linux says nothing.
    assert_eq!(case.left.len(), if case.by_md5() { 0 } else { ends.len() });
    for (end, left) in ends.iter().zip(&case.left) {
        let state = end.state();
        let references = [state.signing_reference, state.arriving_reference];
        assert_eq!(state.outgoing_send_id, left.outgoing_send_id);
        assert_eq!(state.asked_recv_id, left.asked_recv_id);
        assert_eq!(
            [state.our_isn, state.peer_isn],
            [left.our_isn, left.peer_isn]
        );
        assert_eq!(references.map(|it| (it >> 32) as u32), left.extensions);
    }
    for end in &ends {
        assert_eq!(end.state().drops.iter().sum::<u64>(), 0);
    }
    let sum = |count: fn(&Counts) -> usize| ends.iter().map(|end| count(&end.counts)).sum();
    Counts {
        segments,
        by_md5: sum(|counts| counts.by_md5),
        asked: sum(|counts| counts.asked),
        put: sum(|counts| counts.put),
    }
}

/// Every case, in each way in which its tables can be written.
#[test]
fn signed_and_judged_as_linux_did() {
    let all = captured(SEGMENTS, ENDS);
    assert_eq!(all.len(), CASES.len());
    let mut run = Counts::default();
    for (case, (name, segments)) in all.iter().zip(CASES) {
        assert_eq!((&case.name[..], case.segments.len()), (name, segments));
        println!("{name}: {segments} segments");
        let ways = case.ways();
        let counts: Vec<Counts> = ways.iter().map(|way| replay(case, *way)).collect();
        assert!(counts.iter().all(|count| *count == counts[0]));
        assert_eq!(counts[0].segments, segments);
        run.segments += counts[0].segments;
        run.by_md5 += counts[0].by_md5;
        run.asked += counts[0].asked;
        run.put += counts[0].put;
    }
    assert_eq!(run, RUN);
}

/// Each case goes one way: the table of the other would not take its entries.
#[test]
fn neither_table_takes_the_others_entries() {
    for case in captured(SEGMENTS, ENDS) {
        for end in [0, 1] {
            for way in case.ways() {
                let table = case.table(end, way);
                let taken = [
                    KeyTable::from_bytes(table.clone()).is_ok(),
                    Md5Table::from_bytes(table).is_ok(),
                ];
                assert_eq!(taken, [!case.by_md5(), case.by_md5()], "{}", case.name);
            }
        }
    }
}
