//! How the connections of a capture were opened, by the archive's answers.
//!
//! A capture has both ends' segments, a table is one end's. What arrives at that end is judged by the table, what
//! arrives at the other by the table's mirror.

use crate::tables::Endpoint;
use embankery::{judge_syn, Connection, Refusal, Tables, UnknownKeyId, Verdict};
use formats::capture::tcp::{with_checksum, Header, Signature};
use formats::connections::{Found, Kept};
use std::cmp::Ordering;
use std::net::{IpAddr, SocketAddr};

/// An end of a connection.
#[derive(Clone, Copy, Debug, PartialEq, Eq)]
pub enum Side {
    /// The one that sent the SYN.
    Client,
    /// The other.
    Server,
}

/// Where a segment arrives.
#[derive(Clone, Copy, Debug, PartialEq, Eq)]
pub enum Direction {
    /// At the endpoint whose tables are given.
    In,
    /// At its peer.
    Out,
}

impl Direction {
    /// Its name.
    pub fn name(self) -> &'static str {
        match self {
            Direction::In => "in",
            Direction::Out => "out",
        }
    }
}

/// One end, as the segments that open leave it.
#[derive(Clone, Debug, Default)]
pub struct Opens {
    /// Before the SYN+ACK: the client's state while it is opening.
    pub waiting: Option<Connection>,
    /// The packet that opened this end, and the state just after.
    pub opened: Option<(u64, Connection)>,
    /// The packet that should have, and what it got.
    pub packet: Option<(u64, Verdict)>,
    /// Why there is no state at all.
    pub failed: Option<Refusal>,
}

/// A connection whose SYN is in the capture.
#[derive(Clone, Debug)]
pub struct Opening {
    /// Its number in the list of connections, from 1.
    pub number: usize,
    /// Who sent the SYN.
    pub client: SocketAddr,
    /// The other end.
    pub server: SocketAddr,
    /// Which end is the endpoint whose tables are given.
    pub ours: Side,
    /// Whether it may as well be the other, by all that the opening shows.
    pub either: bool,
    /// The first packet of the opening.
    pub start: u64,
    /// Whether a SYN+ACK for it is in the capture.
    pub answered: bool,
    /// The client's end.
    pub at_client: Opens,
    /// The server's end.
    pub at_server: Opens,
}

impl Opening {
    /// The direction of segments that arrive at this end.
    pub fn direction(&self, receiver: Side) -> Direction {
        if receiver == self.ours {
            Direction::In
        } else {
            Direction::Out
        }
    }

    /// The end at which a direction's segments arrive.
    pub fn receiver(&self, direction: Direction) -> Side {
        match (direction, self.ours) {
            (Direction::In, ours) => ours,
            (Direction::Out, Side::Client) => Side::Server,
            (Direction::Out, Side::Server) => Side::Client,
        }
    }

    /// What is known of an end.
    pub fn end(&self, side: Side) -> &Opens {
        match side {
            Side::Client => &self.at_client,
            Side::Server => &self.at_server,
        }
    }

    /// The address and port of an end.
    pub fn address(&self, side: Side) -> SocketAddr {
        match side {
            Side::Client => self.client,
            Side::Server => self.server,
        }
    }
}

/// An endpoint's tables, and those of the ends that it talks to.
#[derive(Clone, Copy, Debug)]
pub struct Views<'a> {
    /// The endpoint's own.
    pub ours: Tables<'a>,
    /// Their mirror.
    pub peers: Tables<'a>,
}

impl<'a> Views<'a> {
    /// An endpoint's tables, and their mirror: [`Endpoint::mirrored`].
    pub fn new(endpoint: &'a Endpoint, mirrored: &'a Endpoint) -> Views<'a> {
        Views {
            ours: endpoint.tables(),
            peers: mirrored.tables(),
        }
    }

    /// The tables by which what arrives at an end is judged.
    pub fn at(&self, receiver: Side, ours: Side) -> Tables<'a> {
        if receiver == ours {
            self.ours
        } else {
            self.peers
        }
    }

    /// Whether an entry matches a pair, whichever end is ours. The archive is asked: a bare SYN that is not signed
    /// passes exactly where none does.
    pub fn cover(&self, one: SocketAddr, other: SocketAddr) -> bool {
        let passes = |from: SocketAddr, to: SocketAddr| {
            let mut syn = [from.port().to_be_bytes(), to.port().to_be_bytes()].concat();
            syn.extend([0, 0, 0, 0, 0, 0, 0, 0, 0x50, 0x02, 0, 0, 0, 0, 0, 0]);
            let syn = with_checksum(from.ip(), to.ip(), &syn);
            let verdict = judge_syn(self.ours, from.ip(), to.ip(), &syn, UnknownKeyId::Pass);
            verdict == Verdict::Pass
        };
        !passes(one, other) || !passes(other, one)
    }
}

/// The openings of a capture's connections that have a SYN and an entry that matches. With an address, that end is
/// ours; without, it is the one for which the opening gets further, and the server where that is the same.
pub fn openings(found: &[Found], views: &Views, ours: Option<IpAddr>) -> Vec<Opening> {
    let numbered = (1..).zip(found);
    let with_syn = numbered.filter(|(_, found)| !found.syns.is_empty());
    let covered = with_syn.filter(|(_, found)| views.cover(found.client, found.server));
    let tried = covered.filter_map(|(number, found)| {
        let ends = [(Side::Server, found.server), (Side::Client, found.client)];
        let may_be = |(_, end): &(Side, SocketAddr)| ours.is_none_or(|ours| ours == end.ip());
        let trials = ends.into_iter().filter(may_be);
        let trials = trials.map(|(side, _)| opening(number, found, views, side));
        trials.reduce(|first, second| match rank(&second).cmp(&rank(&first)) {
            Ordering::Greater => second,
            Ordering::Less => first,
            Ordering::Equal => Opening {
                either: true,
                ..first
            },
        })
    });
    tried.collect()
}

/// How far an opening got: how far its SYN, then how far its SYN+ACK.
fn rank(opening: &Opening) -> (u8, u8) {
    let syn = match opening.at_server.packet {
        Some((_, Verdict::Accept { .. })) => 3,
        Some((_, Verdict::Drop(Refusal::MacLength | Refusal::MacDiffers))) => 2,
        Some((_, Verdict::Drop(_))) => 1,
        Some((_, Verdict::Pass)) | None => 0,
    };
    let client = &opening.at_client;
    let answer = match (&client.opened, &client.waiting) {
        (Some(_), _) => 2,
        (None, Some(_)) => 1,
        (None, None) => 0,
    };
    (syn, answer)
}

fn opening(number: usize, found: &Found, views: &Views, ours: Side) -> Opening {
    let (client, server) = (found.client, found.server);
    let (at_client, at_server) = (views.at(Side::Client, ours), views.at(Side::Server, ours));
    let accepted = |syn: &&Kept| {
        let verdict = judged_syn(found, syn, at_server);
        matches!(verdict, Verdict::Accept { .. })
    };
    let syn = found.syns.iter().find(accepted).unwrap_or(&found.syns[0]);
    let at_client = answered(found, syn, at_client);
    let answer = at_client.packet.map_or(0, |(packet, _)| packet);
    let answer = found.answers.iter().find(|one| one.number == answer);
    let at_server = match answer.or(found.answers.first()) {
        Some(answer) => passive(found, syn, answer.sequence(), at_server),
        None => Opens {
            packet: Some((syn.number, judged_syn(found, syn, at_server))),
            ..Opens::default()
        },
    };
    let first = found.answers.iter().map(|answer| answer.number);
    Opening {
        number,
        client,
        server,
        ours,
        either: false,
        start: first.fold(syn.number, u64::min),
        answered: !found.answers.is_empty(),
        at_client,
        at_server,
    }
}

/// What a SYN gets where there is no connection yet.
fn judged_syn(found: &Found, syn: &Kept, tables: Tables) -> Verdict {
    let (source, destination) = (found.client.ip(), found.server.ip());
    judge_syn(
        tables,
        source,
        destination,
        &syn.segment,
        UnknownKeyId::Pass,
    )
}

/// The client's end: it opened as its SYN says, and the first SYN+ACK that is accepted opens it.
fn answered(found: &Found, syn: &Kept, tables: Tables) -> Opens {
    let (client, server, isn) = (found.client, found.server, syn.sequence());
    let signature = Header::of(&syn.segment).map_or(Signature::None, |header| header.signature);
    let waiting = match signature {
        Signature::TcpAo {
            key_id,
            rnext_key_id,
        } => Connection::open_active(tables, client, server, isn, key_id).map(|mut connection| {
            // Where the client has no entry for what it asks for, it asks for something else: no verdict rests on it.
            let _ = connection.ask(tables, rnext_key_id);
            connection
        }),
        Signature::TcpMd5 => Connection::open_active_md5(tables, client, server, isn),
        Signature::None => Err(Refusal::OptionMissing),
    };
    let waiting = match waiting {
        Ok(waiting) => waiting,
        Err(refusal) => {
            return Opens {
                failed: Some(refusal),
                ..Opens::default()
            }
        }
    };
    let tries = found.answers.iter().map(|answer| {
        let mut connection = waiting.clone();
        let verdict = connection.judge(tables, server.ip(), client.ip(), &answer.segment);
        (answer.number, verdict, connection)
    });
    let tries: Vec<(u64, Verdict, Connection)> = tries.collect();
    let accepted =
        |(_, verdict, _): &&(u64, Verdict, Connection)| matches!(verdict, Verdict::Accept { .. });
    let opened = tries.iter().find(accepted);
    let packet = opened
        .or(tries.first())
        .map(|(packet, verdict, _)| (*packet, *verdict));
    Opens {
        opened: opened.map(|(packet, _, connection)| (*packet, connection.clone())),
        waiting: Some(waiting),
        packet,
        failed: None,
    }
}

/// The server's end: the SYN opens it.
fn passive(found: &Found, syn: &Kept, isn: u32, tables: Tables) -> Opens {
    let (source, destination) = (found.client.ip(), found.server.ip());
    let pass = UnknownKeyId::Pass;
    let opened = Connection::open_passive(tables, source, destination, &syn.segment, isn, pass);
    let verdict = match &opened {
        Ok(Some(_)) => Verdict::Accept { extension: 0 },
        Ok(None) => Verdict::Pass,
        Err(refusal) => Verdict::Drop(*refusal),
    };
    let failed = opened.as_ref().err().copied();
    Opens {
        opened: opened.ok().flatten().map(|state| (syn.number, state)),
        packet: Some((syn.number, verdict)),
        failed,
        ..Opens::default()
    }
}
