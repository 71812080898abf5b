//! A capture at the desk: what each of its segments gets, as the archive says it.
//!
//! The capture is read twice: first for the openings, then for the verdicts. Its order is taken as the order of
//! arrival.

use crate::openings::{openings, Direction, Opening, Side, Views};
use crate::stop::Stop;
use embankery::{judge_syn, Connection, Refusal, UnknownKeyId, Verdict, Way};
use formats::capture::ip::Whole;
use formats::capture::tcp::{with_checksum, Signature};
use formats::capture::{walk, Event, Fault, Seen, Time, Walked};
use formats::connections::{pair, Finder, Found, Pair};
use formats::recording::SEGMENT_ROOM;
use std::collections::{BTreeMap, HashMap};
use std::io::{self, Read};
use std::net::IpAddr;
use std::ops::ControlFlow;

/// What of a capture is looked at, and how.
#[derive(Clone, Copy, Debug, Default)]
pub struct Choice {
    /// One connection alone, by its number.
    pub connection: Option<usize>,
    /// The address of the end that is ours.
    pub ours: Option<IpAddr>,
    /// Whether each segment is given its right checksum first.
    pub set_checksums: bool,
}

impl Choice {
    /// A segment with its right checksum, if that is wanted.
    fn summed(&self, seen: &Seen) -> Option<Vec<u8>> {
        let (source, destination) = (seen.source.ip(), seen.destination.ip());
        self.set_checksums
            .then(|| with_checksum(source, destination, seen.segment))
    }

    /// Whether a connection is looked at.
    fn wants(&self, number: usize) -> bool {
        self.connection.is_none_or(|chosen| chosen == number)
    }
}

/// What became of a segment.
#[derive(Clone, Debug, PartialEq, Eq)]
pub enum Fate {
    /// It was judged.
    Judged(Verdict),
    /// It could not be; and why not.
    NotJudged(String),
}

/// A segment at the desk.
#[derive(Clone, Debug)]
pub struct Line<'a> {
    /// Its packet's number.
    pub packet: u64,
    /// Its packet's time.
    pub time: Option<Time>,
    /// Its connection's number.
    pub connection: usize,
    /// Where it arrives.
    pub direction: Direction,
    /// Its index in the recording of that direction, if it stands there.
    pub index: Option<u64>,
    /// How it is signed.
    pub signature: Signature,
    /// What it is: its flags, and how much data it carries.
    pub what: String,
    /// What became of it.
    pub fate: Fate,
    /// What it changed.
    pub note: String,
    /// Its bytes, as they were judged.
    pub segment: &'a [u8],
}

/// How often what happened.
#[derive(Clone, Debug, Default, PartialEq, Eq)]
pub struct Counts {
    /// Segments that were accepted.
    pub accepted: u64,
    /// SYNs that were only passed.
    pub passed: u64,
    /// Segments that were dropped, by number.
    pub dropped: BTreeMap<u8, u64>,
    /// Segments that could not be judged, by the reason.
    pub not_judged: BTreeMap<String, u64>,
}

impl Counts {
    fn add(&mut self, fate: &Fate) {
        match fate {
            Fate::Judged(Verdict::Accept { .. }) => self.accepted += 1,
            Fate::Judged(Verdict::Pass) => self.passed += 1,
            Fate::Judged(Verdict::Drop(refusal)) => {
                *self.dropped.entry(refusal.number()).or_default() += 1;
            }
            Fate::NotJudged(why) => *self.not_judged.entry(why.clone()).or_default() += 1,
        }
    }

    /// All of them.
    pub fn all(&self) -> u64 {
        let dropped: u64 = self.dropped.values().sum();
        let not_judged: u64 = self.not_judged.values().sum();
        self.accepted + self.passed + dropped + not_judged
    }
}

/// What the desk found in a capture.
#[derive(Debug)]
pub struct Report {
    /// The capture as a whole.
    pub walked: Walked,
    /// Every connection in it.
    pub found: Vec<Found>,
    /// Segments of connections for which there was no room.
    pub left_out: u64,
    /// The connections that were judged, with what arrived at the client and at the server.
    pub judged: Vec<(Opening, [Counts; 2])>,
    /// The numbers of those that have keys, but no opening in the capture.
    pub unopened: Vec<usize>,
    /// How many others there are, which no entry matches.
    pub others: usize,
    /// Fragments of TCP segments, and packets of which it cannot be said what they carry, by the reason.
    pub unread: BTreeMap<&'static str, u64>,
}

impl Report {
    /// Whether all that has keys was judged, and nothing was dropped.
    pub fn is_good(&self) -> bool {
        let clean = |counts: &Counts| counts.dropped.is_empty() && counts.not_judged.is_empty();
        let all_clean = self
            .judged
            .iter()
            .all(|(_, counts)| counts.iter().all(clean));
        let walked = &self.walked;
        let all_read = walked.fault.is_none() && walked.unknown == 0 && self.unread.is_empty();
        let all_read = all_read && self.left_out == 0;
        all_clean && all_read && self.unopened.is_empty() && !self.judged.is_empty()
    }
}

fn read<R: Read>(
    input: io::Result<R>,
    each: impl FnMut(Event) -> ControlFlow<()>,
) -> Result<Walked, Stop> {
    let input = input.map_err(|error| Stop::system(error.to_string()))?;
    walk(input, each).map_err(|fault| match fault {
        Fault::System(error) => Stop::system(error.to_string()),
        fault => Stop::refused(fault.to_string()),
    })
}

/// The connections of a capture.
pub fn find<R: Read>(input: io::Result<R>, choice: &Choice) -> Result<(Finder, Walked), Stop> {
    let mut finder = Finder::default();
    let walked = read(input, |event| {
        if let Event::Segment(seen) = event {
            let summed = choice.summed(&seen);
            let segment = summed.as_deref().unwrap_or(seen.segment);
            finder.take(Seen { segment, ..seen });
        }
        ControlFlow::Continue(())
    })?;
    Ok((finder, walked))
}

const FRAGMENT: &str = "a later fragment of a TCP segment";

/// A capture whose connections are known, and how they were opened; its segments are still to be judged.
pub struct Desk<'a> {
    views: Views<'a>,
    choice: Choice,
    finder: Finder,
    walked: Walked,
    live: Vec<Live>,
    by_pair: HashMap<Pair, Vec<usize>>,
}

/// A connection while it is judged.
struct Live {
    opening: Opening,
    at_client: End,
    at_server: End,
}

#[derive(Default)]
struct End {
    state: Option<Connection>,
    recorded: u64,
    counts: Counts,
}

impl<'a> Desk<'a> {
    /// Reads a capture for its connections, and has the archive open them.
    pub fn new<R: Read>(
        input: io::Result<R>,
        views: Views<'a>,
        choice: Choice,
    ) -> Result<Desk<'a>, Stop> {
        let (finder, walked) = find(input, &choice)?;
        let all = finder.found().len();
        if let Some(number) = choice
            .connection
            .filter(|number| !(1..=all).contains(number))
        {
            return Err(Stop::usage(format!(
                "there is no connection {number}: the capture has {all}"
            )));
        }
        let openings = openings(finder.found(), &views, choice.ours);
        let mut desk = Desk {
            views,
            choice,
            finder,
            walked,
            live: Vec::new(),
            by_pair: HashMap::new(),
        };
        for opening in openings {
            desk.add(opening);
        }
        Ok(desk)
    }

    /// The capture as a whole.
    pub fn walked(&self) -> &Walked {
        &self.walked
    }

    /// What of it is looked at.
    pub fn choice(&self) -> &Choice {
        &self.choice
    }

    /// The tables by which it is judged.
    pub fn views(&self) -> &Views<'a> {
        &self.views
    }

    /// All connections of the capture.
    pub fn found(&self) -> &[Found] {
        self.finder.found()
    }

    /// The connections that are to be judged.
    pub fn openings(&self) -> impl Iterator<Item = &Opening> {
        let all = self.live.iter().map(|live| &live.opening);
        all.filter(|opening| self.choice.wants(opening.number))
    }

    /// Reads the capture again, judges its segments and hands on a line for each.
    pub fn judge<R: Read>(
        mut self,
        input: io::Result<R>,
        each: &mut dyn FnMut(&Line) -> io::Result<()>,
    ) -> Result<Report, Stop> {
        let mut failed = None;
        let mut unread = BTreeMap::new();
        self.walked = read(input, |event| {
            let line = match event {
                Event::Segment(seen) => self.segment(seen, each),
                Event::Fragment { .. } => {
                    *unread.entry(FRAGMENT).or_default() += 1;
                    Ok(())
                }
                Event::Unclear { why, .. } => {
                    *unread.entry(why).or_default() += 1;
                    Ok(())
                }
                Event::Other => Ok(()),
            };
            match line {
                Ok(()) => ControlFlow::Continue(()),
                Err(error) => {
                    failed = Some(error);
                    ControlFlow::Break(())
                }
            }
        })?;
        match failed {
            Some(error) => Err(error.into()),
            None => Ok(self.report(unread)),
        }
    }

    /// Adds a connection to those of its pair. One that the server did not open takes no segments from an earlier one
    /// that it did: a forged SYN ends no connection.
    fn add(&mut self, opening: Opening) {
        let places = self.by_pair.entry(pair(opening.client, opening.server));
        let places = places.or_default();
        let opened = |opening: &Opening| opening.at_server.opened.is_some();
        let mut before = places.iter().map(|place| &self.live[*place].opening);
        if before.any(opened) && !opened(&opening) {
            return;
        }
        places.push(self.live.len());
        let state = |side: Side| {
            let opened = opening.end(side).opened.as_ref();
            let state = opened.map(|(_, state)| state.clone());
            End {
                state,
                ..End::default()
            }
        };
        self.live.push(Live {
            at_client: state(Side::Client),
            at_server: state(Side::Server),
            opening,
        });
    }

    /// The connection that a segment belongs to: of its pair, the last that began before it, or else the first.
    fn place(&self, seen: &Seen) -> Option<usize> {
        let places = self.by_pair.get(&pair(seen.source, seen.destination))?;
        let mut begun = places.iter().rev();
        let begun = begun.find(|place| self.live[**place].opening.start <= seen.number);
        begun.or(places.first()).copied()
    }

    fn segment(
        &mut self,
        seen: Seen,
        each: &mut dyn FnMut(&Line) -> io::Result<()>,
    ) -> io::Result<()> {
        let place = self.place(&seen);
        let wanted = |place: &usize| self.choice.wants(self.live[*place].opening.number);
        let Some(place) = place.filter(wanted) else {
            return Ok(());
        };
        let summed = self.choice.summed(&seen);
        let segment = summed.as_deref().unwrap_or(seen.segment);
        let seen = Seen { segment, ..seen };
        each(&self.live[place].line(&self.views, seen))
    }

    fn report(self, unread: BTreeMap<&'static str, u64>) -> Report {
        let mut unopened = Vec::new();
        let mut others = 0;
        for (number, found) in (1..).zip(self.finder.found()) {
            if !self.views.cover(found.client, found.server) {
                others += 1;
            } else if found.syns.is_empty() && self.choice.wants(number) {
                unopened.push(number);
            }
        }
        let wanted = |live: &Live| self.choice.wants(live.opening.number);
        let judged = self.live.into_iter().filter(wanted);
        let judged =
            judged.map(|live| (live.opening, [live.at_client.counts, live.at_server.counts]));
        Report {
            walked: self.walked,
            left_out: self.finder.left_out(),
            found: self.finder.into_found(),
            judged: judged.collect(),
            unopened,
            others,
            unread,
        }
    }
}

impl Live {
    fn line<'a>(&mut self, views: &Views, seen: Seen<'a>) -> Line<'a> {
        let receiver = match seen.destination == self.opening.client {
            true => Side::Client,
            false => Side::Server,
        };
        let opening = &self.opening;
        let end = match receiver {
            Side::Client => &mut self.at_client,
            Side::Server => &mut self.at_server,
        };
        let (fate, index, note) = end.judge(opening, receiver, views, &seen);
        end.counts.add(&fate);
        Line {
            packet: seen.number,
            time: seen.time,
            connection: opening.number,
            direction: opening.direction(receiver),
            index,
            signature: seen
                .header
                .map_or(Signature::None, |header| header.signature),
            what: what(&seen),
            fate,
            note,
            segment: seen.segment,
        }
    }
}

impl End {
    /// What a segment gets at this end, its index among those that are recorded, and what it changed.
    fn judge(
        &mut self,
        opening: &Opening,
        receiver: Side,
        views: &Views,
        seen: &Seen,
    ) -> (Fate, Option<u64>, String) {
        let not_judged = |why: String| (Fate::NotJudged(why), None, String::new());
        match seen.whole {
            Whole::Yes => {}
            Whole::Cut(_) => {
                return not_judged("the capture has not the whole segment".to_string());
            }
            Whole::FirstFragment | Whole::LaterFragment => {
                return not_judged("it came in fragments, which are not put together".to_string());
            }
        }
        let opens = opening.end(receiver);
        let tables = views.at(receiver, opening.ours);
        let (source, destination) = (seen.source.ip(), seen.destination.ip());
        if let Some((packet, verdict)) = opens.packet.filter(|(packet, _)| *packet == seen.number) {
            let note = match &opens.opened {
                Some((at, state)) if *at == packet => opens_note(state),
                _ => String::new(),
            };
            return (Fate::Judged(verdict), None, note);
        }
        let opened = opens
            .opened
            .as_ref()
            .is_some_and(|(at, _)| *at < seen.number);
        if let Some(state) = self.state.as_mut().filter(|_| opened) {
            let before = state.send_id();
            let verdict = state.judge(tables, source, destination, seen.segment);
            let note = match state.send_id() == before {
                true => String::new(),
                false => format!(
                    "the receiver signs under key {} from here on",
                    state.send_id()
                ),
            };
            let recorded = state.way() == Way::TcpAo && seen.segment.len() <= SEGMENT_ROOM;
            let index = recorded.then_some(self.recorded);
            self.recorded += u64::from(recorded);
            return (Fate::Judged(verdict), index, note);
        }
        let is_syn = seen.header.is_some_and(|header| header.flags.is_bare_syn());
        match (receiver, &opens.waiting) {
            (Side::Client, Some(waiting)) => {
                let verdict = waiting
                    .clone()
                    .judge(tables, source, destination, seen.segment);
                (Fate::Judged(verdict), None, String::new())
            }
            (Side::Server, _) if is_syn => {
                let pass = UnknownKeyId::Pass;
                let verdict = judge_syn(tables, source, destination, seen.segment, pass);
                (Fate::Judged(verdict), None, String::new())
            }
            _ => not_judged(no_state(opening, receiver)),
        }
    }
}

/// Why an end has no state.
fn no_state(opening: &Opening, receiver: Side) -> String {
    let opens = opening.end(receiver);
    match (receiver, opens.packet, opens.failed) {
        (Side::Server, Some((packet, Verdict::Drop(refusal))), _) => {
            format!(
                "its SYN in packet {packet} was dropped with {}",
                refusal.number()
            )
        }
        (Side::Server, Some((packet, Verdict::Pass)), _) => {
            format!("its SYN in packet {packet} was only passed: no entry matches")
        }
        (Side::Server, Some((packet, _)), _) if opens.opened.is_some() => {
            format!("it comes before the SYN, which is in packet {packet}")
        }
        (Side::Server, _, _) => "the capture has no SYN+ACK, so the ISN is not known".to_string(),
        (Side::Client, _, Some(Refusal::OptionMissing)) => {
            "the SYN is not signed, so it is not known by which entry the client opened".to_string()
        }
        (Side::Client, _, Some(refusal)) => {
            format!("the client could not have opened so: {}", refusal.number())
        }
        (Side::Client, _, None) => "the capture has no SYN of this connection".to_string(),
    }
}

fn opens_note(state: &Connection) -> String {
    match state.way() {
        Way::TcpAo => format!("opens; the receiver signs under key {}", state.send_id()),
        Way::TcpMd5 => "opens, by TCP MD5".to_string(),
    }
}

/// A segment's flags, and how much data it carries.
fn what(seen: &Seen) -> String {
    let Some(header) = seen.header else {
        return format!("{} bytes", seen.segment.len());
    };
    match header.data {
        0 => header.flags.to_string(),
        1 => format!("{}, 1 byte", header.flags),
        data => format!("{}, {data} bytes", header.flags),
    }
}
