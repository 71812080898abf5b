//! A station with many connections over one table (Ticket 6): places that are free, damaged or doubled, and calls of all
//! connections mixed, for pairs in use and beside them.

use crate::aim::{self, Aim, At};
use crate::beyond::{with_tables, Compared, Sides};
use crate::prng::Prng;
use crate::states::{any_state, number};
use crate::tables;
use crate::world::Stop;
use kit::connections::{places, states, Boundary, Call, Function, Outcome, MOST_PLACES};
use kit::{connections_of, Entry, Pair, State};

const REFERENCE: Boundary = connections_of!(kit::connections::Boundary, reference::boundary);
const FAULTY: Boundary = connections_of!(kit::connections::Boundary, faulty::boundary);

/// Until the archive has these calls, the reference stands in its place.
pub const SIDES: Sides<Call, Outcome> = Sides {
    archive: |call| REFERENCE.make(call),
    reference: |call| REFERENCE.make(call),
    faulty: |call| FAULTY.make(call),
};

/// Which numbers each call can give.
pub fn possible() -> Vec<(&'static str, Vec<u8>)> {
    let opening = with_tables(&[0, 18, 19, 35, 41, 42]);
    let syn = [0, 1, 18, 19, 20, 21, 22, 24, 25, 26, 27, 29, 40, 46, 47];
    let passive = with_tables(&[&syn[..], &[41, 42]].concat());
    let judged = with_tables(&[&syn[..], &[23, 28]].concat());
    let signed = with_tables(&[0, 18, 19, 23, 30, 31, 32, 34, 35, 36, 37]);
    let asked = with_tables(&[0, 18, 19, 23, 35]);
    let of = |function: Function, numbers: &[u8]| (function.name(), numbers.to_vec());
    vec![
        of(Function::OpenActive, &opening),
        of(Function::OpenActiveMd5, &opening),
        of(Function::OpenPassive, &passive),
        of(Function::Judge, &judged),
        of(Function::Sign, &signed),
        of(Function::Ask, &asked),
        of(Function::Close, &[0, 18, 19, 23]),
        of(Function::Find, &[0, 18, 19, 23]),
    ]
}

/// One station.
pub struct Station {
    keys: Vec<Entry>,
    md5: Vec<Entry>,
    /// The pairs that its calls are about, and whether each is MD5's.
    pairs: Vec<(Pair, bool)>,
    connections: Vec<u8>,
}

/// A pair beside this one: by one of its parts, by its direction or by its family.
fn beside(random: &mut Prng, pair: &Pair) -> Pair {
    let mut other = pair.clone();
    match random.below(8) {
        0 | 1 => other.local_port = pair.local_port.wrapping_add(1),
        2 | 3 => other.remote_port = pair.remote_port.wrapping_sub(1),
        4 => *other.local.last_mut().unwrap() ^= 1,
        5 => *other.remote.last_mut().unwrap() ^= 1,
        6 => other = pair.mirror(),
        _ => {
            let bytes = 20 - pair.local.len();
            other.local.resize(bytes, 0);
            other.remote.resize(bytes, 0);
        }
    }
    other
}

impl Station {
    pub fn new(random: &mut Prng) -> Station {
        let pair = tables::pair(random);
        let by_md5 = random.one_in(3);
        let (keys, md5) = tables::both_around(random, &pair, by_md5);
        let mut pairs = vec![(pair.clone(), by_md5)];
        for _ in 0..2 + random.below(4) {
            let (from, by_md5) = pairs[random.below(pairs.len())].clone();
            pairs.push((beside(random, &from), by_md5));
        }
        let count = match random.below(60) {
            0 => 256,
            1 => 255,
            2..=4 => 0,
            _ => 1 + random.below(7),
        };
        let mut station = Station {
            keys,
            md5,
            pairs,
            connections: vec![],
        };
        let large = count > 8;
        let mut all: Vec<State> = (0..count)
            .map(|_| station.any_place(random, large))
            .collect();
        if large && random.one_in(2) {
            // Full, but perhaps for the last place.
            all.iter_mut().for_each(|state| state.family = 4);
            all[count - 1].family = random.pick(&[0, 0, 0, 4]);
        }
        station.connections = places(&all);
        station
    }

    /// What may stand in a place: nothing, something of no family, or one of the pairs.
    fn any_place(&self, random: &mut Prng, large: bool) -> State {
        let (pair, by_md5) = self.any_pair(random);
        match random.below(6) {
            0 | 1 => State::default(),
            2 => State {
                family: random.pick(&[0, 1, 5, 7, 255]),
                ..any_state(random, &pair, by_md5)
            },
            _ if large && !random.one_in(20) => {
                let mut state = any_state(random, &pair, by_md5);
                state.local_port = random.half();
                state
            }
            _ => any_state(random, &pair, by_md5),
        }
    }

    fn any_pair(&self, random: &mut Prng) -> (Pair, bool) {
        self.pairs[random.below(self.pairs.len())].clone()
    }

    /// A station's calls, until nothing more is tried on it.
    pub fn run(random: &mut Prng, compared: &mut Compared<Call, Outcome>) -> Result<(), Stop> {
        let mut station = Station::new(random);
        let large = station.connections.len() > 8 * State::BYTES;
        if large {
            // Into the last free place, if there is one alone.
            for (pair, _) in station.pairs.clone() {
                let isn = number(random);
                let call = aim::open_active(random, &station.at(&[]), &pair, isn, &Aim::NONE);
                let call = station.lifted(Function::OpenActive, call);
                station.made(&call, compared)?;
            }
        }
        let most = if large { 20 } else { 60 };
        for _ in 0..20 + random.below(most) {
            if random.one_in(8) {
                station.happen(random);
            } else {
                station.step(random, compared)?;
            }
        }
        Ok(())
    }

    /// Something happens to the places between calls.
    fn happen(&mut self, random: &mut Prng) {
        let mut all = states(&self.connections);
        if all.is_empty() {
            return;
        }
        let place = random.below(all.len());
        let other = random.below(all.len());
        match random.below(8) {
            0 => all[place] = all[other],
            1 => all[place].put_pair(&self.any_pair(random).0),
            2 => all[place].family = random.pick(&[0, 4, 6, 5, 7]),
            3 => all[place] = State::default(),
            4 => all[place].way = random.pick(&[0, 1, 2]),
            5 => all.swap(place, other),
            _ => all[place] = self.any_place(random, false),
        }
        self.connections = places(&all);
    }

    /// A state to aim at: that of a place, or any of one of the pairs.
    fn any_held(&self, random: &mut Prng) -> State {
        let all = states(&self.connections);
        let used: Vec<&State> = all
            .iter()
            .filter(|state| [4, 6].contains(&state.family))
            .collect();
        if used.is_empty() || random.one_in(6) {
            let (pair, by_md5) = self.any_pair(random);
            return any_state(random, &pair, by_md5);
        }
        *used[random.below(used.len())]
    }

    fn at<'a>(&'a self, state: &'a [u8]) -> At<'a> {
        At {
            keys: &self.keys,
            md5: &self.md5,
            state,
        }
    }

    fn step(
        &mut self,
        random: &mut Prng,
        compared: &mut Compared<Call, Outcome>,
    ) -> Result<(), Stop> {
        let mut call = match random.below(20) {
            0..=7 => self.judge(random),
            8..=9 => self.syn(random),
            10..=13 => self.sign(random),
            14 => self.ask(random),
            15..=16 => self.open(random),
            17 => self.open_md5(random),
            18 => self.named(random, Function::Close),
            _ => self.named(random, Function::Find),
        };
        if random.one_in(12) && !call.segment.is_empty() {
            let most = random.pick(&[3, 4, 5, 19, 20]);
            call.segment.truncate(random.below(most + 1));
        }
        let ours = call.connections.clone();
        if random.one_in(25) {
            spoil_length(random, &mut call.connections);
        }
        let before = self.connections.clone();
        self.made(&call, compared)?;
        if call.connections != ours {
            self.connections = before;
        }
        Ok(())
    }

    /// Makes a call and keeps what it leaves.
    fn made(&mut self, call: &Call, compared: &mut Compared<Call, Outcome>) -> Result<(), Stop> {
        let outcome = compared.make(call)?;
        compared.meet(call.function.name(), outcome.word);
        self.connections = outcome.connections;
        Ok(())
    }

    /// The call as it is made here: of a call on one connection everything but the state.
    fn lifted(&self, function: Function, call: kit::Call) -> Call {
        Call {
            function,
            form: call.form,
            keys: call.table,
            md5: call.md5,
            one: call.source,
            other: call.destination,
            local_port: call.local_port,
            remote_port: call.remote_port,
            segment: call.segment,
            isn: call.isn,
            byte: call.byte,
            out: call.out,
            connections: self.connections.clone(),
        }
    }

    /// A segment for one of the connections, or beside them.
    fn judge(&self, random: &mut Prng) -> Call {
        let state = self.any_held(random).bytes();
        let aim = Aim::at(random, kit::Function::Judge);
        let call = aim::judge(random, &self.at(&state), &aim);
        let mut call = self.lifted(Function::Judge, call);
        call.byte = random.pick(&[0, 1]);
        call
    }

    /// A bare SYN for one of the pairs: judged, or to open by.
    fn syn(&self, random: &mut Prng) -> Call {
        let (pair, _) = self.any_pair(random);
        let state = State::default().bytes();
        let aim = Aim::at(random, kit::Function::OpenPassive);
        let function = kit::Function::OpenPassive;
        let call = aim::syn(random, function, &self.at(&state), &pair, &aim);
        let function = random.pick(&[
            Function::OpenPassive,
            Function::OpenPassive,
            Function::Judge,
        ]);
        self.lifted(function, call)
    }

    /// A segment to be signed on one of the connections, or beside them. What the aim changes in the state is put into its
    /// place.
    fn sign(&mut self, random: &mut Prng) -> Call {
        let state = self.any_held(random);
        let bytes = state.bytes();
        let aim = Aim::at(random, kit::Function::Sign);
        let call = aim::sign(random, &self.at(&bytes), &aim);
        if call.state.len() == State::BYTES {
            let mut all = states(&self.connections);
            if let Some(place) = all.iter().position(|held| *held == state) {
                all[place] = State::read(&call.state).unwrap();
                self.connections = places(&all);
            }
        }
        let pair = state.pair();
        let mut lifted = self.lifted(Function::Sign, call);
        (lifted.one, lifted.other) = (pair.local, pair.remote);
        spoil_addresses(random, &mut lifted);
        lifted
    }

    fn ask(&self, random: &mut Prng) -> Call {
        let state = self.any_held(random);
        let bytes = state.bytes();
        let aim = Aim::at(random, kit::Function::Ask);
        let call = aim::ask(random, &self.at(&bytes), &aim);
        let mut lifted = self.lifted(Function::Ask, call).pair(&state.pair());
        spoil_addresses(random, &mut lifted);
        lifted
    }

    fn open(&self, random: &mut Prng) -> Call {
        let (pair, _) = self.any_pair(random);
        let aim = Aim::at(random, kit::Function::OpenActive);
        let isn = number(random);
        let call = aim::open_active(random, &self.at(&[]), &pair, isn, &no_state(aim));
        self.lifted(Function::OpenActive, call)
    }

    fn open_md5(&self, random: &mut Prng) -> Call {
        let (pair, _) = self.any_pair(random);
        let aim = Aim::at(random, kit::Function::OpenActiveMd5);
        let isn = number(random);
        let call = aim::open_active_md5(random, &self.at(&[]), &pair, isn, &no_state(aim));
        self.lifted(Function::OpenActiveMd5, call)
    }

    fn named(&self, random: &mut Prng, function: Function) -> Call {
        let mut pair = self.any_held(random).pair();
        if random.one_in(4) {
            pair = beside(random, &pair);
        }
        let call = Call {
            connections: self.connections.clone(),
            ..Call::new(function)
        };
        let mut call = call.pair(&pair);
        spoil_addresses(random, &mut call);
        call
    }
}

/// An aim without 18: there is no state to spoil.
fn no_state(aim: Aim) -> Aim {
    aim.without(18)
}

/// 19, now and then.
fn spoil_addresses(random: &mut Prng, call: &mut Call) {
    if random.one_in(20) {
        let any = random.below(20);
        let (one, other) = random.pick(&[(4, 16), (16, 4), (0, 0), (5, 5), (any, 4), (16, any)]);
        call.one.resize(one, 1);
        call.other.resize(other, 1);
    }
}

/// Another length, most times one that is no whole number of places.
fn spoil_length(random: &mut Prng, connections: &mut Vec<u8>) {
    match random.below(6) {
        0 => connections.push(0),
        1 => {
            connections.pop();
        }
        2 => connections.extend([4; State::BYTES - 1]),
        3 => connections.extend([0; State::BYTES]),
        4 => connections.resize((MOST_PLACES + 1) * State::BYTES, 0),
        _ => connections.resize(MOST_PLACES * State::BYTES + 1, 0),
    }
}

/// The pair that a segment is for, as our end holds it; nothing under 4 bytes.
fn pair_of(call: &Call) -> Option<Pair> {
    let port = |at: usize| {
        Some(u16::from_be_bytes([
            *call.segment.get(at)?,
            *call.segment.get(at + 1)?,
        ]))
    };
    let sent = Pair {
        local: call.one.clone(),
        remote: call.other.clone(),
        local_port: port(0)?,
        remote_port: port(2)?,
    };
    match call.function {
        Function::Sign => Some(sent),
        _ => Some(sent.mirror()),
    }
}

/// Two segments for different pairs of one station, to be judged or signed over the same places.
fn two(random: &mut Prng) -> [Call; 2] {
    let mut station = Station::new(random);
    loop {
        let [one, other] = [0; 2].map(|_| match random.below(5) {
            0..=2 => station.judge(random),
            3 => station.sign(random),
            _ => Call {
                function: Function::Judge,
                ..station.syn(random)
            },
        });
        if let (Some(pair), Some(other_pair)) = (pair_of(&one), pair_of(&other)) {
            if pair != other_pair {
                let connections = station.connections;
                return [one, other].map(|call| Call {
                    connections: connections.clone(),
                    ..call
                });
            }
        }
        station = Station::new(random);
    }
}

/// "Two segments for different pairs, judged or signed one right after the other, must in either order leave the same table
/// and give the same answers": whether this side does so for two that are drawn, and whether a place changed.
pub fn either_order(random: &mut Prng, make: fn(&Call) -> Outcome) -> (bool, bool) {
    let [one, other] = two(random);
    let then = |first: &Call, second: &Call| {
        let first = make(first);
        let second = make(&Call {
            connections: first.connections.clone(),
            ..second.clone()
        });
        let left = second.connections.clone();
        ((first.word, first.out), (second.word, second.out), left)
    };
    let (one_first, other_second, left) = then(&one, &other);
    let (other_first, one_second, left_too) = then(&other, &one);
    let same = one_first == one_second && other_first == other_second && left == left_too;
    (same, left != one.connections)
}
