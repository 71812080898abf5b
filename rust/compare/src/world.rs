//! Two ends of a connection, by TCP-AO or by MD5, and what goes on between them: the opening, segments signed
//! at one end that arrive at the other in any order, twice or not at all, often with addresses and ports translated
//! on the way, keys asked for, leaps over a rollover; and, all the while, calls that are aimed at numbers.

use crate::aim::{self, Aim, At};
use crate::prng::Prng;
use crate::segments;
use crate::states::{any_state, number, reference};
use crate::tables;
use crate::translation::Translation;
use kit::entry::table;
use kit::segment::{ACK, SYN};
use kit::{translated, Call, Entry, Function, Outcome, Pair, State};

/// Makes a call on both sides; an error ends the run.
pub trait Caller {
    /// `way` is given where the segment is one that the other end signed: what was translated, and nothing
    /// else has changed.
    fn call_over(&mut self, call: &Call, way: Option<Translation>) -> Result<Outcome, Stop>;

    fn call(&mut self, call: &Call) -> Result<Outcome, Stop> {
        self.call_over(call, None)
    }
}

/// The run is over.
pub struct Stop;

struct End {
    pair: Pair,
    /// Whether it is the MD5 table that has an entry for the pair.
    by_md5: bool,
    isn: u32,
    keys: Vec<Entry>,
    md5: Vec<Entry>,
    state: Vec<u8>,
    /// Signed here, and perhaps still on the way to the other end.
    sent: Vec<Vec<u8>>,
}

impl End {
    fn new(random: &mut Prng, pair: Pair, by_md5: bool, tables: (Vec<Entry>, Vec<Entry>)) -> End {
        let (keys, md5) = tables;
        End {
            pair,
            by_md5,
            isn: number(random),
            keys,
            md5,
            state: State::default().bytes(),
            sent: vec![],
        }
    }

    fn at<'a>(&'a self, state: &'a [u8]) -> At<'a> {
        At {
            keys: &self.keys,
            md5: &self.md5,
            state,
        }
    }

    fn state(&self) -> State {
        State::read(&self.state).unwrap()
    }

    fn set(&mut self, state: &State) {
        self.state = state.bytes();
    }

    /// The segment as it comes from the other end.
    fn arrives(&self, function: Function, segment: &[u8]) -> Call {
        let mut call = Call::new(function, &table(&self.keys));
        call.md5 = table(&self.md5);
        call.source = self.pair.remote.clone();
        call.destination = self.pair.local.clone();
        call.segment = segment.to_vec();
        if function.takes_state() {
            call.state = self.state.clone();
        }
        call
    }
}

pub struct World {
    ends: [End; 2],
}

impl World {
    /// One connection from its opening to where nothing more is tried on it.
    pub fn run(random: &mut Prng, caller: &mut dyn Caller) -> Result<(), Stop> {
        let mut world = World::new(random);
        world.open(random, caller)?;
        for _ in 0..20 + random.below(60) {
            world.step(random, caller)?;
        }
        Ok(())
    }

    fn new(random: &mut Prng) -> World {
        let pair = tables::pair(random);
        let other = tables::pair_there(random, &pair);
        let by_md5 = random.one_in(3);
        let (mut keys, md5) = tables::both_around(random, &pair, by_md5);
        tables::hide(random, &mut keys, &pair, &other);
        let mut their_keys = tables::other_end(random, &keys, &pair, &other);
        let mut their_md5 = tables::md5_there(random, &md5, &pair, &other);
        if !random.one_in(60) {
            tables::keep_apart(&mut their_keys, &mut their_md5, by_md5);
        }
        World {
            ends: [
                End::new(random, pair, by_md5, (keys, md5)),
                End::new(random, other, by_md5, (their_keys, their_md5)),
            ],
        }
    }

    /// The three segments that open. Where they do not, the ends are set as if they had.
    fn open(&mut self, random: &mut Prng, caller: &mut dyn Caller) -> Result<(), Stop> {
        let [a, b] = &mut self.ends;
        let at = a.at(&a.state);
        let call = if a.by_md5 {
            aim::open_active_md5(random, &at, &a.pair, a.isn, &Aim::NONE)
        } else {
            aim::open_active(random, &at, &a.pair, a.isn, &Aim::NONE)
        };
        a.make(&call, caller)?;
        if let Some(syn) = a.sign(random, caller)? {
            let syn = translated(&syn, &a.pair, &b.pair);
            let way = Some(b.way_from(&a.pair));
            let mut call = b.arrives(Function::JudgeSyn, &syn);
            aim::set_listening(random, &mut call);
            caller.call_over(&call, way)?;
            let mut call = b.arrives(Function::OpenPassive, &syn);
            aim::set_listening(random, &mut call);
            b.make_over(&call, way, caller)?;
        }
        if !b.state().is_open() && random.one_in(2) {
            // As if the SYN had been taken, so that A judges a SYN+ACK all the same.
            let mut state = any_state(random, &b.pair, b.by_md5);
            state.put_pair(&b.pair);
            state.stage = 1;
            state.peer_isn = a.isn;
            state.signing_reference = state.our_isn.into();
            b.set(&state);
        }
        if let Some(syn_ack) = b.sign_syn_ack(random, caller)? {
            let syn_ack = translated(&syn_ack, &b.pair, &a.pair);
            let way = Some(a.way_from(&b.pair));
            a.make_over(&a.arrives(Function::Judge, &syn_ack), way, caller)?;
        }
        if !a.state().is_open() || !b.state().is_open() || random.one_in(3) {
            self.set_open(random);
        }
        Ok(())
    }

    /// Both ends open on one connection, at any references, with any counts.
    fn set_open(&mut self, random: &mut Prng) {
        let [a, b] = &mut self.ends;
        let mut state = any_state(random, &a.pair, a.by_md5);
        state.put_pair(&a.pair);
        state.stage = 1;
        let mut other = any_state(random, &b.pair, b.by_md5);
        other.put_pair(&b.pair);
        other.stage = 1;
        (other.our_isn, other.peer_isn) = (state.peer_isn, state.our_isn);
        other.signing_reference = state.arriving_reference;
        other.arriving_reference = state.signing_reference;
        a.set(&state);
        b.set(&other);
    }

    fn step(&mut self, random: &mut Prng, caller: &mut dyn Caller) -> Result<(), Stop> {
        if random.one_in(2) {
            self.ends.swap(0, 1);
        }
        let [me, peer] = &mut self.ends;
        match random.below(26) {
            0..=3 => {
                if let Some(segment) = me.sign(random, caller)? {
                    me.sent.push(segment);
                }
            }
            4..=8 => me.receive(random, caller, peer)?,
            9..=12 => me.judge(random, caller)?,
            13..=14 => me.try_sign(random, caller)?,
            15 => me.ask(random, caller)?,
            16..=19 => me.listen(random, caller, peer)?,
            20..=21 => me.open_active(random, caller)?,
            22 => me.check_table(random, caller)?,
            23 => me.open_active_md5(random, caller)?,
            24 => me.prepare(random, caller)?,
            _ => self.happen(random),
        }
        Ok(())
    }

    /// Something happens between calls.
    fn happen(&mut self, random: &mut Prng) {
        let [me, peer] = &mut self.ends;
        match random.below(8) {
            0..=2 => {
                // Both ends have gone on, or back, to another reference.
                let (mut mine, mut theirs) = (me.state(), peer.state());
                mine.signing_reference = reference(random);
                theirs.arriving_reference = mine.signing_reference;
                me.set(&mine);
                peer.set(&theirs);
                me.sent.clear();
            }
            3 => {
                let state = any_state(random, &me.pair, me.by_md5);
                me.set(&state);
            }
            4 => {
                // A key is taken away, or all are others.
                if me.keys.len() > 1 && random.one_in(2) {
                    me.keys.remove(random.below(me.keys.len()));
                } else {
                    (me.keys, me.md5) = tables::both_around(random, &me.pair, me.by_md5);
                }
            }
            5 => peer.sent.clear(),
            _ => self.set_open(random),
        }
    }
}

impl End {
    /// What is translated on the way from an end that holds this pair.
    fn way_from(&self, sender: &Pair) -> Translation {
        Translation::between(sender, &self.pair)
    }

    /// Makes a call and keeps the state after it, if it was this end's.
    fn make(&mut self, call: &Call, caller: &mut dyn Caller) -> Result<(), Stop> {
        self.make_over(call, None, caller)
    }

    fn make_over(
        &mut self,
        call: &Call,
        way: Option<Translation>,
        caller: &mut dyn Caller,
    ) -> Result<(), Stop> {
        let outcome = caller.call_over(call, way)?;
        if call.state == self.state {
            self.state = outcome.state;
        }
        Ok(())
    }

    /// Signs what should be right; the signed segment, if it was.
    fn sign(
        &mut self,
        random: &mut Prng,
        caller: &mut dyn Caller,
    ) -> Result<Option<Vec<u8>>, Stop> {
        let call = aim::sign(random, &self.at(&self.state), &Aim::NONE);
        self.signed(&call, caller)
    }

    /// Signs a SYN+ACK at our ISN.
    fn sign_syn_ack(
        &mut self,
        random: &mut Prng,
        caller: &mut dyn Caller,
    ) -> Result<Option<Vec<u8>>, Stop> {
        let mut call = aim::sign(random, &self.at(&self.state), &Aim::NONE);
        if call.segment.len() >= 20 {
            call.segment[4..8].copy_from_slice(&self.state().our_isn.to_be_bytes());
            call.segment[13] = SYN | ACK;
        }
        self.signed(&call, caller)
    }

    fn signed(&mut self, call: &Call, caller: &mut dyn Caller) -> Result<Option<Vec<u8>>, Stop> {
        let outcome = caller.call(call)?;
        if outcome.number() != 0 {
            return Ok(None);
        }
        self.state = outcome.state.clone();
        Ok(Some(outcome.out[..outcome.value() as usize].to_vec()))
    }

    /// One of the segments on the way arrives, perhaps damaged, its checksum then as it was or right again; it
    /// may arrive again.
    fn receive(
        &mut self,
        random: &mut Prng,
        caller: &mut dyn Caller,
        peer: &mut End,
    ) -> Result<(), Stop> {
        let sent = &mut peer.sent;
        if sent.is_empty() {
            return Ok(());
        }
        while sent.len() > 12 {
            sent.swap_remove(random.below(sent.len()));
        }
        let which = random.below(sent.len());
        let as_sent = translated(&sent[which], &peer.pair, &self.pair);
        let mut segment = as_sent.clone();
        match random.below(8) {
            0 => random.flip(&mut segment),
            1 => {
                let header = 4 * usize::from(segment[12] >> 4);
                random.flip(&mut segment[..header]);
            }
            2 => segments::spoil_checksum(random, &mut segment),
            3 => segment.truncate(random.below(segment.len() + 1)),
            4 | 5 => {
                sent.swap_remove(which);
            }
            _ => {}
        }
        if random.one_in(2) {
            let (source, destination) = (&self.pair.remote, &self.pair.local);
            segments::put_checksum(random, &mut segment, source, destination);
        }
        let way = (segment == as_sent).then(|| self.way_from(&peer.pair));
        self.make_over(&self.arrives(Function::Judge, &segment), way, caller)
    }

    /// This end's state, or any in its place.
    fn own_or_any(&self, random: &mut Prng) -> Vec<u8> {
        if random.one_in(3) {
            any_state(random, &self.pair, self.by_md5).bytes()
        } else {
            self.state.clone()
        }
    }

    fn judge(&mut self, random: &mut Prng, caller: &mut dyn Caller) -> Result<(), Stop> {
        let aim = Aim::at(random, Function::Judge);
        let state = self.own_or_any(random);
        let call = aim::judge(random, &self.at(&state), &aim);
        self.make(&call, caller)
    }

    fn try_sign(&mut self, random: &mut Prng, caller: &mut dyn Caller) -> Result<(), Stop> {
        let aim = Aim::at(random, Function::Sign);
        let state = self.own_or_any(random);
        let call = aim::sign(random, &self.at(&state), &aim);
        caller.call(&call)?;
        Ok(())
    }

    fn ask(&mut self, random: &mut Prng, caller: &mut dyn Caller) -> Result<(), Stop> {
        let aim = Aim::at(random, Function::Ask);
        let state = self.own_or_any(random);
        let call = aim::ask(random, &self.at(&state), &aim);
        self.make(&call, caller)
    }

    /// A bare SYN arrives while we listen; now and then it is what was sent on a connection.
    fn listen(
        &mut self,
        random: &mut Prng,
        caller: &mut dyn Caller,
        peer: &End,
    ) -> Result<(), Stop> {
        let function = random.pick(&[Function::JudgeSyn, Function::OpenPassive]);
        let sent = &peer.sent;
        let mut call = if !sent.is_empty() && random.one_in(8) {
            let segment = &sent[random.below(sent.len())];
            self.arrives(function, &translated(segment, &peer.pair, &self.pair))
        } else {
            let aim = Aim::at(random, function);
            aim::syn(random, function, &self.at(&self.state), &self.pair, &aim)
        };
        aim::set_listening(random, &mut call);
        caller.call(&call)?;
        Ok(())
    }

    fn open_active(&mut self, random: &mut Prng, caller: &mut dyn Caller) -> Result<(), Stop> {
        let aim = Aim::at(random, Function::OpenActive);
        let isn = number(random);
        let call = aim::open_active(random, &self.at(&self.state), &self.pair, isn, &aim);
        caller.call(&call)?;
        Ok(())
    }

    fn open_active_md5(&mut self, random: &mut Prng, caller: &mut dyn Caller) -> Result<(), Stop> {
        let aim = Aim::at(random, Function::OpenActiveMd5);
        let isn = number(random);
        let call = aim::open_active_md5(random, &self.at(&self.state), &self.pair, isn, &aim);
        caller.call(&call)?;
        Ok(())
    }

    fn prepare(&mut self, random: &mut Prng, caller: &mut dyn Caller) -> Result<(), Stop> {
        let aim = Aim::at(random, Function::Prepare);
        let call = aim::prepare(random, &self.at(&self.state), &aim);
        caller.call(&call)?;
        Ok(())
    }

    fn check_table(&mut self, random: &mut Prng, caller: &mut dyn Caller) -> Result<(), Stop> {
        let aim = Aim::at(random, Function::CheckTable);
        let call = aim::check_table(random, &self.at(&self.state), &aim);
        caller.call(&call)?;
        Ok(())
    }
}
