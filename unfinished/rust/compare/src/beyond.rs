//! The calls of Tickets 6, 12, 7 and 11, compared: what is made on the archive and on the reference, and which planted
//! faults are found.
//!
//! The archive has no such calls yet, so that the reference stands in its place: each `archive` below is where its calls are
//! put in, by pointers as kit declares them (`connections_of!(kit::connections::pointers::Calls, embankery::raw::c)` and its
//! likes; [`crate::by_pointers`] lends the buffers).

use crate::world::Stop;
use faulty::Fault;
use std::collections::BTreeMap;
use std::fmt::Debug;

/// Who makes a call.
pub struct Sides<C, O> {
    pub archive: fn(&C) -> O,
    pub reference: fn(&C) -> O,
    /// The copy with a fault planted in it.
    pub faulty: fn(&C) -> O,
}

/// A comparison: how many calls were made, which numbers they gave, and what was found.
pub struct Compared<C, O> {
    sides: Sides<C, O>,
    limit: u64,
    pub calls: u64,
    /// How often each number was met, by the call's name.
    pub met: BTreeMap<(&'static str, u8), u64>,
    /// The first call on which archive and reference differ.
    pub difference: Option<(C, O, O)>,
    /// Each fault with the call that found it, and those that are left.
    pub found: Vec<(Fault, u64)>,
    pub left: Vec<Fault>,
}

impl<C: Clone + Debug, O: PartialEq + Debug> Compared<C, O> {
    /// A comparison of `limit` calls.
    pub fn new(sides: Sides<C, O>, limit: u64, faults: impl Iterator<Item = Fault>) -> Self {
        Compared {
            sides,
            limit,
            calls: 0,
            met: BTreeMap::new(),
            difference: None,
            found: vec![],
            left: faults.collect(),
        }
    }

    /// Makes a call on both sides and under each fault that is left; an error ends the run.
    pub fn make(&mut self, call: &C) -> Result<O, Stop> {
        if self.calls == self.limit || self.difference.is_some() {
            return Err(Stop);
        }
        self.calls += 1;
        let archive = (self.sides.archive)(call);
        let reference = (self.sides.reference)(call);
        if archive != reference {
            self.difference = Some((call.clone(), archive, reference));
            return Err(Stop);
        }
        let (faulty, calls) = (self.sides.faulty, self.calls);
        let found = &mut self.found;
        self.left.retain(|fault| {
            let same = faulty::with(*fault, || faulty(call)) == archive;
            if !same {
                found.push((*fault, calls));
            }
            same
        });
        Ok(archive)
    }

    /// Counts a number that was met.
    pub fn meet(&mut self, name: &'static str, word: u64) {
        *self.met.entry((name, named(word))).or_default() += 1;
    }

    /// What is wrong, if anything: a difference, a fault that was not found, a number that was met too seldom or cannot be.
    pub fn wrong(&self, possible: &[(&'static str, Vec<u8>)], least: u64) -> Vec<String> {
        let mut wrong = vec![];
        if let Some((call, archive, reference)) = &self.difference {
            wrong.push(format!(
                "call {}: {call:?}\narchive {archive:?}\nreference {reference:?}",
                self.calls
            ));
        }
        wrong.extend(
            self.left
                .iter()
                .map(|fault| format!("not found: {fault:?}")),
        );
        for (name, numbers) in possible {
            for number in numbers {
                let times = self.met.get(&(*name, *number)).copied().unwrap_or(0);
                if times < least {
                    wrong.push(format!("{name}: {number} met {times} times"));
                }
            }
            let of = self.met.keys().filter(|(other, _)| other == name);
            let others = of.filter(|(_, number)| !numbers.contains(number));
            wrong.extend(others.map(|(name, number)| format!("{name} cannot give {number}")));
        }
        wrong
    }

    /// The faults with the call that found each, the last ones first.
    pub fn print(&self, what: &str) {
        let mut found = self.found.clone();
        found.sort_by_key(|(_, calls)| std::cmp::Reverse(*calls));
        for (fault, calls) in &found {
            println!("{calls:>8}  {fault:?}");
        }
        let (found, all) = (found.len(), found.len() + self.left.len());
        let calls = self.calls;
        println!("{what}: {calls} calls, {found} of {all} faults found");
    }
}

/// An answer's number; 100 more where it is of the MD5 table.
pub fn named(word: u64) -> u8 {
    let number = kit::number(word);
    match (word as u32 >> 8, number) {
        (1, 10..=17) => number + 100,
        (1, 45) | (0, _) => number,
        _ => 255,
    }
}

/// The tables' refusals, and these numbers.
pub fn with_tables(numbers: &[u8]) -> Vec<u8> {
    let tables = (10..=17).chain(110..=117).chain([44, 45]);
    tables.chain(numbers.iter().copied()).collect()
}
