//! Makes each call on the archive and on the reference and holds the outcomes against each other; and, where
//! its tables are bytes that are not refused, the same call with them prepared.
//!
//! The reference may be tried several times in one run: as it is, or with one fault planted each.
//! One that has differed is tried no further. Up to its first difference each has seen
//! the same calls as if it had been tried alone, since the run goes on with the archive's outcomes.

use crate::against::Against;
use crate::archive::by_archive;
use crate::counts::Counts;
use crate::prepared;
use crate::prng::Prng;
use crate::report;
use crate::translation::Translation;
use crate::world::{Caller, Stop, World};
use kit::{Call, Outcome};

/// The run that the gate makes.
pub const SEED: u64 = 20_251_116;
pub const CALLS: u64 = 1_000_000;

/// What the archive is compared with, and where it first differed.
pub struct Tried {
    pub against: Against,
    pub difference: Option<Difference>,
}

/// Two outcomes that should be the same: the archive's and the reference's or, of `forms`, the archive's with
/// prepared tables and with their bytes.
pub struct Difference {
    pub forms: bool,
    pub seed: u64,
    /// The call's index in the run, from 0.
    pub index: u64,
    pub call: Call,
    pub archive: Outcome,
    pub reference: Outcome,
}

/// A run: what was tried, how many calls were made, and which numbers they gave.
pub struct Run {
    pub seed: u64,
    pub calls: u64,
    pub counts: Counts,
    pub tried: Vec<Tried>,
    /// Where the archive first gave something else with prepared tables than with their bytes.
    pub forms: Option<Difference>,
    /// The last of all calls.
    pub last: Option<(Call, Outcome)>,
    /// Whether each call is named before it is made, in case it does not return.
    pub trace: bool,
    limit: u64,
    /// How tables are prepared.
    random: Prng,
}

impl Run {
    /// A run of `limit` calls.
    pub fn new(seed: u64, limit: u64, against: &[Against]) -> Run {
        let tried = against.iter().map(|against| Tried {
            against: *against,
            difference: None,
        });
        Run {
            seed,
            calls: 0,
            counts: Counts::default(),
            tried: tried.collect(),
            forms: None,
            last: None,
            trace: false,
            limit,
            random: Prng::new(!seed),
        }
    }

    /// Makes the calls, fewer if all that were tried have differed before.
    pub fn made(mut self) -> Run {
        let mut random = Prng::new(self.seed);
        while World::run(&mut random, &mut self).is_ok() {}
        self
    }

    fn name_call(&self, call: &Call) {
        let name = call.function.name();
        eprintln!("call {} of seed {}: {name}", self.calls, self.seed);
        if self.calls + 1 == self.limit {
            eprint!("{}", report::lines(call, usize::MAX));
        }
    }

    /// The difference that was found first.
    pub fn difference(&self) -> Option<&Difference> {
        let tried = self.tried.iter();
        let found = tried.filter_map(|tried| tried.difference.as_ref());
        found
            .chain(&self.forms)
            .min_by_key(|difference| difference.index)
    }

    /// Makes a call on the archive and on what it is compared with.
    fn compared(&mut self, call: &Call, way: Option<Translation>) -> Result<Outcome, Stop> {
        if self.calls == self.limit {
            return Err(Stop);
        }
        if self.trace {
            self.name_call(call);
        }
        let index = self.calls;
        self.calls += 1;
        let archive = by_archive(call);
        self.counts.add(call, way, &archive);
        if self.calls == self.limit {
            self.last = Some((call.clone(), archive.clone()));
        }
        for tried in &mut self.tried {
            if tried.difference.is_some() {
                continue;
            }
            let reference = tried.against.make(call);
            if reference != archive {
                tried.difference = Some(Difference {
                    forms: false,
                    seed: self.seed,
                    index,
                    call: call.clone(),
                    archive: archive.clone(),
                    reference,
                });
            }
        }
        if self.tried.iter().all(|tried| tried.difference.is_some()) {
            return Err(Stop);
        }
        Ok(archive)
    }
}

impl Caller for Run {
    fn call_over(&mut self, call: &Call, way: Option<Translation>) -> Result<Outcome, Stop> {
        let by_bytes = self.compared(call, way)?;
        // What is refused cannot be prepared; asking for it once more would take long.
        let refused = matches!(by_bytes.number(), 10..=17 | 45);
        let again = (!refused).then(|| prepared::same_prepared(&mut self.random, call));
        if let Some(again) = again.flatten() {
            let prepared = self.compared(&again, way)?;
            if prepared == by_bytes {
                self.counts.add_same_prepared(call.function);
            } else if self.forms.is_none() {
                self.forms = Some(Difference {
                    forms: true,
                    seed: self.seed,
                    index: self.calls - 1,
                    call: again,
                    archive: prepared,
                    reference: by_bytes.clone(),
                });
            }
        }
        Ok(by_bytes)
    }
}
