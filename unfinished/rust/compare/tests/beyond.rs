//! The calls of Tickets 6, 12, 7 and 11: archive and reference give the same on calls of one seed, every number of every
//! call is met, and each planted fault is found. Until the archive has these calls the reference stands in its place.

use compare::beyond::Compared;
use compare::connections::{self, Station};
use compare::prng::Prng;
use compare::{records, removal, runs};
use faulty::Fault;

const SEED: u64 = 20_261_118;

#[test]
fn many_connections() {
    let faults = Fault::of_connections();
    let mut compared = Compared::new(connections::SIDES, 40_000, faults);
    let mut random = Prng::new(SEED);
    while Station::run(&mut random, &mut compared).is_ok() {}
    compared.print("many connections");
    let wrong = compared.wrong(&connections::possible(), 2);
    assert!(wrong.is_empty(), "{}", wrong.join("\n"));
}

/// Ticket 6's promise, of the archive itself.
#[test]
fn either_order() {
    let mut random = Prng::new(SEED);
    let mut changed = 0;
    for index in 0..5_000 {
        let (same, changes) = connections::either_order(&mut random, connections::SIDES.archive);
        assert!(same, "pair {index} of seed {SEED}");
        changed += usize::from(changes);
    }
    assert!(changed > 500, "only {changed} changed a place");
}

#[test]
fn states_as_records() {
    let mut compared = Compared::new(records::SIDES, 20_000, Fault::of_records());
    let mut random = Prng::new(SEED);
    while records::run(&mut random, &mut compared).is_ok() {}
    compared.print("records");
    let wrong = compared.wrong(&records::possible(), 50);
    assert!(wrong.is_empty(), "{}", wrong.join("\n"));
}

#[test]
fn keys_taken_away() {
    let mut compared = Compared::new(removal::SIDES, 20_000, Fault::of_removal());
    let mut random = Prng::new(SEED);
    while removal::run(&mut random, &mut compared).is_ok() {}
    compared.print("removals");
    let wrong = compared.wrong(&removal::possible(), 5);
    assert!(wrong.is_empty(), "{}", wrong.join("\n"));
}

#[test]
fn data_in_pieces() {
    let mut compared = Compared::new(runs::SIDES, 20_000, Fault::of_pieces());
    let mut random = Prng::new(SEED);
    while runs::run(&mut random, &mut compared).is_ok() {}
    compared.print("runs in pieces");
    let wrong = compared.wrong(&runs::possible(), 5);
    assert!(wrong.is_empty(), "{}", wrong.join("\n"));
}
