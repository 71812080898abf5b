//! The comparison is tried itself: each fault planted in the reference is found within the calls of
//! the agreement test, or, if it is in what the desk prints, within the recordings of the desk's; and how many it took
//! is printed.

use compare::against::Against;
use compare::compare::{Run, CALLS, SEED};
use compare::prng::Prng;
use compare::recordings;
use faulty::Fault;
use std::time::Instant;

/// How many faults of the calls are found.
fn in_calls() -> usize {
    let faults: Vec<Fault> = Fault::of_calls().collect();
    let against: Vec<Against> = faults.iter().copied().map(Against::Planted).collect();
    let run = Run::new(SEED, CALLS, &against).made();
    let mut found = 0;
    println!("  calls  planted fault, and the call that differed");
    for (fault, tried) in faults.iter().zip(&run.tried) {
        let name = fault.name();
        match &tried.difference {
            Some(difference) => {
                found += 1;
                println!(
                    "{:>7}  {name:<32} {}: {} by the archive, {} by the reference",
                    difference.index + 1,
                    difference.call.function.name(),
                    difference.archive.number(),
                    difference.reference.number()
                );
            }
            None => println!("  never  {name}"),
        }
    }
    found
}

/// How many faults of the desk are found.
fn in_recordings() -> usize {
    let mut random = Prng::new(recordings::SEED);
    let mut left: Vec<Fault> = Fault::of_desk().collect();
    let all = left.len();
    println!("recordings  planted fault, and the line that differed");
    for index in 1..=recordings::COUNT {
        let bytes = recordings::recording(&mut random);
        let right = reference::desk::printed(&bytes);
        left.retain(|fault| {
            let lines = faulty::with(*fault, || faulty::desk::printed(&bytes));
            let line = |text: &str, at| text.lines().nth(at).unwrap_or("nothing").to_string();
            if lines == right {
                return true;
            }
            let at = (0..)
                .find(|at| line(&lines, *at) != line(&right, *at))
                .unwrap();
            let (faulty, right) = (line(&lines, at), line(&right, at));
            println!(
                "{index:>10}  {:<29} {faulty} instead of {right}",
                fault.name()
            );
            false
        });
    }
    left.iter()
        .for_each(|fault| println!("     never  {}", fault.name()));
    all - left.len()
}

fn main() {
    let begin = Instant::now();
    let found = in_calls() + in_recordings();
    println!(
        "planted faults: {found} of {} found in {:.1} s",
        Fault::ALL.len(),
        begin.elapsed().as_secs_f64()
    );
    if found != Fault::ALL.len() {
        std::process::exit(1);
    }
}
