//! The archive gives what document 01, once more in plain Rust, gives: on every call of one seed the
//! same answer, the same state and the same output. Every number of every call is met.

use compare::against::Against;
use compare::archive::NAME;
use compare::compare::{Run, CALLS, SEED};
use compare::report;
use std::time::Instant;

fn main() {
    let begin = Instant::now();
    println!("{NAME} and reference, {CALLS} calls from seed {SEED}");
    let run = Run::new(SEED, CALLS, &[Against::Reference]).made();
    run.counts.print();
    let agree = run.difference().is_none();
    let missed = run.counts.faults();
    if let Some(difference) = run.difference() {
        print!("{}", report::difference(difference));
    } else {
        missed.iter().for_each(|missed| println!("{missed}"));
    }
    println!(
        "{NAME} and reference: {} calls from seed {SEED} in {:.1} s, {}, {}",
        run.calls,
        begin.elapsed().as_secs_f64(),
        if agree {
            "no difference"
        } else {
            "A DIFFERENCE"
        },
        if missed.is_empty() {
            "every number met"
        } else {
            "NUMBERS MISSED"
        },
    );
    if !agree || !missed.is_empty() || run.calls != CALLS {
        std::process::exit(1);
    }
}
