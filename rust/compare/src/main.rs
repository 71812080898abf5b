//! `compare [SECONDS] [--seed S]` compares for so long, 60 seconds if nothing is said, from a seed
//! that is printed. `compare --seed S --upto N` makes the calls of seed S up to N and shows N in
//! full. With `--trace` each call is named before it is made, in case one does not return.

use compare::against::Against;
use compare::compare::Run;
use compare::counts::Counts;
use compare::prng::Prng;
use compare::report;
use std::time::{Duration, Instant, SystemTime, UNIX_EPOCH};

/// The calls of one seed; after these another one is taken, so that each can be made again soon.
const CALLS: u64 = 100_000;

struct Arguments {
    seconds: u64,
    seed: u64,
    upto: Option<u64>,
    trace: bool,
}

fn arguments() -> Option<Arguments> {
    let now = SystemTime::now().duration_since(UNIX_EPOCH).ok()?;
    let mut arguments = Arguments {
        seconds: 60,
        seed: now.as_nanos() as u64,
        upto: None,
        trace: false,
    };
    let mut words = std::env::args().skip(1);
    while let Some(word) = words.next() {
        match word.as_str() {
            "--seed" => arguments.seed = words.next()?.parse().ok()?,
            "--upto" => arguments.upto = Some(words.next()?.parse().ok()?),
            "--trace" => arguments.trace = true,
            seconds => arguments.seconds = seconds.parse().ok()?,
        }
    }
    Some(arguments)
}

fn made(seed: u64, limit: u64, trace: bool) -> Run {
    let mut run = Run::new(seed, limit, &[Against::Reference]);
    run.trace = trace;
    run.made()
}

/// Shows the call of this index in full, with both answers if they differ.
fn show(arguments: &Arguments, index: u64) -> bool {
    let run = made(arguments.seed, index + 1, arguments.trace);
    if let Some((call, outcome)) = &run.last {
        println!("call {index} of seed {}", run.seed);
        print!("{}", report::lines(call, usize::MAX));
        print!(
            "{}",
            report::outcome("archive", call, outcome, None, usize::MAX)
        );
    }
    if let Some(difference) = run.difference() {
        print!("{}", report::difference(difference));
    }
    run.difference().is_none()
}

/// Compares seed after seed, the first one as given.
fn soak(arguments: &Arguments) -> bool {
    let Arguments { seconds, seed, .. } = *arguments;
    println!("comparing for {seconds} seconds from seed {seed}");
    let begin = Instant::now();
    let mut seeds = Prng::new(seed);
    let mut next = seed;
    let mut calls = 0;
    let mut counts = Counts::default();
    while begin.elapsed() < Duration::from_secs(seconds) {
        let run = made(next, CALLS, arguments.trace);
        if let Some(difference) = run.difference() {
            print!("{}", report::difference(difference));
            return false;
        }
        calls += run.calls;
        counts.join(&run.counts);
        next = seeds.long();
    }
    counts.print();
    println!("archive and reference: {calls} calls from seed {seed}, no difference");
    true
}

fn main() {
    let Some(arguments) = arguments() else {
        eprintln!("compare [SECONDS] [--seed S] [--upto N] [--trace]");
        std::process::exit(2);
    };
    let good = match arguments.upto {
        Some(index) => show(&arguments, index),
        None => soak(&arguments),
    };
    std::process::exit(if good { 0 } else { 1 });
}
