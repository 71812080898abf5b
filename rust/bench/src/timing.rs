//! Times two calls in interleaved rounds, so that whatever else the machine does falls on both
//! alike, and prints them as one row.

use std::time::Instant;

/// Nanoseconds a call, over all rounds.
struct Times {
    minimum: f64,
    median: f64,
}

impl Times {
    fn of(mut rounds: Vec<f64>) -> Times {
        rounds.sort_by(f64::total_cmp);
        Times {
            minimum: rounds[0],
            median: rounds[rounds.len() / 2],
        }
    }
}

/// Nanoseconds a call of one round, which makes `count` calls.
fn round(count: usize, call: &mut dyn FnMut()) -> f64 {
    let begin = Instant::now();
    for _ in 0..count {
        call();
    }
    begin.elapsed().as_nanos() as f64 / count as f64
}

/// A ratio that the limited rows of a part should not exceed.
pub struct Limit {
    /// Which rows, and what they are measured by.
    pub rows: &'static str,
    pub ratio: f64,
    /// Whether a miss fails the run: it was asked of us, or is stricter than what was; else it is our
    /// own aim.
    pub wanted: bool,
}

/// What a part of the run prints: its columns' names, and then its rows.
pub struct Table {
    /// How often each side of a row is timed.
    rounds: usize,
    limit: Limit,
    /// The largest ratios of the limited rows so far, of the minimum and of the median.
    largest: [f64; 2],
}

impl Table {
    pub fn new(title: &str, what: &str, other: &str, rounds: usize, limit: Limit) -> Table {
        println!("\n{title}");
        println!("Nanoseconds a call over {rounds} interleaved rounds.");
        println!("Buffers are reused, not cleared.\n");
        println!(
            "{:40} |            minimum            |            median",
            ""
        );
        println!("{what:40} |      ours {other:>10}   ratio |      ours {other:>10}   ratio");
        Table {
            rounds,
            limit,
            largest: [0.0; 2],
        }
    }

    /// Times both, `count` calls to a round, and prints the row. `limited`: the limit is for it. Gives the
    /// minimum of each.
    pub fn row(
        &mut self,
        label: &str,
        limited: bool,
        count: usize,
        ours: &mut dyn FnMut(),
        other: &mut dyn FnMut(),
    ) -> [f64; 2] {
        let ours = &mut || round(count, ours);
        self.measured(label, limited, ours, &mut || round(count, other))
    }

    /// The same, where both say themselves what a call of one round took.
    pub fn measured(
        &mut self,
        label: &str,
        limited: bool,
        ours: &mut dyn FnMut() -> f64,
        other: &mut dyn FnMut() -> f64,
    ) -> [f64; 2] {
        let (mut a, mut b) = (Vec::new(), Vec::new());
        for _ in 0..self.rounds {
            a.push(ours());
            b.push(other());
        }
        let (a, b) = (Times::of(a), Times::of(b));
        let ratios = [a.minimum / b.minimum, a.median / b.median];
        if limited {
            self.largest = [0, 1].map(|i| self.largest[i].max(ratios[i]));
        }
        let over = limited && ratios[0] > self.limit.ratio;
        println!(
            "{label:40} | {:>9.0}  {:>9.0}  {:>6.2} | {:>9.0}  {:>9.0}  {:>6.2}{}",
            a.minimum,
            b.minimum,
            ratios[0],
            a.median,
            b.median,
            ratios[1],
            if over { "  over" } else { "" }
        );
        [a.minimum, b.minimum]
    }

    /// What came of the limit.
    pub fn end(self) -> Outcome {
        Outcome {
            limit: self.limit,
            largest: self.largest,
        }
    }
}

/// A limit, and the largest ratios of its rows, of the minimum and of the median.
pub struct Outcome {
    limit: Limit,
    largest: [f64; 2],
}

impl Outcome {
    /// The minimum decides: what else the machine does can only add to a time.
    fn holds(&self) -> bool {
        self.largest[0] <= self.limit.ratio
    }

    fn print(&self) {
        println!(
            "{:<8} {:<8} {:>8.2} {:>8.2}   {}: at most {}",
            if self.limit.wanted { "wanted" } else { "own" },
            if self.holds() { "holds" } else { "MISSED" },
            self.largest[0],
            self.largest[1],
            self.limit.rows,
            self.limit.ratio,
        );
    }
}

/// The last part: which limits hold. Gives whether all that are wanted do.
pub fn summary(outcomes: &[Outcome]) -> bool {
    println!(
        "\nLimits. The largest ratio by the minimum decides. Wanted limits were asked of us, or"
    );
    println!("are stricter, and the run fails if one is missed; the others are our own aims.\n");
    println!("limit             minimum   median   of");
    for outcome in outcomes {
        outcome.print();
    }
    outcomes.iter().all(|o| o.holds() || !o.limit.wanted)
}

#[cfg(test)]
mod tests {
    use super::*;

    fn outcome(wanted: bool, largest: [f64; 2]) -> Outcome {
        let limit = Limit {
            rows: "rows",
            ratio: 1.25,
            wanted,
        };
        Outcome { limit, largest }
    }

    /// A wanted limit fails the run by the minimum, and by nothing else.
    #[test]
    fn wanted_limits_decide() {
        assert!(summary(&[outcome(true, [1.25, 1.3])]));
        assert!(!summary(&[outcome(true, [1.26, 1.2])]));
        assert!(summary(&[outcome(false, [1.26, 1.3])]));
        assert!(!summary(&[
            outcome(true, [1.26, 1.3]),
            outcome(true, [1.0, 1.0])
        ]));
    }
}
