//! The program `desk` on recordings that are made while it reads them, against judging the same segments alone; and the
//! most memory that it takes. Times are the processor's, since the program runs beside who makes its recording.

use crate::connection::{open, segment, Keys};
use crate::timing::{Limit, Outcome, Table};
use kit::{program, recording, End};
use std::io::{Read, Write};
use std::path::Path;
use std::process::{Command, Stdio};

/// How many segments a round judges.
const SEGMENTS: usize = 20_000;
/// How many bytes the long recording has, about.
const LONG: usize = 300 << 20;
/// How much memory the program may take for it.
const ALLOWED: u64 = 8 << 20;
/// How many records are written at once.
const AT_ONCE: usize = 100;

/// A recording: its table and opening, and a segment that comes again and again.
struct Recorded {
    end: End,
    front: Vec<u8>,
    segment: Vec<u8>,
}

impl Recorded {
    fn new(algorithm: u8, keys: Keys, n: usize) -> Recorded {
        let [mut from, end] = [0, 1].map(|here| open(here, algorithm, keys));
        let entries = recording::table(end.table.chunks(recording::ENTRY_ROOM));
        Recorded {
            front: [entries, recording::opening(&end.state())].concat(),
            segment: from.try_sign(&segment(n)).unwrap(),
            end,
        }
    }

    /// Judges the segment so many times; nanoseconds for one.
    fn judge(&mut self, times: usize) -> f64 {
        let begin = ran("thread-self");
        for _ in 0..times {
            assert_eq!(self.end.judge(&self.segment), 0);
        }
        (ran("thread-self") - begin) / times as f64
    }

    /// The program judges the segment so many times, a multiple of [`AT_ONCE`].
    fn at_desk(&self, program: &Path, times: usize) -> AtDesk {
        let mut child = Command::new(program)
            .stdin(Stdio::piped())
            .stdout(Stdio::piped())
            .spawn()
            .unwrap();
        let mut input = child.stdin.take().unwrap();
        let mut output = child.stdout.take().unwrap();
        let id = child.id();
        let again = recording::segment(&self.segment).repeat(AT_ONCE);
        let front = &self.front;
        let mut lines = String::new();
        let memory = std::thread::scope(|scope| {
            let writer = scope.spawn(move || {
                input.write_all(front).unwrap();
                for _ in 0..times / AT_ONCE {
                    input.write_all(&again).unwrap();
                }
                kit::capture::most_memory_of(&id.to_string())
            });
            output.read_to_string(&mut lines).unwrap();
            writer.join().unwrap()
        });
        let time = ran(&id.to_string()) / times as f64;
        assert!(child.wait().unwrap().success());
        // Each is accepted.
        let expected = (0..times).map(|index| format!("{index} 0 0"));
        assert!(lines.lines().eq(expected));
        AtDesk { time, memory }
    }
}

/// What the program took.
struct AtDesk {
    /// Nanoseconds a segment.
    time: f64,
    /// The most bytes that it had before its recording ended.
    memory: u64,
}

/// Nanoseconds that a process, or a thread, has run so far, as Linux says it.
fn ran(which: &str) -> f64 {
    let times = std::fs::read_to_string(format!("/proc/{which}/schedstat")).unwrap();
    times.split(' ').next().unwrap().parse().unwrap()
}

/// The program's time by that of judging; nothing where it is not there.
pub fn against_judging() -> Option<Outcome> {
    let Some(program) = program::desk() else {
        println!("\ntarget/bin/desk is not there (`make` makes it): it is not timed.");
        return None;
    };
    let mut table = Table::new(
        "The program desk on a recording, by judging its segments alone",
        "segment",
        "judging",
        5,
        Limit {
            rows: "desk, segments of 1,400 bytes, by judging them alone",
            ratio: 2.0,
            wanted: true,
        },
    );
    for (label, algorithm, keys, n, limited) in [
        ("1,400 bytes, HMAC-SHA-1", 1, Keys::One, 1_400, true),
        ("1,400 bytes, AES-128-CMAC", 2, Keys::One, 1_400, true),
        ("1,400 bytes, HMAC-SHA-256", 3, Keys::One, 1_400, true),
        (
            "1,400 bytes, HMAC-SHA-1, 64 IDs",
            1,
            Keys::Different,
            1_400,
            true,
        ),
        ("64 bytes, HMAC-SHA-1", 1, Keys::One, 64, false),
    ] {
        let recorded = Recorded::new(algorithm, keys, n);
        let mut alone = Recorded::new(algorithm, keys, n);
        let ours = &mut || recorded.at_desk(&program, SEGMENTS).time;
        table.measured(label, limited, ours, &mut || alone.judge(SEGMENTS));
    }
    memory(&program);
    Some(table.end())
}

/// A long recording, in bounded memory.
fn memory(program: &Path) {
    let recorded = Recorded::new(1, Keys::One, 1_400);
    let times = LONG / (AT_ONCE * recording::RECORDS[2]) * AT_ONCE;
    let memory = recorded.at_desk(program, times).memory;
    println!(
        "\nA recording of {times} segments, {} MiB: at most {} KiB of memory.",
        LONG >> 20,
        memory >> 10
    );
    assert!(memory < ALLOWED, "that is too much");
}
