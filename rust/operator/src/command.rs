//! The subcommands.

use crate::arguments::{flag, valued, Arguments, Known};
use crate::desk::{find, Choice, Desk, Fate};
use crate::openings::{Direction, Views};
use crate::record::record;
use crate::stop::{Stop, DONE, REFUSED, USAGE};
use crate::tables::{checked, counted, Endpoint, File};
use crate::{demo, explain, help, show};
use embankery::Verdict;
use formats::capture::Walked;
use formats::text::{Keys, Kind};
use std::io::{self, IsTerminal, Write};
use std::net::IpAddr;

/// Where the command writes.
struct Writers<'a> {
    out: &'a mut dyn Write,
    err: &'a mut dyn Write,
}

/// A subcommand: its words, its help, its options, and what it does. It gives the exit status.
struct Subcommand {
    words: &'static [&'static str],
    help: &'static str,
    options: &'static [Known],
    run: fn(&Arguments, &mut Writers) -> Result<u8, Stop>,
}

const KEYS: Known = valued("--keys");
const MD5: Known = valued("--md5");
const CONNECTION: Known = valued("--connection");
const LOCAL: Known = valued("--local");
const PROBLEMS: Known = flag("--problems");
const SET_CHECKSUMS: Known = flag("--set-checksums");
const LEAVING: Known = flag("--leaving");
const LIST: Known = flag("--list");
const SHOW_KEYS: Known = flag("--show-keys");

const SUBCOMMANDS: &[Subcommand] = &[
    Subcommand {
        words: &["table", "build"],
        help: help::BUILD,
        options: &[MD5],
        run: build,
    },
    Subcommand {
        words: &["table", "check"],
        help: help::CHECK,
        options: &[MD5],
        run: check,
    },
    Subcommand {
        words: &["table", "show"],
        help: help::SHOW,
        options: &[MD5, SHOW_KEYS],
        run: show_table,
    },
    Subcommand {
        words: &["desk"],
        help: help::DESK,
        options: &[KEYS, MD5, CONNECTION, LOCAL, PROBLEMS, SET_CHECKSUMS],
        run: desk,
    },
    Subcommand {
        words: &["record"],
        help: help::RECORD,
        options: &[KEYS, MD5, CONNECTION, LOCAL, LEAVING, LIST, SET_CHECKSUMS],
        run: write_recording,
    },
    Subcommand {
        words: &["explain"],
        help: help::EXPLAIN,
        options: &[],
        run: explain_number,
    },
    Subcommand {
        words: &["demo"],
        help: help::DEMO,
        options: &[],
        run: run_demo,
    },
];

/// Runs the command with these arguments, its own name not among them. Gives the exit status: 0 if all is well, 1 if
/// something was refused or dropped, 2 if it was not used as it is meant.
pub fn run(arguments: &[String], out: &mut dyn Write, err: &mut dyn Write) -> u8 {
    let mut writers = Writers { out, err };
    match dispatch(arguments, &mut writers) {
        Ok(status) => status,
        Err(stop) => {
            // Where not even this can be written, the status says it.
            let _ = match stop.status {
                _ if stop.words.is_empty() => Ok(()),
                USAGE => writeln!(writers.err, "embankery: {}", stop.words),
                _ => writeln!(writers.err, "{}", stop.words),
            };
            stop.status
        }
    }
}

fn dispatch(arguments: &[String], writers: &mut Writers) -> Result<u8, Stop> {
    let asks = |word: &String| matches!(word.as_str(), "--help" | "-h" | "help");
    let begins = |subcommand: &&Subcommand| {
        let words = subcommand.words;
        arguments.len() >= words.len()
            && words
                .iter()
                .zip(arguments)
                .all(|(word, given)| word == given)
    };
    if let Some(subcommand) = SUBCOMMANDS.iter().find(begins) {
        let rest = &arguments[subcommand.words.len()..];
        if rest.iter().any(asks) {
            writers.out.write_all(subcommand.help.as_bytes())?;
            return Ok(DONE);
        }
        let name = subcommand.words.join(" ");
        let run = || (subcommand.run)(&Arguments::parse(rest, subcommand.options)?, writers);
        return run_and_hint(run, &name);
    }
    let first = arguments.first().map(String::as_str);
    if arguments.iter().any(asks) {
        let tables = [help::BUILD, help::CHECK, help::SHOW].join("\n");
        let text = if first == Some("table") {
            &tables
        } else {
            help::ALL
        };
        writers.out.write_all(text.as_bytes())?;
        return Ok(DONE);
    }
    Err(Stop::usage(match first {
        None => format!("no command is given\n{}", help::ALL.trim_end()),
        Some("table") => "table is followed by build, check or show".to_string(),
        Some(other) => format!("there is no command {other}; embankery --help lists them"),
    }))
}

/// Bad usage of a subcommand says where more is to be read.
fn run_and_hint(run: impl FnOnce() -> Result<u8, Stop>, name: &str) -> Result<u8, Stop> {
    run().map_err(|stop| match stop.hint {
        true => Stop::usage(format!("{name}: {} (embankery {name} --help)", stop.words)),
        false => stop,
    })
}

/// The files of both tables that are named: the key table's and the MD5 table's.
fn files(keys: Option<&str>, md5: Option<&str>) -> Result<[File; 2], Stop> {
    let file = |path: Option<&str>, kind| match path {
        Some(path) => File::read(path, kind),
        None => Ok(File::empty(kind)),
    };
    Ok([file(keys, Kind::Keys)?, file(md5, Kind::Md5)?])
}

/// The tables of a command that takes them as its files.
fn named(arguments: &Arguments) -> Result<Endpoint, Stop> {
    let (keys, md5) = (
        arguments.at_most_one("the key table")?,
        arguments.value(MD5.name),
    );
    if keys.is_none() && md5.is_none() {
        return Err(Stop::usage("no table is given"));
    }
    let [keys, md5] = files(keys, md5)?;
    checked(&keys, &md5)
}

/// The tables of a command that takes a capture.
fn endpoint(arguments: &Arguments) -> Result<Endpoint, Stop> {
    let (keys, md5) = (arguments.value(KEYS.name), arguments.value(MD5.name));
    if keys.is_none() && md5.is_none() {
        return Err(Stop::usage("no table is given: --keys KEYS"));
    }
    let [keys, md5] = files(keys, md5)?;
    checked(&keys, &md5)
}

fn build(arguments: &Arguments, writers: &mut Writers) -> Result<u8, Stop> {
    if arguments.at_most_one("the text")?.is_some() == arguments.value(MD5.name).is_some() {
        return Err(Stop::usage(
            "one text is wanted: KEYS.txt, or --md5 MD5.txt",
        ));
    }
    let endpoint = named(arguments)?;
    not_a_terminal()?;
    writers.out.write_all(endpoint.keys().as_bytes())?;
    writers.out.write_all(endpoint.md5().as_bytes())?;
    Ok(DONE)
}

/// Bytes, and keys among them, are not for a screen.
fn not_a_terminal() -> Result<(), Stop> {
    match io::stdout().is_terminal() {
        true => Err(Stop::usage("the output is bytes: send it to a file with >")),
        false => Ok(()),
    }
}

fn check(arguments: &Arguments, writers: &mut Writers) -> Result<u8, Stop> {
    let endpoint = named(arguments)?;
    let entries = |count| counted(count, "entry", "entries");
    let (keys, md5) = (
        entries(endpoint.keys().len()),
        entries(endpoint.md5().len()),
    );
    writeln!(
        writers.out,
        "nothing is wrong: {keys} in the key table, {md5} in the MD5 table"
    )?;
    Ok(DONE)
}

fn show_table(arguments: &Arguments, writers: &mut Writers) -> Result<u8, Stop> {
    let keys = match arguments.has(SHOW_KEYS.name) {
        true => Keys::Shown,
        false => Keys::Hidden,
    };
    let text = named(arguments)?.text(keys);
    writers.out.write_all(text.as_bytes())?;
    Ok(DONE)
}

fn choice(arguments: &Arguments) -> Result<Choice, Stop> {
    let connection = arguments.value(CONNECTION.name).map(|words| {
        let bad = |_| Stop::usage(format!("--connection {words}: that is no number"));
        words.parse().map_err(bad)
    });
    let ours = arguments.value(LOCAL.name).map(|words| {
        let bad = |_| Stop::usage(format!("--local {words}: that is no address"));
        words.parse::<IpAddr>().map_err(bad)
    });
    Ok(Choice {
        connection: connection.transpose()?,
        ours: ours.transpose()?,
        set_checksums: arguments.has(SET_CHECKSUMS.name),
    })
}

fn desk(arguments: &Arguments, writers: &mut Writers) -> Result<u8, Stop> {
    let path = arguments.one("the capture")?;
    let (endpoint, choice) = (endpoint(arguments)?, choice(arguments)?);
    let mirrored = endpoint.mirrored()?;
    let views = Views::new(&endpoint, &mirrored);
    let open = || std::fs::File::open(path);
    let desk = Desk::new(open(), views, choice).map_err(|stop| of_file(path, stop))?;
    let (out, first) = (&mut writers.out, desk.walked().first);
    writeln!(out, "{}", show::capture(path, desk.walked()))?;
    for opening in desk.openings() {
        writeln!(out, "{}", show::head(opening))?;
    }
    let mut titled = false;
    let report = desk.judge(open(), &mut |line| {
        let accepted = matches!(line.fate, Fate::Judged(Verdict::Accept { .. }));
        if accepted && arguments.has(PROBLEMS.name) {
            return Ok(());
        }
        if !titled {
            writeln!(out, "\n{}", show::COLUMNS)?;
            titled = true;
        }
        writeln!(out, "{}", show::line(line, first))
    })?;
    write!(out, "\n{}", show::summary(&report))?;
    Ok(if report.is_good() { DONE } else { REFUSED })
}

/// What is wrong with a file, with its name.
fn of_file(path: &str, stop: Stop) -> Stop {
    Stop {
        words: format!("{path}: {}", stop.words),
        ..stop
    }
}

fn list(path: &str, choice: &Choice, writers: &mut Writers) -> Result<u8, Stop> {
    let found = find(std::fs::File::open(path), choice);
    let (finder, walked) = found.map_err(|stop| of_file(path, stop))?;
    write!(writers.out, "{}", show::list(finder.found()))?;
    ended(path, &walked, writers)
}

/// Says whether a capture could not be read to its end.
fn ended(path: &str, walked: &Walked, writers: &mut Writers) -> Result<u8, Stop> {
    let Some(fault) = &walked.fault else {
        return Ok(DONE);
    };
    writeln!(writers.err, "{path}: {fault}")?;
    Ok(REFUSED)
}

fn write_recording(arguments: &Arguments, writers: &mut Writers) -> Result<u8, Stop> {
    let path = arguments.one("the capture")?;
    let choice = choice(arguments)?;
    if arguments.has(LIST.name) {
        return list(path, &choice, writers);
    }
    let open = || std::fs::File::open(path);
    let endpoint = endpoint(arguments)?;
    not_a_terminal()?;
    let mirrored = endpoint.mirrored()?;
    let views = Views::new(&endpoint, &mirrored);
    let desk = Desk::new(open(), views, choice).map_err(|stop| of_file(path, stop))?;
    write!(writers.err, "{}", show::list(desk.found()))?;
    let status = ended(path, desk.walked(), writers)?;
    let direction = match arguments.has(LEAVING.name) {
        true => Direction::Out,
        false => Direction::In,
    };
    let endpoints = [&endpoint, &mirrored];
    let recorded = record(desk, open(), endpoints, direction, &mut writers.out)?;
    let (opening, segments) = (&recorded.opening, recorded.segments);
    let (number, end) = (opening.number, opening.address(opening.receiver(direction)));
    writeln!(
        writers.err,
        "recorded: connection {number}, {segments} segments that arrive at {end}; it holds their keys"
    )?;
    if recorded.left_out == 0 {
        return Ok(status);
    }
    let left_out = recorded.left_out;
    writeln!(
        writers.err,
        "left out: {left_out} that are not whole, or too long for a recording"
    )?;
    Ok(REFUSED)
}

fn explain_number(arguments: &Arguments, writers: &mut Writers) -> Result<u8, Stop> {
    let Some(words) = arguments.at_most_one("the number")? else {
        for explained in explain::all() {
            writeln!(
                writers.out,
                "{:>3}  {}",
                explained.number, explained.meaning
            )?;
        }
        return Ok(DONE);
    };
    let explained = words.parse().ok().and_then(explain::explain);
    let Some(explained) = explained else {
        return Err(Stop::usage(format!(
            "{words} is no number that is given; embankery explain lists them"
        )));
    };
    writeln!(writers.out, "{}: {}", explained.number, explained.meaning)?;
    writeln!(
        writers.out,
        "\nusual cause\n{}",
        show::wrapped(explained.cause)
    )?;
    writeln!(
        writers.out,
        "\nwhat to do\n{}",
        show::wrapped(explained.remedy)
    )?;
    Ok(DONE)
}

fn run_demo(arguments: &Arguments, writers: &mut Writers) -> Result<u8, Stop> {
    match arguments.at_most_one("nothing")? {
        Some(word) => Err(Stop::usage(format!("\"{word}\" is one too many"))),
        None => demo::demo(writers.out),
    }
}
