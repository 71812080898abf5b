//! The command as it is called: help, exit status, and what it writes where.

mod common;

use common::*;
use std::fs;
use std::path::PathBuf;
use std::process::{Command, Output};

fn embankery(arguments: &[&str]) -> Output {
    let mut command = Command::new(env!("CARGO_BIN_EXE_embankery"));
    command.args(arguments).output().unwrap()
}

fn text(bytes: &[u8]) -> String {
    String::from_utf8(bytes.to_vec()).unwrap()
}

/// Status, standard output, standard error.
fn run(arguments: &[&str]) -> (i32, String, String) {
    let output = embankery(arguments);
    let status = output.status.code().unwrap();
    (status, text(&output.stdout), text(&output.stderr))
}

/// A folder for one test's files.
fn folder(name: &str) -> PathBuf {
    let folder = PathBuf::from(env!("CARGO_TARGET_TMPDIR")).join(name);
    let _ = fs::remove_dir_all(&folder);
    fs::create_dir_all(&folder).unwrap();
    folder
}

fn write(folder: &std::path::Path, name: &str, bytes: &[u8]) -> String {
    let path = folder.join(name);
    fs::write(&path, bytes).unwrap();
    path.to_str().unwrap().to_string()
}

const COMMANDS: [&[&str]; 7] = [
    &["table", "build"],
    &["table", "check"],
    &["table", "show"],
    &["desk"],
    &["record"],
    &["explain"],
    &["demo"],
];

#[test]
fn help() {
    let (status, all, _) = run(&["--help"]);
    assert_eq!(status, 0);
    for command in COMMANDS {
        assert!(all.contains(&format!("embankery {}", command.join(" "))));
        for ask in ["--help", "-h"] {
            let (status, out, err) = run(&[command, &[ask]].concat());
            assert_eq!((status, err.as_str()), (0, ""));
            assert!(
                out.starts_with(&format!("embankery {}", command.join(" "))),
                "{out}"
            );
            assert!(out.lines().all(|line| line.len() <= 100));
        }
    }
    assert_eq!(run(&["table", "--help"]).0, 0);
}

#[test]
fn bad_usage() {
    let keys = path("mixed-v4.txt");
    let capture = path("mixed-v4.pcap");
    let (keys, capture) = (keys.as_str(), capture.as_str());
    let cases: [&[&str]; 21] = [
        &[],
        &["tables"],
        &["table"],
        &["table", "make"],
        &["table", "build"],
        &["table", "build", keys, keys],
        &["table", "build", keys, "--md5", keys],
        &["table", "check"],
        &["table", "check", "/no/such/file"],
        &["table", "show", keys, "--keys"],
        &["desk"],
        &["desk", capture],
        &["desk", capture, "--keys"],
        &["desk", capture, "--keys", keys, "--keys", keys],
        &["desk", "/no/such/file", "--keys", keys],
        &["desk", capture, "--keys", keys, "--connection", "two"],
        &["desk", capture, "--keys", keys, "--connection", "2"],
        &["desk", capture, "--keys", keys, "--local", "here"],
        &["record", capture, "--keys", keys, "--list=yes"],
        &["explain", "9"],
        &["explain", "nine"],
    ];
    for case in cases {
        let (status, out, err) = run(case);
        assert_eq!((status, out.as_str()), (2, ""), "{case:?} {err}");
        assert!(err.starts_with("embankery: "), "{case:?} {err}");
    }
    assert_eq!(run(&["demo", "now"]).0, 2);
}

#[test]
fn tables() {
    let folder = folder("tables");
    let keys = path("mixed-v4.txt");
    let built = embankery(&["table", "build", &keys]);
    assert_eq!(
        (built.status.code(), built.stdout.len()),
        (Some(0), 3 * 104)
    );
    let table = write(&folder, "keys.table", &built.stdout);
    let (status, said, _) = run(&["table", "check", &table]);
    assert_eq!(status, 0);
    assert_eq!(
        said,
        "nothing is wrong: 3 entries in the key table, 0 entries in the MD5 table\n"
    );
    let (status, shown, _) = run(&["table", "show", &table, "--show-keys"]);
    assert_eq!(status, 0);
    let again = write(&folder, "again.txt", shown.as_bytes());
    assert_eq!(embankery(&["table", "build", &again]).stdout, built.stdout);
    let (_, hidden, _) = run(&["table", "show", &table]);
    assert!(hidden.contains("64 bytes, not shown") && !hidden.contains("hex"));

    // A key in a file stands beside the text.
    write(&folder, "peer.key", b"from a file");
    let by_file = "entry\nlocal 10.0.0.1\nremote 10.0.0.2\nalgorithm tcp-md5\nkey file peer.key\n";
    let by_file = write(&folder, "md5.txt", by_file.as_bytes());
    let built = embankery(&["table", "build", "--md5", &by_file]);
    assert_eq!(built.status.code(), Some(0));
    assert!(text(&built.stdout[24..35]).contains("from a file"));

    let (status, out, err) = run(&["table", "check", &keys, "--md5", &keys]);
    assert_eq!((status, out.as_str()), (1, ""));
    assert!(
        err.contains("line 8, entry 0 (key-0): this is the MD5 table"),
        "{err}"
    );
    let bad = write(&folder, "bad.txt", b"entry\nlocal 10.0.0.1/8\n");
    let (status, _, err) = run(&["table", "build", &bad]);
    assert_eq!(status, 1);
    assert_eq!(
        err,
        format!("{bad}, line 1, entry 0: \"remote\" is missing\n")
    );
}

#[test]
fn the_desk() {
    let (keys, capture) = (
        path("sha1-isnfffffffe-v4.txt"),
        path("sha1-isnfffffffe-v4.pcap"),
    );
    let (status, out, err) = run(&["desk", &capture, "--keys", &keys]);
    assert_eq!((status, err.as_str()), (0, ""));
    assert!(
        out.ends_with("\nall: 49 segments: 49 accepted, 0 dropped\n"),
        "{out}"
    );
    let line = out
        .lines()
        .find(|line| line.trim_start().starts_with("3 "))
        .unwrap();
    let columns: Vec<&str> = line.split_whitespace().collect();
    assert_eq!(
        (columns[0], &columns[2..8]),
        ("3", &["1", "out", "0", "0", "0", "10"][..])
    );
    assert!(line.ends_with("ACK: accepted"), "{line}");
    let (status, quiet, _) = run(&["desk", &capture, "--keys", &keys, "--problems"]);
    assert_eq!(status, 0);
    assert!(!quiet.contains("what happened") && quiet.lines().count() < 8);

    // One damaged segment.
    let folder = folder("the_desk");
    let mut file = bytes("sha1-isnfffffffe-v4.pcap");
    let last = file.len() - 1;
    file[last] ^= 1;
    let damaged = write(&folder, "damaged.pcap", &file);
    let (status, out, _) = run(&["desk", &damaged, "--keys", &keys, "--problems"]);
    assert_eq!(status, 1);
    assert!(
        out.contains("1 with 40: the segment's checksum is wrong (embankery explain 40)"),
        "{out}"
    );

    // Another connection's key for the same two ends.
    let other = fs::read_to_string(path("sha1-reset-v4.txt")).unwrap();
    let other = other.replace("send-id       3", "send-id       10");
    let other = write(&folder, "other.txt", other.as_bytes());
    let (status, out, _) = run(&["desk", &capture, "--keys", &other, "--problems"]);
    assert_eq!(status, 1);
    assert!(
        out.contains("not opened at 10.9.0.2:5023: packet 1 got 29, dropped: "),
        "{out}"
    );
    assert!(
        out.contains("not opened at 10.9.0.1:40023: packet 2 got 26, dropped: "),
        "{out}"
    );

    let (status, out, err) = run(&["desk", &keys, "--keys", &keys]);
    assert_eq!((status, out.as_str()), (1, ""));
    assert!(err.contains("this is no capture"), "{err}");
    let md5 = path("beyond-md5-v4.txt");
    let (status, out, _) = run(&["desk", &path("beyond-md5-v4.pcap"), "--md5", &md5]);
    assert_eq!(status, 0);
    assert!(out.contains("by TCP MD5"), "{out}");
}

#[test]
fn recordings() {
    let (keys, capture) = (path("mixed-v4.txt"), path("mixed-v4.pcap"));
    let (status, list, err) = run(&["record", &capture, "--list"]);
    assert_eq!((status, err.as_str()), (0, ""));
    let listed = "   1  10.9.0.1:40009 and 10.9.0.2:5009: 24 segments; SYN in packet 1, SYN+ACK in packet 2\n";
    assert_eq!(list, listed);
    for (leaving, segments) in [(&[][..], 10), (&["--leaving"][..], 12)] {
        let arguments = [&["record", &capture, "--keys", &keys], leaving].concat();
        let output = embankery(&arguments);
        assert_eq!(output.status.code(), Some(0));
        assert_eq!(output.stdout.len(), 3 * 131 + 48 + segments * 1_601);
        let said = text(&output.stderr);
        assert!(
            said.starts_with(listed) && said.contains(&format!("{segments} segments")),
            "{said}"
        );
    }
    let md5 = path("beyond-md5-v4.txt");
    let (status, out, err) = run(&["record", &path("beyond-md5-v4.pcap"), "--md5", &md5]);
    assert_eq!((status, out.as_str()), (1, ""));
    assert!(err.contains("by TCP MD5"), "{err}");
}

#[test]
fn explanations() {
    let (status, out, _) = run(&["explain", "29"]);
    assert_eq!(status, 0);
    assert!(
        out.starts_with("29: the MAC, or TCP MD5's digest, differs\n\nusual cause\n"),
        "{out}"
    );
    assert!(out.lines().all(|line| line.chars().count() <= 90));
    let (status, out, _) = run(&["explain"]);
    assert_eq!(status, 0);
    assert!(out.starts_with("  0  accepted, or done\n") && out.lines().count() > 30);
}

#[test]
fn the_demonstration() {
    let (status, out, err) = run(&["demo"]);
    assert_eq!((status, err.as_str()), (0, ""));
    assert!(
        out.contains("1:00000009") && out.contains("0:fffffff1"),
        "{out}"
    );
    assert!(
        out.ends_with("server: 6 accepted, dropped: 1 with 29, 1 with 40; reference 1:00000021\n"),
        "{out}"
    );
}

/// README.md shows what the desk prints, as it prints it.
#[test]
fn the_readme() {
    let top = PathBuf::from(env!("CARGO_MANIFEST_DIR")).join("../..");
    let readme = fs::read_to_string(top.join("README.md")).unwrap();
    let section = readme.split("\n## A capture at the desk\n").nth(1).unwrap();
    let section = section.split("\n## ").next().unwrap();
    let mut lines = section
        .lines()
        .filter_map(|line| line.strip_prefix("    target/bin/embankery "));
    let arguments: Vec<&str> = lines.next().unwrap().split(' ').collect();
    let mut command = Command::new(env!("CARGO_BIN_EXE_embankery"));
    let output = command.current_dir(&top).args(arguments).output().unwrap();
    let shown = |which| {
        let block = section.split("```text\n").nth(which).unwrap();
        block.split("```").next().unwrap()
    };
    assert_eq!(
        (text(&output.stdout).as_str(), output.status.code()),
        (shown(1), Some(1))
    );
    // The other commands that it names.
    for line in lines {
        let mut arguments = line.split("   ").next().unwrap();
        let desk = arguments.strip_suffix(" | target/bin/desk");
        arguments = desk.unwrap_or(arguments).split(" > ").next().unwrap();
        let mut command = Command::new(env!("CARGO_BIN_EXE_embankery"));
        let output = command
            .current_dir(&top)
            .args(arguments.split(' '))
            .output()
            .unwrap();
        assert_eq!(output.status.code(), Some(0), "{line}");
        if let (Some(_), Some(program)) = (desk, kit::program::desk()) {
            let lines = kit::program::printed(&program, &output.stdout, 1 << 16);
            assert_eq!(lines, shown(2));
        }
    }
}
