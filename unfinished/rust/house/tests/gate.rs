//! The gate is tried itself: its own scripts in a small tree with something planted, and in the places of rt and cargo
//! commands that say what these would say of a good tree (`stubs/`). Each way to make it say more than is so, it refuses.

use house::Tree;
use std::fs;
use std::os::unix::fs::{symlink, PermissionsExt};
use std::path::{Path, PathBuf};
use std::process::Command;

/// A folder of its own, with a tree in it that has a history, the commands and a home.
struct Planted {
    outer: PathBuf,
    tree: PathBuf,
}

impl Drop for Planted {
    fn drop(&mut self) {
        let _ = fs::remove_dir_all(&self.outer);
    }
}

/// What the gate, or a part of it, said.
struct Said {
    good: bool,
    text: String,
}

impl Said {
    /// It failed, with these words, and did not say that all passed.
    fn refuses(&self, words: &str) {
        assert!(
            !self.good && self.text.contains(words),
            "{words} is not in:\n{}",
            self.text
        );
        assert!(!self.text.contains(" passed, 0 failed\n"), "{}", self.text);
    }

    fn passes(&self) {
        assert!(self.good, "{}", self.text);
    }
}

/// What the gate reads of the tree besides the proofs and the tests.
fn is_read(path: &str) -> bool {
    let one = ["Makefile", "crates.txt", "docs/LANDINGS.md", ".gitignore"];
    path.starts_with(".ci/")
        || one.contains(&path)
        || path.ends_with(".edit")
        || path.ends_with("/stdout")
}

impl Planted {
    fn new(name: &str) -> Planted {
        let outer = std::env::temp_dir().join(format!("gate-{}-{name}", std::process::id()));
        let planted = Planted {
            tree: outer.join("tree"),
            outer,
        };
        let tree = Tree::read();
        for path in tree.paths("", "").filter(|path| is_read(path)) {
            planted.write(path, tree.text(path).unwrap());
        }
        for name in ["run", "guard", "count", "falls"] {
            runnable(&planted.tree.join(".ci").join(name));
        }
        let stubs = Path::new(env!("CARGO_MANIFEST_DIR")).join("tests/stubs");
        fs::create_dir_all(planted.outer.join("bin")).unwrap();
        for name in ["rt", "cargo"] {
            let to = planted.outer.join("bin").join(name);
            fs::copy(stubs.join(name), &to).unwrap();
            runnable(&to);
        }
        fs::create_dir_all(planted.outer.join("home")).unwrap();
        planted.write("rust/Cargo.toml", "");
        planted.expect(900);
        planted.write(".ci/floor", &planted.text(".ci/expected"));
        planted.git(&["init", "--quiet"]);
        planted.commit();
        planted
    }

    fn write(&self, path: &str, text: &str) {
        let path = self.tree.join(path);
        fs::create_dir_all(path.parent().unwrap()).unwrap();
        fs::write(path, text).unwrap();
    }

    fn text(&self, path: &str) -> String {
        fs::read_to_string(self.tree.join(path)).unwrap()
    }

    /// The numbers that the gate holds the tree to: what it has, and so many tests.
    fn expect(&self, tests: usize) {
        let count = |what| self.said(Command::new(".ci/count").arg(what)).text;
        self.write(
            ".ci/expected",
            &format!(
                "{}{}{tests} Rust tests passed, 0 failed, 0 ignored, 0 filtered out\n\
                 1000000 calls compared, no difference, every number met\n\
                 500 of 500 planted faults found\n1 checks of the tree, nothing wrong\n",
                count("edits"),
                count("stored"),
            ),
        );
    }

    fn git(&self, words: &[&str]) {
        let who = ["-c", "user.name=gate", "-c", "user.email=gate@localhost"];
        self.said(Command::new("git").args(who).args(words))
            .passes();
    }

    fn commit(&self) {
        self.git(&["add", "--all", "--force"]);
        self.git(&["commit", "--quiet", "--allow-empty", "--message", "planted"]);
    }

    /// Runs a command in the tree, in an environment of its own, to which it may have added.
    fn said(&self, command: &mut Command) -> Said {
        let path = format!(
            "{}:{}",
            self.outer.join("bin").display(),
            std::env::var("PATH").unwrap()
        );
        let added: Vec<_> = command
            .get_envs()
            .map(|(name, value)| (name.to_owned(), value.map(|v| v.to_owned())))
            .collect();
        command
            .env_clear()
            .env("PATH", path)
            .env("HOME", self.outer.join("home"));
        for (name, value) in added {
            command.env(name, value.unwrap_or_default());
        }
        let output = command.current_dir(&self.tree).output().unwrap();
        let text = [output.stdout, output.stderr].concat();
        Said {
            good: output.status.success(),
            text: String::from_utf8_lossy(&text).into_owned(),
        }
    }

    fn gate(&self) -> Said {
        self.said(&mut Command::new(".ci/run"))
    }

    fn guard(&self) -> Said {
        self.said(&mut Command::new(".ci/guard"))
    }
}

fn runnable(path: &Path) {
    fs::set_permissions(path, fs::Permissions::from_mode(0o755)).unwrap();
}

#[test]
fn a_good_tree_passes() {
    let planted = Planted::new("good");
    let said = planted.gate();
    said.passes();
    let last = said.text.lines().last().unwrap_or("");
    assert!(last.ends_with(" passed, 0 failed"), "{}", said.text);
    assert!(!said.text.contains("guard: "), "{}", said.text);
    planted.said(Command::new("make").arg("test")).passes();
    // a change that is not in the commit yet is named
    planted.write("docs/LANDINGS.md", "");
    let said = planted.gate();
    said.passes();
    assert!(
        said.text.contains("changed since: docs/LANDINGS.md"),
        "{}",
        said.text
    );
}

#[test]
fn an_old_build_is_not_used() {
    let planted = Planted::new("old");
    planted.write("rust/broken", "");
    planted.commit();
    planted.gate().refuses("1 failed");
    planted.write("rust/target/old", "");
    planted.gate().refuses("1 failed");
    // also not through a link
    let elsewhere = planted.outer.join("elsewhere");
    fs::create_dir_all(&elsewhere).unwrap();
    fs::write(elsewhere.join("old"), "").unwrap();
    fs::remove_dir_all(planted.tree.join("rust/target")).ok();
    symlink(&elsewhere, planted.tree.join("rust/target")).unwrap();
    planted.gate().refuses("rust/target is in no commit");
}

#[test]
fn an_edit_refused_for_its_shape() {
    let planted = Planted::new("shape");
    planted.write("rust/shape", "");
    planted.commit();
    planted.gate().refuses("an edit is refused for its shape");
}

#[test]
fn stored_outputs_that_are_wrong() {
    let planted = Planted::new("outputs");
    let path = "crates/vectors/stdout";
    let right = planted.text(path);
    let mut lines: Vec<&str> = right.lines().collect();
    let last = lines.pop().unwrap();
    let without_first = [&lines[1..], &[last]].concat().join("\n");
    let wrong = [
        (right.replacen(" ok\n", " DIFFERS\n", 1), "line 1: DIFFERS"),
        (
            right.replacen(" ok\n", " wrong\n", 1),
            "lines before its last",
        ),
        (
            right.replace(last, "39 of 40 ok"),
            "does not end with N of N ok",
        ),
        (right.replace(last, "41 of 41 ok"), "lines before its last"),
        (without_first, "lines before its last"),
        (lines.join("\n"), "does not end with N of N ok"),
        (
            lines[..3].join("\n") + "\n3 of 3 ok\n",
            "lines of stored outputs, each ok, .ci/expected has",
        ),
    ];
    for (text, words) in wrong {
        planted.write(path, &text);
        planted.guard().refuses(words);
    }
    planted.gate().refuses("guard: ");
    planted.write(path, &right);
    planted.guard().passes();
    planted.write("crates/desk/stdout", "DIFFERS\n");
    planted
        .guard()
        .refuses("crates/desk/stdout, line 1: DIFFERS");
}

#[test]
fn numbers_that_fall() {
    let planted = Planted::new("falls");
    let words = "docs/LANDINGS.md does not have the line: expected: 900 -> 899 Rust tests passed";
    planted.expect(899);
    planted.guard().refuses(words);
    planted.commit();
    planted.gate().refuses(words);
    // a rise behind it does not hide it
    planted.expect(901);
    planted.commit();
    planted.guard().refuses(words);
    let landings = planted.text("docs/LANDINGS.md");
    planted.write(
        "docs/LANDINGS.md",
        &(landings + "\nexpected: 900 -> 899 Rust tests passed\n"),
    );
    planted.guard().passes();
    // without a history the floor is left
    fs::remove_dir_all(planted.tree.join(".git")).unwrap();
    planted.expect(898);
    planted
        .guard()
        .refuses("expected: 900 -> 898 Rust tests passed");
    let edits: Vec<_> = fs::read_dir(planted.tree.join("crates/octets/must-fail"))
        .unwrap()
        .collect();
    fs::remove_file(edits.into_iter().next().unwrap().unwrap().path()).unwrap();
    planted.guard().refuses("must-fail edits, .ci/expected has");
    planted.expect(900);
    planted.guard().refuses("must-fail edits");
}

#[test]
fn files_that_no_commit_has() {
    let planted = Planted::new("untracked");
    for path in [
        "crates/octets/src/more.rt",
        "rust/house/src/target/more.rs",
        "crates/mac/target/more.antt",
        "makefile.inc",
    ] {
        planted.write(path, "");
        planted.guard().refuses(&format!("{path} is in no commit"));
        fs::remove_file(planted.tree.join(path)).unwrap();
    }
    planted.write("rust/build.rs", "");
    planted.write(".git/info/exclude", "build.rs\n");
    planted.gate().refuses("rust/build.rs is in no commit");
    fs::remove_file(planted.tree.join("rust/build.rs")).unwrap();
    planted.write("target/log", "");
    planted.write("rust/target/log", "");
    planted.guard().passes();
    planted.git(&["update-index", "--assume-unchanged", "Makefile"]);
    planted.guard().refuses("Makefile is hidden from git");
    planted.write(".git/HEAD", "ref: refs/heads/none\n");
    planted.guard().refuses("git does not say");
}

#[test]
fn settings_of_cargo_elsewhere() {
    let planted = Planted::new("above");
    let words = "would change what cargo runs";
    let home = planted.outer.join("home");
    for path in [
        ".cargo/config.toml",
        ".cargo/config",
        "rust-toolchain",
        "rust-toolchain.toml",
        "home/.cargo/config.toml",
    ] {
        let file = planted.outer.join(path);
        fs::create_dir_all(file.parent().unwrap()).unwrap();
        fs::write(&file, "").unwrap();
        planted
            .guard()
            .refuses(&format!("{} {words}", file.display()));
        planted.gate().refuses(words);
        fs::remove_file(file).unwrap();
    }
    planted.guard().passes();
    fs::write(home.join("config.toml"), "").unwrap();
    planted
        .said(Command::new(".ci/run").env("CARGO_HOME", &home))
        .refuses(words);
    planted.write("rust/.cargo/config.toml", "");
    planted.guard().refuses(&format!("./rust/.cargo {words}"));
}

#[test]
fn an_environment_from_outside() {
    let planted = Planted::new("environment");
    planted.write("rust/broken", "");
    planted.commit();
    let make = |variables: &[(&str, &str)], words: &[&str]| {
        let mut command = Command::new("make");
        command.args(words).envs(variables.iter().copied());
        planted.said(&mut command)
    };
    let skip = ("RUSTFLAGS", "--skip");
    make(&[skip], &["test"]).refuses("1 failed");
    make(&[skip, ("GATE", "1")], &["test"]).refuses("1 failed");
    make(&[skip], &["test", "GATE=1"]).refuses("1 failed");
    make(&[("MAKEFLAGS", "GATE=1"), skip], &["test"]).refuses("1 failed");
    make(&[("GATE", "1")], &["test", "run_tests=true", "house="]).refuses("1 failed");
    // one who tells make its own process is told what else is set
    let own =
        |more: &str| planted.said(Command::new("bash").args(["-c", &format!("GATE=$$ {more}")]));
    own("RUSTFLAGS=--skip exec make test").refuses("RUSTFLAGS is set");
    own("exec make test run_tests=true").refuses("make was given variables");
}
