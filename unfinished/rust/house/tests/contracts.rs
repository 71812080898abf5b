//! What would let a reader believe more than is proved: a contract for C with a condition or without a promise, and a
//! statement that nobody proves.

mod planting;

use house::{exports, statements, Tree};
use planting::{changed, finds, longer};

const ENSURES: &str = "    ensures { λ r. ⌜ answers r ≡ checkTableExport (tablesOf form (now (keys .entry)) (now (md5 .entry))) ⌝ }\n";

/// The export `tcpao_check_table` with another contract.
fn contract(new: &str) -> Tree {
    changed(exports::CALLS, ENSURES, new)
}

#[test]
fn exports_that_ask_something() {
    let tree = contract(&format!("    requires {{ ⌜ form ≡ 0 ⌝ }}\n{ENSURES}"));
    finds(exports::check, &tree, "tcpao_check_table has `requires`");
    let after = contract(&format!("{ENSURES}    requires {{ ⌜ form ≡ 0 ⌝ }}\n"));
    finds(exports::check, &after, "tcpao_check_table has `requires`");
    let macs = changed(
        exports::MACS,
        "    ensures { λ r. ⌜ gives r (now (out .exit)) ≡ sha1Into",
        "    requires { ⌜ 20 ≤ length (now out) ⌝ }\n    ensures { λ r. ⌜ gives r (now (out .exit)) ≡ sha1Into",
    );
    finds(exports::check, &macs, "mac_sha1 has `requires`");
}

#[test]
fn exports_that_promise_less() {
    finds(exports::check, &contract(""), "has 0 `ensures`");
    let twice = contract(&format!("{ENSURES}{ENSURES}"));
    finds(exports::check, &twice, "has 2 `ensures`");
    for weaker in [
        "    ensures { λ r. ⌜ r ≡ r ⌝ }\n",
        "    ensures { λ r. ⌜ answers r ≡ answers r ⌝ }\n",
        &ENSURES.replace("answers r ≡", "form ≡ 0 → answers r ≡"),
        &ENSURES.replace("(keys .entry)", "(md5 .entry)"),
    ] {
        finds(
            exports::check,
            &contract(weaker),
            "the contract of tcpao_check_table is not",
        );
    }
    // a buffer of which nothing is said
    let silent = changed(
        exports::CALLS,
        "fills r (now (out .exit)) ≡",
        "answers r ≡ answers r × answers r ≡",
    );
    finds(
        exports::check,
        &silent,
        "the contract of tcpao_prepare is not",
    );
    let other = changed(exports::CALLS, "≡ signExport", "≡ askExport");
    finds(exports::check, &other, "the contract of tcpao_sign is not");
    let from = changed(
        exports::CALLS,
        "Rattle·boundary.specs.Exports.{answers,",
        "Rattle·boundary.specs.Word.{answers,",
    );
    finds(exports::check, &from, "`answers` is not that of");
    let renamed = changed(exports::MACS, "sha1Into,", "md5Into as sha1Into,");
    finds(exports::check, &renamed, "renames what its contracts cite");
}

#[test]
fn exports_elsewhere() {
    let inner = "\n#[no_mangle]\npub extern \"C\" fn other(x: u8) -> u64\n{\n    0\n}\n";
    let tree = longer("crates/digests/src/lib.rt", inner);
    finds(
        exports::check,
        &tree,
        "digests/src/lib.rt has functions for C",
    );
    finds(
        exports::check,
        &tree,
        "declares other functions than the archive has",
    );
    let hidden = longer(
        exports::CALLS,
        "\n#[no_mangle]\npub fn other(x: u8) -> u64\n{\n    0\n}\n",
    );
    finds(
        exports::check,
        &hidden,
        "has `extern` or `no_mangle` elsewhere",
    );
    let gone = changed(exports::HEADER, "uint64_t mac_md5(", "uint64_t mac_md4(");
    finds(exports::check, &gone, "declares other functions");
}

const POSITION: &str = "crates/rules/specs/Position.antt";
const LAWS: &str = "crates/rules/specs/PositionLaws.antt";
const UNTRUE: &str = "\nabbrev pub Untrue : Type 0\nUntrue = (n : ℕ) → n ≡ 1\n";
const UNPROVED: &str = "Untrue is a statement, and no file of laws has a value of it";

/// The statement in a listed file, and more in a file of laws that uses it.
fn stated(statement: &str, law: &str) -> Tree {
    let tree = longer(POSITION, statement);
    let text = tree.text(LAWS).unwrap();
    let text = format!("use Rattle·rules·specs.specs.Position.{{Untrue}}\n{text}\n{law}");
    tree.with(LAWS, text)
}

#[test]
fn statements_that_nobody_proves() {
    finds(statements::check, &longer(POSITION, UNTRUE), UNPROVED);
    // none of these is a value of it: if one were, nothing would be found
    let laws = [
        "-- wrong : Untrue\n",
        "pub from : Untrue → 0 ≡ 1\nfrom h = h 0\n",
        "pub to : 0 ≡ 1 → Untrue\nto h n = h\n",
        "pub self : (Untrue → Untrue)\nself h = h\n",
        "pub and : Untrue × (0 ≡ 1) → 0 ≡ 1\nand h = h .1\n",
        "pub or : (0 ≡ 0) ⊎ Untrue\nor = inl refl\n",
        "module _ (h : 0 ≡ 1) where\n  pub under : Untrue\n  under n = h\n",
        "pub inner : 0 ≡ 0\ninner = refl\n  where\n    wrong : Untrue\n    wrong n = h\n",
        "abbrev pub Also : Type 0\nAlso = Untrue\n",
        "pub record Both : Type 0 where\n  pub one : Untrue\n",
        "abbrev pub Own : Type 0\nOwn = 0 ≡ 0\npub own : Own\nown = refl\n",
    ];
    finds(
        statements::check,
        &stated(UNTRUE, &laws.join("\n")),
        UNPROVED,
    );
    let record = "\npub record Untrue : Type 0 where\n  pub one : 0 ≡ 1\n";
    let within = "\nabbrev pub Both : Type 0\nBoth = Untrue × Untrue\n";
    let tree = longer(POSITION, &(record.to_string() + within));
    finds(statements::check, &tree, UNPROVED);
    finds(statements::check, &tree, "Both is a statement");
}

#[test]
fn statements_that_are_proved() {
    let unproved = |tree: &Tree| {
        let faults = statements::check(tree).faults;
        faults.iter().any(|fault| fault.contains("Untrue"))
    };
    for law in [
        "pub wrong : Untrue\nwrong n = h\n",
        "pub wrong : (Untrue × (0 ≡ 0))\nwrong = h\n",
    ] {
        assert!(!unproved(&stated(UNTRUE, law)), "{law}");
    }
    let within = UNTRUE.to_string() + "\npub record Both : Type 0 where\n  pub one : Untrue\n";
    let tree = stated(&within, "pub wrong : Both\nwrong = h\n");
    assert!(unproved(&tree), "Both is not the law's to name");
    let tree = tree.with(
        LAWS,
        tree.text(LAWS)
            .unwrap()
            .replace("{Untrue}", "{Untrue, Both}"),
    );
    assert!(!unproved(&tree));
    // a record of numbers is no statement
    let data =
        "\npub record Untrue : Type 0 where\n  pub one : List ℕ\n  pub two : (a b : ℕ) → Bool\n";
    assert!(!unproved(&longer(POSITION, data)));
}

#[test]
fn predicates_that_nobody_cites() {
    let predicate = "\nabbrev pub Untrue : ℕ → Type 0\nUntrue n = n ≡ 1\n";
    let words = "Untrue is cited by no contract and by no law";
    finds(statements::check, &longer(POSITION, predicate), words);
    let record = "\npub record Untrue (n : ℕ) : Type 0 where\n  pub one : n ≡ 1\n";
    finds(statements::check, &longer(POSITION, record), words);
    let cited = stated(predicate, "pub one : Untrue 1\none = refl\n");
    assert!(statements::check(&cited).faults.is_empty());
}
