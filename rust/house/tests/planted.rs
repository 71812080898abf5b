//! Each check is tried itself: what is wrong in a tree that was changed in memory, it finds.

use house::{claims, layout, numbers, picture, reading, Check, Tree};

/// The tree with one place of one file changed, which must be there.
fn changed(path: &str, old: &str, new: &str) -> Tree {
    let tree = Tree::read();
    let text = tree
        .text(path)
        .unwrap_or_else(|| panic!("{path} is not there"));
    assert!(text.contains(old), "{path} does not have {old}");
    tree.with(path, text.replacen(old, new, 1))
}

/// The check finds something wrong, and says so with these words.
fn finds(check: Check, tree: &Tree, words: &str) {
    let faults = check(tree).faults;
    assert!(
        faults.iter().any(|fault| fault.contains(words)),
        "{words} is not among {faults:?}"
    );
}

#[test]
fn claims_of_what_is_not_there() {
    let row = |cells: &str| {
        let tree = Tree::read();
        let text = tree.text(claims::CLAIMS).unwrap().to_string();
        tree.with(
            claims::CLAIMS,
            text + "\n## Planted (`mac`)\n\n| a | b |\n|---|---|\n" + cells + "\n",
        )
    };
    let wrong = [
        ("| `Sha3.antt` | |", "no file `Sha3.antt`"),
        (
            "| `mac/specs/Sha3.antt` | |",
            "no file `mac/specs/Sha3.antt`",
        ),
        (
            "| `Sha1.antt`: `sha3` | |",
            "`sha3` is not declared in crates/mac/specs/Sha1.antt",
        ),
        ("| `sha1::sha3` | |", "`sha1::sha3` is not in src/"),
        (
            "| `HashContext::new`, `renew` | |",
            "`renew` is not declared",
        ),
        (
            "| `tcpao::judge::judged` | |",
            "`tcpao::judge::judged` is not in src/",
        ),
        (
            "| | mac/sbox_entry, sbox_entries |",
            "no edit mac/sbox_entries",
        ),
        (
            "| | columns/always_wrong; mac/* |",
            "no edit columns/always_wrong",
        ),
        ("| | macs/sbox_entry |", "no edit macs/sbox_entry"),
        (
            "| `rust/compare/tests/agreement.rs`: `mains` | |",
            "`mains` is not declared",
        ),
        ("| `make proofs` | |", "`make proofs` is no target"),
    ];
    for (cells, words) in wrong {
        finds(claims::check, &row(cells), words);
    }
    let right = "| `Sha1.antt`: `sha1`; `sha1::sha1`; `HashContext::new`, `update` | mac/sbox_entry; vectors: x; mac/* |";
    assert!(claims::check(&row(right)).faults.is_empty());
}

#[test]
fn claims_of_what_was_taken_away() {
    let tree = Tree::read().without("crates/mac/must-fail/sbox_entry.edit");
    finds(claims::check, &tree, "no edit mac/sbox_entry");
    let tree = changed("crates/mac/src/sha1.rt", "pub fn sha1(", "pub fn sha2(");
    finds(claims::check, &tree, "`sha1::sha1` is not in src/");
}

#[test]
fn numbers_in_other_words() {
    for path in [numbers::HEADER, numbers::README, numbers::WRAPPER] {
        let tree = changed(path, "or its padding is not zero", "or zeros are missing");
        finds(numbers::check, &tree, "16: ");
    }
    let tree = changed(
        numbers::HEADER,
        "   37   signing, preparing: the output is too short\n",
        "",
    );
    finds(numbers::check, &tree, "37: README.md says");
    finds(numbers::check, &tree, "does not have each");
}

#[test]
fn pictures_of_other_crates() {
    let uses = changed(
        "crates/rollover/src/main.rt",
        "\nfn main(",
        "\nuse checks::check::check;\nfn main(",
    );
    finds(picture::check, &uses, "rollover uses checks");
    finds(picture::check, &uses, "does not have the picture");
    let listed = changed("crates.txt", "\nstates: octets", "\nstates: octets mac");
    finds(picture::check, &listed, "lists mac for states");
    let gone = changed("crates.txt", "\nrollover: ", "\n# rollover: ");
    finds(picture::check, &gone, "does not have the picture");
}

/// A file that must be believed, with a line more.
fn believed_with(line: &str) -> Tree {
    let path = "crates/rules/specs/Position.antt";
    let tree = Tree::read();
    let text = tree.text(path).unwrap().to_string();
    tree.with(path, text + line)
}

#[test]
fn proofs_in_files_to_believe() {
    let words = "Position.antt holds proofs";
    for line in [
        "\npub same : (n : ℕ) → n ≡ n\nsame n = proved n\n",
        "\nabbrev pub same : (n : ℕ) → n ≡ n\nsame n = refl\n",
        "\nabbrev pub below : ℕ → Type 0\nbelow n = (omega arith)\n",
        "\nuse native.Mathlib.Omega.{arith}\n",
        "\nuse Rattle.std.proofs.Common.{ℕ}\n",
        "\nuse Rattle.std.proofs.Math.Seq.{paste, ext_get_or}\n",
        "\nuse Rattle.std.specs.Prelude.{◌≡◌, refl as same}\n",
        "\nuse mathlib.Core.Path.{◌≡◌, sym}\n",
        "\naxiom same : (n : ℕ) → n ≡ n\n",
        "\nabbrev pub same : ℕ → ℕ\nsame n = Rattle.rules.proofs.PositionLaws.twice n\n",
    ] {
        finds(reading::check, &believed_with(line), words);
    }
    for line in [
        "\nuse Rattle.rules.proofs.PositionLaws.{sound}\n",
        "\npub use Rattle.rules.proofs.PositionLaws\n",
    ] {
        finds(
            reading::check,
            &believed_with(line),
            "rests on crates/rules/proofs/PositionLaws.antt",
        );
    }
    let working = believed_with("\nuse Rattle.checks.specs.Begin.{Begins}\n");
    finds(
        reading::check,
        &working,
        "rests on crates/checks/specs/Begin.antt",
    );
    let definition = believed_with("\nabbrev pub twice : ℕ → ℕ\ntwice n = n + n -- refl\n");
    let holds = |fault: &String| fault.contains("Position.antt");
    assert!(!reading::check(&definition).faults.iter().any(holds));
}

#[test]
fn files_to_believe_that_are_not_listed() {
    let listed = "- `crates/rules/specs/Position.antt`";
    let gone = changed(
        reading::READING,
        listed,
        "- `crates/rules/specs/Positions.antt`",
    );
    finds(
        reading::check,
        &gone,
        "lists crates/rules/specs/Positions.antt, which is not there",
    );
    finds(reading::check, &gone, "Position.antt is not named Laws");
    let laws = changed(
        reading::READING,
        listed,
        "- `crates/rules/proofs/PositionLaws.antt`",
    );
    finds(reading::check, &laws, "PositionLaws.antt holds proofs");
    finds(
        reading::check,
        &laws,
        "PositionLaws.antt, which is not in /specs/",
    );
    let new = |name: &str| {
        let path = format!("crates/rules/specs/{name}.antt");
        reading::check(&Tree::read().with(&path, String::new())).faults
    };
    let words = "Planted.antt is not named Laws";
    assert!(new("Planted").iter().any(|fault| fault.contains(words)));
    assert!(!new("PlantedLaws")
        .iter()
        .any(|fault| fault.contains("Planted")));
}

#[test]
fn lines_that_are_too_long() {
    let long = |path: &str, length: usize| {
        let tree = Tree::read();
        let text = tree.text(path).unwrap().to_string();
        tree.with(path, text + &"≡".repeat(length))
    };
    let finds_in = |path: &str, length| {
        let faults = layout::check(&long(path, length)).faults;
        faults.iter().any(|fault| fault.starts_with(path))
    };
    for path in [
        "crates/mac/src/hmac.rt",
        "crates/rules/specs/Position.antt",
        "rust/house/src/antt.rs",
    ] {
        assert!(!finds_in(path, 140), "{path}");
        assert!(finds_in(path, 141), "{path}");
    }
    assert!(!finds_in("crates/rules/proofs/PositionLaws.antt", 141));
    let planted = "crates/rules/specs/PlantedLaws.antt";
    let tree = Tree::read().with(planted, "≡".repeat(141));
    let of_planted = |fault: &String| fault.starts_with(planted);
    assert!(!layout::check(&tree).faults.iter().any(of_planted));
}
