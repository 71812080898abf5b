//! Edits that are refused for their shape, or that may be: each is found, in the edit or in what the prover said of it.

mod planting;

use house::edits::{self, Edit};
use house::Tree;
use planting::finds;

/// The tree with an edit more.
fn with(edit: &str) -> Tree {
    Tree::read().with("crates/octets/must-fail/planted.edit", edit.to_string())
}

const OPERAND: &str = "file: src/lib.rt\nold: dst[at + i] = src[i];\nnew: dst[1 + i] = src[i];\n";
const WHY: &str = "why: the proof of it has one step more\n";

#[test]
fn edits_of_more_than_operands() {
    let wrong = [
        ("file: src/lib.rt\nold: no such text\nnew: x\n", "does not stand once in src/lib.rt"),
        ("file: src/lib.rt\nold: a as u16\nnew: b as u16\nold: a as u16\nnew: b as u16\n", "does not stand once"),
        ("file: src/no.rt\nold: x\nnew: y\n", "there is no crates/octets/src/no.rt"),
        (
            "file: proofs/copy_at/Proof.antt\nold: whole d s o at i q e = rw q at e\nnew: whole d s o at i q e = e\n",
            "changes a proof in proofs/copy_at/Proof.antt",
        ),
        (
            "file: specs/TestLaws.antt\nold: none-any o [] p = refl\nnew: none-any o [] p = p\n",
            "changes a file of laws in specs/TestLaws.antt",
        ),
        ("file: src/lib.rt\nold: i += 1;\nnew: i += 1; return;\n", "changes the shape of a function in src/lib.rt"),
        ("file: src/lib.rt\nold: i += 1;\nnew: i += 1 + 1;\n", "changes the shape of a function"),
        ("file: src/lib.rt\nold: while i < src.len() {\nnew: if i < src.len() {\n", "changes the shape of a function"),
        (
            "file: specs/Octets.antt\nold: pub bytes16 : ℕ → List ℕ\nnew: pub bytes16 : ℕ → ℕ → List ℕ\n",
            "changes the type of a definition in specs/Octets.antt",
        ),
        ("file: specs/Octets.antt\nold: pub get16 :\nnew: pub get17 :\n", "changes the type of a definition"),
        ("file: specs/Tests.antt\nold:   pub gives : O\nnew:   pub given : O\n", "changes the type of a definition"),
    ];
    for (edit, words) in wrong {
        finds(edits::check, &with(edit), words);
    }
    finds(
        edits::check,
        &with(&format!("{WHY}{OPERAND}")),
        "changes operands alone",
    );
    let short = "why: needed\nfile: src/lib.rt\nold: i += 1;\nnew: i += 1; return;\n";
    finds(edits::check, &with(short), "no `why:` line says why");
    let right = [
        OPERAND.to_string(),
        "file: src/lib.rt\nold: while i < src.len() {\nnew: while i != src.len() {\n".to_string(),
        format!("{WHY}file: src/lib.rt\nold: i += 1;\nnew: i += 1; return;\n"),
    ];
    for edit in right {
        let faults = edits::check(&with(&edit)).faults;
        assert!(
            !faults.iter().any(|fault| fault.contains("planted")),
            "{faults:?}"
        );
    }
}

/// What is wrong with the planted edit of these files, where the prover says this of it first.
fn said(edit: &str, place: &str) -> Option<String> {
    let tree = with(edit);
    let is = |edit: &Edit| edit.name() == "octets/planted";
    let edit = edits::edits(&tree).into_iter().find(is).unwrap();
    let place = place.replacen('@', "/a/target/must-fail/octets/planted/", 1);
    let log = format!("fn octets::be16: proved\n{place}\n  more of it\nlogic=not-proved\n");
    edits::fault(&edit, &log)
}

#[test]
fn refusals_for_their_shape() {
    let wrong = [
        "@specs/Octets.antt:22:25: error: `bytes16`: `notThere` is not in scope",
        "@specs/Octets.antt:4:16: error: module `lib.ListN` has no `getE` that can be named from here",
        "@specs/Octets.antt:24:1: error: this line starts at column 1, but the `(` opened at 22:31 is still open",
        "@specs/Octets.antt:22:13: error: `bytes16`: expected type `List ℕ`, but this has type `ℕ`",
        "@src/lib.rt:51:26: error: `ensures-1`: computed as far as they go, the two types are `List ℕ`",
        "@src/lib.rt:8:45: error: module `Octets` has no `bytes16` that can be named from here",
        "@specs/Tests.antt:31:1: error: `first`: `first` has no clause for 1 case; the missing clause is:",
        "@proofs/copy_at/Proof.antt:18:19: error: `Inv-loop`: module `Tie` has no `InvT-loop` that can be named from here",
        "@proofs/copy_at/Proof.antt:30:183: error: `copy-at-spec`: record `Lts.At-loop·own` has no field `i`",
        "@proofs/copy_at/Proof.antt: error: `octets` has no function `copy_at` for this file to be the proof of",
        "fn octets::be32: no proof",
        "@proofs/copy_at/Proof.antt:32:11: error: `copy-at-spec`: `whole` was not admitted, so this cannot be checked",
    ];
    for place in wrong {
        assert!(said(OPERAND, place).is_some(), "{place}");
    }
    let proof = "file: proofs/copy_at/Proof.antt\nold: whole d s o at i q e = rw q at e\nnew: whole d s o at i q e = e\n";
    let place = "@proofs/copy_at/Proof.antt:16:24: error: `whole`: expected type `d ≡ e`, but this has type `d ≡ f`";
    assert!(said(proof, place).is_some());
    let place = "@proofs/copy_at/Proof.antt:27:11: error: `copy-at-spec`: a tuple is checked against `Post`";
    assert!(said(&format!("{WHY}{proof}"), place).is_some());
}

#[test]
fn refusals_at_a_fact() {
    let right = [
        "note: @src/lib.rt:22:1: it is not proved that what the function ensures holds when it returns (`returns`)",
        "@proofs/copy_at/Proof.antt:30:48: error: `copy-at-spec`: as printed, the two types first differ where one has `0`",
        "@specs/TestLaws.antt:145:5: error: `ask-table`: as printed, the two types differ only where one has `askTests t id l`",
        "@specs/TestLaws.antt:1:1: error: `a` was not admitted\n@specs/TestLaws.antt:2:1: error: `b`: `false` ≟ `true`: does not hold",
    ];
    for place in right {
        let place = place.replace("\n@", "\n/a/target/must-fail/octets/planted/");
        assert_eq!(said(OPERAND, &place), None);
    }
}
