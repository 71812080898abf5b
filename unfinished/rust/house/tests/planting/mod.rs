//! The tree with something planted in it, and what a check says of that.
#![allow(dead_code)] // a file of tests uses some of it

use house::{Check, Tree};

/// The tree with one place of one file changed, which must be there.
pub fn changed(path: &str, old: &str, new: &str) -> Tree {
    changed_in(&Tree::read(), path, old, new)
}

/// The same of a tree that was changed before.
pub fn changed_in(tree: &Tree, path: &str, old: &str, new: &str) -> Tree {
    let text = tree
        .text(path)
        .unwrap_or_else(|| panic!("{path} is not there"));
    assert!(text.contains(old), "{path} does not have {old}");
    tree.with(path, text.replacen(old, new, 1))
}

/// The tree with more at the end of one file.
pub fn longer(path: &str, more: &str) -> Tree {
    let tree = Tree::read();
    let text = tree.text(path).unwrap_or("").to_string();
    tree.with(path, text + more)
}

/// The check finds something wrong, and says so with these words.
pub fn finds(check: Check, tree: &Tree, words: &str) {
    let faults = check(tree).faults;
    assert!(
        faults.iter().any(|fault| fault.contains(words)),
        "{words} is not among {faults:?}"
    );
}
