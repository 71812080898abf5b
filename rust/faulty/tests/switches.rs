//! The switches: what they make of a text, and what they refuse. (That the edits of the list are
//! found, each once, is what building this package says.)

use faulty::switches::Edit::{self, Before, Behind, Instead};
use faulty::switches::{switched, Planted};

const TEXT: &str = "fn one() -> u8 {
    let a = 1 + 1;
    a
}

impl Two {
    fn two() -> u8 {
        if a == 1 {
            return 1;
        }
        a
    }
}
";

fn planted(name: &'static str, function: &'static str, edits: &'static [Edit]) -> Planted {
    Planted {
        name,
        does: "",
        breaks: "",
        file: "text.rs",
        function,
        edits,
    }
}

fn refused(faults: &[Planted]) -> Vec<String> {
    switched("text.rs", TEXT, faults).unwrap_err()
}

#[test]
fn each_edit_becomes_a_switch() {
    let faults = [
        planted("Sum", "fn one(", &[Instead("1 + 1", "1 + 2")]),
        planted("Early", "fn two(", &[Before("if a == 1", "return 7;")]),
        planted("Late", "fn one(", &[Behind("1 + 1;", "let a = 5;")]),
    ];
    let text = switched("text.rs", TEXT, &faults).unwrap();
    let expected = TEXT
        .replace(
            "1 + 1;",
            "(if crate::planted(0) { 1 + 2 } else { 1 + 1 });\nif crate::planted(2) { let a = 5; }\n",
        )
        .replace("if a ==", "\nif crate::planted(1) { return 7; }\nif a ==");
    assert_eq!(text, expected);
    assert_eq!(switched("other.rs", TEXT, &faults).unwrap(), TEXT);
}

#[test]
fn several_faults_at_one_place() {
    let faults = [
        planted("Two", "fn one(", &[Instead("1 + 1", "2")]),
        planted("Three", "fn one(", &[Instead("1 + 1", "3")]),
    ];
    let text = switched("text.rs", TEXT, &faults).unwrap();
    let switch = "(if crate::planted(0) { 2 } else if crate::planted(1) { 3 } else { 1 + 1 })";
    assert_eq!(text, TEXT.replace("1 + 1", switch));
}

#[test]
fn a_text_is_there_exactly_once() {
    let faults = [
        planted("Never", "fn one(", &[Instead("1 + 2", "3")]),
        planted("Twice", "fn two(", &[Instead("a", "b")]),
        planted("Elsewhere", "fn one(", &[Instead("a == 1", "b")]),
        planted("Nowhere", "fn three(", &[Instead("a", "b")]),
        planted("Good", "fn two(", &[Instead("a == 1", "true")]),
    ];
    assert_eq!(
        refused(&faults),
        [
            "Never: `1 + 2` is not there",
            "Twice: `a` is there more than once",
            "Elsewhere: `a == 1` is not there",
            "Nowhere: `fn three(` is not there",
        ]
    );
}

#[test]
fn edits_do_not_overlap() {
    let faults = [
        planted("Whole", "fn one(", &[Instead("let a = 1 + 1", "let a = 2")]),
        planted("Part", "fn one(", &[Instead("1 + 1", "3")]),
    ];
    assert_eq!(refused(&faults), ["Whole and Part: the edits overlap"]);
    let inside = [
        planted("Whole", "fn one(", &[Instead("1 + 1", "2")]),
        planted("Inside", "fn one(", &[Before("+ 1", "3")]),
    ];
    assert_eq!(refused(&inside), ["Whole and Inside: the edits overlap"]);
}
