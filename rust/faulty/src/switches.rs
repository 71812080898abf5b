//! A text with edits in it that are switched on one fault at a time.

/// A fault: what it turns round, and how the reference's text would read then.
pub struct Planted {
    pub name: &'static str,
    /// What is wrong under it.
    pub does: &'static str,
    /// The sentence it breaks, of document 01 or 02 or the boundary page, or the agreed reading.
    pub breaks: &'static str,
    /// The file of the reference.
    pub file: &'static str,
    /// How the line of the function begins that the edits are in, from `fn` on.
    pub function: &'static str,
    pub edits: &'static [Edit],
}

/// An edit at a text that the function has exactly once.
pub enum Edit {
    /// The text, an expression, becomes another one.
    Instead(&'static str, &'static str),
    /// Statements are put before the text.
    Before(&'static str, &'static str),
    /// Statements are put behind the text.
    Behind(&'static str, &'static str),
}

/// A place in the text, empty where only something is put in, and what stands there under a fault.
struct Switch {
    start: usize,
    end: usize,
    fault: usize,
    new: &'static str,
}

/// The text of a file with a switch for each edit in it: `crate::planted` says whether the fault of
/// this index in the list is on. Otherwise what is wrong with the edits.
pub fn switched(file: &str, text: &str, faults: &[Planted]) -> Result<String, Vec<String>> {
    let mut switches = vec![];
    let mut wrong = vec![];
    for (fault, planted) in faults.iter().enumerate() {
        if planted.file != file {
            continue;
        }
        for edit in planted.edits {
            match place(text, planted.function, edit) {
                Ok((start, end, new)) => switches.push(Switch {
                    start,
                    end,
                    fault,
                    new,
                }),
                Err(error) => wrong.push(format!("{}: {error}", planted.name)),
            }
        }
    }
    // Where several stand at one place, in the order of the list.
    switches.sort_by_key(|switch| (switch.start, switch.end, switch.fault));
    for pair in switches.windows(2) {
        let same = (pair[0].start, pair[0].end) == (pair[1].start, pair[1].end);
        if pair[1].start < pair[0].end && !same {
            let [one, other] = [0, 1].map(|i: usize| faults[pair[i].fault].name);
            wrong.push(format!("{one} and {other}: the edits overlap"));
        }
    }
    if wrong.is_empty() {
        Ok(written(text, &switches))
    } else {
        Err(wrong)
    }
}

/// From where to where the edit is in the text, and what it puts there.
fn place(text: &str, function: &str, edit: &Edit) -> Result<(usize, usize, &'static str), String> {
    let body = body(text, function)?;
    let (old, new) = match edit {
        Edit::Instead(old, new) | Edit::Before(old, new) | Edit::Behind(old, new) => (old, new),
    };
    let start = body.start + once(&text[body.clone()], old)?;
    let end = start + old.len();
    Ok(match edit {
        Edit::Instead(..) => (start, end, new),
        Edit::Before(..) => (start, start, new),
        Edit::Behind(..) => (end, end, new),
    })
}

/// Where a function stands: to the closing brace under the beginning of its line.
fn body(text: &str, function: &str) -> Result<std::ops::Range<usize>, String> {
    let start = once(text, function)?;
    let line = text[..start].rfind('\n').map_or(0, |at| at + 1);
    let indent: String = text[line..].chars().take_while(|c| *c == ' ').collect();
    let close = format!("\n{indent}}}\n");
    match text[start..].find(&close) {
        Some(length) => Ok(start..start + length),
        None => Err(format!("`{function}` has no end")),
    }
}

/// Where a part stands that the text must have once.
fn once(text: &str, part: &str) -> Result<usize, String> {
    let mut found = text.match_indices(part);
    match (found.next(), found.next()) {
        (Some((at, _)), None) => Ok(at),
        (None, _) => Err(format!("`{part}` is not there")),
        (Some(_), Some(_)) => Err(format!("`{part}` is there more than once")),
    }
}

fn written(text: &str, switches: &[Switch]) -> String {
    let mut copy = String::new();
    let mut at = 0;
    for here in switches.chunk_by(|one, other| (one.start, one.end) == (other.start, other.end)) {
        let (start, end) = (here[0].start, here[0].end);
        copy += &text[at..start];
        let on = |switch: &Switch| {
            let Switch { fault, new, .. } = switch;
            format!("if crate::planted({fault}) {{ {new} }}")
        };
        let all: Vec<String> = here.iter().map(on).collect();
        if start == end {
            copy += &format!("\n{}\n", all.join("\n"));
        } else {
            let old = &text[start..end];
            copy += &format!("({} else {{ {old} }})", all.join(" else "));
        }
        at = end;
    }
    copy + &text[at..]
}
