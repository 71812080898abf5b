//! A difference in a few lines, and a call in full.

use crate::compare::Difference;
use kit::{Call, Function, Outcome};

/// A difference, with what is needed to make it again.
pub fn difference(difference: &Difference) -> String {
    let Difference {
        forms,
        seed,
        index,
        call,
        archive,
        reference,
    } = difference;
    let (one, other) = match forms {
        false => ("archive", "reference"),
        true => ("prepared", "by bytes"),
    };
    format!(
        "call {index} of seed {seed} differs\n{}{}{}  again, in full: cargo run --offline --release \
         --package compare -- --seed {seed} --upto {index}\n",
        lines(call, 48),
        outcome(one, call, archive, Some(reference), 48),
        outcome(other, call, reference, Some(archive), 48),
    )
}

/// A call, each part cut behind so many bytes.
pub fn lines(call: &Call, most: usize) -> String {
    let form = match (call.function.takes_form(), call.form) {
        (false, _) | (_, 0) => String::new(),
        (_, form) => format!(", form {form}: prepared tables"),
    };
    let mut text = format!("  {}{form}\n", call.function.c_name());
    let (source, destination) = match call.function {
        Function::OpenActive | Function::OpenActiveMd5 => ("local", "remote"),
        _ => ("source", "destination"),
    };
    let parts = [
        ("keys", &call.table),
        ("md5", &call.md5),
        (source, &call.source),
        (destination, &call.destination),
        ("segment", &call.segment),
        ("state", &call.state),
    ];
    for (name, bytes) in parts {
        if !bytes.is_empty() {
            text += &format!("  {name:<12}{}\n", hex(bytes, most));
        }
    }
    let Call {
        local_port,
        remote_port,
        isn,
        byte,
        ..
    } = call;
    text += &match call.function {
        Function::OpenActive => {
            format!("  ports {local_port} and {remote_port}, isn {isn}, send_id {byte}\n")
        }
        Function::OpenActiveMd5 => {
            format!("  ports {local_port} and {remote_port}, isn {isn}\n")
        }
        Function::JudgeSyn => format!("  setting {byte}\n"),
        Function::OpenPassive => format!("  isn {isn}, setting {byte}\n"),
        Function::Sign | Function::Prepare => format!("  output of {} bytes\n", call.out.len()),
        Function::Ask => format!("  recv_id {byte}\n"),
        Function::CheckTable | Function::Judge => String::new(),
    };
    text
}

/// The answer, and of the buffers what differs from the other side's, or has changed.
pub fn outcome(
    name: &str,
    call: &Call,
    this: &Outcome,
    other: Option<&Outcome>,
    most: usize,
) -> String {
    let mut text = format!(
        "  {name:<12}number {}, value {}, word {:016x}\n",
        this.number(),
        this.value(),
        this.word
    );
    let other_state = other.map_or(&call.state, |other| &other.state);
    let other_out = other.map_or(&call.out, |other| &other.out);
    text += &changed("state", &this.state, other_state, most);
    text += &changed("output", &this.out, other_out, most);
    if this.strayed {
        text += "    wrote where nothing was lent for writing\n";
    }
    text
}

/// From the first to the last byte that is not as in the other buffer.
fn changed(name: &str, bytes: &[u8], other: &[u8], most: usize) -> String {
    let differs = |at: &usize| bytes.get(*at) != other.get(*at);
    let Some(first) = (0..bytes.len()).find(differs) else {
        return String::new();
    };
    let last = (0..bytes.len()).rfind(differs).unwrap_or(first);
    format!(
        "    {name} from {first} to {last}: {}\n",
        hex(&bytes[first..=last], most)
    )
}

fn hex(bytes: &[u8], most: usize) -> String {
    let shown: String = bytes
        .iter()
        .take(most)
        .map(|b| format!("{b:02x}"))
        .collect();
    if bytes.len() > most {
        format!("{shown}... ({} bytes)", bytes.len())
    } else {
        shown
    }
}
