//! How the command ends.

use embankery::Refusal;

/// Why the command ends before it is done, in words, with its exit status.
#[derive(Clone, Debug, PartialEq, Eq)]
pub struct Stop {
    /// The exit status.
    pub status: u8,
    /// What to say.
    pub words: String,
    /// Whether the subcommand's help would help.
    pub hint: bool,
}

/// All is well.
pub const DONE: u8 = 0;
/// Something was refused or dropped, or could not be judged.
pub const REFUSED: u8 = 1;
/// The command was not used as it is meant, or a file cannot be read or written.
pub const USAGE: u8 = 2;

impl Stop {
    /// Something was refused.
    pub fn refused(words: impl Into<String>) -> Stop {
        Stop {
            status: REFUSED,
            words: words.into(),
            hint: false,
        }
    }

    /// Bad usage.
    pub fn usage(words: impl Into<String>) -> Stop {
        Stop {
            status: USAGE,
            words: words.into(),
            hint: true,
        }
    }

    /// A file cannot be read or written.
    pub fn file(path: &str, error: impl std::fmt::Display) -> Stop {
        Stop::system(format!("{path}: {error}"))
    }

    /// Something else that the system refuses.
    pub fn system(words: impl Into<String>) -> Stop {
        Stop {
            hint: false,
            ..Stop::usage(words)
        }
    }
}

/// What is written to the command's output cannot be written. Where nobody reads it any more, nothing is said.
impl From<std::io::Error> for Stop {
    fn from(error: std::io::Error) -> Stop {
        if error.kind() == std::io::ErrorKind::BrokenPipe {
            return Stop::system("");
        }
        Stop::system(format!("the output: {error}"))
    }
}

/// The archive refuses.
impl From<Refusal> for Stop {
    fn from(refusal: Refusal) -> Stop {
        Stop::refused(refusal.to_string())
    }
}
