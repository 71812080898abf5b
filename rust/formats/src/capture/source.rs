//! The bytes of a capture from front to end, and what can be wrong with them.

use std::fmt;
use std::io::{self, BufReader, Read};

/// Why a capture cannot be read, or not further.
#[derive(Debug)]
pub enum Fault {
    /// It is no capture; and what it may be.
    NoCapture(&'static str),
    /// It is one, but of a kind that is not read here.
    NotRead(String),
    /// From this byte on, counted from 0, it is not what a capture is.
    Damaged {
        /// The byte.
        at: u64,
        /// What is wrong there.
        what: String,
    },
    /// The system could not read it.
    System(io::Error),
}

impl fmt::Display for Fault {
    fn fmt(&self, f: &mut fmt::Formatter) -> fmt::Result {
        match self {
            Fault::NoCapture(guess) => write!(f, "this is no capture: {guess}"),
            Fault::NotRead(what) => f.write_str(what),
            Fault::Damaged { at, what } => {
                write!(f, "the capture is damaged at byte {at}: {what}")
            }
            Fault::System(error) => write!(f, "{error}"),
        }
    }
}

impl std::error::Error for Fault {}

impl From<io::Error> for Fault {
    fn from(error: io::Error) -> Fault {
        Fault::System(error)
    }
}

const BUFFER: usize = 65_536;

/// What is left of a file, with the place where it begins.
pub struct Source<R> {
    input: BufReader<R>,
    at: u64,
}

impl<R: Read> Source<R> {
    pub fn new(input: R) -> Source<R> {
        Source {
            input: BufReader::with_capacity(BUFFER, input),
            at: 0,
        }
    }

    /// Fills the buffer, or what of it the file still has; gives how much that is.
    pub fn fill(&mut self, buffer: &mut [u8]) -> Result<usize, Fault> {
        let mut filled = 0;
        while filled < buffer.len() {
            match self.input.read(&mut buffer[filled..]) {
                Ok(0) => break,
                Ok(read) => filled += read,
                Err(error) if error.kind() == io::ErrorKind::Interrupted => {}
                Err(error) => return Err(error.into()),
            }
        }
        self.at += filled as u64;
        Ok(filled)
    }

    /// Fills the whole buffer, with what `what` names.
    pub fn exactly(&mut self, buffer: &mut [u8], what: &str) -> Result<(), Fault> {
        let start = self.at;
        if self.fill(buffer)? < buffer.len() {
            return Err(ends_inside(start, what));
        }
        Ok(())
    }

    /// Fills the buffer, unless the file ends right here.
    pub fn exactly_or_end(&mut self, buffer: &mut [u8], what: &str) -> Result<bool, Fault> {
        let start = self.at;
        match self.fill(buffer)? {
            0 => Ok(false),
            filled if filled < buffer.len() => Err(ends_inside(start, what)),
            _ => Ok(true),
        }
    }

    /// Reads over so many bytes.
    pub fn skip(&mut self, count: u64, what: &str) -> Result<(), Fault> {
        let start = self.at;
        let mut rest = count;
        let mut sink = [0; 4096];
        while rest > 0 {
            let piece = rest.min(sink.len() as u64) as usize;
            let read = self.fill(&mut sink[..piece])?;
            if read < piece {
                return Err(ends_inside(start, what));
            }
            rest -= read as u64;
        }
        Ok(())
    }

    /// A fault at the byte `back` before where the reading is.
    pub fn damaged<T>(&self, back: u64, what: String) -> Result<T, Fault> {
        let at = self.at - back;
        Err(Fault::Damaged { at, what })
    }
}

fn ends_inside(at: u64, what: &str) -> Fault {
    let what = format!("the file ends inside {what}");
    Fault::Damaged { at, what }
}

/// The byte order of a file's numbers.
#[derive(Clone, Copy, Debug, PartialEq, Eq)]
pub enum Order {
    Big,
    Little,
}

impl Order {
    pub fn u16(self, bytes: [u8; 2]) -> u16 {
        match self {
            Order::Big => u16::from_be_bytes(bytes),
            Order::Little => u16::from_le_bytes(bytes),
        }
    }

    pub fn u32(self, bytes: [u8; 4]) -> u32 {
        match self {
            Order::Big => u32::from_be_bytes(bytes),
            Order::Little => u32::from_le_bytes(bytes),
        }
    }

    /// The four-byte number at a place of a head that is long enough.
    pub fn u32_at(self, head: &[u8], at: usize) -> u32 {
        self.u32([head[at], head[at + 1], head[at + 2], head[at + 3]])
    }
}
