//! The reference once more, with faults that can be planted in it one at a time, to try whether a
//! comparison would notice.
//!
//! The text is the reference's own: build.rs copies it and turns each edit of the list in
//! `faults.rs` into a switch. Each fault is a rule of document 01 or 02, or a reading of it, turned
//! round, or one of document 01's "errors that look right". Without a fault the calls are the reference's.

#![forbid(unsafe_code)]

mod faults;
pub mod switches;

use faults::FAULTS;
use std::cell::Cell;
use std::fmt;

include!(concat!(env!("OUT_DIR"), "/reference.rs"));

/// A fault of the list.
#[derive(Clone, Copy, PartialEq, Eq)]
pub struct Fault(usize);

impl Fault {
    /// All of them.
    pub const ALL: [Fault; FAULTS.len()] = {
        let mut all = [Fault(0); FAULTS.len()];
        let mut index = 0;
        while index < all.len() {
            all[index] = Fault(index);
            index += 1;
        }
        all
    };

    /// Those in what the program `desk` prints; the others are in the calls.
    pub fn of_desk() -> impl Iterator<Item = Fault> {
        Fault::ALL.into_iter().filter(|fault| fault.is_of_desk())
    }

    /// Those in the calls.
    pub fn of_calls() -> impl Iterator<Item = Fault> {
        Fault::ALL.into_iter().filter(|fault| !fault.is_of_desk())
    }

    fn is_of_desk(self) -> bool {
        FAULTS[self.0].file == "desk.rs"
    }

    pub fn name(self) -> &'static str {
        FAULTS[self.0].name
    }

    /// What is wrong under it.
    pub fn does(self) -> &'static str {
        FAULTS[self.0].does
    }

    /// The sentence it breaks.
    pub fn breaks(self) -> &'static str {
        FAULTS[self.0].breaks
    }
}

impl fmt::Debug for Fault {
    fn fmt(&self, f: &mut fmt::Formatter) -> fmt::Result {
        f.write_str(self.name())
    }
}

thread_local! {
    /// The index of the planted fault.
    static PLANTED: Cell<Option<usize>> = const { Cell::new(None) };
}

/// Whether this fault is planted.
fn planted(index: usize) -> bool {
    PLANTED.get() == Some(index)
}

/// Does something with a fault planted in the calls here, in this thread only.
pub fn with<T>(fault: Fault, doing: impl FnOnce() -> T) -> T {
    struct Removed;
    impl Drop for Removed {
        fn drop(&mut self) {
            PLANTED.set(None);
        }
    }
    let _removed = Removed;
    PLANTED.set(Some(fault.0));
    doing()
}
