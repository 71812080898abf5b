//! What the tests share: the two ends of a connection, single calls on the reference and on its
//! faulty copy, and a list of cases with what each must answer.
#![allow(dead_code, unused_imports)] // each test file uses a part of this

pub mod calls;
pub mod cases;
pub mod ends;
pub mod recordings;

pub use calls::{run, run_unplanted, run_with, Case, REFERENCE};
pub use cases::cases;
pub use cases::table::bad_tables;
pub use ends::*;
pub use kit::entry::{mirrored, table};
pub use kit::segment::{ACK, FIN, RST, SYN};
pub use kit::{number, value, Call, End, Entry, Function, Outcome, Segment, Side};
pub use recordings::{recordings, Recording};
