//! The operator's command, `embankery`: key tables from text, captures and recordings at the desk, what a number
//! means, and the demonstration.
//!
//! What a table, a SYN or a segment gets is the archive's answer, through the wrapper `embankery`; there is no rule
//! of its own here. Where the command must find something out (which end of a connection is ours, which earlier
//! entry a clash is with), it asks the archive too.

#![forbid(unsafe_code)]
#![warn(missing_docs)]

mod arguments;
mod command;
mod demo;
pub mod desk;
pub mod explain;
mod help;
mod openings;
mod record;
mod show;
mod stop;
pub mod tables;

pub use command::run;
pub use openings::{openings, Direction, Opening, Opens, Side, Views};
pub use record::{record, Recorded};
pub use stop::Stop;
