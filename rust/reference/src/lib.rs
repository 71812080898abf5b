//! TCP-AO by the rules of document 01, once more in plain Rust. Of document 02, Tickets 2, 4,
//! 13, 5, 10, 9, 1 and 8 are in it.
//!
//! This package was written from the papers alone: documents 01 and 02, `BOUNDARY.md` for the bytes
//! at the C boundary, and the public standards (FIPS 180-4, RFC 2104, FIPS 197, RFC 4493, RFC 1071, RFC
//! 5925, RFC 5926, RFC 6978, RFC 1321, RFC 2385). It shares no line and no definition with the proved library, so that the two can be
//! compared. It is meant to be read beside document 01: over each rule stands the sentence it comes
//! from.
//!
//! [`calls`] has the calls with values in and out, [`boundary`] the same calls over lent bytes, as
//! C sees them; [`desk`] has what the program `desk` prints. The package `faulty` is this text with one of its
//! rules turned round on purpose.
//!
//! `NOTES.md` lists what document 01 leaves open and how it was decided here.

#![forbid(unsafe_code)]
#![warn(missing_docs)]

pub mod answer;
pub mod boundary;
pub mod calls;
pub mod checksum;
pub mod crypto;
pub mod desk;
pub mod mac;
pub mod md5_table;
pub mod position;
pub mod prepared;
pub mod segment;
pub mod state;
pub mod table;
pub mod tcp_md5;

pub use answer::{Refusal, Verdict};
pub use state::State;
