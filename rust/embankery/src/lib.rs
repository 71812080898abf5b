//! TCP-AO (RFC 5925, RFC 5926), and TCP MD5 (RFC 2385) for peers that know nothing better, for a program
//! between IP and a small TCP.
//!
//! The work is done by the archive `libembankery.a`, in which every function is proved to meet its
//! contract; this package only turns Rust values into the archive's bytes and its answers into Rust
//! values. It is not proved, and it has no rule of its own but the two that say so:
//! [`EntryBuilder::build`] and [`Md5EntryBuilder::build`] on addresses of two families,
//! [`Connection::from_bytes`] on 18.
//!
//! A [`KeyTable`] is made of [`Entry`]s, an [`Md5Table`] of [`Md5Entry`]s; [`Tables`] are both, and
//! [`PreparedTables`] both prepared, for calls that need not check them again. A
//! [`Connection`] is opened, judges what arrives and signs what leaves. What a segment gets is a
//! [`Verdict`]; what goes wrong is a [`Refusal`], with the number of document 01 or 02. No call panics,
//! whatever it is given, but where memory runs out.
//!
//! # A first program
//!
#![doc = concat!("```\n", include_str!("../../../examples/first.rs"), "```")]
//!
//! # What is not promised
//!
//! Nothing is promised of how long a call takes. Keys are not wiped from memory. TCP's own rules and the
//! exchange of keys are the caller's.

#![deny(unsafe_code)]
#![warn(missing_docs)]

mod answer;
mod connection;
pub mod mac;
mod md5;
#[allow(unsafe_code)]
#[doc(hidden)] // for the benchmark and the comparison, which make the same calls
pub mod raw;
mod table;

pub use answer::{Refusal, Table, Verdict};
pub use connection::{judge_syn, Connection, UnknownKeyId, Way};
pub use md5::{Md5Entry, Md5EntryBuilder, Md5Table};
pub use table::{Algorithm, Covered, Entry, EntryBuilder, KeyTable, PreparedTables, Tables};
