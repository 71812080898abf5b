//! The proved archive and the reference side by side.
//!
//! A seed gives a list of calls ([`world`], with [`aim`], [`states`], [`tables`], [`prepared`], [`segments`]
//! and [`translation`]). Each with its tables as bytes is made once more with them prepared, which must give
//! the same. Each is made on the archive ([`archive`]) and on the reference ([`against`]), and after each the
//! answer, the state, the output and what stands around them are compared ([`compare`]). Which
//! numbers and which situations were met is counted ([`counts`], [`numbers`], [`unknown`], [`md5`]).
//!
//! Without the feature `archive` the reference stands in the archive's place: what the calls meet, and
//! which planted faults they find, is then seen where there is no archive.

pub mod against;
pub mod aim;
#[cfg(feature = "archive")]
pub mod archive;
#[cfg(not(feature = "archive"))]
#[path = "no_archive.rs"]
pub mod archive;
pub mod compare;
pub mod counts;
pub mod md5;
pub mod numbers;
pub mod prepared;
pub mod prng;
pub mod recordings;
pub mod report;
pub mod segments;
pub mod states;
pub mod tables;
pub mod translation;
pub mod unknown;
pub mod world;
