//! What tests, benchmark and comparison share.
//!
//! It knows the bytes that go over the boundary ([`entry`], [`prepared`], [`segment`], [`state`]) and the shapes of
//! the calls ([`calls`], [`pointers`]), but neither the archive nor the wrapper nor the reference:
//! whoever makes a call says on which side. What a builder is not told has a default, so that a field
//! that comes to an entry, a segment or a call is added in one place.

pub mod bytes;
pub mod calls;
pub mod capture;
pub mod ends;
pub mod entry;
pub mod linux;
pub mod pointers;
pub mod prepared;
pub mod program;
pub mod recording;
pub mod rollover;
pub mod segment;
pub mod state;

pub use bytes::Bytes;
pub use calls::{md5_word, number, value, word, Boundary, Call, Function, Outcome};
pub use ends::{translated, End, Pair};
pub use entry::{Entry, Side};
pub use segment::Segment;
pub use state::State;
