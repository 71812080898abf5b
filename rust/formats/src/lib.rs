//! The files that the operator's command reads and writes. It knows their forms and judges nothing: what a
//! segment or a table gets is the archive's to say, and nothing here needs it.
//!
//! [`capture`] reads pcap and pcapng, packet by packet, down to the TCP segment; [`connections`] finds who
//! opened which connection in one. [`entry`] is what an entry of a table says, read from its bytes, and
//! [`text`] the same as a person writes it. [`recording`] writes document 02's recording (Ticket 1).

#![forbid(unsafe_code)]
#![warn(missing_docs)]

pub mod capture;
pub mod connections;
pub mod entry;
pub mod recording;
pub mod text;
