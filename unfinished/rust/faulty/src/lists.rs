//! The lists of faults, one behind the other: a fault's index counts through them.

use crate::switches::Planted;
use crate::{faults, faults_connections, faults_pieces, faults_records, faults_removal};

/// Those of the calls on one connection and of the desk, those of the calls on many connections, of records,
/// of removals and of data in pieces.
pub const LISTS: [&[Planted]; 5] = [
    faults::FAULTS,
    faults_connections::FAULTS,
    faults_records::FAULTS,
    faults_removal::FAULTS,
    faults_pieces::FAULTS,
];
