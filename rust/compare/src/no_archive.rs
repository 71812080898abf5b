//! The reference in the archive's place.

use crate::against::Against;
use kit::{Call, Outcome};

/// What the reference is compared with.
pub const NAME: &str = "no archive";

pub fn by_archive(call: &Call) -> Outcome {
    Against::Reference.make(call)
}
