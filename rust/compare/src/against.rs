//! What the archive is compared with: the reference, or the reference with a fault planted in it.

use faulty::Fault;
use kit::{calls_of, Boundary, Call, Outcome};

const REFERENCE: Boundary = calls_of!(Boundary, reference::boundary);
const FAULTY: Boundary = calls_of!(Boundary, faulty::boundary);

#[derive(Clone, Copy, Debug)]
pub enum Against {
    Reference,
    Planted(Fault),
}

impl Against {
    pub fn make(self, call: &Call) -> Outcome {
        match self {
            Against::Reference => REFERENCE.make(call),
            Against::Planted(fault) => faulty::with(fault, || FAULTY.make(call)),
        }
    }
}
