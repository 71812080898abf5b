//! Single calls, and what each must answer.

use faulty::Fault;
use kit::{calls_of, Boundary, Call, Outcome};

pub const REFERENCE: Boundary = calls_of!(Boundary, reference::boundary);
const FAULTY: Boundary = calls_of!(Boundary, faulty::boundary);

/// A call, and what it must answer.
#[derive(Clone, Debug)]
pub struct Case {
    pub name: String,
    pub call: Call,
    pub answer: u64,
}

pub fn run(case: &Case) -> Outcome {
    REFERENCE.make(&case.call)
}

/// With a fault planted.
pub fn run_with(fault: Fault, case: &Case) -> Outcome {
    faulty::with(fault, || FAULTY.make(&case.call))
}

/// By the copy that faults are planted in, with none in it.
pub fn run_unplanted(case: &Case) -> Outcome {
    FAULTY.make(&case.call)
}
