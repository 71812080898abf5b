//! A call that writes a state as a record or reads it back, and what it gives and leaves: the boundary page, "The state as
//! a record".

use crate::calls::{number, value};
use crate::ends::Pair;
use crate::state::State;

/// The kind and the layout, before the state's bytes.
pub const FRONT: [u8; 2] = [33, 1];
/// How many bytes a record has.
pub const BYTES: usize = FRONT.len() + State::BYTES;

/// The record of a state.
pub fn record(state: &State) -> Vec<u8> {
    [&FRONT[..], &state.bytes()].concat()
}

#[derive(Clone, Copy, Debug, PartialEq, Eq, PartialOrd, Ord)]
pub enum Function {
    Write,
    Read,
    /// Among many connections.
    WriteOf,
    /// Likewise.
    ReadInto,
}

impl Function {
    pub const ALL: [Function; 4] = [
        Function::Write,
        Function::Read,
        Function::WriteOf,
        Function::ReadInto,
    ];

    pub fn name(self) -> &'static str {
        match self {
            Function::Write => "write_record",
            Function::Read => "read_record",
            Function::WriteOf => "connections_write_record",
            Function::ReadInto => "connections_read_record",
        }
    }
}

/// A call. What its function does not take is not looked at.
#[derive(Clone, Debug)]
pub struct Call {
    pub function: Function,
    pub local: Vec<u8>,
    pub remote: Vec<u8>,
    pub local_port: u16,
    pub remote_port: u16,
    pub record: Vec<u8>,
    /// The output buffer as it is lent.
    pub out: Vec<u8>,
    /// The state, or the places of many connections, as it is lent.
    pub places: Vec<u8>,
}

impl Call {
    /// With empty buffers.
    pub fn new(function: Function, places: &[u8]) -> Call {
        Call {
            function,
            local: vec![],
            remote: vec![],
            local_port: 0,
            remote_port: 0,
            record: vec![],
            out: vec![],
            places: places.to_vec(),
        }
    }

    pub fn pair(self, pair: &Pair) -> Call {
        Call {
            local: pair.local.clone(),
            remote: pair.remote.clone(),
            local_port: pair.local_port,
            remote_port: pair.remote_port,
            ..self
        }
    }
}

/// The answer and both buffers after the call.
#[derive(Clone, Debug, PartialEq, Eq)]
pub struct Outcome {
    pub word: u64,
    pub out: Vec<u8>,
    pub places: Vec<u8>,
    /// Whether a byte was written that was not lent for writing.
    pub strayed: bool,
}

impl Outcome {
    pub fn number(&self) -> u8 {
        number(self.word)
    }

    pub fn value(&self) -> u32 {
        value(self.word)
    }
}

/// The calls over slices, on whichever side.
#[allow(clippy::type_complexity)] // the boundary's own arguments
#[derive(Clone, Copy, Debug)]
pub struct Boundary {
    pub write: fn(state: &[u8], out: &mut [u8]) -> u64,
    pub read: fn(record: &[u8], state: &mut [u8]) -> u64,
    pub write_of: fn(
        local: &[u8],
        remote: &[u8],
        local_port: u16,
        remote_port: u16,
        connections: &[u8],
        out: &mut [u8],
    ) -> u64,
    pub read_into: fn(record: &[u8], connections: &mut [u8]) -> u64,
}

/// The calls with records of a module that has them under their names in C, as a [`Boundary`] or as
/// [`Calls`](pointers::Calls).
#[macro_export]
macro_rules! records_of {
    ($kind:path, $($module:ident)::+) => {{
        type Kind = $kind;
        Kind {
            write: $($module)::+::tcpao_write_record,
            read: $($module)::+::tcpao_read_record,
            write_of: $($module)::+::tcpao_connections_write_record,
            read_into: $($module)::+::tcpao_connections_read_record,
        }
    }};
}

impl Boundary {
    /// Makes a call.
    pub fn make(&self, call: &Call) -> Outcome {
        let mut out = call.out.clone();
        let mut places = call.places.clone();
        let word = match call.function {
            Function::Write => (self.write)(&places, &mut out),
            Function::Read => (self.read)(&call.record, &mut places),
            Function::WriteOf => (self.write_of)(
                &call.local,
                &call.remote,
                call.local_port,
                call.remote_port,
                &places,
                &mut out,
            ),
            Function::ReadInto => (self.read_into)(&call.record, &mut places),
        };
        Outcome {
            word,
            out,
            places,
            strayed: false,
        }
    }
}

/// The same calls by pointers, as C makes them.
pub mod pointers {
    use super::{Call, Function};
    use crate::pointers::Buffer;

    /// The buffers of a call.
    #[derive(Clone, Copy)]
    pub struct Buffers {
        pub local: Buffer,
        pub remote: Buffer,
        pub record: Buffer,
        pub out: Buffer,
        pub places: Buffer,
    }

    type In = *const u8;
    type Out = *mut u8;
    type N = usize;

    /// The calls as the header declares them: each pointer before its length.
    pub struct Calls {
        pub write: unsafe extern "C" fn(In, N, Out, N) -> u64,
        pub read: unsafe extern "C" fn(In, N, Out, N) -> u64,
        pub write_of: unsafe extern "C" fn(In, N, In, N, u16, u16, In, N, Out, N) -> u64,
        pub read_into: unsafe extern "C" fn(In, N, Out, N) -> u64,
    }

    impl Calls {
        /// Makes a call on these buffers; of `call` only the numbers are taken.
        ///
        /// # Safety
        ///
        /// Each buffer is good for its length, or null beside length 0; `out` and `places` may be written and overlap
        /// nothing.
        pub unsafe fn make(&self, call: &Call, buffers: &Buffers) -> u64 {
            let Buffers {
                local: Buffer { at: a, length: an },
                remote: Buffer { at: b, length: bn },
                record: Buffer { at: r, length: rn },
                out: Buffer { at: o, length: on },
                places: Buffer { at: p, length: pn },
            } = *buffers;
            let (local, remote) = (call.local_port, call.remote_port);
            match call.function {
                Function::Write => (self.write)(p, pn, o, on),
                Function::Read => (self.read)(r, rn, p, pn),
                Function::WriteOf => (self.write_of)(a, an, b, bn, local, remote, p, pn, o, on),
                Function::ReadInto => (self.read_into)(r, rn, p, pn),
            }
        }
    }
}
