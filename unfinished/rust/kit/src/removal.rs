//! A call that takes a key away, and what it gives and leaves: the boundary page, "Taking a key away".

use crate::calls::{number, value};

#[derive(Clone, Copy, Debug, PartialEq, Eq, PartialOrd, Ord)]
pub enum Function {
    /// Plain removal.
    Remove,
    /// Forced removal.
    Replace,
}

impl Function {
    pub const ALL: [Function; 2] = [Function::Remove, Function::Replace];

    pub fn name(self) -> &'static str {
        match self {
            Function::Remove => "remove_key",
            Function::Replace => "replace_key",
        }
    }
}

/// A call. What its function does not take is not looked at.
#[derive(Clone, Debug)]
pub struct Call {
    pub function: Function,
    /// The key table as it is lent.
    pub keys: Vec<u8>,
    pub index: u32,
    pub send_id: u8,
    pub recv_id: u8,
    /// The places as they are lent.
    pub connections: Vec<u8>,
}

/// The answer and both buffers after the call.
#[derive(Clone, Debug, PartialEq, Eq)]
pub struct Outcome {
    pub word: u64,
    pub keys: Vec<u8>,
    pub connections: Vec<u8>,
    /// Whether a byte was written that was not lent for writing.
    pub strayed: bool,
}

impl Outcome {
    pub fn number(&self) -> u8 {
        number(self.word)
    }

    pub fn value(&self) -> u32 {
        value(self.word)
    }
}

/// The calls over slices, on whichever side.
#[derive(Clone, Copy, Debug)]
pub struct Boundary {
    pub remove: fn(keys: &mut [u8], index: u32, connections: &[u8]) -> u64,
    pub replace:
        fn(keys: &mut [u8], index: u32, send_id: u8, recv_id: u8, connections: &mut [u8]) -> u64,
}

/// The removals of a module that has them under their names in C, as a [`Boundary`] or as [`Calls`](pointers::Calls).
#[macro_export]
macro_rules! removal_of {
    ($kind:path, $($module:ident)::+) => {{
        type Kind = $kind;
        Kind {
            remove: $($module)::+::tcpao_remove_key,
            replace: $($module)::+::tcpao_replace_key,
        }
    }};
}

impl Boundary {
    /// Makes a call.
    pub fn make(&self, call: &Call) -> Outcome {
        let mut keys = call.keys.clone();
        let mut connections = call.connections.clone();
        let word = match call.function {
            Function::Remove => (self.remove)(&mut keys, call.index, &connections),
            Function::Replace => (self.replace)(
                &mut keys,
                call.index,
                call.send_id,
                call.recv_id,
                &mut connections,
            ),
        };
        Outcome {
            word,
            keys,
            connections,
            strayed: false,
        }
    }
}

/// The same calls by pointers, as C makes them.
pub mod pointers {
    use super::{Call, Function};
    use crate::pointers::Buffer;

    type In = *const u8;
    type Out = *mut u8;
    type N = usize;

    /// The calls as the header declares them: each pointer before its length. Plain removal only reads the connections.
    pub struct Calls {
        pub remove: unsafe extern "C" fn(Out, N, u32, In, N) -> u64,
        pub replace: unsafe extern "C" fn(Out, N, u32, u8, u8, Out, N) -> u64,
    }

    impl Calls {
        /// Makes a call on these buffers; of `call` only the numbers are taken.
        ///
        /// # Safety
        ///
        /// Each buffer is good for its length, or null beside length 0; both may be written and do not overlap.
        pub unsafe fn make(&self, call: &Call, keys: Buffer, connections: Buffer) -> u64 {
            let (k, kn) = (keys.at, keys.length);
            let (c, cn) = (connections.at, connections.length);
            match call.function {
                Function::Remove => (self.remove)(k, kn, call.index, c, cn),
                Function::Replace => {
                    (self.replace)(k, kn, call.index, call.send_id, call.recv_id, c, cn)
                }
            }
        }
    }
}
