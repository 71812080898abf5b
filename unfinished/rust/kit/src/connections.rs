//! One call on many connections with all that it is given, and what it gives and leaves: the boundary page, "Many
//! connections".

use crate::calls::{number, value};
use crate::ends::Pair;
use crate::state::State;

/// The most places that connections have.
pub const MOST_PLACES: usize = 256;

#[derive(Clone, Copy, Debug, PartialEq, Eq, PartialOrd, Ord)]
pub enum Function {
    OpenActive,
    OpenActiveMd5,
    OpenPassive,
    Judge,
    Sign,
    Ask,
    Close,
    Find,
}

impl Function {
    pub const ALL: [Function; 8] = [
        Function::OpenActive,
        Function::OpenActiveMd5,
        Function::OpenPassive,
        Function::Judge,
        Function::Sign,
        Function::Ask,
        Function::Close,
        Function::Find,
    ];

    pub fn name(self) -> &'static str {
        match self {
            Function::OpenActive => "connections_open_active",
            Function::OpenActiveMd5 => "md5_connections_open_active",
            Function::OpenPassive => "connections_open_passive",
            Function::Judge => "connections_judge",
            Function::Sign => "connections_sign",
            Function::Ask => "connections_ask",
            Function::Close => "connections_close",
            Function::Find => "connections_find",
        }
    }

    /// Whether it takes both tables, in either form.
    pub fn takes_tables(self) -> bool {
        !matches!(self, Function::Close | Function::Find)
    }

    /// Whether it takes a segment that arrives.
    pub fn takes_arrival(self) -> bool {
        matches!(self, Function::OpenPassive | Function::Judge)
    }

    /// Whether it names its pair by addresses and ports.
    pub fn takes_ports(self) -> bool {
        !self.takes_arrival() && self != Function::Sign
    }
}

/// A call. What its function does not take is not looked at.
#[derive(Clone, Debug)]
pub struct Call {
    pub function: Function,
    /// 0: the tables are their own bytes; any other value: `keys` is a prepared table.
    pub form: u8,
    pub keys: Vec<u8>,
    pub md5: Vec<u8>,
    /// The local address; of an arriving segment the source's.
    pub one: Vec<u8>,
    /// The remote address; of an arriving segment the destination's.
    pub other: Vec<u8>,
    pub local_port: u16,
    pub remote_port: u16,
    pub segment: Vec<u8>,
    pub isn: u32,
    /// The SendID to open with, the RecvID to ask for, or the setting.
    pub byte: u8,
    /// The output buffer as it is lent.
    pub out: Vec<u8>,
    /// The places as they are lent.
    pub connections: Vec<u8>,
}

impl Call {
    /// With nothing else: the tables' own bytes, empty buffers and zeros.
    pub fn new(function: Function) -> Call {
        Call {
            function,
            form: 0,
            keys: vec![],
            md5: vec![],
            one: vec![],
            other: vec![],
            local_port: 0,
            remote_port: 0,
            segment: vec![],
            isn: 0,
            byte: 0,
            out: vec![],
            connections: vec![],
        }
    }

    /// With this pair, by its addresses and ports as our end names it.
    pub fn pair(self, pair: &Pair) -> Call {
        Call {
            one: pair.local.clone(),
            other: pair.remote.clone(),
            local_port: pair.local_port,
            remote_port: pair.remote_port,
            ..self
        }
    }

    /// With a segment that arrives between these addresses.
    pub fn arrival(self, source: &[u8], destination: &[u8], segment: &[u8]) -> Call {
        Call {
            one: source.to_vec(),
            other: destination.to_vec(),
            segment: segment.to_vec(),
            ..self
        }
    }
}

/// The answer, and the buffers that may be written, after the call.
#[derive(Clone, Debug, PartialEq, Eq)]
pub struct Outcome {
    pub word: u64,
    pub out: Vec<u8>,
    pub connections: Vec<u8>,
    /// Whether a byte was written that was not lent for writing.
    pub strayed: bool,
}

impl Outcome {
    pub fn number(&self) -> u8 {
        number(self.word)
    }

    pub fn value(&self) -> u32 {
        value(self.word)
    }
}

/// The places of these states.
pub fn places(states: &[State]) -> Vec<u8> {
    states.iter().flat_map(State::bytes).collect()
}

/// The states in these places.
pub fn states(places: &[u8]) -> Vec<State> {
    let chunks = places.chunks_exact(State::BYTES);
    chunks.filter_map(State::read).collect()
}

/// The calls over slices, on whichever side.
#[allow(clippy::type_complexity)] // the boundary's own arguments
#[derive(Clone, Copy, Debug)]
pub struct Boundary {
    pub open_active: fn(
        form: u8,
        keys: &[u8],
        md5: &[u8],
        local: &[u8],
        remote: &[u8],
        local_port: u16,
        remote_port: u16,
        isn: u32,
        send_id: u8,
        connections: &mut [u8],
    ) -> u64,
    pub open_active_md5: fn(
        form: u8,
        keys: &[u8],
        md5: &[u8],
        local: &[u8],
        remote: &[u8],
        local_port: u16,
        remote_port: u16,
        isn: u32,
        connections: &mut [u8],
    ) -> u64,
    pub open_passive: fn(
        form: u8,
        keys: &[u8],
        md5: &[u8],
        source: &[u8],
        destination: &[u8],
        segment: &[u8],
        isn: u32,
        setting: u8,
        connections: &mut [u8],
    ) -> u64,
    pub judge: fn(
        form: u8,
        keys: &[u8],
        md5: &[u8],
        source: &[u8],
        destination: &[u8],
        segment: &[u8],
        setting: u8,
        connections: &mut [u8],
    ) -> u64,
    pub sign: fn(
        form: u8,
        keys: &[u8],
        md5: &[u8],
        local: &[u8],
        remote: &[u8],
        segment: &[u8],
        out: &mut [u8],
        connections: &mut [u8],
    ) -> u64,
    pub ask: fn(
        form: u8,
        keys: &[u8],
        md5: &[u8],
        local: &[u8],
        remote: &[u8],
        local_port: u16,
        remote_port: u16,
        recv_id: u8,
        connections: &mut [u8],
    ) -> u64,
    pub close: fn(
        local: &[u8],
        remote: &[u8],
        local_port: u16,
        remote_port: u16,
        connections: &mut [u8],
    ) -> u64,
    pub find: fn(
        local: &[u8],
        remote: &[u8],
        local_port: u16,
        remote_port: u16,
        connections: &[u8],
    ) -> u64,
}

/// The calls on many connections of a module that has them under their names in C, as a [`Boundary`] or as
/// [`Calls`](pointers::Calls).
#[macro_export]
macro_rules! connections_of {
    ($kind:path, $($module:ident)::+) => {{
        type Kind = $kind;
        Kind {
            open_active: $($module)::+::tcpao_connections_open_active,
            open_active_md5: $($module)::+::tcpmd5_connections_open_active,
            open_passive: $($module)::+::tcpao_connections_open_passive,
            judge: $($module)::+::tcpao_connections_judge,
            sign: $($module)::+::tcpao_connections_sign,
            ask: $($module)::+::tcpao_connections_ask,
            close: $($module)::+::tcpao_connections_close,
            find: $($module)::+::tcpao_connections_find,
        }
    }};
}

impl Boundary {
    /// Makes a call.
    pub fn make(&self, call: &Call) -> Outcome {
        let Call {
            keys,
            md5,
            one,
            other,
            segment,
            ..
        } = call;
        let (form, isn, byte) = (call.form, call.isn, call.byte);
        let (local_port, remote_port) = (call.local_port, call.remote_port);
        let mut out = call.out.clone();
        let mut connections = call.connections.clone();
        let places = &mut connections[..];
        let word = match call.function {
            Function::OpenActive => (self.open_active)(
                form,
                keys,
                md5,
                one,
                other,
                local_port,
                remote_port,
                isn,
                byte,
                places,
            ),
            Function::OpenActiveMd5 => (self.open_active_md5)(
                form,
                keys,
                md5,
                one,
                other,
                local_port,
                remote_port,
                isn,
                places,
            ),
            Function::OpenPassive => {
                (self.open_passive)(form, keys, md5, one, other, segment, isn, byte, places)
            }
            Function::Judge => (self.judge)(form, keys, md5, one, other, segment, byte, places),
            Function::Sign => (self.sign)(form, keys, md5, one, other, segment, &mut out, places),
            Function::Ask => (self.ask)(
                form,
                keys,
                md5,
                one,
                other,
                local_port,
                remote_port,
                byte,
                places,
            ),
            Function::Close => (self.close)(one, other, local_port, remote_port, places),
            Function::Find => (self.find)(one, other, local_port, remote_port, places),
        };
        Outcome {
            word,
            out,
            connections,
            strayed: false,
        }
    }
}

/// The same calls by pointers, as C makes them.
pub mod pointers {
    use super::{Call, Function};
    use crate::pointers::Buffer;

    /// The buffers of a call.
    #[derive(Clone, Copy)]
    pub struct Buffers {
        pub keys: Buffer,
        pub md5: Buffer,
        pub one: Buffer,
        pub other: Buffer,
        pub segment: Buffer,
        pub out: Buffer,
        pub connections: Buffer,
    }

    type In = *const u8;
    type Out = *mut u8;
    type N = usize;

    /// The calls as the header declares them: each pointer before its length.
    pub struct Calls {
        pub open_active:
            unsafe extern "C" fn(u8, In, N, In, N, In, N, In, N, u16, u16, u32, u8, Out, N) -> u64,
        pub open_active_md5:
            unsafe extern "C" fn(u8, In, N, In, N, In, N, In, N, u16, u16, u32, Out, N) -> u64,
        pub open_passive:
            unsafe extern "C" fn(u8, In, N, In, N, In, N, In, N, In, N, u32, u8, Out, N) -> u64,
        pub judge: unsafe extern "C" fn(u8, In, N, In, N, In, N, In, N, In, N, u8, Out, N) -> u64,
        pub sign:
            unsafe extern "C" fn(u8, In, N, In, N, In, N, In, N, In, N, Out, N, Out, N) -> u64,
        pub ask: unsafe extern "C" fn(u8, In, N, In, N, In, N, In, N, u16, u16, u8, Out, N) -> u64,
        pub close: unsafe extern "C" fn(In, N, In, N, u16, u16, Out, N) -> u64,
        pub find: unsafe extern "C" fn(In, N, In, N, u16, u16, In, N) -> u64,
    }

    impl Calls {
        /// Makes a call on these buffers; of `call` only the numbers are taken.
        ///
        /// # Safety
        ///
        /// Each buffer is good for its length, or null beside length 0; `out` and `connections` may be written and
        /// overlap nothing.
        pub unsafe fn make(&self, call: &Call, buffers: &Buffers) -> u64 {
            let Buffers {
                keys: Buffer { at: k, length: kn },
                md5: Buffer { at: m, length: mn },
                one: Buffer { at: a, length: an },
                other: Buffer { at: b, length: bn },
                segment: Buffer { at: g, length: gn },
                out: Buffer { at: o, length: on },
                connections: Buffer { at: c, length: cn },
            } = *buffers;
            let (form, isn, byte) = (call.form, call.isn, call.byte);
            let (l, r) = (call.local_port, call.remote_port);
            match call.function {
                Function::OpenActive => {
                    (self.open_active)(form, k, kn, m, mn, a, an, b, bn, l, r, isn, byte, c, cn)
                }
                Function::OpenActiveMd5 => {
                    (self.open_active_md5)(form, k, kn, m, mn, a, an, b, bn, l, r, isn, c, cn)
                }
                Function::OpenPassive => {
                    (self.open_passive)(form, k, kn, m, mn, a, an, b, bn, g, gn, isn, byte, c, cn)
                }
                Function::Judge => {
                    (self.judge)(form, k, kn, m, mn, a, an, b, bn, g, gn, byte, c, cn)
                }
                Function::Sign => {
                    (self.sign)(form, k, kn, m, mn, a, an, b, bn, g, gn, o, on, c, cn)
                }
                Function::Ask => (self.ask)(form, k, kn, m, mn, a, an, b, bn, l, r, byte, c, cn),
                Function::Close => (self.close)(a, an, b, bn, l, r, c, cn),
                Function::Find => (self.find)(a, an, b, bn, l, r, c, cn),
            }
        }
    }
}
