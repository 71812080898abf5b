//! One call at the boundary with all that it is given, and what it gives and leaves.

/// An answer: the number in bits 0 to 7, a value in bits 32 to 63.
pub fn word(number: u8, value: u32) -> u64 {
    u64::from(value) << 32 | u64::from(number)
}

/// The answer of an MD5 table that is refused: 1 in bits 8 to 15.
pub fn md5_word(number: u8, index: u32) -> u64 {
    word(number, index) | 1 << 8
}

/// An answer's number.
pub fn number(word: u64) -> u8 {
    word as u8
}

/// An answer's value.
pub fn value(word: u64) -> u32 {
    (word >> 32) as u32
}

#[derive(Clone, Copy, Debug, PartialEq, Eq, PartialOrd, Ord)]
pub enum Function {
    CheckTable,
    Prepare,
    OpenActive,
    OpenActiveMd5,
    JudgeSyn,
    OpenPassive,
    Judge,
    Sign,
    Ask,
}

impl Function {
    pub const ALL: [Function; 9] = [
        Function::CheckTable,
        Function::Prepare,
        Function::OpenActive,
        Function::OpenActiveMd5,
        Function::JudgeSyn,
        Function::OpenPassive,
        Function::Judge,
        Function::Sign,
        Function::Ask,
    ];

    pub fn name(self) -> &'static str {
        match self {
            Function::CheckTable => "check_table",
            Function::Prepare => "prepare",
            Function::OpenActive => "open_active",
            Function::OpenActiveMd5 => "md5_open_active",
            Function::JudgeSyn => "judge_syn",
            Function::OpenPassive => "open_passive",
            Function::Judge => "judge",
            Function::Sign => "sign",
            Function::Ask => "ask",
        }
    }

    /// Its name in C.
    pub fn c_name(self) -> String {
        match self {
            Function::OpenActiveMd5 => format!("tcp{}", self.name()),
            _ => format!("tcpao_{}", self.name()),
        }
    }

    pub fn takes_state(self) -> bool {
        use Function::{CheckTable, JudgeSyn, Prepare};
        !matches!(self, CheckTable | Prepare | JudgeSyn)
    }

    /// Whether it takes the tables in either form; else only their bytes.
    pub fn takes_form(self) -> bool {
        self != Function::Prepare
    }

    /// Whether it takes a segment that arrives.
    pub fn takes_arrival(self) -> bool {
        use Function::{Judge, JudgeSyn, OpenPassive};
        matches!(self, JudgeSyn | OpenPassive | Judge)
    }

    pub fn takes_addresses(self) -> bool {
        use Function::{Ask, CheckTable, Prepare, Sign};
        !matches!(self, CheckTable | Prepare | Sign | Ask)
    }
}

/// A call. What its function does not take is not looked at.
#[derive(Clone, Debug)]
pub struct Call {
    pub function: Function,
    /// 0: the tables are their own bytes; any other value: `table` is a prepared table.
    pub form: u8,
    /// The key table.
    pub table: Vec<u8>,
    /// The MD5 table.
    pub md5: Vec<u8>,
    /// The source's address; of an active opening the local one.
    pub source: Vec<u8>,
    /// The destination's address; of an active opening the remote one.
    pub destination: Vec<u8>,
    pub segment: Vec<u8>,
    /// The output buffer as it is lent.
    pub out: Vec<u8>,
    /// The state buffer as it is lent.
    pub state: Vec<u8>,
    pub local_port: u16,
    pub remote_port: u16,
    pub isn: u32,
    /// The SendID of an active opening, the RecvID to ask for, or the setting: what a bare SYN with
    /// TCP-AO gets where no entry matches its pair, 0 pass, any other value drop 26.
    pub byte: u8,
}

impl Call {
    /// With nothing else: the table's own bytes, empty buffers, no MD5 table among them, and zeros.
    pub fn new(function: Function, table: &[u8]) -> Call {
        Call {
            function,
            form: 0,
            table: table.to_vec(),
            md5: vec![],
            source: vec![],
            destination: vec![],
            segment: vec![],
            out: vec![],
            state: vec![],
            local_port: 0,
            remote_port: 0,
            isn: 0,
            byte: 0,
        }
    }
}

/// The answer and both buffers after the call.
#[derive(Clone, Debug, PartialEq, Eq)]
pub struct Outcome {
    pub word: u64,
    pub state: Vec<u8>,
    pub out: Vec<u8>,
    /// Whether a byte was written that was not lent for writing.
    pub strayed: bool,
}

impl Outcome {
    pub fn number(&self) -> u8 {
        number(self.word)
    }

    pub fn value(&self) -> u32 {
        value(self.word)
    }
}

/// The calls over slices, on whichever side.
#[allow(clippy::type_complexity)] // the boundary's own arguments
#[derive(Clone, Copy, Debug)]
pub struct Boundary {
    pub check_table: fn(form: u8, keys: &[u8], md5: &[u8]) -> u64,
    pub prepare: fn(keys: &[u8], md5: &[u8], out: &mut [u8]) -> u64,
    pub open_active: fn(
        form: u8,
        keys: &[u8],
        md5: &[u8],
        local: &[u8],
        remote: &[u8],
        local_port: u16,
        remote_port: u16,
        isn: u32,
        send_id: u8,
        state: &mut [u8],
    ) -> u64,
    pub open_active_md5: fn(
        form: u8,
        keys: &[u8],
        md5: &[u8],
        local: &[u8],
        remote: &[u8],
        local_port: u16,
        remote_port: u16,
        isn: u32,
        state: &mut [u8],
    ) -> u64,
    pub judge_syn: fn(
        form: u8,
        keys: &[u8],
        md5: &[u8],
        source: &[u8],
        destination: &[u8],
        segment: &[u8],
        setting: u8,
    ) -> u64,
    pub open_passive: fn(
        form: u8,
        keys: &[u8],
        md5: &[u8],
        source: &[u8],
        destination: &[u8],
        segment: &[u8],
        isn: u32,
        setting: u8,
        state: &mut [u8],
    ) -> u64,
    pub judge: fn(
        form: u8,
        keys: &[u8],
        md5: &[u8],
        source: &[u8],
        destination: &[u8],
        segment: &[u8],
        state: &mut [u8],
    ) -> u64,
    pub sign: fn(
        form: u8,
        keys: &[u8],
        md5: &[u8],
        segment: &[u8],
        out: &mut [u8],
        state: &mut [u8],
    ) -> u64,
    pub ask: fn(form: u8, keys: &[u8], md5: &[u8], recv_id: u8, state: &mut [u8]) -> u64,
}

/// The calls of a module that has them under their names in C, as a [`Boundary`] or as a
/// [`Calls`](crate::pointers::Calls).
#[macro_export]
macro_rules! calls_of {
    ($kind:ident, $($module:ident)::+) => {
        $kind {
            check_table: $($module)::+::tcpao_check_table,
            prepare: $($module)::+::tcpao_prepare,
            open_active: $($module)::+::tcpao_open_active,
            open_active_md5: $($module)::+::tcpmd5_open_active,
            judge_syn: $($module)::+::tcpao_judge_syn,
            open_passive: $($module)::+::tcpao_open_passive,
            judge: $($module)::+::tcpao_judge,
            sign: $($module)::+::tcpao_sign,
            ask: $($module)::+::tcpao_ask,
        }
    };
}

impl Boundary {
    /// Makes a call.
    pub fn make(&self, call: &Call) -> Outcome {
        let Call {
            table: keys,
            md5,
            source,
            destination,
            segment,
            isn,
            byte,
            ..
        } = call;
        let (form, isn, byte) = (call.form, *isn, *byte);
        let mut out = call.out.clone();
        let mut state = call.state.clone();
        let word = match call.function {
            Function::CheckTable => (self.check_table)(form, keys, md5),
            Function::Prepare => (self.prepare)(keys, md5, &mut out),
            Function::OpenActive => (self.open_active)(
                form,
                keys,
                md5,
                source,
                destination,
                call.local_port,
                call.remote_port,
                isn,
                byte,
                &mut state,
            ),
            Function::OpenActiveMd5 => (self.open_active_md5)(
                form,
                keys,
                md5,
                source,
                destination,
                call.local_port,
                call.remote_port,
                isn,
                &mut state,
            ),
            Function::JudgeSyn => {
                (self.judge_syn)(form, keys, md5, source, destination, segment, byte)
            }
            Function::OpenPassive => (self.open_passive)(
                form,
                keys,
                md5,
                source,
                destination,
                segment,
                isn,
                byte,
                &mut state,
            ),
            Function::Judge => {
                (self.judge)(form, keys, md5, source, destination, segment, &mut state)
            }
            Function::Sign => (self.sign)(form, keys, md5, segment, &mut out, &mut state),
            Function::Ask => (self.ask)(form, keys, md5, byte, &mut state),
        };
        Outcome {
            word,
            state,
            out,
            strayed: false,
        }
    }
}
