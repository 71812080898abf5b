//! A call by pointers, as C makes it.

use crate::calls::{Call, Function};

/// A buffer that is lent, possibly for writing.
#[derive(Clone, Copy)]
pub struct Buffer {
    pub at: *mut u8,
    pub length: usize,
}

/// The buffers of a call.
#[derive(Clone, Copy)]
pub struct Buffers {
    pub table: Buffer,
    pub md5: Buffer,
    pub source: Buffer,
    pub destination: Buffer,
    pub segment: Buffer,
    pub out: Buffer,
    pub state: Buffer,
}

type In = *const u8;
type Out = *mut u8;
type N = usize;

/// The calls as the header declares them: each pointer before its length.
pub struct Calls {
    pub check_table: unsafe extern "C" fn(u8, In, N, In, N) -> u64,
    pub prepare: unsafe extern "C" fn(In, N, In, N, Out, N) -> u64,
    pub open_active:
        unsafe extern "C" fn(u8, In, N, In, N, In, N, In, N, u16, u16, u32, u8, Out, N) -> u64,
    pub open_active_md5:
        unsafe extern "C" fn(u8, In, N, In, N, In, N, In, N, u16, u16, u32, Out, N) -> u64,
    pub judge_syn: unsafe extern "C" fn(u8, In, N, In, N, In, N, In, N, In, N, u8) -> u64,
    pub open_passive:
        unsafe extern "C" fn(u8, In, N, In, N, In, N, In, N, In, N, u32, u8, Out, N) -> u64,
    pub judge: unsafe extern "C" fn(u8, In, N, In, N, In, N, In, N, In, N, Out, N) -> u64,
    pub sign: unsafe extern "C" fn(u8, In, N, In, N, In, N, Out, N, Out, N) -> u64,
    pub ask: unsafe extern "C" fn(u8, In, N, In, N, u8, Out, N) -> u64,
}

impl Calls {
    /// Makes a call on these buffers; of `call` only the numbers are taken.
    ///
    /// # Safety
    ///
    /// Each buffer is good for its length, or null beside length 0; `out` and `state` may be written
    /// and overlap nothing.
    pub unsafe fn make(&self, call: &Call, buffers: &Buffers) -> u64 {
        let Buffers {
            table: Buffer { at: t, length: tn },
            md5: Buffer { at: m, length: mn },
            source: Buffer { at: s, length: sn },
            destination: Buffer { at: d, length: dn },
            segment: Buffer { at: g, length: gn },
            out: Buffer { at: o, length: on },
            state: Buffer { at: w, length: wn },
        } = *buffers;
        let (form, isn, byte) = (call.form, call.isn, call.byte);
        let (local, remote) = (call.local_port, call.remote_port);
        match call.function {
            Function::CheckTable => (self.check_table)(form, t, tn, m, mn),
            Function::Prepare => (self.prepare)(t, tn, m, mn, o, on),
            Function::OpenActive => (self.open_active)(
                form, t, tn, m, mn, s, sn, d, dn, local, remote, isn, byte, w, wn,
            ),
            Function::OpenActiveMd5 => {
                (self.open_active_md5)(form, t, tn, m, mn, s, sn, d, dn, local, remote, isn, w, wn)
            }
            Function::JudgeSyn => (self.judge_syn)(form, t, tn, m, mn, s, sn, d, dn, g, gn, byte),
            Function::OpenPassive => {
                (self.open_passive)(form, t, tn, m, mn, s, sn, d, dn, g, gn, isn, byte, w, wn)
            }
            Function::Judge => (self.judge)(form, t, tn, m, mn, s, sn, d, dn, g, gn, w, wn),
            Function::Sign => (self.sign)(form, t, tn, m, mn, g, gn, o, on, w, wn),
            Function::Ask => (self.ask)(form, t, tn, m, mn, byte, w, wn),
        }
    }
}
