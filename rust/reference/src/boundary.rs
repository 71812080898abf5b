//! The calls over lent bytes, as `BOUNDARY.md` has them for C: each gives the answer word and
//! changes the buffers lent for writing exactly as C would see it.
//!
//! "(boundary) A state buffer of another length gets 18 from every call that takes one, before any
//! other number."
//!
//! "(boundary) A call that is refused leaves every buffer as it was, but for a drop's count on an
//! open connection. ... A passive opening whose SYN is only passed is no refusal: it writes the empty
//! state, all zero".

use crate::answer::{Refusal, Verdict};
use crate::calls::{self, Setting};
use crate::crypto;
use crate::md5_table::Lent;
use crate::state::State;
use crate::table::Pair;

/// "Every call gives a `u64`: the number in bits 0 to 7; ... zero in bits 16 to 31; a value in bits 32 to 63."
pub fn word(number: u8, value: u32) -> u64 {
    (value as u64) << 32 | number as u64
}

/// "10 to 17, 45 | a table is refused | the entry's index", "any other | document 01's or 02's number | 0". "in
/// bits 8 to 15, beside 10 to 17 and 45, whose entry the index names, 0 the key table's, 1 the MD5 table's
/// (beside 45 always 1)".
fn refusal_word(refusal: Refusal) -> u64 {
    word(refusal.number, refusal.index) | (refusal.in_md5 as u64) << 8
}

/// "0 | accept, or done | the extension", "1 | pass | 0".
fn verdict_word(verdict: Verdict) -> u64 {
    match verdict {
        Verdict::Accept(extension) => word(0, extension),
        Verdict::Pass => word(1, 0),
        Verdict::Drop(refusal) => refusal_word(refusal),
    }
}

/// "`setting` says what a bare SYN with TCP-AO gets where no entry matches its pair: 0 pass, any
/// other value drop 26."
fn setting_of(byte: u8) -> Setting {
    if byte == 0 {
        Setting::Pass
    } else {
        Setting::Drop
    }
}

/// `tcpao_check_table`; done gives how many key entries there are.
pub fn tcpao_check_table(form: u8, keys: &[u8], md5: &[u8]) -> u64 {
    match calls::check_table(&Lent { form, keys, md5 }) {
        Ok(count) => word(0, count),
        Err(refusal) => refusal_word(refusal),
    }
}

/// `tcpao_prepare`; done gives the length written. READINGS 25: it "writes only its own length".
pub fn tcpao_prepare(keys: &[u8], md5: &[u8], out: &mut [u8]) -> u64 {
    let tables = Lent::of_bytes(keys, md5);
    match calls::prepare(&tables, out.len()) {
        Ok(prepared) => {
            out[..prepared.len()].copy_from_slice(&prepared);
            word(0, prepared.len() as u32)
        }
        Err(refusal) => refusal_word(refusal),
    }
}

/// `tcpao_open_active`; the state is written only if the opening is not refused.
#[allow(clippy::too_many_arguments)] // the boundary's own arguments
pub fn tcpao_open_active(
    form: u8,
    keys: &[u8],
    md5: &[u8],
    local: &[u8],
    remote: &[u8],
    local_port: u16,
    remote_port: u16,
    isn: u32,
    send_id: u8,
    state: &mut [u8],
) -> u64 {
    if State::from_bytes(state).is_none() {
        return word(18, 0);
    }
    let pair = Pair {
        local,
        remote,
        local_port,
        remote_port,
    };
    let (result, opened) = calls::open_active(&Lent { form, keys, md5 }, &pair, isn, send_id);
    if result.is_ok() {
        state.copy_from_slice(&opened.to_bytes());
    }
    match result {
        Ok(()) => word(0, 0),
        Err(refusal) => refusal_word(refusal),
    }
}

/// `tcpmd5_open_active`, likewise.
#[allow(clippy::too_many_arguments)] // the boundary's own arguments
pub fn tcpmd5_open_active(
    form: u8,
    keys: &[u8],
    md5: &[u8],
    local: &[u8],
    remote: &[u8],
    local_port: u16,
    remote_port: u16,
    isn: u32,
    state: &mut [u8],
) -> u64 {
    if State::from_bytes(state).is_none() {
        return word(18, 0);
    }
    let pair = Pair {
        local,
        remote,
        local_port,
        remote_port,
    };
    let (result, opened) = calls::open_active_md5(&Lent { form, keys, md5 }, &pair, isn);
    if result.is_ok() {
        state.copy_from_slice(&opened.to_bytes());
    }
    match result {
        Ok(()) => word(0, 0),
        Err(refusal) => refusal_word(refusal),
    }
}

/// `tcpao_judge_syn`; it takes no state.
pub fn tcpao_judge_syn(
    form: u8,
    keys: &[u8],
    md5: &[u8],
    source: &[u8],
    destination: &[u8],
    segment: &[u8],
    setting: u8,
) -> u64 {
    let setting = setting_of(setting);
    let tables = Lent { form, keys, md5 };
    let verdict = calls::judge_syn(&tables, source, destination, segment, setting);
    verdict_word(verdict)
}

/// `tcpao_open_passive`; a SYN that is only passed leaves the empty state, a refused one the bytes
/// that were there.
#[allow(clippy::too_many_arguments)] // the boundary's own arguments
pub fn tcpao_open_passive(
    form: u8,
    keys: &[u8],
    md5: &[u8],
    source: &[u8],
    destination: &[u8],
    segment: &[u8],
    isn: u32,
    setting: u8,
    state: &mut [u8],
) -> u64 {
    if State::from_bytes(state).is_none() {
        return word(18, 0);
    }
    let setting = setting_of(setting);
    let tables = Lent { form, keys, md5 };
    let (verdict, opened) =
        calls::open_passive(&tables, source, destination, segment, isn, setting);
    if !matches!(verdict, Verdict::Drop(_)) {
        state.copy_from_slice(&opened.to_bytes());
    }
    verdict_word(verdict)
}

/// `tcpao_judge`; the state is written on acceptance, and for a drop's count on an open connection.
pub fn tcpao_judge(
    form: u8,
    keys: &[u8],
    md5: &[u8],
    source: &[u8],
    destination: &[u8],
    segment: &[u8],
    state: &mut [u8],
) -> u64 {
    let Some(before) = State::from_bytes(state) else {
        return word(18, 0);
    };
    let tables = Lent { form, keys, md5 };
    let (verdict, after) = calls::judge(&tables, source, destination, segment, &before);
    state.copy_from_slice(&after.to_bytes());
    verdict_word(verdict)
}

/// `tcpao_sign`; done gives the signed length. "Signing writes only the signed length's bytes of
/// the output."
pub fn tcpao_sign(
    form: u8,
    keys: &[u8],
    md5: &[u8],
    segment: &[u8],
    out: &mut [u8],
    state: &mut [u8],
) -> u64 {
    let Some(before) = State::from_bytes(state) else {
        return word(18, 0);
    };
    match calls::sign(&Lent { form, keys, md5 }, segment, out.len(), &before) {
        Ok(signed) => {
            let length = signed.segment.len();
            out[..length].copy_from_slice(&signed.segment);
            state.copy_from_slice(&signed.state.to_bytes());
            word(0, length as u32)
        }
        Err(refusal) => refusal_word(refusal),
    }
}

/// `tcpao_ask`.
pub fn tcpao_ask(form: u8, keys: &[u8], md5: &[u8], recv_id: u8, state: &mut [u8]) -> u64 {
    let Some(before) = State::from_bytes(state) else {
        return word(18, 0);
    };
    match calls::ask(&Lent { form, keys, md5 }, recv_id, &before) {
        Ok(after) => {
            state.copy_from_slice(&after.to_bytes());
            word(0, 0)
        }
        Err(refusal) => refusal_word(refusal),
    }
}

/// "These give how many bytes they wrote at the front of `out`: 20, 20, 16, 16, 32, 32, 16". "Where `out` is
/// shorter, or an AES key or block has not 16 bytes, they give 0 and write nothing."
fn write_front(bytes: &[u8], out: &mut [u8]) -> u64 {
    if out.len() < bytes.len() {
        return 0;
    }
    out[..bytes.len()].copy_from_slice(bytes);
    bytes.len() as u64
}

/// `mac_sha1`.
pub fn mac_sha1(message: &[u8], out: &mut [u8]) -> u64 {
    write_front(&crypto::sha1(message), out)
}

/// `mac_hmac_sha1`.
pub fn mac_hmac_sha1(key: &[u8], message: &[u8], out: &mut [u8]) -> u64 {
    write_front(&crypto::hmac_sha1(key, message), out)
}

/// `mac_sha256`.
pub fn mac_sha256(message: &[u8], out: &mut [u8]) -> u64 {
    write_front(&crypto::sha256(message), out)
}

/// `mac_hmac_sha256`.
pub fn mac_hmac_sha256(key: &[u8], message: &[u8], out: &mut [u8]) -> u64 {
    write_front(&crypto::hmac_sha256(key, message), out)
}

/// `mac_md5`.
pub fn mac_md5(message: &[u8], out: &mut [u8]) -> u64 {
    write_front(&crypto::md5(message), out)
}

/// `mac_aes128`.
pub fn mac_aes128(key: &[u8], block: &[u8], out: &mut [u8]) -> u64 {
    match (<[u8; 16]>::try_from(key), <[u8; 16]>::try_from(block)) {
        (Ok(key), Ok(block)) => write_front(&crypto::aes128(&key, &block), out),
        _ => 0,
    }
}

/// `mac_aes128_cmac`.
pub fn mac_aes128_cmac(key: &[u8], message: &[u8], out: &mut [u8]) -> u64 {
    match <[u8; 16]>::try_from(key) {
        Ok(key) => write_front(&crypto::aes128_cmac(&key, message), out),
        _ => 0,
    }
}
