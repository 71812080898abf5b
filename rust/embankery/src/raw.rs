//! The archive's calls (include/embankery.h) over slices: the only unsafe code of this package.
//!
//! The header leaves to its caller what C needs: pointers that are good for their lengths (and null
//! at most beside length 0), a buffer lent for writing that overlaps no other buffer of the call, and
//! no other thread that writes to a buffer meanwhile. Slices always have this: a slice is valid for
//! its length and never null, also when it is empty, and a `&mut` slice is borrowed from everybody
//! else. The calls keep no pointer. They ask nothing of the bytes.

/// The declarations, as the header has them.
pub mod c {
    extern "C" {
        pub fn tcpao_check_table(
            form: u8,
            keys: *const u8,
            keys_len: usize,
            md5: *const u8,
            md5_len: usize,
        ) -> u64;
        pub fn tcpao_prepare(
            keys: *const u8,
            keys_len: usize,
            md5: *const u8,
            md5_len: usize,
            out: *mut u8,
            out_len: usize,
        ) -> u64;
        pub fn tcpao_open_active(
            form: u8,
            keys: *const u8,
            keys_len: usize,
            md5: *const u8,
            md5_len: usize,
            local: *const u8,
            local_len: usize,
            remote: *const u8,
            remote_len: usize,
            local_port: u16,
            remote_port: u16,
            isn: u32,
            send_id: u8,
            state: *mut u8,
            state_len: usize,
        ) -> u64;
        pub fn tcpmd5_open_active(
            form: u8,
            keys: *const u8,
            keys_len: usize,
            md5: *const u8,
            md5_len: usize,
            local: *const u8,
            local_len: usize,
            remote: *const u8,
            remote_len: usize,
            local_port: u16,
            remote_port: u16,
            isn: u32,
            state: *mut u8,
            state_len: usize,
        ) -> u64;
        pub fn tcpao_judge_syn(
            form: u8,
            keys: *const u8,
            keys_len: usize,
            md5: *const u8,
            md5_len: usize,
            source: *const u8,
            source_len: usize,
            destination: *const u8,
            destination_len: usize,
            segment: *const u8,
            segment_len: usize,
            setting: u8,
        ) -> u64;
        pub fn tcpao_open_passive(
            form: u8,
            keys: *const u8,
            keys_len: usize,
            md5: *const u8,
            md5_len: usize,
            source: *const u8,
            source_len: usize,
            destination: *const u8,
            destination_len: usize,
            segment: *const u8,
            segment_len: usize,
            isn: u32,
            setting: u8,
            state: *mut u8,
            state_len: usize,
        ) -> u64;
        pub fn tcpao_judge(
            form: u8,
            keys: *const u8,
            keys_len: usize,
            md5: *const u8,
            md5_len: usize,
            source: *const u8,
            source_len: usize,
            destination: *const u8,
            destination_len: usize,
            segment: *const u8,
            segment_len: usize,
            state: *mut u8,
            state_len: usize,
        ) -> u64;
        pub fn tcpao_sign(
            form: u8,
            keys: *const u8,
            keys_len: usize,
            md5: *const u8,
            md5_len: usize,
            segment: *const u8,
            segment_len: usize,
            out: *mut u8,
            out_len: usize,
            state: *mut u8,
            state_len: usize,
        ) -> u64;
        pub fn tcpao_ask(
            form: u8,
            keys: *const u8,
            keys_len: usize,
            md5: *const u8,
            md5_len: usize,
            recv_id: u8,
            state: *mut u8,
            state_len: usize,
        ) -> u64;
        pub fn mac_sha1(
            message: *const u8,
            message_len: usize,
            out: *mut u8,
            out_len: usize,
        ) -> u64;
        pub fn mac_hmac_sha1(
            key: *const u8,
            key_len: usize,
            message: *const u8,
            message_len: usize,
            out: *mut u8,
            out_len: usize,
        ) -> u64;
        pub fn mac_sha256(
            message: *const u8,
            message_len: usize,
            out: *mut u8,
            out_len: usize,
        ) -> u64;
        pub fn mac_hmac_sha256(
            key: *const u8,
            key_len: usize,
            message: *const u8,
            message_len: usize,
            out: *mut u8,
            out_len: usize,
        ) -> u64;
        pub fn mac_md5(message: *const u8, message_len: usize, out: *mut u8, out_len: usize)
            -> u64;
        pub fn mac_aes128(
            key: *const u8,
            key_len: usize,
            block: *const u8,
            block_len: usize,
            out: *mut u8,
            out_len: usize,
        ) -> u64;
        pub fn mac_aes128_cmac(
            key: *const u8,
            key_len: usize,
            message: *const u8,
            message_len: usize,
            out: *mut u8,
            out_len: usize,
        ) -> u64;
    }
}

pub fn check_table(form: u8, keys: &[u8], md5: &[u8]) -> u64 {
    // SAFETY: each pointer stands beside its own slice's length; nothing is written.
    unsafe { c::tcpao_check_table(form, keys.as_ptr(), keys.len(), md5.as_ptr(), md5.len()) }
}

pub fn prepare(keys: &[u8], md5: &[u8], out: &mut [u8]) -> u64 {
    // SAFETY: each pointer stands beside its own slice's length; only `out` is written.
    unsafe {
        c::tcpao_prepare(
            keys.as_ptr(),
            keys.len(),
            md5.as_ptr(),
            md5.len(),
            out.as_mut_ptr(),
            out.len(),
        )
    }
}

#[allow(clippy::too_many_arguments)] // the boundary's own arguments
pub fn open_active(
    form: u8,
    keys: &[u8],
    md5: &[u8],
    local: &[u8],
    remote: &[u8],
    local_port: u16,
    remote_port: u16,
    isn: u32,
    send_id: u8,
    state: &mut [u8],
) -> u64 {
    // SAFETY: each pointer stands beside its own slice's length; only `state`, borrowed for this
    // call alone, is written.
    unsafe {
        c::tcpao_open_active(
            form,
            keys.as_ptr(),
            keys.len(),
            md5.as_ptr(),
            md5.len(),
            local.as_ptr(),
            local.len(),
            remote.as_ptr(),
            remote.len(),
            local_port,
            remote_port,
            isn,
            send_id,
            state.as_mut_ptr(),
            state.len(),
        )
    }
}

#[allow(clippy::too_many_arguments)] // the boundary's own arguments
pub fn open_active_md5(
    form: u8,
    keys: &[u8],
    md5: &[u8],
    local: &[u8],
    remote: &[u8],
    local_port: u16,
    remote_port: u16,
    isn: u32,
    state: &mut [u8],
) -> u64 {
    // SAFETY: each pointer stands beside its own slice's length; only `state`, borrowed for this
    // call alone, is written.
    unsafe {
        c::tcpmd5_open_active(
            form,
            keys.as_ptr(),
            keys.len(),
            md5.as_ptr(),
            md5.len(),
            local.as_ptr(),
            local.len(),
            remote.as_ptr(),
            remote.len(),
            local_port,
            remote_port,
            isn,
            state.as_mut_ptr(),
            state.len(),
        )
    }
}

pub fn judge_syn(
    form: u8,
    keys: &[u8],
    md5: &[u8],
    source: &[u8],
    destination: &[u8],
    segment: &[u8],
    setting: u8,
) -> u64 {
    // SAFETY: each pointer stands beside its own slice's length; nothing is written.
    unsafe {
        c::tcpao_judge_syn(
            form,
            keys.as_ptr(),
            keys.len(),
            md5.as_ptr(),
            md5.len(),
            source.as_ptr(),
            source.len(),
            destination.as_ptr(),
            destination.len(),
            segment.as_ptr(),
            segment.len(),
            setting,
        )
    }
}

#[allow(clippy::too_many_arguments)] // the boundary's own arguments
pub fn open_passive(
    form: u8,
    keys: &[u8],
    md5: &[u8],
    source: &[u8],
    destination: &[u8],
    segment: &[u8],
    isn: u32,
    setting: u8,
    state: &mut [u8],
) -> u64 {
    // SAFETY: each pointer stands beside its own slice's length; only `state`, borrowed for this
    // call alone, is written.
    unsafe {
        c::tcpao_open_passive(
            form,
            keys.as_ptr(),
            keys.len(),
            md5.as_ptr(),
            md5.len(),
            source.as_ptr(),
            source.len(),
            destination.as_ptr(),
            destination.len(),
            segment.as_ptr(),
            segment.len(),
            isn,
            setting,
            state.as_mut_ptr(),
            state.len(),
        )
    }
}

pub fn judge(
    form: u8,
    keys: &[u8],
    md5: &[u8],
    source: &[u8],
    destination: &[u8],
    segment: &[u8],
    state: &mut [u8],
) -> u64 {
    // SAFETY: each pointer stands beside its own slice's length; only `state`, borrowed for this
    // call alone, is written.
    unsafe {
        c::tcpao_judge(
            form,
            keys.as_ptr(),
            keys.len(),
            md5.as_ptr(),
            md5.len(),
            source.as_ptr(),
            source.len(),
            destination.as_ptr(),
            destination.len(),
            segment.as_ptr(),
            segment.len(),
            state.as_mut_ptr(),
            state.len(),
        )
    }
}

pub fn sign(
    form: u8,
    keys: &[u8],
    md5: &[u8],
    segment: &[u8],
    out: &mut [u8],
    state: &mut [u8],
) -> u64 {
    // SAFETY: each pointer stands beside its own slice's length; only `out` and `state` are
    // written, two borrows that overlap neither each other nor the rest.
    unsafe {
        c::tcpao_sign(
            form,
            keys.as_ptr(),
            keys.len(),
            md5.as_ptr(),
            md5.len(),
            segment.as_ptr(),
            segment.len(),
            out.as_mut_ptr(),
            out.len(),
            state.as_mut_ptr(),
            state.len(),
        )
    }
}

pub fn ask(form: u8, keys: &[u8], md5: &[u8], recv_id: u8, state: &mut [u8]) -> u64 {
    // SAFETY: each pointer stands beside its own slice's length; only `state`, borrowed for this
    // call alone, is written.
    unsafe {
        c::tcpao_ask(
            form,
            keys.as_ptr(),
            keys.len(),
            md5.as_ptr(),
            md5.len(),
            recv_id,
            state.as_mut_ptr(),
            state.len(),
        )
    }
}

pub fn sha1(message: &[u8], out: &mut [u8]) -> u64 {
    // SAFETY: each pointer stands beside its own slice's length; only `out` is written.
    unsafe { c::mac_sha1(message.as_ptr(), message.len(), out.as_mut_ptr(), out.len()) }
}

pub fn hmac_sha1(key: &[u8], message: &[u8], out: &mut [u8]) -> u64 {
    // SAFETY: each pointer stands beside its own slice's length; only `out` is written.
    unsafe {
        c::mac_hmac_sha1(
            key.as_ptr(),
            key.len(),
            message.as_ptr(),
            message.len(),
            out.as_mut_ptr(),
            out.len(),
        )
    }
}

pub fn sha256(message: &[u8], out: &mut [u8]) -> u64 {
    // SAFETY: each pointer stands beside its own slice's length; only `out` is written.
    unsafe { c::mac_sha256(message.as_ptr(), message.len(), out.as_mut_ptr(), out.len()) }
}

pub fn hmac_sha256(key: &[u8], message: &[u8], out: &mut [u8]) -> u64 {
    // SAFETY: each pointer stands beside its own slice's length; only `out` is written.
    unsafe {
        c::mac_hmac_sha256(
            key.as_ptr(),
            key.len(),
            message.as_ptr(),
            message.len(),
            out.as_mut_ptr(),
            out.len(),
        )
    }
}

pub fn md5(message: &[u8], out: &mut [u8]) -> u64 {
    // SAFETY: each pointer stands beside its own slice's length; only `out` is written.
    unsafe { c::mac_md5(message.as_ptr(), message.len(), out.as_mut_ptr(), out.len()) }
}

pub fn aes128(key: &[u8], block: &[u8], out: &mut [u8]) -> u64 {
    // SAFETY: each pointer stands beside its own slice's length; only `out` is written.
    unsafe {
        c::mac_aes128(
            key.as_ptr(),
            key.len(),
            block.as_ptr(),
            block.len(),
            out.as_mut_ptr(),
            out.len(),
        )
    }
}

pub fn aes128_cmac(key: &[u8], message: &[u8], out: &mut [u8]) -> u64 {
    // SAFETY: each pointer stands beside its own slice's length; only `out` is written.
    unsafe {
        c::mac_aes128_cmac(
            key.as_ptr(),
            key.len(),
            message.as_ptr(),
            message.len(),
            out.as_mut_ptr(),
            out.len(),
        )
    }
}
