//! The archive's functions that are timed or compared here, over slices, and bytes to give them.

pub use embankery::raw::{aes128, aes128_cmac, hmac_sha1, hmac_sha256, md5, sha1, sha256};
pub use kit::Bytes;

use embankery::raw;
use kit::{calls_of, Boundary};

/// The calls of the archive.
pub const ARCHIVE: Boundary = Boundary {
    check_table: raw::check_table,
    prepare: raw::prepare,
    open_active: raw::open_active,
    open_active_md5: raw::open_active_md5,
    judge_syn: raw::judge_syn,
    open_passive: raw::open_passive,
    judge: raw::judge,
    sign: raw::sign,
    ask: raw::ask,
};

/// The calls of the reference.
pub const REFERENCE: Boundary = calls_of!(Boundary, reference::boundary);
