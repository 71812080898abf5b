//! The standards under TCP-AO and TCP MD5, each proved equal to its definition: SHA-1, HMAC-SHA-1, SHA-256,
//! HMAC-SHA-256, MD5, AES-128 encryption and AES-CMAC.

use crate::raw;

/// SHA-1 (FIPS 180-4).
///
/// ```
/// assert_eq!(embankery::mac::sha1(b"abc")[..4], [0xA9, 0x99, 0x3E, 0x36]);
/// ```
pub fn sha1(message: &[u8]) -> [u8; 20] {
    let mut out = [0; 20];
    raw::sha1(message, &mut out);
    out
}

/// HMAC-SHA-1 (RFC 2104), under a key of any length.
///
/// ```
/// let mac = embankery::mac::hmac_sha1(b"Jefe", b"what do ya want for nothing?");
/// assert_eq!(mac[..4], [0xEF, 0xFC, 0xDF, 0x6A]);
/// ```
pub fn hmac_sha1(key: &[u8], message: &[u8]) -> [u8; 20] {
    let mut out = [0; 20];
    raw::hmac_sha1(key, message, &mut out);
    out
}

/// SHA-256 (FIPS 180-4).
///
/// ```
/// assert_eq!(embankery::mac::sha256(b"abc")[..4], [0xBA, 0x78, 0x16, 0xBF]);
/// ```
pub fn sha256(message: &[u8]) -> [u8; 32] {
    let mut out = [0; 32];
    raw::sha256(message, &mut out);
    out
}

/// HMAC-SHA-256 (RFC 2104), under a key of any length.
///
/// ```
/// let mac = embankery::mac::hmac_sha256(b"Jefe", b"what do ya want for nothing?");
/// assert_eq!(mac[..4], [0x5B, 0xDC, 0xC1, 0x46]);
/// ```
pub fn hmac_sha256(key: &[u8], message: &[u8]) -> [u8; 32] {
    let mut out = [0; 32];
    raw::hmac_sha256(key, message, &mut out);
    out
}

/// MD5 (RFC 1321). It is here for TCP MD5; it is broken as a hash.
///
/// ```
/// assert_eq!(embankery::mac::md5(b"abc")[..4], [0x90, 0x01, 0x50, 0x98]);
/// ```
pub fn md5(message: &[u8]) -> [u8; 16] {
    let mut out = [0; 16];
    raw::md5(message, &mut out);
    out
}

/// One block encrypted by AES-128 (FIPS 197).
///
/// ```
/// let key = std::array::from_fn(|i| i as u8);
/// let block = std::array::from_fn(|i| 0x11 * i as u8);
/// assert_eq!(embankery::mac::aes128(&key, &block)[..4], [0x69, 0xC4, 0xE0, 0xD8]);
/// ```
pub fn aes128(key: &[u8; 16], block: &[u8; 16]) -> [u8; 16] {
    let mut out = [0; 16];
    raw::aes128(key, block, &mut out);
    out
}

/// AES-CMAC (RFC 4493).
///
/// ```
/// let key = 0x2b7e151628aed2a6abf7158809cf4f3c_u128.to_be_bytes();
/// assert_eq!(embankery::mac::aes128_cmac(&key, b"")[..4], [0xBB, 0x1D, 0x69, 0x29]);
/// ```
pub fn aes128_cmac(key: &[u8; 16], message: &[u8]) -> [u8; 16] {
    let mut out = [0; 16];
    raw::aes128_cmac(key, message, &mut out);
    out
}
