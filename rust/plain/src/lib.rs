//! SHA-1 and SHA-256 (FIPS 180-4), HMAC with both (RFC 2104), MD5 (RFC 1321), AES-128 encryption (FIPS 197),
//! AES-CMAC (RFC 4493) and TCP's checksum (RFC 1071) in straightforward Rust: no intrinsics, no tables but the S-box.
//! `aes_tables` has AES once more, by four T-tables. Written from the standards, to compare the proved
//! library with: its results in the tests, its speed in `make bench`.

pub mod aes;
pub mod aes_tables;
pub mod checksum;
pub mod cmac;
pub mod hmac;
pub mod md5;
pub mod sha1;
pub mod sha256;

#[cfg(test)]
mod vectors;
