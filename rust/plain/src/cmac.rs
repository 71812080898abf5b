//! AES-CMAC, RFC 4493.

use crate::aes::{encrypt, expand_key};

/// The two subkeys, section 2.3, by AES under the key.
pub fn subkeys(encrypt: impl Fn(&[u8; 16]) -> [u8; 16]) -> ([u8; 16], [u8; 16]) {
    let k1 = double(encrypt(&[0; 16]));
    (k1, double(k1))
}

fn double(x: [u8; 16]) -> [u8; 16] {
    let n = u128::from_be_bytes(x);
    let carry = if n >> 127 == 1 { 0x87 } else { 0 };
    ((n << 1) ^ carry).to_be_bytes()
}

fn xor(a: &mut [u8; 16], b: &[u8]) {
    for (x, y) in a.iter_mut().zip(b) {
        *x ^= y;
    }
}

/// Section 2.4, by AES under the key.
pub fn cmac_by(encrypt: impl Fn(&[u8; 16]) -> [u8; 16], message: &[u8]) -> [u8; 16] {
    let (k1, k2) = subkeys(&encrypt);
    let last = message.len().saturating_sub(1) / 16 * 16;
    let (front, last) = message.split_at(last);
    let mut x = [0; 16];
    for block in front.chunks_exact(16) {
        xor(&mut x, block);
        x = encrypt(&x);
    }
    xor(&mut x, last);
    if last.len() == 16 {
        xor(&mut x, &k1);
    } else {
        x[last.len()] ^= 0x80;
        xor(&mut x, &k2);
    }
    encrypt(&x)
}

pub fn cmac(key: &[u8; 16], message: &[u8]) -> [u8; 16] {
    let keys = expand_key(key);
    cmac_by(|block| encrypt(&keys, block), message)
}
