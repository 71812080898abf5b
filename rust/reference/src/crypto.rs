//! "SHA-1 (FIPS 180-4), HMAC (RFC 2104), AES-128 encryption (FIPS 197) and CMAC (RFC 4493) are
//! written here." SHA-256 (FIPS 180-4) came with Ticket 13, MD5 (RFC 1321) with Ticket 9.

use std::sync::LazyLock;

/// SHA-1 of a message, FIPS 180-4 section 6.1.
pub fn sha1(message: &[u8]) -> [u8; 20] {
    // Section 5.3.1: the initial hash value.
    let mut hash: [u32; 5] = [0x67452301, 0xefcdab89, 0x98badcfe, 0x10325476, 0xc3d2e1f0];

    let (whole, last) = blocks(message, u64::to_be_bytes);
    for block in whole.chunks_exact(64).chain(last.chunks_exact(64)) {
        sha1_block(&mut hash, block);
    }

    let mut digest = [0; 20];
    for (bytes, word) in digest.chunks_exact_mut(4).zip(hash) {
        bytes.copy_from_slice(&word.to_be_bytes());
    }
    digest
}

/// The message in blocks of 64 bytes: its own whole blocks, and what comes behind them. FIPS 180-4 section
/// 5.1.1, for SHA-1 and SHA-256, and RFC 1321 sections 3.1 and 3.2: the bit 1, zeros up to 448 modulo 512
/// bits, the message's length in bits as 64 bits, whose bytes MD5 has in the other order.
fn blocks(message: &[u8], length_bytes: fn(u64) -> [u8; 8]) -> (&[u8], Vec<u8>) {
    let (whole, rest) = message.split_at(message.len() / 64 * 64);
    let mut last = rest.to_vec();
    last.push(0x80);
    while last.len() % 64 != 56 {
        last.push(0);
    }
    let bits = (message.len() as u64).wrapping_mul(8);
    last.extend_from_slice(&length_bytes(bits));
    (whole, last)
}

/// One block of SHA-1, FIPS 180-4 section 6.1.2.
///
/// "Subtraction of sequence numbers wraps at 2^32, as does every addition in SHA-1."
fn sha1_block(hash: &mut [u32; 5], block: &[u8]) {
    // 1. The message schedule.
    let mut w = [0u32; 80];
    for (word, bytes) in w.iter_mut().zip(block.chunks_exact(4)) {
        *word = u32::from_be_bytes([bytes[0], bytes[1], bytes[2], bytes[3]]);
    }
    for t in 16..80 {
        w[t] = (w[t - 3] ^ w[t - 8] ^ w[t - 14] ^ w[t - 16]).rotate_left(1);
    }

    // 2. The working variables.
    let [mut a, mut b, mut c, mut d, mut e] = *hash;

    // 3. Eighty steps; f and K from sections 4.1.1 and 4.2.1.
    for (t, word) in w.iter().enumerate() {
        let (f, k) = match t {
            0..=19 => ((b & c) ^ (!b & d), 0x5a827999),
            20..=39 => (b ^ c ^ d, 0x6ed9eba1),
            40..=59 => ((b & c) ^ (b & d) ^ (c & d), 0x8f1bbcdc),
            _ => (b ^ c ^ d, 0xca62c1d6u32),
        };
        let sum = a
            .rotate_left(5)
            .wrapping_add(f)
            .wrapping_add(e)
            .wrapping_add(k)
            .wrapping_add(*word);
        e = d;
        d = c;
        c = b.rotate_left(30);
        b = a;
        a = sum;
    }

    // 4. The intermediate hash value.
    for (old, new) in hash.iter_mut().zip([a, b, c, d, e]) {
        *old = old.wrapping_add(new);
    }
}

/// The first 64 prime numbers.
const PRIMES: [u128; 64] = {
    let mut primes = [0; 64];
    let mut found = 0;
    let mut next = 2;
    while found < 64 {
        let mut earlier = 0;
        while earlier < found && next % primes[earlier] != 0 {
            earlier += 1;
        }
        if earlier == found {
            primes[found] = next;
            found += 1;
        }
        next += 1;
    }
    primes
};

/// "the first thirty-two bits of the fractional parts of the" roots of the first prime numbers, square
/// (degree 2) or cube (degree 3): the root of p times 2^32, rounded down, modulo 2^32.
const fn root_bits(prime: u128, degree: u32) -> u32 {
    let target = prime << (32 * degree);
    let mut root: u128 = 0; // the largest whole number whose power is not above the target
    let mut bit = 40;
    while bit > 0 {
        bit -= 1;
        let larger = root | 1 << bit;
        if larger.pow(degree) <= target {
            root = larger;
        }
    }
    root as u32
}

/// The constants of SHA-256, computed from their rule when this is compiled. FIPS 180-4 section 4.2.2: from
/// the cube roots of the first sixty-four prime numbers.
pub const SHA256_CONSTANTS: [u32; 64] = {
    let mut constants = [0; 64];
    let mut t = 0;
    while t < 64 {
        constants[t] = root_bits(PRIMES[t], 3);
        t += 1;
    }
    constants
};

/// Section 5.3.3: the initial hash value, from the square roots of the first eight prime numbers.
pub const SHA256_INITIAL: [u32; 8] = {
    let mut initial = [0; 8];
    let mut i = 0;
    while i < 8 {
        initial[i] = root_bits(PRIMES[i], 2);
        i += 1;
    }
    initial
};

/// SHA-256 of a message, FIPS 180-4 section 6.2.
pub fn sha256(message: &[u8]) -> [u8; 32] {
    let mut hash = SHA256_INITIAL;
    let (whole, last) = blocks(message, u64::to_be_bytes);
    for block in whole.chunks_exact(64).chain(last.chunks_exact(64)) {
        sha256_block(&mut hash, block);
    }
    let mut digest = [0; 32];
    for (bytes, word) in digest.chunks_exact_mut(4).zip(hash) {
        bytes.copy_from_slice(&word.to_be_bytes());
    }
    digest
}

/// One block of SHA-256, FIPS 180-4 section 6.2.2; the functions are section 4.1.2's.
fn sha256_block(hash: &mut [u32; 8], block: &[u8]) {
    // 1. The message schedule.
    let mut w = [0u32; 64];
    for (word, bytes) in w.iter_mut().zip(block.chunks_exact(4)) {
        *word = u32::from_be_bytes([bytes[0], bytes[1], bytes[2], bytes[3]]);
    }
    for t in 16..64 {
        let (x, y) = (w[t - 15], w[t - 2]);
        let sigma0 = x.rotate_right(7) ^ x.rotate_right(18) ^ x >> 3;
        let sigma1 = y.rotate_right(17) ^ y.rotate_right(19) ^ y >> 10;
        w[t] = sigma1
            .wrapping_add(w[t - 7])
            .wrapping_add(sigma0)
            .wrapping_add(w[t - 16]);
    }

    // 2. The working variables.
    let [mut a, mut b, mut c, mut d, mut e, mut f, mut g, mut h] = *hash;

    // 3. Sixty-four steps.
    for (word, constant) in w.iter().zip(SHA256_CONSTANTS) {
        let sum0 = a.rotate_right(2) ^ a.rotate_right(13) ^ a.rotate_right(22);
        let sum1 = e.rotate_right(6) ^ e.rotate_right(11) ^ e.rotate_right(25);
        let ch = (e & f) ^ (!e & g);
        let maj = (a & b) ^ (a & c) ^ (b & c);
        let t1 = h
            .wrapping_add(sum1)
            .wrapping_add(ch)
            .wrapping_add(constant)
            .wrapping_add(*word);
        let t2 = sum0.wrapping_add(maj);
        h = g;
        g = f;
        f = e;
        e = d.wrapping_add(t1);
        d = c;
        c = b;
        b = a;
        a = t1.wrapping_add(t2);
    }

    // 4. The intermediate hash value.
    for (old, new) in hash.iter_mut().zip([a, b, c, d, e, f, g, h]) {
        *old = old.wrapping_add(new);
    }
}

/// The constants of MD5, computed from their rule. RFC 1321 section 3.4: T\[i\] is "the integer part of
/// 4294967296 times abs(sin(i)), where i is in radians", from T\[1\] on.
pub static MD5_CONSTANTS: LazyLock<[u32; 64]> = LazyLock::new(|| {
    let constant = |i: usize| (i as f64 + 1.0).sin().abs() * 4_294_967_296.0;
    std::array::from_fn(|i| constant(i) as u32)
});

/// By how many bits each round's steps rotate, four in turn. RFC 1321 section 3.4.
const MD5_ROTATIONS: [[u32; 4]; 4] = [
    [7, 12, 17, 22],
    [5, 9, 14, 20],
    [4, 11, 16, 23],
    [6, 10, 15, 21],
];

/// MD5 of a message, RFC 1321.
pub fn md5(message: &[u8]) -> [u8; 16] {
    // Section 3.3: the four words, which the RFC prints "low-order bytes first".
    let mut hash: [u32; 4] = [0x67452301, 0xefcdab89, 0x98badcfe, 0x10325476];
    let (whole, last) = blocks(message, u64::to_le_bytes);
    for block in whole.chunks_exact(64).chain(last.chunks_exact(64)) {
        md5_block(&mut hash, block);
    }
    let mut digest = [0; 16];
    for (bytes, word) in digest.chunks_exact_mut(4).zip(hash) {
        bytes.copy_from_slice(&word.to_le_bytes());
    }
    digest
}

/// One block of MD5, RFC 1321 section 3.4: four rounds of sixteen steps, in each of which a = b + ((a +
/// F(b,c,d) + X\[k\] + T\[i\]) <<< s), and then the four words change their places.
fn md5_block(hash: &mut [u32; 4], block: &[u8]) {
    let mut x = [0u32; 16];
    for (word, bytes) in x.iter_mut().zip(block.chunks_exact(4)) {
        *word = u32::from_le_bytes([bytes[0], bytes[1], bytes[2], bytes[3]]);
    }
    let [mut a, mut b, mut c, mut d] = *hash;
    for (i, constant) in MD5_CONSTANTS.iter().enumerate() {
        // F, G, H and I, and which word.
        let (f, k) = match i / 16 {
            0 => ((b & c) | (!b & d), i),
            1 => ((b & d) | (c & !d), (5 * i + 1) % 16),
            2 => (b ^ c ^ d, (3 * i + 5) % 16),
            _ => (c ^ (b | !d), 7 * i % 16),
        };
        let sum = a.wrapping_add(f).wrapping_add(x[k]).wrapping_add(*constant);
        let rotation = MD5_ROTATIONS[i / 16][i % 4];
        a = d;
        d = c;
        c = b;
        b = b.wrapping_add(sum.rotate_left(rotation));
    }
    for (old, new) in hash.iter_mut().zip([a, b, c, d]) {
        *old = old.wrapping_add(new);
    }
}

/// HMAC, RFC 2104 section 2, with a hash H whose blocks have B = 64 bytes: H(K XOR opad, H(K XOR ipad,
/// text)).
fn hmac<const L: usize>(hash: fn(&[u8]) -> [u8; L], key: &[u8], message: &[u8]) -> [u8; L] {
    // "Applications that use keys longer than B bytes will first hash the key using H", then zeros
    // are appended up to B bytes.
    let mut block = [0u8; 64];
    if key.len() > 64 {
        block[..L].copy_from_slice(&hash(key));
    } else {
        block[..key.len()].copy_from_slice(key);
    }

    let mut inner = Vec::with_capacity(64 + message.len());
    inner.extend(block.iter().map(|byte| byte ^ 0x36));
    inner.extend_from_slice(message);
    let inner_digest = hash(&inner);

    let mut outer = Vec::with_capacity(64 + L);
    outer.extend(block.iter().map(|byte| byte ^ 0x5c));
    outer.extend_from_slice(&inner_digest);
    hash(&outer)
}

/// HMAC with SHA-1.
pub fn hmac_sha1(key: &[u8], message: &[u8]) -> [u8; 20] {
    hmac(sha1, key, message)
}

/// HMAC with SHA-256.
pub fn hmac_sha256(key: &[u8], message: &[u8]) -> [u8; 32] {
    hmac(sha256, key, message)
}

/// Multiplication by x in GF(2^8), FIPS 197 section 4.2.1: a shift, then reduced by x^8 + x^4 + x^3
/// + x + 1.
const fn times_x(a: u8) -> u8 {
    let shifted = a << 1;
    if a & 0x80 != 0 {
        shifted ^ 0x1b
    } else {
        shifted
    }
}

/// Multiplication in GF(2^8), FIPS 197 section 4.2.
const fn times(a: u8, b: u8) -> u8 {
    let mut product = 0;
    let mut power = a; // a times x^bit
    let mut bit = 0;
    while bit < 8 {
        if b >> bit & 1 == 1 {
            product ^= power;
        }
        power = times_x(power);
        bit += 1;
    }
    product
}

/// The inverse in GF(2^8), with 0 for 0: a to the power 254, since the group has 255 elements.
const fn inverse(a: u8) -> u8 {
    let mut power = a; // a to the power 2^k
    let mut product = 1;
    let mut k = 1;
    while k < 8 {
        power = times(power, power);
        product = times(product, power);
        k += 1;
    }
    product // 2 + 4 + ... + 128 = 254
}

/// "The S-box has 256 entries and must follow FIPS 197's rule: inverse in the field, then the
/// affine step."
const fn s_box_entry(a: u8) -> u8 {
    let b = inverse(a);
    b ^ b.rotate_left(1) ^ b.rotate_left(2) ^ b.rotate_left(3) ^ b.rotate_left(4) ^ 0x63
}

/// The S-box, computed from its rule when this is compiled.
pub const S_BOX: [u8; 256] = {
    let mut table = [0; 256];
    let mut a = 0;
    while a < 256 {
        table[a] = s_box_entry(a as u8);
        a += 1;
    }
    table
};

/// "The key schedule gives eleven round keys of sixteen bytes each." FIPS 197 section 5.2 with Nk =
/// 4.
pub fn round_keys(key: &[u8; 16]) -> [[u8; 16]; 11] {
    let mut keys = [[0; 16]; 11];
    keys[0] = *key;
    let mut constant = 1; // Rcon: x to the power round - 1
    for round in 1..11 {
        let before = keys[round - 1];
        // The last word of the round before: RotWord, SubWord, then Rcon onto its first byte.
        let mut word = [
            S_BOX[before[13] as usize] ^ constant,
            S_BOX[before[14] as usize],
            S_BOX[before[15] as usize],
            S_BOX[before[12] as usize],
        ];
        for column in 0..4 {
            for row in 0..4 {
                word[row] ^= before[4 * column + row];
                keys[round][4 * column + row] = word[row];
            }
        }
        constant = times_x(constant);
    }
    keys
}

/// AES-128 encryption of one block, FIPS 197 section 5.1. Byte 4 * column + row of the block stands
/// in that row and column.
pub fn aes128(key: &[u8; 16], block: &[u8; 16]) -> [u8; 16] {
    encrypt(&round_keys(key), block)
}

fn encrypt(keys: &[[u8; 16]; 11], block: &[u8; 16]) -> [u8; 16] {
    let mut state = xor(block, &keys[0]);
    for (round, key) in keys.iter().enumerate().skip(1) {
        let shifted = shift_rows(&sub_bytes(&state));
        let mixed = if round < 10 {
            mix_columns(&shifted)
        } else {
            shifted
        };
        state = xor(&mixed, key);
    }
    state
}

fn xor(a: &[u8; 16], b: &[u8; 16]) -> [u8; 16] {
    let mut sum = *a;
    for (byte, other) in sum.iter_mut().zip(b) {
        *byte ^= other;
    }
    sum
}

/// SubBytes, FIPS 197 section 5.1.1.
fn sub_bytes(state: &[u8; 16]) -> [u8; 16] {
    let mut after = *state;
    for byte in &mut after {
        *byte = S_BOX[*byte as usize];
    }
    after
}

/// ShiftRows, FIPS 197 section 5.1.2: row r is shifted to the left by r columns.
fn shift_rows(state: &[u8; 16]) -> [u8; 16] {
    let mut after = [0; 16];
    for column in 0..4 {
        for row in 0..4 {
            after[4 * column + row] = state[4 * ((column + row) % 4) + row];
        }
    }
    after
}

/// MixColumns, FIPS 197 section 5.1.3: each column times 02 03 01 01, 01 02 03 01, 01 01 02 03, 03
/// 01 01 02.
fn mix_columns(state: &[u8; 16]) -> [u8; 16] {
    let mut after = [0; 16];
    for column in 0..4 {
        for row in 0..4 {
            let at = |down: usize| state[4 * column + (row + down) % 4];
            let twice = times_x(at(0));
            let thrice = times_x(at(1)) ^ at(1);
            after[4 * column + row] = twice ^ thrice ^ at(2) ^ at(3);
        }
    }
    after
}

/// The two subkeys of CMAC, RFC 4493 section 2.3.
pub fn cmac_subkeys(key: &[u8; 16]) -> ([u8; 16], [u8; 16]) {
    let l = u128::from_be_bytes(aes128(key, &[0; 16]));
    let k1 = double(l);
    let k2 = double(k1);
    (k1.to_be_bytes(), k2.to_be_bytes())
}

/// "if MSB(L) is equal to 0 then K1 := L << 1; else K1 := (L << 1) XOR const_Rb".
fn double(a: u128) -> u128 {
    if a >> 127 == 0 {
        a << 1
    } else {
        (a << 1) ^ 0x87
    }
}

/// AES-CMAC, RFC 4493 section 2.4.
pub fn aes128_cmac(key: &[u8; 16], message: &[u8]) -> [u8; 16] {
    let keys = round_keys(key);
    let (k1, k2) = cmac_subkeys(key);

    // Steps 2 to 4: the last block is whole, or it is padded with the bit 1 and zeros; an empty
    // message has one padded block.
    let over = message.len() % 16;
    let last_bytes = if over == 0 && !message.is_empty() {
        16
    } else {
        over
    };
    let (front, end) = message.split_at(message.len() - last_bytes);
    let mut last = [0; 16];
    last[..last_bytes].copy_from_slice(end);
    if last_bytes == 16 {
        last = xor(&last, &k1);
    } else {
        last[last_bytes] = 0x80;
        last = xor(&last, &k2);
    }

    // Steps 5 to 7.
    let mut x = [0; 16];
    for bytes in front.chunks_exact(16) {
        let mut block = [0; 16];
        block.copy_from_slice(bytes);
        x = encrypt(&keys, &xor(&x, &block));
    }
    encrypt(&keys, &xor(&x, &last))
}

#[cfg(test)]
mod tests {
    use super::*;

    /// FIPS 197 section 5.1.1, bit by bit: the inverse, then b'(i) = b(i) + b(i+4) + b(i+5) +
    /// b(i+6) + b(i+7) + c(i), c = 63.
    #[test]
    fn the_s_box_follows_its_rule() {
        for a in 0..=255u8 {
            let inverse = (0..=255u8).find(|b| times(a, *b) == 1).unwrap_or(0);
            let mut expected = 0;
            for i in 0..8 {
                let bit = |at: usize| inverse >> (at % 8) & 1;
                let c = 0x63 >> i & 1;
                expected |= (bit(i) ^ bit(i + 4) ^ bit(i + 5) ^ bit(i + 6) ^ bit(i + 7) ^ c) << i;
            }
            assert_eq!(S_BOX[a as usize], expected, "entry {a:02x}");
        }
    }

    /// A few entries as FIPS 197 prints them in figure 7.
    #[test]
    fn the_s_box_as_printed() {
        for (a, printed) in [
            (0x00, 0x63),
            (0x01, 0x7c),
            (0x53, 0xed),
            (0x9a, 0xb8),
            (0xff, 0x16),
        ] {
            assert_eq!(S_BOX[a], printed);
        }
    }

    /// FIPS 180-4 sections 4.2.2 and 5.3.3: the first and the last constants, and the initial value.
    #[test]
    fn the_constants_of_sha256_as_printed() {
        let first = [0x428a2f98, 0x71374491, 0xb5c0fbcf, 0xe9b5dba5];
        let last = [0x90befffa, 0xa4506ceb, 0xbef9a3f7, 0xc67178f2];
        assert_eq!(SHA256_CONSTANTS[..4], first);
        assert_eq!(SHA256_CONSTANTS[60..], last);
        let initial = [
            0x6a09e667, 0xbb67ae85, 0x3c6ef372, 0xa54ff53a, 0x510e527f, 0x9b05688c, 0x1f83d9ab,
            0x5be0cd19,
        ];
        assert_eq!(SHA256_INITIAL, initial);
        assert_eq!((PRIMES[0], PRIMES[63]), (2, 311));
    }

    /// RFC 1321, appendix A.3, md5.c: the first and the last constants of each round.
    #[test]
    fn the_constants_of_md5_as_printed() {
        let ends = [0, 15, 16, 31, 32, 47, 48, 63].map(|i| MD5_CONSTANTS[i]);
        let printed = [
            0xd76aa478, 0x49b40821, 0xf61e2562, 0x8d2a4c8a, 0xfffa3942, 0xc4ac5665, 0xf4292244,
            0xeb86d391,
        ];
        assert_eq!(ends, printed);
    }

    /// FIPS 197 section 4.2: {57} times {83} is {c1}, {57} times {13} is {fe}.
    #[test]
    fn multiplication_as_printed() {
        assert_eq!(times(0x57, 0x83), 0xc1);
        assert_eq!(times(0x57, 0x13), 0xfe);
    }

    /// FIPS 197 appendix A.1: the last words of the key's expansion.
    #[test]
    fn the_key_schedule_as_printed() {
        let key = 0x2b7e151628aed2a6abf7158809cf4f3cu128.to_be_bytes();
        let keys = round_keys(&key);
        assert_eq!(
            u128::from_be_bytes(keys[1]),
            0xa0fafe1788542cb123a339392a6c7605
        );
        assert_eq!(
            u128::from_be_bytes(keys[10]),
            0xd014f9a8c9ee2589e13f0cc8b6630ca6
        );
    }
}
