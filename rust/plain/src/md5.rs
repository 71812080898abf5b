//! MD5, RFC 1321, in its four rounds.

const K: [u32; 64] = [
    0xd76aa478, 0xe8c7b756, 0x242070db, 0xc1bdceee, 0xf57c0faf, 0x4787c62a, 0xa8304613, 0xfd469501,
    0x698098d8, 0x8b44f7af, 0xffff5bb1, 0x895cd7be, 0x6b901122, 0xfd987193, 0xa679438e, 0x49b40821,
    0xf61e2562, 0xc040b340, 0x265e5a51, 0xe9b6c7aa, 0xd62f105d, 0x02441453, 0xd8a1e681, 0xe7d3fbc8,
    0x21e1cde6, 0xc33707d6, 0xf4d50d87, 0x455a14ed, 0xa9e3e905, 0xfcefa3f8, 0x676f02d9, 0x8d2a4c8a,
    0xfffa3942, 0x8771f681, 0x6d9d6122, 0xfde5380c, 0xa4beea44, 0x4bdecfa9, 0xf6bb4b60, 0xbebfbc70,
    0x289b7ec6, 0xeaa127fa, 0xd4ef3085, 0x04881d05, 0xd9d4d039, 0xe6db99e5, 0x1fa27cf8, 0xc4ac5665,
    0xf4292244, 0x432aff97, 0xab9423a7, 0xfc93a039, 0x655b59c3, 0x8f0ccc92, 0xffeff47d, 0x85845dd1,
    0x6fa87e4f, 0xfe2ce6e0, 0xa3014314, 0x4e0811a1, 0xf7537e82, 0xbd3af235, 0x2ad7d2bb, 0xeb86d391,
];

/// A message that comes in pieces.
#[derive(Clone)]
pub struct Md5 {
    state: [u32; 4],
    buffer: [u8; 64],
    length: u64,
}

impl Default for Md5 {
    fn default() -> Self {
        Md5 {
            state: [0x67452301, 0xefcdab89, 0x98badcfe, 0x10325476],
            buffer: [0; 64],
            length: 0,
        }
    }
}

impl Md5 {
    pub fn new() -> Self {
        Self::default()
    }

    pub fn update(&mut self, mut data: &[u8]) {
        let held = (self.length % 64) as usize;
        self.length += data.len() as u64;
        if held > 0 {
            let (now, rest) = data.split_at(data.len().min(64 - held));
            self.buffer[held..held + now.len()].copy_from_slice(now);
            if held + now.len() < 64 {
                return;
            }
            compress(&mut self.state, &self.buffer);
            data = rest;
        }
        let mut blocks = data.chunks_exact(64);
        for block in &mut blocks {
            compress(&mut self.state, block.try_into().unwrap());
        }
        let rest = blocks.remainder();
        self.buffer[..rest.len()].copy_from_slice(rest);
    }

    pub fn finish(mut self) -> [u8; 16] {
        let bits = self.length.wrapping_mul(8);
        let held = (self.length % 64) as usize;
        self.buffer[held] = 0x80;
        self.buffer[held + 1..].fill(0);
        if held >= 56 {
            compress(&mut self.state, &self.buffer);
            self.buffer.fill(0);
        }
        self.buffer[56..].copy_from_slice(&bits.to_le_bytes());
        compress(&mut self.state, &self.buffer);
        let mut digest = [0; 16];
        for (bytes, word) in digest.chunks_exact_mut(4).zip(self.state) {
            bytes.copy_from_slice(&word.to_le_bytes());
        }
        digest
    }
}

/// MD5 of a whole message.
pub fn md5(message: &[u8]) -> [u8; 16] {
    let mut context = Md5::new();
    context.update(message);
    context.finish()
}

/// One step: a = b + ((a + f + x + k) <<< s), and the four words one place on.
fn step(words: [u32; 4], f: u32, x: u32, k: u32, s: u32) -> [u32; 4] {
    let [a, b, c, d] = words;
    let sum = a.wrapping_add(f).wrapping_add(x).wrapping_add(k);
    [d, b.wrapping_add(sum.rotate_left(s)), b, c]
}

fn compress(state: &mut [u32; 4], block: &[u8; 64]) {
    let mut x = [0u32; 16];
    for (word, bytes) in x.iter_mut().zip(block.chunks_exact(4)) {
        *word = u32::from_le_bytes(bytes.try_into().unwrap());
    }
    let mut words = *state;
    for i in 0..16 {
        let [_, b, c, d] = words;
        words = step(
            words,
            (b & c) | (!b & d),
            x[i],
            K[i],
            [7, 12, 17, 22][i % 4],
        );
    }
    for i in 16..32 {
        let [_, b, c, d] = words;
        let f = (d & b) | (!d & c);
        words = step(words, f, x[(5 * i + 1) % 16], K[i], [5, 9, 14, 20][i % 4]);
    }
    for i in 32..48 {
        let [_, b, c, d] = words;
        words = step(
            words,
            b ^ c ^ d,
            x[(3 * i + 5) % 16],
            K[i],
            [4, 11, 16, 23][i % 4],
        );
    }
    for i in 48..64 {
        let [_, b, c, d] = words;
        words = step(
            words,
            c ^ (b | !d),
            x[7 * i % 16],
            K[i],
            [6, 10, 15, 21][i % 4],
        );
    }
    for (old, new) in state.iter_mut().zip(words) {
        *old = old.wrapping_add(new);
    }
}
