//! Bytes to try things with.

/// Any bytes, the same at each run (xorshift64).
pub struct Bytes(pub u64);

impl Bytes {
    pub fn byte(&mut self) -> u8 {
        self.0 ^= self.0 << 13;
        self.0 ^= self.0 >> 7;
        self.0 ^= self.0 << 17;
        (self.0 >> 32) as u8
    }

    pub fn take(&mut self, n: usize) -> Vec<u8> {
        (0..n).map(|_| self.byte()).collect()
    }

    pub fn below(&mut self, n: usize) -> usize {
        usize::from(u16::from_be_bytes([self.byte(), self.byte()])) % n
    }
}
