//! AES-128 encryption (FIPS 197) by four T-tables, and AES-CMAC by it. The state and the round keys
//! are words, one for each column, the byte in row 0 lowest.

use crate::aes::{sub, xtime};
use crate::cmac::cmac_by;

type Columns = [u32; 4];
pub type RoundKeys = [Columns; 11];

/// SubBytes of each byte, and what it brings in MixColumns to the column where it stands in that row.
const fn table(row: u32) -> [u32; 256] {
    let mut table = [0; 256];
    let mut x = 0;
    while x < 256 {
        let s = sub(x as u8);
        let double = xtime(s);
        table[x] = u32::from_le_bytes([double, s, s, double ^ s]).rotate_left(8 * row);
        x += 1;
    }
    table
}

static TABLES: [[u32; 256]; 4] = [table(0), table(1), table(2), table(3)];

fn load(block: &[u8; 16]) -> Columns {
    std::array::from_fn(|c| u32::from_le_bytes(std::array::from_fn(|r| block[4 * c + r])))
}

fn store(s: &Columns) -> [u8; 16] {
    std::array::from_fn(|i| s[i / 4].to_le_bytes()[i % 4])
}

/// Section 5.2.
pub fn expand_key(key: &[u8; 16]) -> RoundKeys {
    let mut keys = [load(key); 11];
    let mut rcon = 1;
    for r in 1..11 {
        let mut k = keys[r - 1];
        let word = k[3].rotate_right(8).to_le_bytes().map(sub);
        k[0] ^= u32::from_le_bytes(word) ^ u32::from(rcon);
        k[1] ^= k[0];
        k[2] ^= k[1];
        k[3] ^= k[2];
        keys[r] = k;
        rcon = xtime(rcon);
    }
    keys
}

/// ShiftRows: the byte that comes to row r of column c.
fn shifted(s: &Columns, c: usize, r: usize) -> u8 {
    (s[(c + r) % 4] >> (8 * r)) as u8
}

fn round(s: &Columns, key: &Columns) -> Columns {
    let entry = |c, r: usize| TABLES[r][shifted(s, c, r) as usize];
    std::array::from_fn(|c| entry(c, 0) ^ entry(c, 1) ^ entry(c, 2) ^ entry(c, 3) ^ key[c])
}

fn last_round(s: &Columns, key: &Columns) -> Columns {
    let bytes = |c| std::array::from_fn(|r| sub(shifted(s, c, r)));
    std::array::from_fn(|c| u32::from_le_bytes(bytes(c)) ^ key[c])
}

/// Section 5.1.
pub fn encrypt(keys: &RoundKeys, block: &[u8; 16]) -> [u8; 16] {
    let block = load(block);
    let mut s = std::array::from_fn(|c| block[c] ^ keys[0][c]);
    for key in &keys[1..10] {
        s = round(&s, key);
    }
    store(&last_round(&s, &keys[10]))
}

pub fn cmac(key: &[u8; 16], message: &[u8]) -> [u8; 16] {
    let keys = expand_key(key);
    cmac_by(|block| encrypt(&keys, block), message)
}
