//! TCP segments with options, their MACs and their checksums.

use crate::prng::Prng;
use crate::tables::entry;
use kit::segment::{sum, ACK, SYN};
use kit::{Entry, Segment};
use reference::mac::{self, Direction, Ends};
use reference::segment::{read_options, Header, WithAo};
use reference::tcp_md5;

/// A segment in which what no rule looks at (acknowledgment, reserved bits, window ...) is any.
pub fn any_header(random: &mut Prng) -> Segment {
    let bytes = random.bytes(20);
    let two = |at: usize| u16::from_be_bytes([bytes[at], bytes[at + 1]]);
    Segment {
        acknowledgment: u32::from(two(8)) << 16 | u32::from(two(10)),
        reserved: bytes[12] & 0x0f,
        window: two(14),
        checksum: two(16),
        urgent: two(18),
        ..Segment::default()
    }
}

/// Flags with any others beside SYN and ACK as they are here.
pub fn with_others(random: &mut Prng, flags: u8) -> u8 {
    if random.one_in(2) {
        flags
    } else {
        flags | random.byte() & !(SYN | ACK)
    }
}

/// Data, mostly little, seldom up to `most` bytes.
pub fn data(random: &mut Prng, most: usize) -> Vec<u8> {
    let length = match random.below(1500) {
        0 => most,
        1 => most - 1,
        2..=20 => random.below(1500),
        21..=500 => 0,
        _ => random.below(80),
    };
    random.bytes(length)
}

/// MD5, also of a length that is not its own.
pub fn md5(random: &mut Prng) -> Vec<u8> {
    let length = random.pick(&[18, 18, 2, 3]);
    let mut option = random.bytes(length);
    option[0] = 19;
    option[1] = length as u8;
    option
}

/// One option that no rule looks at, of at most `most` bytes.
fn other(random: &mut Prng, most: usize) -> Vec<u8> {
    if most < 2 || random.one_in(3) {
        return vec![1];
    }
    let length = 2 + random.below(most.min(12) - 1);
    let mut option = random.bytes(length);
    option[0] = match random.byte() {
        0 | 1 | 19 | 29 => 2,
        kind => kind,
    };
    option[1] = length as u8;
    option
}

/// An option area of at most `most` bytes, whole words: these options in this order, others between
/// them, and at the end fillers, or kind 0 and any bytes behind it.
pub fn area(random: &mut Prng, options: &[Vec<u8>], most: usize) -> Vec<u8> {
    let mut area = vec![];
    let mut left = most.saturating_sub(options.iter().map(Vec::len).sum());
    let crowded = random.one_in(2);
    for option in options.iter().map(Some).chain([None]) {
        while left > 0 && crowded && random.one_in(2) {
            let other = other(random, left);
            left -= other.len();
            area.extend(other);
        }
        area.extend(option.into_iter().flatten());
    }
    let missing = (4 - area.len() % 4) % 4;
    let behind = if left >= missing + 4 && random.one_in(4) {
        missing + 4 * random.below((left - missing) / 4 + 1)
    } else {
        missing
    };
    if behind > 0 && random.one_in(2) {
        area.push(0);
        area.extend(random.bytes(behind - 1));
    } else {
        area.resize(area.len() + behind, 1);
    }
    area.truncate(40);
    area
}

/// Makes an option area malformed, most times.
pub fn spoil_area(random: &mut Prng, area: &mut Vec<u8>) {
    if area.is_empty() {
        area.extend([1; 4]);
    }
    let last = area.len() - 1;
    let kind = random.pick(&[2, 19, 29, 30, 255]);
    match random.below(6) {
        // The length is missing.
        0 => area[last] = kind,
        // It runs past the area, by one or by much.
        1 => (area[last - 1], area[last]) = (kind, random.pick(&[3, 4, 255])),
        // It is below 2.
        2 => (area[last - 1], area[last]) = (kind, random.pick(&[0, 1])),
        3 => (area[0], area[1]) = (kind, random.pick(&[0, 1, area.len() as u8 + 1])),
        // Kind 29 below length 4.
        4 => area[last - 3..].copy_from_slice(&[29, random.pick(&[2, 3]), 1, 1]),
        _ => random.flip(area),
    }
}

/// Bad lengths and offsets: 20, or 30 when signing.
pub fn spoil_length(random: &mut Prng, segment: &mut Vec<u8>) {
    let offset = |words: usize, byte: u8| (words << 4) as u8 | byte & 0x0f;
    match random.below(8) {
        0..=1 => segment.truncate(random.below(20)),
        2 => segment.truncate(19),
        3 => segment[12] = offset(random.below(5), segment[12]),
        4..=5 => {
            // The header reaches one byte, or more, past the segment.
            let words = (segment[12] >> 4) as usize;
            segment.truncate((4 * words - 1).max(20));
            if segment.len() >= 4 * words {
                segment[12] = offset(6 + random.below(10), segment[12]);
            }
        }
        6 => segment[12] = offset(15, segment[12]),
        _ => {
            let length = random.pick(&[65_536, 65_537, 70_000]);
            segment.resize(length, 0);
        }
    }
}

/// Writes the MAC that the receiver's key gives into the first TCP-AO, if there is one with room for it.
pub fn seal(segment: &mut [u8], key: &Entry, ends: &Ends, extension: u32) {
    let bytes = key.bytes();
    let Some(entry) = entry(&bytes) else { return };
    let Some(header) = Header::read(segment) else {
        return;
    };
    let Some(ao) = read_options(segment, &header).and_then(|options| options.ao) else {
        return;
    };
    if ao.length < 4 + entry.mac_bytes {
        return;
    }
    let carrier = WithAo {
        segment,
        header,
        ao,
    };
    let mac = mac::mac(&entry, Direction::Arriving, ends, extension, &carrier);
    segment[ao.at + 4..ao.at + 4 + mac.len()].copy_from_slice(&mac);
}

/// Writes the digest that the key gives into the first MD5, if there is one with room for it.
pub fn seal_md5(segment: &mut [u8], key: &Entry, source: &[u8], destination: &[u8]) {
    let Some(header) = Header::read(segment) else {
        return;
    };
    let Some(md5) = read_options(segment, &header).and_then(|options| options.md5) else {
        return;
    };
    if md5.length >= 18 && source.len() == destination.len() {
        let digest = tcp_md5::digest(source, destination, segment, &header, &key.key);
        segment[md5.at + 2..md5.at + 18].copy_from_slice(&digest);
    }
}

/// An option of four bytes whose last two may be any, to be found again by [`balance`].
pub const WORD: [u8; 4] = [254, 4, 0, 0];

/// Where [`WORD`] stands in a segment's options, at a word, so that its last two bytes are one of the sum's.
fn word_at(segment: &[u8]) -> Option<usize> {
    let header = Header::read(segment)?.bytes();
    let is = |at: &usize| segment[*at..*at + 2] == WORD[..2];
    (20..header - 3).step_by(2).find(is).map(|at| at + 2)
}

/// Chooses the last bytes of [`WORD`] so that all but the checksum sums to FFFF: 0000 and FFFF are then both
/// right. Where the MAC leaves options out, it stays what it is.
pub fn balance(segment: &mut [u8], source: &[u8], destination: &[u8]) {
    let Some(at) = word_at(segment) else { return };
    segment[16..18].fill(0);
    segment[at..at + 2].fill(0);
    put_word(segment, !sum(source, destination, segment));
}

/// Puts these bytes last into [`WORD`].
pub fn put_word(segment: &mut [u8], word: u16) {
    if let Some(at) = word_at(segment) {
        segment[at..at + 2].copy_from_slice(&word.to_be_bytes());
    }
}

/// Puts in the right checksum, now and then the other one where there are two.
pub fn put_checksum(random: &mut Prng, segment: &mut [u8], source: &[u8], destination: &[u8]) {
    if segment.len() < 18 {
        return;
    }
    segment[16..18].fill(0);
    let right = !sum(source, destination, segment);
    let both = right == 0 && random.one_in(2);
    let right = if both { 0xffff } else { right };
    segment[16..18].copy_from_slice(&right.to_be_bytes());
}

/// Makes a right checksum wrong, most times: by one bit, by one, by the order of its bytes, or by what is
/// written where none is computed; or changes a bit of what it is the sum of.
pub fn spoil_checksum(random: &mut Prng, segment: &mut [u8]) {
    if segment.len() < 18 {
        return random.flip(segment);
    }
    let right = u16::from_be_bytes([segment[16], segment[17]]);
    let wrong = match random.below(10) {
        0..=2 => right ^ 1 << random.below(16),
        3 => right.wrapping_add(1),
        4 => right.wrapping_sub(1),
        5 => right.swap_bytes(),
        6 => 0,
        7 => 0xffff,
        8 => {
            let last = segment.len() - 1;
            segment[last] ^= 1 << random.below(8);
            return;
        }
        _ => return random.flip(segment),
    };
    segment[16..18].copy_from_slice(&wrong.to_be_bytes());
}
