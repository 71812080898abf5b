//! "Positions".

/// The position of a 32-bit number, if it has one.
///
/// "Each direction has a reference, a whole number from 0 to 2^64-1. The position of a 32-bit
/// number s is the whole number X with remainder s modulo 2^32 and |X - reference| < 2^31, if there
/// is one with 0 <= X < 2^64."
///
/// Two such numbers would be at least 2^32 apart, and both less than 2^31 from the reference: there
/// is at most one. It lies in the reference's own stretch of 2^32 numbers, in the one before or in
/// the one behind, so these three are tried.
pub fn position(reference: u64, number: u32) -> Option<u64> {
    let stretch: i128 = 1 << 32;
    let reference = reference as i128;
    let nearest = reference / stretch;
    for extension in [nearest - 1, nearest, nearest + 1] {
        let x = extension * stretch + number as i128;
        let near = (x - reference).abs() < 1 << 31;
        let in_range = (0..1 << 64).contains(&x);
        if near && in_range {
            return Some(x as u64);
        }
    }
    None
}

/// "The extension is X divided by 2^32, rounded down."
pub fn extension(x: u64) -> u32 {
    (x >> 32) as u32
}

/// "An accepted or signed segment sets its direction's reference to the larger of the old one and
/// X."
pub fn moved(reference: u64, x: u64) -> u64 {
    reference.max(x)
}
