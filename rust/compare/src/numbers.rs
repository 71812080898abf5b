//! Which numbers each call can give, by document 01's table and the boundary page, and why it gives
//! no other.

use kit::{Function, Outcome};

/// Beside a number of the MD5 table's refusals, 10 to 17, this is added here; of the key table's, nothing.
pub const OF_MD5: u8 = 100;

/// 0 accept or done, 1 pass, document 01's numbers, of document 02's 40 and 44 to 47, and the MD5 table's.
pub const ALL: [u8; 43] = [
    0, 1, 10, 11, 12, 13, 14, 15, 16, 17, 18, 19, 20, 21, 22, 23, 24, 25, 26, 27, 28, 29, 30, 31,
    32, 33, 34, 35, 36, 37, 40, 44, 45, 46, 47, 110, 111, 112, 113, 114, 115, 116, 117,
];

/// The number of an outcome as it is named here; 255 if bits 8 to 31 are not as they should be.
pub fn named(outcome: &Outcome) -> u8 {
    let number = outcome.number();
    match (outcome.word as u32 >> 8, number) {
        (1, 10..=17) => number + OF_MD5,
        (1, 45) => 45,
        (0, 45) => 255,
        (0, number) => number,
        _ => 255,
    }
}

/// Numbers that a call cannot give, and why.
type Never = (&'static [u8], &'static str);

pub struct Numbers {
    pub function: Function,
    pub possible: &'static [u8],
    pub never: &'static [Never],
}

const NO_SYN: &str = "only a bare SYN that is judged without a state can pass";
const NO_STATE: &str = "takes no state";
const NO_ADDRESSES: &str = "takes no addresses";
const NO_SEGMENT: &str = "takes no segment";
const NOT_JUDGED: &str = "judges no arriving segment";
const NOT_SIGNED: &str = "signs nothing";
const NO_KEY_NAMED: &str = "35 speaks of opening by a SendID, of signing and of asking";
const NO_PAIR_YET: &str = "there is no connection yet whose pair it could differ from";
const NO_OUTPUT: &str = "writes no output";
const BYTES_ALONE: &str = "takes the tables' bytes only";
const OWN_POSITION: &str = "a bare SYN has its own number as position";

/// What an arriving segment gets.
const ARRIVING: &[u8] = &[20, 21, 22, 23, 24, 25, 26, 27, 28, 29, 40, 46, 47];
/// What signing gives alone.
const SIGNING: &[u8] = &[30, 31, 32, 33, 34, 36];

pub const NUMBERS: [Numbers; 9] = [
    Numbers {
        function: Function::CheckTable,
        possible: &[
            0, 10, 11, 12, 13, 14, 15, 16, 17, 44, 45, 110, 111, 112, 113, 114, 115, 116, 117,
        ],
        never: &[
            (&[1], NO_SYN),
            (&[18], NO_STATE),
            (&[19], NO_ADDRESSES),
            (ARRIVING, NO_SEGMENT),
            (SIGNING, NOT_SIGNED),
            (&[37], NO_OUTPUT),
            (&[35], NO_KEY_NAMED),
        ],
    },
    Numbers {
        function: Function::Prepare,
        possible: &[
            0, 10, 11, 12, 13, 14, 15, 16, 17, 37, 45, 110, 111, 112, 113, 114, 115, 116, 117,
        ],
        never: &[
            (&[1], NO_SYN),
            (&[18], NO_STATE),
            (&[19], NO_ADDRESSES),
            (ARRIVING, NO_SEGMENT),
            (SIGNING, NOT_SIGNED),
            (&[35], NO_KEY_NAMED),
            (&[44], BYTES_ALONE),
        ],
    },
    Numbers {
        function: Function::OpenActive,
        possible: &[
            0, 10, 11, 12, 13, 14, 15, 16, 17, 18, 19, 35, 44, 45, 110, 111, 112, 113, 114, 115,
            116, 117,
        ],
        never: &[
            (&[1], NO_SYN),
            (ARRIVING, NO_SEGMENT),
            (SIGNING, NOT_SIGNED),
            (&[37], NO_OUTPUT),
        ],
    },
    Numbers {
        function: Function::OpenActiveMd5,
        possible: &[
            0, 10, 11, 12, 13, 14, 15, 16, 17, 18, 19, 35, 44, 45, 110, 111, 112, 113, 114, 115,
            116, 117,
        ],
        never: &[
            (&[1], NO_SYN),
            (ARRIVING, NO_SEGMENT),
            (SIGNING, NOT_SIGNED),
            (&[37], NO_OUTPUT),
        ],
    },
    Numbers {
        function: Function::JudgeSyn,
        possible: &[
            0, 1, 10, 11, 12, 13, 14, 15, 16, 17, 19, 20, 21, 22, 24, 25, 26, 27, 29, 40, 44, 45,
            46, 47, 110, 111, 112, 113, 114, 115, 116, 117,
        ],
        never: &[
            (&[18], NO_STATE),
            (&[23], NO_PAIR_YET),
            (&[28], OWN_POSITION),
            (SIGNING, NOT_SIGNED),
            (&[37], NO_OUTPUT),
            (&[35], NO_KEY_NAMED),
        ],
    },
    Numbers {
        function: Function::OpenPassive,
        possible: &[
            0, 1, 10, 11, 12, 13, 14, 15, 16, 17, 18, 19, 20, 21, 22, 24, 25, 26, 27, 29, 40, 44,
            45, 46, 47, 110, 111, 112, 113, 114, 115, 116, 117,
        ],
        never: &[
            (&[23], NO_PAIR_YET),
            (&[28], OWN_POSITION),
            (SIGNING, NOT_SIGNED),
            (&[37], NO_OUTPUT),
            (&[35], NO_KEY_NAMED),
        ],
    },
    Numbers {
        function: Function::Judge,
        possible: &[
            0, 10, 11, 12, 13, 14, 15, 16, 17, 18, 19, 20, 21, 22, 23, 24, 25, 26, 27, 28, 29, 40,
            44, 45, 46, 47, 110, 111, 112, 113, 114, 115, 116, 117,
        ],
        never: &[
            (&[1], NO_SYN),
            (SIGNING, NOT_SIGNED),
            (&[37], NO_OUTPUT),
            (&[35], NO_KEY_NAMED),
        ],
    },
    Numbers {
        function: Function::Sign,
        possible: &[
            0, 10, 11, 12, 13, 14, 15, 16, 17, 18, 30, 31, 32, 33, 34, 35, 36, 37, 44, 45, 110,
            111, 112, 113, 114, 115, 116, 117,
        ],
        never: &[
            (&[1], NO_SYN),
            (&[19], NO_ADDRESSES),
            (ARRIVING, NOT_JUDGED),
        ],
    },
    Numbers {
        function: Function::Ask,
        possible: &[
            0, 10, 11, 12, 13, 14, 15, 16, 17, 18, 35, 44, 45, 110, 111, 112, 113, 114, 115, 116,
            117,
        ],
        never: &[
            (&[1], NO_SYN),
            (&[19], NO_ADDRESSES),
            (ARRIVING, NO_SEGMENT),
            (SIGNING, NOT_SIGNED),
            (&[37], NO_OUTPUT),
        ],
    },
];

/// The numbers that a call can give.
pub fn possible(function: Function) -> &'static [u8] {
    NUMBERS[function as usize].possible
}

#[cfg(test)]
mod tests {
    use super::*;

    /// Each number stands once for each call: among the possible ones, or beside a reason.
    #[test]
    fn the_table_is_whole() {
        for (index, numbers) in NUMBERS.iter().enumerate() {
            assert_eq!(numbers.function as usize, index);
            let never = numbers.never.iter().flat_map(|(list, _)| list.iter());
            let mut all: Vec<u8> = numbers.possible.iter().chain(never).copied().collect();
            all.sort();
            assert_eq!(all, ALL);
        }
    }
}
