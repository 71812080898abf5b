//! "Positions": the examples P1 to P9, and the definition tried word by word.

use reference::position::{extension, moved, position};

#[test]
fn p1_to_p9() {
    let examples = [
        (0x0_fffffff0, 0x00000010, Some(0x1_00000010)), // P1
        (0x1_00000010, 0xfffffff0, Some(0x0_fffffff0)), // P2
        (0x0_00000010, 0xfffffff0, None),               // P3
        (0x1_00000000, 0x7fffffff, Some(0x1_7fffffff)), // P4
        (0x1_00000000, 0x80000000, None),               // P5
        (0x1_00000000, 0x80000001, Some(0x0_80000001)), // P6
        (0xffffffff_fffffffe, 0x00000001, None),        // P7
        (0x1_00000010, 0x00009000, Some(0x1_00009000)), // P8
        (0x0_00000000, 0x00000000, Some(0x0_00000000)), // P9
    ];
    for (index, (reference, number, result)) in examples.into_iter().enumerate() {
        assert_eq!(position(reference, number), result, "P{}", index + 1);
    }
}

/// What is given has the remainder and the distance asked for; where nothing is given, neither of
/// the two numbers nearest to the reference will do. Said with the wrapping difference instead: it
/// is the reference plus the difference taken as signed, unless that is -2^31 or leaves the range.
#[test]
fn the_definition() {
    let mut references = vec![0, 1, u64::MAX, u64::MAX - 1];
    for turn in [0u64, 1, 2, 0x7fff_ffff, 0xffff_fffe, 0xffff_ffff] {
        for low in [
            0u64,
            1,
            0x7fff,
            0x7fff_ffff,
            0x8000_0000,
            0x8000_0001,
            0xffff_ffff,
        ] {
            references.push(turn << 32 | low);
        }
    }
    let mut numbers = vec![];
    for around in [0u32, 0x7fff, 0x8000_0000, 0x9000, 0xffff_0000] {
        for step in 0..5 {
            numbers.push(around.wrapping_add(step).wrapping_sub(2));
        }
    }
    for reference in references {
        for far in [0u32, 0x7fff_ffff, 0x8000_0000, 0x8000_0001] {
            let mut numbers = numbers.clone();
            numbers.push((reference as u32).wrapping_add(far));
            for number in numbers {
                let difference = number.wrapping_sub(reference as u32) as i32;
                let expected = if difference == i32::MIN {
                    None
                } else {
                    u64::try_from(reference as i128 + difference as i128).ok()
                };
                let given = position(reference, number);
                assert_eq!(given, expected, "{reference:x} {number:x}");
                if let Some(x) = given {
                    assert_eq!(x % (1 << 32), number as u64);
                    assert!(x.abs_diff(reference) < 1 << 31);
                }
            }
        }
    }
}

#[test]
fn extension_and_reference() {
    assert_eq!(extension(0xffff_ffff), 0);
    assert_eq!(extension(0x1_0000_0000), 1);
    assert_eq!(extension(u64::MAX), u32::MAX);
    assert_eq!(moved(5, 7), 7);
    assert_eq!(moved(7, 5), 7);
}
