//! What the program `desk` prints: directed recordings, and damaged ones.

mod common;

use common::*;
use faulty::Fault;
use kit::Bytes;
use reference::desk::printed;

#[test]
fn directed() {
    for Recording { name, bytes, lines } in recordings() {
        assert_eq!(printed(&bytes), lines, "{name}");
        assert_eq!(faulty::desk::printed(&bytes), lines, "{name}, by the copy");
    }
}

/// Whatever the bytes: every line has its form, at most the last is another's, and what was printed of the front of a
/// recording stays; under each planted fault there is an end, too.
#[test]
fn any_bytes() {
    let all = recordings();
    let mut random = Bytes(20_261_116);
    for round in 0..2_000 {
        let mut bytes = all[round % all.len()].bytes.clone();
        for _ in 0..random.below(3) {
            if !bytes.is_empty() {
                let at = random.below(bytes.len());
                bytes[at] ^= 1 << random.below(8);
            }
        }
        let lines = printed(&bytes);
        for (index, line) in lines.lines().enumerate() {
            let numbers: Vec<u64> = line.split(' ').map(|word| word.parse().unwrap()).collect();
            let last = index + 1 == lines.lines().count();
            match numbers[..] {
                [number, _, _] => assert_eq!(number, index as u64),
                [number, _] => assert!(last && number == 38),
                [number] => assert!(last && matches!(number, 10..=18 | 35)),
                _ => panic!("{line}"),
            }
        }
        let front = printed(&bytes[..random.below(bytes.len() + 1)]);
        let segments: Vec<&str> = front
            .lines()
            .filter(|line| line.split(' ').count() == 3)
            .collect();
        assert!(lines
            .lines()
            .zip(&segments)
            .all(|(line, other)| line == *other));
        assert!(segments.len() <= lines.lines().count());

        let fault = Fault::ALL[random.below(Fault::ALL.len())];
        faulty::with(fault, || faulty::desk::printed(&bytes));
    }
}
