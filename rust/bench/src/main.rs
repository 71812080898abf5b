//! `make bench`: the proved archive's time against plain Rust's, on one machine, and against its own
//! MACs. All is built for release. It ends with 1 if a wanted limit is missed.

mod calls;
mod connection;
mod desk;
mod messages;
mod prepared;
mod tables;
mod timing;

use std::process::ExitCode;

/// How many bytes a message or a segment to be signed has.
const SIZES: [usize; 3] = [64, 1_400, 65_000];

/// A round repeats a call until it has handled about this many bytes.
fn count(n: usize) -> usize {
    (65_000 / n).max(1)
}

fn main() -> ExitCode {
    let [hashes, hashes_256, md5, cmac, by_tables] = messages::run();
    let mut outcomes = vec![
        hashes,
        hashes_256,
        md5,
        cmac,
        by_tables,
        calls::against_reference(),
        calls::against_macs(),
        calls::against_macs_256(),
        calls::checksum_against_judging(),
        calls::md5_against_digest(),
        tables::against_hmac(),
        tables::against_reference(),
        prepared::few_ids(),
        prepared::different_ids(),
        prepared::hard(),
        prepared::addresses(),
        prepared::against_bytes(),
        prepared::preparing(),
    ];
    outcomes.extend(desk::against_judging());
    if timing::summary(&outcomes) {
        ExitCode::SUCCESS
    } else {
        ExitCode::FAILURE
    }
}
