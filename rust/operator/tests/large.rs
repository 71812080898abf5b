//! A large capture at the desk, in bounded memory. It is made while it is read, and it is the only test of this file,
//! so that the process's memory is the desk's.

mod common;

use common::*;
use kit::capture::{most_memory, Endless, Form, Wrap};
use operator::desk::{Choice, Desk};
use operator::Views;

const LENGTH: u64 = 64 << 20;
/// How much more memory the desk may take than there was before.
const ALLOWED: u64 = 8 << 20;

/// The opening, and then the same hundred segments again and again: each is accepted again.
#[test]
fn sixty_four_megabytes() {
    let mut line = Line::open(ISNS);
    let opening = plain(&line.packets);
    line.packets.clear();
    for i in 0..100 {
        line.sends(0, 1 + 1_400 * i, &[7; 1_400]);
    }
    let frames = line
        .packets
        .iter()
        .map(|packet| Wrap::Ethernet.frame(packet));
    let again = frames.flat_map(|frame| Form::ALL[0].packet(5, &frame));
    let file = Endless::new(opening, again.collect(), LENGTH);
    let endpoint = line.endpoint();
    let mirrored = endpoint.mirrored().unwrap();
    let views = Views::new(&endpoint, &mirrored);
    let before = most_memory();
    let desk = Desk::new(Ok(file.clone()), views, Choice::default()).unwrap();
    let mut lines = 0;
    let report = desk.judge(Ok(file.clone()), &mut |_| {
        lines += 1;
        Ok(())
    });
    assert!(report.unwrap().is_good());
    assert_eq!(lines, 2 + 100 * file.times);
    let taken = most_memory().saturating_sub(before);
    assert!(taken < ALLOWED, "{taken} bytes more");
}
