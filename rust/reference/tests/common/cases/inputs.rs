//! 18 and 19, by every call that gives them.

use super::*;

/// A table that is refused, too: 18 and 19 come before it.
const BAD_TABLE: [u8; 1] = [11];

/// 18: a state buffer of another length, before anything else, and a family that is none.
pub fn states(scene: &Scene, list: &mut List) {
    let answer = (18, 0);
    for length in [0, 1, State::BYTES - 1, State::BYTES + 1, 300] {
        let mut add = |call: Call| list.add("length", &BAD_TABLE, &vec![4; length], call, answer);
        add(with_addresses(active(0), &[], &[]));
        add(with_addresses(active_md5(), &[], &[]));
        add(passive(&[], 0));
        add(judge(&[]));
        add(sign(&[]));
        add(ask(0));
    }
    for family in [0, 1, 5, 7, 255] {
        let state = State {
            family,
            ..scene.a.state()
        };
        let mut add = |table: &[u8], call: Call| {
            list.add("family", table, &state.bytes(), call, answer);
        };
        add(&BAD_TABLE, with_addresses(judge(&[]), &[1; 5], &[1; 4]));
        add(&scene.a.table, judge(&scene.from_b));
        add(&BAD_TABLE, sign(&[]));
        add(&BAD_TABLE, ask(0));
    }
}

/// 19: before the table.
pub fn addresses(scene: &Scene, list: &mut List) {
    for (one, other) in [(4, 16), (16, 4), (0, 0), (5, 5), (4, 3), (17, 16)] {
        let mut add = |state: &[u8], call: Call| {
            let call = with_addresses(call, &vec![10; one], &vec![10; other]);
            list.add("addresses", &BAD_TABLE, state, call, (19, 0));
        };
        add(&scene.a.state, active(1));
        add(&scene.a.state, active_md5());
        add(&scene.empty, judge_syn(&[], 0));
        add(&scene.a.state, passive(&[], 0));
        add(&scene.a.state, judge(&[]));
    }
}
