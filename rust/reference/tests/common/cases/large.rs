//! Tables of many entries: the one that counts stands far behind, clashes are far apart. (Ticket 8; those of 1,024 are in
//! `table.rs`, `md5.rs` and `prepared.rs`.)

use super::*;
use kit::entry::table;
use kit::prepared::prepared;
use kit::{md5_word, word};
use std::slice::from_ref;

const OTHERS: u8 = 100;

/// A's entries for other peers.
fn others() -> Vec<Entry> {
    let peer = |last| Entry::between(&A4, &[10, 9, 9, last]).ids(1, 2);
    (0..OTHERS).map(peer).collect()
}

fn md5_others() -> Vec<Entry> {
    let peer = |last| Entry::md5(&A4, &[10, 8, 8, last]);
    (0..OTHERS).map(peer).collect()
}

/// The entry for the pair is the last: by bytes and prepared, each call as if it were alone.
pub fn found(scene: &Scene, list: &mut List) {
    let with = |mut front: Vec<Entry>, last: &[Entry]| -> Vec<Entry> {
        front.extend_from_slice(last);
        front
    };
    let mirrored = |keys: &[Entry]| -> Vec<Entry> { keys.iter().map(Entry::mirror).collect() };
    let a = with(others(), &scene.keys);
    let b = with(others(), &mirrored(&scene.keys));
    let mut add = |keys: &[Entry], md5: &[Entry], state: &[u8], call: Call, answer: Answer| {
        let name = "the last of many";
        let answer = word(answer.0, answer.1);
        let by_bytes = (&table(keys)[..], &table(md5)[..]);
        list.add_with(name, by_bytes, state, call.clone(), answer);
        let call = Call { form: 1, ..call };
        list.add_with(name, (&prepared(keys, md5), &[]), state, call, answer);
    };
    let signed = scene.data.len() as u32 + 16;
    let plain_syn = scene.plain_syn.bytes();
    add(&a, &[], &scene.empty, active(1), (0, 0));
    add(&a, &[], &scene.empty, active(200), (35, 0));
    add(&b, &[], &scene.empty, judge_syn(&scene.syn, 0), (0, 0));
    add(&b, &[], &scene.empty, judge_syn(&plain_syn, 0), (25, 0));
    add(&b, &[], &scene.empty, passive(&scene.syn, 0), (0, 0));
    add(&a, &[], &scene.a.state, judge(&scene.from_b), (0, 0));
    add(&a, &[], &scene.a.state, sign(&scene.data), (0, signed));
    add(&a, &[], &scene.a.state, ask(2), (0, 0));
    add(&a, &md5_others(), &scene.a.state, ask(2), (0, 0));

    let md5 = with(md5_others(), &[Entry::md5(&A4, &B4)]);
    add(&others(), &md5, &scene.empty, active_md5(), (0, 0));
    let theirs = with(md5_others(), &[Entry::md5(&B4, &A4)]);
    let call = judge_syn(&plain_syn, 0);
    add(&others(), &theirs, &scene.empty, call, (47, 0));
}

/// 17 and 45 of entries that are far apart, and of two that both stand far behind.
pub fn clashes(scene: &Scene, list: &mut List) {
    let (keys, md5) = (others(), md5_others());
    let last = u32::from(OTHERS);
    let mut add = |name: &str, keys: &[Entry], md5: &[Entry], answer: u64| {
        for call in [check_table(), super::prepared::prepare(0)] {
            let tables = (&table(keys)[..], &table(md5)[..]);
            list.add_with(name, tables, &scene.empty, call, answer);
        }
    };
    for again in [0, 50, OTHERS - 1] {
        let more = [&keys[..], from_ref(&keys[usize::from(again)])].concat();
        add("a clash far behind", &more, &md5, word(17, last));
        let more = [&md5[..], from_ref(&md5[usize::from(again)])].concat();
        add("an MD5 clash far behind", &keys, &more, md5_word(17, last));
    }
    let pair = Entry::between(&A4, &B4).ids(1, 2);
    let more = [&keys[..], from_ref(&pair)].concat();
    let by_md5 = Entry::md5(&A4, &B4);
    add(
        "45 by the last key",
        &more,
        from_ref(&by_md5),
        md5_word(45, 0),
    );
    let more_md5 = [&md5[..], &[by_md5]].concat();
    add(
        "45 at the last entry",
        from_ref(&pair),
        &more_md5,
        md5_word(45, last),
    );
    add("45 by both", &more, &more_md5, md5_word(45, last));
}

/// Each table has its own limit.
pub fn full(scene: &Scene, list: &mut List) {
    let md5 = Entry::md5(&A4, &[10, 8, 8, 8]).bytes();
    let keys = table(&super::table::full());
    let tables = (&keys[..], &md5[..]);
    let call = check_table();
    list.add_with("1,024 and one", tables, &scene.empty, call, word(0, 1_024));
}
