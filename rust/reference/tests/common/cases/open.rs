//! The openings: actively, and by a bare SYN that is judged without a state.

use super::*;
use kit::entry::table;
use kit::segment::{FIN, RST};

/// A buffer that holds something else before the opening.
pub const OLD: [u8; State::BYTES] = [0x5a; State::BYTES];

pub fn active(scene: &Scene, list: &mut List) {
    let mut add = |name: &str, table: &[u8], state: &[u8], send_id: u8, number: u8| {
        list.add(name, table, state, super::active(send_id), (number, 0));
    };
    let Scene { a, empty, .. } = scene;
    add("opens", &a.table, empty, 1, 0);
    add("opens over old bytes", &a.table, &OLD, 3, 0);
    add("no such SendID", &a.table, &a.state, 9, 35);
    add("SendID of another pair", &a.table, &a.state, 5, 35);
    add("a RecvID only", &a.table, &a.state, 2, 35);
    add("no table", &[], &a.state, 1, 35);
}

/// A bare SYN of A's, sealed by its first key.
fn sealed_syn(scene: &Scene, flags: u8, rnext_key_id: u8) -> Vec<u8> {
    let segment = scene.plain_syn.clone().flags(flags);
    let segment = segment.ao(16, 1, rnext_key_id).bytes();
    seal(&scene.keys[0], &SYN_TO_B, 0, segment)
}

pub fn bare_syn(scene: &Scene, list: &mut List) {
    let Scene {
        b,
        new_a,
        empty,
        plain_syn,
        syn,
        ..
    } = scene;
    list.add("accept", &b.table, empty, judge_syn(syn, 0), (0, 0));
    list.add("accept", &b.table, &OLD, passive(syn, 0), (0, 0));

    let no_ao = plain_syn.bytes();
    let syn_md5 = plain_syn.clone().options(&judge::md5()).bytes();
    let with_ao = |length: u8, key_id: u8, rnext_key_id: u8| {
        let segment = plain_syn.clone().ao(length, key_id, rnext_key_id);
        segment.bytes()
    };
    let unknown = with_ao(16, 99, 1);
    let unknown_short = with_ao(12, 99, 1);
    let short = with_ao(12, 1, 2);
    let long = with_ao(20, 1, 2);
    let forged = with_ao(16, 1, 2);
    let only_c = table(&[scene.keys[2].mirror()]);
    let asking_4 = sealed_syn(scene, SYN, 4);
    let asking_6 = sealed_syn(scene, SYN, 6);
    let syn_fin = sealed_syn(scene, SYN | FIN | RST, 2);

    let mut both = |name: &str, table: &[u8], segment: &[u8], setting: u8, number: u8| {
        let answer = (number, 0);
        list.add(name, table, empty, judge_syn(segment, setting), answer);
        list.add(name, table, &b.state, passive(segment, setting), answer);
    };
    both("TCP-AO missing", &b.table, &no_ao, 0, 25);
    both("MD5 is not TCP-AO", &b.table, &syn_md5, 1, 25);
    both("no entry matches", &only_c, &no_ao, 1, 1);
    both("no entry matches, MD5", &only_c, &syn_md5, 1, 1);
    both("no entry at all", &[], &no_ao, 1, 1);
    both("unknown, short MAC", &b.table, &unknown_short, 0, 26);
    both("unknown, short MAC", &b.table, &unknown_short, 1, 26);
    both("no entry matches, short MAC", &only_c, &unknown_short, 0, 1);
    both(
        "no entry matches, short MAC",
        &only_c,
        &unknown_short,
        1,
        26,
    );
    both("no entry at all, with TCP-AO", &[], &unknown, 0, 1);
    both("no entry at all, with TCP-AO", &[], &unknown, 1, 26);
    both("entry of another pair", &only_c, &asking_6, 0, 1);
    both("short MAC", &b.table, &short, 0, 27);
    both("long MAC", &b.table, &long, 0, 27);
    both("MAC differs", &b.table, &forged, 0, 29);
    both("asking another", &b.table, &asking_4, 0, 0);
    both("asking for another pair's", &b.table, &asking_6, 0, 0);
    both("other flags", &b.table, &syn_fin, 0, 0);

    let flags = [
        ("SYN with ACK", SYN | ACK),
        ("no SYN", ACK),
        ("no flag", 0),
        ("RST", RST),
    ];
    for (name, flags) in flags {
        let segment = new_a.segment(A_ISN, flags, b"").bytes();
        both(name, &b.table, &segment, 0, 24);
    }
}

/// A SYN that is only passed, with or without TCP-AO, leaves the empty state, whatever the buffer
/// held; a dropped one leaves what it held.
pub fn passed(scene: &Scene, list: &mut List) {
    let plain = scene.plain_syn.bytes();
    let signed = &scene.syn;
    let only_c = table(&[scene.keys[2].mirror()]);
    let full = [0xff; State::BYTES];
    let states = [&OLD[..], &full, &scene.b.state, &scene.opening.state];
    for state in states {
        for table in [&only_c[..], &[]] {
            list.add("passed", table, state, passive(&plain, 1), (1, 0));
            list.add("passed, signed", table, state, passive(signed, 0), (1, 0));
            list.add("dropped", table, state, passive(signed, 1), (26, 0));
        }
    }
}
