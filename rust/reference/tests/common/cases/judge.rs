//! Segments that arrive: what no call reads, and what a connection gives, opening or open.

use super::*;
use kit::segment::{ao, FIN, RST};

/// TCP-AO of the right length with this KeyID.
pub fn ao16(key_id: u8) -> Vec<u8> {
    ao(16, key_id, 0)
}

/// TCP MD5.
pub fn md5() -> Vec<u8> {
    let mut option = vec![19, 18];
    option.resize(18, 7);
    option
}

/// 20, 21, 22, by every call that takes an arriving segment. Each is wrong in the next points as
/// well.
pub fn unreadable(scene: &Scene, list: &mut List) {
    let Scene {
        a,
        b,
        opening,
        empty,
        elsewhere,
        ..
    } = scene;
    let mut add = |name: &str, segment: &[u8], number: u8| {
        let answer = (number, 0);
        list.add(name, &b.table, empty, judge_syn(segment, 0), answer);
        list.add(name, &b.table, &b.state, passive(segment, 0), answer);
        list.add(name, &a.table, &a.state, judge(segment), answer);
        list.add(name, &a.table, &opening.state, judge(segment), answer);
    };
    let with_offset = |words: u8| {
        let mut bytes = elsewhere.bytes();
        bytes[12] = words << 4;
        bytes
    };
    add("empty", &[], 20);
    add("19 bytes", &elsewhere.bytes()[..19], 20);
    add("65,536 bytes", &vec![0x50; 65_536], 20);
    add("offset 4", &with_offset(4), 20);
    add("header past the segment", &with_offset(6), 20);

    let mut options = |name: &str, parts: &[&[u8]], number: u8| {
        let segment = elsewhere.clone().options(&parts.concat());
        add(name, &segment.bytes(), number);
    };
    options("length 0", &[&[2, 0]], 21);
    options("length 1", &[&[3, 1]], 21);
    options("length missing", &[&[1, 1, 1, 8]], 21);
    options("length past the area", &[&[8, 5, 0, 0]], 21);
    options("TCP-AO of length 3", &[&[29, 3, 0]], 21);
    options("TCP-AO of length 2", &[&[29, 2]], 21);
    let malformed: [&[u8]; 3] = [&ao16(1), &ao16(1), &[5, 0]];
    options("two TCP-AO, and malformed", &malformed, 21);
    options("MD5 of length 1", &[&[19, 1]], 21);
    options("two TCP-AO", &[&ao16(1), &ao16(2)], 22);
    options("MD5, then TCP-AO", &[&md5(), &ao16(1)], 22);
    options("TCP-AO, then short MD5", &[&ao16(1), &[19, 2]], 22);
    options("two MD5", &[&md5(), &md5()], 22);
    options("two short MD5", &[&[19, 2], &[19, 3, 0]], 22);
}

/// On an opening connection, as the opening left it, and with any bytes in it.
pub fn opening(scene: &Scene, list: &mut List) {
    let Scene {
        a, new_b, opening, ..
    } = scene;
    let mut odd = State {
        stage: 7,
        peer_isn: 99,
        signing_reference: 0x7_0000_0000,
        arriving_reference: 0x9_0000_0000,
        accepted: 12,
        drops: [3; State::COUNTED.len()],
        ..opening.state()
    };
    odd.local[9] = 1;
    let odd = odd.bytes();
    let mut add = |name: &str, segment: &[u8], number: u8| {
        list.add(name, &a.table, &opening.state, judge(segment), (number, 0));
        list.add(name, &a.table, &odd, judge(segment), (number, 0));
    };
    let syn_ack = new_b.segment(B_ISN, SYN | ACK, b"");
    let with_ao =
        |length: u8, key_id: u8, rnext_key_id: u8| syn_ack.clone().ao(length, key_id, rnext_key_id);
    let asking = |rnext_key_id: u8| scene.sealed(with_ao(16, 2, rnext_key_id));
    let flagged = syn_ack.clone().flags(SYN | ACK | FIN | RST).ao(16, 2, 1);
    let with_flags = |flags: u8| new_b.segment(B_ISN, flags, b"").bytes();
    add("opens", &asking(1), 0);
    add("opens, asking another", &asking(3), 0);
    add("opens, asking for another pair's", &asking(5), 0);
    add("opens, other flags", &scene.sealed(flagged), 0);
    add("bare SYN", &with_flags(SYN), 24);
    add("no SYN", &with_flags(ACK), 24);
    add("RST", &with_flags(RST), 24);
    add("wrong pair, no SYN", &a.segment(0, ACK, b"").bytes(), 23);
    add("TCP-AO missing", &syn_ack.bytes(), 25);
    add("unknown KeyID, short MAC", &with_ao(12, 99, 1).bytes(), 26);
    add("KeyID of another pair", &with_ao(16, 6, 1).bytes(), 26);
    add("our own SendID", &with_ao(16, 1, 1).bytes(), 26);
    add("short MAC", &with_ao(12, 2, 1).bytes(), 27);
    add("MAC differs", &with_ao(16, 2, 1).bytes(), 29);
}

/// On an open connection: what is accepted, where, and what 28 drops.
pub fn positions(scene: &Scene, list: &mut List) {
    let Scene { a, b, keys, .. } = scene;
    list.add("accept", &a.table, &a.state, judge(&scene.from_b), (0, 0));
    let arriving = |sequence: u32, extension: u32, rnext_key_id: u8| {
        let segment = b.segment(sequence, ACK, b"").ao(16, 2, rnext_key_id);
        seal(&keys[0], &B_TO_A, extension, segment.bytes())
    };
    let under_second = |sequence: u32, extension: u32| {
        let segment = b.segment(sequence, ACK, b"data");
        let segment = segment.options(&[2, 4, 5, 6, 1, 1, 1, 1]).ao(16, 4, 1);
        seal(&keys[1], &B_TO_A, extension, segment.bytes())
    };
    let mut add = |name: &str, reference: u64, segment: Vec<u8>, answer: Answer| {
        let state = scene.at(reference);
        list.add(name, &a.table, &state, judge(&segment), answer);
    };
    let top = arriving(u32::MAX, u32::MAX, 1);
    add("P1", 0xfffffff0, arriving(0x10, 1, 1), (0, 1));
    add("P2", 0x1_0000_0010, arriving(0xfffffff0, 0, 1), (0, 0));
    add("P3", 0x10, arriving(0xfffffff0, 0, 1), (28, 0));
    add("P4", 0x1_0000_0000, arriving(0x7fffffff, 1, 1), (0, 1));
    add("P5", 0x1_0000_0000, arriving(0x80000000, 1, 1), (28, 0));
    add("P5'", 0x1_0000_0000, arriving(0x80000000, 0, 1), (28, 0));
    add("P6", 0x1_0000_0000, arriving(0x80000001, 0, 1), (0, 0));
    add("P7", u64::MAX - 1, arriving(1, 0, 1), (28, 0));
    add("P8", 0x1_0000_0010, arriving(0x9000, 1, 1), (0, 1));
    add("P9", 0, arriving(0, 0, 1), (0, 0));
    add("top", u64::MAX, top, (0, u32::MAX));
    add("wrong extension", 0xfffffff0, arriving(0x10, 0, 1), (29, 0));
    add("old, asking 3", 0x500, arriving(0x100, 0, 3), (0, 0));
    add("repeated, asking 3", 0x500, arriving(0x500, 0, 3), (0, 0));
    add("new, asking 3", 0x500, arriving(0x600, 0, 3), (0, 0));
    add("asking 4, a RecvID", 0x500, arriving(0x600, 0, 4), (0, 0));
    add("asking 5, elsewhere", 0x500, arriving(0x600, 0, 5), (0, 0));
    add("asking 99, nowhere", 0x500, arriving(0x600, 0, 99), (0, 0));
    add("second key", 0x500, under_second(0x600, 0), (0, 0));
}

/// On an open connection: the counts, the options around TCP-AO, and 23 to 29.
pub fn open(scene: &Scene, list: &mut List) {
    let Scene {
        a,
        b,
        new_b,
        keys,
        from_b,
        ..
    } = scene;
    let full = State {
        accepted: u64::MAX,
        drops: [u64::MAX; State::COUNTED.len()],
        ..a.state()
    };
    let full = full.bytes();
    list.add("full counts", &a.table, &full, judge(from_b), (0, 0));
    list.add("full counts", &a.table, &full, judge(&[]), (20, 0));

    let mut add = |name: &str, segment: &[u8], number: u8| {
        list.add(name, &a.table, &a.state, judge(segment), (number, 0));
    };
    let late_syn_ack = new_b.segment(B_ISN, SYN | ACK, b"").ao(16, 2, 1);
    let in_the_middle = {
        let around: [&[u8]; 3] = [&[2, 4, 5, 6], &ao(16, 2, 1), &[1, 1, 0, 29]];
        let segment = b.segment(B_ISN + 1, ACK, b"data");
        let segment = segment.options(&around.concat()).bytes();
        seal(&keys[0], &B_TO_A, 0, segment)
    };
    let mut forged_ahead = from_b.clone();
    forged_ahead[5] = 0x40;
    add("a SYN+ACK again", &scene.sealed(late_syn_ack), 0);
    add("other options around", &in_the_middle, 0);
    add("a forgery ahead", &forged_ahead, 29);

    let sealed_syn = scene.sealed(b.segment(B_ISN, SYN, b"").ao(16, 2, 1));
    let other_pair = a.segment(B_ISN, SYN, b"").bytes();
    add("bare SYN, wrong pair", &other_pair, 23);
    add("bare SYN", &sealed_syn, 24);

    let without_ao = b.segment(1, ACK, b"");
    let options = |parts: &[&[u8]]| without_ao.clone().options(&parts.concat()).bytes();
    let one_md5 = options(&[&[19, 6, 0, 0, 0, 0]]);
    let two_md5 = options(&[&[19, 2, 19, 6, 0, 0, 0, 0]]);
    let behind_the_end = options(&[&[0, 1, 1, 1], &ao16(2)]);
    add("TCP-AO missing", &without_ao.bytes(), 25);
    add("MD5", &one_md5, 25);
    add("MD5 twice", &two_md5, 22);
    add("TCP-AO behind kind 0", &behind_the_end, 25);
    add("malformed behind kind 0", &options(&[&[0, 29, 0, 29]]), 25);

    let with_ao = |sequence: u32, length: u8, key_id: u8| {
        b.segment(sequence, ACK, b"").ao(length, key_id, 1).bytes()
    };
    let no_position = B_ISN + (1 << 31);
    add("unknown KeyID, short MAC", &with_ao(1, 8, 99), 26);
    add("unknown KeyID, no MAC", &with_ao(1, 4, 99), 26);
    add("short MAC, no position", &with_ao(no_position, 4, 2), 27);
    add("long MAC", &with_ao(B_ISN, 20, 2), 27);
    add("no position, MAC differs", &with_ao(no_position, 16, 2), 28);
    list.add("no table", &[], &a.state, judge(from_b), (26, 0));
}

/// 23, by an address, by both, by the family, and by a port.
pub fn other_pairs(scene: &Scene, list: &mut List) {
    let Scene { a, from_b, .. } = scene;
    let mut add = |name: &str, call: Call| list.add(name, &a.table, &a.state, call, (23, 0));
    let nine = [10, 0, 0, 9];
    let from =
        |source: &[u8], destination: &[u8]| with_addresses(judge(from_b), source, destination);
    add("another source", from(&nine, &A4));
    add("another destination", from(&B4, &nine));
    add("exchanged", from(&A4, &B4));
    add("the other family", from(&B6, &A6));
    for at in [0, 1, 2, 3] {
        let mut segment = from_b.clone();
        segment[at] ^= 1;
        add("another port", judge(&segment));
    }
}
