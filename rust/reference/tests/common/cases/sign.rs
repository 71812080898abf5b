//! Signing.

use super::*;
use kit::segment::RST;

pub fn segments(scene: &Scene, list: &mut List) {
    let Scene {
        a,
        b,
        opening,
        data,
        plain_syn,
        elsewhere,
        ..
    } = scene;
    let mut add = |name: &str, state: &[u8], segment: &[u8], answer: Answer| {
        list.add(name, &a.table, state, sign(segment), answer);
    };
    let with = |change: fn(&mut State), end: &End| {
        let mut state = end.state();
        change(&mut state);
        state.bytes()
    };
    let second = with(|state| state.outgoing_send_id = 3, a);
    let not_asked = with(|state| state.asked_recv_id = 99, a);
    let lost = with(|state| state.outgoing_send_id = 5, a);
    let odd_opening = with(|state| state.peer_isn = 0x0102_0304, opening);
    let far = scene.at(0x9_0000_0000);

    let mut reserved = a.segment(A_ISN + 1, ACK | RST, b"data");
    reserved.reserved = 0x0f;
    let with_options = a.segment(A_ISN + 1, ACK, b"data");
    let with_options = with_options.options(&[2, 4, 5, 6, 0, 29, 1, 0]).bytes();
    let bare_syn = plain_syn.bytes();
    let syn_ack = a.segment(A_ISN, SYN | ACK, b"").bytes();
    let ack = |sequence: u32| a.segment(sequence, ACK, b"").bytes();
    add("signs", &a.state, data, (0, 40));
    add("signs, reserved bits", &a.state, &reserved.bytes(), (0, 40));
    add("signs, options", &a.state, &with_options, (0, 48));
    add("signs under the second", &second, data, (0, 40));
    add("asked is not tested", &not_asked, data, (0, 40));
    add("a SYN", &opening.state, &bare_syn, (0, 36));
    add("a SYN, peer's ISN held", &odd_opening, &bare_syn, (0, 36));
    add("a SYN+ACK", &a.state, &syn_ack, (0, 36));

    add("too short", &a.state, &[0; 19], (30, 0));
    add("too long", &a.state, &vec![0x50; 65_536], (30, 0));
    add("offset 4", &a.state, &[0x40; 20], (30, 0));
    add("offset 6", &a.state, &[0x60; 20], (30, 0));

    let options_of = |words: usize| vec![1u8; 4 * words];
    let malformed = elsewhere.clone().options(&[5, 0]).bytes();
    let ao_there = elsewhere.clone().options(&judge::ao16(1)).bytes();
    let md5_there = [options_of(6), vec![19, 4, 0, 0]].concat();
    let md5_there = elsewhere.clone().options(&md5_there).bytes();
    add("malformed", &a.state, &malformed, (31, 0));
    add("TCP-AO present", &a.state, &ao_there, (31, 0));
    add("MD5 present, offset 12", &a.state, &md5_there, (31, 0));

    let offset_11 = a.segment(A_ISN, ACK, b"").options(&options_of(6)).bytes();
    let offset_12 = b.segment(A_ISN, ACK, b"").options(&options_of(7)).bytes();
    let long = |bytes: usize| a.segment(A_ISN, ACK, &vec![7; bytes - 20]).bytes();
    add("offset 11", &a.state, &offset_11, (0, 60));
    let lost_offset_12 = a.segment(A_ISN, ACK, b"").options(&options_of(7)).bytes();
    add("offset 12, wrong ports", &a.state, &offset_12, (33, 0));
    add("offset 12, no key", &lost, &lost_offset_12, (35, 0));
    add("offset 12", &a.state, &lost_offset_12, (32, 0));
    add("65,519 bytes", &a.state, &long(65_519), (0, 65_535));
    add("65,520 bytes", &a.state, &long(65_520), (32, 0));
    add("65,535 bytes", &a.state, &long(65_535), (32, 0));
    add("65,535 bytes, no key", &lost, &long(65_535), (35, 0));

    let other_ports = b.segment(A_ISN, SYN, b"").bytes();
    add("wrong ports, bare SYN", &a.state, &other_ports, (33, 0));
    add("bare SYN once open", &a.state, &bare_syn, (34, 0));
    add("bare SYN, no key", &lost, &bare_syn, (34, 0));
    add("data while opening", &opening.state, data, (34, 0));
    add("SYN+ACK while opening", &opening.state, &syn_ack, (34, 0));

    let half = 1 << 31;
    let late_syn_ack = a.segment(A_ISN + 9, SYN | ACK, b"").bytes();
    let another_number = plain_syn.clone().sequence(A_ISN + 1).bytes();
    let nowhere_offset_12 = a.segment(A_ISN + 1 + half, ACK, b"");
    let nowhere_offset_12 = nowhere_offset_12.options(&options_of(7)).bytes();
    add(
        "offset 12, no position",
        &a.state,
        &nowhere_offset_12,
        (32, 0),
    );
    add("no key, no position", &lost, &ack(A_ISN + half), (35, 0));
    add("no position", &a.state, &ack(A_ISN + 1 + half), (36, 0));
    add("SYN+ACK elsewhere", &a.state, &late_syn_ack, (36, 0));
    add("SYN+ACK one turn on", &far, &syn_ack, (36, 0));
    add(
        "SYN of another number",
        &opening.state,
        &another_number,
        (36, 0),
    );
    add("far on", &far, &ack(A_ISN), (0, 36));
    list.add("no table", &[], &a.state, sign(data), (35, 0));
}

/// How much room the output has.
pub fn rooms(scene: &Scene, list: &mut List) {
    let Scene { a, data, .. } = scene;
    for (room, answer) in [(0, (37, 0)), (39, (37, 0)), (40, (0, 40)), (60, (0, 40))] {
        list.add("room", &a.table, &a.state, sign_into(data, room), answer);
    }
    let no_position = a.segment(A_ISN + 1 + (1 << 31), ACK, b"").bytes();
    let call = sign_into(&no_position, 0);
    list.add("no position, no room", &a.table, &a.state, call, (36, 0));
}
