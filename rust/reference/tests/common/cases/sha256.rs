//! Ticket 13: entries of algorithm 3, HMAC-SHA-256.

use super::*;
use kit::Side;

/// By every call that makes a MAC, under keys of all lengths that matter, MACs of 4, 12 (unsaid) and 16
/// bytes, and both flags.
pub fn calls(scene: &Scene, list: &mut List) {
    let Scene {
        a,
        b,
        new_b,
        opening,
        empty,
        plain_syn,
        ..
    } = scene;
    for key_bytes in [1, 15, 16, 17, 20, 32, 63, 64, 65, 80] {
        for (flags, mac_length) in [(0, None), (1, None), (1, Some(4)), (0, Some(16))] {
            let key = Entry {
                flags,
                algorithm: 3,
                mac_length,
                key: (1..=key_bytes).collect(),
                ..Entry::between(&A4, &B4).ids(1, 2)
            };
            let (ours, theirs) = (key.bytes(), key.mirror().bytes());
            let length = key.ao_length();
            let mut add = |name: &str, table: &[u8], state: &[u8], call: Call, answer: Answer| {
                let name = format!("SHA-256, key of {key_bytes}, MAC {mac_length:?}: {name}");
                list.add(&name, table, state, call, answer);
            };
            add("table", &ours, empty, check_table(), (0, 1));

            let segment = a
                .segment(A_ISN + 1, ACK, b"data")
                .options(&[2, 4, 5, 6])
                .bytes();
            let signed = (segment.len() + key.added()) as u32;
            let call = sign_into(&segment, segment.len() + 40);
            add("signs", &ours, &a.state, call, (0, signed));
            let call = sign_into(&plain_syn.bytes(), 60);
            let signed = (20 + key.added()) as u32;
            add("signs a SYN", &ours, &opening.state, call, (0, signed));

            let segment = b.segment(B_ISN + 1, ACK, b"data").ao(length, 2, 1);
            let sealed = seal(&key, &B_TO_A, 0, segment.bytes());
            add("accepted", &ours, &a.state, judge(&sealed), (0, 0));
            let unsealed = judge(&segment.bytes());
            add("MAC differs", &ours, &a.state, unsealed, (29, 0));
            let other = Entry {
                algorithm: 1,
                ..key.clone()
            };
            let call = judge(&sealed);
            add("under HMAC-SHA-1", &other.bytes(), &a.state, call, (29, 0));
            let longer = b.segment(B_ISN + 1, ACK, b"").ao(length + 1, 2, 1);
            add("longer", &ours, &a.state, judge(&longer.bytes()), (27, 0));

            let syn = plain_syn.clone().ao(length, 1, 2);
            let syn = seal(&key, &SYN_TO_B, 0, syn.bytes());
            add("a SYN", &theirs, empty, judge_syn(&syn, 1), (0, 0));
            add("opens", &theirs, empty, passive(&syn, 1), (0, 0));
            let syn_ack = new_b.segment(B_ISN, SYN | ACK, b"").ao(length, 2, 1);
            let syn_ack = seal(&key, &B_TO_A, 0, syn_ack.bytes());
            add("SYN+ACK", &ours, &opening.state, judge(&syn_ack), (0, 0));
        }
    }
    let six = Entry {
        algorithm: 3,
        local: Side::any(16),
        remote: Side::any(16),
        ..Entry::default().ids(1, 2)
    };
    let call = with_addresses(active(1), &A6, &B6);
    list.add("SHA-256 opens", &six.bytes(), empty, call, (0, 0));
}
