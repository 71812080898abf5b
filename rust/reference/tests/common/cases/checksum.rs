//! Ticket 5: the checksum of what arrives, and of what is signed.

use super::*;
use kit::segment::{ao, sum, summed, FIN};

/// The checksum field of a segment.
fn with_field(segment: &[u8], field: u16) -> Vec<u8> {
    let mut segment = segment.to_vec();
    segment[16..18].copy_from_slice(&field.to_be_bytes());
    segment
}

fn field(segment: &[u8]) -> u16 {
    u16::from_be_bytes([segment[16], segment[17]])
}

/// Fields that are wrong where this one is right: by one bit, by one, by their halves' order, and none.
fn wrong_fields(right: u16) -> Vec<u16> {
    let bits = (0..16).map(|bit| right ^ 1 << bit);
    let others = [
        right.wrapping_add(1),
        right.wrapping_sub(1),
        right.swap_bytes(),
        !right,
        0,
        0xffff,
    ];
    let same = |wrong: &u16| *wrong % 0xffff != right % 0xffff;
    bits.chain(others).filter(same).collect()
}

/// 40 for each wrong field, by every call that takes an arriving segment.
pub fn wrong(scene: &Scene, list: &mut List) {
    let Scene {
        a,
        b,
        opening,
        empty,
        syn,
        from_b,
        ..
    } = scene;
    let syn_ack = scene.sealed(scene.new_b.segment(B_ISN, SYN | ACK, b"").ao(16, 2, 1));
    let syn_ack = summed(&B4, &A4, &syn_ack);
    for wrong in wrong_fields(field(syn)) {
        let syn = with_field(syn, wrong);
        let (judged, opened) = (judge_syn(&[], 0), passive(&[], 0));
        list.add("SYN", &b.table, empty, as_it_is(judged, &syn), (40, 0));
        list.add("SYN", &b.table, &b.state, as_it_is(opened, &syn), (40, 0));
    }
    for wrong in wrong_fields(field(&syn_ack)) {
        let call = as_it_is(judge(&[]), &with_field(&syn_ack, wrong));
        list.add("SYN+ACK", &a.table, &opening.state, call, (40, 0));
    }
    for wrong in wrong_fields(field(from_b)) {
        let call = as_it_is(judge(&[]), &with_field(from_b, wrong));
        list.add("segment", &a.table, &a.state, call, (40, 0));
    }
    let full = State {
        drops: [u64::MAX; State::COUNTED.len()],
        ..a.state()
    };
    let call = as_it_is(judge(&[]), &with_field(from_b, 0));
    list.add("full counts", &a.table, &full.bytes(), call, (40, 0));
    // Words in another order have the same sum; the MAC notices.
    let mut exchanged = from_b.clone();
    exchanged.swap(36, 38);
    exchanged.swap(37, 39);
    let call = as_it_is(judge(&[]), &exchanged);
    list.add("words exchanged", &a.table, &a.state, call, (29, 0));
}

/// 40 behind 19, the table and 20, and before 21, 22 and all others.
pub fn order(scene: &Scene, list: &mut List) {
    let Scene {
        a,
        b,
        opening,
        empty,
        ..
    } = scene;
    let mut add = |name: &str, segment: &[u8], number: u8| {
        let answer = (number, 0);
        // Wrong by one: the right sum, and one bit of the urgent pointer, or of what there is.
        let spoilt = |source: &[u8], destination: &[u8]| {
            let mut segment = summed(source, destination, segment);
            if let Some(last) = segment.get_mut(19) {
                *last ^= 1;
            }
            segment
        };
        let (to_b, to_a) = (spoilt(&A4, &B4), spoilt(&B4, &A4));
        let (judged, opened) = (
            as_it_is(judge_syn(&[], 0), &to_b),
            as_it_is(passive(&[], 0), &to_b),
        );
        list.add(name, &b.table, empty, judged, answer);
        list.add(name, &b.table, &b.state, opened, answer);
        let call = as_it_is(judge(&[]), &to_a);
        list.add(name, &a.table, &a.state, call.clone(), answer);
        list.add(name, &a.table, &opening.state, call.clone(), answer);
        list.add(name, &[11], &a.state, call.clone(), (11, 0));
        let nowhere = with_addresses(call, &[1; 5], &[1; 4]);
        list.add(name, &a.table, &a.state, nowhere, (19, 0));
    };
    let plain = b.segment(B_ISN + 1, ACK, b"");
    let options = |options: &[u8]| plain.clone().options(options).bytes();
    add("19 bytes", &plain.bytes()[..19], 20);
    add("no bytes", &[], 20);
    let mut offset = plain.bytes();
    offset[12] = 0x40;
    add("offset 4", &offset, 20);
    offset[12] = 0x60;
    add("offset 6", &offset, 20);
    add("malformed", &options(&[2, 0]), 40);
    add(
        "two TCP-AO",
        &options(&[ao(16, 1, 1), ao(16, 2, 2)].concat()),
        40,
    );
    add(
        "TCP-AO and MD5",
        &options(&[ao(16, 1, 1), vec![19, 2]].concat()),
        40,
    );
    add("another pair", &a.segment(0, ACK, b"").bytes(), 40);
    add("a bare SYN", &b.segment(0, SYN, b"").bytes(), 40);
    add("a FIN", &b.segment(0, FIN, b"").bytes(), 40);
    add("TCP-AO missing", &plain.bytes(), 40);
    add("unknown KeyID", &plain.clone().ao(16, 99, 1).bytes(), 40);
    add("short MAC", &plain.clone().ao(12, 2, 1).bytes(), 40);
    add("odd", &b.segment(B_ISN + 1, ACK, b"odd").bytes(), 40);
}

/// The sum is over the addresses that came, also where they are not the state's.
pub fn other_addresses(scene: &Scene, list: &mut List) {
    let Scene { a, from_b, .. } = scene;
    let elsewhere = [10, 0, 0, 9];
    for (source, destination) in [(elsewhere, A4), (B4, elsewhere), (elsewhere, [10, 0, 0, 7])] {
        let call = with_addresses(judge(from_b), &source, &destination);
        list.add("sum as it came", &a.table, &a.state, call.clone(), (23, 0));
        let ours = as_it_is(call, from_b);
        list.add("sum as ours", &a.table, &a.state, ours, (40, 0));
    }
    // Exchanged, they have the same sum.
    let exchanged = as_it_is(with_addresses(judge(from_b), &A4, &B4), from_b);
    list.add("exchanged", &a.table, &a.state, exchanged, (23, 0));
}

/// A and B, open, in each family.
fn families() -> [(End, End); 2] {
    [opened(&A4, &B4), opened(&A6, &B6)]
}

/// Right checksums of both families, odd and even lengths, short and long, at every step: signed and taken;
/// the same with one bit changed, in the last byte among others, is 40.
pub fn lengths(list: &mut List) {
    for (a, b) in families() {
        let to_a = |segment: &[u8]| {
            let call = with_addresses(judge(&[]), &b.pair.local, &a.pair.local);
            as_it_is(call, segment)
        };
        let mut signed = vec![];
        let mut signer = b.clone();
        for bytes in [
            0, 1, 2, 3, 4, 5, 99, 100, 1_399, 1_400, 40_001, 65_498, 65_499,
        ] {
            let data: Vec<u8> = (0..bytes).map(|i: u32| (i * 89) as u8 | 1).collect();
            let plain = b.segment(B_ISN + 1, ACK, &data).bytes();
            let call = sign(&plain);
            let length = plain.len() as u32 + 16;
            list.add("signs", &b.table, &b.state, call, (0, length));
            signed.push(signer.try_sign(&plain).unwrap());
        }
        for segment in &signed {
            list.add("taken", &a.table, &a.state, to_a(segment), (0, 0));
            for at in [
                0,
                4,
                12,
                15,
                18,
                20,
                25,
                segment.len() - 2,
                segment.len() - 1,
            ] {
                let mut changed = segment.clone();
                changed[at] ^= 0x10;
                let number = if at == 12 && 4 * (changed[12] >> 4) as usize > changed.len() {
                    20
                } else {
                    40
                };
                list.add("a bit", &a.table, &a.state, to_a(&changed), (number, 0));
            }
            // A zero byte behind an odd length is not what was sent.
            if segment.len() < 65_535 {
                let longer = [&segment[..], &[0]].concat();
                list.add("a zero behind", &a.table, &a.state, to_a(&longer), (40, 0));
            }
        }
    }
}

/// Where the rest sums to FFFF, 0000 and FFFF are both right; signing writes 0000. With flag 0 two bytes of
/// an option make it so, since the MAC does not cover them.
pub fn zero(list: &mut List) {
    for (a, b) in families() {
        let mut b = b;
        let second = State {
            outgoing_send_id: 4,
            ..b.state()
        };
        b.set(second);
        for data in [&b"even"[..], b"odd"] {
            let plain = |word: u16| {
                let [high, low] = word.to_be_bytes();
                b.segment(B_ISN + 1, ACK, data)
                    .options(&[254, 4, high, low])
                    .bytes()
            };
            let first = b.clone().try_sign(&plain(0)).unwrap();
            let plain = plain(field(&first));
            let signed = b.clone().try_sign(&plain).unwrap();
            let rest = sum(&b.pair.local, &a.pair.local, &with_field(&signed, 0));
            assert_eq!(rest, 0xffff);
            list.add(
                "0000 is written",
                &b.table,
                &b.state,
                sign(&plain),
                (0, signed.len() as u32),
            );
            let mut add = |name: &str, field: u16, number: u8| {
                let call = with_addresses(judge(&[]), &b.pair.local, &a.pair.local);
                let call = as_it_is(call, &with_field(&signed, field));
                list.add(name, &a.table, &a.state, call, (number, 0));
            };
            add("0000", 0, 0);
            add("FFFF", 0xffff, 0);
            add("0001", 1, 40);
            add("FFFE", 0xfffe, 40);
        }
    }
}
