//! Many connections: each call does in its place what the call on one connection does, and nothing elsewhere.

mod common;

use common::{octets, segment, Ends, Kind, Md5Ends, FIRST_KIND, IDS, ISNS, PORTS};
use embankery::{
    judge_syn, Connection, Connections, Entry, KeyTable, Refusal, UnknownKeyId, Verdict,
};
use kit::segment::{summed, ACK, SYN};
use std::net::IpAddr;

const CHOICE: UnknownKeyId = UnknownKeyId::Drop;

/// Both ends in tables, from the SYN to data in both directions, beside the same on single connections.
fn whole_line(kind: Kind, before: usize) {
    let single = Ends::open(kind);
    let [a, b] = single.addresses;
    let [keys, others] = &single.tables;
    let (here, there) = ((a, PORTS[0]), (b, PORTS[1]));
    let mut ends = [0, 1].map(|_| Connections::new(before + 2).unwrap());

    // Other connections in the places before.
    for end in 0..2 {
        for port in 0..before as u16 {
            let (local, remote) = (single.addresses[end], single.addresses[1 - end]);
            let table = &single.tables[end];
            let place = ends[end].open_active(table, (local, 7), (remote, port), 0, IDS[end]);
            assert_eq!(place, Ok(usize::from(port)));
        }
    }
    let [ours, theirs] = &mut ends;
    let others_before = ours.as_bytes()[..before * Connection::BYTES].to_vec();

    let place = ours.open_active(keys, here, there, ISNS[0], IDS[0]);
    assert_eq!(place, Ok(before));
    assert_eq!(ours.get(before), Some(single.opening.clone()));
    assert_eq!(ours.find(here, there), Ok(before));
    let syn = segment(PORTS, ISNS[0], SYN, &[], &[]);
    assert_eq!(ours.sign(keys, a, b, &syn), Ok(single.syn.clone()));

    // The SYN is judged without a state, and opens only then.
    let verdict = judge_syn(others, a, b, &single.syn, CHOICE);
    assert_eq!(theirs.judge(others, a, b, &single.syn, CHOICE), verdict);
    assert_eq!(theirs.get(before), None);
    let place = theirs.open_passive(others, a, b, &single.syn, ISNS[1], CHOICE);
    assert_eq!(place, Ok(Some(before)));
    let again = theirs.open_passive(others, a, b, &single.syn, ISNS[1], CHOICE);
    assert_eq!(again, Err(Refusal::PairInUse));
    let syn_ack = segment([PORTS[1], PORTS[0]], ISNS[1], SYN | ACK, &[], &[]);
    assert_eq!(
        theirs.sign(others, b, a, &syn_ack),
        Ok(single.syn_ack.clone())
    );
    let verdict = ours.judge(keys, b, a, &single.syn_ack, CHOICE);
    assert_eq!(verdict, Verdict::Accept { extension: 0 });
    assert_eq!(ours.get(before), Some(single.ends[0].clone()));
    assert_eq!(theirs.get(before), Some(single.ends[1].clone()));

    // Data, a drop that is counted, and a request.
    let mut states = single.ends.clone();
    for number in 1..4 {
        let data = segment(PORTS, ISNS[0] + number, ACK, &[], b"data");
        let signed = states[0].sign(keys, &data);
        assert_eq!(ours.sign(keys, a, b, &data), signed);
        let arrives = signed.unwrap();
        let verdict = states[1].judge(others, a, b, &arrives);
        assert_eq!(theirs.judge(others, a, b, &arrives, CHOICE), verdict);
        let mut broken = arrives;
        *broken.last_mut().unwrap() ^= 1;
        let verdict = states[1].judge(others, a, b, &broken);
        assert_eq!(verdict, Verdict::Drop(Refusal::Checksum));
        assert_eq!(theirs.judge(others, a, b, &broken, CHOICE), verdict);
    }
    assert_eq!(theirs.get(before), Some(states[1].clone()));
    for recv_id in [IDS[1], 77] {
        let asked = states[0].ask(keys, recv_id);
        assert_eq!(ours.ask(keys, here, there, recv_id), asked);
    }
    assert_eq!(ours.get(before), Some(states[0].clone()));
    assert_eq!(ours.as_bytes()[..before * Connection::BYTES], others_before);
    assert!(ours.as_bytes()[(before + 1) * Connection::BYTES..]
        .iter()
        .all(|byte| *byte == 0));

    // Closed: not found, nothing signed, asked or judged there, and the place is the next opening's.
    assert_eq!(ours.close(here, there), Ok(()));
    assert_eq!(ours.get(before), None);
    assert!(ours.as_bytes()[before * Connection::BYTES..]
        .iter()
        .all(|byte| *byte == 0));
    let closed = ours.clone();
    assert_eq!(ours.close(here, there), Err(Refusal::OtherPair));
    assert_eq!(ours.find(here, there), Err(Refusal::OtherPair));
    assert_eq!(ours.ask(keys, here, there, IDS[1]), Err(Refusal::OtherPair));
    let data = segment(PORTS, ISNS[0] + 9, ACK, &[], &[]);
    assert_eq!(ours.sign(keys, a, b, &data), Err(Refusal::OtherPair));
    let verdict = ours.judge(keys, b, a, &single.syn_ack, CHOICE);
    assert_eq!(verdict, Verdict::Drop(Refusal::OtherPair));
    assert_eq!(*ours, closed);
    assert_eq!(ours.open_active(keys, here, there, 5, IDS[0]), Ok(before));
}

#[test]
fn whole_lines() {
    for ipv6 in [false, true] {
        for before in [0, 1, 5] {
            whole_line(Kind { ipv6, ..FIRST_KIND }, before);
        }
    }
}

#[test]
fn by_md5() {
    for ipv6 in [false, true] {
        let mut single = Md5Ends::open(ipv6);
        let [a, b] = single.addresses;
        let (here, there) = ((a, PORTS[0]), (b, PORTS[1]));
        let mut ours = Connections::new(1).unwrap();
        let opened = ours.open_active_md5(&single.tables[0], here, there, ISNS[0]);
        assert_eq!(opened, Ok(0));
        assert_eq!(ours.get(0), Some(single.opening.clone()));
        let again = ours.open_active_md5(&single.tables[0], here, there, ISNS[0]);
        assert_eq!(again, Err(Refusal::PairInUse));
        let other = ours.open_active_md5(&single.tables[0], (a, 9), there, ISNS[0]);
        assert_eq!(other, Err(Refusal::NoFreePlace));
        let mut theirs = Connections::new(1).unwrap();
        let tables = &single.tables[1];
        let opened = theirs.open_passive(tables, a, b, &single.syn, ISNS[1], CHOICE);
        assert_eq!(opened, Ok(Some(0)));
        let data = segment(PORTS, ISNS[0] + 1, ACK, &[], b"data");
        let signed = single.sign(&data).unwrap();
        let verdict = single.judge(&signed);
        let tables = &single.tables[1];
        assert_eq!(theirs.judge(tables, a, b, &signed, CHOICE), verdict);
        assert_eq!(
            theirs.get(0).unwrap().as_bytes()[..64],
            single.ends[1].as_bytes()[..64]
        );
    }
}

/// 41 before 42, both behind the opening's own numbers; 256 places.
#[test]
fn full() {
    let entry = Entry::ipv4()
        .send_id(1)
        .recv_id(2)
        .key(b"key")
        .build()
        .unwrap();
    let table = KeyTable::new([&entry]).unwrap();
    let here = ([10, 0, 0, 1], 1);
    let there = |port| ([10, 0, 0, 2], port);
    let mut all = Connections::new(256).unwrap();
    for port in 0..256 {
        let place = all.open_active(&table, here, there(port), 0, 1);
        assert_eq!(place, Ok(usize::from(port)));
    }
    let full = all.clone();
    let refused =
        |all: &mut Connections, port, id| all.open_active(&table, here, there(port), 0, id);
    assert_eq!(refused(&mut all, 300, 1), Err(Refusal::NoFreePlace));
    assert_eq!(refused(&mut all, 255, 1), Err(Refusal::PairInUse));
    assert_eq!(refused(&mut all, 255, 9), Err(Refusal::NoEntry));
    assert_eq!(all, full);
    all.close(here, there(100)).unwrap();
    all.close(here, there(7)).unwrap();
    assert_eq!(refused(&mut all, 255, 1), Err(Refusal::PairInUse));
    assert_eq!(refused(&mut all, 300, 1), Ok(7));
    assert_eq!(refused(&mut all, 301, 1), Ok(100));
    assert_eq!(all.find(here, there(300)), Ok(7));

    let mut none = Connections::new(0).unwrap();
    assert_eq!(refused(&mut none, 300, 1), Err(Refusal::NoFreePlace));
    assert_eq!(none.find(here, there(1)), Err(Refusal::OtherPair));
}

/// A segment under 4 bytes: 20, or 30 when signing, and it is counted nowhere, even with one connection.
#[test]
fn short_segments() {
    let ends = Ends::open(FIRST_KIND);
    let [a, b] = ends.addresses;
    let mut one = Connections::from_bytes(*ends.ends[1].as_bytes()).unwrap();
    let before = one.clone();
    for length in 0..4 {
        let short = vec![0; length];
        let verdict = one.judge(&ends.tables[1], a, b, &short, CHOICE);
        assert_eq!(verdict, Verdict::Drop(Refusal::Size));
        let signed = one.sign(&ends.tables[1], b, a, &short);
        assert_eq!(signed, Err(Refusal::SignSize));
    }
    let ipv6 = IpAddr::from([0xFD00, 0, 0, 0, 0, 0, 0, 1]);
    let verdict = one.judge(&ends.tables[1], a, ipv6, &[], CHOICE);
    assert_eq!(verdict, Verdict::Drop(Refusal::AddressSizes));
    assert_eq!(one, before);
}

/// A bare SYN for a pair not in use is judged without a state; a SYN only passed needs no place.
#[test]
fn strangers() {
    let ends = Ends::open(FIRST_KIND);
    let [_, b] = ends.addresses;
    let stranger = IpAddr::from([10, 9, 9, 9]);
    let mut one = Connections::from_bytes(*ends.ends[1].as_bytes()).unwrap();
    let before = one.clone();
    let syn = segment(PORTS, 1, SYN, &[], &[]);
    let syn = summed(&octets(stranger), &octets(b), &syn);
    let verdict = one.judge(&ends.tables[1], stranger, b, &syn, CHOICE);
    assert_eq!(verdict, Verdict::Pass);
    let opened = one.open_passive(&ends.tables[1], stranger, b, &syn, 3, CHOICE);
    assert_eq!(opened, Ok(None));
    let ack = segment(PORTS, 1, ACK, &[], &[]);
    let verdict = one.judge(&ends.tables[1], stranger, b, &ack, CHOICE);
    assert_eq!(verdict, Verdict::Drop(Refusal::Checksum));
    let ack = summed(&octets(stranger), &octets(b), &ack);
    let verdict = one.judge(&ends.tables[1], stranger, b, &ack, CHOICE);
    assert_eq!(verdict, Verdict::Drop(Refusal::OtherPair));
    assert_eq!(one, before);
}

/// Of two places with one pair the first counts; closing it brings the second into use.
#[test]
fn the_first_counts() {
    let ends = Ends::open(FIRST_KIND);
    let [a, b] = ends.addresses;
    let (here, there) = ((a, PORTS[0]), (b, PORTS[1]));
    let free = [[0; Connection::BYTES], *ends.opening.as_bytes()].concat();
    let twice = [free, ends.ends[0].as_bytes().to_vec()].concat();
    let mut table = Connections::from_bytes(twice).unwrap();
    assert_eq!(table.find(here, there), Ok(1));
    table.close(here, there).unwrap();
    assert_eq!(table.find(here, there), Ok(2));
    assert_eq!(table.get(2), Some(ends.ends[0].clone()));
    table.close(here, there).unwrap();
    assert_eq!(table.find(here, there), Err(Refusal::OtherPair));

    // An address's bytes behind the family's mean nothing.
    let mut bytes = *ends.ends[0].as_bytes();
    bytes[20..32].fill(0xAA);
    let table = Connections::from_bytes(bytes).unwrap();
    assert_eq!(table.find(here, there), Ok(0));
}

/// Any other length gets 18 first, and nothing is written.
#[test]
fn lengths() {
    use embankery::raw;
    for length in [1, 176, 178, 353, 355, 257 * 177, 256 * 177 + 1] {
        let mut bytes = vec![4; length];
        let before = bytes.clone();
        let mut out = [7; 4];
        let answers = [
            raw::connections_open_active(0, &[1], &[], &[], &[1], 0, 0, 0, 0, &mut bytes),
            raw::connections_open_active_md5(0, &[1], &[], &[], &[1], 0, 0, 0, &mut bytes),
            raw::connections_open_passive(0, &[1], &[], &[], &[1], &[], 0, 0, &mut bytes),
            raw::connections_judge(0, &[1], &[], &[], &[1], &[], 0, &mut bytes),
            raw::connections_sign(0, &[1], &[], &[], &[1], &[], &mut out, &mut bytes),
            raw::connections_ask(0, &[1], &[], &[], &[1], 0, 0, 0, &mut bytes),
            raw::connections_close(&[], &[1], 0, 0, &mut bytes),
            raw::connections_find(&[], &[1], 0, 0, &bytes),
        ];
        assert_eq!(answers, [18; 8]);
        assert_eq!((bytes, out), (before, [7; 4]));
    }
    // 19, then the tables.
    let bytes = &mut [0; 177];
    let (one, four) = (&[1][..], &[0; 4][..]);
    assert_eq!(
        raw::connections_judge(0, one, &[], four, one, &[], 0, bytes),
        19
    );
    assert_eq!(
        raw::connections_judge(0, one, &[], four, four, &[], 0, bytes),
        11
    );
    assert_eq!(
        raw::connections_sign(0, &[], &[], four, one, &[], &mut [], bytes),
        19
    );
    assert_eq!(
        raw::connections_sign(0, one, &[], four, four, &[], &mut [], bytes),
        11
    );
    assert_eq!(
        raw::connections_sign(0, &[], &[], four, four, &[], &mut [], bytes),
        30
    );
    assert_eq!(
        raw::connections_ask(0, one, &[], four, four, 0, 0, 0, bytes),
        11
    );
    assert_eq!(
        raw::connections_ask(0, &[], &[], four, four, 0, 0, 0, bytes),
        23
    );
    assert_eq!(raw::connections_close(one, four, 0, 0, bytes), 19);
    assert_eq!(raw::connections_find(one, four, 0, 0, bytes), 19);
}
