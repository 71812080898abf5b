//! Ticket 8: prepared tables, those that are refused with 44, and what stored entries are read as.

use super::*;
use kit::entry::table;
use kit::prepared::{length, mark, prepared, Field};
use kit::Side;
use std::slice::from_ref;

/// A stored entry, and what it must be read as.
pub struct Raw {
    pub name: String,
    pub meant: Entry,
    /// What stands in its fields in place of what `meant` has there.
    pub fields: Vec<(Field, Vec<u8>)>,
}

impl Raw {
    /// In the middle of three keys, or of three MD5 entries, between others.
    pub fn table(&self) -> Vec<u8> {
        let [mut keys, mut md5] = others();
        let by_md5 = self.meant.algorithm == 19;
        let list = if by_md5 { &mut md5 } else { &mut keys };
        list.insert(1, self.meant.clone());
        let index = if by_md5 { 3 } else { 1 };
        let mut table = prepared(&keys, &md5);
        for (field, bytes) in &self.fields {
            let place = field.of(keys.len() + md5.len(), index);
            table[place][..bytes.len()].copy_from_slice(bytes);
        }
        table
    }
}

/// Two keys and two MD5 entries for others.
pub fn others() -> [Vec<Entry>; 2] {
    let far = |last| [10, 0, 9, last];
    [
        [1, 2].map(|last| Entry::between(&A4, &far(last)).ids(1, 2)),
        [3, 4].map(|last| Entry::md5(&A4, &far(last))),
    ]
    .map(Vec::from)
}

/// A and B, open, with the entry alone, as bytes.
pub fn with_entry(entry: &Entry) -> (End, End) {
    let six = entry.local.address.len() == 16;
    let (a, b): (&[u8], &[u8]) = if six { (&A6, &B6) } else { (&A4, &B4) };
    if entry.algorithm == 19 {
        let (mut a, mut b) = md5_opened(a, b);
        (a.md5, b.md5) = (entry.bytes(), entry.mirror().bytes());
        (a.table, b.table) = (vec![], vec![]);
        (a, b)
    } else {
        let (mut a, mut b) = opened(a, b);
        (a.table, b.table) = (entry.bytes(), entry.mirror().bytes());
        (a, b)
    }
}

/// Fields with bytes that no valid entry has, or that count as others.
pub fn raws() -> Vec<Raw> {
    let mut list = vec![];
    let mut add = |name: &str, meant: &Entry, fields: &[(Field, &[u8])]| {
        let fields = fields.iter().map(|(field, bytes)| (*field, bytes.to_vec()));
        list.push(Raw {
            name: name.to_string(),
            meant: meant.clone(),
            fields: fields.collect(),
        });
    };
    let four = Entry::between(&A4, &B4).ids(1, 2);
    let six = Entry::between(&A6, &B6).ids(1, 2);
    for flags in 0..8 {
        let entry = Entry {
            flags,
            ..four.clone()
        };
        add("flags", &entry, &[(Field::Flags, &[flags + 8])]);
        add("flags", &entry, &[(Field::Flags, &[flags + 248])]);
    }
    for (byte, algorithm) in [(0, 1), (4, 3), (19, 3), (255, 3)] {
        let entry = Entry {
            algorithm,
            ..four.clone()
        };
        add("algorithm", &entry, &[(Field::Algorithm, &[byte])]);
    }
    for (byte, bytes) in [(0, 4), (3, 4), (17, 16), (255, 16)] {
        let entry = four.clone().mac_length(bytes);
        add("MAC bytes", &entry, &[(Field::MacBytes, &[byte])]);
    }
    let md5 = [Entry::md5(&A4, &B4), Entry::md5(&A6, &B6)];
    let stored: &[(Field, &[u8])] = &[
        (Field::SendId, &[1]),
        (Field::RecvId, &[2]),
        (Field::Flags, &[7]),
        (Field::Algorithm, &[1]),
        (Field::MacBytes, &[4]),
    ];
    for entry in &md5 {
        add("an MD5 entry as a key", entry, stored);
        for field in stored {
            add("an MD5 entry's field", entry, &[(field.0, &[0x5a])]);
        }
    }

    // What the two parts have alike.
    for [four, six] in [[four, six], md5] {
        for family in [0, 1, 5, 7, 255] {
            add("family", &six, &[(Field::Family, &[family])]);
        }
        for (byte, bytes) in [(0, 1), (81, 80), (255, 80)] {
            let key: Vec<u8> = (101..181).collect();
            let entry = Entry {
                key: key[..bytes].to_vec(),
                ..four.clone()
            };
            let fields: &[(Field, &[u8])] = &[(Field::KeyLength, &[byte]), (Field::Key, &key)];
            add("key length", &entry, fields);
        }
        let mut behind = [0xff; 80];
        behind[..four.key.len()].copy_from_slice(&four.key);
        add("bytes behind the key", &four, &[(Field::Key, &behind)]);
        for byte in [33, 64, 128, 255] {
            add("prefix", &four, &[(Field::RemotePrefix, &[byte])]);
            add("prefix", &four, &[(Field::LocalPrefix, &[byte])]);
        }
        for byte in [129, 255] {
            add("prefix", &six, &[(Field::RemotePrefix, &[byte])]);
            add("prefix", &six, &[(Field::LocalPrefix, &[byte])]);
        }
        for prefix in [0, 1, 20, 30] {
            let all = |address: &[u8; 4]| {
                let mask = u32::MAX.checked_shl(32 - prefix).unwrap_or(0);
                (u32::from_be_bytes(*address) & mask).to_be_bytes()
            };
            let side = |address: &[u8; 4]| Side::any(4).prefix(&all(address), prefix as u8);
            let entry = Entry {
                local: side(&A4),
                remote: side(&B4),
                ..four.clone()
            };
            let set = |address: &[u8; 4]| {
                let past = u32::MAX.checked_shr(prefix).unwrap_or(0);
                (u32::from_be_bytes(all(address)) | past).to_be_bytes()
            };
            let fields: &[(Field, &[u8])] = &[
                (Field::RemoteAddress, &set(&B4)[..3]),
                (Field::Mark, &[mark(&set(&B4))]),
                (Field::LocalAddress, &set(&A4)),
            ];
            add("bits past the prefix", &entry, fields);
        }
        let fields: &[(Field, &[u8])] = &[
            (Field::RemoteAddress, &[&B4[..3], &[0xff; 12]].concat()),
            (Field::LocalAddress, &[&A4[..], &[0xff; 12]].concat()),
        ];
        add("bytes behind the address", &four, fields);
        for at in 3..15 {
            let mut address = [&B4[..3], &[0; 12]].concat();
            address[at] = 1;
            let fields: &[(Field, &[u8])] = &[(Field::RemoteAddress, &address)];
            add("a byte behind the address", &four, fields);
        }

        // The mark counts for the last byte alone, and for its bits within the prefix.
        let network = |entry: &Entry, address: &[u8], prefix: u8| Entry {
            remote: Side::any(address.len()).prefix(address, prefix),
            ..entry.clone()
        };
        let (four_net, six_net) = ([10, 0, 0, 0], [&B6[..15], &[0]].concat());
        for byte in [0, 1, 9, 10, 11, 12, 128, 252, 253, 254, 255] {
            for prefix in [0, 8, 23, 24] {
                let address: &[u8] = if prefix < 8 { &[0; 4] } else { &four_net };
                let entry = network(&four, address, prefix);
                add("any mark", &entry, &[(Field::Mark, &[byte])]);
            }
            for prefix in [119, 120] {
                let entry = network(&six, &six_net, prefix);
                add("any mark", &entry, &[(Field::Mark, &[byte])]);
            }
        }
        for past in 0..4 {
            let entry = network(&four, &four_net, 30);
            add(
                "the mark's last bits",
                &entry,
                &[(Field::Mark, &[10 + past])],
            );
            let entry = network(&six, &six_net, 126);
            let byte = B6[0].wrapping_add(past);
            add("the mark's last bits", &entry, &[(Field::Mark, &[byte])]);
        }
        for (low, high) in [(B_PORT, B_PORT + 1), (B_PORT - 1, B_PORT), (0, 300)] {
            let entry = Entry {
                remote: Side::host(&B4).ports(low, high),
                ..four.clone()
            };
            let fields: &[(Field, &[u8])] = &[
                (Field::RemoteLow, &high.to_be_bytes()),
                (Field::RemoteHigh, &low.to_be_bytes()),
            ];
            add("remote ports exchanged", &entry, fields);
        }
        for (low, high) in [(A_PORT, A_PORT + 1), (A_PORT - 1, A_PORT)] {
            let entry = Entry {
                local: Side::host(&A4).ports(low, high),
                ..four.clone()
            };
            let fields: &[(Field, &[u8])] = &[
                (Field::LocalLow, &high.to_be_bytes()),
                (Field::LocalHigh, &low.to_be_bytes()),
            ];
            add("local ports exchanged", &entry, fields);
        }
    }
    list
}

/// A call with a prepared table.
fn by_form(form: u8, call: Call) -> Call {
    Call { form, ..call }
}

/// A segment from B arrives at A, in whichever family.
fn arrives(a: &End, segment: &[u8]) -> Call {
    with_addresses(judge(segment), &a.pair.remote, &a.pair.local)
}

/// Stored entries are read as what valid bytes could hold.
pub fn read_as(list: &mut List) {
    for raw in raws() {
        let (a, mut b) = with_entry(&raw.meant);
        let from_b = b.sign(B_ISN + 1, ACK, b"from B");
        let data = a.segment(A_ISN + 1, ACK, b"data").bytes();
        let mut add = |call: Call, answer: Answer| {
            let call = by_form(1, call);
            list.add(&raw.name, &raw.table(), &a.state, call, answer);
        };
        add(arrives(&a, &from_b), (0, 0));
        let added = match raw.meant.algorithm {
            19 => 20,
            _ => raw.meant.added(),
        };
        let signed = (data.len() + added) as u32;
        add(sign_into(&data, data.len() + 20), (0, signed));
    }
}

/// Stored entries that are read so that they do not match.
pub fn not_matched(scene: &Scene, list: &mut List) {
    let other = [10, 0, 0, 3];
    let four = Entry::between(&A4, &B4).ids(1, 2);
    let to_other = Entry::between(&A4, &other).ids(1, 2);
    let from_other = Entry::between(&other, &B4).ids(1, 2);
    let with_ports = |low: u16, high: u16| Entry {
        remote: Side::host(&B4).ports(low, high),
        ..four.clone()
    };
    let mut add = |name: &str, entry: &Entry, field: Field, bytes: &[u8]| {
        let raw = Raw {
            name: name.to_string(),
            meant: entry.clone(),
            fields: vec![(field, bytes.to_vec())],
        };
        let call = by_form(1, judge(&scene.from_b));
        list.add(name, &raw.table(), &scene.a.state, call, (26, 0));
        let call = by_form(1, sign(&scene.data));
        list.add(name, &raw.table(), &scene.a.state, call, (35, 0));
    };
    for prefix in [32, 33, 64, 66, 128, 255] {
        add("another peer", &to_other, Field::RemotePrefix, &[prefix]);
        add("another here", &from_other, Field::LocalPrefix, &[prefix]);
    }
    for family in [0, 5, 6, 255] {
        add("another family", &four, Field::Family, &[family]);
    }
    // 2 is the peer's last byte, 10 the sum of those before it.
    for byte in [0, 2, 8, 10, 11, 13, 140, 255] {
        add("another mark", &four, Field::Mark, &[byte]);
    }
    let upper = Field::RemoteAddress;
    add("another first byte", &four, upper, &[11]);
    add("another third byte", &four, upper, &[10, 0, 1]);
    add("a fourth byte", &to_other, upper, &[10, 0, 0, 2]);
    add("a fourth byte", &to_other, upper, &[10, 0, 0, 1]);
    add("a fourth byte", &to_other, upper, &[10, 0, 0, 255]);
    // Each side has its own prefix length.
    let anywhere = Entry {
        local: Side::any(4),
        ..to_other.clone()
    };
    add(
        "another peer, any here",
        &anywhere,
        Field::RemotePrefix,
        &[32],
    );
    let anybody = Entry {
        remote: Side::any(4),
        ..from_other.clone()
    };
    add(
        "another here, any peer",
        &anybody,
        Field::LocalPrefix,
        &[32],
    );
    let below = with_ports(0, B_PORT - 1);
    add("ports below", &below, Field::RemoteLow, &[0, 1]);
    let exchanged = with_ports(B_PORT - 1, 0);
    add("ports below", &exchanged, Field::RemoteHigh, &[0, 1]);
}

/// Peers of one mark, of which most sum to 256 and more: each is found among the others.
pub fn marks(list: &mut List) {
    let four: [&[u8]; 5] = [
        &[200, 100, 50, 3],
        &[200, 100, 3, 50],
        &[0, 0, 0, 97],
        &[97, 0, 0, 0],
        &[255, 255, 255, 100],
    ];
    let [mut low, mut high] = [[0; 16], [255; 16]];
    (low[15], high[15]) = (97, 112);
    let six: [&[u8]; 2] = [&low, &high];
    for (peers, ours) in [(&four[..], &A4[..]), (&six, &A6)] {
        assert!(peers.iter().all(|peer| mark(peer) == 97));
        let key = |(at, peer): (usize, &&[u8])| Entry {
            key: vec![at as u8 + 1; 16],
            ..Entry::between(ours, peer).ids(1, 2)
        };
        let keys: Vec<Entry> = peers.iter().enumerate().map(key).collect();
        let table = prepared(&keys, &others()[1]);
        for (peer, entry) in peers.iter().zip(&keys) {
            let (mut a, mut b) = opened(ours, peer);
            (a.table, b.table) = (entry.bytes(), entry.mirror().bytes());
            let from_b = b.sign(B_ISN + 1, ACK, b"from B");
            let data = a.segment(A_ISN + 1, ACK, b"data").bytes();
            let signed = data.len() + 16;
            let mut add = |call: Call, answer: Answer| {
                list.add("marks", &table, &a.state, by_form(1, call), answer);
            };
            add(arrives(&a, &from_b), (0, 0));
            add(sign_into(&data, signed), (0, signed as u32));
        }
    }
}

/// Every call, with one of these as the prepared table and its answer.
fn by_all(scene: &Scene, list: &mut List, name: &str, lent: (&[u8], &[u8]), answer: Answer) {
    let (a, _) = md5_opened(&A4, &B4);
    let answer = kit::word(answer.0, answer.1);
    let mut add =
        |state: &[u8], call: Call| list.add_with(name, lent, state, by_form(1, call), answer);
    add(&scene.empty, check_table());
    add(&scene.a.state, active(1));
    add(&scene.a.state, active_md5());
    add(&scene.empty, judge_syn(&scene.syn, 0));
    add(&scene.empty, judge_syn(&[], 0));
    add(&scene.b.state, passive(&scene.syn, 1));
    add(&scene.b.state, passive(&[], 1));
    add(&scene.a.state, judge(&scene.from_b));
    add(&scene.a.state, judge(&[]));
    add(&scene.opening.state, judge(&scene.from_b));
    add(&scene.a.state, sign(&scene.data));
    add(&scene.a.state, sign_into(&[], 0));
    add(&scene.a.state, ask(2));
    add(&a.state, ask(2));
}

/// 44: the length and the counts, and a second buffer; and what comes before it.
pub fn refused(scene: &Scene, list: &mut List) {
    let keys = &scene.keys;
    let [_, md5] = others();
    let good = prepared(keys, &md5);
    let with = |n: u16, m: u16, bytes: usize| {
        let mut table = [&n.to_be_bytes()[..], &m.to_be_bytes(), &good[4..]].concat();
        table.resize(bytes, 0);
        table
    };
    let bytes = good.len();
    let bad: [(&str, Vec<u8>); 14] = [
        ("no bytes", vec![]),
        ("three bytes", vec![0; 3]),
        ("one entry, no bytes of it", vec![0, 1, 0, 0]),
        ("one MD5 entry, no bytes of it", vec![0, 0, 0, 1]),
        ("one byte behind no entry", vec![0; 5]),
        ("one byte missing", with(3, 2, bytes - 1)),
        ("one byte more", with(3, 2, bytes + 1)),
        ("one entry more", with(3, 2, length(6))),
        ("a count one too small", with(2, 2, bytes)),
        ("a count one too large", with(4, 2, bytes)),
        ("an MD5 count one too small", with(3, 1, bytes)),
        ("an MD5 count one too large", with(3, 3, bytes)),
        ("counts in the other order", with(0x300, 0x200, bytes)),
        ("a table's own bytes", table(keys)),
    ];
    for (name, table) in &bad {
        by_all(scene, list, name, (table, &[]), (44, 0));
    }
    by_all(scene, list, "a second buffer", (&good, &[0]), (44, 0));
    let md5_bytes = table(&md5);
    by_all(scene, list, "an MD5 table", (&good, &md5_bytes), (44, 0));
    by_all(scene, list, "both", (&good[1..], &[8]), (44, 0));

    let mut check = |name: &str, (n, m): (u16, u16), answer: Answer| {
        let table = with(n, m, length(usize::from(n) + usize::from(m)));
        let call = by_form(1, check_table());
        list.add(name, &table, &scene.empty, call, answer);
    };
    check("1,024 entries", (1_024, 0), (0, 1_024));
    check("1,025 entries", (1_025, 0), (44, 0));
    check("1,024 MD5 entries", (0, 1_024), (0, 0));
    check("1,025 MD5 entries", (0, 1_025), (44, 0));
    check("1,024 and one", (1_024, 1), (0, 1_024));
    check("one and 1,024", (1, 1_024), (0, 1));
    check("none", (0, 0), (0, 0));
    check("three and two", (3, 2), (0, 3));

    // 18 and 19 come before it.
    for length in [0, State::BYTES - 1, State::BYTES + 1] {
        let state = vec![4; length];
        for call in [active(1), active_md5(), passive(&[], 0), judge(&[]), ask(0)] {
            let call = by_form(1, call);
            list.add("a state's length", &[], &state, call, (18, 0));
        }
    }
    let none = &scene.empty;
    for call in [judge(&[]), sign(&[]), ask(0)] {
        let call = by_form(1, call);
        list.add("a state's family", &[], none, call, (18, 0));
    }
    for call in [
        active(1),
        active_md5(),
        judge_syn(&[], 0),
        passive(&[], 0),
        judge(&[]),
    ] {
        let call = by_form(1, with_addresses(call, &A4, &B6));
        list.add("addresses", &[], &scene.a.state, call, (19, 0));
    }

    // Any form but 0 is a prepared table, and no byte of it says so.
    for form in [1, 2, 128, 255] {
        let call = by_form(form, check_table());
        list.add("form", &good, &scene.empty, call, (0, 3));
        let call = by_form(form, judge(&scene.from_b));
        list.add("form", &good, &scene.a.state, call, (0, 0));
    }
    let call = by_form(0, check_table());
    list.add("as bytes", &good, &scene.empty, call, (11, 0));
}

/// What the bytes give, prepared tables give: each call once where it is done.
pub fn done(scene: &Scene, list: &mut List) {
    let [_, md5] = others();
    let (a, b) = (prepared(&scene.keys, &md5), {
        let mirror: Vec<Entry> = scene.keys.iter().map(Entry::mirror).collect();
        prepared(&mirror, &md5)
    });
    let mut add = |table: &[u8], state: &[u8], call: Call, answer: Answer| {
        list.add("done", table, state, by_form(1, call), answer);
    };
    let signed = scene.data.len() as u32 + 16;
    add(&a, &scene.empty, active(1), (0, 0));
    add(&a, &scene.empty, active(3), (0, 0));
    add(&a, &scene.empty, active(5), (35, 0));
    add(&b, &scene.empty, judge_syn(&scene.syn, 0), (0, 0));
    add(&b, &scene.empty, passive(&scene.syn, 0), (0, 0));
    add(&a, &scene.a.state, judge(&scene.from_b), (0, 0));
    add(&a, &scene.a.state, sign(&scene.data), (0, signed));
    add(&a, &scene.a.state, ask(4), (0, 0));
    add(&a, &scene.a.state, ask(6), (35, 0));

    let (md5_a, mut md5_b) = md5_opened(&A4, &B4);
    let (mut opening, _) = md5_ends(&A4, &B4);
    assert_eq!(opening.open_active_md5(A_ISN), 0);
    let syn = opening.sign(A_ISN, SYN, b"");
    let from_b = md5_b.sign(B_ISN + 1, ACK, b"from B");
    let entry = Entry::md5(&A4, &B4);
    let [keys, mut md5] = others();
    md5.push(entry.clone());
    let a = prepared(&keys, &md5);
    let b = prepared(&[], &[entry.mirror()]);
    let signed = scene.data.len() as u32 + 20;
    let data = sign_into(&scene.data, scene.data.len() + 20);
    add(&a, &scene.empty, active_md5(), (0, 0));
    add(&b, &scene.empty, judge_syn(&syn, 0), (0, 0));
    add(&b, &scene.empty, passive(&syn, 0), (0, 0));
    add(&a, &md5_a.state, judge(&from_b), (0, 0));
    add(&a, &md5_a.state, data, (0, signed));
    add(&a, &md5_a.state, ask(2), (35, 0));
}

/// "The clash is not tested again; a search by pair and ID takes the first such entry", and 45 is not.
pub fn not_tested_again(scene: &Scene, list: &mut List) {
    let named = |entry: &Entry, key: &[u8]| Entry {
        key: key.to_vec(),
        ..entry.clone()
    };
    for entry in [Entry::between(&A4, &B4).ids(1, 2), Entry::md5(&A4, &B4)] {
        let [one, other] = [named(&entry, b"one"), named(&entry, b"other")];
        let by_md5 = entry.algorithm == 19;
        let store = |entries: &[Entry]| match by_md5 {
            true => prepared(&[], entries),
            false => prepared(entries, &[]),
        };
        let (a, mut b) = with_entry(&one);
        let from_b = b.sign(B_ISN + 1, ACK, b"from B");
        let (_, mut wrong_b) = with_entry(&other);
        let wrong = wrong_b.sign(B_ISN + 1, ACK, b"from B");
        let [two, three] = [
            vec![one.clone(), other.clone()],
            vec![others()[usize::from(by_md5)][0].clone(), one, other],
        ];
        for entries in [two, three] {
            let table = store(&entries);
            let keys = if by_md5 { 0 } else { entries.len() as u32 };
            let mut add = |name: &str, call: Call, answer: Answer| {
                list.add(name, &table, &a.state, by_form(1, call), answer);
            };
            add("a clash", check_table(), (0, keys));
            add("by the first", judge(&from_b), (0, 0));
            add("by the second", judge(&wrong), (29, 0));
            let data = a.segment(A_ISN + 1, ACK, b"data").bytes();
            let added = if by_md5 { 20 } else { 16 };
            let signed = data.len() + added;
            add("by the first", sign_into(&data, signed), (0, signed as u32));
        }
    }

    // Only a SendID is shared, or a RecvID.
    let [one, other] = [(1, 9), (1, 2)].map(|(send, recv)| {
        let entry = Entry::between(&A4, &B4).ids(send, recv);
        named(&entry, &[send, recv])
    });
    let table = prepared(&[one, other], &[]);
    let mut add = |name: &str, call: Call, answer: Answer| {
        list.add(name, &table, &scene.a.state, by_form(1, call), answer);
    };
    add("the first of two SendIDs", active(1), (0, 0));
    add("the second's RecvID", ask(2), (0, 0));

    // Both ways have an entry for the pair.
    let key = Entry::between(&A4, &B4).ids(1, 2);
    let md5 = Entry::md5(&A4, &B4);
    let both = prepared(from_ref(&key), from_ref(&md5));
    let theirs = prepared(&[key.mirror()], &[md5.mirror()]);
    let (mut opening, _) = md5_ends(&A4, &B4);
    assert_eq!(opening.open_active_md5(A_ISN), 0);
    let md5_syn = opening.sign(A_ISN, SYN, b"");
    let plain_syn = scene.plain_syn.bytes();
    let mut add = |table: &[u8], call: Call, answer: Answer| {
        list.add("both ways", table, &scene.empty, by_form(1, call), answer);
    };
    add(&both, check_table(), (0, 1));
    add(&both, active(1), (0, 0));
    add(&both, active_md5(), (0, 0));
    add(&theirs, judge_syn(&md5_syn, 0), (0, 0));
    add(&theirs, passive(&md5_syn, 0), (0, 0));
    add(&theirs, judge_syn(&scene.syn, 0), (46, 0));
    add(&theirs, judge_syn(&plain_syn, 0), (47, 0));

    // Neither part is looked at for the other's entries.
    let (as_md5, as_key) = (prepared(&[], from_ref(&key)), prepared(from_ref(&md5), &[]));
    let (md5_a, mut md5_b) = md5_opened(&A4, &B4);
    let from_md5_b = md5_b.sign(B_ISN + 1, ACK, b"from B");
    let mut add = |table: &[u8], state: &[u8], call: Call, answer: Answer| {
        list.add("the other part", table, state, by_form(1, call), answer);
    };
    add(&as_md5, &scene.a.state, active(1), (35, 0));
    add(&as_md5, &scene.a.state, judge(&scene.from_b), (26, 0));
    add(&as_md5, &scene.a.state, sign(&scene.data), (35, 0));
    add(&as_md5, &scene.a.state, ask(2), (35, 0));
    add(&as_key, &scene.a.state, active_md5(), (35, 0));
    add(&as_key, &md5_a.state, judge(&from_md5_b), (26, 0));
    add(&as_key, &md5_a.state, sign(&scene.data), (35, 0));
}

/// Into a buffer of so many bytes.
pub fn prepare(room: usize) -> Call {
    Call {
        out: vec![0xee; room],
        ..Call::new(Function::Prepare, &[])
    }
}

/// Preparing: the length written, 37, and the tables' refusals before it.
pub fn preparing(scene: &Scene, list: &mut List) {
    let [mut keys, md5] = others();
    keys.push(Entry::between(&A6, &B6).ids(1, 2).mac_length(16));
    keys.push(Entry {
        local: Side::host(&A4).ports(0x0102, 0x0304),
        remote: Side::host(&B4).ports(0x0506, 0x0708),
        ..Entry::between(&A4, &B4).ids(3, 4).nat(true, true)
    });
    keys.push(Entry {
        local: Side::any(4).prefix(&[10, 0, 0, 0], 8),
        ..Entry::between(&A4, &[10, 7, 7, 7]).ids(5, 6)
    });
    let (keys, md5) = (table(&keys), table(&md5));
    let clash = [&keys[..104], &keys[..104]].concat();
    let mut add = |name: &str, lent: (&[u8], &[u8]), room: usize, answer: u64| {
        list.add_with(name, lent, &scene.empty, prepare(room), answer);
    };
    for (lent, entries) in [
        ((&[][..], &[][..]), 0),
        ((&keys, &[]), 5),
        ((&[], &md5), 2),
        ((&keys, &md5), 7),
    ] {
        let bytes = length(entries);
        for room in [bytes, bytes + 1, bytes + 200] {
            add("prepared", lent, room, kit::word(0, bytes as u32));
        }
        for room in [0, bytes / 2, bytes - 1] {
            add("too short", lent, room, kit::word(37, 0));
        }
    }
    for room in [0, 5_000] {
        add("a clash", (&clash, &[]), room, kit::word(17, 1));
        add("kind", (&[9], &[9]), room, kit::word(11, 0));
        add("MD5 kind", (&keys, &[9]), room, kit::md5_word(11, 0));
        let both = Entry::md5(&A4, &B4).bytes();
        add("45", (&keys, &both), room, kit::md5_word(45, 0));
    }
}
