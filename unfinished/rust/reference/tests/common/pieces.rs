//! Directed runs of data in pieces, with what each call must answer: Ticket 11.

use super::ends::*;
use kit::pieces::{play, Outcome, Script, Step, Tables};
use kit::segment::{summed, ACK, SYN};
use kit::{pieces_of, word, End, State};

pieces_of!(
    /// The reference's calls.
    Reference,
    reference
);
pieces_of!(
    /// Its faulty copy's.
    Faulty,
    faulty
);

/// A script, and the answers of its calls.
#[derive(Clone)]
pub struct Case {
    pub name: String,
    pub script: Script,
    pub answers: Vec<u64>,
}

pub fn run(case: &Case) -> Vec<Outcome> {
    play(&Reference, &case.script)
}

/// The tables of an end.
pub fn tables(end: &End) -> Tables {
    Tables {
        form: end.form,
        keys: end.table.clone(),
        md5: end.md5.clone(),
    }
}

/// How many bytes of a segment are its header.
pub fn header_bytes(segment: &[u8]) -> usize {
    4 * usize::from(segment[12] >> 4)
}

/// The steps of checking a segment that comes to this end, in run `run`: cut at these places of its data.
pub fn judging(end: &End, run: usize, segment: &[u8], cuts: &[usize]) -> Vec<Step> {
    let (header, data) = segment.split_at(header_bytes(segment));
    let mut steps = vec![Step::JudgeHeader {
        run,
        tables: tables(end),
        source: end.pair.remote.clone(),
        destination: end.pair.local.clone(),
        header: header.to_vec(),
        announced: data.len() as u64,
    }];
    steps.extend(parts(data, cuts).map(|data| Step::JudgePart { run, data }));
    steps.push(Step::JudgeEnd {
        run,
        tables: tables(end),
    });
    steps
}

/// The steps of signing, likewise, where there is room for a header.
pub fn signing(end: &End, run: usize, segment: &[u8], cuts: &[usize]) -> Vec<Step> {
    let (header, data) = segment.split_at(header_bytes(segment));
    let mut steps = vec![Step::SignHeader {
        run,
        tables: tables(end),
        header: header.to_vec(),
        announced: data.len() as u64,
    }];
    steps.extend(parts(data, cuts).map(|data| Step::SignPart { run, data }));
    steps.push(Step::SignEnd { run, room: 60 });
    steps
}

/// Data cut at these places, in order; the same place twice gives an empty part.
fn parts<'a>(data: &'a [u8], cuts: &'a [usize]) -> impl Iterator<Item = Vec<u8>> + 'a {
    let ends = cuts.iter().copied().chain([data.len()]);
    let starts = [0].into_iter().chain(cuts.iter().copied());
    starts
        .zip(ends)
        .map(|(start, end)| data[start..end].to_vec())
}

/// Both ends of the connections, and segments of them.
pub struct Scene {
    pub a: End,
    pub b: End,
    pub a6: End,
    pub b6: End,
    pub am: End,
    pub bm: End,
    /// A, opening by either way, and the SYN+ACK that answers.
    pub opening: End,
    pub syn_ack: Vec<u8>,
    pub opening_md5: End,
    pub syn_ack_md5: Vec<u8>,
}

impl Scene {
    pub fn new() -> Scene {
        let (a, b) = opened(&A4, &B4);
        let (a6, b6) = opened(&A6, &B6);
        let (am, bm) = md5_opened(&A4, &B4);
        let (mut opening, mut answering) = ends(&A4, &B4);
        assert_eq!(opening.open_active(A_ISN, 1), 0);
        let syn = opening.clone().sign(A_ISN, SYN, b"");
        assert_eq!(answering.open_passive(&syn, B_ISN, 0), 0);
        let syn_ack = answering.sign(B_ISN, SYN | ACK, b"");
        let (mut opening_md5, mut answering) = md5_ends(&A4, &B4);
        assert_eq!(opening_md5.open_active_md5(A_ISN), 0);
        let syn = opening_md5.clone().sign(A_ISN, SYN, b"");
        assert_eq!(answering.open_passive(&syn, B_ISN, 0), 0);
        let syn_ack_md5 = answering.sign(B_ISN, SYN | ACK, b"");
        Scene {
            a,
            b,
            a6,
            b6,
            am,
            bm,
            opening,
            syn_ack,
            opening_md5,
            syn_ack_md5,
        }
    }
}

/// Where a state is changed between header and end call, and whether that is 48.
pub fn changes(state: &State) -> Vec<(&'static str, State, bool)> {
    let mut all: Vec<(&'static str, State, bool)> = vec![];
    let mut add = |name, change: &dyn Fn(&mut State), refused| {
        let mut changed = *state;
        change(&mut changed);
        all.push((name, changed, refused));
    };
    add("nothing", &|_| {}, false);
    add("no family", &|state| state.family = 0, true);
    add("the family", &|state| state.family ^= 2, true);
    add("the local address", &|state| state.local[3] ^= 1, true);
    add("the remote address", &|state| state.remote[3] ^= 1, true);
    add("the local port", &|state| state.local_port ^= 1, true);
    add("the remote port", &|state| state.remote_port ^= 1, true);
    add("the way", &|state| state.way ^= 1, true);
    add("the stage", &|state| state.stage ^= 1, true);
    add("our ISN", &|state| state.our_isn ^= 1, true);
    add("the peer's ISN", &|state| state.peer_isn ^= 1, true);
    if state.family == 4 {
        add(
            "behind the local address",
            &|state| state.local[9] = 7,
            false,
        );
        add(
            "behind the remote address",
            &|state| state.remote[15] = 7,
            false,
        );
    }
    if state.way != 1 {
        add(
            "the way, to another of TCP-AO",
            &|state| state.way = 77,
            false,
        );
    }
    if state.stage != 1 {
        add(
            "the stage, to another of opening",
            &|state| state.stage = 77,
            false,
        );
    }
    add(
        "the outgoing key",
        &|state| state.outgoing_send_id = 3,
        false,
    );
    add("the asked key", &|state| state.asked_recv_id = 4, false);
    add(
        "no outgoing key",
        &|state| state.outgoing_send_id = 99,
        false,
    );
    let far = |state: &mut State| {
        state.signing_reference += 5 << 32;
        state.arriving_reference += 5 << 32;
    };
    add("the references, far on", &far, false);
    let back = |state: &mut State| {
        state.signing_reference = 0;
        state.arriving_reference = 0;
    };
    add("the references, back", &back, false);
    add("accepted", &|state| state.accepted = 9, false);
    add("the counts", &|state| state.drops = [5; 13], false);
    add(
        "the counts, at the stop",
        &|state| state.drops = [u64::MAX; 13],
        false,
    );
    all
}

struct List(Vec<Case>);

impl List {
    fn add(&mut self, name: &str, end: &End, steps: Vec<Step>, answers: &[u64]) {
        self.0.push(Case {
            name: name.to_string(),
            script: Script {
                state: end.state.clone(),
                runs: 3,
                steps,
            },
            answers: answers.to_vec(),
        });
    }
}

/// The directed runs.
pub fn cases() -> Vec<Case> {
    let scene = Scene::new();
    let mut list = List(vec![]);
    whole(&scene, &mut list);
    headers(&scene, &mut list);
    parts_and_lengths(&scene, &mut list);
    ends_of_runs(&scene, &mut list);
    between(&scene, &mut list);
    tables_between(&scene, &mut list);
    rooms(&scene, &mut list);
    list.0
}

/// Every cut of short data, for both ways and families, opening and open.
fn whole(scene: &Scene, list: &mut List) {
    let Scene {
        a,
        b,
        a6,
        b6,
        am,
        bm,
        ..
    } = scene;
    for (name, end, peer) in [("IPv4", a, b), ("IPv6", a6, b6), ("MD5", am, bm)] {
        let arriving = peer.clone().sign(B_ISN + 9, ACK, b"seven b");
        let leaving = end.segment(A_ISN + 9, ACK, b"seven b").bytes();
        let added = if name == "MD5" { 20 } else { 16 };
        for one in 0..=7 {
            for other in one..=7 {
                let cuts = [one, other];
                let steps = judging(end, 0, &arriving, &cuts);
                list.add(name, end, steps, &[0; 5]);
                let steps = signing(end, 0, &leaving, &cuts);
                let signed = word(0, 20 + added);
                list.add(name, end, steps, &[0, 0, 0, 0, signed]);
            }
        }
    }
    let syn_ack = judging(&scene.opening, 0, &scene.syn_ack, &[]);
    list.add("opens", &scene.opening, syn_ack, &[0; 3]);
    let syn_ack = judging(&scene.opening_md5, 0, &scene.syn_ack_md5, &[]);
    list.add("opens by MD5", &scene.opening_md5, syn_ack, &[0; 3]);
    for (end, length) in [(&scene.opening, 36), (&scene.opening_md5, 40)] {
        let syn = end.segment(A_ISN, SYN, b"").bytes();
        let answers = [0, 0, word(0, length)];
        list.add("a SYN", end, signing(end, 0, &syn, &[]), &answers);
        let mut far = end.clone();
        let state = State {
            signing_reference: 7 << 32,
            ..far.state()
        };
        far.set(state);
        list.add("a SYN, far on", &far, signing(&far, 0, &syn, &[]), &answers);
    }

    // Without any part, where there is no data.
    let bare = b.clone().sign(B_ISN + 9, ACK, b"");
    let mut steps = judging(a, 0, &bare, &[]);
    steps.remove(1);
    list.add("no part", a, steps, &[0, 0]);
    // A key that is asked for.
    let mut asking = b.clone();
    assert_eq!(asking.ask(3), 0);
    let asks = asking.sign(B_ISN + 9, ACK, b"data");
    list.add(
        "asks for the other key",
        a,
        judging(a, 0, &asks, &[1]),
        &[0; 4],
    );
    // With options, of whatever length the header is.
    let options = a.segment(A_ISN + 9, ACK, b"data").options(&[1; 24]).bytes();
    let answers = [0, 0, word(0, 60)];
    list.add("eleven words", a, signing(a, 0, &options, &[]), &answers);
}

/// "A header call whose bytes are not just the header that their data offset (5 to 15) names".
fn headers(scene: &Scene, list: &mut List) {
    let Scene { a, b, .. } = scene;
    let signed = b.clone().sign(B_ISN + 9, ACK, b"data");
    let plain = a.segment(A_ISN + 9, ACK, b"data").bytes();
    let begin = |header: &[u8], state: &[u8], tables: Tables, addresses: (usize, usize)| {
        let judge = Step::JudgeHeader {
            run: 0,
            tables: tables.clone(),
            source: vec![1; addresses.0],
            destination: vec![1; addresses.1],
            header: header.to_vec(),
            announced: 4,
        };
        let sign = Step::SignHeader {
            run: 0,
            tables,
            header: header.to_vec(),
            announced: 4,
        };
        (vec![Step::State(state.to_vec()), judge], sign)
    };
    let mut add = |name: &str, header: &[u8], state: &[u8], tables: Tables, both: [u8; 2]| {
        let (mut steps, sign) = begin(header, state, tables, (4, 4));
        steps.push(sign);
        list.add(name, a, steps, &both.map(u64::from));
    };
    let good = tables(a);
    let bad = Tables {
        keys: vec![4],
        ..good.clone()
    };
    let header = &signed[..header_bytes(&signed)];
    assert_eq!(header.len(), 36);
    add("good", header, &a.state, good.clone(), [0, 0]);
    for length in 0..=signed.len() {
        let number = if length == 36 { 0 } else { 48 };
        add(
            "cut or more",
            &signed[..length],
            &a.state,
            good.clone(),
            [number; 2],
        );
    }
    for words in 0..16u8 {
        let mut other = plain[..20].to_vec();
        other[12] = words << 4;
        for length in [4 * usize::from(words), 20] {
            other.resize(length, 1);
            let number = if length == 4 * usize::from(words) && words >= 5 {
                0
            } else {
                48
            };
            add("words", &other, &a.state, good.clone(), [number; 2]);
        }
    }
    // 48, 18, tables.
    let empty = State::default().bytes();
    let short = &a.state[..176];
    for state in [&empty[..], short, &[]] {
        add("48 before 18", &signed, state, bad.clone(), [48; 2]);
        add("18 before the tables", header, state, bad.clone(), [18; 2]);
    }
    add(
        "48 before the tables",
        &signed,
        &a.state,
        bad.clone(),
        [48; 2],
    );
    add("the tables", header, &a.state, bad.clone(), [10; 2]);
    // 19 between 18 and the tables.
    for (name, header, state, number) in [
        ("48 before 19", &signed[..], &a.state[..], 48),
        ("18 before 19", header, &empty, 18),
        ("19 before the tables", header, &a.state, 19),
    ] {
        let (steps, _) = begin(header, state, bad.clone(), (4, 16));
        list.add(name, a, steps, &[number]);
    }
    // A run's buffer of another length.
    let (mut steps, sign) = begin(header, &empty, bad, (4, 16));
    steps.insert(0, Step::OtherLength { run: 0 });
    steps.push(sign);
    list.add("another length", a, steps, &[48, 48]);
}

/// Parts, and how many bytes they have.
fn parts_and_lengths(scene: &Scene, list: &mut List) {
    let Scene { a, b, .. } = scene;
    let signed = b.clone().sign(B_ISN + 9, ACK, b"seven b");
    let plain = a.segment(A_ISN + 9, ACK, b"seven b").bytes();
    let judge = |cuts: &[usize]| judging(a, 0, &signed, cuts);
    let sign = |cuts: &[usize]| signing(a, 0, &plain, cuts);
    let done = word(0, 36);

    // Sixteen parts, empty ones among them, and a seventeenth that leaves the run as it was.
    let sixteen = [0, 0, 0, 1, 1, 2, 3, 3, 4, 5, 6, 6, 7, 7, 7];
    let mut answers = vec![0; 18];
    list.add("sixteen parts", a, judge(&sixteen), &answers);
    answers[17] = done;
    list.add("sixteen parts", a, sign(&sixteen), &answers);
    for data in [vec![], vec![1]] {
        let mut steps = judge(&sixteen);
        let run = 0;
        let more = Step::JudgePart {
            run,
            data: data.clone(),
        };
        steps.insert(17, more);
        let mut answers = vec![0; 19];
        answers[17] = 48;
        list.add("a seventeenth", a, steps, &answers);
        let mut steps = sign(&sixteen);
        steps.insert(17, Step::SignPart { run, data });
        answers[18] = done;
        list.add("a seventeenth", a, steps, &answers);
    }
    let mut empty = judge(&[0; 16]);
    empty.truncate(18);
    list.add(
        "sixteen empty ones",
        a,
        empty,
        &[&[0; 17][..], &[48]].concat(),
    );

    // More bytes, which leave the run as it was, and fewer.
    for at in 1..=3 {
        let more = Step::JudgePart {
            run: 0,
            data: vec![7; 8],
        };
        let mut steps = judge(&[2]);
        steps.insert(at, more.clone());
        let mut answers = [0; 5];
        answers[at] = 48;
        list.add("more bytes", a, steps, &answers);
        let more = Step::SignPart {
            run: 0,
            data: vec![7; 8],
        };
        let mut steps = sign(&[2]);
        steps.insert(at, more);
        answers[4] = done;
        list.add("more bytes", a, steps, &answers);
    }
    let one_more = Step::JudgePart {
        run: 0,
        data: vec![7],
    };
    let mut steps = judge(&[2]);
    steps.insert(3, one_more);
    list.add("one byte more", a, steps, &[0, 0, 0, 48, 0]);
    for removed in [1, 2] {
        let mut steps = judge(&[2]);
        steps.remove(removed);
        list.add("fewer bytes", a, steps, &[0, 0, 48]);
        let mut steps = sign(&[2]);
        steps.remove(removed);
        list.add("fewer bytes", a, steps, &[0, 0, 48]);
    }
    let mut steps = judge(&[]);
    steps.remove(1);
    list.add("no bytes", a, steps, &[0, 48]);

    // More than a segment has: 20 or 30, at the end call.
    let long = vec![7; 65_536 - 20];
    for (name, announced, data, last) in [
        ("65,535 bytes", 65_515, &long[1..], [25, 32]),
        ("65,536 bytes", 65_516, &long[..], [20, 30]),
        ("fewer than 2^64-1", u64::MAX, &long[..], [48, 48]),
    ] {
        let header = &a.segment(A_ISN + 9, ACK, b"").bytes()[..];
        let ports = b.segment(B_ISN + 9, ACK, b"").bytes();
        let mut arriving = [&ports[..], data].concat();
        arriving = summed(&B4, &A4, &arriving);
        let (source, destination) = (B4.to_vec(), A4.to_vec());
        let judge = vec![
            Step::JudgeHeader {
                run: 0,
                tables: tables(a),
                source,
                destination,
                header: arriving[..20].to_vec(),
                announced,
            },
            Step::JudgePart {
                run: 0,
                data: data.to_vec(),
            },
            Step::JudgeEnd {
                run: 0,
                tables: tables(a),
            },
        ];
        let sign = vec![
            Step::SignHeader {
                run: 0,
                tables: tables(a),
                header: header.to_vec(),
                announced,
            },
            Step::SignPart {
                run: 0,
                data: data.to_vec(),
            },
            Step::SignEnd { run: 0, room: 60 },
        ];
        list.add(name, a, judge, &[0, 0, last[0]]);
        list.add(name, a, sign, &[0, 0, last[1]]);
    }
}

/// Runs of the other kind, blank ones, several at once, and repeated end calls.
fn ends_of_runs(scene: &Scene, list: &mut List) {
    let Scene { a, b, .. } = scene;
    let mut peer = b.clone();
    let first = peer.sign(B_ISN + 9, ACK, b"first");
    let second = peer.sign(B_ISN + 40, ACK, b"second");
    let plain = a.segment(A_ISN + 9, ACK, b"plain").bytes();
    let done = word(0, 36);

    // Of the other kind.
    let judge = judging(a, 0, &first, &[]);
    let sign = signing(a, 0, &plain, &[]);
    let crossed = [
        vec![judge[0].clone()],
        sign[1..].to_vec(),
        judge[1..].to_vec(),
    ]
    .concat();
    list.add("of the other kind", a, crossed, &[0, 48, 48, 0, 0]);
    let crossed = [
        vec![sign[0].clone()],
        judge[1..].to_vec(),
        sign[1..].to_vec(),
    ]
    .concat();
    list.add("of the other kind", a, crossed, &[0, 48, 48, 0, done]);

    // Blank, and of another length.
    for spoil in [Step::Blank { run: 0 }, Step::OtherLength { run: 0 }] {
        for (steps, last) in [(&judge, 0), (&sign, done)] {
            let mut again = steps.clone();
            again.insert(2, spoil.clone());
            list.add("blank before the end", a, again, &[0, 0, 48]);
            let mut again = steps.clone();
            again.insert(1, spoil.clone());
            list.add("blank before a part", a, again, &[0, 48, 48]);
            let mut again = steps.clone();
            again.insert(0, spoil.clone());
            let blank = matches!(spoil, Step::Blank { .. });
            let answers = if blank { [0, 0, last] } else { [48; 3] };
            list.add("blank before the header", a, again, &answers);
        }
    }

    // A refused header call leaves the run that is going on.
    let mut refused = judge.clone();
    let mut bad = judge[0].clone();
    if let Step::JudgeHeader { header, .. } = &mut bad {
        header.pop();
    }
    refused.insert(2, bad);
    list.add("a refused header between", a, refused, &[0, 0, 48, 0]);
    // One that is not refused begins anew.
    let anew = [&judge[..2], &judge[..]].concat();
    list.add("begun anew", a, anew, &[0; 5]);

    // Twice: a repeated arrival; once more signed.
    let twice = [&judge[..], &judge[2..]].concat();
    list.add("a repeated arrival", a, twice, &[0; 4]);
    let twice = [&sign[..], &sign[2..]].concat();
    list.add("signed again", a, twice, &[0, 0, done, done]);
    let opening = judging(&scene.opening, 0, &scene.syn_ack, &[]);
    let twice = [&opening[..], &opening[2..]].concat();
    list.add("opens once", &scene.opening, twice, &[0, 0, 0, 48]);

    // Several at once, the later one ended first.
    let one = judging(a, 0, &first, &[2]);
    let other = judging(a, 1, &second, &[3]);
    let third = signing(a, 2, &plain, &[1]);
    let steps = vec![
        one[0].clone(),
        other[0].clone(),
        third[0].clone(),
        other[1].clone(),
        one[1].clone(),
        third[1].clone(),
        other[2].clone(),
        other[3].clone(),
        third[2].clone(),
        third[3].clone(),
        one[2].clone(),
        one[3].clone(),
    ];
    let mut answers = [0; 12];
    answers[9] = done;
    list.add("three at once", a, steps, &answers);
    // A copy goes on from where it was taken.
    let steps = vec![
        one[0].clone(),
        one[1].clone(),
        Step::Copy { run: 0, to: 1 },
        one[2].clone(),
        one[3].clone(),
        Step::JudgeEnd {
            run: 1,
            tables: tables(a),
        },
        Step::JudgePart {
            run: 1,
            data: b"xxx".to_vec(),
        },
        Step::JudgeEnd {
            run: 1,
            tables: tables(a),
        },
    ];
    list.add("a copy goes on", a, steps, &[0, 0, 0, 0, 48, 0, 40]);
}

/// The state is changed between header and end call: in each field, at each stage, both ways.
fn between(scene: &Scene, list: &mut List) {
    let Scene {
        a,
        b,
        a6,
        b6,
        am,
        bm,
        ..
    } = scene;
    let good = b.clone().sign(B_ISN + 9, ACK, b"data");
    let mut wrong = good.clone();
    wrong[24] ^= 1;
    let wrong = summed(&B4, &A4, &wrong);
    let mut asking = b.clone();
    assert_eq!(asking.ask(3), 0);
    let asks = asking.sign(B_ISN + 9, ACK, b"data");
    let good6 = b6.clone().sign(B_ISN + 9, ACK, b"data");
    let good_md5 = bm.clone().sign(B_ISN + 9, ACK, b"data");
    let not = summed(&B4, &A4, &scene.a.segment(7, ACK, b"").bytes());
    let mut judged = vec![
        ("accepted", a, &good, 0),
        ("29", a, &wrong, 29),
        ("asks", a, &asks, 0),
        ("in IPv6", a6, &good6, 0),
        ("by MD5", am, &good_md5, 0),
        ("opens", &scene.opening, &scene.syn_ack, 0),
        ("opens by MD5", &scene.opening_md5, &scene.syn_ack_md5, 0),
        ("23", a, &not, 23),
        ("23 while opening", &scene.opening, &not, 23),
    ];
    let late = b.clone().sign(B_ISN + 1, ACK, b"");
    judged.push(("at the reference", a, &late, 0));
    for (name, end, segment, number) in judged {
        for (field, changed, refused) in changes(&end.state()) {
            let mut steps = judging(end, 0, segment, &[]);
            steps.insert(2, Step::State(changed.bytes()));
            let last = if refused { 48 } else { number };
            let name = format!("{name}, changed: {field}");
            list.add(&name, end, steps.clone(), &[0, 0, last]);
        }
    }
    for (end, number, flags, length) in [
        (a, A_ISN + 9, ACK, 36),
        (a6, A_ISN + 9, ACK, 36),
        (am, A_ISN + 9, ACK, 40),
        (&scene.opening, A_ISN, SYN, 36),
        (&scene.opening_md5, A_ISN, SYN, 40),
    ] {
        for (field, changed, refused) in changes(&end.state()) {
            let segment = end.segment(number, flags, b"").bytes();
            let mut steps = signing(end, 0, &segment, &[]);
            steps.insert(2, Step::State(changed.bytes()));
            let last = if refused { 48 } else { word(0, length) };
            list.add(
                &format!("signed, changed: {field}"),
                end,
                steps,
                &[0, 0, last],
            );
        }
    }
    // A state buffer of another length: 18, but 48 first where bytes are missing.
    for length in [0, 1, 176, 178, 354] {
        let mut other = a.state.clone();
        other.resize(length, 0);
        let mut steps = judging(a, 0, &good, &[]);
        steps.insert(2, Step::State(other.clone()));
        list.add("another length", a, steps.clone(), &[0, 0, 18]);
        steps.remove(1);
        list.add("another length, fewer bytes", a, steps, &[0, 48]);
        let plain = a.segment(A_ISN + 9, ACK, b"data").bytes();
        let mut steps = signing(a, 0, &plain, &[]);
        steps.insert(2, Step::State(other));
        list.add("another length, signing", a, steps, &[0, 0, 18]);
    }
}

/// The tables are others at the end call.
fn tables_between(scene: &Scene, list: &mut List) {
    let Scene { a, b, .. } = scene;
    let mut asking = b.clone();
    assert_eq!(asking.ask(3), 0);
    let asks = asking.sign(B_ISN + 9, ACK, b"data");
    let all = keys(&A4, &B4);
    let with = |keys: Vec<u8>| Tables {
        form: 0,
        keys,
        md5: vec![],
    };
    let at_end = |tables: Tables| {
        let mut steps = judging(a, 0, &asks, &[]);
        steps[2] = Step::JudgeEnd { run: 0, tables };
        steps
    };
    let none = with(vec![]);
    let first = with(kit::entry::table(&all[..1]));
    list.add("no key left", a, at_end(none.clone()), &[0; 3]);
    list.add("the asked one is gone", a, at_end(first), &[0; 3]);
    let cut = with(vec![4]);
    list.add(
        "a table that is refused",
        a,
        at_end(cut.clone()),
        &[0, 0, 10],
    );
    let mut fewer = at_end(cut.clone());
    fewer.remove(1);
    list.add("48 before it", a, fewer, &[0, 48]);
    let mut changed = at_end(cut.clone());
    let other = State {
        our_isn: 1,
        ..a.state()
    };
    changed.insert(2, Step::State(other.bytes()));
    list.add("48 of the state before it", a, changed, &[0, 0, 48]);
    let mut length = at_end(cut);
    length.insert(2, Step::State(vec![]));
    list.add("18 before it", a, length, &[0, 0, 18]);
    // No key at the header call, and one at the end: 26 all the same.
    let mut late = judging(a, 0, &asks, &[]);
    if let Step::JudgeHeader { tables, .. } = &mut late[0] {
        *tables = none;
    }
    list.add("the key comes late", a, late, &[0, 0, 26]);
    // Prepared at the header call, bytes at the end.
    let prepared = a.prepared();
    let mut steps = judging(&prepared, 0, &asks, &[]);
    list.add("prepared", a, steps.clone(), &[0; 3]);
    steps[2] = Step::JudgeEnd {
        run: 0,
        tables: tables(a),
    };
    list.add("prepared, then bytes", a, steps, &[0; 3]);
    let no_keys = Tables {
        form: 1,
        keys: vec![],
        md5: vec![],
    };
    let mut steps = judging(a, 0, &asks, &[]);
    steps[2] = Step::JudgeEnd {
        run: 0,
        tables: no_keys,
    };
    list.add("44 at the end", a, steps, &[0, 0, 44]);
}

/// 30 to 37 at the end call, and the room for the signed header.
fn rooms(scene: &Scene, list: &mut List) {
    let Scene { a, b, am, .. } = scene;
    let plain = a.segment(A_ISN + 9, ACK, &[7; 100]).bytes();
    let by_md5 = am.segment(A_ISN + 9, ACK, &[7; 100]).bytes();
    for (end, segment, length) in [(a, &plain, 36), (am, &by_md5, 40)] {
        for room in [0, 1, 19, 20, 35, 36, 39, 40, 41, 135, 136, 140, 200] {
            let mut steps = signing(end, 0, segment, &[]);
            steps[2] = Step::SignEnd { run: 0, room };
            let fits = room >= length;
            let last = if fits { word(0, length as u32) } else { 37 };
            list.add("room", end, steps, &[0, 0, last]);
        }
    }
    let mut add = |name: &str, state: State, segment: &[u8], number: u64| {
        for room in [0, 60] {
            let mut end = a.clone();
            end.set(state);
            let mut steps = signing(&end, 0, segment, &[]);
            steps[2] = Step::SignEnd { run: 0, room };
            list.add(name, &end, steps, &[0, 0, number]);
        }
    };
    let malformed = a.segment(1, ACK, b"").options(&[5, 0]).bytes();
    add("malformed", a.state(), &malformed, 31);
    let ports = b.segment(A_ISN + 9, ACK, b"").bytes();
    add("ports", a.state(), &ports, 33);
    let syn = a.segment(A_ISN, SYN, b"").bytes();
    add("stage", a.state(), &syn, 34);
    let lost = State {
        outgoing_send_id: 99,
        ..a.state()
    };
    add("no key", lost, &plain, 35);
    let twelve = a.segment(A_ISN + 9, ACK, b"").options(&[1; 28]).bytes();
    add("no room in the header", a.state(), &twelve, 32);
    let far = a.segment(A_ISN + 1 + (1 << 31), ACK, b"").bytes();
    add("no position", a.state(), &far, 36);
}
