//! Directed calls on many connections, with what each must answer: Ticket 6.

use super::ends::*;
use faulty::Fault;
use kit::connections::{places, Boundary, Call, Function, Outcome};
use kit::connections_of;
use kit::entry::table;
use kit::segment::{summed, ACK, SYN};
use kit::{End, Pair, State};

pub const MANY: Boundary = connections_of!(kit::connections::Boundary, reference::boundary);
const FAULTY: Boundary = connections_of!(kit::connections::Boundary, faulty::boundary);

/// A call, and what it must answer.
#[derive(Clone, Debug)]
pub struct Case {
    pub name: String,
    pub call: Call,
    pub answer: u64,
}

pub fn run(case: &Case) -> Outcome {
    MANY.make(&case.call)
}

pub fn run_with(fault: Fault, case: &Case) -> Outcome {
    faulty::with(fault, || FAULTY.make(&case.call))
}

pub fn run_unplanted(case: &Case) -> Outcome {
    FAULTY.make(&case.call)
}

/// The peer by MD5.
pub const C4: [u8; 4] = [10, 0, 0, 3];

/// Where the connections stand in [`Scene::connections`]; 0 and 6 are free, 5 has the pair of 1 once more.
pub const OPEN: usize = 1;
pub const OPENING: usize = 2;
pub const SIX: usize = 3;
pub const MD5: usize = 4;
pub const DOUBLED: usize = 5;
pub const FREE: [usize; 2] = [0, 6];

/// One table of keys and one of MD5 keys at A, and A's connections to B in both families and to C by MD5.
pub struct Scene {
    pub keys: Vec<u8>,
    pub md5: Vec<u8>,
    /// Both ends of the open connection, of the one in IPv6 and of the one by MD5.
    pub a: End,
    pub b: End,
    pub a6: End,
    pub b6: End,
    pub am: End,
    pub cm: End,
    /// A, opening at the next port.
    pub opening: End,
    /// What answers it.
    pub answering: End,
    pub states: Vec<State>,
}

/// An end with another port of A's.
fn at_port(end: &End, port: u16) -> End {
    let mut end = end.clone();
    end.pair.local_port = port;
    end
}

impl Scene {
    pub fn new() -> Scene {
        let (a, b) = opened(&A4, &B4);
        let (a6, b6) = opened(&A6, &B6);
        let (am, cm) = md5_opened(&A4, &C4);
        let (new_a, mut answering) = ends(&A4, &B4);
        let mut opening = at_port(&new_a, A_PORT + 1);
        answering.pair.remote_port = A_PORT + 1;
        assert_eq!(opening.open_active(A_ISN, 1), 0);
        let keys = [keys(&A4, &B4), keys(&A6, &B6)].concat();

        // Free, by a family that 18 refuses, with other bytes that are not zero.
        let free = |family: u8| State {
            family,
            stage: 1,
            asked_recv_id: 7,
            accepted: 5,
            local: [9; 16],
            remote: [9; 16],
            ..a.state()
        };
        // Once more the open one's pair, with other numbers.
        let doubled = State {
            our_isn: 5,
            accepted: 77,
            ..a.state()
        };
        let states = vec![
            free(0),
            a.state(),
            opening.state(),
            a6.state(),
            am.state(),
            doubled,
            free(7),
        ];
        Scene {
            keys: table(&keys),
            md5: am.md5.clone(),
            a,
            b,
            a6,
            b6,
            am,
            cm,
            opening,
            answering,
            states,
        }
    }

    pub fn call(&self, function: Function) -> Call {
        Call {
            keys: self.keys.clone(),
            md5: self.md5.clone(),
            connections: places(&self.states),
            ..Call::new(function)
        }
    }

    /// With every place in use or doubled.
    pub fn full(&self) -> Vec<u8> {
        let mut states = self.states.clone();
        for (index, place) in FREE.into_iter().enumerate() {
            states[place] = self.a.state();
            states[place].local_port = 500 + index as u16;
        }
        places(&states)
    }

    /// A pair of A and B that is not in use.
    pub fn other(&self) -> Pair {
        let mut pair = self.a.pair.clone();
        pair.local_port = 41_000;
        pair
    }

    pub fn open(&self, pair: &Pair, send_id: u8) -> Call {
        Call {
            isn: 0x3000_0000,
            byte: send_id,
            ..self.call(Function::OpenActive).pair(pair)
        }
    }

    pub fn open_md5(&self, pair: &Pair) -> Call {
        Call {
            isn: 0x3000_0000,
            ..self.call(Function::OpenActiveMd5).pair(pair)
        }
    }

    /// A bare SYN from B to a pair of A's, signed by B under the first key.
    pub fn syn(&self, pair: &Pair) -> Vec<u8> {
        let (_, mut b) = ends(&A4, &B4);
        b.pair = pair.mirror();
        assert_eq!(b.open_active(B_ISN, 2), 0);
        b.sign(B_ISN, SYN, b"")
    }

    /// A segment comes to A from this address.
    pub fn judge(&self, from: &[u8], segment: &[u8]) -> Call {
        let to: &[u8] = if from.len() == 4 { &A4 } else { &A6 };
        self.call(Function::Judge).arrival(from, to, segment)
    }

    pub fn passive(&self, segment: &[u8]) -> Call {
        Call {
            function: Function::OpenPassive,
            isn: 0x3000_0000,
            ..self.judge(&B4, segment)
        }
    }

    /// A segment of this end's is signed, where there is room.
    pub fn sign(&self, end: &End, segment: &[u8]) -> Call {
        Call {
            segment: segment.to_vec(),
            out: vec![0xee; segment.len() + 40],
            ..self.call(Function::Sign).pair(&end.pair)
        }
    }

    pub fn ask(&self, pair: &Pair, recv_id: u8) -> Call {
        Call {
            byte: recv_id,
            ..self.call(Function::Ask).pair(pair)
        }
    }
}

struct List(Vec<Case>);

impl List {
    fn add(&mut self, name: &str, call: Call, number: u8, value: u32) {
        let answer = kit::word(number, value);
        self.0.push(Case {
            name: name.to_string(),
            call,
            answer,
        });
    }
}

/// What makes a call give a number, whatever else is wrong behind it.
type Spoil<'a> = (u8, Box<dyn Fn(&mut Call) + 'a>);

/// Each number alone, and each before each later one: "The first that applies, in this order, is given".
fn ladder(list: &mut List, name: &str, good: &Call, steps: &[Spoil]) {
    for (first, (number, spoil)) in steps.iter().enumerate() {
        let mut alone = good.clone();
        spoil(&mut alone);
        list.add(&format!("{name}: {number}"), alone, *number, 0);
        for (later, spoil_more) in &steps[first + 1..] {
            let mut both = good.clone();
            spoil_more(&mut both);
            spoil(&mut both);
            let name = format!("{name}: {number} before {later}");
            list.add(&name, both, *number, 0);
        }
    }
}

/// 18, 19 and a table's 11, which all calls with tables begin with.
fn first_steps<'a>() -> Vec<Spoil<'a>> {
    vec![
        (18, Box::new(|call| call.connections.push(0))),
        (
            19,
            Box::new(|call| {
                call.one.pop();
            }),
        ),
        (11, Box::new(|call| call.keys[0] = 9)),
    ]
}

/// The directed calls.
pub fn cases() -> Vec<Case> {
    let scene = Scene::new();
    let mut list = List(vec![]);
    lengths(&scene, &mut list);
    openings(&scene, &mut list);
    passive(&scene, &mut list);
    judged(&scene, &mut list);
    elsewhere(&scene, &mut list);
    signed(&scene, &mut list);
    asked(&scene, &mut list);
    closed(&scene, &mut list);
    found(&scene, &mut list);
    list.0
}

/// "k places of 177 bytes, one state each, k at most 256 (none is allowed); any other length gets 18".
fn lengths(scene: &Scene, list: &mut List) {
    let calls = |pair: &Pair| {
        [
            scene.open(pair, 1),
            scene.open_md5(pair),
            scene.passive(b""),
            scene.judge(&B4, b""),
            scene.sign(&scene.a, b""),
            scene.ask(pair, 2),
            scene.call(Function::Close).pair(pair),
            scene.call(Function::Find).pair(pair),
        ]
    };
    let wrong = [1, 176, 178, 2 * 177 - 1, 2 * 177 + 1, 256 * 177 - 1];
    let wrong = wrong.into_iter().chain([256 * 177 + 1, 257 * 177]);
    for length in wrong {
        for mut call in calls(&scene.other()) {
            call.connections = vec![4; length];
            list.add(&format!("length {length}"), call, 18, 0);
        }
    }
    let find = |connections: Vec<u8>| Call {
        connections,
        ..scene.call(Function::Find).pair(&scene.a.pair)
    };
    let close = |connections: Vec<u8>| Call {
        function: Function::Close,
        ..find(connections)
    };
    list.add("no place", find(vec![]), 23, 0);
    list.add("no place to close", close(vec![]), 23, 0);
    let none = Call {
        connections: vec![],
        ..scene.open(&scene.other(), 1)
    };
    list.add("no place to open", none, 42, 0);
    let mut most = vec![0; 256 * 177];
    list.add("256 empty places", find(most.clone()), 23, 0);
    most[255 * 177..].copy_from_slice(&scene.a.state);
    list.add("in the last of 256", find(most.clone()), 0, 255);
    list.add("closed in the last of 256", close(most.clone()), 0, 0);
    most.truncate(255 * 177);
    most.splice(0..0, scene.a.state.clone());
    list.add("in the first of 256", find(most), 0, 0);
    let mut full = places(&[scene.am.state(); 256]);
    full[255 * 177] = 0;
    let last = Call {
        connections: full,
        ..scene.open(&scene.other(), 1)
    };
    list.add("opens the last of 256", last, 0, 255);
}

fn openings(scene: &Scene, list: &mut List) {
    let other = scene.other();
    list.add("opens", scene.open(&other, 1), 0, 0);
    list.add("opens under the second", scene.open(&other, 3), 0, 0);
    let mut c = scene.am.pair.clone();
    c.local_port = 41_000;
    list.add("opens by MD5", scene.open_md5(&c), 0, 0);
    let mut second_free = scene.open(&other, 1);
    second_free.connections[..177].copy_from_slice(&scene.a.state);
    second_free.connections[4] = 77;
    list.add("the second free place", second_free, 0, 6);
    let mut six = scene.a6.pair.clone();
    six.local_port = 41_000;
    list.add("opens in IPv6", scene.open(&six, 1), 0, 0);

    let used = |end: &End| {
        let pair = end.pair.clone();
        move |call: &mut Call| {
            (call.local_port, call.remote_port) = (pair.local_port, pair.remote_port);
        }
    };
    let full = || {
        let connections = scene.full();
        move |call: &mut Call| call.connections = connections.clone()
    };
    let mut steps = first_steps();
    steps.push((35, Box::new(|call| call.byte = 99)));
    steps.push((41, Box::new(used(&scene.a))));
    steps.push((42, Box::new(full())));
    // A buffer of another length comes first whatever was put in.
    steps[0].1 = Box::new(|call| call.connections.truncate(176));
    ladder(list, "open", &scene.open(&other, 1), &steps);

    let mut steps = first_steps();
    steps[0].1 = Box::new(|call| call.connections.truncate(176));
    steps.push((35, Box::new(|call| call.md5.clear())));
    steps.push((41, Box::new(used(&scene.am))));
    steps.push((42, Box::new(full())));
    ladder(list, "open by MD5", &scene.open_md5(&c), &steps);

    // "open or opening": both are in use; so is a pair by whichever way it is opened.
    let opening = scene.open(&scene.opening.pair, 1);
    list.add("opening is in use", opening, 41, 0);
    let six = scene.open(&scene.a6.pair, 1);
    list.add("IPv6 is in use", six, 41, 0);
    let mut closed = scene.open(&scene.a.pair, 1);
    closed.connections[OPEN * 177] = 0;
    list.add("the doubled one is in use", closed, 41, 0);

    // By meaning: what stands behind an IPv4 address is no part of it, and the family is.
    let mut behind = scene.open(&scene.a.pair, 1);
    let mut state = scene.a.state();
    state.local[4..].fill(8);
    state.remote[4..].fill(9);
    behind.connections = places(&[State::default(), state]);
    list.add("other bytes behind the address", behind, 41, 0);
    let mut family = scene.open(&scene.a.pair, 1);
    state.family = 6;
    family.connections = places(&[state, State::default()]);
    list.add("the same bytes in IPv6", family, 0, 1);
    for change in 0..4 {
        let mut state = scene.a.state();
        match change {
            0 => state.local[3] ^= 1,
            1 => state.remote[3] ^= 1,
            2 => state.local_port ^= 1,
            _ => state.remote_port ^= 1,
        }
        let mut beside = scene.open(&scene.a.pair, 1);
        beside.connections = places(&[state, State::default()]);
        list.add("another pair", beside, 0, 1);
    }
    let mut mirrored = scene.open(&scene.a.pair, 1);
    let state = State::of_pair(&scene.a.pair.mirror());
    mirrored.connections = places(&[state, State::default()]);
    list.add("the mirrored pair", mirrored, 0, 1);

    // A doubled place is not free, whatever is free behind it.
    let mut doubled = scene.open(&other, 1);
    let [one, two] = [scene.a.state(), scene.a.state()];
    doubled.connections = places(&[one, two]);
    list.add("doubled and full", doubled.clone(), 42, 0);
    doubled.connections = places(&[one, two, State::default()]);
    list.add("doubled, then free", doubled, 0, 2);
}

fn passive(scene: &Scene, list: &mut List) {
    let other = scene.other();
    let syn = scene.syn(&other);
    list.add("passive", scene.passive(&syn), 0, 0);
    let mut pass = scene.passive(&syn);
    pass.keys = vec![];
    list.add("passed", pass.clone(), 1, 0);
    pass.connections = scene.full();
    list.add("passed, full", pass.clone(), 1, 0);
    pass.byte = 1;
    list.add("dropped by the setting, full", pass, 26, 0);
    let used = scene.syn(&scene.a.pair);
    list.add("passive, in use", scene.passive(&used), 41, 0);
    let ack = scene.b.clone().sign(B_ISN + 1, ACK, b"x");
    list.add("passive, no SYN", scene.passive(&ack), 24, 0);

    let spoilt = |at: usize| {
        move |call: &mut Call| {
            call.segment[at] ^= 1;
            let sum = summed(&B4, &A4, &call.segment);
            call.segment = sum;
        }
    };
    let mut steps = first_steps();
    steps[0].1 = Box::new(|call| call.connections.truncate(176));
    steps.push((29, Box::new(spoilt(24))));
    steps.push((
        41,
        Box::new(|call: &mut Call| {
            // The pair of this SYN comes into use, in the place that is doubled.
            let mut state = State::read(&call.connections[177..354]).unwrap();
            state.local_port = 41_000;
            call.connections[DOUBLED * 177..][..177].copy_from_slice(&state.bytes());
        }),
    ));
    let full = scene.full();
    steps.push((42, Box::new(move |call| call.connections = full.clone())));
    ladder(list, "passive", &scene.passive(&syn), &steps);
    let [short, three] = [b"" as &[u8], b"abc"];
    list.add("passive, no bytes", scene.passive(short), 20, 0);
    list.add("passive, three bytes", scene.passive(three), 20, 0);
}

/// On a connection: what judging with that state gives, and its count.
fn judged(scene: &Scene, list: &mut List) {
    let from_b = scene.b.clone().sign(B_ISN + 1, ACK, b"data");
    let from_b6 = scene.b6.clone().sign(B_ISN + 1, ACK, b"data");
    let from_c = scene.cm.clone().sign(B_ISN + 1, ACK, b"data");
    list.add("accepted", scene.judge(&B4, &from_b), 0, 0);
    list.add("accepted in IPv6", scene.judge(&B6, &from_b6), 0, 0);
    list.add("accepted by MD5", scene.judge(&C4, &from_c), 0, 0);
    let mut b = scene.answering.clone();
    let syn = scene.opening.clone().sign(A_ISN, SYN, b"");
    assert_eq!(b.open_passive(&syn, B_ISN, 0), 0);
    let syn_ack = b.sign(B_ISN, SYN | ACK, b"");
    list.add("opens", scene.judge(&B4, &syn_ack), 0, 0);
    let mut far = scene.judge(&B4, &from_b);
    far.connections[OPEN * 177 + 56 + 3] = 1;
    let x = u64::from_be_bytes(far.connections[OPEN * 177 + 56..][..8].try_into().unwrap());
    assert_eq!(x >> 32, 1);
    list.add("of another extension", far, 29, 0);

    let mut damaged = from_b.clone();
    damaged[17] ^= 1;
    list.add("damaged", scene.judge(&B4, &damaged), 40, 0);
    for length in 4..20 {
        let short = &from_b[..length];
        list.add("short", scene.judge(&B4, short), 20, 0);
    }
    let mut long = from_b.clone();
    long.resize(65_536, 0);
    list.add("too long", scene.judge(&B4, &long), 20, 0);
    let syn = scene.syn(&scene.a.pair);
    list.add("a SYN once open", scene.judge(&B4, &syn), 24, 0);
    let mut unsigned = scene.judge(&B4, &scene.b.segment(B_ISN + 1, ACK, b"").bytes());
    unsigned.segment = summed(&B4, &A4, &unsigned.segment);
    list.add("unsigned", unsigned, 25, 0);
    let ack = scene.answering.segment(B_ISN, ACK, b"").bytes();
    let ack = summed(&B4, &A4, &ack);
    list.add("while opening", scene.judge(&B4, &ack), 24, 0);
    let unsigned = scene.cm.segment(B_ISN + 1, ACK, b"").bytes();
    let unsigned = summed(&C4, &A4, &unsigned);
    list.add("unsigned by MD5", scene.judge(&C4, &unsigned), 47, 0);

    let mut steps = first_steps();
    steps.push((20, Box::new(|call| call.segment.truncate(3))));
    ladder(list, "judge", &scene.judge(&B4, &from_b), &steps);
    let mut steps = first_steps();
    steps.push((20, Box::new(|call| call.segment.truncate(19))));
    steps.push((40, Box::new(|call| call.segment[16] ^= 1)));
    ladder(list, "judge, read", &scene.judge(&B4, &from_b), &steps);
    for length in 0..4 {
        let short = scene.judge(&B4, &from_b[..length]);
        list.add("under 4 bytes", short.clone(), 20, 0);
        let mut bad_table = short;
        bad_table.keys.push(4);
        list.add("under 4 bytes, a table cut", bad_table, 10, 6);
    }
}

/// For a pair not in use.
fn elsewhere(scene: &Scene, list: &mut List) {
    let other = scene.other();
    let syn = scene.syn(&other);
    list.add("a SYN elsewhere", scene.judge(&B4, &syn), 0, 0);
    let mut unknown = scene.judge(&B4, &syn);
    unknown.keys = vec![];
    list.add("a SYN elsewhere, passed", unknown.clone(), 1, 0);
    unknown.byte = 9;
    list.add("a SYN elsewhere, by the setting", unknown, 26, 0);
    let mut wrong = syn.clone();
    wrong[24] ^= 1;
    let wrong = summed(&B4, &A4, &wrong);
    list.add("a SYN elsewhere, 29", scene.judge(&B4, &wrong), 29, 0);

    let mut end = scene.b.clone();
    end.pair = other.mirror();
    let [ack, syn_ack] = [ACK, SYN | ACK].map(|flags| {
        let segment = end.segment(B_ISN + 1, flags, b"data").ao(16, 1, 2);
        summed(&B4, &A4, &segment.bytes())
    });
    list.add("an ACK elsewhere", scene.judge(&B4, &ack), 23, 0);
    list.add("a SYN+ACK elsewhere", scene.judge(&B4, &syn_ack), 23, 0);
    let empty = summed(&B4, &A4, &end.segment(1, 0, b"").bytes());
    list.add("no flag elsewhere", scene.judge(&B4, &empty), 23, 0);
    // The place that is doubled counts once the first is gone.
    let mut doubled = scene.judge(&B4, &scene.b.clone().sign(B_ISN + 1, ACK, b"data"));
    doubled.connections[OPEN * 177] = 0;
    list.add("by the doubled place", doubled, 29, 0);
    // As our own end would send it.
    let own = scene.a.clone().sign(A_ISN + 1, ACK, b"data");
    let own = summed(&B4, &A4, &own);
    list.add("our own", scene.judge(&B4, &own), 23, 0);

    let spoil_area = |call: &mut Call| {
        // Kind 2 with a length that runs past the area.
        let area = call.segment[12] >> 4;
        assert!(area > 5);
        call.segment[20] = 2;
        call.segment[21] = 200;
        call.segment = summed(&B4, &A4, &call.segment);
    };
    let both = |call: &mut Call| {
        let mut segment = end.segment(B_ISN + 1, ACK, b"data").ao(16, 1, 2);
        segment.options.extend(kit::segment::md5(18));
        call.segment = summed(&B4, &A4, &segment.bytes());
    };
    let mut steps = first_steps();
    steps.push((20, Box::new(|call| call.segment.truncate(3))));
    steps.push((20, Box::new(|call| call.segment.truncate(19))));
    steps.push((40, Box::new(|call| call.segment[16] ^= 0x55)));
    steps.push((21, Box::new(spoil_area)));
    steps.push((22, Box::new(both)));
    ladder(list, "elsewhere", &scene.judge(&B4, &ack), &steps);
    ladder(
        list,
        "a SYN elsewhere",
        &scene.judge(&B4, &syn),
        &steps[..6],
    );
}

fn signed(scene: &Scene, list: &mut List) {
    let data = scene.a.segment(A_ISN + 5, ACK, b"data").bytes();
    list.add("signs", scene.sign(&scene.a, &data), 0, 40);
    let data6 = scene.a6.segment(A_ISN + 1, ACK, b"data").bytes();
    list.add("signs in IPv6", scene.sign(&scene.a6, &data6), 0, 40);
    let by_md5 = scene.am.segment(A_ISN + 1, ACK, b"data").bytes();
    list.add("signs by MD5", scene.sign(&scene.am, &by_md5), 0, 44);
    let syn = scene.opening.segment(A_ISN, SYN, b"").bytes();
    list.add("signs a SYN", scene.sign(&scene.opening, &syn), 0, 36);
    let syn = scene.a.segment(A_ISN, SYN, b"").bytes();
    list.add("a SYN once open", scene.sign(&scene.a, &syn), 34, 0);
    let far = scene.a.segment(A_ISN + 1 + (1 << 31), ACK, b"").bytes();
    list.add("no position", scene.sign(&scene.a, &far), 36, 0);
    let mut end = scene.a.clone();
    end.pair = scene.other();
    let other = end.segment(A_ISN + 1, ACK, b"data").bytes();
    list.add("signs elsewhere", scene.sign(&end, &other), 23, 0);
    let theirs = scene.b.segment(A_ISN + 1, ACK, b"data").bytes();
    list.add("the other way round", scene.sign(&scene.a, &theirs), 23, 0);
    let mut doubled = scene.sign(&scene.a, &data);
    doubled.connections[OPEN * 177] = 0;
    list.add("signs by the doubled place", doubled, 0, 40);

    let ports = |call: &mut Call| call.segment[0] ^= 0x40;
    let mut steps = first_steps();
    steps.push((30, Box::new(|call| call.segment.truncate(3))));
    steps.push((23, Box::new(ports)));
    steps.push((30, Box::new(|call| call.segment.truncate(19))));
    ladder(list, "sign", &scene.sign(&scene.a, &data), &steps);
    let lost = |call: &mut Call| call.connections[OPEN * 177 + 2] = 99;
    let mut steps = first_steps();
    steps.push((23, Box::new(ports)));
    steps.push((35, Box::new(lost)));
    steps.push((37, Box::new(|call| call.out.truncate(39))));
    ladder(
        list,
        "sign, by the state",
        &scene.sign(&scene.a, &data),
        &steps,
    );
    for length in 0..4 {
        let short = scene.sign(&scene.a, &data[..length]);
        list.add("under 4 bytes", short, 30, 0);
    }
    for length in 4..20 {
        let short = scene.sign(&scene.a, &data[..length]);
        list.add("from 4 bytes on", short, 30, 0);
        let elsewhere = scene.sign(&end, &other[..length]);
        list.add("from 4 bytes on, elsewhere", elsewhere, 23, 0);
    }
    let mut long = data.clone();
    long.resize(65_536, 0);
    list.add("too long", scene.sign(&scene.a, &long), 30, 0);
}

fn asked(scene: &Scene, list: &mut List) {
    let pair = &scene.a.pair;
    list.add("asks", scene.ask(pair, 4), 0, 0);
    list.add("asks in IPv6", scene.ask(&scene.a6.pair, 4), 0, 0);
    list.add("asks, opening", scene.ask(&scene.opening.pair, 4), 0, 0);
    list.add("asks by MD5", scene.ask(&scene.am.pair, 2), 35, 0);
    let other = scene.other();
    let mut steps = first_steps();
    steps.push((23, Box::new(move |call| call.local_port = other.local_port)));
    steps.push((35, Box::new(|call| call.byte = 6)));
    ladder(list, "ask", &scene.ask(pair, 4), &steps);
}

fn closed(scene: &Scene, list: &mut List) {
    let close = |pair: &Pair| scene.call(Function::Close).pair(pair);
    for end in [&scene.a, &scene.a6, &scene.am, &scene.opening] {
        list.add("closes", close(&end.pair), 0, 0);
    }
    let mut steps = first_steps();
    steps.truncate(2);
    steps.push((23, Box::new(|call| call.local_port ^= 0x4000)));
    ladder(list, "close", &close(&scene.a.pair), &steps);
    list.add("closes what is free", close(&scene.other()), 23, 0);
    list.add("the mirrored pair", close(&scene.a.pair.mirror()), 23, 0);
}

fn found(scene: &Scene, list: &mut List) {
    let find = |pair: &Pair| scene.call(Function::Find).pair(pair);
    let all = [
        (&scene.a, OPEN),
        (&scene.opening, OPENING),
        (&scene.a6, SIX),
        (&scene.am, MD5),
    ];
    for (end, place) in all {
        list.add("finds", find(&end.pair), 0, place as u32);
    }
    let mut doubled = find(&scene.a.pair);
    doubled.connections[OPEN * 177] = 5;
    list.add("finds the doubled one", doubled, 0, DOUBLED as u32);
    let mut steps = first_steps();
    steps.truncate(2);
    steps.push((23, Box::new(|call| call.remote_port ^= 1)));
    ladder(list, "find", &find(&scene.a.pair), &steps);
    for (one, other) in [(4, 16), (16, 4), (0, 0), (5, 5), (3, 4), (4, 3), (17, 17)] {
        let mut odd = find(&scene.a.pair);
        odd.one.resize(one, 0);
        odd.other.resize(other, 0);
        list.add("addresses", odd, 19, 0);
    }
}
