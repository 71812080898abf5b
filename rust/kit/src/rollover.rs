//! The demonstration's first run (`target/bin/rollover`) as two recordings: what arrives at the server, and what arrives
//! at the client, while both sequence numbers roll over, with a damaged segment, forgeries and a key change.

use crate::calls::Boundary;
use crate::ends::{End, Pair};
use crate::entry::{mirrored, table, Entry};
use crate::recording::{entry, opening, segment};
use crate::segment::{ACK, SYN};

const CLIENT: ([u8; 4], u16) = ([10, 1, 0, 1], 40_000);
const SERVER: ([u8; 4], u16) = ([10, 1, 0, 2], 179);
const CLIENT_ISN: u32 = 0xffff_ffc0;
const SERVER_ISN: u32 = 0xffff_ffd8;

/// The client's keys: 1 and 2 of the demonstration.
fn keys() -> [Entry; 2] {
    let between = |send_id, recv_id| Entry::between(&CLIENT.0, &SERVER.0).ids(send_id, recv_id);
    [
        Entry {
            key: b"the first key of the line".to_vec(),
            ..between(61, 84)
        },
        Entry {
            algorithm: 2,
            key: b"sixteen byte key".to_vec(),
            ..between(62, 85)
        },
    ]
}

/// Client and server after the segments that open, which stand in no recording.
fn opened(boundary: Boundary) -> (End, End) {
    let pair = Pair {
        local: CLIENT.0.to_vec(),
        remote: SERVER.0.to_vec(),
        local_port: CLIENT.1,
        remote_port: SERVER.1,
    };
    let mut client = End::new(boundary, pair.clone(), table(&keys()));
    let mut server = End::new(boundary, pair.mirror(), mirrored(&keys()));
    assert_eq!(client.open_active(CLIENT_ISN, 61), 0);
    let syn = client.sign(CLIENT_ISN, SYN, b"");
    assert_eq!(server.open_passive(&syn, SERVER_ISN, 1), 0);
    let syn_ack = server.sign(SERVER_ISN, SYN | ACK, b"");
    assert_eq!(client.judge(&syn_ack), 0);
    (client, server)
}

/// Entries and opening of the recording at an end that has just opened.
fn begun(end: &End, keys: &[Entry]) -> Vec<u8> {
    let entries = keys.iter().flat_map(|key| entry(&key.bytes()));
    entries.chain(opening(&end.state())).collect()
}

/// The names of the recordings, and their bytes, as this side signs them.
pub fn recordings(boundary: Boundary) -> [(&'static str, Vec<u8>); 2] {
    let (mut client, mut server) = opened(boundary);
    let mut to_client = begun(&client, &keys());
    let mut to_server = begun(&server, &keys().map(|key| key.mirror()));
    let data = |end: &mut End, number| end.sign(number, ACK, b"twenty-four bytes of it.");

    // The client's first four, across the rollover; of the second a damaged copy.
    let first = [0xffff_ffc1, 0xffff_ffd9, 0xffff_fff1, 9].map(|number| data(&mut client, number));
    let [one, two, four, five] = &first;
    let mut damaged = two.clone();
    *damaged.last_mut().unwrap() ^= 0x20;
    for arrival in [one, five, &damaged, two, five, four] {
        to_server.extend(segment(arrival));
        server.judge(arrival);
    }

    // The server's: before its operator asks for key 2, and then.
    let before = [0xffff_ffd9, 0xffff_fff1].map(|number| data(&mut server, number));
    assert_eq!(server.ask(62), 0);
    let then = [9, 0x21].map(|number| data(&mut server, number));
    let ([seven, nine], [ten, eleven]) = (&before, &then);
    let mut forged = seven.clone();
    forged[24] ^= 1;
    let forged = client.arriving(&forged);
    for arrival in [ten, &forged, nine, seven, eleven, eleven] {
        to_client.extend(segment(arrival));
        client.judge(arrival);
    }

    // The client's under key 2, with forgeries of a number and of a KeyID before them.
    let second = [0x21, 0x39].map(|number| data(&mut client, number));
    let [thirteen, fifteen] = &second;
    let mut far = fifteen.clone();
    far[4] = 0x70;
    let mut unknown = thirteen.clone();
    unknown[22] = 99;
    let (far, unknown) = (server.arriving(&far), server.arriving(&unknown));
    for arrival in [&far, &unknown, fifteen, thirteen] {
        to_server.extend(segment(arrival));
    }
    [
        ("rollover_to_client", to_client),
        ("rollover_to_server", to_server),
    ]
}
