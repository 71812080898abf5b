//! Bare SYNs with TCP-AO whose KeyID has no entry, where an entry matches the pair and where none does.

use super::open::OLD;
use super::*;
use kit::entry::table;
use kit::Side;

/// An entry of B's, and how it stands to the pair.
type Held = (&'static str, Entry);

/// The IDs of B's entries for A here. The KeyIDs tried are around the RecvID.
const HELD: (u8, u8) = (100, 7);

/// B's sides of the pair: its own and A's, with one port each.
fn exact() -> Entry {
    let mut entry = Entry::between(&B4, &A4).ids(HELD.0, HELD.1);
    entry.local = entry.local.ports(B_PORT, B_PORT);
    entry.remote = entry.remote.ports(A_PORT, A_PORT);
    entry
}

/// Entries that match A's pair at B, by exact ranges, by wide ones, and at the ends of ranges.
fn matching() -> Vec<Held> {
    let held = |local: Side, remote: Side| Entry {
        local,
        remote,
        ..exact()
    };
    let Entry { local, remote, .. } = exact();
    let any = Side::any(4);
    let from_a = remote.clone().ports(A_PORT, 65_535);
    let to_a = remote.clone().ports(0, A_PORT);
    let around_b = local.clone().prefix(&[10, 0, 0, 2], 31).ports(0, 65_535);
    let around_a = remote.clone().prefix(&[10, 0, 0, 0], 31);
    let first_bit = local.clone().prefix(&[0; 4], 1);
    vec![
        ("by exact ranges", exact()),
        ("by the widest", held(any.clone(), any.clone())),
        ("by our side only", held(local.clone(), any.clone())),
        ("by the peer's side only", held(any, remote.clone())),
        ("at a low port", held(local.clone(), from_a)),
        ("at a high port", held(local, to_a)),
        ("by prefixes of 31 bits", held(around_b, around_a)),
        ("by a prefix of one bit", held(first_bit, remote)),
    ]
}

/// Entries that miss A's pair at B, by little.
fn missing() -> Vec<Held> {
    let held = |local: Side, remote: Side| Entry {
        local,
        remote,
        ..exact()
    };
    let Entry { local, remote, .. } = exact();
    let above = remote.clone().ports(A_PORT + 1, 65_535);
    let below = local.clone().ports(0, B_PORT - 1);
    let next = remote.clone().prefix(&[10, 0, 0, 0], 32);
    let half = local.clone().prefix(&[128, 0, 0, 0], 1);
    let ipv6 = held(Side::any(16), Side::any(16));
    vec![
        ("above the peer's port", held(local.clone(), above)),
        ("below our port", held(below, remote.clone())),
        ("next to the peer", held(local, next)),
        ("in the other half", held(half, remote)),
        ("of the other family", ipv6),
        ("the other way round", exact().mirror().ids(HELD.0, HELD.1)),
    ]
}

/// Ticket 2: "drop 26 is given whenever any entry matches the pair and none has the KeyID; the
/// setting decides only where no entry matches the pair."
pub fn unknown(scene: &Scene, list: &mut List) {
    let mut both = |name: &str, keys: &[Entry], key_id: u8, setting: u8, number: u8| {
        let segment = scene.plain_syn.clone().ao(16, key_id, 2).bytes();
        let name = format!("KeyID {key_id}, setting {setting}: {name}");
        let (table, answer) = (table(keys), (number, 0));
        let judged = judge_syn(&segment, setting);
        list.add(&name, &table, &scene.empty, judged, answer);
        list.add(&name, &table, &OLD, passive(&segment, setting), answer);
    };
    // "0 pass, any other value drop 26".
    for setting in [2, 128, 255] {
        both("any other setting", &[exact()], 6, setting, 26);
        both("any other setting", &[exact().mirror()], 7, setting, 26);
    }
    for (setting, unmatched) in [(0, 1), (1, 26)] {
        // One off the RecvID; the SendID; the RecvID itself, whose MAC is wrong.
        for (key_id, matched) in [(6, 26), (8, 26), (100, 26), (7, 29)] {
            for (name, entry) in matching() {
                let name = format!("matched {name}");
                both(&name, &[entry], key_id, setting, matched);
            }
            for (name, entry) in missing() {
                let name = format!("an entry {name}");
                both(&name, &[entry], key_id, setting, unmatched);
            }
        }
        // Entries that miss, the second with the KeyID as RecvID, before and behind one that matches.
        let apart = |((_, entry), id): (Held, u8)| entry.ids(id, id);
        let misses: Vec<Entry> = missing().into_iter().zip(110..).map(apart).collect();
        for (name, matched) in matching() {
            let last = [misses.clone(), vec![matched.clone()]].concat();
            let first = [vec![matched], misses.clone()].concat();
            both(&format!("the last {name}"), &last, 111, setting, 26);
            both(&format!("the first {name}"), &first, 111, setting, 26);
        }
        both("none of several", &misses, 111, setting, unmatched);
        // Two that match, the RecvIDs on both sides of the KeyID; 0 and 255 are one off, too.
        let two = [exact().ids(1, 0), exact().ids(2, 254)];
        both("between two", &two, 255, setting, 26);
        both("behind two", &two, 253, setting, 26);
        both("before two", &two, 1, setting, 26);
    }
}
