//! Key tables and MD5 tables: entries around a socket pair, and the faults that 10 to 17 and 45 refuse.

use crate::prng::Prng;
use crate::translation::{Rewritten, Translation};
use kit::entry::{covered, table};
use kit::{Entry, Pair, Side};
use reference::md5_table::{self, Lent};

/// The pair as the other end holds it: in half of the cases the same; otherwise the address, the port or both
/// of one side, or of both, are translated on the way.
pub fn pair_there(random: &mut Prng, pair: &Pair) -> Pair {
    let mut other = pair.mirror();
    if random.one_in(2) {
        return other;
    }
    let sides = random.pick(&[1, 2, 1, 2, 3]);
    for (bit, address, port) in [
        (1, &mut other.remote, &mut other.remote_port),
        (2, &mut other.local, &mut other.local_port),
    ] {
        if sides & bit == 0 {
            continue;
        }
        let parts = 1 + random.below(3);
        if parts & 1 != 0 {
            if random.one_in(3) {
                random.flip(address);
            } else {
                *address = random.bytes(address.len());
            }
        }
        if parts & 2 != 0 {
            let any = random.half();
            *port = random.pick(&[port.wrapping_add(1), any]);
        }
    }
    other
}

/// Any pair.
pub fn pair(random: &mut Prng) -> Pair {
    let bytes = random.pick(&[4, 16]);
    Pair {
        local: random.bytes(bytes),
        remote: random.bytes(bytes),
        local_port: port(random),
        remote_port: port(random),
    }
}

fn port(random: &mut Prng) -> u16 {
    match random.below(6) {
        0 => random.pick(&[0, 1, 65534, 65535]),
        1 => 179,
        _ => random.half(),
    }
}

/// Few IDs, so that entries often share one.
pub fn id(random: &mut Prng) -> u8 {
    random.pick(&[0, 1, 2, 3, 4, 5, 6, 7, 254, 255])
}

/// A side that this address and port lie in, often at an end of the range.
fn side_around(random: &mut Prng, address: &[u8], port: u16) -> Side {
    let step = random.pick(&[0, 1, 300]);
    let (low, high) = match random.below(5) {
        0 => (port, port),
        1 => (0, 65535),
        2 => (port.saturating_sub(step), port),
        3 => (port, port.saturating_add(step)),
        _ => (port.saturating_sub(step), port.saturating_add(step)),
    };
    let prefix = prefix(random, address.len());
    let address = masked(address, prefix);
    Side {
        low,
        high,
        address,
        prefix,
    }
}

/// A side close to another: the same, wider, narrower, touching it or just beside it.
fn near(random: &mut Prng, this: &Side) -> Side {
    let mut side = this.clone();
    match random.below(9) {
        0 => {}
        1 => side.low = side.low.saturating_sub(1),
        2 => side.high = side.low,
        3 => (side.low, side.high) = (side.high, side.high.saturating_add(9)),
        4 => (side.low, side.high) = (side.high.saturating_add(1), 65535),
        5 => (side.low, side.high) = (0, side.low.saturating_sub(1)),
        6 => {
            // Contained in it: more bits are fixed.
            let longer = this.prefix.max(prefix(random, this.address.len()));
            let mut address = random.bytes(this.address.len());
            put_first_bits(&mut address, &this.address, this.prefix);
            side.address = masked(&address, longer);
            side.prefix = longer;
        }
        7 => {
            // It is contained in this one: fewer bits are fixed.
            side.prefix = this.prefix.min(prefix(random, this.address.len()));
            side.address = masked(&this.address, side.prefix);
        }
        _ => {
            // Disjoint, by one fixed bit.
            if this.prefix > 0 {
                let bit = random.below(this.prefix as usize);
                side.address[bit / 8] ^= 0x80 >> (bit % 8);
            }
        }
    }
    side
}

fn prefix(random: &mut Prng, address_bytes: usize) -> u8 {
    let bits = 8 * address_bytes as u8;
    match random.below(4) {
        0 => 0,
        1 => bits,
        2 => random.pick(&[1, 7, 8, 9, bits - 9, bits - 8, bits - 1]),
        _ => random.below(bits as usize + 1) as u8,
    }
}

/// An address whose bits behind the prefix are zero.
fn masked(address: &[u8], prefix: u8) -> Vec<u8> {
    let mut zero = vec![0; address.len()];
    put_first_bits(&mut zero, address, prefix);
    zero
}

fn put_first_bits(to: &mut [u8], from: &[u8], count: u8) {
    for (at, (byte, new)) in to.iter_mut().zip(from).enumerate() {
        let covered = covered(count.into(), at);
        *byte = *byte & !covered | new & covered;
    }
}

/// An entry that matches the pair.
fn for_pair(random: &mut Prng, pair: &Pair) -> Entry {
    let any = 1 + random.below(80);
    let length = random.pick(&[16, 16, 16, 1, 15, 17, 64, 65, 80, any, any]);
    Entry {
        flags: flags(random),
        algorithm: 1 + random.below(3) as u8,
        send_id: id(random),
        recv_id: id(random),
        local: side_around(random, &pair.local, pair.local_port),
        remote: side_around(random, &pair.remote, pair.remote_port),
        mac_length: mac_length(random),
        key: random.bytes(length),
    }
}

/// In half of the entries no side is hidden.
fn flags(random: &mut Prng) -> u8 {
    random.pick(&[0, 0, 0, 1, 1, 1, 2, 3, 4, 5, 6, 7])
}

/// The MAC's length, unsaid in one entry of three: kinds 4 and 6.
fn mac_length(random: &mut Prng) -> Option<u8> {
    match random.below(6) {
        0..=1 => None,
        2 => Some(12),
        _ => Some(4 + random.below(13) as u8),
    }
}

/// An entry for this pair alone.
fn only_pair(random: &mut Prng, pair: &Pair) -> Entry {
    Entry {
        local: Side::host(&pair.local).ports(pair.local_port, pair.local_port),
        remote: Side::host(&pair.remote).ports(pair.remote_port, pair.remote_port),
        ..for_pair(random, pair)
    }
}

/// Any entry.
fn any(random: &mut Prng) -> Entry {
    let pair = pair(random);
    for_pair(random, &pair)
}

/// An entry that shares IDs with this one, over sides that are the same, touch it, lie in it, or do
/// not.
fn relative(random: &mut Prng, this: &Entry) -> Entry {
    let mut entry = this.clone();
    match random.below(4) {
        0 => {}
        1 => entry.send_id = id(random),
        2 => entry.recv_id = id(random),
        _ => (entry.send_id, entry.recv_id) = (id(random), id(random)),
    }
    if random.one_in(2) {
        entry.local = near(random, &this.local);
    } else {
        entry.remote = near(random, &this.remote);
    }
    if random.one_in(4) {
        entry.local = near(random, &this.local);
    }
    if random.one_in(2) {
        // Often of the other kind of its family.
        entry.mac_length = mac_length(random);
    }
    if random.one_in(2) {
        entry.flags = flags(random);
    }
    random.flip(&mut entry.key);
    entry
}

/// A pair, for the reference.
fn lent(pair: &Pair) -> reference::table::Pair<'_> {
    reference::table::Pair {
        local: &pair.local,
        remote: &pair.remote,
        local_port: pair.local_port,
        remote_port: pair.remote_port,
    }
}

/// Whether an entry matches the pair; the reference is asked, since this only aims.
pub fn matches(entry: &Entry, pair: &Pair) -> bool {
    self::entry(&entry.bytes()).is_some_and(|entry| entry.matches(&lent(pair)))
}

/// Whether an MD5 entry does.
pub fn md5_matches(entry: &Entry, pair: &Pair) -> bool {
    let bytes = entry.bytes();
    let entries = md5_table::read(&bytes).unwrap_or_default();
    md5_table::matching(&entries, &lent(pair)).is_some()
}

/// The entry that these bytes are alone, if a table may have it.
pub fn entry(bytes: &[u8]) -> Option<reference::table::Entry<'_>> {
    reference::table::read(bytes).ok()?.first().copied()
}

/// A table around a pair that is (nearly always) valid: some entries match the pair, others reuse
/// their IDs beside it, some are of another pair or family. In one table of four those made for the
/// pair are for it alone.
pub fn around(random: &mut Prng, pair: &Pair) -> Vec<Entry> {
    let large = random.one_in(50);
    let count = match random.below(3) {
        0 if large => 8 + random.below(56),
        _ if large => 64,
        _ => random.below(8),
    };
    let narrow = random.one_in(4);
    let mut keys: Vec<Entry> = vec![];
    for _ in 0..3 * count {
        if keys.len() == count {
            break;
        }
        let mut key = match random.below(8) {
            0 => any(random),
            1..=3 if !keys.is_empty() => {
                let which = random.below(keys.len());
                relative(random, &keys[which])
            }
            _ if narrow => only_pair(random, pair),
            _ => for_pair(random, pair),
        };
        if large {
            (key.send_id, key.recv_id) = (random.byte(), random.byte());
        }
        keys.push(key);
        if entry(&table(&keys)).is_none() && !random.one_in(60) {
            keys.pop();
        }
    }
    keys
}

/// An MD5 entry with this entry's sides.
fn md5_of(random: &mut Prng, entry: &Entry) -> Entry {
    let any = 1 + random.below(80);
    let length = random.pick(&[1, 16, 18, 64, 80, any]);
    Entry {
        flags: 0,
        algorithm: 19,
        send_id: 0,
        recv_id: 0,
        mac_length: None,
        key: random.bytes(length),
        ..entry.clone()
    }
}

/// An MD5 table that is (nearly always) valid, of which the first entry is for the pair where `for_pair` says
/// so; the others are near it, or anywhere.
fn md5_around(random: &mut Prng, pair: &Pair, for_pair: bool) -> Vec<Entry> {
    if random.one_in(50) {
        return full_md5(random, pair);
    }
    let mut entries: Vec<Entry> = vec![];
    if for_pair {
        let sides = match random.below(3) {
            0 => self::for_pair(random, pair),
            _ => only_pair(random, pair),
        };
        entries.push(md5_of(random, &sides));
    }
    for _ in 0..random.below(4) {
        let sides = match entries.last() {
            Some(last) if random.one_in(2) => {
                let last = last.clone();
                relative(random, &last)
            }
            _ => any(random),
        };
        entries.push(md5_of(random, &sides));
        if md5_table::read(&table(&entries)).is_err() && !random.one_in(60) {
            entries.pop();
        }
    }
    entries
}

/// 64 MD5 entries for as many of the peer's ports, the pair's among them.
fn full_md5(random: &mut Prng, pair: &Pair) -> Vec<Entry> {
    let sides = only_pair(random, pair);
    let entry = md5_of(random, &sides);
    let first = pair.remote_port.wrapping_sub(random.below(64) as u16);
    let one = |step: u16| Entry {
        remote: entry
            .remote
            .clone()
            .ports(first.wrapping_add(step), first.wrapping_add(step)),
        ..entry.clone()
    };
    (0..64).map(one).collect()
}

/// Whether a pair exists that a key entry and an MD5 entry both match.
fn overlap(key: &Entry, md5: &Entry) -> bool {
    let (keys, md5) = (&key.bytes()[..], &md5.bytes()[..]);
    let refused = Lent::of_bytes(keys, md5).read().err();
    refused.is_some_and(|refusal| refusal.number == 45)
}

/// A key table and an MD5 table around a pair, the one that is for it as `by_md5` says. What overlaps is taken
/// out of the other, but for one case in 60.
pub fn both_around(random: &mut Prng, pair: &Pair, by_md5: bool) -> (Vec<Entry>, Vec<Entry>) {
    let mut keys = around(random, pair);
    let mut md5 = md5_around(random, pair, by_md5);
    if by_md5 {
        // Other peers', so that some are left.
        let other = self::pair(random);
        keys.extend(around(random, &other).into_iter().take(3));
        if entry(&table(&keys)).is_none() {
            keys.clear();
        }
    }
    if !random.one_in(60) {
        keep_apart(&mut keys, &mut md5, by_md5);
    }
    (keys, md5)
}

/// Takes out of the key table, or of the MD5 table, what overlaps with the other.
pub fn keep_apart(keys: &mut Vec<Entry>, md5: &mut Vec<Entry>, by_md5: bool) {
    if by_md5 {
        keys.retain(|key| !md5.iter().any(|entry| overlap(key, entry)));
    } else {
        md5.retain(|entry| !keys.iter().any(|key| overlap(key, entry)));
    }
}

/// An MD5 entry that overlaps with one of the keys, or just does not, anywhere in the MD5 table: 45.
pub fn overlapping(random: &mut Prng, keys: &mut Vec<Entry>, md5: &mut Vec<Entry>) {
    if keys.is_empty() {
        keys.push(any(random));
    }
    for _ in 0..random.pick(&[1, 1, 2]) {
        let which = random.below(keys.len());
        let sides = match random.below(3) {
            0 => keys[which].clone(),
            _ => relative(random, &keys[which].clone()),
        };
        let entry = md5_of(random, &sides);
        md5.retain(|other| md5_table::read(&table(&[other.clone(), entry.clone()])).is_ok());
        if md5.len() < 1_024 {
            md5.insert(random.below(md5.len() + 1), entry);
        }
    }
}

/// Often hides at this end the sides that are translated on the way to the other one.
pub fn hide(random: &mut Prng, keys: &mut [Entry], pair: &Pair, other: &Pair) {
    let way = Translation::between(pair, other);
    for key in keys {
        if !random.one_in(3) {
            let local = key.local_nat() || way.source != Rewritten::NOTHING;
            let remote = key.remote_nat() || way.destination != Rewritten::NOTHING;
            key.flags = key.clone().nat(local, remote).flags;
        }
    }
}

/// Whether a side is for this address and port.
fn is_for(side: &Side, address: &[u8], port: u16) -> bool {
    let in_range = side.low <= port && port <= side.high;
    let bits = 8 * address.len() as u8;
    in_range && side.address.len() == address.len() && {
        side.prefix <= bits && masked(address, side.prefix) == side.address
    }
}

/// The sides as the other end has them, which holds this pair: where one is for the pair's here and is seen
/// otherwise there, it is for what is seen.
fn sides_there(random: &mut Prng, key: &mut Entry, pair: &Pair, other: &Pair) {
    let ours = is_for(&key.local, &other.remote, other.remote_port);
    if !ours && is_for(&key.local, &pair.local, pair.local_port) {
        key.local = side_around(random, &other.remote, other.remote_port);
    }
    let theirs = is_for(&key.remote, &other.local, other.local_port);
    if !theirs && is_for(&key.remote, &pair.remote, pair.remote_port) {
        key.remote = side_around(random, &other.local, other.local_port);
    }
}

/// The other end's MD5 table: mirrors, now and then one missing, or with another key.
pub fn md5_there(random: &mut Prng, md5: &[Entry], pair: &Pair, other: &Pair) -> Vec<Entry> {
    let mut theirs = vec![];
    for entry in md5 {
        let mut entry = entry.clone();
        sides_there(random, &mut entry, pair, other);
        let mut entry = entry.mirror();
        match random.below(16) {
            0 => continue,
            1 => random.flip(&mut entry.key),
            2 => entry.key.truncate(1),
            _ => {}
        }
        theirs.push(entry);
        if md5_table::read(&table(&theirs)).is_err() {
            theirs.pop();
        }
    }
    theirs
}

/// The other end's table: mirrors, now and then one missing, for another pair only, with another MAC's
/// length, or with other flags. A length of 12 is often said at one end and left unsaid at the other.
pub fn other_end(random: &mut Prng, keys: &[Entry], pair: &Pair, other: &Pair) -> Vec<Entry> {
    let mut theirs = vec![];
    for key in keys {
        let mut key = key.clone();
        sides_there(random, &mut key, pair, other);
        let mut key = key.mirror();
        match random.below(8) {
            0 => continue,
            1 => key.local = near(random, &key.local),
            2 if random.one_in(3) => key.mac_length = mac_length(random),
            3 if random.one_in(3) => key.flags = flags(random),
            _ if random.one_in(2) => {
                key.mac_length = match key.mac_length {
                    None => Some(12),
                    Some(12) => None,
                    other => other,
                }
            }
            _ => {}
        }
        theirs.push(key);
        if entry(&table(&theirs)).is_none() {
            theirs.pop();
        }
    }
    theirs
}

/// A table with one or a few of the faults that 10 to 17 refuse, at any entries.
pub fn spoilt(random: &mut Prng, keys: &[Entry]) -> Vec<u8> {
    let mut entries: Vec<Vec<u8>> = keys.iter().map(Entry::bytes).collect();
    if entries.is_empty() {
        entries.push(any(random).bytes());
    }
    for _ in 0..random.pick(&[1, 1, 1, 2, 3]) {
        match random.below(8) {
            0 if random.one_in(2) => too_many(random, &mut entries),
            1 if !keys.is_empty() => {
                let which = random.below(keys.len());
                let relative = relative(random, &keys[which]);
                entries.insert(1 + random.below(entries.len()), relative.bytes());
            }
            2 => cut(random, &mut entries),
            _ => {
                let at = random.below(entries.len());
                for _ in 0..random.pick(&[1, 1, 2]) {
                    spoil_entry(random, &mut entries[at]);
                }
            }
        }
    }
    entries.concat()
}

/// Fills up one of the tables, or both, to 1,024 entries: the new ones are for other peers, and stand before the
/// old ones, behind them or among them.
pub fn fill(random: &mut Prng, keys: &mut Vec<Entry>, md5: &mut Vec<Entry>) {
    let which = random.pick(&[1, 1, 2, 3, 3]);
    if which & 1 != 0 {
        fill_keys(random, keys, 1_024);
    }
    if which & 2 != 0 {
        let sides = any(random);
        let sides = md5_of(random, &sides);
        put_among(random, md5, 1_024, |i| other_peer(&sides, i));
    }
    if random.one_in(2) {
        clash_far_apart(random, keys, md5);
    }
}

/// In full tables: an entry near the end has what one has that stands anywhere before it, or an MD5 entry the sides of a
/// key: 17 or 45.
fn clash_far_apart(random: &mut Prng, keys: &mut [Entry], md5: &mut Vec<Entry>) {
    let last = 1_023 - random.below(40);
    let (early, any) = (random.below(40), random.below(last));
    let before = random.pick(&[early, any]);
    match (keys.len(), md5.len()) {
        (1_024, _) if random.one_in(2) => keys[last] = keys[before].clone(),
        (_, 1_024) if random.one_in(2) => md5[last] = md5[before].clone(),
        (1_024, _) => {
            md5.truncate(1_023);
            md5.push(md5_of(random, &keys[last]));
        }
        (some @ 1.., 1_024) => md5[last] = md5_of(random, &keys[before % some]),
        _ => {}
    }
}

/// Fills up a key table to so many entries, likewise; one that has every ID stays as it is.
pub fn fill_keys(random: &mut Prng, keys: &mut Vec<Entry>, most: usize) {
    let used = |id: u8| {
        keys.iter()
            .any(|key| key.send_id == id || key.recv_id == id)
    };
    let ids: Vec<u8> = (0..=255).filter(|id| !used(*id)).collect();
    if ids.is_empty() {
        return;
    }
    let sides = any(random);
    let entry = |i: usize| other_peer(&sides, i).ids(ids[i % ids.len()], ids[i % ids.len()]);
    put_among(random, keys, most, entry);
}

/// This entry for a peer of its own, at a port of its own: with a thousand of them most are told apart by that, so that
/// checking them does not take too long.
fn other_peer(entry: &Entry, i: usize) -> Entry {
    let (mut remote, port) = (vec![0xee; entry.remote.address.len()], i as u16);
    remote[1..3].copy_from_slice(&port.to_be_bytes());
    Entry {
        local: entry.local.clone().ports(port, port),
        remote: Side::host(&remote),
        ..entry.clone()
    }
}

fn put_among(
    random: &mut Prng,
    entries: &mut Vec<Entry>,
    most: usize,
    entry: impl Fn(usize) -> Entry,
) {
    let missing = most - entries.len().min(most);
    let before = random.below(missing + 1);
    let before = random.pick(&[0, missing, before]);
    let mut all: Vec<Entry> = (0..before).map(&entry).collect();
    all.append(entries);
    all.extend((before..missing).map(&entry));
    *entries = all;
}

/// An MD5 table with one or a few of the faults that 10 to 17 refuse, at any entries.
pub fn spoilt_md5(random: &mut Prng, md5: &[Entry]) -> Vec<u8> {
    let mut md5 = md5.to_vec();
    let sides = any(random);
    let sides = md5_of(random, &sides);
    if md5.is_empty() {
        md5.push(sides.clone());
    }
    let mut entries: Vec<Vec<u8>> = md5.iter().map(Entry::bytes).collect();
    for _ in 0..random.pick(&[1, 1, 1, 2, 3]) {
        match random.below(8) {
            0 if !random.one_in(3) => {
                put_among(random, &mut md5, 1_024, |i| other_peer(&sides, i));
                entries = md5.iter().map(Entry::bytes).collect();
                entries.push(begun(random));
            }
            1..=2 => {
                // The same sides, or sides near them: most times a clash.
                let which = random.below(md5.len());
                let sides = relative(random, &md5[which]);
                let clash = md5_of(random, &sides);
                entries.insert(1 + random.below(entries.len()), clash.bytes());
            }
            3 => cut(random, &mut entries),
            4 => {
                // Of a key table: its kind, flags, algorithm and IDs are its own.
                let key = any(random).bytes();
                entries.insert(random.below(entries.len() + 1), key);
            }
            _ => {
                let at = random.below(entries.len());
                for _ in 0..random.pick(&[1, 1, 2]) {
                    spoil_md5_entry(random, &mut entries[at]);
                }
            }
        }
    }
    entries.concat()
}

/// One of 11 and 13 to 16 in a whole MD5 entry.
fn spoil_md5_entry(random: &mut Prng, entry: &mut [u8]) {
    if entry.len() < 104 {
        return;
    }
    match random.below(14) {
        0 => entry[0] = random.pick(&[0, 3, 5, 7, 8, 19, 255]),
        1 => entry[1] = random.pick(&[1, 2, 4, 7, 8, 255]),
        2 => entry[2] = random.pick(&[0, 1, 2, 3, 18, 20, 255]),
        3 => entry[random.pick(&[3, 4])] = random.pick(&[1, 255]),
        _ => spoil_sides_or_key(random, entry),
    }
}

/// The beginning of a 1,025th entry, whatever it is.
fn begun(random: &mut Prng) -> Vec<u8> {
    let length = random.pick(&[1, 1, 20, 104, 105, 128, 129]);
    let mut behind = random.bytes(length);
    behind[0] = random.pick(&[0, 3, 4, 5, 6, 7, 8, 255]);
    behind
}

/// 1,024 entries, of which those that share IDs are for different peers, and something behind them: 12,
/// whatever it is.
fn too_many(random: &mut Prng, entries: &mut Vec<Vec<u8>>) {
    let mut key = any(random);
    *entries = (0..1_024_u16)
        .map(|index| {
            let [peer, id] = index.to_be_bytes();
            (key.send_id, key.recv_id) = (id, id ^ 1);
            other_peer(&key, peer.into()).bytes()
        })
        .collect();
    entries.push(begun(random));
}

/// The last entry is cut, or another one, so that the next begins too early.
fn cut(random: &mut Prng, entries: &mut [Vec<u8>]) {
    let last = entries.len() - 1;
    let at = if random.one_in(4) {
        random.below(entries.len())
    } else {
        last
    };
    let length = entries[at].len();
    let left = match random.below(3) {
        0 => length.min(1),
        1 => length.saturating_sub(1),
        _ => random.below(length + 1),
    };
    entries[at].truncate(left);
}

/// Of a whole entry, the address's bytes, and whether the MAC's length is said.
fn shape(entry: &[u8]) -> Option<(usize, usize)> {
    match entry.len() {
        104 => Some((4, 0)),
        105 => Some((4, 1)),
        128 => Some((16, 0)),
        129 => Some((16, 1)),
        _ => None,
    }
}

/// One of 11 and 13 to 16 in a whole entry.
fn spoil_entry(random: &mut Prng, entry: &mut [u8]) {
    let Some((address, said)) = shape(entry) else {
        return;
    };
    let mac_length = 14 + 2 * address + said;
    match random.below(10) {
        0 => entry[0] = random.pick(&[0, 1, 3, 4, 5, 6, 7, 8, 255]),
        1 => entry[1] = random.pick(&[8, 8, 9, 12, 15, 16, 128, 255]),
        2 => entry[2] = random.pick(&[0, 4, 5, 255]),
        3 if said == 1 => entry[mac_length] = random.pick(&[0, 1, 2, 3, 17, 18, 255]),
        _ => spoil_sides_or_key(random, entry),
    }
}

/// One of 14 to 16 in a whole entry.
fn spoil_sides_or_key(random: &mut Prng, entry: &mut [u8]) {
    let Some((address, said)) = shape(entry) else {
        return;
    };
    let key_length = 15 + 2 * address + said;
    let prefixes = [13 + address, 14 + 2 * address];
    match random.below(7) {
        0..=1 => {
            // Low just above high, or well above it.
            let at = random.pick(&[5, 9]);
            let low = 1 + random.half() / 2;
            let high = random.pick(&[low - 1, 0]);
            entry[at..at + 2].copy_from_slice(&low.to_be_bytes());
            entry[at + 2..at + 4].copy_from_slice(&high.to_be_bytes());
        }
        2 => {
            let at = random.pick(&prefixes);
            entry[at] = 8 * address as u8 + random.pick(&[1, 2, 8, 96]);
        }
        3 => {
            // A bit behind the prefix: the first, the last or any.
            let at = random.pick(&prefixes);
            let bits = 8 * address;
            let used = (entry[at] as usize).min(bits - 1);
            entry[at] = used as u8;
            let any = used + random.below(bits - used);
            let bit = random.pick(&[used, bits - 1, any]);
            entry[at - address + bit / 8] |= 0x80 >> (bit % 8);
        }
        4 => entry[key_length] = random.pick(&[0, 81, 255]),
        5 => entry[key_length] = random.pick(&[1, 80, entry[key_length].saturating_sub(1)]),
        _ => {
            let behind = key_length + 1 + (entry[key_length] as usize).min(79);
            let last = entry.len() - 1;
            entry[random.pick(&[behind, last])] = 1;
        }
    }
}
