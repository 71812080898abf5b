//! Prepared tables: what stands for the same entries, and what is damaged.

use crate::prng::Prng;
use crate::tables::id;
use kit::entry::covered;
use kit::prepared::{copy, counts, length, mark, put_counts, Field, BACK, COLUMNS, COUNTS, SLOT};
use kit::Call;
use reference::calls::prepare;
use reference::md5_table::Lent;
use std::ops::Range;

/// The tables of a call, given as bytes, prepared; nothing if they are refused.
pub fn of(call: &Call) -> Option<Vec<u8>> {
    let tables = Lent::of_bytes(&call.table, &call.md5);
    prepare(&tables, usize::MAX).ok()
}

/// The same call with its tables prepared, now and then written otherwise; nothing if it takes them so already,
/// takes only bytes, or they are refused.
pub fn same_prepared(random: &mut Prng, call: &Call) -> Option<Call> {
    if call.form != 0 || !call.function.takes_form() {
        return None;
    }
    let mut table = of(call)?;
    if random.one_in(2) {
        write_otherwise(random, &mut table);
    }
    Some(Call {
        form: form(random),
        table,
        md5: vec![],
        ..call.clone()
    })
}

/// Any value but 0.
fn form(random: &mut Prng) -> u8 {
    let any = 1 + random.below(255) as u8;
    random.pick(&[1, 1, 2, 128, 255, any])
}

/// Lends the call's tables prepared: as they are, written otherwise, damaged or, `refused`, so that they are none.
pub fn lend(random: &mut Prng, call: &mut Call, refused: bool) {
    let bytes = of(call).unwrap_or_else(|| vec![0; COUNTS]);
    let md5 = std::mem::take(&mut call.md5);
    call.form = form(random);
    call.table = bytes;
    match random.below(11) {
        0 => {}
        1 => write_otherwise(random, &mut call.table),
        2..=3 => double(random, &mut call.table),
        4..=5 => call.table = repeated(random, &call.table),
        6..=7 => call.table = grown(random, &call.table),
        8 => call.table = any_bytes(random),
        _ => {
            for _ in 0..random.pick(&[1, 1, 1, 2, 5]) {
                damage(random, &mut call.table);
            }
        }
    }
    if refused {
        spoil(random, call, md5);
    }
}

/// How many entries there are, and which one is taken at random.
fn any_entry(random: &mut Prng, table: &[u8]) -> Option<(usize, usize)> {
    let entries = counts(table).iter().sum();
    (entries > 0).then(|| (entries, random.below(entries)))
}

/// A byte of so many.
fn byte_in(random: &mut Prng, range: Range<usize>) -> u8 {
    (range.start + random.below(range.len())) as u8
}

/// Puts in each field now and then other bytes that read as the same.
fn write_otherwise(random: &mut Prng, table: &mut [u8]) {
    let [keys, md5] = counts(table);
    for index in 0..keys + md5 {
        for field in Field::ALL {
            if random.one_in(3) {
                write_otherwise_field(random, table, (keys + md5, index), index >= keys, field);
            }
        }
    }
}

fn write_otherwise_field(
    random: &mut Prng,
    table: &mut [u8],
    (entries, index): (usize, usize),
    by_md5: bool,
    field: Field,
) {
    use Field::*;
    let of = |field: Field| field.of(entries, index);
    let at = of(field);
    let byte = table[at.start];
    let bits = if table[of(Family).start] == 4 {
        32
    } else {
        128
    };
    // Which bits of an address's byte count.
    let kept = |table: &[u8], prefix: Field, byte: usize| -> u8 {
        covered(usize::from(table[of(prefix).start]).min(bits), byte)
    };
    match (field, by_md5) {
        (SendId | RecvId | Flags | Algorithm | MacBytes, true) => table[at.start] = random.byte(),
        (Flags, _) => table[at.start] = byte % 8 + 8 * random.below(32) as u8,
        (Algorithm, _) if byte <= 1 => table[at.start] = byte_in(random, 0..2),
        (Algorithm, _) if byte >= 3 => table[at.start] = byte_in(random, 3..256),
        (MacBytes, _) if byte <= 4 => table[at.start] = byte_in(random, 0..5),
        (MacBytes, _) if byte >= 16 => table[at.start] = byte_in(random, 16..256),
        (KeyLength, _) if byte <= 1 => table[at.start] = byte_in(random, 0..2),
        (KeyLength, _) if byte >= 80 => table[at.start] = byte_in(random, 80..256),
        (RemotePrefix | LocalPrefix, _) if usize::from(byte) >= bits => {
            table[at.start] = byte_in(random, bits..256);
        }
        (Family, _) if byte != 4 => {
            let other = random.byte();
            table[at.start] = if other == 4 { 6 } else { other };
        }
        (RemoteLow, _) => exchange(table, of(RemoteLow), of(RemoteHigh)),
        (LocalLow, _) => exchange(table, of(LocalLow), of(LocalHigh)),
        (RemoteAddress | LocalAddress, _) => {
            // The remote address's last byte is not stored; what stands behind the others means nothing.
            let (prefix, own) = match field {
                RemoteAddress => (RemotePrefix, bits / 8 - 1),
                _ => (LocalPrefix, bits / 8),
            };
            for i in 0..at.len() {
                let kept = if i < own { kept(table, prefix, i) } else { 0 };
                let byte = &mut table[at.start + i];
                *byte = *byte & kept | random.byte() & !kept;
            }
        }
        (Mark, _) => {
            // The bits of the last byte that count stay.
            let before_last = bits / 8 - 1;
            let sum = mark(&table[of(RemoteAddress)][..before_last]);
            let kept = kept(table, RemotePrefix, before_last);
            let last = byte.wrapping_sub(sum) & kept | random.byte() & !kept;
            table[at.start] = sum.wrapping_add(last);
        }
        (Key, _) => {
            let used = table[of(KeyLength).start].clamp(1, 80);
            for byte in &mut table[at][usize::from(used)..] {
                *byte = random.byte();
            }
        }
        _ => {}
    }
}

fn exchange(table: &mut [u8], one: Range<usize>, other: Range<usize>) {
    for (a, b) in one.zip(other) {
        table.swap(a, b);
    }
}

/// Puts other bytes in one field: such as lie at an edge of what is stored, or any.
fn damage(random: &mut Prng, table: &mut [u8]) {
    use Field::*;
    let Some((entries, index)) = any_entry(random, table) else {
        return;
    };
    let field = random.pick(&Field::ALL);
    let at = field.of(entries, index);
    let near = [1, 255, 128, 16].map(|more| table[at.start].wrapping_add(more));
    let edges: &[u8] = match field {
        SendId | RecvId => &[0, 1, 2, 3],
        Mark => &near,
        RemotePrefix | LocalPrefix => &[0, 1, 8, 24, 31, 32, 33, 64, 127, 128, 129],
        Family => &[0, 3, 4, 5, 6, 7],
        Flags => &[0, 1, 2, 4, 7, 8, 9, 128],
        Algorithm => &[0, 1, 2, 3, 4, 19],
        MacBytes => &[0, 3, 4, 5, 11, 12, 13, 15, 16, 17],
        KeyLength => &[0, 1, 2, 16, 79, 80, 81],
        _ => &[0, 255],
    };
    let (any, edge) = (random.byte(), random.pick(edges));
    let byte = random.pick(&[edge, edge, 255, any]);
    match field {
        RemoteAddress if random.one_in(2) => {
            // Of IPv4, what means nothing.
            table[at][3..].fill(byte);
        }
        RemoteAddress if random.one_in(2) => {
            // Another peer with the same last byte.
            let bit = 1 << random.below(8);
            let (upper, mark) = (at.start + random.below(3), Mark.of(entries, index).start);
            table[upper] = table[upper].wrapping_add(bit);
            table[mark] = table[mark].wrapping_add(bit);
        }
        RemoteAddress | LocalAddress | Key => random.flip(&mut table[at]),
        RemoteLow | LocalLow | RemoteHigh | LocalHigh => {
            let any = random.half();
            let port = random.pick(&[0, 1, 65_535, any]);
            table[at].copy_from_slice(&port.to_be_bytes());
        }
        _ => table[at].fill(byte),
    }
}

/// Any bytes, but for the counts and the length, which are right; and entries that match any pair of a family now and
/// then, else hardly any would match.
fn any_bytes(random: &mut Prng) -> Vec<u8> {
    let few = [0, 1, 2, 3, 31, 32, 33];
    let parts = [(); 2].map(|_| random.pick(&few));
    let entries = parts.iter().sum();
    let mut table = random.bytes(length(entries));
    put_counts(&mut table, parts);
    for index in 0..entries {
        let mut put = |field: Field, byte: u8| table[field.of(entries, index)].fill(byte);
        if random.one_in(2) {
            put(Field::Family, random.pick(&[4, 6]));
            put(Field::RemotePrefix, 0);
            put(Field::LocalPrefix, 0);
            put(Field::SendId, id(random));
            put(Field::RecvId, id(random));
        }
    }
    table
}

/// Puts an entry in another's place, in whichever part, with another key or MAC's length: both then match the
/// same pairs, and what is first counts.
fn double(random: &mut Prng, table: &mut [u8]) {
    let (Some((entries, one)), Some((_, other))) =
        (any_entry(random, table), any_entry(random, table))
    else {
        return;
    };
    // Most times the old one stays the first.
    let (from, to) = match random.one_in(4) {
        true => (one, other),
        false => (one.min(other), one.max(other)),
    };
    let whole = random.one_in(3);
    for field in Field::ALL {
        let other = [Field::Key, Field::KeyLength, Field::MacBytes];
        if whole || !other.contains(&field) {
            let bytes = table[field.of(entries, from)].to_vec();
            table[field.of(entries, to)].copy_from_slice(&bytes);
        }
    }
}

/// Each entry once more, behind all of its part and with another key or ID: whichever a call takes, a later one would
/// do as well.
fn repeated(random: &mut Prng, table: &[u8]) -> Vec<u8> {
    let [keys, md5] = counts(table);
    let old = keys + md5;
    if keys.max(md5) > 512 {
        return table.to_vec();
    }
    let mut repeated = vec![0; length(2 * old)];
    put_counts(&mut repeated, [2 * keys, 2 * md5]);
    let parts = [
        (0..keys, false),
        (0..keys, true),
        (keys..old, false),
        (keys..old, true),
    ];
    let sources = parts
        .into_iter()
        .flat_map(|(part, again)| part.map(move |i| (i, again)));
    for (index, (source, again)) in sources.enumerate() {
        copy(table, (old, source), &mut repeated, (2 * old, index));
        if again {
            let field = random.pick(&[Field::SendId, Field::RecvId, Field::Key, Field::Key]);
            repeated[field.of(2 * old, index).start] ^= 1 << random.below(8);
        }
    }
    repeated
}

/// With more entries, somewhere among those that are there: copies of these, of which most are for others. In each part
/// there are up to 1,024, or about 32, since the archive searches by blocks of so many.
fn grown(random: &mut Prng, table: &[u8]) -> Vec<u8> {
    let many = random.one_in(70);
    // In half of them the new ones are for one address each, so that hardly any matches as an old one does.
    let for_hosts = random.one_in(2);
    let mut part = |n: usize| {
        let counts: &[usize] = match many {
            true => &[0, 1_024, 1_024],
            false => &[0, 8, 31, 32, 33, 64, 160, 160],
        };
        let count = random.pick(counts).max(n);
        // Which of the old entries stands at each place.
        let first = random.below(count - n + 1);
        (first, count)
    };
    let [keys, md5] = counts(table);
    let old = keys + md5;
    if old == 0 {
        return table.to_vec();
    }
    let [(keys_first, keys_count), (md5_first, md5_count)] = [part(keys), part(md5)];
    let mut sources: Vec<(usize, bool)> = vec![];
    for (n, first, count, from) in [
        (keys, keys_first, keys_count, 0),
        (md5, md5_first, md5_count, keys),
    ] {
        for place in 0..count {
            match place.checked_sub(first) {
                Some(index) if index < n => sources.push((from + index, true)),
                _ => sources.push((random.below(old), false)),
            }
        }
    }
    let entries = sources.len();
    let mut grown = vec![0; length(entries)];
    put_counts(&mut grown, [keys_count, md5_count]);
    for (index, (source, kept)) in sources.into_iter().enumerate() {
        copy(table, (old, source), &mut grown, (entries, index));
        if !kept && for_hosts {
            grown[Field::RemotePrefix.of(entries, index)].fill(255);
            grown[Field::Mark.of(entries, index).start] ^= 1 << random.below(8);
        } else if !kept && !random.one_in(20) {
            // For another peer, if a bit of the address counts: its mark is another, or its last byte.
            let upper = Field::RemoteAddress.of(entries, index).start;
            let mark = Field::Mark.of(entries, index).start;
            let at = random.pick(&[upper, upper + 1, upper + 2, mark]);
            grown[at] ^= 1 << random.below(8);
        }
    }
    grown
}

/// No prepared table: another length, other counts, a second buffer beside it, or anything.
fn spoil(random: &mut Prng, call: &mut Call, md5: Vec<u8>) {
    let table = &mut call.table;
    match random.below(8) {
        0 => {
            call.md5 = match md5.is_empty() {
                true => random.bytes(1),
                false => md5,
            }
        }
        1 => {
            let more = random.pick(&[1, 1, COLUMNS, SLOT, BACK, length(1) - COUNTS]);
            table.resize(table.len() + more, 0);
        }
        2 => {
            let less = random.pick(&[1, 1, COLUMNS, SLOT, BACK, length(1) - COUNTS]);
            table.truncate(table.len().saturating_sub(less));
        }
        3 => table.truncate(random.below(table.len() + 1)),
        4 => {
            let at = random.pick(&[0, 1, 2, 3]);
            let step = random.pick(&[1, 255, 4]);
            table[at] = table[at].wrapping_add(step);
        }
        5 => {
            let bytes = random.below(600);
            *table = random.bytes(bytes);
        }
        6 => {
            // As long as its counts say, but for one that is too large.
            let keys = random.pick(&[0, 1, 1_024, 1_025, 1_025]);
            let md5 = random.pick(&[0, 1, 1_025]);
            if random.one_in(20) {
                table.resize(length(keys + md5), 0);
                put_counts(table, [keys, md5]);
            } else {
                table.clear();
            }
        }
        _ => {
            let few = random.below(3);
            table.truncate(few);
        }
    }
}
