//! Field tables, good and damaged.

use super::damage;
use crate::oracle::table::{load, Table};
use crate::rng::Rng;

/// How many of 100 records are single.
const SINGLE: [usize; 5] = [0, 0, 15, 50, 100];

/// A good table, biased to few message numbers and small tags, with records of both lengths.
pub fn good(rng: &mut Rng) -> Vec<u8> {
    let wanted = match rng.below(20) {
        0 => 0,
        1..=10 => rng.from_to(1, 6),
        11..=16 => rng.from_to(5, 20),
        17..=18 => rng.from_to(20, 63),
        _ => 64,
    };
    let single = rng.pick(&SINGLE);
    let mut octets = Vec::new();
    let mut records = 0;
    while records < wanted {
        let mut longer = octets.clone();
        longer.extend(record(rng, single));
        if load(&longer).is_ok() {
            octets = longer;
            records += 1;
        }
    }
    octets
}

/// The table of these entries (tag, kind) at message 0, with records of both lengths, some of them single.
pub fn of_message_0(rng: &mut Rng, entries: &[(u8, u8)]) -> Vec<u8> {
    let single = rng.pick(&[0, 0, 0, 30, 100]);
    entries.iter().flat_map(|(tag, kind)| marked(rng, [0, 0, *tag, *kind, 0], single)).collect()
}

/// A tag, biased to those that fit into the control octet and to the limits of the tag forms.
pub fn tag(rng: &mut Rng) -> u16 {
    match rng.below(20) {
        0..=11 => rng.below(6) as u16,
        12..=14 => rng.below(16) as u16,
        15..=17 => rng.pick(&[12, 13, 14, 15, 16, 0x23, 0xfe, 0xff, 0x100, 0x101, 0x4567, 0xfffe, 0xffff]),
        _ => rng.word() as u16,
    }
}

fn message_number(rng: &mut Rng) -> u8 {
    match rng.below(10) {
        0..=6 => rng.below(3) as u8,
        7..=8 => rng.below(16) as u8,
        _ => 15,
    }
}

/// A good record; so often of 100 a single one.
fn record(rng: &mut Rng, single: usize) -> Vec<u8> {
    let kind = rng.pick(&[1, 1, 2, 2, 2, 3, 4, 4, 5, 5, 5]);
    let inner = if kind == 5 { message_number(rng) } else { 0 };
    let tag = tag(rng).to_be_bytes();
    let message = message_number(rng);
    marked(rng, [message, tag[0], tag[1], kind, inner], single)
}

/// The record of an entry: so often of 100 a single one, else of either length.
fn marked(rng: &mut Rng, entry: [u8; 5], single: usize) -> Vec<u8> {
    let single = rng.chance(single);
    let mark = match single || rng.chance(30) {
        true => &[u8::from(single)][..],
        false => &[],
    };
    [&[1, 0, 5 + mark.len() as u8], &entry[..], mark].concat()
}

/// Where the records of a good table start, and its end.
fn starts(octets: &[u8]) -> Vec<usize> {
    let mut starts = vec![0];
    let mut place = 0;
    while place < octets.len() {
        place += 3 + usize::from(octets[place + 2]);
        starts.push(place);
    }
    starts
}

/// A table that is mostly refused.
pub fn damaged(rng: &mut Rng) -> Vec<u8> {
    let mut octets = good(rng);
    match rng.below(10) {
        0 => octets.truncate(rng.below(octets.len() + 1)),
        1 => octets.extend(rng.octets(9)),
        2 => octets.extend(record(rng, 50)),
        3 => repeat_a_record(rng, &mut octets),
        4 => octets = full_and_more(rng),
        5..=8 => spoil_a_record(rng, &mut octets),
        _ => damage::some(rng, &mut octets),
    }
    octets
}

/// Puts a second record for a pair somewhere behind the first, perhaps with other contents.
fn repeat_a_record(rng: &mut Rng, octets: &mut Vec<u8>) {
    let starts = starts(octets);
    let records = starts.len() - 1;
    if records == 0 {
        return;
    }
    let first = rng.below(records);
    let mut again = octets[starts[first]..starts[first + 1]].to_vec();
    if rng.chance(50) {
        let pair = [again[3], again[4], again[5]];
        again = marked(rng, [pair[0], pair[1], pair[2], 1, 0], 50);
    }
    let place = starts[rng.from_to(first + 1, records)];
    octets.splice(place..place, again);
}

/// 64 good records and something behind them.
fn full_and_more(rng: &mut Rng) -> Vec<u8> {
    let mut octets = Vec::new();
    for index in 0..64u8 {
        octets.extend(marked(rng, [index % 16, 0, index / 16, 1 + index % 4, 0], 20));
    }
    match rng.below(3) {
        0 => octets.extend(marked(rng, [0, 0, 99, 1, 0], 20)),
        1 => octets.push(rng.octet()),
        _ => octets.extend(rng.octets(20)),
    }
    octets
}

/// Sets one octet of a record, often to a bad value. Another length may leave the octets behind it as records, or not.
fn spoil_a_record(rng: &mut Rng, octets: &mut [u8]) {
    let starts = starts(octets);
    let records = starts.len() - 1;
    if records == 0 {
        return;
    }
    let chosen = rng.below(records);
    let record = &mut octets[starts[chosen]..starts[chosen + 1]];
    let last = record.len() - 1;
    let (part, value) = match rng.below(9) {
        0 => (0, rng.pick(&[0, 2, 0x81, 0xff])),
        1 => (1, rng.pick(&[1, 5, 6, 0x80])),
        2 => (2, rng.pick(&[0, 4, 5, 6, 7, 0x85, 0x86])),
        3 => (3, rng.pick(&[16, 17, 0x80, 0xff])),
        4 => (6, rng.pick(&[0, 6, 7, 0x81, 0xff])),
        5 => (7, rng.pick(&[1, 16, 17, 0x80, 0x81, 0xff])),
        6 => (last, rng.pick(&[1, 2, 3, 5, 0x80, 0x81, 0xff])),
        _ => (rng.below(last + 1), rng.octet()),
    };
    record[part] = value;
}

/// The table's value, for making messages under it.
pub fn loaded(octets: &[u8]) -> Table {
    load(octets).expect("made as a good table")
}
