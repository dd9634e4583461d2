//! Dictionaries of QForm, good and damaged.

use super::damage;
use crate::oracle::qform::{load, Dictionary, GROCERY, GROCERY_SIZE, LAST_FID, LAST_TYPE, MOST_RECORDS, RECORD};
use crate::rng::Rng;

/// Fids at the limits of fid and octet.
const FIDS: [u16; 12] = [0, 1, 2, 0xff, 0x100, 0x1fff, 0x2000, 0x2001, 0x3eff, 0x3ffe, 0x3fff, 0x0fa1];
/// Sizes at the limits of a message and of their octets. The data of most are larger than a message.
const SIZES: [u16; 14] = [0, 1, 0xff, 0x100, 0x101, 0x7fff, 0x8000, 0xfff5, 0xfff6, 0xfff7, 0xfff8, 0xfffd, 0xfffe, 0xffff];

pub fn record(fid: u16, kind: u8, size: u16) -> [u8; RECORD] {
    let ([fid_high, fid_low], [size_high, size_low]) = (fid.to_be_bytes(), size.to_be_bytes());
    [2, 0, 5, fid_high, fid_low, kind, size_high, size_low]
}

/// A good dictionary of any count of records, its fids in any order.
pub fn good(rng: &mut Rng) -> Vec<u8> {
    let wanted = match rng.below(40) {
        0 => 0,
        1..=25 => rng.from_to(1, 8),
        26..=34 => rng.from_to(5, 40),
        35..=36 => rng.from_to(41, 300),
        37 => MOST_RECORDS - 1,
        38 => MOST_RECORDS,
        _ => rng.from_to(300, MOST_RECORDS),
    };
    of_records(rng, wanted)
}

/// A good dictionary of so many records.
pub fn of_records(rng: &mut Rng, wanted: usize) -> Vec<u8> {
    let mut seen = vec![false; usize::from(LAST_FID) + 1];
    let mut octets = Vec::new();
    // From here on the fids are often neighbours, which have all but their last bits alike.
    let near = rng.below(seen.len());
    while octets.len() < wanted * RECORD {
        let fid = fid(rng, near);
        if !std::mem::replace(&mut seen[usize::from(fid)], true) {
            octets.extend(good_record(rng, fid));
        }
    }
    octets
}

fn fid(rng: &mut Rng, near: usize) -> u16 {
    match rng.below(6) {
        0..=1 => rng.pick(&FIDS),
        2..=3 => ((near + rng.below(1_000)) % (usize::from(LAST_FID) + 1)) as u16,
        _ => rng.word() as u16 & LAST_FID,
    }
}

fn good_record(rng: &mut Rng, fid: u16) -> [u8; RECORD] {
    let kind = match rng.below(4) {
        0 => rng.pick(&[1, 2, 9, 14, GROCERY, 16, 17]),
        _ => rng.below(usize::from(LAST_TYPE) + 1) as u8,
    };
    record(fid, kind, if kind == GROCERY { GROCERY_SIZE } else { size(rng) })
}

fn size(rng: &mut Rng) -> u16 {
    match rng.below(20) {
        0..=12 => rng.below(10) as u16,
        13..=17 => rng.below(40) as u16,
        18 => rng.below(1_000) as u16,
        _ => rng.pick(&SIZES),
    }
}

/// A dictionary that is mostly refused.
pub fn damaged(rng: &mut Rng) -> Vec<u8> {
    let mut octets = good(rng);
    match rng.below(8) {
        0 => octets.truncate(rng.below(octets.len() + 1)),
        1 => octets.extend(rng.octets(RECORD)),
        2 => octets = full_and_more(rng),
        3..=5 => spoil_a_record(rng, &mut octets),
        _ => damage::some(rng, &mut octets),
    }
    octets
}

/// 512 good records and something behind them.
fn full_and_more(rng: &mut Rng) -> Vec<u8> {
    let mut octets = of_records(rng, MOST_RECORDS);
    match rng.below(3) {
        // A record with a fid of its own, so that its number alone is its fault.
        0 => octets.extend(unused(&octets)),
        1 => octets.push(rng.octet()),
        _ => octets.extend(rng.octets(20)),
    }
    octets
}

/// A good record with a fid that a dictionary does not have.
fn unused(octets: &[u8]) -> [u8; RECORD] {
    let dictionary = loaded(octets);
    let fid = (0..=LAST_FID).find(|fid| !dictionary.contains_key(fid)).expect("512 records have not all fids");
    record(fid, 2, 4)
}

fn spoil_a_record(rng: &mut Rng, octets: &mut [u8]) {
    let records = octets.len() / RECORD;
    if records == 0 {
        return;
    }
    let (chosen, other) = (rng.below(records), rng.below(records));
    let fault = rng.below(FAULTS.len());
    let again = [octets[other * RECORD + 3], octets[other * RECORD + 4]];
    let record = &mut octets[chosen * RECORD..][..RECORD];
    match rng.below(3) {
        0 => record[rng.below(RECORD)] = rng.octet(),
        1 => record[3..5].copy_from_slice(&again),
        _ => put(record, FAULTS[fault]),
    }
}

/// Octets of a record, from a place on.
type Fault = (usize, &'static [u8]);

/// What makes a record faulty wherever it stands, each by one rule alone.
const FAULTS: [Fault; 26] = [
    (0, &[0]),
    (0, &[1]),
    (0, &[3]),
    (0, &[0x82]),
    (1, &[1]),
    (1, &[0x80]),
    (1, &[5, 0]),
    (2, &[4]),
    (2, &[6]),
    (2, &[0x85]),
    (3, &[0x40]),
    (3, &[0x40, 0]),
    (3, &[0x80]),
    (3, &[0xc0]),
    (3, &[0xff, 0xff]),
    (5, &[22, 0, 9]),
    (5, &[31, 0, 9]),
    (5, &[0x8f, 0, 9]),
    (5, &[0xff, 0, 9]),
    (5, &[GROCERY, 0, 8]),
    (5, &[GROCERY, 0, 10]),
    (5, &[GROCERY, 0, 0]),
    (5, &[GROCERY, 1, 9]),
    (5, &[GROCERY, 9, 0]),
    (5, &[GROCERY, 0, 1]),
    (5, &[GROCERY, 0x80, 9]),
];

fn put(record: &mut [u8], (from, octets): Fault) {
    record[from..from + octets.len()].copy_from_slice(octets);
}

/// The further faults of `fault_at`: the record is cut to 1 to 7 octets, or its fid is that of the first record, of the one in the middle
/// or of the one before.
const CUTS: u64 = RECORD as u64 - 1;
const AGAIN: u64 = 3;
const FAULT_KINDS: u64 = FAULTS.len() as u64 + CUTS + AGAIN;
/// How many cases `fault_at` has: each fault in each record of a full dictionary.
pub const FAULTS_AT: u64 = FAULT_KINDS * MOST_RECORDS as u64;

/// A full dictionary with one fault in one record, and the number of the record. The first record has no record before it, so a fid that
/// comes again is no fault there.
pub fn fault_at(number: u64) -> (Vec<u8>, usize) {
    let (chosen, kind) = ((number / FAULT_KINDS) as usize, (number % FAULT_KINDS) as usize);
    let mut octets = full();
    let at = chosen * RECORD;
    let cut = kind.wrapping_sub(FAULTS.len());
    if kind < FAULTS.len() {
        put(&mut octets[at..at + RECORD], FAULTS[kind]);
    } else if cut < CUTS as usize {
        octets.truncate(at + 1 + cut);
    } else {
        let other = [0, chosen / 2, chosen.saturating_sub(1)][cut - CUTS as usize] * RECORD;
        octets.copy_within(other + 3..other + 5, at + 3);
    }
    (octets, chosen)
}

/// A full dictionary without a fault. Its fids rise from 0 to 16383, its sizes go from 0 to 8, and the types take turns.
pub fn full() -> Vec<u8> {
    (0..MOST_RECORDS as u16).flat_map(|index| record(full_fid(index), full_type(index), full_size(index))).collect()
}

/// The fid of the record with this number in the full dictionary.
pub fn full_fid(index: u16) -> u16 {
    index * 32 + index / 16
}

fn full_type(index: u16) -> u8 {
    let kind = (index % (u16::from(LAST_TYPE) + 1)) as u8;
    if kind == GROCERY {
        2
    } else {
        kind
    }
}

fn full_size(index: u16) -> u16 {
    index % 9
}

/// The dictionary's value, for making messages under it.
pub fn loaded(octets: &[u8]) -> Dictionary {
    load(octets).expect("made as a good dictionary")
}
