//! Cases for the reader of QForm.

use super::dictionaries::{self, record};
use super::{damage, tib};
use crate::call::{Call, Qform};
use crate::oracle::qform::{read, with_padding, Dictionary, LAST_FID, MOST_RECORDS, RECORD};
use crate::oracle::MESSAGE_LIMIT;
use crate::rng::Rng;

const HEADER: usize = 8;

pub fn random(rng: &mut Rng) -> Vec<Call> {
    let mut dictionary = dictionaries::good(rng);
    let mut body = fields(rng, &dictionaries::loaded(&dictionary));
    if rng.below(300) == 0 {
        fill_up(rng, &mut dictionary, &mut body);
    }
    match rng.below(12) {
        0 => damage::some(rng, &mut body),
        1..=2 => fault_behind(rng, &dictionaries::loaded(&dictionary), &mut body),
        3 => drop(body.pop()),
        _ => {}
    }
    let mut message = message(&body);
    tib::damage_header(rng, &mut message);
    if rng.chance(12) {
        dictionary = dictionaries::damaged(rng);
    }
    calls(rng, &dictionary, &message)
}

/// A message with a good header around the fields.
pub fn message(body: &[u8]) -> Vec<u8> {
    let mut message = vec![0x11, 0x11, 0x11, 0x12];
    message.extend((body.len() as u32).to_be_bytes());
    message.extend(body);
    message
}

/// The check, and some of the fields.
pub fn calls(rng: &mut Rng, dictionary: &[u8], message: &[u8]) -> Vec<Call> {
    let on = Qform { dictionary: dictionary.into(), message: message.into() };
    let fields = read(dictionary, message).map_or(1, |fields| fields.len());
    let mut calls = vec![Call::QformCheck(on.clone())];
    calls.extend(tib::some_ks(rng, fields).into_iter().map(|k| Call::QformField { on: on.clone(), k }));
    calls
}

/// Fields of fids in the dictionary. Large ones are mostly left out.
fn fields(rng: &mut Rng, dictionary: &Dictionary) -> Vec<u8> {
    let most = rng.pick(&[20, 20, 60, 1_000, MESSAGE_LIMIT]);
    let small: Vec<(u16, usize)> =
        dictionary.iter().map(|(fid, entry)| (*fid, entry.size.into())).filter(|(_, size)| *size <= most).collect();
    let mut body = Vec::new();
    if small.is_empty() {
        return body;
    }
    for _ in 0..tib::field_count(rng) {
        let (fid, size) = rng.pick(&small);
        // A message that is too long is made by `fill_up` alone.
        if HEADER + body.len() + 2 + with_padding(size) <= MESSAGE_LIMIT {
            body.extend(field(rng, fid, size));
        }
    }
    body
}

/// A field with data and a padding octet of any value.
fn field(rng: &mut Rng, fid: u16, size: usize) -> Vec<u8> {
    let mut octets = (fid | 0xc000).to_be_bytes().to_vec();
    octets.extend(rng.octets(with_padding(size)));
    if rng.chance(10) {
        octets[2..].fill(rng.pick(&[0, 0xff, 0xc0]));
    }
    octets
}

/// Puts something behind the fields that is none.
fn fault_behind(rng: &mut Rng, dictionary: &Dictionary, body: &mut Vec<u8>) {
    let fids: Vec<u16> = dictionary.keys().copied().collect();
    let known = if fids.is_empty() { 1 } else { rng.pick(&fids) };
    let size = dictionary.get(&known).map_or(0, |entry| entry.size.into());
    let behind = rng.below(4);
    match rng.below(6) {
        // One octet where a FID should stand.
        0 => body.push(rng.pick(&[0, 0x40, 0x80, 0xc0, 0xff])),
        // Flags that are not set, singly and both.
        1 => body.extend((known | rng.pick(&[0, 0x4000, 0x8000])).to_be_bytes()),
        // A fid that is not in the dictionary, perhaps a neighbour of one that is.
        2 => body.extend((unknown(rng, dictionary, known) | 0xc000).to_be_bytes()),
        // Data and padding that are not all there.
        3..=4 => {
            let mut field = field(rng, known, size.min(2_000));
            let cut = if rng.chance(50) { field.len() - 1 } else { rng.from_to(1, field.len()) };
            field.truncate(cut);
            body.extend(field);
            return;
        }
        _ => body.extend((known | 0xc000).to_be_bytes()),
    }
    body.extend(rng.octets(behind));
}

fn unknown(rng: &mut Rng, dictionary: &Dictionary, known: u16) -> u16 {
    let start = match rng.below(4) {
        0 => known.wrapping_add(1),
        1 => known.wrapping_sub(1),
        2 => known ^ 1 << rng.below(14),
        _ => rng.word() as u16,
    };
    let fids = (0..=LAST_FID).map(|more| start.wrapping_add(more) & LAST_FID);
    fids.into_iter().find(|fid| !dictionary.contains_key(fid)).expect("a dictionary has not all fids")
}

/// Brings the message to the limit of length or beyond it, by one field of a fid of its own.
fn fill_up(rng: &mut Rng, dictionary: &mut Vec<u8>, body: &mut Vec<u8>) {
    let left = MESSAGE_LIMIT - HEADER - body.len();
    if left < 2 || dictionary.len() == MOST_RECORDS * RECORD {
        return;
    }
    let fid = unknown(rng, &dictionaries::loaded(dictionary), LAST_FID);
    // All fields have an even length, so this one fills the message with a padding octet or without.
    let size = (left - 2).saturating_sub(rng.below(2));
    dictionary.extend(record(fid, 11, size as u16));
    body.extend(field(rng, fid, size));
    match rng.below(4) {
        0 => body.push(rng.octet()),
        1 => drop(body.pop()),
        _ => {}
    }
}

/// For each size up to this, a message is cut everywhere: see `cut`.
const SIZES: u64 = 20;
/// The fields before the one that is cut.
const BEFORE: usize = 3;
/// Room for the longest message of `cut` and one octet more.
const LENGTHS: u64 = 8 + (3 + 1) * (2 + SIZES) + 2;
pub const CUTS: u64 = SIZES * LENGTHS;

/// Fields of one size, then octets so that the message has each length. The header agrees with the length.
pub fn cut(number: u64) -> (Vec<u8>, Vec<u8>) {
    let (size, length) = ((number / LENGTHS) as u16, (number % LENGTHS) as usize);
    let mut octets = Vec::new();
    for fid in 0..=BEFORE as u16 {
        octets.extend((0xc000 + fid).to_be_bytes());
        octets.extend(vec![0xc0; with_padding(size.into())]);
    }
    octets.push(0xc0);
    octets.resize(LENGTHS as usize, 0);
    let mut message = message(&octets[..length.saturating_sub(HEADER)]);
    message.truncate(length);
    let dictionary = (0..=BEFORE as u16).flat_map(|fid| record(fid, 2, size)).collect();
    (dictionary, message)
}
