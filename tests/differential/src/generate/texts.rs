//! Texts, good and bad, made character by character.

use crate::oracle::message::least_size;
use crate::rng::Rng;

/// Values at the limits of the sizes, of the surrogates and of all.
const LIMITS: [usize; 11] = [0, 0x7f, 0x80, 0x7ff, 0x800, 0xd7ff, 0xe000, 0xfffd, 0xffff, 0x1_0000, 0x10_ffff];
/// The values of one octet, two, three (below and above the surrogates) and four.
const RANGES: [(usize, usize); 5] = [(0, 0x7f), (0x80, 0x7ff), (0x800, 0xd7ff), (0xe000, 0xffff), (0x1_0000, 0x10_ffff)];

/// Good text, most often short.
pub fn good(rng: &mut Rng) -> Vec<u8> {
    let characters = match rng.below(10) {
        0..=7 => rng.below(6),
        _ => rng.below(110),
    };
    (0..characters).flat_map(|_| character(rng)).collect()
}

/// A good character of any size, often one at a limit.
fn character(rng: &mut Rng) -> Vec<u8> {
    if rng.chance(40) {
        return least(rng.pick(&LIMITS));
    }
    let (low, high) = rng.pick(&RANGES);
    least(rng.from_to(low, high))
}

fn least(value: usize) -> Vec<u8> {
    encoded(value, least_size(value as u32))
}

/// A value in just so many octets, good or not.
fn encoded(value: usize, size: usize) -> Vec<u8> {
    let mut octets: Vec<u8> = (0..size).rev().map(|place| 0x80 | (value >> (6 * place)) as u8 & 0x3f).collect();
    let payload = (value >> (6 * (size - 1))) as u8;
    octets[0] = match size {
        1 => payload,
        2 => 0xc0 | payload,
        3 => 0xe0 | payload,
        _ => 0xf0 | payload,
    };
    octets
}

/// Short text with a bad piece at any octet.
pub fn bad(rng: &mut Rng) -> Vec<u8> {
    let mut octets = good(rng);
    let place = rng.below(octets.len() + 1);
    octets.splice(place..place, bad_piece(rng));
    octets
}

/// Octets that are bad wherever they stand between whole characters.
pub fn bad_piece(rng: &mut Rng) -> Vec<u8> {
    match rng.below(10) {
        0 => encoded(edge(rng, 0, 0x7f), 2),
        1 => encoded(edge(rng, 0, 0x7ff), 3),
        2 => encoded(edge(rng, 0, 0xffff), 4),
        3 => encoded(edge(rng, 0xd800, 0xdfff), 3),
        4 => encoded(edge(rng, 0x11_0000, 0x1f_ffff), 4),
        5 => no_lead(rng),
        6 => cut_character(rng),
        7 => broken_character(rng),
        8 => vec![edge(rng, 0x80, 0xbf) as u8],
        _ => rng.pick(&BAD).to_vec(),
    }
}

const BAD: [&[u8]; 11] = [
    &[0x80],
    &[0xbf],
    &[0xf8, 0x80, 0x80, 0x80, 0x80],
    &[0xff],
    &[0xc0],
    &[0xe0, 0x80],
    &[0xf0, 0x80, 0x80],
    &[0xc2, 0x7f],
    &[0xe2, 0x80, 0xc0],
    &[0xf4, 0xbf, 0xbf, 0x00],
    &[0xdf, 0xc0],
];

/// An octet from f5 to ff, and up to five octets from 80 to bf.
fn no_lead(rng: &mut Rng) -> Vec<u8> {
    let mut octets = vec![edge(rng, 0xf5, 0xff) as u8];
    for _ in 0..rng.below(6) {
        octets.push(edge(rng, 0x80, 0xbf) as u8);
    }
    octets
}

/// The front of a good character.
fn cut_character(rng: &mut Rng) -> Vec<u8> {
    let mut octets = wide_character(rng);
    octets.truncate(rng.from_to(1, octets.len() - 1));
    octets
}

/// A good character with one octet after the lead changed to one outside 80 to bf.
fn broken_character(rng: &mut Rng) -> Vec<u8> {
    let mut octets = wide_character(rng);
    let place = rng.from_to(1, octets.len() - 1);
    octets[place] = rng.pick(&[0x00, 0x41, 0x7f, 0xc0, 0xc2, 0xe1, 0xf1, 0xff]);
    octets
}

/// A good character of two to four octets.
fn wide_character(rng: &mut Rng) -> Vec<u8> {
    let (low, high) = rng.pick(&RANGES[1..]);
    least(edge(rng, low, high))
}

/// A number from `low` to `high`, often one of the two.
fn edge(rng: &mut Rng, low: usize, high: usize) -> usize {
    match rng.below(4) {
        0 => low,
        1 => high,
        _ => rng.from_to(low, high),
    }
}

/// Text of 64 octets to some thousands, most often with one bad piece. The piece stands anywhere, or near a multiple of 16 or 64
/// octets, or at the end, where a character may also be cut.
pub fn long(rng: &mut Rng) -> Vec<u8> {
    let length = match rng.below(10) {
        0..=4 => rng.from_to(64, 200),
        5..=7 => rng.from_to(200, 1_000),
        _ => rng.from_to(1_000, 6_000),
    };
    let wide = rng.pick(&[0, 1, 10, 50, 100]);
    let place = match rng.below(10) {
        0..=1 => return of_length(rng, length, wide),
        2..=3 => rng.below(length + 1),
        4..=5 => near_multiple(rng, length, 64),
        6..=7 => near_multiple(rng, length, 16),
        _ => length - rng.below(4),
    };
    let mut octets = of_length(rng, place, wide);
    octets.extend(if length - place < 4 && rng.chance(50) { cut_character(rng) } else { bad_piece(rng) });
    let rest = length.saturating_sub(octets.len());
    octets.extend(of_length(rng, rest, wide));
    octets
}

/// A place at most four octets from a multiple of `block`, inside the length.
fn near_multiple(rng: &mut Rng, length: usize, block: usize) -> usize {
    let multiple = block * rng.from_to(1, length / block);
    (multiple - rng.below(5) + rng.below(5)).min(length)
}

/// Good text of just so many octets. So many of 100 characters are of any size, the others of one octet.
fn of_length(rng: &mut Rng, length: usize, wide: usize) -> Vec<u8> {
    let mut octets = Vec::with_capacity(length);
    while octets.len() < length {
        let next = if rng.chance(wide) { character(rng) } else { vec![b'a'] };
        if octets.len() + next.len() <= length {
            octets.extend(next);
        } else {
            octets.push(b'z');
        }
    }
    octets
}
