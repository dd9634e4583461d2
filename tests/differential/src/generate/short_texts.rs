//! Short texts in full, alone and as a piece inside longer texts.
//!
//! There are too many for a list of calls each, so the quick run takes them in a loop of its own. Each has a case number all the
//! same, from `FIRST` on.

use super::samples::{entries, octets};
use crate::call::{Call, Hproto};
use crate::oracle::message::is_text;
use crate::oracle::TEXT;
use std::sync::OnceLock;

/// The number of the first case; no other case has one so large.
pub const FIRST: u64 = 1 << 40;

/// The octets at the limits of what RFC 3629 allows as a lead or after one.
pub static LIMITS: [u8; 26] = [
    0x00, 0x7f, 0x80, 0x8f, 0x90, 0x9f, 0xa0, 0xbf, 0xc0, 0xc1, 0xc2, 0xdf, 0xe0, 0xe1, 0xec, 0xed, 0xee, 0xef, 0xf0, 0xf1, 0xf3,
    0xf4, 0xf5, 0xf7, 0xf8, 0xff,
];
static ALL: [u8; 256] = all();

const fn all() -> [u8; 256] {
    let mut octets = [0; 256];
    let mut octet = 0;
    while octet < 256 {
        octets[octet] = octet as u8;
        octet += 1;
    }
    octets
}

/// Every piece of so many octets, each from `choices`, with the same octets before and after it. The message is a field of no
/// contents, the text, and another field of no contents. The one octet of that field is 80: a read past the text would take it for
/// a tail octet.
pub struct Family {
    choices: &'static [u8],
    size: usize,
    before: Vec<u8>,
    after: Vec<u8>,
}

/// Where the field of the text starts, and the count of the fields.
const PLACE: u64 = 1;
const FIELDS: u64 = 3;
const EMPTY_FIELD: u8 = 0x00;
const LAST_FIELD: u8 = 0x80;

impl Family {
    pub fn count(&self) -> u64 {
        (self.choices.len() as u64).pow(self.size as u32)
    }

    fn length(&self) -> usize {
        self.before.len() + self.size + self.after.len()
    }

    /// The message, with a piece of zeros.
    pub fn message(&self) -> Vec<u8> {
        let mut message = vec![EMPTY_FIELD];
        match self.length() {
            short @ 0..=11 => message.push(0x30 | short as u8),
            long => message.extend([0x3c, u8::try_from(long).expect("below 256 octets")]),
        }
        message.extend(&self.before);
        message.extend(vec![0; self.size]);
        message.extend(&self.after);
        message.push(LAST_FIELD);
        message
    }

    /// Puts a piece into the message.
    pub fn put(&self, mut number: u64, message: &mut [u8]) {
        let end = message.len() - 1 - self.after.len();
        for octet in message[end - self.size..end].iter_mut().rev() {
            *octet = self.choices[(number % self.choices.len() as u64) as usize];
            number /= self.choices.len() as u64;
        }
    }

    /// What the oracle says of a message: refusal, place, fields, depth and shortest. No control part is longer than it needs.
    pub fn expected(&self, message: &[u8]) -> [u64; 5] {
        let end = message.len() - 1;
        match is_text(&message[end - self.length()..end]) {
            true => [0, 0, FIELDS, 1, 1],
            false => [TEXT, PLACE, 0, 0, 0],
        }
    }
}

/// A table with tag 3 as text.
pub fn table() -> &'static [u8] {
    static TABLE: OnceLock<Vec<u8>> = OnceLock::new();
    TABLE.get_or_init(|| entries("0 3 4 0"))
}

pub fn check(message: &[u8]) -> Call {
    Call::Check(Hproto { table: table().into(), revision: 2, number: 0, message: message.into() })
}

/// The calls of a case, the first having the number 0, if there is one.
pub fn case(mut number: u64) -> Option<Vec<Call>> {
    for family in families() {
        if number < family.count() {
            let mut message = family.message();
            family.put(number, &mut message);
            return Some(vec![check(&message)]);
        }
        number -= family.count();
    }
    None
}

/// How many cases there are.
pub fn count() -> u64 {
    families().iter().map(Family::count).sum()
}

/// A set of octets, and how many of them make a piece.
type Pieces = (&'static [u8], usize);

const ONE: Pieces = (&ALL, 1);
const TWO: Pieces = (&ALL, 2);
const THREE: Pieces = (&ALL, 3);
const THREE_LIMITS: Pieces = (&LIMITS, 3);
const FOUR_LIMITS: Pieces = (&LIMITS, 4);

fn add(families: &mut Vec<Family>, pieces: &[Pieces], before: &[u8], after: &[u8]) {
    let family = |(choices, size): &Pieces| Family { choices, size: *size, before: before.to_vec(), after: after.to_vec() };
    families.extend(pieces.iter().map(family));
}

pub fn families() -> Vec<Family> {
    let mut families = Vec::new();
    let all = &mut families;
    add(all, &[(&ALL, 0), ONE, TWO, THREE, FOUR_LIMITS], &[], &[]);
    add(all, &[THREE], &[], &[0x80]);
    add_inside(all);
    add_at_the_end(all);
    add_between_characters(all);
    add_large(all);
    families
}

/// Pieces at most three octets from a multiple of 16, in texts of little more than 64 octets and in longer ones.
fn add_inside(families: &mut Vec<Family>) {
    for place in (2..=67).filter(|place| (place + 3) % 16 < 7) {
        for after in [plain(64 - place.min(61)), plain(70)] {
            add(families, &[ONE, TWO, THREE_LIMITS], &front(place), &after);
        }
    }
    for place in [13, 14, 15, 16, 60, 61, 62, 63, 64] {
        add(families, &[FOUR_LIMITS], &front(place), &plain(70));
    }
    // With no octet from 80 on before them.
    for place in 60..=67 {
        add(families, &[ONE, TWO, THREE_LIMITS], &plain(place), &plain(70));
    }
    for place in 60..=64 {
        add(families, &[FOUR_LIMITS], &plain(place), &plain(70));
    }
}

fn add_at_the_end(families: &mut Vec<Family>) {
    for place in (60..=70).chain(124..=131) {
        add(families, &[ONE, TWO, THREE_LIMITS], &front(place), &[]);
    }
    for place in 60..=64 {
        add(families, &[FOUR_LIMITS], &front(place), &[]);
    }
}

/// Pieces with octets from 80 to bf behind them, and pieces right behind a lead or a whole character.
fn add_between_characters(families: &mut Vec<Family>) {
    for place in [14, 15, 61, 62, 63, 64] {
        for after in [&[0x80][..], &[0xbf, 0xbf], &[0x80, 0x80, 0x80]] {
            add(families, &[ONE, TWO], &front(place), &[after, &plain(64)].concat());
        }
    }
    for lead in LIMITS.iter().filter(|octet| **octet >= 0xc0) {
        add(families, &[TWO], &[&front(61)[..], &[*lead]].concat(), &[&[0x80][..], &plain(5)].concat());
    }
    for place in [58, 60, 61] {
        for character in ["c2 80", "df bf", "e0 a0 80", "ed 9f bf", "f0 90 80 80", "f4 8f bf bf"] {
            add(families, &[ONE, TWO], &[front(place), octets(character)].concat(), &plain(5));
        }
    }
}

/// Every piece of three octets: across the end of the first 64 octets, at the end, and with 80 behind it.
fn add_large(families: &mut Vec<Family>) {
    add(families, &[THREE], &front(62), &plain(5));
    add(families, &[THREE], &front(61), &[]);
    add(families, &[THREE], &front(30), &[&[0x80][..], &plain(32)].concat());
}

/// Good text of so many octets, with a character of two octets in front.
fn front(length: usize) -> Vec<u8> {
    let mut octets = vec![0xc3, 0xa9];
    octets.resize(length, b'a');
    octets
}

fn plain(length: usize) -> Vec<u8> {
    vec![b'z'; length]
}
