//! Cases for the check, the shortener and lookup.

use super::trees::{self, Maker, Style};
use super::{damage, forms, repeats, tables, texts};
use crate::call::{Call, Hproto};
use crate::oracle::message::{self, Field, Value};
use crate::oracle::shorten::shortest;
use crate::oracle::table::{Kind, Table};
use crate::oracle::MESSAGE_LIMIT;
use crate::rng::Rng;

pub fn random(rng: &mut Rng) -> Vec<Call> {
    let mut table = tables::good(rng);
    let revision = rng.pick(&[1, 2, 2]);
    let number = if rng.chance(85) { 0 } else { rng.below(16) as u8 };
    let message = match rng.below(1_000) {
        0..=79 => {
            table = self_nested_table(rng);
            chain(rng)
        }
        80..=82 => large(rng, &tables::loaded(&table), revision, number),
        83..=85 => table.clone(),
        86..=125 => {
            table = tables::of_message_0(rng, &TEXT_ENTRIES);
            long_text(rng)
        }
        126..=155 => {
            let fields = good_tree(rng, &tables::loaded(&table), revision, number);
            forms::almost_short(rng, &fields)
        }
        156..=185 => {
            table = self_nested_table(rng);
            let fields = forms::deep_tree(rng);
            forms::almost_short(rng, &fields)
        }
        _ => some_message(rng, &tables::loaded(&table), revision, number),
    };
    if rng.chance(6) {
        table = tables::damaged(rng);
    }
    let number = match rng.chance(4) {
        true => rng.pick(&[16, 17, 255, 256, 257, 271, 65_536, 1 << 32, 1 << 63, u64::MAX]),
        false => u64::from(number),
    };
    let revision = match rng.below(100) {
        0..=3 => rng.pick(&BAD_REVISIONS),
        4..=11 => 3 - revision,
        _ => revision,
    };
    calls(rng, &table, revision, number, &message)
}

/// Numbers that are no revision, some of them with 1 or 2 in their low bits.
pub const BAD_REVISIONS: [u64; 13] = [0, 3, 4, 5, 255, 256, 257, 258, 65_537, 65_538, (1 << 32) + 1, (1 << 32) + 2, u64::MAX];

/// A message that fits the table and the revision, or a damaged one, or octets that were never one.
pub fn some_message(rng: &mut Rng, table: &Table, revision: u64, number: u8) -> Vec<u8> {
    match rng.below(20) {
        0..=8 => good_message(rng, table, revision, number),
        9 => {
            let fields = repeats::some_tree(rng, table, number);
            let style = Style::random(rng);
            trees::octets(rng, &fields, style)
        }
        10..=14 => {
            let mut octets = good_message(rng, table, revision, number);
            damage::some(rng, &mut octets);
            octets
        }
        15..=16 => {
            let (one, other) = (good_message(rng, table, revision, number), good_message(rng, table, revision, number));
            damage::splice(rng, &one, &other)
        }
        17 => spoiled_tree(rng, table, revision, number),
        18 => {
            let length = rng.below(24);
            let few = [0x00, 0x01, 0x02, 0x10, 0x11, 0x12, 0x21, 0x2c, 0x3d, 0x80, 0xc1, 0xe0, 0xe1, 0xf1];
            (0..length).map(|_| rng.pick(&few)).collect()
        }
        _ => {
            let length = rng.below(40);
            rng.octets(length)
        }
    }
}

pub fn good_message(rng: &mut Rng, table: &Table, revision: u64, number: u8) -> Vec<u8> {
    let fields = good_tree(rng, table, revision, number);
    let style = Style::random(rng);
    trees::octets(rng, &fields, style)
}

pub fn good_tree(rng: &mut Rng, table: &Table, revision: u64, number: u8) -> Vec<Field> {
    let budget = rng.pick(&[1, 3, 8, 20, 60]);
    Maker { table, revision, budget }.fields(rng, number, 1)
}

/// A good tree in which one leaf has contents that its kind does not allow, in good nesting.
fn spoiled_tree(rng: &mut Rng, table: &Table, revision: u64, number: u8) -> Vec<u8> {
    let mut fields = good_tree(rng, table, revision, number);
    let depth = rng.below(4);
    spoil(rng, table, number, &mut fields, depth);
    let style = Style::random(rng);
    trees::octets(rng, &fields, style)
}

/// Appends a bad field to the fields or, if there is one, to a nested message. Raw values are written as they are.
fn spoil(rng: &mut Rng, table: &Table, number: u8, fields: &mut Vec<Field>, depth: usize) {
    for field in fields.iter_mut() {
        let inner_number = table.meaning(number, field.tag).1;
        if let (Value::Message(inner), true) = (&mut field.value, depth > 0) {
            return spoil(rng, table, inner_number, inner, depth - 1);
        }
    }
    let fits = |entry: &&crate::oracle::table::Entry| entry.message == number && entry.kind != Kind::String;
    let Some(entry) = table.entries.iter().find(fits) else {
        return;
    };
    let bad = bad_contents(rng, entry.kind);
    let place = rng.below(fields.len() + 1);
    fields.insert(place, trees::field(entry.tag, Value::Raw(bad)));
}

/// Contents that a kind does not allow, if it is not raw or a string.
pub fn bad_contents(rng: &mut Rng, kind: Kind) -> Vec<u8> {
    match kind {
        Kind::Text => texts::bad(rng),
        Kind::Message => rng.pick(&[&[0xf1u8][..], &[0xc3, 1], &[0xe0], &[0x1d, 0]]).to_vec(),
        _ => {
            let length = rng.pick(&[9, 9, 10, 11, 12, 14, 300]);
            rng.octets(length)
        }
    }
}

/// A table in which tag 1 of message 0 is message 0 again, and some leaves.
pub fn self_nested_table(rng: &mut Rng) -> Vec<u8> {
    let mut entries = vec![(1, 5)];
    for entry in [(2, 1), (3, 2), (4, 3), (5, 4)] {
        if rng.chance(70) {
            entries.push(entry);
        }
    }
    tables::of_message_0(rng, &entries)
}

/// Messages inside each other around the limit of depth, under the table above.
fn chain(rng: &mut Rng) -> Vec<u8> {
    let nested = rng.from_to(5, 9);
    let style = Style::random(rng);
    let mut octets = Vec::new();
    if rng.chance(30) {
        octets = rng.octets(3);
    }
    for _ in 0..nested {
        let length = octets.len() as u64;
        let mut longer = leaf(rng, style);
        longer.extend(trees::control(rng, 1, length, style.control));
        longer.extend(octets);
        longer.extend(leaf(rng, style));
        octets = longer;
    }
    if rng.chance(20) {
        damage::some(rng, &mut octets);
    }
    octets
}

/// Nothing, or a small field, sometimes one whose length is at a limit of the forms.
fn leaf(rng: &mut Rng, style: Style) -> Vec<u8> {
    let value = match rng.below(10) {
        0..=5 => return Vec::new(),
        6..=7 => Value::Uint(rng.number()),
        8 => Value::Raw(rng.octets(2)),
        _ => {
            let length = rng.from_to(225, 250);
            Value::Raw(rng.octets(length))
        }
    };
    let tag = if matches!(value, Value::Uint(_)) { 2 } else { 6 };
    trees::octets(rng, &[trees::field(tag, value)], style)
}

/// Tag 1 of message 0 is message 0 again, and tag 5 is text.
const TEXT_ENTRIES: [(u8, u8); 2] = [(1, 5), (5, 4)];

/// A long text, good or bad, with or without fields around it, under a table of the entries above. Some are nested.
fn long_text(rng: &mut Rng) -> Vec<u8> {
    let style = Style::random(rng);
    let text = trees::field(5, Value::Text(texts::long(rng)));
    let mut octets = leaf(rng, style);
    octets.extend(trees::octets(rng, &[text], style));
    octets.extend(leaf(rng, style));
    if rng.chance(30) {
        let mut outer = leaf(rng, style);
        outer.extend(trees::control(rng, 1, octets.len() as u64, style.control));
        outer.extend(octets);
        return outer;
    }
    octets
}

/// Messages around the limit of length.
fn large(rng: &mut Rng, table: &Table, revision: u64, number: u8) -> Vec<u8> {
    let total = match rng.below(10) {
        0..=4 => MESSAGE_LIMIT,
        5 => MESSAGE_LIMIT + 1,
        6 => rng.from_to(MESSAGE_LIMIT - 6, MESSAGE_LIMIT + 20),
        7 => rng.from_to(MESSAGE_LIMIT, 2 * MESSAGE_LIMIT),
        _ => rng.from_to(20_000, MESSAGE_LIMIT),
    };
    if rng.chance(30) {
        return (0..total).map(|_| 0x10 * rng.below(14) as u8).collect();
    }
    let mut octets = Vec::new();
    while octets.len() + 10_000 < total && rng.chance(90) {
        octets.extend(good_message(rng, table, revision, number));
    }
    fill_up(rng, &mut octets, total);
    octets
}

/// Appends one field of a tag that is in no table made here, so that there are `total` octets.
pub fn fill_up(rng: &mut Rng, octets: &mut Vec<u8>, total: usize) {
    let left = total.saturating_sub(octets.len());
    let part_octets = rng.pick(&[3 + 4, 3 + 8, 3 + 2]);
    let length = left.saturating_sub(part_octets);
    let low = match part_octets {
        5 if length < 65_536 => 0xd,
        11 => 0xf,
        _ => 0xe,
    };
    octets.extend([0xf0 | low, 0xab, 0xcd]);
    let length_octets = match low {
        0xd => 2,
        0xe => 4,
        _ => 8,
    };
    octets.extend(&(length as u64).to_be_bytes()[8 - length_octets..]);
    octets.extend(rng.octets(length));
}

/// The calls on one table, revision, number and message: many on an accepted message, each entry once on a refused one.
pub fn calls(rng: &mut Rng, table: &[u8], revision: u64, number: u64, message: &[u8]) -> Vec<Call> {
    let on = Hproto { table: table.into(), revision, number, message: message.into() };
    let read = message::read(table, revision, number, message);
    let repeat = if read.is_ok() { 2 } else { 1 };
    let fields = read.unwrap_or_default();
    let least = shortest(&fields).len();
    let mut calls = vec![Call::Check(on.clone())];
    for room in rooms(rng, least, message.len()).into_iter().take(repeat) {
        calls.push(Call::Shorten { on: on.clone(), room });
    }
    for _ in 0..repeat {
        let (tag, k) = (some_tag(rng, &fields), some_k(rng, &fields));
        calls.push(Call::Lookup { on: on.clone(), tag, k });
        let tag = some_tag(rng, &fields);
        calls.push(Call::LookupLast { on: on.clone(), tag });
    }
    calls
}

/// Rooms for the shortener: the message's own length, and one around the least.
fn rooms(rng: &mut Rng, least: usize, length: usize) -> [usize; 2] {
    let other = match rng.below(8) {
        0..=2 => least,
        3..=4 => least.saturating_sub(1),
        5 => rng.below(least + 1),
        6 => 0,
        _ => least + rng.below(100),
    };
    if rng.below(500) == 0 {
        return [length, 70_000 + other];
    }
    [length, other]
}

fn some_tag(rng: &mut Rng, fields: &[Field]) -> u64 {
    if fields.is_empty() || rng.chance(10) {
        return rng.pick(&[0, 1, 2, 13, 14, 255, 65_535, 65_536, 65_537, 1 << 32, u64::MAX]);
    }
    u64::from(fields[rng.below(fields.len())].tag)
}

fn some_k(rng: &mut Rng, fields: &[Field]) -> u64 {
    match rng.below(20) {
        0..=11 => 0,
        12..=17 => rng.below(fields.len().min(8) + 2) as u64,
        18 => fields.len() as u64,
        _ => rng.pick(&[1 << 32, 1 << 63, u64::MAX]),
    }
}
