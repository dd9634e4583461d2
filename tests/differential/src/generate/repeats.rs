//! Messages in which a tag comes twice, in every form and at several depths.

use super::samples::entries;
use super::trees::{field, Maker};
use super::{forms, hproto};
use crate::oracle::message::{Field, Value};
use crate::oracle::table::{Table, MOST_ENTRIES};
use crate::rng::Rng;

/// A good tree in which one field that its table marks single comes again: with a value of its kind, or with contents that the kind does
/// not allow. It may have other faults, as good trees may.
pub fn some_tree(rng: &mut Rng, table: &Table, number: u8) -> Vec<Field> {
    let mut fields = hproto::good_tree(rng, table, 2, number);
    let count = singles(table, number, &fields);
    if count > 0 {
        let mut chosen = rng.below(count);
        repeat(rng, table, number, &mut fields, 1, &mut chosen);
    }
    fields
}

/// How many fields of a tree, at all depths, are single.
fn singles(table: &Table, number: u8, fields: &[Field]) -> usize {
    let inside = |field: &Field| match &field.value {
        Value::Message(inner) => singles(table, table.meaning(number, field.tag).1, inner),
        _ => 0,
    };
    fields.iter().map(|field| usize::from(table.is_single(2, number, field.tag)) + inside(field)).sum()
}

/// Repeats the single field that has so many single ones before it. Counts down on the way to it, and answers whether it was there.
fn repeat(rng: &mut Rng, table: &Table, number: u8, fields: &mut Vec<Field>, depth: u64, chosen: &mut usize) -> bool {
    for place in 0..fields.len() {
        let tag = fields[place].tag;
        if table.is_single(2, number, tag) {
            if *chosen == 0 {
                let again = again(rng, table, number, tag, depth);
                let later = rng.from_to(place + 1, fields.len());
                fields.insert(later, again);
                return true;
            }
            *chosen -= 1;
        }
        let inner_number = table.meaning(number, tag).1;
        if let Value::Message(inner) = &mut fields[place].value {
            if repeat(rng, table, inner_number, inner, depth + 1, chosen) {
                return true;
            }
        }
    }
    false
}

fn again(rng: &mut Rng, table: &Table, number: u8, tag: u16, depth: u64) -> Field {
    if rng.chance(30) {
        let kind = table.meaning(number, tag).0;
        return field(tag, Value::Raw(hproto::bad_contents(rng, kind)));
    }
    Maker { table, revision: 2, budget: 3 }.field(rng, number, depth, tag)
}

/// The forms of a control part for tag 2 and a length below 12: the tag on no octets, one or two, the length on none, one, two, four or
/// eight.
const TAG_FORMS: usize = 3;
const LENGTH_FORMS: usize = 5;
const FORMS: usize = TAG_FORMS * LENGTH_FORMS;
const KINDS: usize = 5;
const DEPTHS: [usize; 3] = [1, 2, 8];
/// The records of the repeated tag: of length 5, of length 6 with the mark 0, and with the mark 1.
const RECORDS: [&str; 3] = ["", " 0", " 1"];
/// Contents that every kind allows: as a message, a field of no contents that is not in the table.
const GOOD: &[u8] = &[0x40];
/// What stands between the two fields: nothing, a field that the table does not have, a message that has the same tag once.
const BETWEEN: [&[u8]; 3] = [&[], &[0x90], &[0x11, 0x20]];
pub const FORM_PAIRS: u64 = (FORMS * FORMS * KINDS * RECORDS.len() * DEPTHS.len() * 2 * 2) as u64;

/// A table, a revision and a message with two fields of one tag: each kind, each form of either control part, each record of the tag,
/// good and bad contents of the second, outermost, in a message and in the deepest one.
pub fn form_pair(number: u64) -> (Vec<u8>, u64, Vec<u8>) {
    let mut rest = number as usize;
    let mut below = |bound: usize| {
        let digit = rest % bound;
        rest /= bound;
        digit
    };
    let (first, second, kind) = (below(FORMS), below(FORMS), 1 + below(KINDS));
    let (record, depth) = (RECORDS[below(RECORDS.len())], DEPTHS[below(DEPTHS.len())]);
    let (revision, bad) = (1 + below(2) as u64, below(2) == 1);
    let between = BETWEEN[(first + second) % BETWEEN.len()];
    let table = entries(&format!("0 1 5 0, 0 2 {kind} 0{record}"));
    let contents = if bad { bad_contents(kind) } else { GOOD };
    let message = [part(first, GOOD), between.to_vec(), part(second, contents)].concat();
    (table, revision, forms::around(message, depth))
}

const ENTRIES: u64 = MOST_ENTRIES as u64;
pub const ORDERS: u64 = 2 * 2 * ENTRIES;

/// A full table in which one entry is single, or all are; and a message that has each of its tags once, and that of the one entry, or of
/// the entry behind it, once more.
pub fn order_case(number: u64) -> (Vec<u8>, Vec<u8>) {
    let (one, all, next) = (number % ENTRIES, number / ENTRIES % 2, number / ENTRIES / 2);
    let entry = |tag: u64| format!("0 {tag:x} 1 0 {}", u8::from(all == 1 || tag == one));
    let table: Vec<String> = (0..ENTRIES).map(entry).collect();
    let repeated = (one + next) % ENTRIES;
    let message = (0..ENTRIES).chain([repeated]).flat_map(|tag| [0xe0, tag as u8]).collect();
    (entries(&table.join(",")), message)
}

/// A field of tag 2 in one of the forms of its control part.
fn part(form: usize, contents: &[u8]) -> Vec<u8> {
    let (tag_form, length_form) = (form % TAG_FORMS, form / TAG_FORMS);
    let length = contents.len() as u8;
    let high = [0x20, 0xe0, 0xf0][tag_form];
    let low = [length, 0xc, 0xd, 0xe, 0xf][length_form];
    let tag: &[u8] = [&[][..], &[2], &[0, 2]][tag_form];
    let zeros = [0, 0, 1, 3, 7][length_form];
    let mut octets = vec![high | low];
    octets.extend(tag);
    octets.extend(vec![0; zeros]);
    octets.extend((length_form > 0).then_some(length));
    octets.extend(contents);
    octets
}

/// Contents that a kind does not allow, if it is no string.
fn bad_contents(kind: usize) -> &'static [u8] {
    match kind {
        4 => &[0xff],
        5 => &[0xf1],
        _ => &[1, 2, 3, 4, 5, 6, 7, 8, 9],
    }
}
