//! Calls of the writer at the limits of its rules: room that is just enough, forms of tags, lengths and numbers, masks, faulty tables, and
//! several faults at once.

use super::forms::Digits;
use super::samples::entries;
use super::trees::field;
use super::writer_states::{call, call_on, each_step, nested, table};
use crate::call::Call;
use crate::oracle::message::Value;
use crate::oracle::shorten::{control_part, shortest};
use crate::oracle::table::MOST_ENTRIES;
use crate::oracle::writer::{State, Step, LEVELS, MOST_OPEN};
use crate::oracle::MESSAGE_LIMIT;

const TAGS: [u16; 10] = [0, 12, 13, 14, 15, 254, 255, 256, 257, 65_535];

/// A state with so much room, and some octets stored behind it.
fn with_room(free: usize, behind: usize) -> State {
    State { length: (free + behind) as u64, start: free as u64, revision: 2, ..State::default() }
}

/// The step with just enough room for so many octets, with one less, with more, and with none, each as far as a buffer may go.
fn around(table: &[u8], size: usize, step: &Step) -> Vec<Call> {
    let mut rooms = vec![size, size + 1, 0];
    rooms.extend(size.checked_sub(1));
    let states = rooms.iter().flat_map(|free| [with_room(*free, 0), with_room(*free, 3)]);
    let good = states.filter(|state| state.length <= MESSAGE_LIMIT as u64);
    good.map(|state| call(table, &state, step.clone())).collect()
}

fn size(tag: u16, value: Value) -> usize {
    shortest(&[field(tag, value)]).len()
}

/// The numbers around each power of 256.
const UINTS: usize = 9 * 3;
/// The same for each power of two that takes the place of the sign, and for their negatives.
const INTS: usize = 8 * 3 * 2 + 1;
pub const PUT_NUMBERS: u64 = (TAGS.len() * (UINTS + INTS)) as u64;

pub fn put_number(number: u64) -> Vec<Call> {
    let mut digits = Digits(number as usize);
    let tag = digits.pick(&TAGS);
    let which = digits.below(UINTS + INTS);
    let (kind, step, size) = match which.checked_sub(UINTS) {
        None => {
            let power = 1u64.checked_shl(8 * (which as u32 / 3)).unwrap_or(0);
            let value = power.wrapping_add(which as u64 % 3).wrapping_sub(1);
            (1, Step::PutUint { tag: tag.into(), value }, size(tag, Value::Uint(value)))
        }
        Some(index) => {
            let value = limit_int(index);
            (2, Step::PutInt { tag: tag.into(), value }, size(tag, Value::Int(value)))
        }
    };
    around(&entries(&format!("0 {tag:x} {kind} 0")), size, &step)
}

fn limit_int(index: usize) -> i64 {
    if index == INTS - 1 {
        return 0;
    }
    let size = (1u64 << (8 * (index / 6 + 1) - 1)).wrapping_add(index as u64 % 3).wrapping_sub(1);
    let size = size as i64;
    if index % 6 < 3 {
        size
    } else {
        size.wrapping_neg()
    }
}

const LENGTHS: [usize; 25] = [
    0, 1, 2, 10, 11, 12, 13, 254, 255, 256, 257, 300, 65_527, 65_528, 65_529, 65_530, 65_531, 65_532, 65_533, 65_534, 65_535,
    65_536, 65_537, 65_541, 70_000,
];
const TEXT: u8 = 4;
pub const PUT_OCTETS: u64 = (TAGS.len() * LENGTHS.len() * 2) as u64;

/// Strings and texts, and a bad text of the same length: it is refused for that, whatever the room.
pub fn put_octets(number: u64) -> Vec<Call> {
    let mut digits = Digits(number as usize);
    let (tag, length, kind) = (digits.pick(&TAGS), digits.pick(&LENGTHS), digits.pick(&[3, TEXT]));
    let table = entries(&format!("0 {tag:x} {kind} 0"));
    let octets = vec![b'a'; length];
    let size = size(tag, Value::String(octets.clone()));
    let mut bad = octets.clone();
    bad.extend([0xc0]);
    let put = |octets: Vec<u8>| Step::PutOctets { tag: tag.into(), octets: octets.into() };
    let mut calls = around(&table, size, &put(octets));
    calls.extend([0, MESSAGE_LIMIT.min(size + 1)].map(|room| call(&table, &with_room(room, 0), put(bad.clone()))));
    if size > MESSAGE_LIMIT {
        calls.push(call(&table, &with_room(MESSAGE_LIMIT, 0), put(bad[..length].to_vec())));
    }
    calls
}

pub const EVERY_LENGTH: u64 = 1_300;

/// Every length of octets and of a message up to more than 1,000, with just enough room.
pub fn every_length(number: u64) -> Vec<Call> {
    let length = number as usize;
    let octets = vec![7; length];
    let size = size(4, Value::String(octets.clone()));
    let mut calls = around(table(), size, &Step::PutOctets { tag: 4, octets: octets.into() });
    calls.extend(closes(6, length, 1));
    calls
}

const OPENED: [usize; 3] = [1, 4, 7];
pub const CLOSES: u64 = (TAGS.len() * LENGTHS.len() * OPENED.len()) as u64;

pub fn close(number: u64) -> Vec<Call> {
    let mut digits = Digits(number as usize);
    closes(digits.pick(&TAGS), digits.pick(&LENGTHS), digits.pick(&OPENED))
}

/// Closes a field with so many octets in it, with just enough room for its control part, with one octet less, with more, and with none.
fn closes(tag: u16, length: usize, opened: usize) -> Vec<Call> {
    let size = control_part(tag, length).len();
    let mut calls = Vec::new();
    for (free, behind) in [(size, 0), (size, 2), (size - 1, 0), (size + 4, 0), (0, 0), (MESSAGE_LIMIT.saturating_sub(length), 0)] {
        let mut state = with_room(free, length + behind);
        state.opened = opened as u64;
        state.marks[..opened].fill(state.length);
        state.marks[opened - 1] = (free + length) as u64;
        state.tags[..opened].fill(3);
        state.tags[opened - 1] = tag.into();
        if state.length <= MESSAGE_LIMIT as u64 {
            calls.push(call(table(), &state, Step::Close));
        }
    }
    calls
}

pub const EVERY_TAG: u64 = 65_536;

/// Each tag as a uint, as a message that is opened, and as one that is closed; and the tag beside it, which the table does not have.
pub fn every_tag(number: u64) -> Vec<Call> {
    let (tag, inner) = (number, number % 16);
    let uint = entries(&format!("0 {tag:x} 1 0"));
    let message = entries(&format!("0 {tag:x} 5 {inner:x} 1"));
    let mut state = with_room(6, 0);
    let mut calls = vec![
        call(&uint, &state, Step::PutUint { tag, value: 5 }),
        call(&uint, &state, Step::PutUint { tag: tag ^ 1, value: 5 }),
        call(&message, &state, Step::Open { tag }),
    ];
    state.opened = 1;
    state.marks[0] = 6;
    state.tags[0] = tag;
    calls.push(call(&uint, &state, Step::Close));
    calls
}

const ENTRIES: usize = MOST_ENTRIES;
const MASKS_OF: usize = 4;
pub const MASKS: u64 = (ENTRIES * LEVELS * 2 * MASKS_OF) as u64;

/// A full table of single fields, uints and messages in turn, and at each level a mask that has the bit of one of them, only that of the
/// next one, all but its own, or none. The other levels have the opposite.
pub fn mask(number: u64) -> Vec<Call> {
    let mut digits = Digits(number as usize);
    let (order, level, revision) = (digits.below(ENTRIES), digits.below(LEVELS), 1 + digits.below(2) as u64);
    let bit = 1u64 << order;
    let mask = [bit, bit.rotate_left(1), !bit, 0][digits.below(MASKS_OF)];
    let mut state = nested(level);
    state.revision = revision;
    state.numbers.fill(3);
    state.masks.fill(!mask);
    state.masks[level] = mask;
    let tag = order as u64;
    let step = if order % 2 == 0 { Step::PutUint { tag, value: 1 } } else { Step::Open { tag } };
    vec![call(&full_table(), &state, step), call(&full_table(), &state, Step::Close)]
}

fn full_table() -> Vec<u8> {
    let entry = |tag: usize| if tag.is_multiple_of(2) { format!("3 {tag:x} 1 0 1") } else { format!("3 {tag:x} 5 2 1") };
    entries(&(0..ENTRIES).map(entry).collect::<Vec<String>>().join(","))
}

pub const NUMBERS: u64 = (16 * LEVELS) as u64;

/// A table that has tag 5 at every number, of each kind in turn, and a state whose innermost message has a number that no other level has.
pub fn message_number(number: u64) -> Vec<Call> {
    let (of, level) = (number % 16, number as usize / 16);
    let entry = |n: u64| format!("{n:x} 5 {:x} {:x}", 1 + n % 5, if n % 5 == 4 { (n + 7) % 16 } else { 0 });
    let table = entries(&(0..16).map(entry).collect::<Vec<String>>().join(","));
    let mut state = nested(level);
    state.numbers.fill((of + 1) % 16);
    state.numbers[level] = of;
    let octets = b"kWh"[..].into();
    let puts = [Step::PutUint { tag: 5, value: 9 }, Step::PutInt { tag: 5, value: -9 }, Step::PutOctets { tag: 5, octets }];
    puts.into_iter().chain([Step::Open { tag: 5 }]).map(|step| call(&table, &state, step)).collect()
}

const FAULTS: usize = 6;
pub const TABLE_FAULTS: u64 = (MOST_ENTRIES * FAULTS) as u64;

/// A full table with a fault in each of its records in turn, for each step that takes a table.
pub fn table_fault(number: u64) -> Vec<Call> {
    let mut digits = Digits(number as usize);
    let (record, fault) = (digits.below(MOST_ENTRIES), digits.below(FAULTS));
    let mut table = full_table();
    let at = 9 * record;
    match fault {
        0 => table[at] = 2,
        1 => table[at + 6] = 6,
        2 => table[at + 8] = 2,
        3 => table.truncate(at + 8),
        // The tag of the record before it, or for the first one another length.
        4 => table[if record == 0 { 2 } else { at + 5 }] = (record as u8).wrapping_sub(1),
        // A 65th record.
        _ => table.extend(table[at..at + 9].to_vec()),
    }
    let start = Step::Start { revision: 2, number: 3 };
    let steps = each_step().into_iter().filter(|step| *step != Step::Finish).chain([start]);
    steps.map(|step| call(&table, &nested(2), step)).collect()
}

const START_ROOMS: [usize; 7] = [0, 1, 100, 65_535, 65_536, 65_537, 70_000];
const REVISIONS: [u64; 10] = [1, 2, 0, 3, 255, 257, 258, 1 << 32, (1 << 32) + 1, u64::MAX];
const START_NUMBERS: [u64; 8] = [0, 14, 15, 16, 255, 256, 1 << 32, u64::MAX];
const START_ARRAYS: [usize; 4] = [34, 0, 33, 35];
pub const STARTS: u64 = (START_ROOMS.len() * REVISIONS.len() * START_NUMBERS.len()) as u64;

/// Starts with a good and a faulty table and arrays of several lengths.
pub fn start(number: u64) -> Vec<Call> {
    let mut digits = Digits(number as usize);
    let room = digits.pick(&START_ROOMS);
    let step = Step::Start { revision: digits.pick(&REVISIONS), number: digits.pick(&START_NUMBERS) };
    let faulty = [table(), &[1]].concat();
    let call = |table: &[u8], words: usize| call_on(table, &vec![number.wrapping_neg(); words], room, step.clone());
    let arrays = if room > 100 { &START_ARRAYS[..2] } else { &START_ARRAYS };
    arrays.iter().flat_map(|words| [call(table(), *words), call(&faulty, *words)]).collect()
}

/// The faults that a call may have at once: the state, the table, the tag or its kind, a repeat, a bad text or seven open fields, and no
/// room. Close has nothing open in the place of a tag.
const AT_ONCE: usize = 6;
pub const TOGETHER: u64 = 1 << AT_ONCE;

/// Each set of these faults for a put of a number, of a text, an open and a close.
pub fn together(number: u64) -> Vec<Call> {
    let has = |fault: usize| number >> fault & 1 == 1;
    let mut table = entries("0 1 1 0 1, 0 2 4 0 1, 0 3 5 0 1");
    table.extend(has(1).then_some(9));
    let opened = if has(4) { MOST_OPEN } else { 3 };
    let mut state = nested(opened);
    state.numbers.fill(0);
    state.start = if has(5) { 0 } else { 20 };
    state.masks.fill(if has(3) { u64::MAX } else { 0 });
    state.revision = if has(0) { 3 } else { 2 };
    let octets: &[u8] = if has(4) { &[0x61, 0xff] } else { b"a" };
    let tag = |tag: u64| if has(2) { tag % 3 + 1 } else { tag };
    let steps = [
        Step::PutUint { tag: tag(1), value: 7 },
        Step::PutInt { tag: tag(1), value: 7 },
        Step::PutOctets { tag: tag(2), octets: octets.into() },
        Step::Open { tag: tag(3) },
        Step::Close,
        Step::Finish,
    ];
    let mut calls: Vec<Call> = steps.into_iter().map(|step| call(&table, &state, step)).collect();
    if has(2) {
        state.opened = 0;
    }
    calls.push(call(&table, &state, Step::Close));
    calls
}
