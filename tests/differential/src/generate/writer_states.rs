//! States for the writer that no run may have left: sound ones with arbitrary words, and damaged ones.

use super::samples::entries;
use super::{hproto, tables};
use crate::call::{Call, Writer};
use crate::oracle::table::Table;
use crate::oracle::writer::{State, Step, LEVELS, MOST_OPEN, STATE_WORDS};
use crate::oracle::MESSAGE_LIMIT;
use crate::rng::Rng;
use std::sync::OnceLock;

/// An array of so many arbitrary words.
pub fn junk(rng: &mut Rng, length: usize) -> Vec<u64> {
    let zeros = rng.chance(20);
    (0..length).map(|_| if zeros { 0 } else { rng.word() }).collect()
}

/// A sound state whose numbers and tags the table may have, with anything in the slots that are not in use.
pub fn good(rng: &mut Rng, table: &Table) -> State {
    let mut state = State::of(&junk(rng, STATE_WORDS)).expect("so many words");
    let opened = rng.below(LEVELS);
    state.length = if rng.below(300) == 0 { MESSAGE_LIMIT } else { rng.below(400) } as u64;
    state.start = at_most(rng, state.length);
    state.opened = opened as u64;
    state.revision = rng.pick(&[1, 2, 2]);
    for level in 0..=opened {
        let known = !table.entries.is_empty() && rng.chance(90);
        state.numbers[level] = if known { u64::from(rng.pick(&table.entries).message) } else { rng.below(16) as u64 };
        let bit = 1 << rng.below(64);
        state.masks[level] = rng.pick(&[0, 0, bit, u64::MAX, state.masks[level]]);
    }
    let mut highest = state.length;
    for open in 0..opened {
        highest = state.start + at_most(rng, highest - state.start);
        state.marks[open] = highest;
        state.tags[open] = u64::from(tables::tag(rng));
    }
    state
}

/// A number from 0 to `most`, often one of the two.
fn at_most(rng: &mut Rng, most: u64) -> u64 {
    match rng.below(4) {
        0 => 0,
        1 => most,
        _ => rng.below(most as usize + 1) as u64,
    }
}

/// A call of the writer with one thing about it changed.
pub fn hurt_call(rng: &mut Rng, call: Call) -> Call {
    let Call::Write { on: Writer { mut table, state, mut room }, mut step } = call else {
        unreachable!("a run has only these calls");
    };
    let mut words = state.to_vec();
    match rng.below(12) {
        0 => words.resize(rng.pick(&[0, 1, 33, 35, 68]), 0),
        1 if !matches!(step, Step::Open { .. } | Step::Finish) => room = other_room(rng, room),
        2 if step != Step::Finish => table = tables::damaged(rng).into(),
        3 => step = other_tag(rng, step),
        4 if words.len() == STATE_WORDS => hurt_marks(rng, &mut words),
        _ if words.is_empty() => {}
        _ => hurt_word(rng, &mut words),
    }
    Call::Write { on: Writer { table, state: words.into(), room }, step }
}

fn other_room(rng: &mut Rng, room: usize) -> usize {
    match rng.below(200) {
        0 => MESSAGE_LIMIT,
        1 => MESSAGE_LIMIT + 1,
        2..=99 => room + 1,
        _ => rng.below(room + 1),
    }
}

fn other_tag(rng: &mut Rng, mut step: Step) -> Step {
    let more = rng.pick(&[1, 1 << 16, 1 << 32, 1 << 63]);
    match &mut step {
        Step::PutUint { tag, .. } | Step::PutInt { tag, .. } | Step::PutOctets { tag, .. } | Step::Open { tag } => {
            *tag = if rng.chance(20) { u64::MAX } else { tag.wrapping_add(more) };
        }
        Step::Start { revision, .. } => *revision = rng.pick(&hproto::BAD_REVISIONS),
        Step::Close | Step::Finish => {}
    }
    step
}

/// Swaps two marks, raises one, or makes all alike.
fn hurt_marks(rng: &mut Rng, words: &mut [u64]) {
    let marks = &mut words[FIRST_MARK..FIRST_MARK + MOST_OPEN];
    let (one, other) = (rng.below(MOST_OPEN), rng.below(MOST_OPEN));
    match rng.below(4) {
        0..=1 => marks.swap(one, other),
        2 => marks[one] = marks[one].wrapping_add(1),
        _ => marks.fill(marks[one]),
    }
}

fn hurt_word(rng: &mut Rng, words: &mut [u64]) {
    let place = rng.below(words.len());
    let (word, other) = (words[place], words[rng.below(words.len())]);
    words[place] = match rng.below(10) {
        0 => word.wrapping_add(1),
        1 => word.wrapping_sub(1),
        2 => other,
        3 => other.wrapping_add(1),
        4 => other.wrapping_sub(1),
        5 => word ^ 1 << rng.below(64),
        6 => rng.number(),
        _ => rng.pick(&TELLING),
    };
}

/// Words that mean something in one of the places, and some with such a number in their low bits.
const TELLING: [u64; 18] =
    [0, 1, 2, 3, 6, 7, 8, 15, 16, 257, 65_535, 65_536, 65_537, (1 << 16) + 2, (1 << 32) + 1, (1 << 32) + 2, 1 << 63, u64::MAX];

const FIRST_MARK: usize = 4 + 2 * LEVELS;

/// Every kind at message 0, which tag 1 holds again, and message 1 in tag 6. Some are single.
pub fn table() -> &'static [u8] {
    static TABLE: OnceLock<Vec<u8>> = OnceLock::new();
    TABLE
        .get_or_init(|| entries("0 1 5 0, 0 2 1 0, 0 3 2 0 1, 0 4 3 0, 0 5 4 0 1, 0 6 5 1 1, 1 2 1 0 1, 1 3 2 0, 1 4 3 0, 1 1 5 0"))
}

/// A step of each kind but start, good in itself under the table above.
pub fn each_step() -> [Step; 6] {
    [
        Step::PutUint { tag: 2, value: 300 },
        Step::PutInt { tag: 3, value: -5 },
        Step::PutOctets { tag: 4, octets: b"kWh"[..].into() },
        Step::Open { tag: 1 },
        Step::Close,
        Step::Finish,
    ]
}

/// The call of a step on a state, with the buffer that it says it has.
pub fn call(table: &[u8], state: &State, step: Step) -> Call {
    call_on(table, &state.words(), (state.length as usize).min(MESSAGE_LIMIT + 1), step)
}

pub fn call_on(table: &[u8], words: &[u64], room: usize, step: Step) -> Call {
    let without_buffer = matches!(step, Step::Open { .. } | Step::Finish);
    let table = if step == Step::Finish { &[] } else { table };
    let on = Writer { table: table.into(), state: words.into(), room: if without_buffer { 0 } else { room } };
    Call::Write { on, step }
}

/// A sound state with so many open fields, whose levels have the numbers 0 and 1 in turn.
pub fn nested(opened: usize) -> State {
    let mut state = State { length: 90, start: 40, opened: opened as u64, revision: 2, ..State::default() };
    for open in 0..opened {
        state.marks[open] = 80 - 5 * (open as u64 / 2);
        state.tags[open] = if open % 2 == 0 { 6 } else { 1 };
        state.numbers[open + 1] = (open as u64 + 1) % 2;
    }
    state
}

/// The sound states above, with zeros and with all ones in the slots that are not in use.
const STATES: usize = 2 * LEVELS;
const CHANGES: usize = TELLING.len() + 8;
pub const WORDS: u64 = (STATES * STATE_WORDS * CHANGES) as u64;

/// One word of a sound state changed to each of some numbers, for every step.
pub fn changed_word(number: u64) -> Vec<Call> {
    let number = number as usize;
    let (change, place, state) = (number % CHANGES, number / CHANGES % STATE_WORDS, number / CHANGES / STATE_WORDS);
    let mut words = filled(nested(state % LEVELS), if state < LEVELS { 0 } else { u64::MAX }).words();
    let (word, length, start) = (words[place], words[0], words[1]);
    let near = [word.wrapping_add(1), word.wrapping_sub(1), length, length + 1, start, start - 1, word | 1 << 32, word | 1 << 63];
    let room = length as usize;
    words[place] = near.iter().chain(&TELLING).copied().nth(change).expect("so many changes");
    // The buffer is the one that start got, so that only a change of the length makes it another one; then it also has that length.
    let rooms = if place == 0 { vec![room, words[0].min(MESSAGE_LIMIT as u64 + 1) as usize] } else { vec![room] };
    let calls = |room: &usize| each_step().map(|step| call_on(table(), &words, *room, step));
    rooms.iter().flat_map(calls).collect()
}

/// The state with a number in every slot that is not in use.
fn filled(mut state: State, with: u64) -> State {
    let opened = state.opened as usize;
    state.marks[opened..].fill(with);
    state.tags[opened..].fill(with);
    state.numbers[opened + 1..].fill(with);
    state.masks[opened + 1..].fill(with);
    state
}

const ARRAYS: [usize; 10] = [0, 1, 2, 4, 32, 33, 34, 35, 36, 68];
pub const ARRAY_LENGTHS: u64 = (ARRAYS.len() * LEVELS) as u64;

/// Arrays of other lengths, with the words of a sound state and arbitrary ones behind.
pub fn array_length(number: u64) -> Vec<Call> {
    let number = number as usize;
    let mut words = nested(number % LEVELS).words();
    let room = words[0] as usize;
    words.resize(ARRAYS[number / LEVELS], 0x5a5a_1234_beef_beef);
    let start = Step::Start { revision: 2, number: 0 };
    let steps = each_step().into_iter().chain([start]);
    steps.map(|step| call_on(table(), &words, room, step)).collect()
}

const ROOMS: [usize; 9] = [0, 1, 39, 40, 41, 89, 91, 65_536, 65_537];
pub const OTHER_BUFFERS: u64 = (ROOMS.len() * LEVELS) as u64;

/// Buffers of another length than start got, for the steps that get one.
pub fn other_buffer(number: u64) -> Vec<Call> {
    let number = number as usize;
    let words = nested(number % LEVELS).words();
    let steps = each_step().into_iter().filter(|step| !matches!(step, Step::Open { .. } | Step::Finish));
    steps.map(|step| call_on(table(), &words, ROOMS[number / LEVELS], step)).collect()
}
