//! The writer: calls that fill a lent buffer from its end. Its state is an array of words that the caller keeps.

use super::message::is_text;
use super::shorten::{control_part, least_int, least_uint};
use super::table::{load, Entry, Kind, Table};
use super::{
    refuse, Answer, MESSAGE_LIMIT, NOTHING_OPEN, NO_ROOM, REPEATED, STATE, STILL_OPEN, TABLE, TAG_OR_KIND, TEXT, TOO_DEEP, TOO_LONG,
};
use std::rc::Rc;

/// The messages inside each other that may be under way, and the message fields that are open for that.
pub const LEVELS: usize = 8;
pub const MOST_OPEN: usize = LEVELS - 1;
pub const STATE_WORDS: usize = 4 + 2 * LEVELS + 2 * MOST_OPEN;

/// The words of a state, in their order.
#[derive(Clone, Debug, Default, PartialEq, Eq)]
pub struct State {
    /// The length of the buffer that start got.
    pub length: u64,
    /// Where the octets stored so far start.
    pub start: u64,
    /// How many message fields are open.
    pub opened: u64,
    pub revision: u64,
    /// The message number of each level.
    pub numbers: [u64; LEVELS],
    /// For each level, which single fields its message has: a bit for each record of the table.
    pub masks: [u64; LEVELS],
    /// For each open field, where its contents end.
    pub marks: [u64; MOST_OPEN],
    pub tags: [u64; MOST_OPEN],
}

/// What makes a state unsound.
#[derive(Clone, Copy, Debug, PartialEq, Eq)]
pub enum Fault {
    ArrayLength,
    OtherBuffer,
    Length,
    Start,
    Opened,
    Revision,
    RisingMarks,
    MarkBelow,
    MarkBeyond,
    Number,
    Tag,
}

/// What a call of the writer takes beside the table, the state and the buffer.
#[derive(Clone, Debug, PartialEq, Eq)]
pub enum Step {
    Start { revision: u64, number: u64 },
    PutUint { tag: u64, value: u64 },
    PutInt { tag: u64, value: i64 },
    PutOctets { tag: u64, octets: Rc<[u8]> },
    Open { tag: u64 },
    Close,
    Finish,
}

impl Step {
    /// Whether the call looks at the buffer's length: that of the state has to be the same.
    fn compares_lengths(&self) -> bool {
        matches!(self, Step::PutUint { .. } | Step::PutInt { .. } | Step::PutOctets { .. } | Step::Close)
    }
}

/// Makes a call: answers where the message starts for finish and 0 for the others, and leaves the words and the octets as they have to
/// be after it.
pub fn take(step: &Step, table: &[u8], words: &mut [u64], buffer: &mut [u8]) -> Answer<u64> {
    if let Step::Start { revision, number } = step {
        let started = start(table, *revision, *number, buffer.len(), words.len());
        words.fill(0);
        words.copy_from_slice(&started?.words());
        return Ok(0);
    }
    if fault(step, words, buffer.len()).is_some() {
        return refuse(STATE, 0);
    }
    let mut state = State::of(words).expect("a sound state");
    if *step == Step::Finish {
        return finish(&state);
    }
    let table = load(table)?;
    match step {
        Step::PutUint { tag, value } => state.put(&table, *tag, &[Kind::Uint], &least_uint(*value), buffer)?,
        Step::PutInt { tag, value } => state.put(&table, *tag, &[Kind::Int], &least_int(*value), buffer)?,
        Step::PutOctets { tag, octets } => state.put(&table, *tag, &[Kind::String, Kind::Text], octets, buffer)?,
        Step::Open { tag } => state.open(&table, *tag)?,
        _ => state.close(buffer)?,
    }
    words.copy_from_slice(&state.words());
    Ok(0)
}

fn start(table: &[u8], revision: u64, number: u64, length: usize, words: usize) -> Answer<State> {
    if words != STATE_WORDS {
        return refuse(STATE, 0);
    }
    if length > MESSAGE_LIMIT {
        return refuse(TOO_LONG, 0);
    }
    load(table)?;
    if !is_revision(revision) || number > 15 {
        return refuse(TABLE, 0);
    }
    let mut state = State { length: length as u64, start: length as u64, revision, ..State::default() };
    state.numbers[0] = number;
    Ok(state)
}

fn finish(state: &State) -> Answer<u64> {
    if state.opened > 0 {
        return refuse(STILL_OPEN, 0);
    }
    Ok(state.start)
}

fn is_revision(revision: u64) -> bool {
    revision == 1 || revision == 2
}

/// Why a call other than start refuses the state, if it does.
pub fn fault(step: &Step, words: &[u64], buffer_len: usize) -> Option<Fault> {
    let Some(state) = State::of(words) else {
        return Some(Fault::ArrayLength);
    };
    if step.compares_lengths() && state.length != buffer_len as u64 {
        return Some(Fault::OtherBuffer);
    }
    state.fault()
}

impl State {
    /// The state in an array of words, or none if the array has another length.
    pub fn of(words: &[u64]) -> Option<State> {
        if words.len() != STATE_WORDS {
            return None;
        }
        let mut words = words.iter().copied();
        let mut next = || words.next().expect("so many words");
        Some(State {
            length: next(),
            start: next(),
            opened: next(),
            revision: next(),
            numbers: std::array::from_fn(|_| next()),
            masks: std::array::from_fn(|_| next()),
            marks: std::array::from_fn(|_| next()),
            tags: std::array::from_fn(|_| next()),
        })
    }

    pub fn words(&self) -> Vec<u64> {
        let State { length, start, opened, revision, numbers, masks, marks, tags } = self;
        [&[*length, *start, *opened, *revision][..], numbers, masks, marks, tags].concat()
    }

    fn fault(&self) -> Option<Fault> {
        if self.length > MESSAGE_LIMIT as u64 {
            return Some(Fault::Length);
        }
        if self.start > self.length {
            return Some(Fault::Start);
        }
        if self.opened > MOST_OPEN as u64 {
            return Some(Fault::Opened);
        }
        if !is_revision(self.revision) {
            return Some(Fault::Revision);
        }
        self.fault_in_use()
    }

    /// The fault of the marks, numbers and tags that are in use. The others may be anything.
    fn fault_in_use(&self) -> Option<Fault> {
        let opened = self.opened as usize;
        let marks = &self.marks[..opened];
        if marks.windows(2).any(|pair| pair[1] > pair[0]) {
            return Some(Fault::RisingMarks);
        }
        if marks.iter().any(|mark| *mark < self.start) {
            return Some(Fault::MarkBelow);
        }
        if marks.iter().any(|mark| *mark > self.length) {
            return Some(Fault::MarkBeyond);
        }
        if self.numbers[..=opened].iter().any(|number| *number > 15) {
            return Some(Fault::Number);
        }
        if self.tags[..opened].iter().any(|tag| *tag > 65_535) {
            return Some(Fault::Tag);
        }
        None
    }

    /// The entry of a tag in the innermost message under way, with its place among the table's records, if it is of one of these kinds.
    fn entry(&self, table: &Table, tag: u64, kinds: &[Kind]) -> Answer<(usize, Entry)> {
        let number = self.numbers[self.opened as usize];
        let found = |entry: &Entry| u64::from(entry.message) == number && u64::from(entry.tag) == tag;
        match table.entries.iter().position(found) {
            Some(order) if kinds.contains(&table.entries[order].kind) => Ok((order, table.entries[order])),
            _ => refuse(TAG_OR_KIND, 0),
        }
    }

    /// Notes a single field of the innermost message under way, or refuses its repeat.
    fn note(&mut self, order: usize, entry: &Entry) -> Answer<()> {
        if self.revision == 1 || !entry.single {
            return Ok(());
        }
        let mask = &mut self.masks[self.opened as usize];
        if *mask >> order & 1 == 1 {
            return refuse(REPEATED, 0);
        }
        *mask |= 1 << order;
        Ok(())
    }

    fn put(&mut self, table: &Table, tag: u64, kinds: &[Kind], contents: &[u8], buffer: &mut [u8]) -> Answer<()> {
        let (order, entry) = self.entry(table, tag, kinds)?;
        self.note(order, &entry)?;
        if entry.kind == Kind::Text && !is_text(contents) {
            return refuse(TEXT, 0);
        }
        let control = control_part(entry.tag, contents.len());
        self.store(&[&control, contents].concat(), buffer)
    }

    fn open(&mut self, table: &Table, tag: u64) -> Answer<()> {
        let (order, entry) = self.entry(table, tag, &[Kind::Message])?;
        self.note(order, &entry)?;
        let level = self.opened as usize;
        if level == MOST_OPEN {
            return refuse(TOO_DEEP, 0);
        }
        self.marks[level] = self.start;
        self.tags[level] = tag;
        self.numbers[level + 1] = u64::from(entry.inner);
        self.masks[level + 1] = 0;
        self.opened += 1;
        Ok(())
    }

    fn close(&mut self, buffer: &mut [u8]) -> Answer<()> {
        let Some(level) = self.opened.checked_sub(1) else {
            return refuse(NOTHING_OPEN, 0);
        };
        self.opened = level;
        let level = level as usize;
        let length = self.marks[level] - self.start;
        self.store(&control_part(self.tags[level] as u16, length as usize), buffer)
    }

    /// Stores octets just before the earlier ones, if they fit.
    fn store(&mut self, octets: &[u8], buffer: &mut [u8]) -> Answer<()> {
        let end = self.start as usize;
        let Some(start) = end.checked_sub(octets.len()) else {
            return refuse(NO_ROOM, 0);
        };
        buffer[start..end].copy_from_slice(octets);
        self.start = start as u64;
        Ok(())
    }
}
