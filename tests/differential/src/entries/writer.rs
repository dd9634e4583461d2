//! The writer's entries, and messages that are built and checked by calls in a row on the same state and buffer.

use super::{c as reader, Lent, Results};
use crate::call::Built;
use crate::generate::writer::steps;
use crate::oracle::writer::{Step, STATE_WORDS};

mod c {
    extern "C" {
        pub fn crudvim_start(
            table: *const u8,
            table_len: usize,
            revision: u64,
            number: u64,
            buffer: *const u8,
            buffer_len: usize,
            state: *mut u64,
            state_len: usize,
            place: *mut u64,
        ) -> u64;
        pub fn crudvim_put_uint(
            table: *const u8,
            table_len: usize,
            state: *mut u64,
            state_len: usize,
            tag: u64,
            value: u64,
            buffer: *mut u8,
            buffer_len: usize,
            place: *mut u64,
        ) -> u64;
        pub fn crudvim_put_int(
            table: *const u8,
            table_len: usize,
            state: *mut u64,
            state_len: usize,
            tag: u64,
            value: i64,
            buffer: *mut u8,
            buffer_len: usize,
            place: *mut u64,
        ) -> u64;
        pub fn crudvim_put_octets(
            table: *const u8,
            table_len: usize,
            state: *mut u64,
            state_len: usize,
            tag: u64,
            octets: *const u8,
            octets_len: usize,
            buffer: *mut u8,
            buffer_len: usize,
            place: *mut u64,
        ) -> u64;
        pub fn crudvim_open(
            table: *const u8,
            table_len: usize,
            state: *mut u64,
            state_len: usize,
            tag: u64,
            place: *mut u64,
        ) -> u64;
        pub fn crudvim_close(
            table: *const u8,
            table_len: usize,
            state: *mut u64,
            state_len: usize,
            buffer: *mut u8,
            buffer_len: usize,
            place: *mut u64,
        ) -> u64;
        pub fn crudvim_finish(state: *const u64, state_len: usize, place: *mut u64, start: *mut u64) -> u64;
    }
}

/// The memory that a step gets. Only a put of octets uses `octets`, and only finish uses `start`.
struct Memory {
    table: (*const u8, usize),
    octets: (*const u8, usize),
    state: (*mut u64, usize),
    buffer: (*mut u8, usize),
    place: *mut u64,
    start: *mut u64,
}

impl Memory {
    /// The call of a step. Its pointers have to be to live, separate memory of the given lengths.
    unsafe fn take(&self, step: &Step) -> u64 {
        let (table, table_len) = self.table;
        let (octets, octets_len) = self.octets;
        let (state, state_len) = self.state;
        let (buffer, buffer_len) = self.buffer;
        let place = self.place;
        match *step {
            Step::Start { revision, number } => {
                c::crudvim_start(table, table_len, revision, number, buffer, buffer_len, state, state_len, place)
            }
            Step::PutUint { tag, value } => {
                c::crudvim_put_uint(table, table_len, state, state_len, tag, value, buffer, buffer_len, place)
            }
            Step::PutInt { tag, value } => {
                c::crudvim_put_int(table, table_len, state, state_len, tag, value, buffer, buffer_len, place)
            }
            Step::PutOctets { tag, .. } => {
                c::crudvim_put_octets(table, table_len, state, state_len, tag, octets, octets_len, buffer, buffer_len, place)
            }
            Step::Open { tag } => c::crudvim_open(table, table_len, state, state_len, tag, place),
            Step::Close => c::crudvim_close(table, table_len, state, state_len, buffer, buffer_len, place),
            Step::Finish => c::crudvim_finish(state, state_len, place, self.start),
        }
    }
}

/// What a call is lent: the table and the octets to put, the array of the state, and the buffer.
pub struct Loan<'a> {
    pub table: &'a mut Lent<u8>,
    pub octets: &'a mut Lent<u8>,
    pub state: &'a mut Lent<u64>,
    pub buffer: &'a mut Lent<u8>,
}

pub fn write(step: &Step, lent: Loan, results: &mut Results) -> u64 {
    let (place, start) = match step {
        Step::Finish => {
            let [place, start] = results.pointers();
            (place, start)
        }
        _ => {
            let [place] = results.pointers();
            (place, std::ptr::null_mut())
        }
    };
    let memory = Memory {
        table: (lent.table.pointer(), lent.table.length),
        octets: (lent.octets.pointer(), lent.octets.length),
        state: (lent.state.pointer(), lent.state.length),
        buffer: (lent.buffer.pointer(), lent.buffer.length),
        place,
        start,
    };
    unsafe { memory.take(step) }
}

/// Builds the message in the buffer and checks it there. Answers the first refusal.
pub fn build(built: &Built, table: &mut Lent<u8>, buffer: &mut Lent<u8>, results: &mut Results) -> u64 {
    let mut state = [u64::MAX; STATE_WORDS];
    let mut start = u64::MAX;
    let [place, fields, depth, shortest] = results.pointers();
    let (table, table_len) = (table.pointer(), table.length);
    let (buffer, buffer_len) = (buffer.pointer(), buffer.length);
    let mut memory = Memory {
        table: (table, table_len),
        octets: (std::ptr::null(), 0),
        state: (state.as_mut_ptr(), STATE_WORDS),
        buffer: (buffer, buffer_len),
        place,
        start: &mut start,
    };
    let first = Step::Start { revision: built.revision, number: built.number };
    for step in [vec![first], steps(&built.fields), vec![Step::Finish]].concat() {
        if let Step::PutOctets { octets, .. } = &step {
            memory.octets = (octets.as_ptr(), octets.len());
        }
        let refusal = unsafe { memory.take(&step) };
        if refusal != 0 {
            return refusal;
        }
    }
    let message = buffer.wrapping_add(start as usize);
    let message_len = buffer_len.saturating_sub(start as usize);
    unsafe {
        let (revision, number) = (built.revision, built.number);
        reader::crudvim_check(table, table_len, revision, number, message, message_len, place, fields, depth, shortest)
    }
}
