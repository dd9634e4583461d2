//! The C entries behind safe functions. Every buffer, every state and every result stands between guards with arbitrary contents, and
//! all of them are looked at after the call.

mod writer;

use crate::call::{Call, Hproto, Outcome};
use crate::oracle::writer::Step;
use crate::rng::Rng;

mod c {
    extern "C" {
        pub fn crudvim_check(
            table: *const u8,
            table_len: usize,
            revision: u64,
            number: u64,
            message: *const u8,
            message_len: usize,
            place: *mut u64,
            fields: *mut u64,
            depth: *mut u64,
            shortest: *mut u64,
        ) -> u64;
        pub fn crudvim_shorten(
            table: *const u8,
            table_len: usize,
            revision: u64,
            number: u64,
            message: *const u8,
            message_len: usize,
            out: *mut u8,
            out_len: usize,
            place: *mut u64,
            length: *mut u64,
        ) -> u64;
        pub fn crudvim_frame_read(buffer: *const u8, buffer_len: usize, place: *mut u64, start: *mut u64, end: *mut u64) -> u64;
        pub fn crudvim_frame_write(
            message: *const u8,
            message_len: usize,
            out: *mut u8,
            out_len: usize,
            place: *mut u64,
            length: *mut u64,
        ) -> u64;
        pub fn crudvim_lookup(
            table: *const u8,
            table_len: usize,
            revision: u64,
            number: u64,
            message: *const u8,
            message_len: usize,
            tag: u64,
            k: u64,
            place: *mut u64,
            kind: *mut u64,
            value: *mut u64,
            signed_value: *mut i64,
            start: *mut u64,
            length: *mut u64,
        ) -> u64;
        pub fn crudvim_lookup_last(
            table: *const u8,
            table_len: usize,
            revision: u64,
            number: u64,
            message: *const u8,
            message_len: usize,
            tag: u64,
            place: *mut u64,
            kind: *mut u64,
            value: *mut u64,
            signed_value: *mut i64,
            start: *mut u64,
            length: *mut u64,
        ) -> u64;
        pub fn crudvim_tibmsg_check(
            message: *const u8,
            message_len: usize,
            place: *mut u64,
            fields: *mut u64,
            depth: *mut u64,
        ) -> u64;
        pub fn crudvim_tibmsg_field(
            message: *const u8,
            message_len: usize,
            k: u64,
            place: *mut u64,
            name_start: *mut u64,
            name_length: *mut u64,
            type_: *mut u64,
            data_start: *mut u64,
            data_length: *mut u64,
            hinted: *mut u64,
            hint_type: *mut u64,
            hint: *mut u64,
            real_bits: *mut u64,
        ) -> u64;
        pub fn crudvim_tibrv_check(
            message: *const u8,
            message_len: usize,
            place: *mut u64,
            fields: *mut u64,
            depth: *mut u64,
        ) -> u64;
        pub fn crudvim_tibrv_field(
            message: *const u8,
            message_len: usize,
            k: u64,
            place: *mut u64,
            name_start: *mut u64,
            name_length: *mut u64,
            type_: *mut u64,
            data_start: *mut u64,
            data_length: *mut u64,
        ) -> u64;
        pub fn crudvim_qform_check(
            dictionary: *const u8,
            dictionary_len: usize,
            message: *const u8,
            message_len: usize,
            place: *mut u64,
            fields: *mut u64,
            depth: *mut u64,
        ) -> u64;
        pub fn crudvim_qform_field(
            dictionary: *const u8,
            dictionary_len: usize,
            message: *const u8,
            message_len: usize,
            k: u64,
            place: *mut u64,
            fid: *mut u64,
            type_: *mut u64,
            data_start: *mut u64,
            data_length: *mut u64,
        ) -> u64;
        pub fn crudvim_fractions(real_bits: u64, hinted: u64, hint: u64, place: *mut u64, whole: *mut i64) -> u64;
        pub fn crudvim_decimals(real_bits: u64, hinted: u64, hint: u64, place: *mut u64, whole: *mut i64) -> u64;
    }
}

const GUARD: usize = 48;

/// Octets or words that a call is lent, between guards.
struct Lent<T> {
    name: &'static str,
    all: Vec<T>,
    before: Vec<T>,
    length: usize,
    /// What is passed in place of the pointer to the contents: null for none, or another buffer with the same contents.
    instead: Option<*mut T>,
}

impl Lent<u8> {
    fn new(name: &'static str, contents: &[u8], rng: &mut Rng) -> Lent<u8> {
        let front = rng.octets(GUARD);
        let behind = guard_behind(rng);
        Lent::between(name, front, contents, behind, rng)
    }
}

impl Lent<u64> {
    fn words(name: &'static str, contents: &[u64], rng: &mut Rng) -> Lent<u64> {
        let [front, behind] = [(); 2].map(|_| (0..GUARD).map(|_| rng.word()).collect());
        Lent::between(name, front, contents, behind, rng)
    }
}

impl<T: Copy + PartialEq> Lent<T> {
    fn between(name: &'static str, front: Vec<T>, contents: &[T], behind: Vec<T>, rng: &mut Rng) -> Lent<T> {
        let mut all = front;
        all.extend(contents);
        all.extend(behind);
        let null = contents.is_empty() && rng.chance(50);
        let instead = null.then_some(std::ptr::null_mut());
        Lent { name, before: all.clone(), all, length: contents.len(), instead }
    }

    fn pointer(&mut self) -> *mut T {
        self.instead.unwrap_or(self.all[GUARD..].as_mut_ptr())
    }

    fn contents(&self) -> &[T] {
        &self.all[GUARD..GUARD + self.length]
    }

    /// Complains if anything in a guard or, for an input, in the contents has changed.
    fn complain(&self, may_change: bool) -> Option<String> {
        if self.all == self.before {
            return None;
        }
        let contents = GUARD..GUARD + self.length;
        let changed = |place: &usize| self.all[*place] != self.before[*place];
        let allowed = |place: &usize| may_change && contents.contains(place);
        let place = (0..self.all.len()).find(|place| changed(place) && !allowed(place))?;
        let offset = place as i64 - GUARD as i64;
        Some(format!("  the call stored at {offset} of {}\n", self.name))
    }
}

/// The octets behind a buffer: arbitrary, or now and then all 0 or all 1, which a read past the end could take for part of a record or of a
/// field.
fn guard_behind(rng: &mut Rng) -> Vec<u8> {
    match rng.below(8) {
        0 => vec![0; GUARD],
        1 => vec![1; GUARD],
        _ => rng.octets(GUARD),
    }
}

/// The place and the results, filled with arbitrary numbers before the call and with more of them behind.
struct Results {
    all: [u64; 16],
    before: [u64; 16],
    used: usize,
}

impl Results {
    fn new(used: usize, rng: &mut Rng) -> Results {
        let before = std::array::from_fn(|_| rng.word() | 1 << 40);
        Results { all: before, before, used }
    }

    /// The results as a list of pointers, one after the other.
    fn pointers<const N: usize>(&mut self) -> [*mut u64; N] {
        assert_eq!(N, self.used);
        let first = self.all.as_mut_ptr();
        // Each is inside `all`, since N is at most 16.
        std::array::from_fn(|index| unsafe { first.add(index) })
    }

    fn complain(&self) -> Option<String> {
        let beyond = self.used..self.all.len();
        (self.all[beyond.clone()] != self.before[beyond]).then(|| "  the call stored behind its results\n".to_string())
    }
}

/// Makes the call with a lent buffer that has the octets `poison`. An error is a store where the call may not store.
pub fn call(call: &Call, poison: &[u8], rng: &mut Rng) -> Result<Outcome, String> {
    let (first, second) = inputs(call);
    let mut first = Lent::new(first.0, first.1, rng);
    let mut second = Lent::new(second.0, second.1, rng);
    // Two inputs may be the same.
    if first.length > 0 && first.contents() == second.contents() {
        second.instead = Some(first.pointer());
    }
    let mut out = Lent::new("out", poison, rng);
    let mut results = Results::new(1 + call.result_count(), rng);
    let mut state = call.state().map(|words| Lent::words("state", words, rng));
    let refusal = match (call, &mut state) {
        (Call::Write { step, .. }, Some(state)) => {
            let lent = writer::Loan { table: &mut first, octets: &mut second, state, buffer: &mut out };
            writer::write(step, lent, &mut results)
        }
        _ => make(call, &mut first, &mut second, &mut out, &mut results),
    };
    let complaints = [first.complain(false), second.complain(false), out.complain(true), results.complain()];
    let complaint = complaints.into_iter().flatten().next().or(state.as_ref().and_then(|state| state.complain(true)));
    if let Some(complaint) = complaint {
        return Err(complaint);
    }
    Ok(Outcome {
        refusal,
        place: results.all[0],
        results: results.all[1..results.used].to_vec(),
        out: out.contents().to_vec(),
        state: state.map_or(vec![], |state| state.contents().to_vec()),
    })
}

/// The check of a message of number 0 under revision 2 with no guard octets, for loops of many calls: refusal, place, fields, depth and
/// shortest.
pub fn only_check(table: &[u8], message: &[u8]) -> [u64; 5] {
    let mut results = [u64::MAX; 4];
    let [place, fields, depth, shortest] = &mut results;
    // The pointers are to live, separate memory of the given lengths, as the header asks.
    let refusal = unsafe {
        c::crudvim_check(table.as_ptr(), table.len(), 2, 0, message.as_ptr(), message.len(), place, fields, depth, shortest)
    };
    [refusal, results[0], results[1], results[2], results[3]]
}

type Input<'a> = (&'static str, &'a [u8]);

/// The octets that a call reads; most entries have one input only.
fn inputs(call: &Call) -> (Input<'_>, Input<'_>) {
    let none: Input = ("nothing", &[]);
    match call {
        Call::Check(on) | Call::Shorten { on, .. } | Call::Lookup { on, .. } | Call::LookupLast { on, .. } => {
            (("table", &on.table), ("message", &on.message))
        }
        Call::QformCheck(on) | Call::QformField { on, .. } => (("dictionary", &on.dictionary), ("message", &on.message)),
        Call::FrameRead { buffer } => (("buffer", buffer), none),
        Call::FrameWrite { message, .. }
        | Call::TibmsgCheck { message }
        | Call::TibmsgField { message, .. }
        | Call::TibrvCheck { message }
        | Call::TibrvField { message, .. } => (("message", message), none),
        Call::Write { on, step: Step::PutOctets { octets, .. } } => (("table", &on.table), ("octets", octets)),
        Call::Write { on, .. } => (("table", &on.table), none),
        Call::Build(built) => (("table", &built.table), none),
        Call::Fractions { .. } | Call::Decimals { .. } | Call::Show { .. } => (none, none),
    }
}

fn make(call: &Call, first: &mut Lent<u8>, second: &mut Lent<u8>, out: &mut Lent<u8>, results: &mut Results) -> u64 {
    match call {
        Call::Check(on) => check(on, first, second, results),
        Call::Shorten { on, .. } => shorten(on, first, second, out, results),
        Call::Lookup { on, tag, k } => lookup(on, *tag, *k, first, second, results),
        Call::LookupLast { on, tag } => lookup_last(on, *tag, first, second, results),
        Call::FrameRead { .. } => frame_read(first, results),
        Call::FrameWrite { .. } => frame_write(first, out, results),
        Call::TibmsgCheck { .. } => tibmsg_check(first, results),
        Call::TibmsgField { k, .. } => tibmsg_field(*k, first, results),
        Call::TibrvCheck { .. } => tibrv_check(first, results),
        Call::TibrvField { k, .. } => tibrv_field(*k, first, results),
        Call::QformCheck(_) => qform_check(first, second, results),
        Call::QformField { k, .. } => qform_field(*k, first, second, results),
        Call::Fractions { bits, hinted, hint } => fractions(*bits, *hinted, *hint, results),
        Call::Decimals { bits, hinted, hint } => decimals(*bits, *hinted, *hint, results),
        Call::Build(built) => writer::build(built, first, out, results),
        Call::Write { .. } => unreachable!("it has a state, too"),
        Call::Show { .. } => unreachable!("show is a program"),
    }
}

// In each of these the pointers are to live, separate memory of the given lengths, as the header asks.

fn check(on: &Hproto, table: &mut Lent<u8>, message: &mut Lent<u8>, results: &mut Results) -> u64 {
    let [place, fields, depth, shortest] = results.pointers();
    unsafe {
        c::crudvim_check(
            table.pointer(),
            table.length,
            on.revision,
            on.number,
            message.pointer(),
            message.length,
            place,
            fields,
            depth,
            shortest,
        )
    }
}

fn shorten(on: &Hproto, table: &mut Lent<u8>, message: &mut Lent<u8>, out: &mut Lent<u8>, results: &mut Results) -> u64 {
    let [place, length] = results.pointers();
    unsafe {
        c::crudvim_shorten(
            table.pointer(),
            table.length,
            on.revision,
            on.number,
            message.pointer(),
            message.length,
            out.pointer(),
            out.length,
            place,
            length,
        )
    }
}

fn lookup(on: &Hproto, tag: u64, k: u64, table: &mut Lent<u8>, message: &mut Lent<u8>, results: &mut Results) -> u64 {
    let [place, kind, value, signed_value, start, length] = results.pointers();
    unsafe {
        c::crudvim_lookup(
            table.pointer(),
            table.length,
            on.revision,
            on.number,
            message.pointer(),
            message.length,
            tag,
            k,
            place,
            kind,
            value,
            signed_value.cast(),
            start,
            length,
        )
    }
}

fn lookup_last(on: &Hproto, tag: u64, table: &mut Lent<u8>, message: &mut Lent<u8>, results: &mut Results) -> u64 {
    let [place, kind, value, signed_value, start, length] = results.pointers();
    unsafe {
        c::crudvim_lookup_last(
            table.pointer(),
            table.length,
            on.revision,
            on.number,
            message.pointer(),
            message.length,
            tag,
            place,
            kind,
            value,
            signed_value.cast(),
            start,
            length,
        )
    }
}

fn frame_read(buffer: &mut Lent<u8>, results: &mut Results) -> u64 {
    let [place, start, end] = results.pointers();
    unsafe { c::crudvim_frame_read(buffer.pointer(), buffer.length, place, start, end) }
}

fn frame_write(message: &mut Lent<u8>, out: &mut Lent<u8>, results: &mut Results) -> u64 {
    let [place, length] = results.pointers();
    unsafe { c::crudvim_frame_write(message.pointer(), message.length, out.pointer(), out.length, place, length) }
}

fn tibmsg_check(message: &mut Lent<u8>, results: &mut Results) -> u64 {
    let [place, fields, depth] = results.pointers();
    unsafe { c::crudvim_tibmsg_check(message.pointer(), message.length, place, fields, depth) }
}

fn tibmsg_field(k: u64, message: &mut Lent<u8>, results: &mut Results) -> u64 {
    let [place, name_start, name_length, type_, data_start, data_length, hinted, hint_type, hint, real_bits] = results.pointers();
    unsafe {
        c::crudvim_tibmsg_field(
            message.pointer(),
            message.length,
            k,
            place,
            name_start,
            name_length,
            type_,
            data_start,
            data_length,
            hinted,
            hint_type,
            hint,
            real_bits,
        )
    }
}

fn tibrv_check(message: &mut Lent<u8>, results: &mut Results) -> u64 {
    let [place, fields, depth] = results.pointers();
    unsafe { c::crudvim_tibrv_check(message.pointer(), message.length, place, fields, depth) }
}

fn tibrv_field(k: u64, message: &mut Lent<u8>, results: &mut Results) -> u64 {
    let [place, name_start, name_length, type_, data_start, data_length] = results.pointers();
    unsafe {
        c::crudvim_tibrv_field(message.pointer(), message.length, k, place, name_start, name_length, type_, data_start, data_length)
    }
}

fn qform_check(dictionary: &mut Lent<u8>, message: &mut Lent<u8>, results: &mut Results) -> u64 {
    let [place, fields, depth] = results.pointers();
    unsafe {
        c::crudvim_qform_check(dictionary.pointer(), dictionary.length, message.pointer(), message.length, place, fields, depth)
    }
}

fn qform_field(k: u64, dictionary: &mut Lent<u8>, message: &mut Lent<u8>, results: &mut Results) -> u64 {
    let [place, fid, type_, data_start, data_length] = results.pointers();
    unsafe {
        c::crudvim_qform_field(
            dictionary.pointer(),
            dictionary.length,
            message.pointer(),
            message.length,
            k,
            place,
            fid,
            type_,
            data_start,
            data_length,
        )
    }
}

fn fractions(bits: u64, hinted: u64, hint: u64, results: &mut Results) -> u64 {
    let [place, whole] = results.pointers();
    unsafe { c::crudvim_fractions(bits, hinted, hint, place, whole.cast()) }
}

fn decimals(bits: u64, hinted: u64, hint: u64, results: &mut Results) -> u64 {
    let [place, whole] = results.pointers();
    unsafe { c::crudvim_decimals(bits, hinted, hint, place, whole.cast()) }
}
