//! One call of one entry, and what the oracle says that it answers.

use crate::oracle::lookup::Found;
use crate::oracle::message::Field;
use crate::oracle::tib::Span;
use crate::oracle::writer::{self, Step};
use crate::oracle::{decimals, frame, lookup, message, qform, real, shorten, show, tibmsg, tibrv, Refusal};
use std::fmt::Write;
use std::rc::Rc;

pub type Octets = Rc<[u8]>;
pub type Words = Rc<[u64]>;

/// The inputs that the hproto entries share.
#[derive(Clone, Debug)]
pub struct Hproto {
    pub table: Octets,
    pub revision: u64,
    pub number: u64,
    pub message: Octets,
}

/// The inputs that the QForm entries share.
#[derive(Clone, Debug)]
pub struct Qform {
    pub dictionary: Octets,
    pub message: Octets,
}

/// What the writer's entries share: the table, the array of the state, and how many octets the lent buffer has. Open and finish get no
/// buffer, and finish gets no table.
#[derive(Clone, Debug)]
pub struct Writer {
    pub table: Octets,
    pub state: Words,
    pub room: usize,
}

/// Fields that a run of the writer's entries has to put, with room for them, so that they are the end of the buffer afterwards.
#[derive(Clone, Debug)]
pub struct Built {
    pub table: Octets,
    pub revision: u64,
    pub number: u64,
    pub fields: Rc<[Field]>,
    pub room: usize,
}

impl Built {
    /// The message of these fields. The writer is not asked for it.
    pub fn message(&self) -> Vec<u8> {
        shorten::shortest(&self.fields)
    }
}

#[derive(Clone, Debug)]
pub enum Call {
    Check(Hproto),
    Shorten { on: Hproto, room: usize },
    Lookup { on: Hproto, tag: u64, k: u64 },
    LookupLast { on: Hproto, tag: u64 },
    FrameRead { buffer: Octets },
    FrameWrite { message: Octets, room: usize },
    TibmsgCheck { message: Octets },
    TibmsgField { message: Octets, k: u64 },
    TibrvCheck { message: Octets },
    TibrvField { message: Octets, k: u64 },
    QformCheck(Qform),
    QformField { on: Qform, k: u64 },
    Fractions { bits: u64, hinted: u64, hint: u64 },
    Decimals { bits: u64, hinted: u64, hint: u64 },
    Write { on: Writer, step: Step },
    Build(Built),
    Show { input: Octets },
}

/// The entries in the order of their numbers in the counts and in a fuzzer's inputs.
pub const ENTRIES: [&str; 23] = [
    "check",
    "shorten",
    "lookup",
    "lookup_last",
    "frame_read",
    "frame_write",
    "tibmsg_check",
    "tibmsg_field",
    "tibrv_check",
    "tibrv_field",
    "qform_check",
    "qform_field",
    "fractions",
    "decimals",
    "start",
    "put_uint",
    "put_int",
    "put_octets",
    "open",
    "close",
    "finish",
    "build",
    "show",
];

/// All that a call leaves behind. `results` are the results after the place in the header's order, an int64 as its bits. `out` is
/// the whole of the lent buffer, or the text of `show`. `state` has the words of the writer's state.
#[derive(Clone, Debug, Default, PartialEq, Eq)]
pub struct Outcome {
    pub refusal: u64,
    pub place: u64,
    pub results: Vec<u64>,
    pub out: Vec<u8>,
    pub state: Vec<u64>,
}

impl Call {
    pub fn entry(&self) -> usize {
        match self {
            Call::Check(_) => 0,
            Call::Shorten { .. } => 1,
            Call::Lookup { .. } => 2,
            Call::LookupLast { .. } => 3,
            Call::FrameRead { .. } => 4,
            Call::FrameWrite { .. } => 5,
            Call::TibmsgCheck { .. } => 6,
            Call::TibmsgField { .. } => 7,
            Call::TibrvCheck { .. } => 8,
            Call::TibrvField { .. } => 9,
            Call::QformCheck(_) => 10,
            Call::QformField { .. } => 11,
            Call::Fractions { .. } => 12,
            Call::Decimals { .. } => 13,
            Call::Write { step, .. } => match step {
                Step::Start { .. } => 14,
                Step::PutUint { .. } => 15,
                Step::PutInt { .. } => 16,
                Step::PutOctets { .. } => 17,
                Step::Open { .. } => 18,
                Step::Close => 19,
                Step::Finish => 20,
            },
            Call::Build(_) => 21,
            Call::Show { .. } => 22,
        }
    }

    /// How many octets the call is lent to write into.
    pub fn room(&self) -> usize {
        match self {
            Call::Shorten { room, .. } | Call::FrameWrite { room, .. } => *room,
            Call::Write { on, .. } => on.room,
            Call::Build(built) => built.room,
            _ => 0,
        }
    }

    /// How many results the entry has after the place.
    pub fn result_count(&self) -> usize {
        match self {
            Call::Check(_) | Call::Build(_) => 3,
            Call::FrameRead { .. } | Call::TibmsgCheck { .. } | Call::TibrvCheck { .. } | Call::QformCheck(_) => 2,
            Call::Shorten { .. } | Call::FrameWrite { .. } | Call::Fractions { .. } | Call::Decimals { .. } => 1,
            Call::Lookup { .. } | Call::LookupLast { .. } | Call::TibrvField { .. } => 5,
            Call::QformField { .. } => 4,
            Call::TibmsgField { .. } => 9,
            Call::Write { step, .. } => usize::from(*step == Step::Finish),
            Call::Show { .. } => 0,
        }
    }

    /// What the oracle says, where the lent buffer had the octets `before`.
    pub fn expected(&self, before: &[u8]) -> Outcome {
        let mut out = before.to_vec();
        let mut state = self.state().unwrap_or_default().to_vec();
        let results = match self {
            Call::Show { input } => {
                out = show::text(input);
                Ok(Vec::new())
            }
            Call::Shorten { on, room } => {
                let shortened = shorten::shorten(&on.table, on.revision, on.number, &on.message, *room);
                shortened.map(|octets| put_in_front(&mut out, &octets))
            }
            Call::FrameWrite { message, room } => frame::write(message, *room).map(|octets| put_in_front(&mut out, &octets)),
            Call::Write { on, step } => {
                let answer = writer::take(step, &on.table, &mut state, &mut out);
                answer.map(|start| vec![start; self.result_count()])
            }
            Call::Build(built) => Ok(built_results(built, &mut out)),
            _ => self.results(),
        };
        match results {
            Ok(results) => Outcome { refusal: 0, place: 0, results, out, state },
            Err(Refusal { number, place }) => Outcome { refusal: number, place, results: vec![0; self.result_count()], out, state },
        }
    }

    /// The array of the writer's state before the call.
    pub fn state(&self) -> Option<&[u64]> {
        match self {
            Call::Write { on, .. } => Some(&on.state),
            _ => None,
        }
    }

    /// The results of the entries that are lent no buffer.
    fn results(&self) -> Result<Vec<u64>, Refusal> {
        match self {
            Call::Check(on) => message::check(&on.table, on.revision, on.number, &on.message).map(checked),
            Call::Lookup { on, tag, k } => lookup::kth(&on.table, on.revision, on.number, &on.message, *tag, *k).map(found),
            Call::LookupLast { on, tag } => lookup::last(&on.table, on.revision, on.number, &on.message, *tag).map(found),
            Call::FrameRead { buffer } => frame::read(buffer).map(|(start, end)| vec![start as u64, end as u64]),
            Call::TibmsgCheck { message } => tibmsg::check(message).map(pair),
            Call::TibmsgField { message, k } => tibmsg::kth(message, *k).map(tibmsg_field),
            Call::TibrvCheck { message } => tibrv::check(message).map(pair),
            Call::TibrvField { message, k } => tibrv::kth(message, *k).map(tibrv_field),
            Call::QformCheck(on) => qform::check(&on.dictionary, &on.message).map(pair),
            Call::QformField { on, k } => qform::kth(&on.dictionary, &on.message, *k).map(qform_field),
            Call::Fractions { bits, hinted, hint } => real::fractions(*bits, *hinted, *hint).map(|whole| vec![whole as u64]),
            Call::Decimals { bits, hinted, hint } => decimals::decimals(*bits, *hinted, *hint).map(|whole| vec![whole as u64]),
            Call::Shorten { .. } | Call::FrameWrite { .. } | Call::Write { .. } | Call::Build(_) | Call::Show { .. } => {
                unreachable!("these have octets to write")
            }
        }
    }

    /// The inputs, for a report.
    pub fn describe(&self) -> String {
        let mut text = format!("entry {}\n", ENTRIES[self.entry()]);
        for (name, number) in self.numbers() {
            writeln!(text, "  {name} {number} (hex {number:x})").expect("a string takes it");
        }
        for (name, octets) in self.inputs() {
            let count = octets.len();
            writeln!(text, "  {name} ({count} octets) {}", hex(octets)).expect("a string takes it");
        }
        if let Call::Write { on, .. } = self {
            writeln!(text, "  state ({} words) {:?}", on.state.len(), on.state).expect("a string takes it");
        }
        if let Call::Build(built) = self {
            writeln!(text, "  fields {:?}", built.fields).expect("a string takes it");
        }
        text
    }

    fn numbers(&self) -> Vec<(&'static str, u64)> {
        match self {
            Call::Check(on) => vec![("revision", on.revision), ("number", on.number)],
            Call::Shorten { on, room } => vec![("revision", on.revision), ("number", on.number), ("out_len", *room as u64)],
            Call::Lookup { on, tag, k } => vec![("revision", on.revision), ("number", on.number), ("tag", *tag), ("k", *k)],
            Call::LookupLast { on, tag } => vec![("revision", on.revision), ("number", on.number), ("tag", *tag)],
            Call::FrameWrite { room, .. } => vec![("out_len", *room as u64)],
            Call::TibmsgField { k, .. } | Call::TibrvField { k, .. } | Call::QformField { k, .. } => vec![("k", *k)],
            Call::Fractions { bits, hinted, hint } | Call::Decimals { bits, hinted, hint } => {
                vec![("real_bits", *bits), ("hinted", *hinted), ("hint", *hint)]
            }
            Call::Write { on, step } => [vec![("buffer_len", on.room as u64)], step_numbers(step)].concat(),
            Call::Build(on) => vec![("revision", on.revision), ("number", on.number), ("buffer_len", on.room as u64)],
            _ => vec![],
        }
    }

    fn inputs(&self) -> Vec<(&'static str, &Octets)> {
        match self {
            Call::Check(on) | Call::Shorten { on, .. } | Call::Lookup { on, .. } | Call::LookupLast { on, .. } => {
                vec![("table", &on.table), ("message", &on.message)]
            }
            Call::QformCheck(on) | Call::QformField { on, .. } => vec![("dictionary", &on.dictionary), ("message", &on.message)],
            Call::FrameRead { buffer } => vec![("buffer", buffer)],
            Call::FrameWrite { message, .. }
            | Call::TibmsgCheck { message }
            | Call::TibmsgField { message, .. }
            | Call::TibrvCheck { message }
            | Call::TibrvField { message, .. } => vec![("message", message)],
            Call::Show { input } => vec![("input", input)],
            Call::Write { on, step: Step::PutOctets { octets, .. } } => vec![("table", &on.table), ("octets", octets)],
            Call::Write { on, .. } => vec![("table", &on.table)],
            Call::Build(built) => vec![("table", &built.table)],
            Call::Fractions { .. } | Call::Decimals { .. } => vec![],
        }
    }
}

fn step_numbers(step: &Step) -> Vec<(&'static str, u64)> {
    match step {
        Step::Start { revision, number } => vec![("revision", *revision), ("number", *number)],
        Step::PutUint { tag, value } => vec![("tag", *tag), ("value", *value)],
        Step::PutInt { tag, value } => vec![("tag", *tag), ("value", *value as u64)],
        Step::PutOctets { tag, .. } | Step::Open { tag } => vec![("tag", *tag)],
        Step::Close | Step::Finish => vec![],
    }
}

pub fn hex(octets: &[u8]) -> String {
    octets.iter().map(|octet| format!("{octet:02x}")).collect()
}

fn put_in_front(out: &mut [u8], octets: &[u8]) -> Vec<u64> {
    out[..octets.len()].copy_from_slice(octets);
    vec![octets.len() as u64]
}

/// What the check says of a built message: so many fields, so deep, and short.
fn built_results(built: &Built, out: &mut [u8]) -> Vec<u64> {
    let message = built.message();
    let start = out.len() - message.len();
    out[start..].copy_from_slice(&message);
    checked((message::count(&built.fields), message::depth(&built.fields), true))
}

fn pair((first, second): (u64, u64)) -> Vec<u64> {
    vec![first, second]
}

fn checked((fields, depth, short): (u64, u64, bool)) -> Vec<u64> {
    vec![fields, depth, u64::from(short)]
}

fn found(found: Found) -> Vec<u64> {
    vec![found.kind, found.value, found.signed_value as u64, found.start, found.length]
}

fn tibmsg_field(field: tibmsg::Field) -> Vec<u64> {
    let (hinted, hint_type, hint) = match field.hint {
        Some(hint) => (1, u64::from(hint.kind), hint.number),
        None => (0, 0, 0),
    };
    let mut results = parts(field.name, field.kind, field.data);
    results.extend([hinted, hint_type, hint, field.real_bits]);
    results
}

fn tibrv_field(field: tibrv::Field) -> Vec<u64> {
    parts(field.name, field.kind, field.data)
}

fn qform_field(field: qform::Field) -> Vec<u64> {
    vec![u64::from(field.fid), u64::from(field.kind), field.data.start as u64, field.data.length as u64]
}

/// What both Tib entries answer of a field: where its name stands, its type, and where its data stand.
fn parts(name: Span, kind: u8, data: Span) -> Vec<u64> {
    vec![name.start as u64, name.length as u64, u64::from(kind), data.start as u64, data.length as u64]
}
