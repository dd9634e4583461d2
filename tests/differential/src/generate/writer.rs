//! Runs of the writer's calls. Each call has the state that the oracle says the calls before it left. A run that ends with a finished
//! message is built once more by calls in a row, and the message is read.

use super::{forms, hproto, tables, texts, trees, writer_states};
use crate::call::{Built, Call, Octets, Writer};
use crate::oracle::message::{read, Field, Value};
use crate::oracle::shorten::shortest;
use crate::oracle::table::{Entry, Kind, Table};
use crate::oracle::writer::{take, State, Step, MOST_OPEN, STATE_WORDS};
use crate::oracle::MESSAGE_LIMIT;
use crate::rng::Rng;
use std::rc::Rc;

/// The steps that put fields, the last one first.
pub fn steps(fields: &[Field]) -> Vec<Step> {
    fields.iter().rev().flat_map(field_steps).collect()
}

fn field_steps(field: &Field) -> Vec<Step> {
    let tag = u64::from(field.tag);
    match &field.value {
        Value::Uint(value) => vec![Step::PutUint { tag, value: *value }],
        Value::Int(value) => vec![Step::PutInt { tag, value: *value }],
        Value::Raw(octets) | Value::String(octets) | Value::Text(octets) => {
            vec![Step::PutOctets { tag, octets: octets[..].into() }]
        }
        Value::Message(inner) => [vec![Step::Open { tag }], steps(inner), vec![Step::Close]].concat(),
    }
}

/// The calls of a run so far, and what they left.
pub struct Run {
    pub table: Octets,
    pub words: Vec<u64>,
    buffer: Vec<u8>,
    pub calls: Vec<Call>,
    /// For each level the fields put so far, the last one put first; none if the run did not begin with start.
    given: Option<Vec<Vec<Field>>>,
}

impl Run {
    pub fn new(table: &[u8], words: Vec<u64>, room: usize) -> Run {
        Run { table: table.into(), words, buffer: vec![0; room], calls: Vec::new(), given: None }
    }

    /// The call of a step. Finish takes no table, and open and finish take no buffer.
    fn call(&self, step: &Step) -> Call {
        let table = if *step == Step::Finish { Rc::new([]) } else { self.table.clone() };
        let room = if matches!(step, Step::Open { .. } | Step::Finish) { 0 } else { self.buffer.len() };
        Call::Write { on: Writer { table, state: self.words[..].into(), room }, step: step.clone() }
    }

    /// Makes the call of a step, and answers whether it is accepted.
    pub fn take(&mut self, step: &Step) -> bool {
        self.calls.push(self.call(step));
        let accepted = take(step, &self.table, &mut self.words, &mut self.buffer).is_ok();
        if accepted {
            self.give(step);
        }
        accepted
    }

    /// Keeps what an accepted step gave.
    fn give(&mut self, step: &Step) {
        if let Step::Start { .. } = step {
            self.given = Some(vec![vec![]]);
        }
        let Some(levels) = &mut self.given else {
            return;
        };
        let (tag, value) = match step {
            Step::PutUint { tag, value } => (*tag, Value::Uint(*value)),
            Step::PutInt { tag, value } => (*tag, Value::Int(*value)),
            Step::PutOctets { tag, octets } if is_text_field(&self.table, &self.words, *tag) => {
                (*tag, Value::Text(octets.to_vec()))
            }
            Step::PutOctets { tag, octets } => (*tag, Value::String(octets.to_vec())),
            Step::Close => {
                let inner = levels.pop().expect("a field is open");
                let state = State::of(&self.words).expect("a sound state");
                (state.tags[state.opened as usize], Value::Message(inner))
            }
            Step::Open { .. } => return levels.push(vec![]),
            Step::Start { .. } | Step::Finish => return,
        };
        levels.last_mut().expect("the outermost message").insert(0, trees::field(tag as u16, value));
    }

    /// The fields of a finished message, and its octets.
    pub fn finished(&self) -> Option<(&[Field], &[u8])> {
        let state = State::of(&self.words)?;
        match &self.given.as_ref()?[..] {
            [fields] => Some((fields, &self.buffer[state.start as usize..])),
            _ => None,
        }
    }

    /// The finished message built in a row, and calls that read it.
    fn read_back(&mut self, rng: &mut Rng) {
        let Some(state) = State::of(&self.words) else {
            return;
        };
        let Some((fields, message)) = self.finished() else {
            return;
        };
        let (table, revision, number) = (self.table.clone(), state.revision, state.numbers[0]);
        assert_eq!(read(&table, revision, number, message).as_deref(), Ok(fields), "the oracle reads what it wrote");
        let reads = hproto::calls(rng, &table, revision, number, message);
        let built = Built { table, revision, number, fields: fields.into(), room: self.buffer.len() };
        self.calls.push(Call::Build(built));
        self.calls.extend(reads);
    }
}

/// Whether a tag is text in the innermost message under way.
fn is_text_field(table: &[u8], words: &[u64], tag: u64) -> bool {
    let state = State::of(words).expect("a sound state");
    tables::loaded(table).meaning(state.numbers[state.opened as usize] as u8, tag as u16).0 == Kind::Text
}

/// A whole run that puts these fields, with so much room.
pub fn whole(rng: &mut Rng, table: &[u8], revision: u64, number: u64, fields: &[Field], room: usize) -> Vec<Call> {
    let mut run = Run::new(table, writer_states::junk(rng, STATE_WORDS), room);
    run.take(&Step::Start { revision, number });
    for step in steps(fields) {
        run.take(&step);
    }
    if run.take(&Step::Finish) {
        run.read_back(rng);
    }
    run.calls
}

pub fn random(rng: &mut Rng) -> Vec<Call> {
    match rng.below(300) {
        0 => large(rng),
        1..=24 => from_tree(rng),
        _ => planned(rng),
    }
}

/// The fields of a tree that its table has, under a revision and number that may be other ones.
fn from_tree(rng: &mut Rng) -> Vec<Call> {
    let table = tables::good(rng);
    let revision = rng.pick(&[1, 2]);
    let mut fields = hproto::good_tree(rng, &tables::loaded(&table), revision, 0);
    drop_raw(&mut fields);
    let need = shortest(&fields).len();
    let room = room(rng, need);
    whole(rng, &table, revision, 0, &fields, room)
}

fn drop_raw(fields: &mut Vec<Field>) {
    fields.retain(|field| field.value.kind() != Kind::Raw);
    for field in fields {
        if let Value::Message(inner) = &mut field.value {
            drop_raw(inner);
        }
    }
}

/// Messages around the limit of length: a string that leaves a few octets, in open fields, then small fields. Each control part takes a
/// few octets more, so that a close or a put is the last that fits.
fn large(rng: &mut Rng) -> Vec<Call> {
    let room = rng.pick(&[MESSAGE_LIMIT, MESSAGE_LIMIT, MESSAGE_LIMIT - 1, MESSAGE_LIMIT - 300, MESSAGE_LIMIT + 1]);
    let mut run = Run::new(forms::table(), writer_states::junk(rng, STATE_WORDS), room);
    run.take(&Step::Start { revision: 2, number: 0 });
    let opened = rng.below(MOST_OPEN + 1);
    for _ in 0..opened {
        run.take(&Step::Open { tag: 1 });
    }
    let left = rng.from_to(0, 3 * opened + 4);
    let octets = vec![b'x'; room - 3 - left];
    run.take(&Step::PutOctets { tag: rng.pick(&[4, 5]), octets: octets.into() });
    for _ in 0..opened {
        if rng.chance(20) {
            run.take(&Step::PutUint { tag: 2, value: rng.number() });
        }
        run.take(&Step::Close);
    }
    run.take(&Step::PutInt { tag: 3, value: trees::signed(rng) });
    if run.take(&Step::Finish) {
        run.read_back(rng);
    }
    run.calls
}

/// A run by a plan that was made with all the room that there may be, with other room, from start or from some other sound state.
fn planned(rng: &mut Rng) -> Vec<Call> {
    let table = match rng.below(10) {
        0..=2 => hproto::self_nested_table(rng),
        _ => tables::good(rng),
    };
    let start = some_start(rng, &tables::loaded(&table));
    let (steps, need) = plan(rng, &table, &start);
    let mut run = if rng.chance(12) {
        let state = writer_states::good(rng, &tables::loaded(&table));
        Run::new(&table, state.words(), state.length as usize)
    } else {
        let length = if rng.chance(2) { rng.pick(&[0, 1, 33, 35, 40]) } else { STATE_WORDS };
        let room = room(rng, need);
        let mut run = Run::new(&table, writer_states::junk(rng, length), room);
        run.take(&start);
        run
    };
    follow(rng, &mut run, &steps);
    run.calls
}

/// Just enough room for so many octets, or another size.
fn room(rng: &mut Rng, need: usize) -> usize {
    match rng.below(400) {
        0 => MESSAGE_LIMIT,
        1 => MESSAGE_LIMIT + rng.from_to(1, 3),
        2..=179 => need,
        180..=239 => need.saturating_sub(1),
        240..=319 => rng.below(need + 1),
        320..=329 => 0,
        _ => need + rng.below(40),
    }
}

/// So many refused steps one after the other end a run: start refused its state, or the buffer is full.
const PATIENCE: usize = 6;

/// Takes the steps, with a damaged call here and there, and reads what is finished.
fn follow(rng: &mut Rng, run: &mut Run, steps: &[Step]) {
    let mut refused = 0;
    for step in steps {
        if rng.chance(8) {
            let hurt = writer_states::hurt_call(rng, run.call(step));
            run.calls.push(hurt);
        }
        if rng.below(150) == 0 {
            run.table = tables::good(rng).into();
            run.given = None;
        }
        refused = if run.take(step) { 0 } else { refused + 1 };
        if refused > PATIENCE {
            return;
        }
        if *step == Step::Finish && refused == 0 {
            run.read_back(rng);
        }
    }
}

/// The first step, mostly a good one with a message number that the table has.
fn some_start(rng: &mut Rng, table: &Table) -> Step {
    let number = match table.entries.is_empty() || rng.chance(10) {
        true => rng.below(16) as u64,
        false => u64::from(rng.pick(&table.entries).message),
    };
    let number = if rng.chance(1) { rng.pick(&[16, 255, 256, 1 << 32, u64::MAX]) } else { number };
    let revision = if rng.chance(1) { rng.pick(&hproto::BAD_REVISIONS) } else { rng.pick(&[1, 2, 2]) };
    Step::Start { revision, number }
}

/// How often, of 100, the next step opens a field, closes one, or is one that the table may not allow.
struct Style {
    open: usize,
    close: usize,
    silly: usize,
}

impl Style {
    fn random(rng: &mut Rng) -> Style {
        Style { open: rng.pick(&[0, 15, 40, 85]), close: rng.pick(&[5, 20, 40]), silly: rng.pick(&[0, 0, 5, 15, 100]) }
    }
}

/// The steps of a run with all the room that there may be, and how many octets they store.
fn plan(rng: &mut Rng, table: &[u8], start: &Step) -> (Vec<Step>, usize) {
    let mut run = Run::new(table, vec![0; STATE_WORDS], MESSAGE_LIMIT);
    let loaded = tables::loaded(table);
    let style = Style::random(rng);
    run.take(start);
    let mut steps = Vec::new();
    for _ in 0..rng.pick(&[1, 4, 10, 20, 40]) {
        let step = next(rng, &loaded, &run.words, &style);
        run.take(&step);
        steps.push(step);
    }
    while run.words[2] > 0 && rng.chance(97) {
        run.take(&Step::Close);
        steps.push(Step::Close);
    }
    steps.push(Step::Finish);
    (steps, (run.words[0] - run.words[1]) as usize)
}

/// A step that the innermost message under way allows, or any.
fn next(rng: &mut Rng, table: &Table, words: &[u64], style: &Style) -> Step {
    let state = State::of(words).expect("so many words");
    let here = allowed(rng, table, &state);
    let messages: Vec<Entry> = here.iter().filter(|entry| entry.kind == Kind::Message).copied().collect();
    if rng.chance(style.silly) {
        return silly(rng, table);
    }
    if state.opened > 0 && (here.is_empty() || rng.chance(style.close)) {
        return Step::Close;
    }
    if here.is_empty() {
        return silly(rng, table);
    }
    let entry = if messages.is_empty() || !rng.chance(style.open) { rng.pick(&here) } else { rng.pick(&messages) };
    put(rng, &entry)
}

/// The entries of the innermost message under way, now and then also one that would be too deep or a repeat.
fn allowed(rng: &mut Rng, table: &Table, state: &State) -> Vec<Entry> {
    let level = state.opened as usize;
    let mut here = Vec::new();
    for (order, entry) in table.entries.iter().enumerate() {
        let too_deep = level == MOST_OPEN && entry.kind == Kind::Message;
        let repeat = entry.single && state.masks[level] >> order & 1 == 1;
        if u64::from(entry.message) == state.numbers[level] && (!too_deep && !repeat || rng.chance(10)) {
            here.push(*entry);
        }
    }
    here
}

/// A step that puts or opens a field of an entry, with a good value but for some texts.
fn put(rng: &mut Rng, entry: &Entry) -> Step {
    let tag = u64::from(entry.tag);
    let octets = match entry.kind {
        Kind::Uint => return Step::PutUint { tag, value: rng.number() },
        Kind::Int => return Step::PutInt { tag, value: trees::signed(rng) },
        Kind::Message => return Step::Open { tag },
        Kind::Text if rng.chance(4) => texts::bad(rng),
        Kind::Text => texts::good(rng),
        _ => trees::some_octets(rng),
    };
    Step::PutOctets { tag, octets: octets.into() }
}

/// Any step with any tag.
pub fn silly(rng: &mut Rng, table: &Table) -> Step {
    let tag = match rng.below(10) {
        0..=5 if !table.entries.is_empty() => u64::from(rng.pick(&table.entries).tag),
        6 => rng.pick(&[65_535, 65_536, 1 << 32, u64::MAX]),
        7 => rng.pick(&[1 << 16, 1 << 32, 1 << 63]) + u64::from(tables::tag(rng)),
        _ => u64::from(tables::tag(rng)),
    };
    match rng.below(20) {
        0..=3 => Step::PutUint { tag, value: rng.number() },
        4..=7 => Step::PutInt { tag, value: trees::signed(rng) },
        8..=11 => Step::PutOctets { tag, octets: texts::good(rng).into() },
        12..=15 => Step::Open { tag },
        16..=17 => Step::Close,
        18 => Step::Finish,
        _ => some_start(rng, table),
    }
}
