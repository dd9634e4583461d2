//! The writer.

use super::*;
use crate::call::Call;
use crate::generate::samples::WRITTEN;
use crate::generate::writer::{steps, Run};
use crate::generate::{self, writer_states};
use crate::oracle::message::{count, depth, read, Field, Value};
use crate::oracle::shorten::shortest;
use crate::oracle::writer::{fault, take, Fault, State, Step, STATE_WORDS};
use crate::rng::Rng;

/// A writer after start, with number 0 under revision 2.
struct Writer {
    table: Vec<u8>,
    words: Vec<u64>,
    buffer: Vec<u8>,
}

impl Writer {
    fn new(table: &str, room: usize) -> Writer {
        Writer::under(table, room, 2)
    }

    fn under(table: &str, room: usize, revision: u64) -> Writer {
        let mut writer = Writer { table: entries(table), words: vec![u64::MAX; STATE_WORDS], buffer: vec![0xee; room] };
        assert_eq!(writer.take(Step::Start { revision, number: 0 }), Ok(0));
        writer
    }

    fn take(&mut self, step: Step) -> Answer<u64> {
        take(&step, &self.table, &mut self.words, &mut self.buffer)
    }

    fn uint(&mut self, tag: u64, value: u64) -> Answer<u64> {
        self.take(Step::PutUint { tag, value })
    }

    fn int(&mut self, tag: u64, value: i64) -> Answer<u64> {
        self.take(Step::PutInt { tag, value })
    }

    fn octets(&mut self, tag: u64, octets: &[u8]) -> Answer<u64> {
        self.take(Step::PutOctets { tag, octets: octets.into() })
    }

    fn open(&mut self, tag: u64) -> Answer<u64> {
        self.take(Step::Open { tag })
    }

    fn close(&mut self) -> Answer<u64> {
        self.take(Step::Close)
    }

    /// The octets stored so far. The others are as they were.
    fn stored(&self) -> &[u8] {
        let (free, stored) = self.buffer.split_at(self.words[1] as usize);
        assert!(free.iter().all(|octet| *octet == 0xee));
        stored
    }
}

const UINT: &str = "0 c 1 0";
const INT: &str = "0 c 2 0";
const NESTED: &str = "0 1 5 0, 0 2 1 0";

#[test]
fn numbers_take_the_least_octets() {
    let uints: [(u64, &str); 6] =
        [(0, "c0"), (3, "c1 03"), (0x123, "c2 01 23"), (255, "c1 ff"), (256, "c2 01 00"), (u64::MAX, "c8 ff ff ff ff ff ff ff ff")];
    for (value, expected) in uints {
        let mut writer = Writer::new(UINT, 12);
        assert_eq!(writer.uint(12, value), Ok(0));
        assert_eq!(writer.stored(), octets(expected), "{value}");
    }
    let ints: [(i64, &str); 12] = [
        (0, "c0"),
        (-1, "c1 81"),
        (127, "c1 7f"),
        (128, "c2 00 80"),
        (-127, "c1 ff"),
        (-128, "c1 80"),
        (-129, "c2 80 81"),
        (-0x123_4567, "c4 81 23 45 67"),
        (-0xaaaa, "c3 80 aa aa"),
        (-0x8000, "c2 80 00"),
        (i64::MAX, "c8 7f ff ff ff ff ff ff ff"),
        (i64::MIN, "c8 80 00 00 00 00 00 00 00"),
    ];
    for (value, expected) in ints {
        let mut writer = Writer::new(INT, 12);
        assert_eq!(writer.int(12, value), Ok(0));
        assert_eq!(writer.stored(), octets(expected), "{value}");
    }
}

/// The person of document 002, whose fields are put in reverse.
#[test]
fn the_last_field_comes_first() {
    let mut writer = Writer::new("0 0 3 0, 0 1 3 0, 0 2 1 0", 20);
    assert_eq!(writer.uint(2, 1990), Ok(0));
    assert_eq!(writer.stored(), octets("22 07 c6"));
    assert_eq!(writer.octets(1, b"Doe"), Ok(0));
    assert_eq!(writer.stored(), octets("13 44 6f 65 22 07 c6"));
    assert_eq!(writer.octets(0, b"John"), Ok(0));
    assert_eq!(writer.stored(), octets("04 4a 6f 68 6e 13 44 6f 65 22 07 c6"));
    assert_eq!(writer.take(Step::Finish), Ok(8));
    // Finish ends nothing.
    assert_eq!(writer.uint(2, 0), Ok(0));
    assert_eq!(writer.take(Step::Finish), Ok(7));
}

#[test]
fn tags_and_lengths_at_the_limits_of_their_forms() {
    let tags = [(13u16, "d0"), (14, "e0 0e"), (255, "e0 ff"), (256, "f0 01 00"), (65_535, "f0 ff ff")];
    for (tag, expected) in tags {
        let mut writer = Writer::new(&format!("0 {tag:x} 3 0"), 4);
        assert_eq!(writer.octets(tag.into(), &[]), Ok(0));
        assert_eq!(writer.stored(), octets(expected));
    }
    let lengths = [(11, "0b"), (12, "0c 0c"), (255, "0c ff"), (256, "0d 01 00"), (65_533, "0d ff fd")];
    for (length, control) in lengths {
        let control = octets(control);
        let whole = length + control.len();
        let mut writer = Writer::new("0 0 3 0", whole);
        assert_eq!(writer.octets(0, &vec![7; length]), Ok(0));
        assert_eq!(writer.stored(), [control, vec![7; length]].concat());
        let mut less = Writer::new("0 0 3 0", whole - 1);
        assert_eq!(less.octets(0, &vec![7; length]), at(9, 0));
        assert!(less.stored().is_empty() && less.buffer[0] == 0xee);
    }
    let mut largest = Writer::new("0 0 3 0", 65_536);
    assert_eq!(largest.octets(0, &vec![7; 65_534]), at(9, 0));
    assert_eq!(largest.octets(0, &vec![7; 70_000]), at(9, 0));
}

/// The state of start, of an open, a put inside it and a close, by hand. Message 3 has tag 20 hex as message 9, single, which has tag 4 as
/// a single string.
#[test]
fn every_word_of_the_state() {
    let table = entries("9 5 1 0, 3 20 5 9 1, 9 4 3 0 1");
    let (mut words, mut buffer) = (vec![u64::MAX; STATE_WORDS], vec![0xee; 10]);
    let mut next = |step: Step, changes: &[(usize, u64)], expected: &mut Vec<u64>| {
        for (word, value) in changes {
            expected[*word] = *value;
        }
        assert_eq!(take(&step, &table, &mut words, &mut buffer), Ok(0), "{step:?}");
        assert_eq!(words, *expected, "{step:?}");
    };
    let mut expected = vec![0; STATE_WORDS];
    next(Step::Start { revision: 2, number: 3 }, &[(0, 10), (1, 10), (3, 2), (4, 3)], &mut expected);
    next(Step::Open { tag: 0x20 }, &[(2, 1), (5, 9), (12, 2), (20, 10), (27, 0x20)], &mut expected);
    next(Step::PutOctets { tag: 4, octets: b"ab"[..].into() }, &[(1, 7), (13, 4)], &mut expected);
    next(Step::PutUint { tag: 5, value: 0 }, &[(1, 6)], &mut expected);
    next(Step::Close, &[(1, 4), (2, 0)], &mut expected);
    assert_eq!(buffer, octets("ee ee ee ee e4 20 50 42 61 62"));
}

#[test]
fn a_nested_message() {
    let mut writer = Writer::new("0 1 5 1, 0 0 1 0, 1 0 1 0", 5);
    assert_eq!(writer.uint(0, 7), Ok(0));
    assert_eq!(writer.open(1), Ok(0));
    assert_eq!(writer.take(Step::Finish), at(12, 0));
    // The inner message has tag 0 only.
    assert_eq!(writer.uint(1, 0), at(8, 0));
    assert_eq!(writer.uint(0, 42), Ok(0));
    assert_eq!(writer.close(), Ok(0));
    assert_eq!(writer.stored(), octets("12 01 2a 01 07"));
    assert_eq!(writer.close(), at(11, 0));
    assert_eq!(writer.open(1), Ok(0));
    assert_eq!(writer.close(), at(9, 0));
}

#[test]
fn seven_fields_may_be_open() {
    let mut writer = Writer::new(NESTED, 7);
    for level in 1..=7 {
        assert_eq!(writer.open(1), Ok(0));
        assert_eq!(writer.words[2], level);
    }
    assert_eq!(writer.open(1), at(5, 0));
    assert_eq!(writer.open(2), at(8, 0));
    for _ in 1..=7 {
        assert_eq!(writer.close(), Ok(0));
    }
    assert_eq!(writer.stored(), octets("16 15 14 13 12 11 10"));
}

#[test]
fn tags_and_kinds() {
    let mut writer = Writer::new("0 1 1 0, 0 2 2 0, 0 3 3 0, 0 4 4 0, 0 5 5 0, 1 6 1 0", 50);
    for tag in [1, 2, 3, 4, 5, 6, 7, 65_537, 1 << 32 | 1, u64::MAX] {
        let allowed = |kinds: &[u64]| if kinds.contains(&tag) { Ok(0) } else { at(8, 0) };
        assert_eq!(writer.uint(tag, 1), allowed(&[1]));
        assert_eq!(writer.int(tag, 1), allowed(&[2]));
        assert_eq!(writer.octets(tag, b"a"), allowed(&[3, 4]));
        assert_eq!(writer.open(tag), allowed(&[5]));
        if tag == 5 {
            assert_eq!(writer.close(), Ok(0));
        }
    }
    assert_eq!(writer.octets(4, &[0xc0, 0x80]), at(7, 0));
    assert_eq!(writer.octets(4, &[0xf4, 0x8f, 0xbf, 0xbf]), Ok(0));
    assert_eq!(writer.octets(3, &[0xc0, 0x80]), Ok(0));
}

/// A single field may be put once into each message, and a message field that is single counts from its open on.
#[test]
fn single_fields() {
    let table = "0 1 5 0, 0 2 1 0 1, 0 3 5 0 1, 0 4 1 0 0, 0 5 4 0 1";
    let mut writer = Writer::new(table, 60);
    assert_eq!(writer.uint(2, 1), Ok(0));
    assert_eq!(writer.uint(2, 1), at(20, 0));
    assert_eq!(writer.open(1), Ok(0));
    assert_eq!(writer.uint(2, 1), Ok(0));
    assert_eq!(writer.open(3), Ok(0));
    assert_eq!(writer.close(), Ok(0));
    assert_eq!(writer.open(3), at(20, 0));
    assert_eq!(writer.close(), Ok(0));
    assert_eq!(writer.uint(2, 1), at(20, 0));
    assert_eq!(writer.open(3), Ok(0));
    // It was opened at the outermost level, and in it nothing is noted yet.
    assert_eq!((writer.words[12], writer.words[13]), (0b110, 0));
    assert_eq!([writer.uint(4, 0), writer.uint(4, 0)], [Ok(0); 2]);
    // What is refused is not noted.
    assert_eq!(writer.octets(5, &[0xff]), at(7, 0));
    assert_eq!(writer.octets(5, &[b'a'; 60]), at(9, 0));
    assert_eq!(writer.octets(5, b"a"), Ok(0));
    assert_eq!(writer.octets(5, &[0xff]), at(20, 0));
    let mut one = Writer::under(table, 60, 1);
    assert_eq!([one.uint(2, 1), one.uint(2, 1), one.open(3), one.close(), one.open(3)], [Ok(0); 5]);
    assert_eq!(one.words[12..20], [0; 8]);
}

#[test]
fn starts() {
    let table = entries(NESTED);
    let bad = [&table[..], &[1]].concat();
    let start = |table: &[u8], revision: u64, number: u64, room: usize, words: usize| {
        let mut state = vec![7; words];
        let answer = take(&Step::Start { revision, number }, table, &mut state, &mut vec![1; room]);
        assert!(answer.is_ok() || state.iter().all(|word| *word == 0));
        answer
    };
    assert_eq!(start(&table, 1, 15, 65_536, 34), Ok(0));
    assert_eq!(start(&bad, 0, 16, 65_537, 33), at(10, 0));
    assert_eq!(start(&bad, 0, 16, 65_537, 35), at(10, 0));
    assert_eq!(start(&bad, 0, 16, 65_537, 0), at(10, 0));
    assert_eq!(start(&bad, 0, 16, 65_537, 34), at(1, 0));
    assert_eq!(start(&bad, 0, 16, 65_536, 34), at(2, 16));
    assert_eq!(start(&table, 0, 16, 65_536, 34), at(2, 0));
    assert_eq!(start(&table, 257, 0, 0, 34), at(2, 0));
    assert_eq!(start(&table, 2, 16, 0, 34), at(2, 0));
    assert_eq!(start(&table, 2, u64::MAX, 0, 34), at(2, 0));
}

/// Two fields are open.
fn two_open() -> State {
    State {
        length: 50,
        start: 20,
        opened: 2,
        revision: 2,
        marks: [40, 30, 0, 0, 0, 0, 0],
        tags: [65_535, 9, 0, 0, 0, 0, 0],
        ..State::default()
    }
}

/// What is wrong with that state after one word is changed. The words by their places: 0 length, 1 start, 2 open fields, 3 revision,
/// 4 numbers, 12 masks, 20 marks, 27 tags.
fn changed(word: usize, value: u64) -> Option<Fault> {
    let mut words = two_open().words();
    words[word] = value;
    fault(&Step::Finish, &words, 0)
}

#[test]
fn sound_states() {
    let in_use = [(20, 50), (20, 30), (21, 20), (21, 40), (1, 30), (1, 0), (6, 15), (27, 0), (3, 1), (0, 65_536)];
    let not_in_use = [(7, 16), (11, u64::MAX), (19, 5), (22, 99), (26, u64::MAX), (29, 65_536), (33, u64::MAX)];
    let masks = [(12, u64::MAX), (14, 1 << 63)];
    for (word, value) in in_use.into_iter().chain(not_in_use).chain(masks) {
        assert_eq!(changed(word, value), None, "{word} {value}");
    }
}

#[test]
fn unsound_states() {
    let refused = [
        (0, 65_537, Fault::Length),
        (0, 19, Fault::Start),
        (1, 51, Fault::Start),
        (1, 31, Fault::MarkBelow),
        (2, 8, Fault::Opened),
        (2, u64::MAX, Fault::Opened),
        (3, 0, Fault::Revision),
        (3, 3, Fault::Revision),
        (3, 257, Fault::Revision),
        (4, 16, Fault::Number),
        (6, 16, Fault::Number),
        (20, 29, Fault::RisingMarks),
        (20, 51, Fault::MarkBeyond),
        (21, 41, Fault::RisingMarks),
        (21, 19, Fault::MarkBelow),
        (27, 65_536, Fault::Tag),
        (28, 1 << 32, Fault::Tag),
    ];
    for (word, value, expected) in refused {
        assert_eq!(changed(word, value), Some(expected), "{word} {value}");
    }
}

#[test]
fn arrays_and_buffers_of_other_lengths() {
    let words = two_open().words();
    assert_eq!(fault(&Step::Finish, &words[..33], 0), Some(Fault::ArrayLength));
    assert_eq!(fault(&Step::Finish, &[&words[..], &[0]].concat(), 0), Some(Fault::ArrayLength));
    assert_eq!(fault(&Step::Open { tag: 1 }, &words, 49), None);
    assert_eq!(fault(&Step::Close, &words, 49), Some(Fault::OtherBuffer));
    assert_eq!(fault(&Step::PutUint { tag: 1, value: 0 }, &words, 51), Some(Fault::OtherBuffer));
    assert_eq!(fault(&Step::Close, &words, 50), None);
}

/// Each call with all its faults, and with those of them left out that come first.
#[test]
fn the_order_of_refusals() {
    let good = entries("0 1 4 0 1, 0 2 5 0 1");
    let bad = [&good[..], &[9]].concat();
    let state = |unsound: bool, noted: u64, opened: u64, start: u64| {
        let numbers = [0; 8];
        let length = 30 + u64::from(unsound);
        State { length, start, opened, revision: 2, numbers, masks: [noted; 8], marks: [30; 7], ..State::default() }.words()
    };
    let answer = |step: &Step, table: &[u8], mut words: Vec<u64>| {
        let before = words.clone();
        let answer = take(step, table, &mut words, &mut [0; 30]);
        assert_eq!(words, before);
        answer
    };
    let put = |tag: u64| Step::PutOctets { tag, octets: vec![0xff; 31].into() };
    assert_eq!(answer(&put(2), &bad, state(true, 3, 0, 30)), at(10, 0));
    assert_eq!(answer(&put(2), &bad, state(false, 3, 0, 30)), at(2, 18));
    assert_eq!(answer(&put(2), &good, state(false, 3, 0, 30)), at(8, 0));
    assert_eq!(answer(&put(1), &good, state(false, 1, 0, 30)), at(20, 0));
    assert_eq!(answer(&put(1), &good, state(false, 2, 0, 30)), at(7, 0));
    let long = Step::PutOctets { tag: 1, octets: vec![b'a'; 29].into() };
    assert_eq!(answer(&long, &good, state(false, 2, 0, 30)), at(9, 0));
    let open = |tag: u64| Step::Open { tag };
    assert_eq!(answer(&open(1), &bad, state(false, 3, 8, 30)), at(10, 0));
    assert_eq!(answer(&open(1), &bad, state(false, 3, 7, 30)), at(2, 18));
    assert_eq!(answer(&open(1), &good, state(false, 3, 7, 30)), at(8, 0));
    assert_eq!(answer(&open(2), &good, state(false, 2, 7, 30)), at(20, 0));
    assert_eq!(answer(&open(2), &good, state(false, 1, 7, 30)), at(5, 0));
    assert_eq!(answer(&Step::Close, &bad, state(true, 0, 0, 0)), at(10, 0));
    assert_eq!(answer(&Step::Close, &bad, state(false, 0, 0, 0)), at(2, 18));
    assert_eq!(answer(&Step::Close, &good, state(false, 0, 0, 0)), at(11, 0));
    assert_eq!(answer(&Step::Close, &good, state(false, 0, 1, 1)), at(9, 0));
    assert_eq!(answer(&Step::Finish, &[], state(false, 0, 8, 30)), at(10, 0));
    assert_eq!(answer(&Step::Finish, &[], state(false, 0, 1, 30)), at(12, 0));
}

/// The samples of the documents that can be written, each from the fields that it is read as.
#[test]
fn samples_are_written() {
    for (table, message) in WRITTEN {
        let (table, message) = (entries(table), octets(message));
        let fields = read(&table, 2, 0, &message).unwrap();
        let mut run = Run::new(&table, vec![1; STATE_WORDS], message.len() + 2);
        assert!(run.take(&Step::Start { revision: 2, number: 0 }));
        assert!(steps(&fields).iter().all(|step| run.take(step)));
        assert_eq!(run.finished(), Some((&fields[..], &message[..])));
    }
}

/// The fields in the order in which they are put: the last one of a message first, and those of a nested one at its open.
#[test]
fn the_steps_of_fields() {
    let field = |tag: u16, value: Value| Field { tag, value, start: 0, length: 0 };
    let inner = vec![field(3, Value::Int(-1)), field(4, Value::Text(b"a".to_vec()))];
    let fields = [field(1, Value::Message(inner)), field(2, Value::Uint(5))];
    let octets = b"a"[..].into();
    let expected = [
        Step::PutUint { tag: 2, value: 5 },
        Step::Open { tag: 1 },
        Step::PutOctets { tag: 4, octets },
        Step::PutInt { tag: 3, value: -1 },
        Step::Close,
    ];
    assert_eq!(steps(&fields), expected);
}

/// What a run has finished reads as the fields put, the last one put first, and is short.
#[test]
fn runs_are_read_back() {
    let mut finished = 0;
    for case in 0..4_000 {
        for call in generate::writer::random(&mut Rng::new(3, case)) {
            let Call::Build(built) = call else {
                continue;
            };
            let (table, revision, number) = (&built.table, built.revision, built.number);
            let (mut words, mut buffer) = (vec![0; STATE_WORDS], vec![0; built.room]);
            let first = Step::Start { revision, number };
            for step in [vec![first], steps(&built.fields)].concat() {
                assert_eq!(take(&step, table, &mut words, &mut buffer), Ok(0), "case {case}");
            }
            let start = take(&Step::Finish, table, &mut words, &mut buffer).unwrap();
            let message = &buffer[start as usize..];
            assert_eq!(message, shortest(&built.fields), "case {case}");
            assert_eq!(read(table, revision, number, message).as_deref(), Ok(&built.fields[..]), "case {case}");
            let counts = (count(&built.fields), depth(&built.fields), true);
            assert_eq!(message::check(table, revision, number, message), Ok(counts), "case {case}");
            finished += 1;
        }
    }
    assert!(finished > 1_000);
}

/// The made-up states are sound, whatever stands in the slots that are not in use.
#[test]
fn made_up_states_are_sound() {
    for case in 0..20_000 {
        let mut rng = Rng::new(4, case);
        let table = generate::tables::good(&mut rng);
        let state = writer_states::good(&mut rng, &generate::tables::loaded(&table));
        assert_eq!(fault(&Step::Close, &state.words(), state.length as usize), None, "case {case}");
    }
}
