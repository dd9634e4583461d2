//! The kinds of the writer's accepted answers, and the causes for which it refuses a state.

use crate::call::Writer;
use crate::oracle::table::{load, Kind};
use crate::oracle::writer::{Fault, State, Step, MOST_OPEN};
use crate::oracle::MESSAGE_LIMIT;

/// The causes in the order of their numbers.
pub const FAULTS: [(Fault, &str); 11] = [
    (Fault::ArrayLength, "array"),
    (Fault::OtherBuffer, "other buffer"),
    (Fault::Length, "length"),
    (Fault::Start, "start"),
    (Fault::Opened, "open fields"),
    (Fault::Revision, "revision"),
    (Fault::RisingMarks, "rising marks"),
    (Fault::MarkBelow, "mark below"),
    (Fault::MarkBeyond, "mark beyond"),
    (Fault::Number, "number"),
    (Fault::Tag, "tag"),
];

/// Whether an entry can refuse a state for a cause.
pub fn refuses_for(entry: &str, fault: Fault) -> bool {
    match entry {
        "put_uint" | "put_int" | "put_octets" | "close" => true,
        "open" | "finish" => fault != Fault::OtherBuffer,
        "start" => fault == Fault::ArrayLength,
        _ => false,
    }
}

const START: [&str; 4] = ["revision 1", "revision 2", "no buffer", "largest buffer"];
const FINISH: [&str; 3] = ["no octets", "some octets", "full buffer"];
/// How tags and lengths are written: in the control octet, on one more or on two more. More octets for a length never fit.
const FORMS: usize = 3;

/// All kinds of an entry are wanted.
pub fn kinds(entry: &str) -> usize {
    match entry {
        "start" => START.len(),
        "put_uint" | "put_int" => 9 * FORMS,
        "put_octets" => 2 * FORMS * FORMS,
        "open" => 2 * MOST_OPEN,
        "close" => 3 * FORMS * FORMS,
        _ => FINISH.len(),
    }
}

/// Which kind an accepted answer is, where the state had the words `after` then.
pub fn kind(on: &Writer, step: &Step, after: &[u64]) -> usize {
    let before = State::of(&on.state);
    let (Some(before), Some(after)) = (before, State::of(after)) else {
        unreachable!("an accepted state has so many words");
    };
    let level = before.opened as usize;
    let stored = before.start.wrapping_sub(after.start) as usize;
    match step {
        Step::Start { revision, .. } => match on.room {
            0 => 2,
            MESSAGE_LIMIT => 3,
            _ => *revision as usize - 1,
        },
        Step::PutUint { tag, .. } | Step::PutInt { tag, .. } => {
            let form = tag_form(*tag);
            (stored - form - 1) * FORMS + form
        }
        Step::PutOctets { tag, octets } => {
            let meaning = load(&on.table).map(|table| table.meaning(before.numbers[level] as u8, *tag as u16).0);
            let text = usize::from(meaning == Ok(Kind::Text));
            (text * FORMS + length_form(octets.len() as u64)) * FORMS + tag_form(*tag)
        }
        Step::Open { .. } => 2 * level + usize::from(before.masks[level] != after.masks[level]),
        Step::Close => {
            let which = usize::from(level > 1) + usize::from(level == MOST_OPEN);
            let length = before.marks[level - 1] - before.start;
            (which * FORMS + length_form(length)) * FORMS + tag_form(before.tags[level - 1])
        }
        Step::Finish => usize::from(before.start < before.length) + usize::from(before.start == 0 && before.length > 0),
    }
}

pub fn kind_name(entry: &str, index: usize) -> String {
    let (rest, form) = (index / FORMS, index % FORMS);
    match entry {
        "start" => START[index].to_string(),
        "put_uint" | "put_int" => format!("{rest} octets tag+{form}"),
        "put_octets" => format!("{} length+{} tag+{form}", ["string", "text"][rest / FORMS], rest % FORMS),
        "open" => format!("level {}{}", 1 + index / 2, ["", " single"][index % 2]),
        "close" => format!("{} length+{} tag+{form}", ["outermost", "inner", "innermost"][rest / FORMS], rest % FORMS),
        _ => FINISH[index].to_string(),
    }
}

fn tag_form(tag: u64) -> usize {
    usize::from(tag > 13) + usize::from(tag > 255)
}

fn length_form(length: u64) -> usize {
    usize::from(length > 11) + usize::from(length > 255)
}
