//! Cases as files in the layout that the fuzz harness takes apart:
//!
//! entry (1 octet), revision (2), number (2), first word (2), second word (2), table length (2), table, and the rest is the message.
//!
//! For QForm the dictionary stands in the place of the table. The words are the tag and k of lookup, k of a Tib or QForm field,
//! hinted and the hint of fractions and decimals (the real is the message's first eight octets), and the second one is the room for
//! written octets: from ff00 on the message's length and so many more.
//!
//! For the writer the second word is the length of the buffer: from ff00 on the length that the state says and so many more, from ff80
//! on 65,472 and so many more. In the place of the message stand the count of words of the state (1 octet), the words (8 octets each),
//! and, for a put and for open, the tag (8) and then the value (8) or the octets. For a built message the steps stand there: each is an
//! octet that names it, the tag (2), and the value (8), or a length (2) and so many octets.

use super::writer::steps;
use crate::call::{Built, Call, Hproto, Qform, Writer};
use crate::oracle::writer::Step;

/// The octets of a call, or none if the layout cannot hold it.
pub fn octets(call: &Call) -> Option<Vec<u8>> {
    let (on, words, message) = parts(call)?;
    let (revision, number, table) = match on {
        On::Nothing => (0, 0, &[][..]),
        On::Hproto(on) => (on.revision, on.number, &on.table[..]),
        On::Qform(on) => (0, 0, &on.dictionary[..]),
        On::Writer(on, Step::Start { revision, number }) => (*revision, *number, &on.table[..]),
        On::Writer(on, _) => (0, 0, &on.table[..]),
        On::Built(on) => (on.revision, on.number, &on.table[..]),
    };
    let mut octets = vec![call.entry() as u8];
    octets.extend(word(revision)?);
    octets.extend(word(number)?);
    octets.extend(word(words.0)?);
    octets.extend(word(words.1)?);
    octets.extend(word(table.len() as u64)?);
    octets.extend(table);
    octets.extend(message);
    Some(octets)
}

/// What a call takes beside its message.
enum On<'a> {
    Nothing,
    Hproto(&'a Hproto),
    Qform(&'a Qform),
    Writer(&'a Writer, &'a Step),
    Built(&'a Built),
}

/// What the call is on; its words, and the octets that come last.
type Parts<'a> = (On<'a>, (u64, u64), Vec<u8>);

fn parts(call: &Call) -> Option<Parts<'_>> {
    Some(match call {
        Call::Check(on) => (On::Hproto(on), (0, 0), on.message.to_vec()),
        Call::Shorten { on, room } => (On::Hproto(on), (0, room_word(*room, on.message.len())), on.message.to_vec()),
        Call::Lookup { on, tag, k } => (On::Hproto(on), (*tag, *k), on.message.to_vec()),
        Call::LookupLast { on, tag } => (On::Hproto(on), (*tag, 0), on.message.to_vec()),
        Call::FrameRead { buffer } => (On::Nothing, (0, 0), buffer.to_vec()),
        Call::FrameWrite { message, room } => (On::Nothing, (0, room_word(*room, message.len())), message.to_vec()),
        Call::TibmsgCheck { message } | Call::TibrvCheck { message } => (On::Nothing, (0, 0), message.to_vec()),
        Call::TibmsgField { message, k } | Call::TibrvField { message, k } => (On::Nothing, (*k, 0), message.to_vec()),
        Call::QformCheck(on) => (On::Qform(on), (0, 0), on.message.to_vec()),
        Call::QformField { on, k } => (On::Qform(on), (*k, 0), on.message.to_vec()),
        Call::Fractions { bits, hinted, hint } | Call::Decimals { bits, hinted, hint } => {
            (On::Nothing, (*hinted, *hint), bits.to_be_bytes().to_vec())
        }
        Call::Write { on, step } => (On::Writer(on, step), (0, buffer_word(on.room, &on.state)?), written(on, step)?),
        Call::Build(on) => {
            let octets: Option<Vec<Vec<u8>>> = steps(&on.fields).iter().map(step_octets).collect();
            (On::Built(on), (0, buffer_word(on.room, &[])?), octets?.concat())
        }
        Call::Show { .. } => return None,
    })
}

fn room_word(room: usize, length: usize) -> u64 {
    match room.checked_sub(length) {
        Some(more @ 0..=0xff) => 0xff00 + more as u64,
        _ => room as u64,
    }
}

/// The word for the length of a buffer, where the state has these words.
fn buffer_word(room: usize, words: &[u64]) -> Option<u64> {
    match room {
        _ if words.first() == Some(&(room as u64)) => Some(0xff00),
        0..=0xfeff => Some(room as u64),
        65_472..=65_599 => Some(0xff80 + (room - 65_472) as u64),
        _ => None,
    }
}

/// What stands in the place of the message for a call of the writer.
fn written(on: &Writer, step: &Step) -> Option<Vec<u8>> {
    let mut octets = vec![u8::try_from(on.state.len()).ok()?];
    octets.extend(on.state.iter().flat_map(|word| word.to_be_bytes()));
    match step {
        Step::PutUint { tag, value } => octets.extend([*tag, *value].map(u64::to_be_bytes).concat()),
        Step::PutInt { tag, value } => octets.extend([*tag, *value as u64].map(u64::to_be_bytes).concat()),
        Step::PutOctets { tag, octets: given } => octets.extend([&tag.to_be_bytes(), &given[..]].concat()),
        Step::Open { tag } => octets.extend(tag.to_be_bytes()),
        Step::Start { .. } | Step::Close | Step::Finish => {}
    }
    Some(octets)
}

/// A step of a built message.
fn step_octets(step: &Step) -> Option<Vec<u8>> {
    Some(match step {
        Step::PutUint { tag, value } => [&[0][..], &word(*tag)?, &value.to_be_bytes()].concat(),
        Step::PutInt { tag, value } => [&[1][..], &word(*tag)?, &value.to_be_bytes()].concat(),
        Step::PutOctets { tag, octets } => [&[2][..], &word(*tag)?, &word(octets.len() as u64)?, octets].concat(),
        Step::Open { tag } => [&[3][..], &word(*tag)?].concat(),
        Step::Close => vec![4],
        Step::Start { .. } | Step::Finish => return None,
    })
}

fn word(number: u64) -> Option<[u8; 2]> {
    u16::try_from(number).ok().map(u16::to_be_bytes)
}
