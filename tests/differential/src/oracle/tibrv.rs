//! The reader for TibrvMsg.

use super::tib::{Parts, Span};
use super::{
    big_endian, refuse, Answer, ABSENT, CUT, DEPTH_LIMIT, MAGIC, MESSAGE_LIMIT, PAST_THE_END, SIZE, TOO_DEEP, TOO_LONG,
    TYPE_SIZE_OR_HINT,
};

const HEADER: usize = 8;
const MAGIC_OCTETS: [u8; 4] = [0x99, 0x55, 0xee, 0xaa];
const MESSAGE: u8 = 1;

/// A field; that of type 1 has the fields of its message inside it.
#[derive(Clone, Debug, PartialEq, Eq)]
pub struct Field {
    pub name: Span,
    pub kind: u8,
    pub data: Span,
    pub inside: Option<Vec<Field>>,
}

/// The fields of a TibrvMsg.
pub fn read(message: &[u8]) -> Answer<Vec<Field>> {
    if message.len() > MESSAGE_LIMIT {
        return refuse(TOO_LONG, 0);
    }
    let whole = Span { start: 0, length: message.len() };
    header(message, whole)?;
    if big_endian(&message[..4]) != message.len() as u64 {
        return refuse(SIZE, 0);
    }
    fields(message, whole, 1)
}

pub fn check(message: &[u8]) -> Answer<(u64, u64)> {
    let fields = read(message)?;
    Ok((count(&fields), depth(&fields)))
}

pub fn kth(message: &[u8], k: u64) -> Answer<Field> {
    let fields = read(message)?;
    match usize::try_from(k).ok().and_then(|k| fields.get(k)) {
        Some(field) => Ok(field.clone()),
        None => refuse(ABSENT, 0),
    }
}

fn count(fields: &[Field]) -> u64 {
    let inside = |field: &Field| field.inside.as_deref().map_or(0, count);
    fields.iter().map(|field| 1 + inside(field)).sum()
}

fn depth(fields: &[Field]) -> u64 {
    let below = |field: &Field| field.inside.as_deref().map_or(0, depth);
    1 + fields.iter().map(below).max().unwrap_or(0)
}

/// The header of the message at `span`: cut, then the magic number.
fn header(octets: &[u8], span: Span) -> Answer<()> {
    if span.length < HEADER {
        return refuse(CUT, span.start);
    }
    if span.of(octets)[4..8] != MAGIC_OCTETS {
        return refuse(MAGIC, span.start);
    }
    Ok(())
}

fn fields(octets: &[u8], message: Span, depth: u64) -> Answer<Vec<Field>> {
    let end = message.start + message.length;
    let mut fields = Vec::new();
    let mut place = message.start + HEADER;
    while place < end {
        let mut parts = Parts { octets, field: place, place, end };
        fields.push(field(&mut parts, depth)?);
        place = parts.place;
    }
    Ok(fields)
}

fn field(parts: &mut Parts, depth: u64) -> Answer<Field> {
    let name = parts.name()?;
    let kind = parts.take_one()?;
    let size = data_size(parts, kind)?;
    let is_message = kind == MESSAGE;
    // The message of a field of type 1 starts at the four size octets.
    let (start, length) = match is_message {
        true => (parts.place - 4, size + 4),
        false => (parts.place, size),
    };
    if size > parts.left() as u64 {
        return refuse(PAST_THE_END, parts.field);
    }
    parts.place += size as usize;
    let data = Span { start, length: length as usize };
    let inside = match is_message {
        true => Some(inner(parts, data, depth + 1)?),
        false => None,
    };
    Ok(Field { name, kind, data, inside })
}

/// How many octets follow the size octets.
fn data_size(parts: &mut Parts, kind: u8) -> Answer<u64> {
    let bad = refuse(TYPE_SIZE_OR_HINT, parts.field);
    let marker = parts.take_one()?;
    let (counted, own) = match marker {
        0x00..=0x78 => (u64::from(marker), 1),
        0x79 => (big_endian(parts.take(2)?), 2),
        0x7a => (big_endian(parts.take(4)?), 4),
        _ => return bad,
    };
    if counted < own || (kind == MESSAGE && marker != 0x7a) {
        return bad;
    }
    Ok(counted - own)
}

fn inner(parts: &Parts, message: Span, depth: u64) -> Answer<Vec<Field>> {
    if depth > DEPTH_LIMIT {
        return refuse(TOO_DEEP, parts.field);
    }
    header(parts.octets, message)?;
    fields(parts.octets, message, depth)
}
