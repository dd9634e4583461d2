//! The reader for TibMsg.

use super::real::widen;
use super::tib::{Parts, Span};
use super::{big_endian, refuse, Answer, ABSENT, CUT, MAGIC, MESSAGE_LIMIT, PAST_THE_END, SIZE, TOO_LONG, TYPE_SIZE_OR_HINT};

const HEADER: usize = 9;
const MAGIC_AND_VERSION: [u8; 5] = [0xce, 0x13, 0xaa, 0x1f, 1];
const REAL: u8 = 7;
const ARRAY: u8 = 8;
const PARTIAL: u8 = 9;

#[derive(Clone, Copy, Debug, PartialEq, Eq)]
pub struct Hint {
    pub kind: u8,
    pub number: u64,
}

#[derive(Clone, Copy, Debug, PartialEq, Eq)]
pub struct Field {
    pub name: Span,
    pub kind: u8,
    pub data: Span,
    pub hint: Option<Hint>,
    pub real_bits: u64,
}

/// The fields of a TibMsg.
pub fn read(message: &[u8]) -> Answer<Vec<Field>> {
    header(message)?;
    let mut fields = Vec::new();
    let mut place = HEADER;
    while place < message.len() {
        let mut parts = Parts { octets: message, field: place, place, end: message.len() };
        fields.push(field(&mut parts)?);
        place = parts.place;
    }
    Ok(fields)
}

pub fn check(message: &[u8]) -> Answer<(u64, u64)> {
    Ok((read(message)?.len() as u64, 1))
}

pub fn kth(message: &[u8], k: u64) -> Answer<Field> {
    let fields = read(message)?;
    match usize::try_from(k).ok().and_then(|k| fields.get(k)) {
        Some(field) => Ok(*field),
        None => refuse(ABSENT, 0),
    }
}

fn header(message: &[u8]) -> Answer<()> {
    if message.len() > MESSAGE_LIMIT {
        return refuse(TOO_LONG, 0);
    }
    if message.len() < HEADER {
        return refuse(CUT, 0);
    }
    if message[..5] != MAGIC_AND_VERSION {
        return refuse(MAGIC, 0);
    }
    if big_endian(&message[5..9]) != (message.len() - HEADER) as u64 {
        return refuse(SIZE, 0);
    }
    Ok(())
}

fn field(parts: &mut Parts) -> Answer<Field> {
    let name = parts.name()?;
    let type_octet = parts.take_one()?;
    let kind = type_octet % 16;
    let hinted = type_octet & 0x40 != 0;
    if !type_octet_is_good(kind, type_octet, hinted) {
        return refuse(TYPE_SIZE_OR_HINT, parts.field);
    }
    let size_octets = if type_octet & 0x80 != 0 { 4 } else { 1 };
    let size = big_endian(parts.take(size_octets)?);
    if !size_is_good(kind, size) {
        return refuse(TYPE_SIZE_OR_HINT, parts.field);
    }
    let data = data(parts, size)?;
    let hint = if hinted { Some(hint(parts, kind, size)?) } else { None };
    Ok(Field { name, kind, data, hint, real_bits: real_bits(kind, data.of(parts.octets)) })
}

fn type_octet_is_good(kind: u8, type_octet: u8, hinted: bool) -> bool {
    let needs_hint = kind == ARRAY || kind == PARTIAL;
    kind <= 10 && type_octet & 0x30 == 0 && (hinted || !needs_hint)
}

fn size_is_good(kind: u8, size: u64) -> bool {
    match kind {
        5 | 6 => matches!(size, 1 | 2 | 4 | 8),
        REAL => matches!(size, 4 | 8),
        _ => true,
    }
}

fn data(parts: &mut Parts, size: u64) -> Answer<Span> {
    if size > parts.left() as u64 {
        return refuse(PAST_THE_END, parts.field);
    }
    let data = Span { start: parts.place, length: size as usize };
    parts.place += data.length;
    Ok(data)
}

fn hint(parts: &mut Parts, kind: u8, data_size: u64) -> Answer<Hint> {
    let front = parts.take(2)?;
    let (first, second) = (front[0], front[1]);
    let is_power = matches!(second, 1 | 2 | 4 | 8);
    let good = match kind {
        PARTIAL => first == 6,
        ARRAY => (4..=7).contains(&first) && is_power && data_size.is_multiple_of(u64::from(second)),
        _ => (first == 5 || first == 6) && is_power,
    };
    if !good {
        return refuse(TYPE_SIZE_OR_HINT, parts.field);
    }
    let number = match kind {
        PARTIAL | ARRAY => u64::from(second),
        _ => big_endian(parts.take(usize::from(second))?),
    };
    Ok(Hint { kind: first, number })
}

fn real_bits(kind: u8, data: &[u8]) -> u64 {
    match (kind, data.len()) {
        (REAL, 4) => widen(big_endian(data) as u32),
        (REAL, _) => big_endian(data),
        _ => 0,
    }
}
