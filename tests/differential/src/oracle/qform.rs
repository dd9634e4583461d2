//! The dictionary of QForm and the reader for QForm.

use super::tib::Span;
use super::{
    big_endian, refuse, Answer, ABSENT, CUT, MAGIC, MESSAGE_LIMIT, NOT_IN_DICTIONARY, PAST_THE_END, SIZE, TABLE, TOO_LONG,
    TYPE_SIZE_OR_HINT,
};
use std::collections::BTreeMap;

pub const MOST_RECORDS: usize = 512;
/// A record is 02, a length of 5 on two octets, fid (2), type (1) and size (2).
pub const RECORD: usize = 8;
pub const LAST_FID: u16 = 16_383;
pub const LAST_TYPE: u8 = 21;
/// A real and one octet for its precision: always nine octets.
pub const GROCERY: u8 = 15;
pub const GROCERY_SIZE: u16 = 9;

const HEADER: usize = 8;
const MAGIC_NUMBER: [u8; 4] = [0x11, 0x11, 0x11, 0x12];
/// FIXED and PRIMITIVE, the two top bits of a FID. The others are the fid.
const FIXED: u16 = 0x8000;
const PRIMITIVE: u16 = 0x4000;

/// What the dictionary says of a fid.
#[derive(Clone, Copy, Debug, PartialEq, Eq)]
pub struct Entry {
    pub kind: u8,
    pub size: u16,
}

pub type Dictionary = BTreeMap<u16, Entry>;

#[derive(Clone, Copy, Debug, PartialEq, Eq)]
pub struct Field {
    pub fid: u16,
    pub kind: u8,
    pub data: Span,
}

/// Loads a dictionary. The first faulty record is refused with 2 at its start.
pub fn load(octets: &[u8]) -> Answer<Dictionary> {
    let mut dictionary = Dictionary::new();
    for (index, record) in octets.chunks(RECORD).enumerate() {
        let good = read_record(record).filter(|(fid, _)| index < MOST_RECORDS && !dictionary.contains_key(fid));
        let Some((fid, entry)) = good else {
            return refuse(TABLE, index * RECORD);
        };
        dictionary.insert(fid, entry);
    }
    Ok(dictionary)
}

/// What a record says, or none if it is cut or faulty by itself.
fn read_record(record: &[u8]) -> Option<(u16, Entry)> {
    let [2, 0, 5, fid_high, fid_low, kind, size_high, size_low] = *record else {
        return None;
    };
    let (fid, size) = (u16::from_be_bytes([fid_high, fid_low]), u16::from_be_bytes([size_high, size_low]));
    let good = fid <= LAST_FID && kind <= LAST_TYPE && (kind != GROCERY || size == GROCERY_SIZE);
    good.then_some((fid, Entry { kind, size }))
}

/// The fields of a QForm message under a dictionary's octets.
pub fn read(dictionary: &[u8], message: &[u8]) -> Answer<Vec<Field>> {
    if message.len() > MESSAGE_LIMIT {
        return refuse(TOO_LONG, 0);
    }
    let dictionary = load(dictionary)?;
    header(message)?;
    let mut fields = Vec::new();
    let mut place = HEADER;
    while place < message.len() {
        let field = match field(&dictionary, &message[place..]) {
            Ok((fid, entry)) => Field { fid, kind: entry.kind, data: Span { start: place + 2, length: entry.size.into() } },
            Err(number) => return refuse(number, place),
        };
        place = field.data.start + with_padding(field.data.length);
        fields.push(field);
    }
    Ok(fields)
}

pub fn check(dictionary: &[u8], message: &[u8]) -> Answer<(u64, u64)> {
    Ok((read(dictionary, message)?.len() as u64, 1))
}

pub fn kth(dictionary: &[u8], message: &[u8], k: u64) -> Answer<Field> {
    let fields = read(dictionary, message)?;
    match usize::try_from(k).ok().and_then(|k| fields.get(k)) {
        Some(field) => Ok(*field),
        None => refuse(ABSENT, 0),
    }
}

fn header(message: &[u8]) -> Answer<()> {
    let Some((header, rest)) = message.split_at_checked(HEADER) else {
        return refuse(CUT, 0);
    };
    let (magic, size) = header.split_at(4);
    if magic != MAGIC_NUMBER {
        return refuse(MAGIC, 0);
    }
    if big_endian(size) != rest.len() as u64 {
        return refuse(SIZE, 0);
    }
    Ok(())
}

/// The field at the front of `rest`, or the number of its refusal.
fn field(dictionary: &Dictionary, rest: &[u8]) -> Result<(u16, Entry), u64> {
    let Some((front, behind)) = rest.split_at_checked(2) else {
        return Err(CUT);
    };
    let octets = u16::from_be_bytes([front[0], front[1]]);
    if octets & FIXED == 0 || octets & PRIMITIVE == 0 {
        return Err(TYPE_SIZE_OR_HINT);
    }
    let fid = octets - FIXED - PRIMITIVE;
    let entry = dictionary.get(&fid).ok_or(NOT_IN_DICTIONARY)?;
    if behind.len() < with_padding(entry.size.into()) {
        return Err(PAST_THE_END);
    }
    Ok((fid, *entry))
}

/// How many octets data of so many octets take: fields stand on even places.
pub fn with_padding(size: usize) -> usize {
    size + size % 2
}
