//! The reading of an hproto message into its tree, with the first refusal.

use super::shorten::shortest;
use super::table::{load, Kind, Table};
use super::{
    big_endian, refuse, Answer, CUT, DEPTH_LIMIT, MESSAGE_LIMIT, NUMBER_TOO_WIDE, PAST_THE_END, REPEATED, TABLE, TEXT, TOO_DEEP,
    TOO_LONG,
};

#[derive(Clone, Debug, PartialEq, Eq)]
pub enum Value {
    Raw(Vec<u8>),
    Uint(u64),
    Int(i64),
    String(Vec<u8>),
    Text(Vec<u8>),
    Message(Vec<Field>),
}

impl Value {
    pub fn kind(&self) -> Kind {
        match self {
            Value::Raw(_) => Kind::Raw,
            Value::Uint(_) => Kind::Uint,
            Value::Int(_) => Kind::Int,
            Value::String(_) => Kind::String,
            Value::Text(_) => Kind::Text,
            Value::Message(_) => Kind::Message,
        }
    }
}

/// A field of the tree, with where its contents stand in the lent buffer.
#[derive(Clone, Debug, Eq)]
pub struct Field {
    pub tag: u16,
    pub value: Value,
    pub start: usize,
    pub length: usize,
}

/// Two trees are the same whatever the places that their fields were read from.
impl PartialEq for Field {
    fn eq(&self, other: &Field) -> bool {
        self.tag == other.tag && self.value == other.value
    }
}

/// The count of fields at all depths.
pub fn count(fields: &[Field]) -> u64 {
    let inside = |field: &Field| match &field.value {
        Value::Message(inner) => count(inner),
        _ => 0,
    };
    fields.iter().map(|field| 1 + inside(field)).sum()
}

/// The depth of the deepest message, empty or not, where the message of these fields has depth 1.
pub fn depth(fields: &[Field]) -> u64 {
    let below = |field: &Field| match &field.value {
        Value::Message(inner) => depth(inner),
        _ => 0,
    };
    1 + fields.iter().map(below).max().unwrap_or(0)
}

/// What the entries with table octets do first: 1, then the table, then another revision than 1 or 2 and a number over 15, then the
/// fields.
pub fn read(table: &[u8], revision: u64, number: u64, message: &[u8]) -> Answer<Vec<Field>> {
    if message.len() > MESSAGE_LIMIT {
        return refuse(TOO_LONG, 0);
    }
    let table = load(table)?;
    if !(1..=2).contains(&revision) || number > 15 {
        return refuse(TABLE, 0);
    }
    let reader = Reader { table: &table, revision, octets: message };
    reader.fields(number as u8, 0, message.len(), 1)
}

/// The field count, the depth, and whether the message is its own shortest form, as the check answers them.
pub fn check(table: &[u8], revision: u64, number: u64, message: &[u8]) -> Answer<(u64, u64, bool)> {
    let fields = read(table, revision, number, message)?;
    Ok((count(&fields), depth(&fields), shortest(&fields) == message))
}

struct Control {
    tag: u16,
    length: u64,
    contents: usize,
}

struct Reader<'a> {
    table: &'a Table,
    revision: u64,
    octets: &'a [u8],
}

impl Reader<'_> {
    /// The fields of the message that stands from `start` to `end`.
    fn fields(&self, number: u8, start: usize, end: usize, depth: u64) -> Answer<Vec<Field>> {
        let mut fields = Vec::new();
        let mut place = start;
        while place < end {
            let field = self.field(number, place, end, depth, &fields)?;
            place = field.start + field.length;
            fields.push(field);
        }
        Ok(fields)
    }

    /// The field at `place`, where the message has the fields `before` in front of it.
    fn field(&self, number: u8, place: usize, end: usize, depth: u64, before: &[Field]) -> Answer<Field> {
        let Some(control) = control_part(&self.octets[place..end]) else {
            return refuse(CUT, place);
        };
        let start = place + control.contents;
        if control.length > (end - start) as u64 {
            return refuse(PAST_THE_END, place);
        }
        let length = control.length as usize;
        let contents = &self.octets[start..start + length];
        let (kind, inner) = self.table.meaning(number, control.tag);
        if kind == Kind::Message && depth == DEPTH_LIMIT {
            return refuse(TOO_DEEP, place);
        }
        let single = self.table.is_single(self.revision, number, control.tag);
        if single && before.iter().any(|field| field.tag == control.tag) {
            return refuse(REPEATED, place);
        }
        let value = match kind {
            Kind::Raw => Value::Raw(contents.to_vec()),
            Kind::Uint => Value::Uint(read_uint(contents, place)?),
            Kind::Int => Value::Int(read_int(contents, place)?),
            Kind::String => Value::String(contents.to_vec()),
            Kind::Text => Value::Text(read_text(contents, place)?),
            Kind::Message => Value::Message(self.fields(inner, start, start + length, depth + 1)?),
        };
        Ok(Field { tag: control.tag, value, start, length })
    }
}

/// The control part at the front of `rest`, or none if `rest` ends inside it.
fn control_part(rest: &[u8]) -> Option<Control> {
    let first = *rest.first()?;
    let (high, low) = (first / 16, first % 16);
    let tag_octets = match high {
        0xe => 1,
        0xf => 2,
        _ => 0,
    };
    let length_octets = match low {
        0xc => 1,
        0xd => 2,
        0xe => 4,
        0xf => 8,
        _ => 0,
    };
    let tag_part = rest.get(1..1 + tag_octets)?;
    let length_part = rest.get(1 + tag_octets..1 + tag_octets + length_octets)?;
    let direct_or = |nybble: u8, part: &[u8]| match part {
        [] => u64::from(nybble),
        _ => big_endian(part),
    };
    Some(Control {
        tag: direct_or(high, tag_part) as u16,
        length: direct_or(low, length_part),
        contents: 1 + tag_octets + length_octets,
    })
}

fn read_uint(contents: &[u8], place: usize) -> Answer<u64> {
    if contents.len() > 8 {
        return refuse(NUMBER_TOO_WIDE, place);
    }
    Ok(big_endian(contents))
}

fn read_int(contents: &[u8], place: usize) -> Answer<i64> {
    let literal = i128::from(read_uint(contents, place)?);
    if contents.is_empty() {
        return Ok(0);
    }
    let sign = 1i128 << (8 * contents.len() - 1);
    let value = if literal < sign {
        literal
    } else if literal == sign {
        -sign
    } else {
        -(literal - sign)
    };
    Ok(i64::try_from(value).expect("at most eight octets fit"))
}

fn read_text(contents: &[u8], place: usize) -> Answer<Vec<u8>> {
    if !is_text(contents) {
        return refuse(TEXT, place);
    }
    Ok(contents.to_vec())
}

/// Whether octets are text, UTF-8 as RFC 3629 has it. Each character is decoded, and its value is looked at.
pub fn is_text(contents: &[u8]) -> bool {
    let mut rest = contents;
    while !rest.is_empty() {
        match character(rest) {
            Some(size) => rest = &rest[size..],
            None => return false,
        }
    }
    true
}

/// How many octets the character at the front of `rest` has, or none if no good character stands there.
fn character(rest: &[u8]) -> Option<usize> {
    let lead = *rest.first()?;
    let (size, payload) = match lead.leading_ones() {
        0 => (1, lead),
        2 => (2, lead % 32),
        3 => (3, lead % 16),
        4 => (4, lead % 8),
        _ => return None,
    };
    let mut value = u32::from(payload);
    for octet in rest.get(1..size)? {
        if octet / 64 != 0b10 {
            return None;
        }
        value = value * 64 + u32::from(octet % 64);
    }
    let surrogate = (0xd800..=0xdfff).contains(&value);
    let good = least_size(value) == size && !surrogate && value <= 0x10_ffff;
    good.then_some(size)
}

/// How many octets a value needs: their payload has 7, 11, 16 or 21 bits.
pub fn least_size(value: u32) -> usize {
    match value {
        0..=0x7f => 1,
        0x80..=0x7ff => 2,
        0x800..=0xffff => 3,
        _ => 4,
    }
}
