//! The k-th or the last of the outermost fields with a tag.

use super::message::{read, Field, Value};
use super::{refuse, Answer, ABSENT};

/// What lookup answers of a field. `value` is that of a uint and `signed_value` that of an int; otherwise they are 0.
#[derive(Clone, Copy, Debug, PartialEq, Eq)]
pub struct Found {
    pub kind: u64,
    pub value: u64,
    pub signed_value: i64,
    pub start: u64,
    pub length: u64,
}

pub fn kth(table: &[u8], revision: u64, number: u64, message: &[u8], tag: u64, k: u64) -> Answer<Found> {
    let fields = read(table, revision, number, message)?;
    let mut matching = fields.iter().filter(|field| u64::from(field.tag) == tag);
    let found = usize::try_from(k).ok().and_then(|k| matching.nth(k));
    answer(found)
}

pub fn last(table: &[u8], revision: u64, number: u64, message: &[u8], tag: u64) -> Answer<Found> {
    let fields = read(table, revision, number, message)?;
    let found = fields.iter().rev().find(|field| u64::from(field.tag) == tag);
    answer(found)
}

fn answer(found: Option<&Field>) -> Answer<Found> {
    let Some(field) = found else {
        return refuse(ABSENT, 0);
    };
    let (value, signed_value) = match field.value {
        Value::Uint(number) => (number, 0),
        Value::Int(number) => (0, number),
        _ => (0, 0),
    };
    Ok(Found { kind: field.value.kind().number(), value, signed_value, start: field.start as u64, length: field.length as u64 })
}
