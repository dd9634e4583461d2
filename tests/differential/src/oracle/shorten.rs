//! The shortest octets that read as a given tree.

use super::message::{read, Field, Value};
use super::{refuse, Answer, NO_ROOM};

/// The shortened message, if it fits into `room` octets.
pub fn shorten(table: &[u8], revision: u64, number: u64, message: &[u8], room: usize) -> Answer<Vec<u8>> {
    let octets = shortest(&read(table, revision, number, message)?);
    if octets.len() > room {
        return refuse(NO_ROOM, 0);
    }
    Ok(octets)
}

pub fn shortest(fields: &[Field]) -> Vec<u8> {
    let mut octets = Vec::new();
    for field in fields {
        let contents = shortest_contents(&field.value);
        octets.extend(control_part(field.tag, contents.len()));
        octets.extend(contents);
    }
    octets
}

fn shortest_contents(value: &Value) -> Vec<u8> {
    match value {
        Value::Uint(number) => least_uint(*number),
        Value::Int(number) => least_int(*number),
        Value::Message(fields) => shortest(fields),
        Value::Raw(octets) | Value::String(octets) | Value::Text(octets) => octets.clone(),
    }
}

/// The least octets of a number; 0 has none.
pub fn least_uint(number: u64) -> Vec<u8> {
    let all = number.to_be_bytes();
    let zeros = all.iter().take_while(|octet| **octet == 0).count();
    all[zeros..].to_vec()
}

/// The least octets of a signed number; 0 has none.
pub fn least_int(number: i64) -> Vec<u8> {
    (0..=8).find_map(|octets| int_in(number, octets)).expect("every 64-bit number fits into eight octets")
}

/// A signed number on just so many octets, or none if it does not fit.
pub fn int_in(number: i64, octets: usize) -> Option<Vec<u8>> {
    if octets == 0 {
        return (number == 0).then(Vec::new);
    }
    let sign = 1u128 << (8 * octets - 1);
    let size = u128::from(number.unsigned_abs());
    let literal = if number >= 0 && size < sign {
        size
    } else if number < 0 && size < sign {
        sign + size
    } else if number < 0 && size == sign {
        sign
    } else {
        return None;
    };
    Some(literal.to_be_bytes()[16 - octets..].to_vec())
}

/// The shortest control part.
pub fn control_part(tag: u16, length: usize) -> Vec<u8> {
    let (high, tag_octets) = match tag {
        0..=13 => (tag as u8, vec![]),
        14..=255 => (0xe, vec![tag as u8]),
        _ => (0xf, tag.to_be_bytes().to_vec()),
    };
    let (low, length_octets) = match length {
        0..=11 => (length as u8, vec![]),
        12..=255 => (0xc, vec![length as u8]),
        256..=65_535 => (0xd, (length as u16).to_be_bytes().to_vec()),
        _ => (0xe, (length as u32).to_be_bytes().to_vec()),
    };
    let mut part = vec![high * 16 + low];
    part.extend(tag_octets);
    part.extend(length_octets);
    part
}
