//! The text that the program `show` prints for its input.

use super::message::{count, read, Field, Value};
use super::{frame, refuse, table, Answer, MESSAGE_LIMIT, SIZE, TOO_LONG};
use std::fmt::Write;

const INPUT_LIMIT: usize = 65_536;
/// The revision that the program reads under.
const REVISION: u64 = 2;

pub fn text(input: &[u8]) -> Vec<u8> {
    let text = match accepted(input) {
        Ok(text) => text,
        Err(refusal) => format!("refused {} at {}\n", refusal.number, refusal.place),
    };
    text.into_bytes()
}

fn accepted(input: &[u8]) -> Answer<String> {
    const { assert!(INPUT_LIMIT <= MESSAGE_LIMIT) };
    if input.len() > INPUT_LIMIT {
        return refuse(TOO_LONG, 0);
    }
    let (start, end) = frame::read(input)?;
    let (table, rest) = (&input[start..end], &input[end..]);
    table::load(table)?;
    let (start, end) = frame::read(rest)?;
    if end < rest.len() {
        return refuse(SIZE, 0);
    }
    let message = &rest[start..end];
    let fields = read(table, REVISION, 0, message)?;
    let mut text = String::from("depth tag kind value\n");
    rows(&mut text, &fields, 1);
    line(&mut text, format_args!("fields {} octets {}", count(&fields), message.len()));
    Ok(text)
}

fn rows(text: &mut String, fields: &[Field], depth: u64) {
    for field in fields {
        let (kind, value) = kind_and_value(&field.value);
        line(text, format_args!("{depth} {:04x} {kind} {value}", field.tag));
        if let Value::Message(inner) = &field.value {
            rows(text, inner, depth + 1);
        }
    }
}

fn kind_and_value(value: &Value) -> (&'static str, String) {
    match value {
        Value::Raw(octets) => ("raw", hex(octets)),
        Value::Uint(number) => ("uint", number.to_string()),
        Value::Int(number) => ("int", number.to_string()),
        Value::String(octets) => ("string", hex(octets)),
        Value::Text(octets) => ("text", hex(octets)),
        Value::Message(inner) => ("message", inner.len().to_string()),
    }
}

fn hex(octets: &[u8]) -> String {
    if octets.is_empty() {
        return "-".to_string();
    }
    octets.iter().map(|octet| format!("{octet:02x}")).collect()
}

fn line(text: &mut String, words: std::fmt::Arguments) {
    writeln!(text, "{words}").expect("writing into a string does not fail");
}
