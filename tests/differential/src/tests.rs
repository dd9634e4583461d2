//! Tests of the oracle. Every expected value is written by hand from the documents.

mod decimals;
mod hproto;
mod laws;
mod qform;
mod singles;
mod tables;
mod tib;
mod writer;

use crate::generate::samples::{entries, octets};
use crate::oracle::{message, shorten, Answer, Refusal};

/// A refusal, number and place.
fn at<T>(number: u64, place: u64) -> Answer<T> {
    Err(Refusal { number, place })
}

/// What both revisions answer alike.
fn under_either<T: PartialEq + std::fmt::Debug>(answer: impl Fn(u64) -> Answer<T>) -> Answer<T> {
    let (one, two) = (answer(1), answer(2));
    assert_eq!(one, two);
    two
}

/// The fields and the depth of a message of number 0, and whether it is short.
fn check_octets(table: &[u8], message: &[u8]) -> Answer<(u64, u64, bool)> {
    under_either(|revision| message::check(table, revision, 0, message))
}

/// The fields and the depth of a message of number 0.
fn check(table: &str, octets_of_message: &str) -> Answer<(u64, u64)> {
    counts(&entries(table), &octets(octets_of_message))
}

/// The same from octets.
fn counts(table: &[u8], message: &[u8]) -> Answer<(u64, u64)> {
    check_octets(table, message).map(|(fields, depth, _)| (fields, depth))
}

/// Whether an accepted message of number 0 is short.
fn is_short(table: &str, octets_of_message: &str) -> bool {
    check_octets(&entries(table), &octets(octets_of_message)).unwrap().2
}

/// The shortened message of number 0.
fn shorten(table: &str, octets_of_message: &str) -> Answer<Vec<u8>> {
    shorten_into(table, octets_of_message, usize::MAX)
}

fn shorten_into(table: &str, octets_of_message: &str, room: usize) -> Answer<Vec<u8>> {
    under_either(|revision| shorten::shorten(&entries(table), revision, 0, &octets(octets_of_message), room))
}
