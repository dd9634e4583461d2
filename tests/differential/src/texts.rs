//! Checks the short texts in full through C and compares with the oracle, in a loop without guard octets, since there are so many.

use crate::call::Outcome;
use crate::entries;
use crate::generate::short_texts::{self, Family};
use crate::run::{self, CURRENT_CASE};
use std::sync::atomic::Ordering;

/// Octets behind the message. A read beyond its end would find the rest of a cut character.
const BEHIND: [u8; 64] = [0x80; 64];

/// How many texts were accepted and refused. They are not in the tally, which shows what the other cases reach.
#[derive(Default)]
pub struct Counts {
    pub accepted: u64,
    pub refused: u64,
}

/// Runs all families. The error is a report of the first difference.
pub fn all(seed: u64) -> Result<Counts, String> {
    let mut counts = Counts::default();
    let mut first = short_texts::FIRST;
    for family in short_texts::families() {
        run_family(&family, seed, first, &mut counts)?;
        first += family.count();
    }
    Ok(counts)
}

fn run_family(family: &Family, seed: u64, first: u64, counts: &mut Counts) -> Result<(), String> {
    let mut buffer = family.message();
    let length = buffer.len();
    buffer.extend(BEHIND);
    for number in 0..family.count() {
        CURRENT_CASE.store(first + number, Ordering::Relaxed);
        family.put(number, &mut buffer[..length]);
        let message = &buffer[..length];
        let expected = family.expected(message);
        let got = entries::only_check(short_texts::table(), message);
        if got != expected {
            let complaint = run::compared(&outcome(expected), &outcome(got));
            return Err(run::difference(seed, first + number, 0, &short_texts::check(message), &complaint));
        }
        match expected[0] {
            0 => counts.accepted += 1,
            _ => counts.refused += 1,
        }
    }
    Ok(())
}

fn outcome([refusal, place, fields, depth, shortest]: [u64; 5]) -> Outcome {
    Outcome { refusal, place, results: vec![fields, depth, shortest], ..Outcome::default() }
}
