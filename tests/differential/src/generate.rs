//! Makes the cases: case `n` under a seed is always the same list of calls.
//!
//! The first cases are the worked samples of the documents and fixed limits, then come small inputs in full; the others are random.
//! The short texts in full have numbers of their own, far above these.

pub mod corpus;
pub mod damage;
pub mod decimals;
pub mod dictionaries;
pub mod exhaustive;
pub mod forms;
pub mod frames;
pub mod hproto;
pub mod qform;
pub mod reals;
pub mod repeats;
pub mod samples;
pub mod short_texts;
pub mod shows;
pub mod tables;
pub mod texts;
pub mod tib;
pub mod trees;
pub mod writer;
pub mod writer_limits;
pub mod writer_states;

use crate::call::Call;
use crate::rng::Rng;

/// Of so many cases one runs the program `show`.
const SHOW_EVERY: u64 = 2_000;

/// The calls of a case: samples first, then small inputs in full, then random ones, and far above these the short texts.
pub fn case(seed: u64, number: u64) -> Vec<Call> {
    if let Some(number) = number.checked_sub(short_texts::FIRST) {
        return short_texts::case(number).unwrap_or_default();
    }
    let mut rng = Rng::new(seed, number);
    let samples = samples::all();
    if let Some(sample) = samples.get(number as usize) {
        return sample.calls(&mut rng);
    }
    if let Some(calls) = exhaustive::case(number - samples.len() as u64) {
        return calls;
    }
    if number % SHOW_EVERY == SHOW_EVERY - 1 {
        return shows::random(&mut rng);
    }
    random(&mut rng)
}

/// How many cases are samples.
pub fn samples() -> u64 {
    samples::all().len() as u64
}

/// How many cases come before the random ones.
pub fn fixed_cases() -> u64 {
    samples() + exhaustive::count()
}

fn random(rng: &mut Rng) -> Vec<Call> {
    match rng.below(110) {
        0..=49 => hproto::random(rng),
        50..=57 => frames::random(rng),
        58..=70 => tib::random_tibmsg(rng),
        71..=82 => tib::random_tibrv(rng),
        83..=92 => qform::random(rng),
        93..=99 => [reals::random(rng), decimals::random(rng)].concat(),
        _ => writer::random(rng),
    }
}
