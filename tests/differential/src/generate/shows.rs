//! Cases for the program `show`.

use super::{damage, frames, hproto, tables};
use crate::call::Call;
use crate::rng::Rng;

/// The revision that the program reads under.
const REVISION: u64 = 2;

pub fn random(rng: &mut Rng) -> Vec<Call> {
    vec![Call::Show { input: input(rng).into() }]
}

fn input(rng: &mut Rng) -> Vec<u8> {
    let good = tables::good(rng);
    let message = match rng.chance(60) {
        true => hproto::good_message(rng, &tables::loaded(&good), REVISION, 0),
        false => hproto::some_message(rng, &tables::loaded(&good), REVISION, 0),
    };
    let table = if rng.chance(10) { tables::damaged(rng) } else { good };
    let mut input = frames::framed(rng, &table);
    match rng.below(20) {
        0 => input = fill_up(rng, input),
        _ => input.extend(frames::framed(rng, &message)),
    }
    match rng.below(12) {
        0 => input.push(rng.octet()),
        1 => drop(input.pop()),
        2 => damage::some(rng, &mut input),
        _ => {}
    }
    input
}

/// Brings the input to the limit of 65,536 octets or one beyond.
fn fill_up(rng: &mut Rng, mut input: Vec<u8>) -> Vec<u8> {
    let total = 65_536 + rng.pick(&[0, 0, 0, 1, 100]);
    let size = total - input.len() - 5;
    let mut message = Vec::new();
    hproto::fill_up(rng, &mut message, size);
    input.push(0xfe);
    input.extend((size as u32).to_be_bytes());
    input.extend(message);
    input
}
