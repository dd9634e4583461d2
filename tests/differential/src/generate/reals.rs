//! Cases for reading a real in fractions.

use crate::call::Call;
use crate::rng::Rng;

const TELLING: [u64; 20] = [
    0,
    1 << 63,
    0x3ff0_0000_0000_0000, // 1
    0x3fe0_0000_0000_0000, // 1/2
    0x3f70_0000_0000_0000, // 1/256
    0x3f60_0000_0000_0000, // 1/512
    0x400a_0000_0000_0000, // 3.25
    0x4330_0000_0000_0000, // 2^52
    0x432f_ffff_ffff_ffff, // 2^52 - 1/2
    0x4340_0000_0000_0000, // 2^53
    0x433f_ffff_ffff_ffff, // 2^53 - 1
    0x42b0_0000_0000_0000, // 2^44
    0x42bf_ffff_ffff_ffff, // just below 2^45
    0x7ff0_0000_0000_0000, // infinity
    0x7ff0_0000_0000_0001, // a not-a-number
    0x7ff8_0000_0000_0000, // a not-a-number
    0x7fef_ffff_ffff_ffff, // the largest
    0x0000_0000_0000_0001, // the smallest
    0x000f_ffff_ffff_ffff, // the largest with exponent 0
    0x0010_0000_0000_0000, // the smallest with exponent 1
];

pub fn random(rng: &mut Rng) -> Vec<Call> {
    let real = bits(rng);
    let hinted = rng.pick(&[1, 1, 1, 1, 1, 1, 1, 1, 0, 0, 2, 256, 1 << 32, u64::MAX]);
    let hint = match rng.below(10) {
        0..=7 => rng.from_to(1, 8) as u64,
        8 => rng.pick(&[0, 9, 10, 16, 17, 25, 256, 257, 261]),
        _ => rng.pick(&[(1 << 32) + 1, (1 << 63) + 1, u64::MAX, 264, 65_537]),
    };
    vec![Call::Fractions { bits: real, hinted, hint }]
}

/// The 64 bits of a real: special ones, wholes and halves of some size, near 2^53, or any.
pub fn bits(rng: &mut Rng) -> u64 {
    match rng.below(10) {
        0..=1 => rng.pick(&TELLING) ^ (rng.word() & 1) << 63,
        2 => rng.pick(&TELLING).wrapping_add(rng.below(5) as u64).wrapping_sub(2),
        3..=6 => whole_over_power(rng),
        7..=8 => near_two_to_53(rng),
        _ => rng.word(),
    }
}

/// A whole number over a power of two from 1 to 512.
fn whole_over_power(rng: &mut Rng) -> u64 {
    let size = rng.number() >> 11;
    let real = size as f64 / (1 << rng.below(10)) as f64;
    real.to_bits() ^ (rng.word() & 1) << 63
}

/// A real whose product with a power of two from 2 to 256 is about 2^53.
fn near_two_to_53(rng: &mut Rng) -> u64 {
    let exponent = rng.from_to(1023 + 43, 1023 + 54) as u64;
    let fraction = match rng.below(4) {
        0 => 0,
        1 => (1 << 52) - 1,
        2 => ((1 << 52) - 1) & !0 << rng.below(12),
        _ => rng.word() >> 12,
    };
    (rng.word() & 1) << 63 | exponent << 52 | fraction
}
