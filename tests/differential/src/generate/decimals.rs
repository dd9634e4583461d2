//! Cases for reading a real in tenths down to billionths. The hints are 17 to 25, and k is the hint less 16.

use super::reals;
use crate::call::Call;
use crate::rng::Rng;

const MOST_K: u64 = 9;
const SIGN: u64 = 1 << 63;
const FRACTION: u64 = (1 << 52) - 1;

/// Each exponent for each k.
pub const EXPONENTS: u64 = 2_048 * MOST_K;

/// Reals with one exponent: the fractions at both ends of their range and one between them.
pub fn exponent_calls(number: u64) -> Vec<Call> {
    let (exponent, k) = (number / MOST_K, 1 + number % MOST_K);
    let between = Rng::new(0, number).word() & FRACTION;
    let fractions = [0, 1, between, FRACTION - 1, FRACTION];
    fractions.iter().flat_map(|fraction| both_signs(exponent << 52 | fraction, k)).collect()
}

/// 512 ties for each k, those nearest to 0.
pub const TIES: u64 = 512 * MOST_K;

pub fn tie_calls(number: u64) -> Vec<Call> {
    let (index, k) = (number / MOST_K, 1 + number % MOST_K);
    with_neighbours(tie(2 * index + 1, k), k)
}

/// For each k, two reals whose product is almost a tie: the nearest above an even number and a half, and the nearest below an odd
/// number and a half. Rounded as a tie, each gives another answer. They were found by trying all halves.
const ALMOST_TIES: [[u64; 2]; MOST_K as usize] = [
    [0x3fa9_9999_9999_999a, 0x3fc3_3333_3333_3333],
    [0x3f74_7ae1_47ae_147b, 0x3f8e_b851_eb85_1eb8],
    [0x3f40_624d_d2f1_a9fc, 0x3f93_f7ce_d916_872b],
    [0x3f0a_36e2_eb1c_432d, 0x3f4f_212d_7731_8fc5],
    [0x3ed4_f8b5_88e3_68f1, 0x3f24_50ef_dc9c_4da9],
    [0x3ea0_c6f7_a0b5_ed8e, 0x3f14_50ef_dc9c_4da9],
    [0x3f22_dace_174f_a7de, 0x3f04_50ef_dc9c_4da9],
    [0x3e35_798e_e230_8c3a, 0x3e8f_8a89_dc37_4df5],
    [0x3e42_40ec_a6a9_43fe, 0x3e19_c511_dc3a_41df],
];
pub const ALMOST: u64 = MOST_K;

pub fn almost_tie_calls(number: u64) -> Vec<Call> {
    ALMOST_TIES[number as usize].iter().flat_map(|bits| with_neighbours(*bits, 1 + number)).collect()
}

/// The number of reals on each side of an end. The ends are 2^63 and 2^64, each over 10^k.
const STEPS: u64 = 400;
const BOTH_SIDES: u64 = 2 * STEPS + 1;
pub const ENDS: u64 = 2 * BOTH_SIDES * MOST_K;

pub fn end_calls(number: u64) -> Vec<Call> {
    let (index, k) = (number / MOST_K, 1 + number % MOST_K);
    let bits = end(63 + index / BOTH_SIDES, k) - STEPS + index % BOTH_SIDES;
    both_signs(bits, k).to_vec()
}

const HINTED: [u64; 7] = [0, 1, 2, 256, 1 << 32, 1 << 63, u64::MAX];
/// Hints just outside 17 to 25, hints that are 17 or 25 in their low bits only, and the largest.
const OTHER_HINTS: [u64; 10] =
    [16, 26, 256 + 17, 65_536 + 17, (1 << 31) + 17, (1 << 32) + 17, (1 << 32) + 25, (1 << 63) + 17, u64::MAX - 238, u64::MAX];
/// Hints up to 40 are tried in full.
const SMALL_HINTS: u64 = 41;
pub const HINTS: u64 = (SMALL_HINTS + OTHER_HINTS.len() as u64) * HINTED.len() as u64;

/// Some reals with a hint, or with none.
pub fn hint_calls(number: u64) -> Vec<Call> {
    let (index, hinted) = (number / HINTED.len() as u64, HINTED[number as usize % HINTED.len()]);
    let hint = match index.checked_sub(SMALL_HINTS) {
        None => index,
        Some(other) => OTHER_HINTS[other as usize],
    };
    let reals = [0.0, -0.0, 1.125, -1.125, 0.35, 1e300, f64::INFINITY, f64::NEG_INFINITY, f64::NAN];
    reals.iter().map(|real| Call::Decimals { bits: real.to_bits(), hinted, hint }).collect()
}

/// A real and those next to it.
pub fn random(rng: &mut Rng) -> Vec<Call> {
    let k = rng.from_to(1, MOST_K as usize) as u64;
    let hint = match rng.below(20) {
        0 => rng.number(),
        1 => rng.pick(&OTHER_HINTS),
        _ => 16 + k,
    };
    let hinted = if rng.chance(95) { 1 } else { rng.pick(&HINTED) };
    let real = bits(rng, k) ^ rng.word() & SIGN;
    neighbours(real).iter().map(|bits| Call::Decimals { bits: *bits, hinted, hint }).collect()
}

/// The 64 bits of a real for k.
pub fn bits(rng: &mut Rng, k: u64) -> u64 {
    match rng.below(12) {
        0..=1 => tie(rng.number() >> 11 | 1, k),
        2..=3 => price(rng),
        4 => half_way(rng, k),
        5..=6 => near_a_half(rng, k),
        7 => end(63, k) - STEPS + rng.below(BOTH_SIDES as usize) as u64,
        8 => of_some_size(rng),
        9 => f64::from(f32::from_bits(rng.word() as u32)).to_bits(),
        10 => reals::bits(rng),
        _ => rng.word(),
    }
}

/// An odd number over 2^(k+1). Its product is a whole number and a half, and that of no other real is.
fn tie(odd: u64, k: u64) -> u64 {
    (odd as f64 / (2u64 << k) as f64).to_bits()
}

/// The real nearest to a number with up to nine decimals.
fn price(rng: &mut Rng) -> u64 {
    let decimals = rng.from_to(0, 9) as u64;
    ((rng.number() >> 11) as f64 / ten_to(decimals)).to_bits()
}

/// The real nearest to a number that is written half way between two results.
fn half_way(rng: &mut Rng, k: u64) -> u64 {
    let written = (rng.number() >> 16) * 10 + 5;
    (written as f64 / ten_to(k + 1)).to_bits()
}

/// The inverse of 5 modulo 2^64.
const FIFTH: u64 = 0xcccc_cccc_cccc_cccd;

/// A real whose product, in some number of binary places, is a whole number or a whole number and a half, or one unit of the last
/// place more or less.
fn near_a_half(rng: &mut Rng, k: u64) -> u64 {
    let places = rng.from_to(1, 52) as u64;
    let whole_or_half = (rng.word() & 1) << (places - 1);
    let wanted = whole_or_half.wrapping_add(rng.below(3) as u64).wrapping_sub(1);
    // The real is a factor over 2^(places + k), so its product is the factor times 5^k, over 2^places.
    let low = (1 << places) - 1;
    let factor = rng.word() & FRACTION & !low | wanted.wrapping_mul(FIFTH.wrapping_pow(k as u32)) & low;
    (1075 - places - k) << 52 | factor
}

/// The real nearest to 2^power over 10^k.
fn end(power: u64, k: u64) -> u64 {
    (2f64.powi(power as i32) / ten_to(k)).to_bits()
}

/// A real whose product may be anything from a part of 1 to more than 2^63.
fn of_some_size(rng: &mut Rng) -> u64 {
    let exponent = rng.from_to(1023 - 35, 1023 + 65) as u64;
    exponent << 52 | rng.word() & FRACTION
}

fn with_neighbours(bits: u64, k: u64) -> Vec<Call> {
    neighbours(bits).iter().flat_map(|bits| both_signs(*bits, k)).collect()
}

fn neighbours(bits: u64) -> [u64; 3] {
    [bits.wrapping_sub(1), bits, bits.wrapping_add(1)]
}

fn both_signs(bits: u64, k: u64) -> [Call; 2] {
    [bits, bits ^ SIGN].map(|bits| Call::Decimals { bits, hinted: 1, hint: 16 + k })
}

fn ten_to(power: u64) -> f64 {
    10u64.pow(power as u32) as f64
}
