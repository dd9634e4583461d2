use super::*;
use crate::generate::decimals::bits;
use crate::oracle::decimals::{decimals, rounding, Rounding};
use crate::oracle::natural::Natural;
use crate::oracle::real::widen;
use crate::rng::Rng;

fn read(real: f64, hint: u64) -> Answer<i64> {
    decimals(real.to_bits(), 1, hint)
}

#[test]
fn worked_reals() {
    assert_eq!(read(1.125, 19), Ok(1_125));
    assert_eq!(read(1.125, 18), Ok(112));
    assert_eq!(read(-1.125, 18), Ok(-112));
    assert_eq!(read(1.375, 18), Ok(138));
    assert_eq!(read(-1.375, 18), Ok(-138));
    assert_eq!(read(1.125, 17), Ok(11));
    assert_eq!(read(1.125, 25), Ok(1_125_000_000));
    // These reals are a little less than 2.675 and 0.35, and a little more than 0.45. Products of reals are 267.5, 3.5 and 4.5.
    assert_eq!(read(2.675, 18), Ok(267));
    assert_eq!(read(0.35, 17), Ok(3));
    assert_eq!(read(0.45, 17), Ok(5));
    assert_eq!(decimals(widen(0x3dcc_cccd), 1, 25), Ok(100_000_001));
}

#[test]
fn answers_of_0() {
    for hint in 17..=25 {
        for real in [0.0, f64::from_bits(1), f64::from_bits((1 << 52) - 1), f64::MIN_POSITIVE, 1.0 / 4_294_967_296.0] {
            assert_eq!(read(real, hint), Ok(0), "{real} {hint}");
            assert_eq!(read(-real, hint), Ok(0), "{real} {hint}");
        }
    }
    assert_eq!(read(0.05, 17), Ok(1));
    assert_eq!(read(-0.05, 17), Ok(-1));
    assert_eq!(read(0.049_999, 17), Ok(0));
    assert_eq!(read(-0.049_999, 17), Ok(0));
}

#[test]
fn refused_reals_and_hints() {
    for real in [f64::INFINITY, f64::NEG_INFINITY, f64::NAN, f64::from_bits(0x7ff0_0000_0000_0001), f64::MAX, f64::MIN, 1e18] {
        for hint in 17..=25 {
            assert_eq!(read(real, hint), at(17, 0), "{real} {hint}");
        }
    }
    for hint in (0..=16).chain(26..=300).chain([(1 << 32) + 17, (1 << 63) + 17, u64::MAX]) {
        assert_eq!(read(1.125, hint), at(17, 0), "{hint}");
        assert_eq!(read(0.0, hint), at(17, 0), "{hint}");
    }
    assert_eq!(decimals(1.125f64.to_bits(), 0, 19), at(17, 0));
    for hinted in [2, 256, 1 << 32, 1 << 63, u64::MAX] {
        assert_eq!(decimals(1.125f64.to_bits(), hinted, 19), Ok(1_125));
    }
}

/// The last real that is accepted with each hint, and its answer. The next one is refused below 0 too, so no answer is -2^63.
#[test]
fn ends_of_the_range() {
    let ends = [
        (17, 0x43a9_9999_9999_9999, 9_223_372_036_854_775_040),
        (18, 0x4374_7ae1_47ae_147a, 9_223_372_036_854_774_400),
        (19, 0x4340_624d_d2f1_a9fb, 9_223_372_036_854_774_000),
        (20, 0x430a_36e2_eb1c_432c, 9_223_372_036_854_775_000),
        (21, 0x42d4_f8b5_88e3_68f0, 9_223_372_036_854_775_000),
        (22, 0x42a0_c6f7_a0b5_ed8d, 9_223_372_036_854_775_391),
        (23, 0x426a_d7f2_9abc_af48, 9_223_372_036_854_775_391),
        (24, 0x4235_798e_e230_8c39, 9_223_372_036_854_774_475),
        (25, 0x4201_2e0b_e826_d694, 9_223_372_036_854_774_475),
    ];
    for (hint, bits, whole) in ends {
        let minus = bits | 1 << 63;
        assert_eq!(decimals(bits, 1, hint), Ok(whole));
        assert_eq!(decimals(bits + 1, 1, hint), at(17, 0));
        assert_eq!(decimals(minus, 1, hint), Ok(-whole));
        assert_eq!(decimals(minus + 1, 1, hint), at(17, 0));
    }
}

#[test]
fn kinds_of_rounding() {
    let kind = |real: f64, hint: u64| {
        let kind = rounding(real.to_bits(), hint, read(real, hint).unwrap());
        assert_eq!(kind, rounding((-real).to_bits(), hint, read(-real, hint).unwrap()));
        kind
    };
    assert_eq!(kind(0.0, 17), Rounding::Exact);
    assert_eq!(kind(1.125, 19), Rounding::Exact);
    assert_eq!(kind(1.125, 18), Rounding::TieDown);
    assert_eq!(kind(1.375, 18), Rounding::TieUp);
    assert_eq!(kind(2.675, 18), Rounding::Down);
    assert_eq!(kind(0.45, 17), Rounding::Up);
    assert_eq!(kind(f64::from_bits(1), 25), Rounding::Down);
}

/// The same by division in 128 bits, if the real is a whole number over a power of two up to 2^126.
fn divided(real: f64, k: u32) -> Option<Answer<i64>> {
    let exponent = (real.to_bits() >> 52 & 0x7ff) as i32;
    let factor = i128::from(real.to_bits() & ((1 << 52) - 1) | 1 << 52);
    let divisor = 1i128 << u32::try_from(1075 - exponent).ok().filter(|power| *power <= 126)?;
    let product = factor * 10i128.pow(k) * if real < 0.0 { -1 } else { 1 };
    let (floor, rest) = (product.div_euclid(divisor), product.rem_euclid(divisor));
    let up = rest > divisor - rest || rest == divisor - rest && floor % 2 != 0;
    let whole = floor + i128::from(up);
    Some(i64::try_from(whole).map_or(at(17, 0), Ok))
}

/// The same from the digits that the standard library prints, which rounds exactly and ties to even.
fn printed(real: f64, k: usize) -> Answer<i64> {
    let digits = format!("{real:.k$}").replace('.', "");
    digits.parse().map_or(at(17, 0), Ok)
}

#[test]
fn other_ways_say_the_same() {
    let mut divisions = 0;
    for case in 0..100_000 {
        let mut rng = Rng::new(3, case);
        let k = rng.from_to(1, 9);
        let real = f64::from_bits(bits(&mut rng, k as u64) ^ (rng.word() & 1 << 63));
        let answer = read(real, 16 + k as u64);
        assert_eq!(answer, printed(real, k), "{real:e} {k}");
        if let Some(expected) = divided(real, k as u32) {
            assert_eq!(answer, expected, "{real:e} {k}");
            divisions += 1;
        }
    }
    assert!(divisions > 50_000);
}

#[test]
fn naturals() {
    for case in 0..20_000 {
        let mut rng = Rng::new(4, case);
        let (one, other, factor) = (wide(&mut rng), wide(&mut rng), rng.number());
        assert_eq!(natural(one).plus(&natural(other)), natural(one + other));
        assert_eq!(natural(one).cmp(&natural(other)), one.cmp(&other));
        let low = one as u64;
        assert_eq!(natural(low.into()).times(factor), natural(u128::from(low) * u128::from(factor)));
        let high = natural(u128::from(factor) * (one >> 64)).times(1 << 32).times(1 << 32);
        assert_eq!(natural(one).times(factor), high.plus(&natural(low.into()).times(factor)));
    }
    for exponent in 0..3_000 {
        let power = Natural::power_of_two(exponent);
        assert_eq!(power.plus(&power), Natural::power_of_two(exponent + 1));
        assert_eq!(power.times(2), Natural::power_of_two(exponent + 1));
        assert!(power < power.plus(&Natural::power_of_two(0)));
    }
}

/// A number below 2^127.
fn wide(rng: &mut Rng) -> u128 {
    u128::from(rng.number() >> 1) << 64 | u128::from(rng.number())
}

fn natural(number: u128) -> Natural {
    let one = Natural::power_of_two(0);
    Natural::power_of_two(64).times((number >> 64) as u64).plus(&one.times(number as u64))
}
