//! Reals as their 64 bits, in whole-number arithmetic only.

use super::{refuse, Answer, NOT_IN_FRACTIONS};

const TWO_TO_53: u128 = 1 << 53;

/// The 64 bits of a real of four octets. A not-a-number keeps its sign and has its fraction bits moved up.
pub fn widen(bits: u32) -> u64 {
    let sign = u64::from(bits >> 31) << 63;
    let exponent = u64::from(bits >> 23 & 0xff);
    let fraction = u64::from(bits & 0x7f_ffff);
    match (exponent, fraction) {
        (0, 0) => sign,
        (0, _) => sign | widen_small(fraction),
        (0xff, _) => sign | 0x7ff << 52 | fraction << 29,
        _ => sign | (exponent + 1023 - 127) << 52 | fraction << 29,
    }
}

/// A real of four octets with exponent 0 is `fraction` times 2 to the power -149.
fn widen_small(fraction: u64) -> u64 {
    let top = u64::from(fraction.ilog2());
    let below_top = fraction - (1 << top);
    (top + 1023 - 149) << 52 | below_top << (52 - top)
}

/// The whole number that is the real times 2 to the power of the hint.
pub fn fractions(bits: u64, hinted: u64, hint: u64) -> Answer<i64> {
    if hinted == 0 || !(1..=8).contains(&hint) {
        return refuse(NOT_IN_FRACTIONS, 0);
    }
    let Some(size) = product_size(bits, hint) else {
        return refuse(NOT_IN_FRACTIONS, 0);
    };
    let negative = bits >> 63 == 1;
    Ok(if negative { -size } else { size })
}

/// The size of the product, if it is whole and below 2^53.
fn product_size(bits: u64, hint: u64) -> Option<i64> {
    let exponent = (bits >> 52 & 0x7ff) as i64;
    let fraction = u128::from(bits & 0xf_ffff_ffff_ffff);
    if exponent == 0x7ff {
        return None;
    }
    // The real's size is `factor` times 2 to the power `power`.
    let (factor, power) = match exponent {
        0 => (fraction, -1074),
        _ => (fraction + (1 << 52), exponent - 1075),
    };
    let size = times_power_of_two(factor, power + hint as i64)?;
    (size < TWO_TO_53).then_some(size as i64)
}

/// `factor`, which is below 2^53, times 2 to the power `power`: none where that is not whole or surely not below 2^53.
fn times_power_of_two(factor: u128, power: i64) -> Option<u128> {
    if factor == 0 {
        return Some(0);
    }
    match power {
        54.. => None,
        0.. => Some(factor << power),
        -60..=-1 => {
            let divisor = 1u128 << -power;
            factor.is_multiple_of(divisor).then_some(factor / divisor)
        }
        _ => None,
    }
}
