//! Reals in tenths down to billionths, from the rule as it is stated: by multiplying out, in whole numbers of any size.

use super::natural::Natural;
use super::{refuse, Answer, NOT_IN_FRACTIONS};
use std::cmp::Ordering::{self, Equal, Greater, Less};

/// The largest size of a signed number of 64 bits. Only the number below 0 has it.
const LARGEST: u64 = 1 << 63;

/// The whole number nearest to the real times ten to the power of the hint less 16, a tie to the even one.
pub fn decimals(bits: u64, hinted: u64, hint: u64) -> Answer<i64> {
    let finite = bits >> 52 & 0x7ff != 0x7ff;
    if hinted == 0 || !(17..=25).contains(&hint) || !finite {
        return refuse(NOT_IN_FRACTIONS, 0);
    }
    let size = nearest(&Product::new(bits, hint));
    let whole = size.and_then(|size| match bits >> 63 {
        0 => 0i64.checked_add_unsigned(size),
        _ => 0i64.checked_sub_unsigned(size),
    });
    whole.map_or_else(|| refuse(NOT_IN_FRACTIONS, 0), Ok)
}

/// The size of a real times a power of ten is n / d. These are 2n, 2n + d, d and 2d.
struct Product {
    twice_n: Natural,
    twice_n_and_d: Natural,
    d: Natural,
    twice_d: Natural,
}

impl Product {
    /// With d = 2^1074, a real with exponent 0 is its fraction over d. Any other is its fraction and 2^52, times 2 to the power of
    /// its exponent less 1, over d.
    fn new(bits: u64, hint: u64) -> Product {
        let fraction = bits & 0xf_ffff_ffff_ffff;
        let (factor, power) = match bits >> 52 & 0x7ff {
            0 => (fraction, 0),
            exponent => (fraction + (1 << 52), exponent - 1),
        };
        let ten_to_k = 10u64.pow(hint as u32 - 16);
        let n = Natural::power_of_two(power).times(factor).times(ten_to_k);
        let d = Natural::power_of_two(1074);
        let twice_n = n.times(2);
        Product { twice_n_and_d: twice_n.plus(&d), twice_d: d.times(2), twice_n, d }
    }

    /// How n / d lies to z + 1/2 and to z - 1/2, multiplied out.
    fn against_halves(&self, z: u64) -> (Ordering, Ordering) {
        let twice_zd = self.twice_d.times(z);
        (self.twice_n.cmp(&twice_zd.plus(&self.d)), self.twice_n_and_d.cmp(&twice_zd))
    }

    /// Where the nearest whole number is, seen from z.
    fn nearest_from(&self, z: u64) -> Ordering {
        let odd = z % 2 == 1;
        match self.against_halves(z) {
            (Greater, _) => Greater,
            (_, Less) => Less,
            (Equal, _) if odd => Greater,
            (_, Equal) if odd => Less,
            _ => Equal,
        }
    }
}

/// The nearest whole number, by halving the range that it can be in. None if it is too large.
fn nearest(product: &Product) -> Option<u64> {
    let (mut low, mut high) = (0, LARGEST);
    while low <= high {
        let z = low + (high - low) / 2;
        match product.nearest_from(z) {
            Equal => return Some(z),
            Greater => low = z + 1,
            Less => high = z - 1,
        }
    }
    None
}

/// What rounding did to the size of the product.
#[derive(Clone, Copy, Debug, PartialEq, Eq)]
pub enum Rounding {
    Exact,
    Down,
    Up,
    TieDown,
    TieUp,
}

/// What it did to give the accepted answer `whole`.
pub fn rounding(bits: u64, hint: u64, whole: i64) -> Rounding {
    let product = Product::new(bits, hint);
    let z = whole.unsigned_abs();
    match product.against_halves(z) {
        (Equal, _) => Rounding::TieDown,
        (_, Equal) => Rounding::TieUp,
        _ => match product.twice_n.cmp(&product.twice_d.times(z)) {
            Equal => Rounding::Exact,
            Greater => Rounding::Down,
            Less => Rounding::Up,
        },
    }
}
