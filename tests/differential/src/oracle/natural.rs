//! Natural numbers of any size, with the few operations that the oracle needs.

use std::cmp::Ordering;

/// The digits to the base 2^64, the lowest first. The highest one is not 0.
#[derive(Clone, Debug, PartialEq, Eq)]
pub struct Natural(Vec<u64>);

impl Natural {
    pub fn power_of_two(exponent: u64) -> Natural {
        let mut digits = vec![0; exponent as usize / 64];
        digits.push(1 << (exponent % 64));
        Natural(digits)
    }

    pub fn plus(&self, other: &Natural) -> Natural {
        let places = self.0.len().max(other.0.len());
        Natural::from_sums((0..places).map(|place| self.digit(place) + other.digit(place)))
    }

    pub fn times(&self, factor: u64) -> Natural {
        Natural::from_sums(self.0.iter().map(|digit| u128::from(*digit) * u128::from(factor)))
    }

    /// From the sum or the product at each place, the lowest first. Each is at most (2^64 - 1)^2, so that it has room for a carry.
    fn from_sums(sums: impl ExactSizeIterator<Item = u128>) -> Natural {
        let mut digits = Vec::with_capacity(sums.len() + 1);
        let mut carry = 0;
        for sum in sums {
            let with_carry = sum + carry;
            digits.push(with_carry as u64);
            carry = with_carry >> 64;
        }
        digits.push(carry as u64);
        while digits.last() == Some(&0) {
            digits.pop();
        }
        Natural(digits)
    }

    /// The digit at a place, 0 above the highest.
    fn digit(&self, place: usize) -> u128 {
        self.0.get(place).map_or(0, |digit| u128::from(*digit))
    }
}

impl Ord for Natural {
    /// The longer one is larger. With the same length, the digits decide, from the highest.
    fn cmp(&self, other: &Natural) -> Ordering {
        let lengths = self.0.len().cmp(&other.0.len());
        lengths.then_with(|| self.0.iter().rev().cmp(other.0.iter().rev()))
    }
}

impl PartialOrd for Natural {
    fn partial_cmp(&self, other: &Natural) -> Option<Ordering> {
        Some(self.cmp(other))
    }
}
