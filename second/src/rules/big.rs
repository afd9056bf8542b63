//! Whole numbers of any size, as far as the power rule of docs/RULES.md, 6.2 L, needs them: products, powers, order.

use std::cmp::Ordering;

/// A whole number in base 2^32, lowest limb first, the last limb not 0.
#[derive(Clone, PartialEq, Eq)]
pub struct Big(Vec<u32>);

impl Big {
    pub fn of(number: u64) -> Big {
        Big::trimmed(vec![number as u32, (number >> 32) as u32])
    }

    fn trimmed(mut limbs: Vec<u32>) -> Big {
        while limbs.last() == Some(&0) {
            limbs.pop();
        }
        Big(limbs)
    }

    /// The product, by long multiplication.
    pub fn times(&self, other: &Big) -> Big {
        let mut limbs = vec![0u32; self.0.len() + other.0.len()];
        for (low, &a) in self.0.iter().enumerate() {
            let mut carry = 0u64;
            for (high, &b) in other.0.iter().enumerate() {
                let sum = u64::from(a) * u64::from(b) + u64::from(limbs[low + high]) + carry;
                limbs[low + high] = sum as u32;
                carry = sum >> 32;
            }
            limbs[low + other.0.len()] = carry as u32;
        }
        Big::trimmed(limbs)
    }

    /// The power with this exponent.
    pub fn power(&self, exponent: u32) -> Big {
        (0..exponent).fold(Big::of(1), |power, _| power.times(self))
    }
}

impl Ord for Big {
    fn cmp(&self, other: &Big) -> Ordering {
        let limbs = self.0.len().cmp(&other.0.len());
        limbs.then_with(|| self.0.iter().rev().cmp(other.0.iter().rev()))
    }
}

impl PartialOrd for Big {
    fn partial_cmp(&self, other: &Big) -> Option<Ordering> {
        Some(self.cmp(other))
    }
}

#[cfg(test)]
mod tests {
    use super::*;

    /// The limbs of a number of 128 bits.
    fn limbs(number: u128) -> Vec<u32> {
        Big::trimmed((0..4).map(|limb| (number >> (32 * limb)) as u32).collect()).0
    }

    #[test]
    fn products_and_powers_as_in_128_bits() {
        let numbers = [0, 1, 2, 100, 0xFFFF_FFFF, 0x1_0000_0000, 2_212_848, u64::MAX];
        for a in numbers {
            for b in numbers {
                assert_eq!(Big::of(a).times(&Big::of(b)).0, limbs(u128::from(a) * u128::from(b)));
                assert_eq!(Big::of(a).cmp(&Big::of(b)), a.cmp(&b));
            }
        }
        assert_eq!(Big::of(2_212_848).power(5).0, limbs(2_212_848_u128.pow(5)));
        assert!(Big::of(0).power(0) == Big::of(1));
    }

    #[test]
    fn order_past_128_bits() {
        let (high, low) = (Big::of(3).power(200), Big::of(2).power(316));
        assert!(low < high && high < low.times(&Big::of(2)));
    }
}
