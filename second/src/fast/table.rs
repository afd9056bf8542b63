//! LS by tables that big whole numbers give once. States docs/RULES.md, 6 LS.

use crate::rules::factor::{exponent, millimetres, reaches, steepness_factor, LONGEST_MM, TOO_LONG};
use crate::rules::settings::Formula;

/// For each exponent from 2 to 5, L of every whole number of mm that is not too long.
pub struct Table {
    by_exponent: [Vec<u16>; 4],
}

/// The first millimetre at which a t is reached, if it is not too long; no t is reached before the t below it.
fn first_millimetre(k: u32, t: u64, from: u64) -> Option<u64> {
    let (mut low, mut high) = (from, LONGEST_MM);
    if !reaches(t, k, high) {
        return None;
    }
    while low < high {
        let middle = (low + high) / 2;
        (low, high) = if reaches(t, k, middle) { (low, middle) } else { (middle + 1, high) };
    }
    Some(low)
}

/// L of every mm for one exponent.
fn by_millimetre(k: u32) -> Vec<u16> {
    let mut factors = vec![0; LONGEST_MM as usize + 1];
    let (mut t, mut from) = (1, 0);
    while let Some(first) = first_millimetre(k, t, from) {
        factors[first as usize..].fill(t as u16);
        (t, from) = (t + 1, first);
    }
    factors
}

/// The sine in thousandths: u²·d ≤ n exactly if u² ≤ floor(n / d).
fn sine(q: i64, side: i64) -> u64 {
    (1_000_000 * q as u64 / (q + 2 * side * side) as u64).isqrt()
}

impl Table {
    pub fn new() -> Table {
        Table { by_exponent: [2, 3, 4, 5].map(by_millimetre) }
    }

    /// L of a length in mm that is not too long.
    pub fn slope_length_factor(&self, k: u32, mm: u64) -> u64 {
        u64::from(self.by_exponent[k as usize - 2][mm as usize])
    }

    /// LS = t·S, or too long.
    pub fn factor(&self, formula: Formula, length: u64, q: i64, side: i64) -> u32 {
        let mm = millimetres(length, side);
        if mm > LONGEST_MM {
            return TOO_LONG;
        }
        let t = self.slope_length_factor(exponent(q, side), mm);
        (t * steepness_factor(formula, sine(q, side), q, side)) as u32
    }
}
