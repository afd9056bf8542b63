//! The LS factor: exponent, L, sine and S. States docs/RULES.md, 6 LS.

use super::big::Big;
use super::settings::Formula;
use std::collections::HashMap;

/// LS in hundred-thousandths: what NoData has in its place, and what is too long.
pub const NO_FACTOR: u32 = 4_294_967_295;
pub const TOO_LONG: u32 = 4_294_967_294;

/// Above 304,800 (1,000 ft, a house limit): too long.
pub const LONGEST_MM: u64 = 304_800;

/// Length in mm: floor(length·c / 1,000).
pub fn millimetres(length: u64, side: i64) -> u64 {
    length * side as u64 / 1_000
}

/// Exponent k/10: k = 5 if 200·q ≥ c²; else 4 if 5,000·q > 9·c²; else 3 if 5,000·q ≥ c²; else 2.
pub fn exponent(q: i64, side: i64) -> u32 {
    let square = side * side;
    if 200 * q >= square {
        5
    } else if 5_000 * q > 9 * square {
        4
    } else if 5_000 * q >= square {
        3
    } else {
        2
    }
}

/// Whether t is reached: t^10·2,212,848^k ≤ (100·mm)^k·100^10.
pub fn reaches(t: u64, k: u32, mm: u64) -> bool {
    let left = Big::of(t).power(10).times(&Big::of(2_212_848).power(k));
    let right = Big::of(100 * mm).power(k).times(&Big::of(100).power(10));
    left <= right
}

/// L: the greatest whole t that is reached. A t that reaches has only reaching ones below it, so t is found
/// bit by bit from 512 down; 1,024 reaches at no length that is not too long.
pub fn slope_length_factor(k: u32, mm: u64) -> u64 {
    let bits = (0..10).rev().map(|bit| 1 << bit);
    bits.fold(0, |t, bit| if reaches(t + bit, k, mm) { t + bit } else { t })
}

/// Sine in thousandths: the greatest u with u²·(q + 2·c²) ≤ 1,000,000·q.
pub fn sine(q: i64, side: i64) -> u64 {
    let (q, side) = (q as u128, side as u128);
    let within = |u: &u128| u * u * (q + 2 * side * side) <= 1_000_000 * q;
    (0..=1_000).rev().find(within).expect("0 is always within") as u64
}

/// The older S, of Handbook 537: floor((65,410·u² + 4,560,000·u + 65,000,000) / 1,000,000).
fn older(u: u64) -> u64 {
    (65_410 * u * u + 4_560_000 * u + 65_000_000) / 1_000_000
}

/// The newer S, of Handbook 703: floor((10,800·u + 30,000) / 1,000), and from nine percent on, where 5,000·q ≥ 81·c²,
/// floor((16,800·u - 500,000) / 1,000). A u of 0 counts as 1.
fn newer(u: u64, q: i64, side: i64) -> u64 {
    let u = u.max(1);
    if 5_000 * q >= 81 * side * side {
        (16_800 * u - 500_000) / 1_000
    } else {
        (10_800 * u + 30_000) / 1_000
    }
}

/// S in thousandths by the chosen formula, of a cell of steepness q whose sine is u.
pub fn steepness_factor(formula: Formula, u: u64, q: i64, side: i64) -> u64 {
    match formula {
        Formula::Older => older(u),
        Formula::Newer => newer(u, q, side),
    }
}

/// The factors L already worked out, by exponent and mm.
#[derive(Default)]
pub struct Factors {
    known: HashMap<(u32, u64), u64>,
}

impl Factors {
    /// LS = t·S, or too long.
    pub fn factor(&mut self, formula: Formula, length: u64, q: i64, side: i64) -> u32 {
        let mm = millimetres(length, side);
        if mm > LONGEST_MM {
            return TOO_LONG;
        }
        let k = exponent(q, side);
        let t = *self.known.entry((k, mm)).or_insert_with(|| slope_length_factor(k, mm));
        (t * steepness_factor(formula, sine(q, side), q, side)) as u32
    }
}

#[cfg(test)]
mod tests {
    use super::*;

    /// docs/RULES.md, 8 Small fields; t = 250 is reached with equality.
    #[test]
    fn slope_length_factors() {
        for k in 2..=5 {
            assert_eq!((slope_length_factor(k, 22_128), slope_length_factor(k, 22_129)), (99, 100));
        }
        assert_eq!((slope_length_factor(5, 88_513), slope_length_factor(5, 88_514)), (199, 200));
        assert_eq!((slope_length_factor(5, 138_302), slope_length_factor(5, 138_303)), (249, 250));
        assert!(!reaches(1_024, 5, LONGEST_MM));
    }

    /// docs/RULES.md, 8 Small fields.
    #[test]
    fn exponents_of_east_drops() {
        assert_eq!([50, 49, 31, 30, 10, 9].map(|drop| exponent(2 * drop * drop, 1_000)), [5, 4, 4, 3, 3, 2]);
    }

    #[test]
    fn sines_at_the_ends() {
        assert_eq!((sine(0, 1_000), sine(2 * 950_000 * 950_000, 1)), (0, 999));
        assert_eq!((sine(2, 1), sine(6, 1)), (707, 866));
    }

    /// S by both formulas, the older one first.
    fn both(q: i64, side: i64) -> [u64; 2] {
        let u = sine(q, side);
        Formula::ALL.map(|formula| steepness_factor(formula, u, q, side))
    }

    /// A cardinal drop by this side; the sine is 89 on both sides of nine percent.
    #[test]
    fn steepness_factors_around_nine_percent() {
        let drop = |drop: i64, side| (sine(2 * drop * drop, side), both(2 * drop * drop, side));
        assert_eq!(drop(899, 10_000), (89, [988, 991]));
        assert_eq!(drop(900, 10_000), (89, [988, 995]));
        assert_eq!((both(16_199, 1_000), both(16_200, 1_000)), ([988, 991], [988, 995]));
    }

    /// Flat ground and slopes with a sine under a thousandth have the newer S of u = 1.
    #[test]
    fn steepness_factors_at_the_ends() {
        assert_eq!(both(0, 1_000), [65, 40]);
        assert_eq!((sine(1, 1_000), both(1, 1_000)), (0, [65, 40]));
        assert_eq!((sine(3, 1_000), both(3, 1_000)), (1, [69, 40]));
        assert_eq!((sine(9, 1_000), both(9, 1_000)), (2, [74, 51]));
        assert_eq!(both(2 * 950_000 * 950_000, 1), [69_899, 16_283]);
    }

    /// For a fixed side S never falls as q rises, by either formula: all small q, and those around nine percent.
    #[test]
    fn steepness_factors_never_fall() {
        let rise = |side: i64, from: i64, to: i64| {
            let factors: Vec<[u64; 2]> = (from..=to).map(|q| both(q, side)).collect();
            assert!(factors.windows(2).all(|pair| (0..2).all(|at| pair[0][at] <= pair[1][at])), "side {side}");
        };
        [1, 2, 3, 10, 57, 100].iter().for_each(|&side| rise(side, 0, 3_000));
        for side in (101..100_000).step_by(743) {
            let nine_percent = 81 * side * side / 5_000;
            rise(side, nine_percent - 2, nine_percent + 2);
        }
    }

    #[test]
    fn too_long_past_the_house_limit() {
        let mut factors = Factors::default();
        let mut both = |side| Formula::ALL.map(|formula| factors.factor(formula, 5_000, 0, side));
        assert_eq!(both(60_960), [168 * 65, 168 * 40]);
        assert_eq!(both(60_961), [TOO_LONG; 2]);
    }
}
