//! One 32-bit float by its bits: its exact value, the whole centimetre nearest to it, and the float nearest to a number
//! of cm. Whole numbers only; no float is worked with. States docs/RULES.md, 11 Grids of floats.

use std::cmp::Ordering;

/// The bits of plus infinity; those of the finite sizes, without the sign, are below it and grow with the size.
const INFINITE: u32 = 0x7F80_0000;
const SIGN: u32 = 0x8000_0000;

/// The size of a finite float in metres, exactly: significand · 2^exponent.
#[derive(Clone, Copy)]
struct Size {
    significand: u128,
    exponent: i32,
}

impl Size {
    /// The size of finite bits. Where the eight bits of the exponent are 0, no 1 stands before the fraction.
    fn of(bits: u32) -> Size {
        let (power, fraction) = ((bits & INFINITE) >> 23, u128::from(bits & 0x7F_FFFF));
        match power {
            0 => Size { significand: fraction, exponent: -149 },
            _ => Size { significand: (1 << 23) + fraction, exponent: power as i32 - 150 },
        }
    }

    /// The size in cm as a fraction, numerator and denominator. One that has no room in 128 bits is the greatest number
    /// there: beside it the other is below 2^64, so every comparison and quotient is as if it had room.
    fn centimetres(self) -> (u128, u128) {
        let hundredfold = 100 * self.significand;
        let power = 1_u128.checked_shl(self.exponent.unsigned_abs()).unwrap_or(u128::MAX);
        if self.exponent < 0 { (hundredfold, power) } else { (hundredfold.saturating_mul(power), 1) }
    }

    /// The order of this size and a number of cm.
    fn compared(self, cm: u64) -> Ordering {
        let (numerator, denominator) = self.centimetres();
        numerator.cmp(&u128::from(cm).saturating_mul(denominator))
    }
}

/// NaN and the infinities are not finite.
pub fn is_finite(bits: u32) -> bool {
    bits & INFINITE != INFINITE
}

/// Whether two finite floats are equal; both zeros are.
pub fn equal(one: u32, other: u32) -> bool {
    one == other || (one | other) & !SIGN == 0
}

/// The whole centimetre nearest to the exact value of finite bits in metres, halfway cases to the even one; none where
/// it has more than 63 bits.
pub fn centimetres(bits: u32) -> Option<i64> {
    let (numerator, denominator) = Size::of(bits).centimetres();
    let (below, rest) = (numerator / denominator, numerator % denominator);
    let nearest = match (2 * rest).cmp(&denominator) {
        Ordering::Less => below,
        Ordering::Equal => below + below % 2,
        Ordering::Greater => below + 1,
    };
    let size = i64::try_from(nearest).ok()?;
    Some(if bits & SIGN == 0 { size } else { -size })
}

/// The greatest finite size that is not above a number of cm, by halving.
fn not_above(cm: u64) -> u32 {
    let (mut low, mut high) = (0, INFINITE);
    while high - low > 1 {
        let middle = low + (high - low) / 2;
        match Size::of(middle).compared(cm) {
            Ordering::Greater => high = middle,
            _ => low = middle,
        }
    }
    low
}

/// The bits of the float nearest to a number of cm, exactly taken as metres; of two that are equally near, the even one.
pub fn nearest(cm: i64) -> u32 {
    let size = cm.unsigned_abs();
    let low = not_above(size);
    // The next size has one more in the last place: halfway to it the significand is half of one more.
    let Size { significand, exponent } = Size::of(low);
    let halfway = Size { significand: 2 * significand + 1, exponent: exponent - 1 };
    let bits = match halfway.compared(size) {
        Ordering::Greater => low,
        Ordering::Equal => low + low % 2,
        Ordering::Less => low + 1,
    };
    if cm < 0 { bits | SIGN } else { bits }
}

#[cfg(test)]
mod tests {
    use super::*;
    use crate::rules::grid::{HIGHEST, LOWEST};

    const LARGEST: u32 = INFINITE - 1;

    /// The floats nearest to 0.005, 0.015 and 0.025 stand a little beside the halves: 0.004999999888..,
    /// 0.014999999664.. and 0.025000000372...
    #[test]
    fn halves_that_no_float_has() {
        assert_eq!([0x3BA3_D70A, 0x3C75_C28F, 0x3CCC_CCCD].map(centimetres), [Some(0), Some(1), Some(3)]);
        assert_eq!([0x3BA3_D70B, 0x3C75_C290, 0x3CCC_CCCC].map(centimetres), [Some(1), Some(2), Some(2)]);
    }

    /// 0.125, 0.375, 0.625 and 0.875 m are 12.5, 37.5, 62.5 and 87.5 cm; 250.125 and 250.375 m have a half too.
    #[test]
    fn halves_go_to_the_even_one() {
        let halves = [0x3E00_0000, 0x3EC0_0000, 0x3F20_0000, 0x3F60_0000, 0x437A_2000, 0x437A_6000];
        assert_eq!(halves.map(centimetres), [12, 38, 62, 88, 25_012, 25_038].map(Some));
        assert_eq!(halves.map(|bits| centimetres(bits | SIGN)), [-12, -38, -62, -88, -25_012, -25_038].map(Some));
        assert_eq!(halves.map(|bits| centimetres(bits - 1)), [12, 37, 62, 87, 25_012, 25_037].map(Some));
        assert_eq!(halves.map(|bits| centimetres(bits + 1)), [13, 38, 63, 88, 25_013, 25_038].map(Some));
    }

    #[test]
    fn zeros_and_denormals_are_0() {
        assert_eq!([0, SIGN, 1, SIGN | 1, 0x7F_FFFF, 0x80_0000].map(centimetres), [Some(0); 6]);
    }

    /// 9000.004 and 9000.005 m have the nearest floats 9000.00390625 and 9000.0048828125, which are 900,000 cm; the next
    /// one, 9000.005859375, is the first past the range. So are -500.005 m, as the float -500.0050048828125, and below.
    #[test]
    fn ends_of_the_range() {
        let highest = [0x460C_A000, 0x460C_A004, 0x460C_A005, 0x460C_A006];
        assert_eq!(highest.map(centimetres), [900_000, 900_000, 900_000, 900_001].map(Some));
        let lowest = [0xC3FA_0000, 0xC3FA_00A3, 0xC3FA_00A4];
        assert_eq!(lowest.map(centimetres), [-50_000, -50_000, -50_001].map(Some));
    }

    /// -9999 m, and the floats around it that round to the same centimetre.
    #[test]
    fn floats_of_the_usual_nodata() {
        assert_eq!(nearest(-999_900), 0xC61C_3C00);
        let around = [0xC61C_3BFA, 0xC61C_3BFB, 0xC61C_3C00, 0xC61C_3C05, 0xC61C_3C06].map(centimetres);
        assert_eq!(around, [-999_899, -999_900, -999_900, -999_900, -999_901].map(Some));
    }

    /// 2^56 m have 63 bits as cm, 2^57 m have more.
    #[test]
    fn large_floats() {
        assert_eq!([0x4B00_0000, 0xCB80_0000].map(centimetres), [Some(838_860_800), Some(-1_677_721_600)]);
        assert_eq!(centimetres(0x5B80_0000), Some(100 << 56));
        assert_eq!([0x5C00_0000, LARGEST, LARGEST | SIGN].map(centimetres), [None; 3]);
        assert_eq!([LARGEST, LARGEST | SIGN].map(is_finite), [true; 2]);
        assert_eq!([INFINITE, INFINITE | SIGN, 0x7FC0_0000, 0x7F80_0001, u32::MAX].map(is_finite), [false; 5]);
    }

    #[test]
    fn equality_of_floats() {
        assert!(equal(0, SIGN) && equal(SIGN, 0) && equal(0, 0) && equal(SIGN, SIGN) && equal(5, 5));
        assert!(!equal(0, 1) && !equal(SIGN, SIGN | 1) && !equal(5, SIGN | 5));
    }

    /// 16,777,217 is halfway between 2^24 and 2^24 + 2, and 8,388,608.5 between 2^23 and 2^23 + 1.
    #[test]
    fn nearest_floats() {
        assert_eq!([0, 1, -1].map(nearest), [0, 0x3C23_D70A, 0xBC23_D70A]);
        assert_eq!([1_677_721_700, 1_677_721_900].map(nearest), [0x4B80_0000, 0x4B80_0002]);
        assert_eq!([1_677_721_701, 1_677_721_699].map(nearest), [0x4B80_0001, 0x4B80_0000]);
        assert_eq!([838_860_850, 838_860_950, -838_860_950].map(nearest), [0x4B00_0000, 0x4B00_0002, 0xCB00_0002]);
        assert_eq!([99_999_999_999, -99_999_999_999].map(nearest), [0x4E6E_6B28, 0xCE6E_6B28]);
    }

    /// Rust's own reading of a decimal is rounded once too.
    #[test]
    fn nearest_floats_as_rust_reads_them() {
        let steps = (0..2_000_000).step_by(7).chain((0..99_999_999_999).step_by(99_999_989));
        let halves = (0..200).flat_map(|step| [1 << 22, 1 << 23, 1 << 24, 1 << 25].map(|power| 100 * power + 25 * step));
        for cm in steps.chain(halves).chain([99_999_999_999]) {
            let metres: f32 = format!("{}.{:02}", cm / 100, cm % 100).parse().expect("a decimal");
            assert_eq!(nearest(cm), metres.to_bits(), "{cm}");
            assert_eq!(nearest(-cm), if cm == 0 { 0 } else { (-metres).to_bits() });
        }
    }

    /// No whole number of cm is nearer, and of two that are equally near it is the even one: by the distances, in units
    /// of 2^-40 cm.
    #[test]
    fn nearest_by_distance() {
        for bits in (0x3800_0000..0x5000_0000).step_by(9_973) {
            let Size { significand, exponent } = Size::of(bits);
            let (size, unit) = ((100 * significand) << (40 + exponent), 1 << 40);
            let cm = centimetres(bits).expect("a small float") as u128;
            let twice = 2 * size.abs_diff(cm * unit);
            assert!(twice < unit || twice == unit && cm % 2 == 0, "{bits:#x}");
        }
    }

    /// A height of whole cm is that many cm again as a float.
    #[test]
    fn heights_as_floats() {
        let heights = (LOWEST..=HIGHEST).step_by(11).chain([-1, 0, 1, HIGHEST]);
        heights.for_each(|cm| assert_eq!(centimetres(nearest(cm)), Some(cm)));
    }
}
