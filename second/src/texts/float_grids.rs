//! Grids of floats: of a text's heights; and from a seed, each with its header: fields as floats, floats beside every
//! bound of docs/RULES.md, 11 Grids of floats, and hostile grids for every refusal of their reader.

use super::fields::{self, Field};
use super::lone_headers;
use super::seed::Seed;
use crate::rules::float::{centimetres, nearest};
use crate::rules::grid::{self, Shape, HIGHEST, LOWEST};
use crate::rules::refusal::Refusal;
use crate::rules::text::{read_grid, read_header};

/// A header and the bytes of the floats.
pub struct FloatGrid {
    pub header: Vec<u8>,
    pub floats: Vec<u8>,
}

const SIGN: u32 = 0x8000_0000;
const INFINITE: u32 = 0x7F80_0000;

/// NoData numbers in cm: the usual one, 0, small ones, the ends of the range and past them, the largest there are; some
/// halfway between two floats, as 16777217 m and 4194304.25 m, and a cm beside.
const NODATA: [i64; 20] = [
    -999_900, -999_900, -999_901, 0, 0, 1, -1, 1_250, HIGHEST, HIGHEST + 1, LOWEST - 1, 99_999_999_999, -99_999_999_999,
    1_677_721_700, 1_677_721_701, -1_677_721_701, -1_677_721_900, 838_860_850, 419_430_425, 3_355_443_400,
];

/// The NoData number of a field: absent, one of those, a height that occurs, or any.
fn nodata(seed: &mut Seed, field: &Field) -> Option<i64> {
    let occurs = seed.pick(&field.heights).unwrap_or(0);
    let any = seed.between(-99_999_999_999, 99_999_999_999);
    match seed.below(8) {
        0 => None,
        1 => Some(occurs),
        2 => Some(any),
        _ => Some(*seed.pick(&NODATA)),
    }
}

/// The last bits from those of a size in cm on that are rounded to it, by halving; the next ones are rounded to more.
fn last_of(size: i64) -> u32 {
    let (mut low, mut high) = (nearest(size), nearest(size + 1));
    while high - low > 1 {
        let middle = low + (high - low) / 2;
        if centimetres(middle) <= Some(size) { low = middle } else { high = middle }
    }
    low
}

/// A size or its opposite.
fn signed(seed: &mut Seed, size: u32) -> u32 {
    size | *seed.pick(&[0, SIGN])
}

/// A few places up or down among the bits.
fn beside(seed: &mut Seed, bits: u32) -> u32 {
    bits.wrapping_add(*seed.pick(&[0, 1, 2, u32::MAX, u32::MAX - 1]))
}

/// A float halfway between two centimetres: an odd number of eighths of a metre, which floats have exactly.
fn half(seed: &mut Seed) -> u32 {
    let most = *seed.pick(&[4, 40, 2_000, 36_000]);
    ((2 * seed.below(most) + 1) as f32 / 8.0).to_bits()
}

/// A float that a reader of heights has to take care of, accepted or not; `nodata` has the bits of the NoData number.
fn odd(seed: &mut Seed, nodata: u32) -> u32 {
    let (bits, size) = (seed.below(1 << 32) as u32, seed.between(0, HIGHEST));
    let end = *seed.pick(&[nearest(HIGHEST), last_of(HIGHEST), nearest(-LOWEST), last_of(-LOWEST)]);
    let (half, inner) = (half(seed), last_of(size));
    let large = *seed.pick(&[nearest(-999_900), 0x4B00_0000, 0x5B80_0000, INFINITE - 1]);
    let float = match seed.below(12) {
        0 => return bits,
        1 => return beside(seed, nodata),
        2 => return nodata,
        3 => INFINITE,
        4 => INFINITE | *seed.pick(&[1, 0x40_0000, 0x7F_FFFF, bits & 0x7F_FFFF]),
        5 => bits & 0x7F_FFFF,
        6 => 0,
        7 => beside(seed, large),
        8 => beside(seed, end),
        9 => beside(seed, inner),
        10 => half,
        _ => beside(seed, half),
    };
    signed(seed, float)
}

/// The same, but one that is accepted under this NoData number or another.
fn odd_height(seed: &mut Seed, nodata: u32) -> u32 {
    loop {
        let bits = odd(seed, nodata);
        let in_range = bits & INFINITE != INFINITE && centimetres(bits).is_some_and(|cm| (LOWEST..=HIGHEST).contains(&cm));
        if in_range || bits == nodata {
            return bits;
        }
    }
}

/// A field with a NoData number of its own.
fn field(seed: &mut Seed, number: usize) -> Field {
    let most = *seed.pick(&[1, 2, 5, 12, 24]);
    let small = Shape { rows: 1 + seed.below(most), columns: 1 + seed.below(most) };
    let shape = if seed.once_in(20) { fields::shape(seed) } else { small };
    let field = fields::field(seed, number % fields::RELIEFS.len(), shape);
    Field { nodata: nodata(seed, &field), ..field }
}

/// The floats of a field: those nearest to its heights, one in `share` an odd one that is accepted.
fn heights(seed: &mut Seed, field: &Field, share: usize) -> Vec<u32> {
    let nodata = nearest(field.nodata.unwrap_or(-999_900));
    let float = |height: &Option<i64>| match height {
        _ if seed.once_in(share) => odd_height(seed, nodata),
        Some(height) => nearest(*height),
        None => nodata,
    };
    field.heights.iter().map(float).collect()
}

fn bytes(floats: &[u32]) -> Vec<u8> {
    floats.iter().flat_map(|bits| bits.to_le_bytes()).collect()
}

/// The floats nearest to the heights of a text; those of NoData are the float of its NoData number.
pub fn of_text(text: &[u8]) -> Result<Vec<u8>, Refusal> {
    let (header, _) = read_header(text)?;
    let mut ground = vec![0; header.shape.cells()];
    read_grid(text, &mut ground)?;
    let number = |&height: &i32| if height == grid::NODATA { header.nodata } else { height.into() };
    Ok(bytes(&ground.iter().map(|height| nearest(number(height))).collect::<Vec<u32>>()))
}

/// Puts an odd float, accepted or not, into some cells.
fn spoil(seed: &mut Seed, field: &Field, floats: &mut [u32]) {
    let nodata = nearest(field.nodata.unwrap_or(-999_900));
    for _ in 0..1 + seed.below(4) {
        let cell = seed.below(floats.len());
        floats[cell] = odd(seed, nodata);
    }
}

/// Takes bytes away or adds some: a few, a cell's, a row's, or all.
fn resize(seed: &mut Seed, field: &Field, floats: &mut Vec<u8>) {
    let number = *seed.pick(&[1, 2, 3, 4, 5, 8, 4 * field.shape.columns, floats.len()]);
    match seed.below(2) {
        0 => floats.truncate(floats.len().saturating_sub(number)),
        _ => floats.resize(floats.len() + number, 0xFF),
    }
}

/// The grid of a number: accepted ones, spoiled cells, wrong lengths, words after the header and hostile headers in turn.
pub fn grid(seed: &mut Seed, number: usize) -> FloatGrid {
    let (field, kind) = (field(seed, number / 8), number % 8);
    let share = *seed.pick(&[1, 3, 20]);
    let mut floats = heights(seed, &field, share);
    if kind == 3 || kind > 3 && seed.once_in(2) {
        spoil(seed, &field, &mut floats);
    }
    let mut floats = bytes(&floats);
    if kind == 4 || kind > 4 && seed.once_in(4) {
        resize(seed, &field, &mut floats);
    }
    let header = match kind {
        0..5 => lone_headers::good(seed, &field),
        5 => lone_headers::followed(seed, &field),
        _ => lone_headers::hostile(seed, &field),
    };
    FloatGrid { header, floats }
}

#[cfg(test)]
mod tests {
    use super::*;
    use crate::rules::float_grid::read_floats;
    use std::collections::BTreeSet;

    /// The heights of the first grids of a seed, or the numbers of their refusals.
    fn read() -> Vec<Result<Vec<i32>, u32>> {
        let read = |number: usize| {
            let FloatGrid { header, floats } = grid(&mut Seed::of(1, number as u64), number);
            let cells = read_header(&header).map_or(0, |(header, _)| header.shape.cells());
            let mut heights = vec![0; cells];
            read_floats(&header, &floats, &mut heights).map(|_| heights).map_err(|Refusal { number, .. }| number)
        };
        (0..1_200).map(read).collect()
    }

    /// Every refusal but that of the lent length, which no program lends wrong; and enough that is accepted.
    #[test]
    fn every_answer_comes_up() {
        let read = read();
        let numbers: BTreeSet<u32> = read.iter().filter_map(|read| read.as_ref().err().copied()).collect();
        assert_eq!(numbers.into_iter().collect::<Vec<_>>(), [1, 3, 5, 6, 7, 8, 9, 10, 12, 14, 15]);
        let heights: Vec<i32> = read.into_iter().filter_map(Result::ok).flatten().collect();
        let has = |wanted: i64| heights.iter().any(|&height| i64::from(height) == wanted);
        assert!([LOWEST, HIGHEST, 0, 12, 38, -62, -88, -999_900].into_iter().all(has));
        assert!(heights.len() > 10_000);
    }

    /// 5 m, NoData 2.5 m and 0.05 m.
    #[test]
    fn floats_of_a_text() {
        let text = b"ncols 3 nrows 1 xllcorner 0 yllcorner 0 cellsize 10 nodata_value 2.5\n5 2.50 0.05";
        assert_eq!(of_text(text), Ok(bytes(&[0x40A0_0000, 0x4020_0000, 0x3D4C_CCCD])));
        assert_eq!(of_text(b"ncols"), Err(Refusal { number: 9, place: 5 }));
    }

    #[test]
    fn the_last_of_a_centimetre() {
        assert_eq!([HIGHEST, -LOWEST, 0].map(last_of), [0x460C_A005, 0x43FA_00A3, 0x3BA3_D70A]);
    }
}
