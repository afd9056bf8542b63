//! The reader of grids of 32-bit floats, in two passes: everything is judged before the first height is stored.
//! docs/RULES.md, 11 Grids of floats.

use crate::text::{read_lone_header, Header};
use crate::{refuse, Refusal, NODATA};

/// The float nearest to a number of cm; a decimal is read with one rounding.
fn nearest(cm: i64) -> f32 {
    let (sign, size) = (if cm < 0 { "-" } else { "" }, cm.unsigned_abs());
    format!("{sign}{}.{:02}", size / 100, size % 100).parse().expect("a decimal is a float")
}

/// 1.5 · 2^52. The floats of 64 bits near it are whole numbers, so a sum with it is rounded to one, halfway cases to the
/// even one. `round_ties_even` does the same by a function call where the processor may be an old one, and the reader
/// took two thirds more time.
const WHOLE: f64 = 6_755_399_441_055_744.0;

/// A cell's height, or the number of its refusal. The product has 31 bits, so it is exact.
#[inline]
fn height(bytes: &[u8], no_data: f32) -> Result<i32, u32> {
    let metres = f32::from_le_bytes(bytes.try_into().expect("four bytes to a cell"));
    if !metres.is_finite() {
        return Err(15);
    }
    if metres == no_data {
        return Ok(NODATA);
    }
    let cm = f64::from(metres) * 100.0 + WHOLE - WHOLE;
    if (-50_000.0..=900_000.0).contains(&cm) { Ok(cm as i32) } else { Err(5) }
}

/// Reads a header and little-endian floats into the lent heights; a refusal leaves them as they were.
pub fn read_floats(header: &[u8], floats: &[u8], heights: &mut [i32]) -> Result<Header, Refusal> {
    let header = read_lone_header(header)?;
    if heights.len() != header.rows * header.columns {
        return refuse(2, 0);
    }
    if floats.len() != 4 * heights.len() {
        return refuse(14, 0);
    }
    let no_data = nearest(header.no_data);
    let cells = floats.chunks_exact(4);
    for (cell, bytes) in cells.clone().enumerate() {
        if let Err(number) = height(bytes, no_data) {
            return refuse(number, cell);
        }
    }
    for (place, bytes) in heights.iter_mut().zip(cells) {
        *place = height(bytes, no_data).expect("judged before");
    }
    Ok(header)
}
