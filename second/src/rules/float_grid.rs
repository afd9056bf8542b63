//! The reader of grids of 32-bit floats, with the header as a text beside them. States docs/RULES.md, 11 Grids of floats.

use super::float::{centimetres, equal, is_finite, nearest};
use super::grid::{HIGHEST, LOWEST, NODATA};
use super::refusal::{self, refuse, Refusal};
use super::text::{read_lone_header, Header};

/// The height of a cell by its float's bits and those of the NoData number; or the refusal's number. 15, NaN or infinite;
/// a float equal to that of the NoData number is NoData; else 5 after rounding, also at -999,900.
pub fn height(bits: u32, nodata: u32) -> Result<i32, u32> {
    if !is_finite(bits) {
        return Err(refusal::NOT_FINITE);
    }
    if equal(bits, nodata) {
        return Ok(NODATA);
    }
    match centimetres(bits) {
        Some(cm) if (LOWEST..=HIGHEST).contains(&cm) => Ok(cm as i32),
        _ => Err(refusal::HEIGHT),
    }
}

/// Reads a header and little-endian floats, north row first, into lent heights; answers as the text reader does. The
/// refusals of the header call, 10 for a word after the header, 2, 14, then cell by cell. A refusal changes no lent grid.
pub fn read_floats(header: &[u8], floats: &[u8], lent: &mut [i32]) -> Result<Header, Refusal> {
    let header = read_lone_header(header)?;
    if lent.len() != header.shape.cells() {
        return refuse(refusal::LENT, 0);
    }
    if floats.len() != 4 * header.shape.cells() {
        return refuse(refusal::BYTES, 0);
    }
    let nodata = nearest(header.nodata);
    let bits = floats.chunks(4).map(|float| u32::from_le_bytes(float.try_into().expect("four bytes to a cell")));
    let judged = |(cell, bits)| height(bits, nodata).or_else(|number| refuse(number, cell));
    let heights = bits.enumerate().map(judged).collect::<Result<Vec<i32>, Refusal>>()?;
    lent.copy_from_slice(&heights);
    Ok(header)
}

#[cfg(test)]
mod tests {
    use super::*;
    use crate::rules::grid::Shape;

    const HEADER: &str = "ncols 3\nnrows 2\nxllcorner 0\nyllcorner 0\ncellsize 10\n";
    const MINUS_ZERO: u32 = 0x8000_0000;
    const NAN: u32 = 0x7FC0_0000;

    fn bytes(floats: &[u32]) -> Vec<u8> {
        floats.iter().flat_map(|bits| bits.to_le_bytes()).collect()
    }

    /// The heights of six floats under a NoData number, or number and place of the refusal.
    fn read(nodata: &str, floats: [u32; 6]) -> Result<[i32; 6], (u32, usize)> {
        let mut lent = [7; 6];
        let read = read_floats(format!("{HEADER}{nodata}").as_bytes(), &bytes(&floats), &mut lent);
        assert!(read.is_ok() || lent == [7; 6], "a refusal changes no lent grid");
        read.map(|_| lent).map_err(|Refusal { number, place }| (number, place))
    }

    /// 5, -0.05, 0.125 and 9000 m, minus zero and -9999.
    #[test]
    fn heights_in_centimetres() {
        let floats = [0x40A0_0000, 0xBD4C_CCCD, 0x3E00_0000, 0x460C_A000, MINUS_ZERO, 0xC61C_3C00];
        assert_eq!(read("", floats), Ok([500, -5, 12, 900_000, 0, NODATA]));
        let header = format!("{HEADER}nodata_value -9999 ");
        let answer = Header { shape: Shape { rows: 2, columns: 3 }, side: 1_000, nodata: -999_900 };
        assert_eq!(read_floats(header.as_bytes(), &bytes(&floats), &mut [0; 6]), Ok(answer));
    }

    /// Equality is of floats: with 0 both zeros, with 0.01 the one float nearest to it, with 16777217 the float 2^24.
    #[test]
    fn nodata_by_float_equality() {
        let zeros = [0, MINUS_ZERO, 1, MINUS_ZERO | 1, 0x3F80_0000, 0];
        assert_eq!(read("nodata_value 0", zeros), Ok([NODATA, NODATA, 0, 0, 100, NODATA]));
        assert_eq!(read("nodata_value -0", [MINUS_ZERO, 0, 0, 0, 0, 0]), Ok([NODATA; 6]));
        let hundredth = [0x3C23_D70A, 0x3C23_D709, 0x3C23_D70B, 0xBC23_D70A, 0, 0];
        assert_eq!(read("nodata_value 0.01", hundredth), Ok([NODATA, 1, 1, -1, 0, 0]));
        assert_eq!(read("nodata_value 16777217", [0x4B80_0000; 6]), Ok([NODATA; 6]));
        assert_eq!(read("nodata_value 16777217", [0x4B80_0000, 0, 0x4B80_0001, 0, 0, 0]), Err((5, 2)));
        assert_eq!(read("nodata_value 999999999.99", [0x4E6E_6B28; 6]), Ok([NODATA; 6]));
        assert_eq!(read("nodata_value -999999999.99", [0xCE6E_6B28; 6]), Ok([NODATA; 6]));
        assert_eq!(read("nodata_value -999999999.99", [0x4E6E_6B28; 6]), Err((5, 0)));
    }

    /// Any other float that rounds to -999,900 gets 5, whatever the NoData number is.
    #[test]
    fn nodata_is_not_made_by_rounding() {
        assert_eq!(read("", [0, 0xC61C_3C00, 0xC61C_3C01, 0, 0, 0]), Err((5, 2)));
        assert_eq!(read("nodata_value 0", [0, 0, 0, 0, 0, 0xC61C_3C00]), Err((5, 5)));
        assert_eq!(read("nodata_value -9999.01", [0xC61C_3C0A, 0xC61C_3C00, 0, 0, 0, 0]), Err((5, 1)));
    }

    /// The largest and least floats that are accepted, and the first past them.
    #[test]
    fn ends_of_the_range() {
        let ends = [0x460C_A005, 0x460C_A004, 0xC3FA_00A3, 0x43FA_00A4, 0x7F_FFFF, 0x8000_0001];
        assert_eq!(read("", ends), Ok([900_000, 900_000, -50_000, 50_001, 0, 0]));
        for past in [0x460C_A006, 0xC3FA_00A4, 0x4B80_0000, 0x7F7F_FFFF, 0xFF7F_FFFF] {
            assert_eq!(read("", [0, 0, 0, 0, past, NAN]), Err((5, 4)), "{past:#x}");
        }
    }

    /// NaN of any payload and both infinities, in the order of the cells with 5.
    #[test]
    fn not_finite() {
        for bits in [NAN, 0xFFC0_0000, 0x7F80_0001, 0xFFFF_FFFF, 0x7F80_0000, 0xFF80_0000] {
            assert_eq!(read("", [0, 0, 0, bits, NAN, 0x7F7F_FFFF]), Err((15, 3)), "{bits:#x}");
            assert_eq!(read("", [0, 0, 0x7F7F_FFFF, bits, 0, 0]), Err((5, 2)), "{bits:#x}");
        }
    }

    /// The header's own refusals, 10, 2, 14 and the cells, in that order; what is wrong later does not matter.
    #[test]
    fn refusals_in_their_order() {
        let refused = |header: &str, floats: &[u8], cells: usize| {
            let mut lent = vec![7; cells];
            let Refusal { number, place } = read_floats(header.as_bytes(), floats, &mut lent).unwrap_err();
            assert_eq!(lent, vec![7; cells]);
            (number, place)
        };
        let after = HEADER.len();
        assert_eq!(refused("", &[], 0), (9, 0));
        assert_eq!(refused("ncols 3 nrows 0 5", &[0; 3], 5), (1, 14));
        assert_eq!(refused(&format!("{HEADER}byteorder LSBFIRST"), &[0; 3], 5), (6, after));
        assert_eq!(refused(&format!("{HEADER}nodata_value -9999,5 5"), &[0; 3], 5), (12, after + 18));
        assert_eq!(refused(&format!("{HEADER}nodata_value"), &[0; 3], 5), (9, after + 12));
        assert_eq!(refused(&format!("{HEADER}nodata_value 0\nbyteorder LSBFIRST"), &[0; 3], 5), (10, after + 15));
        assert_eq!(refused(&format!("{HEADER}5 5 5"), &[0; 3], 5), (10, after));
        assert_eq!(refused(&format!("{HEADER}\0"), &[0; 3], 5), (10, after));
        assert_eq!(refused(HEADER, &[0; 3], 5), (2, 0));
        assert_eq!(refused(HEADER, &[0xFF; 24], 7), (2, 0));
        for wrong in [0, 4, 20, 23, 25, 28, 48] {
            assert_eq!(refused(HEADER, &vec![0xFF; wrong], 6), (14, 0), "{wrong}");
        }
        assert_eq!(refused(HEADER, &[0xFF; 24], 6), (15, 0));
    }
}
