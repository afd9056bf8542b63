//! The floats of a field's heights as they were read, and a refusal of them in words.

use crate::library::{Header, Refusal};
use crate::messages::{cell_name, expected, metres};

/// The bytes of a file of floats, and its name in a message.
pub struct Floats {
    pub name: String,
    pub bytes: Vec<u8>,
}

/// A float by its shortest decimal; NaN with its bits.
fn shown(float: f32) -> String {
    if float.is_nan() { format!("NaN, by its bits {:08x},", float.to_bits()) } else { format!("{float:?}") }
}

impl Floats {
    /// The float of a cell.
    fn of(&self, cell: usize) -> Option<f32> {
        self.bytes.as_chunks().0.get(cell).map(|bytes| f32::from_le_bytes(*bytes))
    }

    /// What is wrong with a cell: where it lies, its float, and what was expected.
    fn fault(&self, refusal: Refusal, header: Header) -> String {
        let float = self.of(refusal.place).map_or_else(|| "nothing".to_string(), shown);
        let why = match refusal.number {
            15 => "is no height: a height is finite".to_string(),
            _ => {
                let bounds = "a height is from -500 to 9000 m when it is rounded to a cm";
                format!(
                    "is out of range: {bounds}, or the float nearest to the NoData number, {}",
                    metres(header.no_data)
                )
            }
        };
        format!("{}: {float} {why}", cell_name(refusal.place, header))
    }

    /// The message for a refusal of the floats under a good header.
    pub fn message(&self, refusal: Refusal, header: Header) -> String {
        let Refusal { number, place } = refusal;
        let (given, rows, columns) = (self.bytes.len(), header.rows, header.columns);
        let what = match number {
            5 | 15 => self.fault(refusal, header),
            14 => format!("{given} bytes; {rows} rows of {columns} heights want {}, four each", 4 * rows * columns),
            _ => expected(number).to_string(),
        };
        format!("{}: refused {number} at {place}: {what}", self.name)
    }
}

#[cfg(test)]
mod tests {
    use super::*;

    const HEADER: Header = Header { rows: 2, columns: 2, side: 1000, no_data: -999_900 };

    /// The message for a refusal of four floats.
    fn said(floats: [f32; 4], number: u32, place: usize, no_data: i64) -> String {
        let bytes = floats.iter().flat_map(|float| float.to_le_bytes()).collect();
        let floats = Floats { name: "a.flt".into(), bytes };
        floats.message(Refusal { number, place }, Header { no_data, ..HEADER })
    }

    #[test]
    fn a_bad_cell_is_told_with_its_float() {
        let out =
            "is out of range: a height is from -500 to 9000 m when it is rounded to a cm, or the float nearest to";
        let told = said([1.0, 2.0, 9000.01, 3.0], 5, 2, -999_900);
        assert_eq!(told, format!("a.flt: refused 5 at 2: row 1, column 0: 9000.01 {out} the NoData number, -9999.00"));
        assert!(said([1.0, -9999.0, 0.0, 0.0], 5, 1, 5).contains("row 0, column 1: -9999.0 is out of range"));
        assert!(said([-3.402_823_5e38; 4], 5, 0, -5).contains("row 0, column 0: -3.4028235e38 is out of range"));
        assert!(said([1e9; 4], 5, 0, -5).ends_with("the NoData number, -0.05"));
    }

    #[test]
    fn a_float_that_is_not_finite_is_named() {
        let end = "is no height: a height is finite";
        let told = said([0.0, f32::NEG_INFINITY, 0.0, 0.0], 15, 1, 0);
        assert_eq!(told, format!("a.flt: refused 15 at 1: row 0, column 1: -inf {end}"));
        let told = said([0.0, 0.0, 0.0, f32::from_bits(0x7f80_0001)], 15, 3, 0);
        assert_eq!(told, format!("a.flt: refused 15 at 3: row 1, column 1: NaN, by its bits 7f800001, {end}"));
    }

    #[test]
    fn wrong_lengths_are_told() {
        let floats = Floats { name: "standard input".into(), bytes: vec![0; 15] };
        let told = floats.message(Refusal { number: 14, place: 0 }, HEADER);
        assert_eq!(told, "standard input: refused 14 at 0: 15 bytes; 2 rows of 2 heights want 16, four each");
        let told = floats.message(Refusal { number: 2, place: 0 }, HEADER);
        assert!(told.ends_with("refused 2 at 0: a lent grid has the wrong length, which is a fault of lsmap"));
    }
}
