//! A text grid that stands beside a field, of whole numbers that each fit a byte: what the library reads in it.

use crate::Stop;
use crate::flags::Field;
use crate::library::{self, Header, Refusal};
use crate::messages::{self, Text};
use crate::number::words;

/// The text of such a grid, what its numbers are, and its name in a message.
pub struct Beside {
    pub name: String,
    pub text: Vec<u8>,
    pub kind: Text,
}

/// The byte of a number as the reader gives it, in hundredths, if it is one. NoData is none.
pub fn byte(hundredths: i32) -> Option<u8> {
    u8::try_from(hundredths / 100).ok().filter(|_| hundredths % 100 == 0)
}

impl Beside {
    /// Reads the file of such a grid.
    pub fn read(file: &Field, kind: Text) -> Result<Beside, Stop> {
        Ok(Beside { name: file.name(), text: crate::read(file)?, kind })
    }

    /// A refusal with its message, in which the file is named.
    pub fn refused(&self, refusal: Refusal, message: String) -> Stop {
        Stop::Refused(refusal, format!("{}: {message}", self.name))
    }

    /// Has the library read the numbers, which have to have the field's shape; each is handed on as a byte.
    pub fn bytes(&self, field: Header, handed_on: fn(i32) -> u8) -> Result<Vec<u8>, Stop> {
        let of_text = |r, h| self.refused(r, messages::of_text(&self.text, r, h, self.kind));
        let (header, _) = library::read_header(&self.text).map_err(|r| of_text(r, None))?;
        let mut numbers = vec![0; header.rows * header.columns];
        let header = library::read_grid(&self.text, &mut numbers).map_err(|r| of_text(r, Some(header)))?;
        if (header.rows, header.columns) != (field.rows, field.columns) {
            return Err(self.refused(Refusal { number: 2, place: 0 }, other_shape(header, field, self.kind)));
        }
        Ok(numbers.into_iter().map(handed_on).collect())
    }

    /// The word of a cell as it may be shown; the text was accepted, so its last words are those of the cells.
    pub fn word(&self, cell: usize, header: Header) -> String {
        let cells = header.rows * header.columns;
        words(&self.text).rev().nth(cells - 1 - cell).unwrap_or_default().escape_ascii().to_string()
    }
}

/// The message for a grid of another shape than the field's.
fn other_shape(header: Header, field: Header, kind: Text) -> String {
    let (Header { rows, columns, .. }, cells) = (header, kind.cells());
    format!("refused 2 at 0: {rows} rows of {columns} {cells}; the field has {} rows of {}", field.rows, field.columns)
}

#[cfg(test)]
pub mod tests {
    use super::*;
    use crate::faults::NO_HEIGHT;

    pub const PAIR: Header = Header { rows: 1, columns: 2, side: 1000, no_data: NO_HEIGHT as i64 };

    /// A text of two numbers in a file a.asc.
    pub fn pair(numbers: &str, kind: Text) -> Beside {
        let header = "ncols 2 nrows 1 xllcorner 0 yllcorner 0 cellsize 10 nodata_value -9999";
        Beside { name: "a.asc".into(), text: format!("{header}\n{numbers}").into(), kind }
    }

    /// The message of a refusal, without its number and place.
    pub fn said(stop: Stop) -> String {
        match stop {
            Stop::Refused(_, message) => message,
            _ => panic!("no refusal"),
        }
    }

    #[test]
    fn whole_numbers_are_bytes() {
        assert_eq!([0, 100, 300, 12_800, 25_500].map(byte), [0, 1, 3, 128, 255].map(Some));
        for number in [150, -100, -50, 50, 1, 25_501, 25_600, 30_000, 900_000, -50_000, NO_HEIGHT] {
            assert_eq!(byte(number), None, "{number}");
        }
    }

    #[test]
    fn a_cell_has_its_very_word() {
        for (numbers, first, second) in [("1 -0.50", "1", "-0.50"), ("\t300\r\n 007 \n\n", "300", "007")] {
            let text = pair(numbers, Text::Codes);
            assert_eq!([0, 1].map(|cell| text.word(cell, PAIR)), [first, second]);
        }
    }

    #[test]
    fn both_shapes_are_told() {
        let said = |kind| other_shape(PAIR, Header { rows: 2, columns: 1, ..PAIR }, kind);
        assert_eq!(said(Text::Codes), "refused 2 at 0: 1 rows of 2 codes; the field has 2 rows of 1");
        assert_eq!(said(Text::Marks), "refused 2 at 0: 1 rows of 2 marks; the field has 2 rows of 1");
    }
}
