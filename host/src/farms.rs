//! The farm of each cell, a text grid of marks: what is handed on of it, and a refusal of it in words.

use crate::Stop;
use crate::beside::{self, Beside};
use crate::library::{Header, Refusal};
use crate::messages::cell_name;

/// A mark above 1: it stands for a number that is no byte, and for NoData, which the library then refuses.
const NO_MARK: u8 = 255;

/// The text of the farms' marks.
pub struct Farms(pub Beside);

/// The mark of a number as the reader gives it, in hundredths.
fn mark(hundredths: i32) -> u8 {
    beside::byte(hundredths).unwrap_or(NO_MARK)
}

impl Farms {
    /// The marks, in the field's shape.
    pub fn marks(&self, field: Header) -> Result<Vec<u8>, Stop> {
        self.0.bytes(field, mark)
    }

    /// A refusal of the marks, 19, with its message.
    pub fn refusal(&self, refusal: Refusal, header: Header) -> Stop {
        let Refusal { number, place } = refusal;
        let (cell, word) = (cell_name(place, header), self.0.word(place, header));
        let rule = "a mark is 0 or 1, in NoData cells too, and never the NoData number";
        self.0.refused(refusal, format!("refused {number} at {place}: {cell}, `{word}`: {rule}"))
    }
}

#[cfg(test)]
mod tests {
    use super::*;
    use crate::beside::tests::{PAIR, pair, said};
    use crate::faults::NO_HEIGHT;
    use crate::messages::Text;

    #[test]
    fn numbers_are_marks() {
        assert_eq!([0, 100, 200, 25_500].map(mark), [0, 1, 2, 255], "what is a byte is handed on");
        for number in [150, -100, 1, 99, 101, 25_600, 30_000, NO_HEIGHT] {
            assert_eq!(mark(number), NO_MARK, "{number}");
        }
    }

    #[test]
    fn a_refusal_names_the_file_the_cell_and_the_mark() {
        let said = said(Farms(pair("1 300.0", Text::Marks)).refusal(Refusal { number: 19, place: 1 }, PAIR));
        let rule = "a mark is 0 or 1, in NoData cells too, and never the NoData number";
        assert_eq!(said, format!("a.asc: refused 19 at 1: row 0, column 1, `300.0`: {rule}"));
    }
}
