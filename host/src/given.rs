//! The directions that someone else drew, a text grid of codes: what is handed on of it, and a refusal of it in words.

use crate::Stop;
use crate::beside::{self, Beside};
use crate::faults::{Judged, NO_HEIGHT};
use crate::library::{Header, Refusal};
use crate::messages::cell_name;
use crate::sheet::NO_DIRECTION;

/// A code that is none of the ten: it stands for a number that is no byte, which the library then refuses.
const NO_CODE: u8 = 3;

/// The text of given directions.
pub struct Given(pub Beside);

/// The code of a number as the reader gives it, in hundredths.
fn code(hundredths: i32) -> u8 {
    if hundredths == NO_HEIGHT { NO_DIRECTION } else { beside::byte(hundredths).unwrap_or(NO_CODE) }
}

impl Given {
    /// The codes, in the field's shape.
    pub fn codes(&self, field: Header) -> Result<Vec<u8>, Stop> {
        self.0.bytes(field, code)
    }

    /// A refusal of the codes, 17 or 18, with its message.
    pub fn refusal(&self, refusal: Refusal, judged: &Judged) -> Stop {
        let Refusal { number, place } = refusal;
        let what = match number {
            17 => {
                let (cell, word) = (cell_name(place, judged.header), self.0.word(place, judged.header));
                format!("{cell}, `{word}`: {}", judged.broken_rule(place))
            }
            _ => judged.ring_named(place),
        };
        self.0.refused(refusal, format!("refused {number} at {place}: {what}"))
    }
}

#[cfg(test)]
mod tests {
    use super::*;
    use crate::beside::tests::{PAIR, pair, said};
    use crate::messages::Text;

    #[test]
    fn numbers_are_codes() {
        assert_eq!([0, 100, 12_800, 25_500, NO_HEIGHT].map(code), [0, 1, 128, 255, 255]);
        assert_eq!([300, 9_900].map(code), [3, 99], "what is a byte is handed on");
        for number in [150, -100, 25_600] {
            assert_eq!(code(number), NO_CODE, "{number}");
        }
    }

    #[test]
    fn a_refusal_names_the_file_and_the_cell() {
        let judged = Judged { header: PAIR, codes: &[1, 16], filled: &[500, 700] };
        let given = Given(pair("1 16.0", Text::Codes));
        let said = |number, place| said(given.refusal(Refusal { number, place }, &judged));
        let uphill = "`1`: points east and uphill: from a filled height of 5.00 m to 7.00 m at row 0, column 1";
        assert_eq!(said(17, 0), format!("a.asc: refused 17 at 0: row 0, column 0, {uphill}"));
        assert!(said(17, 1).starts_with("a.asc: refused 17 at 1: row 0, column 1, `16.0`: points west and uphill"));
        let ring = "a trail goes round: row 0, column 0; row 0, column 1; and back to the first";
        assert_eq!(said(18, 0), format!("a.asc: refused 18 at 0: {ring}"));
    }
}
