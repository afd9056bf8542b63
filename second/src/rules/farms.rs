//! Two farms on one map: each cell's mark names the farm whose settings it has; with one farm all cells have the same.
//! States docs/RULES.md, 7.1 Settings and 7.2 The map call, for one farm and for two.

use super::beside::{byte, read_bytes};
use super::grid::Shape;
use super::refusal::{self, refuse, Refusal};
use super::settings::{percents, Percents, Settings};

/// Whose settings the cells have: those of one farm, or of the farm that each cell's mark names, 0 or 1.
#[derive(Clone, Debug, PartialEq)]
pub enum Farms {
    One(Settings),
    Two { marks: Vec<u8>, settings: [Settings; 2] },
}

/// Accepted settings and marks.
pub struct Accepted<'a> {
    percents: [Percents; 2],
    marks: Option<&'a [u8]>,
}

impl Accepted<'_> {
    /// The settings of a cell's farm.
    pub fn of(&self, cell: usize) -> &Percents {
        let farm = self.marks.map_or(0, |marks| marks[cell]);
        &self.percents[usize::from(farm)]
    }
}

/// The places of refusal 4 for farm 1's settings are 4, 5 and 6.
fn second_percents(settings: Settings) -> Result<Percents, Refusal> {
    percents(settings).map_err(|Refusal { number, place }| Refusal { number, place: place + 3 })
}

impl Farms {
    /// Whether there is a mark for each cell.
    pub fn fit(&self, shape: Shape) -> bool {
        match self {
            Farms::One(_) => true,
            Farms::Two { marks, .. } => marks.len() == shape.cells(),
        }
    }

    /// 4, a setting not accepted, also of a farm that no cell names; then 19, a farm mark above 1, at the first such cell.
    pub fn accepted(&self) -> Result<Accepted<'_>, Refusal> {
        match self {
            Farms::One(settings) => {
                let percents = percents(*settings)?;
                Ok(Accepted { percents: [percents; 2], marks: None })
            }
            Farms::Two { marks, settings } => {
                let percents = [percents(settings[0])?, second_percents(settings[1])?];
                let bad = marks.iter().position(|&mark| mark > 1);
                bad.map_or(Ok(Accepted { percents, marks: Some(marks) }), |cell| refuse(refusal::MARK, cell))
            }
        }
    }
}

/// What a number that is no byte, and NoData, is handed on as: a mark above 1.
const NO_MARK: u8 = 255;

fn mark(cm: i32) -> u8 {
    byte(cm).unwrap_or(NO_MARK)
}

/// The settings of one farm; or the text with the marks of two and the settings of both.
#[derive(Clone, Copy, Debug, PartialEq)]
pub enum Asked<'a> {
    One(Settings),
    Two { marks: &'a [u8], settings: [Settings; 2] },
}

impl Asked<'_> {
    /// The farms of a field of this shape, once the marks are read.
    pub fn read(self, shape: Shape) -> Result<Farms, Refusal> {
        match self {
            Asked::One(settings) => Ok(Farms::One(settings)),
            Asked::Two { marks, settings } => Ok(Farms::Two { marks: read_bytes(marks, shape, mark)?, settings }),
        }
    }
}

#[cfg(test)]
mod tests {
    use super::super::settings::{Channel, LIBRARY, PRINTER};
    use super::*;

    const HEADER: &str = "ncols 2 nrows 1 xllcorner 0 yllcorner 0 cellsize 10 ";

    /// The marks of a text of one row of two.
    fn read(rest: &str, rows: usize, columns: usize) -> Result<Vec<u8>, (u32, usize)> {
        let text = format!("{HEADER}{rest}");
        let asked = Asked::Two { marks: text.as_bytes(), settings: [PRINTER; 2] };
        match asked.read(Shape { rows, columns }) {
            Ok(Farms::Two { marks, .. }) => Ok(marks),
            Ok(Farms::One(_)) => unreachable!("there are two"),
            Err(Refusal { number, place }) => Err((number, place)),
        }
    }

    /// What is no byte, and NoData, is a mark above 1; any byte is handed on as it is.
    #[test]
    fn marks_are_bytes() {
        assert_eq!(read("0 1", 1, 2), Ok(vec![0, 1]));
        assert_eq!(read("-0.00 001.0", 1, 2), Ok(vec![0, 1]));
        assert_eq!(read("2 255", 1, 2), Ok(vec![2, 255]));
        assert_eq!(read("256 257", 1, 2), Ok(vec![NO_MARK; 2]));
        assert_eq!(read("-1 0.5", 1, 2), Ok(vec![NO_MARK; 2]));
        assert_eq!(read("-9999 1", 1, 2), Ok(vec![NO_MARK, 1]));
        assert_eq!(read("nodata_value 1 0 1", 1, 2), Ok(vec![0, NO_MARK]));
    }

    /// The text's own refusals come before that of its shape, which is not its number of cells.
    #[test]
    fn marks_are_read_as_a_field() {
        assert_eq!(read("0 1", 2, 1), Err((2, 0)));
        assert_eq!(read("0 0,5", 2, 1), Err((12, HEADER.len() + 3)));
        assert_eq!(read("0", 1, 2), Err((9, HEADER.len() + 1)));
        assert_eq!(read("0 1 0", 1, 2), Err((10, HEADER.len() + 4)));
        assert_eq!(read("0 9001", 1, 2), Err((5, HEADER.len() + 2)));
    }

    fn refusal(marks: &[u8], settings: [Settings; 2]) -> Option<(u32, usize)> {
        let farms = Farms::Two { marks: marks.to_vec(), settings };
        farms.accepted().err().map(|Refusal { number, place }| (number, place))
    }

    /// The first bad setting of farm 0, then of farm 1, whether a cell names it or not; only then the marks.
    #[test]
    fn settings_of_both_farms_then_marks() {
        let [low, high] = [Settings { low: 2.0, ..LIBRARY }, Settings { high: 2.0, ..LIBRARY }];
        let channel = Settings { channel: Channel::Percentage(0.05), ..LIBRARY };
        let all = Settings { low: 2.0, high: 2.0, ..channel };
        for marks in [[0, 0], [0, 1], [1, 1], [2, 1]] {
            let places = [low, high, channel].map(|bad| [refusal(&marks, [bad, LIBRARY]), refusal(&marks, [LIBRARY, bad])]);
            assert_eq!(places, [1, 2, 3].map(|place| [Some((4, place)), Some((4, place + 3))]));
            assert_eq!(refusal(&marks, [channel, all]), Some((4, 3)));
            assert_eq!(refusal(&marks, [LIBRARY, all]), Some((4, 4)));
        }
        assert_eq!(refusal(&[0, 1, 2, 255], [LIBRARY; 2]), Some((19, 2)));
        assert_eq!(refusal(&[0, 1], [LIBRARY; 2]), None);
    }

    /// A cell has its own farm's settings; with one farm each cell has that one's.
    #[test]
    fn cells_have_their_farms_settings() {
        let other = Settings { low: 0.2, ..LIBRARY };
        let lows = |farms: Farms| farms.accepted().map(|accepted| [0, 1, 2].map(|cell| accepted.of(cell).low));
        assert_eq!(lows(Farms::Two { marks: vec![1, 0, 1], settings: [LIBRARY, other] }), Ok([20, 70, 20]));
        assert_eq!(lows(Farms::One(other)), Ok([20; 3]));
    }
}
