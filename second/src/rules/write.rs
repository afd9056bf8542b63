//! The writer of text grids: the text of a grid, and the call that puts it into a lent room. States docs/RULES.md,
//! 10 The text that is written.

use super::direction::NO_DIRECTION;
use super::factor::{NO_FACTOR, TOO_LONG};
use super::grid::{Shape, HIGHEST, LARGEST_SIDE, LOWEST, MOST_ROWS, NODATA};
use super::number::{judge, Form};
use super::refusal::{self, refuse, Refusal};

/// A grid that has a text: ground or filled heights in cm, flow counts, LS in hundred-thousandths, codes of directions.
#[derive(Clone, Copy)]
pub enum Numbers<'a> {
    Heights(&'a [i32]),
    Counts(&'a [u32]),
    Factors(&'a [u32]),
    Codes(&'a [u8]),
}

/// What the header of a text says: rows and columns, cell side in cm, and the two corner words.
#[derive(Clone, Copy)]
pub struct Frame<'a> {
    pub shape: Shape,
    pub side: i64,
    pub corners: [&'a [u8]; 2],
}

/// NoData (height -999,900, count 0, LS 4,294,967,295, code 255) and too long are both -9999.
const NOTHING: &str = "-9999";

/// Centimetres as metres with two decimals.
fn metres(cm: i64) -> String {
    let sign = if cm < 0 { "-" } else { "" };
    format!("{sign}{}.{:02}", cm.abs() / 100, cm.abs() % 100)
}

fn height_word(height: i32) -> String {
    if height == NODATA { NOTHING.to_string() } else { metres(height.into()) }
}

fn count_word(count: u32) -> String {
    if count == 0 { NOTHING.to_string() } else { count.to_string() }
}

/// LS has five decimals.
fn factor_word(factor: u32) -> String {
    match factor {
        NO_FACTOR | TOO_LONG => NOTHING.to_string(),
        _ => format!("{}.{:05}", factor / 100_000, factor % 100_000),
    }
}

/// Codes are written as counts are; code 0 is a word of its own.
fn code_word(code: u8) -> String {
    if code == NO_DIRECTION { NOTHING.to_string() } else { code.to_string() }
}

impl Numbers<'_> {
    /// The words of the cells, in row order.
    fn words(&self) -> Vec<String> {
        match self {
            Numbers::Heights(grid) => grid.iter().copied().map(height_word).collect(),
            Numbers::Counts(grid) => grid.iter().copied().map(count_word).collect(),
            Numbers::Factors(grid) => grid.iter().copied().map(factor_word).collect(),
            Numbers::Codes(grid) => grid.iter().copied().map(code_word).collect(),
        }
    }

    fn cells(&self) -> usize {
        match self {
            Numbers::Heights(grid) => grid.len(),
            Numbers::Counts(grid) | Numbers::Factors(grid) => grid.len(),
            Numbers::Codes(grid) => grid.len(),
        }
    }

    /// The first height that is out of range and not NoData; counts, LS and codes have no range.
    fn first_bad(&self) -> Option<usize> {
        let Numbers::Heights(heights) = self else { return None };
        let bad = |&height: &i32| height != NODATA && !(LOWEST..=HIGHEST).contains(&i64::from(height));
        heights.iter().position(bad)
    }
}

/// The refusals before the text is made: 1, 2, 3; 7 for a corner word of bad form, commas too; 5.
fn judged(frame: &Frame, grid: &Numbers) -> Result<(), Refusal> {
    let Frame { shape, side, corners } = frame;
    let good = 1..=MOST_ROWS;
    if !good.contains(&shape.rows) || !good.contains(&shape.columns) {
        return refuse(refusal::SHAPE, 0);
    }
    if grid.cells() != shape.cells() {
        return refuse(refusal::LENT, 0);
    }
    if *side < 1 || *side > LARGEST_SIDE {
        return refuse(refusal::SIDE, 0);
    }
    if let Some(corner) = corners.iter().position(|word| judge(0, word, Form::Number).is_err()) {
        return refuse(refusal::FORM, corner + 1);
    }
    grid.first_bad().map_or(Ok(()), |cell| refuse(refusal::HEIGHT, cell))
}

/// The full text: the header, one name and number to a line, then one line per row; one space between two words, LF
/// after each line.
fn text(frame: &Frame, grid: &Numbers) -> Vec<u8> {
    let Frame { shape, side, corners } = frame;
    let line = |words: &[&[u8]]| [&words.join(&b' '), &b"\n"[..]].concat();
    let words = grid.words();
    let words: Vec<&[u8]> = words.iter().map(String::as_bytes).collect();
    let header = [
        line(&[b"ncols", shape.columns.to_string().as_bytes()]),
        line(&[b"nrows", shape.rows.to_string().as_bytes()]),
        line(&[b"xllcorner", corners[0]]),
        line(&[b"yllcorner", corners[1]]),
        line(&[b"cellsize", metres(*side).as_bytes()]),
        line(&[b"nodata_value", NOTHING.as_bytes()]),
    ];
    header.into_iter().chain(words.chunks(shape.columns).map(line)).flatten().collect()
}

/// Bytes in which every text of a shape has room: the longest header, with counts of four digits, corner words of 17
/// bytes and the side 1000.00; and for each cell the longest word, an LS of eleven bytes, with what stands after it.
pub fn room(shape: Shape) -> usize {
    114 + 12 * shape.cells()
}

/// Writes a grid's text into the room and gives the text's length; the room past it, at a refusal all of it, stays as
/// it was. 13 exactly when the full text is longer than the room.
pub fn write(frame: Frame, grid: Numbers, room: &mut [u8]) -> Result<usize, Refusal> {
    judged(&frame, &grid)?;
    let text = text(&frame, &grid);
    match room.get_mut(..text.len()) {
        None => refuse(refusal::ROOM, 0),
        Some(place) => {
            place.copy_from_slice(&text);
            Ok(text.len())
        }
    }
}

#[cfg(test)]
mod tests {
    use super::Numbers::{Codes, Counts, Factors, Heights};
    use super::*;

    const ROW: Frame = Frame { shape: Shape { rows: 1, columns: 4 }, side: 1_000, corners: [b"-12.500000", b"007"] };

    /// The text that is written, or number and place of the refusal.
    fn written(frame: Frame, grid: Numbers) -> Result<String, (u32, usize)> {
        let mut room = vec![0; room(frame.shape)];
        match write(frame, grid, &mut room) {
            Ok(length) => Ok(String::from_utf8(room[..length].to_vec()).expect("a text is of ASCII letters")),
            Err(Refusal { number, place }) => Err((number, place)),
        }
    }

    #[test]
    fn words_of_cells() {
        let heights = [1_250, 5, -5, 0, -50_000, 900_000, -105, NODATA].map(height_word);
        assert_eq!(heights, ["12.50", "0.05", "-0.05", "0.00", "-500.00", "9000.00", "-1.05", "-9999"]);
        assert_eq!([0, 1, 1_048_576, u32::MAX].map(count_word), ["-9999", "1", "1048576", "4294967295"]);
        assert_eq!([0, 1, 128, 3, 254, 255].map(code_word), ["0", "1", "128", "3", "254", "-9999"]);
        let factors = [0, 4_810, 54_379, 1_200_007, TOO_LONG - 1, TOO_LONG, NO_FACTOR].map(factor_word);
        assert_eq!(factors, ["0.00000", "0.04810", "0.54379", "12.00007", "42949.67293", "-9999", "-9999"]);
    }

    #[test]
    fn lines() {
        let header = "ncols 2\nnrows 2\nxllcorner -12.500000\nyllcorner 007\ncellsize 0.05\nnodata_value -9999\n";
        let frame = Frame { shape: Shape { rows: 2, columns: 2 }, side: 5, ..ROW };
        assert_eq!(written(frame, Heights(&[1, -1, 0, NODATA])), Ok(format!("{header}0.01 -0.01\n0.00 -9999\n")));
        assert_eq!(written(frame, Counts(&[1, 20, 0, 3])), Ok(format!("{header}1 20\n-9999 3\n")));
        assert_eq!(written(frame, Codes(&[0, 128, 255, 2])), Ok(format!("{header}0 128\n-9999 2\n")));
        let factors = Factors(&[0, 1, 99_999, 100_000]);
        assert_eq!(written(frame, factors), Ok(format!("{header}0.00000 0.00001\n0.99999 1.00000\n")));
    }

    /// 1, 2, 3, 7, 5 and 13 in that order; what is wrong later does not matter.
    #[test]
    fn refusals_in_their_order() {
        let shaped = |rows, columns| Frame { shape: Shape { rows, columns }, side: 0, corners: [b"", b"1,5"] };
        let bad = Heights(&[0, 900_001, -50_001]);
        for (rows, columns) in [(0, 3), (1, 0), (1_025, 1), (1, 1_025)] {
            assert_eq!(written(shaped(rows, columns), bad), Err((1, 0)));
        }
        assert_eq!(written(shaped(1, 4), bad), Err((2, 0)));
        assert_eq!(written(shaped(3, 1), bad), Err((3, 0)));
        assert_eq!(written(Frame { side: 100_001, ..shaped(3, 1) }, bad), Err((3, 0)));
        assert_eq!(written(Frame { side: 100_000, ..shaped(3, 1) }, bad), Err((7, 1)));
        let words: [&[u8]; 8] = [b"", b"1,5", b"5.", b"+5", b"1 ", b"1234567890", b"1.1234567", b"-"];
        for word in words {
            assert_eq!(written(Frame { side: 1, corners: [b"0", word], ..shaped(3, 1) }, bad), Err((7, 2)));
        }
        let frame = Frame { side: 1, corners: [b"0", b"-0"], ..shaped(3, 1) };
        assert_eq!(write(frame, bad, &mut []), refuse(5, 1));
        assert_eq!(write(frame, Heights(&[NODATA, 0, 900_000]), &mut []), refuse(13, 0));
    }

    /// The text may be as long as the room; past it, and at a refusal, the room stays.
    #[test]
    fn rooms() {
        let grid = Heights(&[1, 2, 3, 4]);
        let text = written(ROW, grid).expect("a good grid");
        let mut room = vec![7; text.len() + 2];
        assert_eq!(write(ROW, grid, &mut room), Ok(text.len()));
        assert_eq!(room, [text.as_bytes(), &[7, 7]].concat());
        let mut short = vec![7; text.len() - 1];
        assert_eq!(write(ROW, grid, &mut short), refuse(13, 0));
        assert_eq!(short, vec![7; text.len() - 1]);
        assert_eq!(write(ROW, grid, &mut vec![7; text.len()]), Ok(text.len()));
    }

    /// One row has three digits fewer than 1,000 rows or more.
    #[test]
    fn the_longest_text_has_room() {
        let shape = Shape { rows: 1, columns: 1_024 };
        let frame = Frame { shape, side: LARGEST_SIDE, corners: [b"-123456789.123456"; 2] };
        let longest = Factors(&[TOO_LONG - 1; 1_024]);
        assert_eq!(written(frame, longest).map(|text| text.len() + 3), Ok(room(shape)));
    }
}
