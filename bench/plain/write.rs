//! The writer of text grids, in two passes: everything is judged and the text's length counted before the first byte is
//! written. docs/RULES.md, 10 The text that is written.

use crate::text::is_number;
use crate::{refuse, Refusal, NODATA, NO_CODE, NO_FACTOR, TOO_LONG};

/// What the header says; the side in cm, the corner words as they were read.
#[derive(Clone, Copy)]
pub struct Frame<'a> {
    pub rows: usize,
    pub columns: usize,
    pub side: u32,
    pub corners: [&'a [u8]; 2],
}

/// A kind of grid, and how a cell of it is written.
trait Kind {
    type Cell: Copy;
    const DECIMALS: usize;

    fn is_good(_cell: Self::Cell) -> bool {
        true
    }

    /// Whether a minus stands before the number, and the number without it and its point; none where there is no data.
    fn number(cell: Self::Cell) -> Option<(bool, u32)>;
}

struct Heights;
struct Counts;
struct Factors;
struct Codes;

impl Kind for Heights {
    type Cell = i32;
    const DECIMALS: usize = 2;

    #[inline]
    fn is_good(height: i32) -> bool {
        (-50_000..=900_000).contains(&height) || height == NODATA
    }

    #[inline]
    fn number(height: i32) -> Option<(bool, u32)> {
        (height != NODATA).then_some((height < 0, height.unsigned_abs()))
    }
}

impl Kind for Counts {
    type Cell = u32;
    const DECIMALS: usize = 0;

    #[inline]
    fn number(count: u32) -> Option<(bool, u32)> {
        (count != 0).then_some((false, count))
    }
}

impl Kind for Factors {
    type Cell = u32;
    const DECIMALS: usize = 5;

    #[inline]
    fn number(factor: u32) -> Option<(bool, u32)> {
        (factor != NO_FACTOR && factor != TOO_LONG).then_some((false, factor))
    }
}

impl Kind for Codes {
    type Cell = u8;
    const DECIMALS: usize = 0;

    #[inline]
    fn number(code: u8) -> Option<(bool, u32)> {
        (code != NO_CODE).then_some((false, code.into()))
    }
}

/// What is written where there is no number.
const NOTHING: &[u8] = b"-9999";

/// The bytes of a number without its minus: a digit at least before the point.
#[inline]
fn width(number: u32, decimals: usize) -> usize {
    let digits = number.checked_ilog10().map_or(1, |log| log as usize + 1);
    digits.max(decimals + 1) + usize::from(decimals > 0)
}

/// Fills the places with the last digits of a number, from the back.
#[inline]
fn put_digits(places: &mut [u8], mut number: u32) {
    for place in places.iter_mut().rev() {
        *place = b'0' + (number % 10) as u8;
        number /= 10;
    }
}

/// Fills a word with a number.
#[inline]
fn put_number(word: &mut [u8], number: u32, decimals: usize) {
    if decimals == 0 {
        return put_digits(word, number);
    }
    let one = 10_u32.pow(decimals as u32);
    let (whole, rest) = word.split_at_mut(word.len() - decimals - 1);
    put_digits(whole, number / one);
    rest[0] = b'.';
    put_digits(&mut rest[1..], number % one);
}

/// The bytes of a cell's word.
#[inline]
fn word_width<K: Kind>(cell: K::Cell) -> usize {
    K::number(cell).map_or(NOTHING.len(), |(minus, number)| usize::from(minus) + width(number, K::DECIMALS))
}

/// Writes a cell's word at the front of the room; its bytes.
#[inline]
fn put_word<K: Kind>(room: &mut [u8], cell: K::Cell) -> usize {
    let Some((minus, number)) = K::number(cell) else {
        room[..NOTHING.len()].copy_from_slice(NOTHING);
        return NOTHING.len();
    };
    let width = usize::from(minus) + width(number, K::DECIMALS);
    let word = &mut room[..width];
    word[0] = b'-';
    put_number(&mut word[usize::from(minus)..], number, K::DECIMALS);
    width
}

/// The lines of the header, each a name and a number.
fn header(frame: Frame) -> Vec<u8> {
    let number = |number, decimals| {
        let mut word = vec![0; width(number, decimals)];
        put_number(&mut word, number, decimals);
        word
    };
    let lines: [(&[u8], Vec<u8>); 6] = [
        (b"ncols ", number(frame.columns as u32, 0)),
        (b"nrows ", number(frame.rows as u32, 0)),
        (b"xllcorner ", frame.corners[0].to_vec()),
        (b"yllcorner ", frame.corners[1].to_vec()),
        (b"cellsize ", number(frame.side, 2)),
        (b"nodata_value ", NOTHING.to_vec()),
    ];
    lines.iter().flat_map(|(name, word)| [name, &word[..], b"\n"]).flatten().copied().collect()
}

/// Makes the tests of refusals 1, 2, 3 and 7, in that order.
fn judge(frame: Frame, cells: usize) -> Result<(), Refusal> {
    let sizes = 1..=1_024;
    if !sizes.contains(&frame.rows) || !sizes.contains(&frame.columns) {
        return refuse(1, 0);
    }
    if cells != frame.rows * frame.columns {
        return refuse(2, 0);
    }
    if !(1..=100_000).contains(&frame.side) {
        return refuse(3, 0);
    }
    frame.corners.iter().position(|word| !is_number(word)).map_or(Ok(()), |corner| refuse(7, corner + 1))
}

/// The bytes of the cells' lines; refusal 5 at the first bad cell.
fn measure<K: Kind>(grid: &[K::Cell]) -> Result<usize, Refusal> {
    let mut length = 0;
    for (cell, &number) in grid.iter().enumerate() {
        if !K::is_good(number) {
            return refuse(5, cell);
        }
        length += word_width::<K>(number) + 1;
    }
    Ok(length)
}

/// Writes the cells' lines.
fn put_cells<K: Kind>(room: &mut [u8], columns: usize, grid: &[K::Cell]) {
    let mut at = 0;
    for row in grid.chunks_exact(columns) {
        for &cell in row {
            at += put_word::<K>(&mut room[at..], cell);
            room[at] = b' ';
            at += 1;
        }
        room[at - 1] = b'\n';
    }
}

/// Writes a grid's text into the room and gives its length; a refusal leaves the room as it was.
fn write<K: Kind>(frame: Frame, grid: &[K::Cell], room: &mut [u8]) -> Result<usize, Refusal> {
    judge(frame, grid.len())?;
    let cells = measure::<K>(grid)?;
    let header = header(frame);
    let length = header.len() + cells;
    if length > room.len() {
        return refuse(13, 0);
    }
    let (head, rest) = room[..length].split_at_mut(header.len());
    head.copy_from_slice(&header);
    put_cells::<K>(rest, frame.columns, grid);
    Ok(length)
}

/// Writes ground or filled heights, in metres.
pub fn write_heights(frame: Frame, heights: &[i32], room: &mut [u8]) -> Result<usize, Refusal> {
    write::<Heights>(frame, heights, room)
}

/// Writes flow counts.
pub fn write_counts(frame: Frame, counts: &[u32], room: &mut [u8]) -> Result<usize, Refusal> {
    write::<Counts>(frame, counts, room)
}

/// Writes LS.
pub fn write_factors(frame: Frame, factors: &[u32], room: &mut [u8]) -> Result<usize, Refusal> {
    write::<Factors>(frame, factors, room)
}

/// Writes the codes of directions.
pub fn write_codes(frame: Frame, codes: &[u8], room: &mut [u8]) -> Result<usize, Refusal> {
    write::<Codes>(frame, codes, room)
}

/// Bytes in which every text of a shape has room: the longest header, and for each cell the longest word, an LS of
/// eleven bytes, with what stands after it.
pub fn room(rows: usize, columns: usize) -> usize {
    114 + 12 * rows * columns
}
