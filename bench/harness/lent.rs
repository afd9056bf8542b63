//! What every side is lent, and what a side is.

use std::hint::black_box;

/// The settings of every measurement: the printer's, docs/RULES.md, 9 The printed sheet.
pub const CUTOFF: f64 = 0.5;

/// The grids, the workspace and the room for a text, lent to each side in turn and not cleared in between; the corner
/// words of the text; the same field as floats, with its header; the farm of each cell, once all of farm 0 and once the
/// east half of farm 1; and what a side answers: the number of valid cells and the longest trail, and the bytes of the text
/// that it wrote.
#[derive(Clone, PartialEq)]
pub struct Lent {
    pub rows: usize,
    pub columns: usize,
    pub side: u32,
    pub ground: Vec<i32>,
    pub filled: Vec<i32>,
    pub direction: Vec<u8>,
    pub count: Vec<u32>,
    pub lengths: Vec<u64>,
    pub factors: Vec<u32>,
    pub workspace: Vec<u32>,
    pub corners: [Vec<u8>; 2],
    pub header: Vec<u8>,
    pub floats: Vec<u8>,
    pub alone: Vec<u8>,
    pub halves: Vec<u8>,
    pub room: Vec<u8>,
    pub answer: (u32, u32),
    pub written: usize,
}

/// A header that stands alone, as of a text with the usual NoData number.
fn lone_header(header: &plain::Header, text: &[u8]) -> Vec<u8> {
    let plain::Header { rows, columns, side, corners, .. } = header;
    let [x, y] = corners.map(|span| String::from_utf8_lossy(span.of(text)).into_owned());
    let shape = format!("ncols {columns}\nnrows {rows}\nxllcorner {x}\nyllcorner {y}\n");
    format!("{shape}cellsize {}.{:02}\nnodata_value -9999\n", side / 100, side % 100).into_bytes()
}

/// Heights in cm as the bytes of floats in metres; NoData becomes -9999.
fn floats(heights: &[i32]) -> Vec<u8> {
    heights.iter().flat_map(|&cm| ((f64::from(cm) / 100.0) as f32).to_le_bytes()).collect()
}

/// The farm of each cell: farm 1 from a column on. Every mark is written, for memory that is only zeroed may be one page
/// that is read again and again.
fn marks(rows: usize, columns: usize, from: usize) -> Vec<u8> {
    let from = black_box(from);
    (0..rows * columns).map(|cell| u8::from(cell % columns >= from)).collect()
}

impl Lent {
    /// Grids for a text, every place written and none with an answer; the refusal of a text that is no grid.
    pub fn for_text(text: &[u8]) -> Result<Lent, String> {
        let refused = |refusal: plain::Refusal| format!("refused {} at {}", refusal.number, refusal.place);
        let header = plain::read_header(text).map_err(refused)?;
        let cells = header.rows * header.columns;
        let mut ground = vec![1; cells];
        plain::read_grid(text, &mut ground).map_err(refused)?;
        let floats = floats(&ground);
        ground.fill(1);
        Ok(Lent {
            rows: header.rows,
            columns: header.columns,
            side: header.side,
            ground,
            filled: vec![1; cells],
            direction: vec![1; cells],
            count: vec![1; cells],
            lengths: vec![1; cells],
            factors: vec![1; cells],
            workspace: vec![1; cells],
            corners: header.corners.map(|span| span.of(text).to_vec()),
            header: lone_header(&header, text),
            floats,
            alone: marks(header.rows, header.columns, header.columns),
            halves: marks(header.rows, header.columns, header.columns / 2),
            room: vec![1; plain::room(header.rows, header.columns)],
            answer: (0, 0),
            written: 0,
        })
    }
}

/// The report of one map: its totals, in the order of the report's lines; the greatest LS, its map and its cell.
pub type Reported = ([u64; 10], Option<[u64; 3]>);

/// The percentage of the channel rule where a map is reported, the library's default: the largest count has to be found.
pub const PERCENTAGE: f64 = 1.0;

/// A side: reading a text into heights, header first; reading a header and floats into heights; mapping them; and
/// writing them into the room.
#[derive(Clone, Copy)]
pub struct Side {
    pub name: &'static str,
    pub read: fn(&[u8], &mut [i32]),
    pub read_floats: fn(&[u8], &[u8], &mut [i32]),
    pub map: fn(&mut Lent),
    pub write: fn(&mut Lent),
}
