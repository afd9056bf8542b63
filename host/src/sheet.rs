//! The printer's sheet: a first line with rows, columns, side, valid cells and longest trail, then a line for each cell.

use crate::Map;
use std::io::{self, Write};

/// A NoData cell's direction, and the LS of a slope that is too long.
pub const NO_DIRECTION: u8 = 255;
pub const TOO_LONG: u32 = 4_294_967_294;

/// Bytes that are gathered before they are written.
const FULL: usize = 1 << 16;

/// Appends a whole number in decimal digits.
fn put(line: &mut Vec<u8>, n: u64) {
    let (mut digits, mut at, mut left) = ([0u8; 20], 20, n);
    loop {
        at -= 1;
        digits[at] = b'0' + (left % 10) as u8;
        left /= 10;
        if left == 0 {
            break;
        }
    }
    line.extend_from_slice(&digits[at..]);
}

fn put_next(line: &mut Vec<u8>, n: u64) {
    line.push(b' ');
    put(line, n);
}

fn put_height(line: &mut Vec<u8>, h: i32) {
    line.extend_from_slice(if h < 0 { b" -" } else { b" " });
    put(line, u64::from(h.unsigned_abs()));
}

fn put_cell(line: &mut Vec<u8>, x: usize, map: &Map) {
    let g = &map.grids;
    if g.direction[x] == NO_DIRECTION {
        line.extend_from_slice(b" - - - - - -");
        return;
    }
    put_height(line, map.ground[x]);
    put_height(line, g.filled[x]);
    put_next(line, u64::from(g.direction[x]));
    put_next(line, u64::from(g.count[x]));
    put_next(line, g.lengths[x]);
    if g.factors[x] == TOO_LONG {
        line.extend_from_slice(b" long");
    } else {
        put_next(line, u64::from(g.factors[x]));
    }
}

/// Writes the sheet of a map.
pub fn write(out: &mut dyn Write, map: &Map) -> io::Result<()> {
    let (h, t) = (map.header, map.totals);
    let mut line = Vec::with_capacity(2 * FULL);
    put(&mut line, h.rows as u64);
    put_next(&mut line, h.columns as u64);
    put_next(&mut line, u64::from(h.side));
    put_next(&mut line, u64::from(t.valid));
    put_next(&mut line, u64::from(t.longest));
    line.push(b'\n');
    for x in 0..map.ground.len() {
        put(&mut line, (x / h.columns) as u64);
        put_next(&mut line, (x % h.columns) as u64);
        put_cell(&mut line, x, map);
        line.push(b'\n');
        if line.len() >= FULL {
            out.write_all(&line)?;
            line.clear();
        }
    }
    out.write_all(&line)?;
    out.flush()
}
