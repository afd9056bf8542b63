//! Refusals 17 and 18 in words: which rule a given code breaks, and the ring that a trail goes round.

use crate::library::Header;
use crate::messages::{cell_name, metres};

/// The height of a NoData cell.
pub const NO_HEIGHT: i32 = -999_900;

/// As many cells of a ring are named.
const NAMED: usize = 16;

/// The code of each neighbour, its name, and the steps to it in rows and columns:
///
///     NW  32    N  64    NE 128
///     W   16      x      E    1
///     SW   8    S   4    SE   2
const NEIGHBOURS: [(u8, &str, isize, isize); 8] = [
    (1, "east", 0, 1),
    (2, "southeast", 1, 1),
    (4, "south", 1, 0),
    (8, "southwest", 1, -1),
    (16, "west", 0, -1),
    (32, "northwest", -1, -1),
    (64, "north", -1, 0),
    (128, "northeast", -1, 1),
];

/// Given codes, with the shape and the filled heights that they are judged by.
pub struct Judged<'a> {
    pub header: Header,
    pub codes: &'a [u8],
    pub filled: &'a [i32],
}

impl Judged<'_> {
    /// The direction's name and, unless it is off the grid, the neighbour that a cell's code points at.
    fn pointed(&self, cell: usize) -> Option<(&'static str, Option<usize>)> {
        let Header { rows, columns, .. } = self.header;
        let &(_, name, down, right) = NEIGHBOURS.iter().find(|neighbour| neighbour.0 == self.codes[cell])?;
        let row = (cell / columns).checked_add_signed(down).filter(|&row| row < rows);
        let column = (cell % columns).checked_add_signed(right).filter(|&column| column < columns);
        Some((name, row.zip(column).map(|(row, column)| row * columns + column)))
    }

    /// Which rule the code of a cell breaks. Of a cell that breaks none it is the rule of heights.
    pub fn broken_rule(&self, cell: usize) -> String {
        if self.filled[cell] == NO_HEIGHT {
            return "the cell is NoData, so its code is 255 or the NoData number".to_string();
        }
        if self.codes[cell] == 0 {
            return "0 stands only on rim cells, at the edge of the grid or beside NoData".to_string();
        }
        match self.pointed(cell) {
            None => "the cell is not NoData, so its code is one of 0, 1, 2, 4, 8, 16, 32, 64 and 128".to_string(),
            Some((name, None)) => format!("points {name}, off the grid"),
            Some((name, Some(to))) => format!("points {name} {}", self.pointed_at(cell, to)),
        }
    }

    /// What is wrong with a neighbour that a cell points at.
    fn pointed_at(&self, cell: usize, to: usize) -> String {
        let name = cell_name(to, self.header);
        match [cell, to].map(|cell| self.filled[cell]) {
            [_, NO_HEIGHT] => format!("at {name}, which is NoData"),
            heights => {
                let [from, to] = heights.map(|height| metres(i64::from(height)));
                format!("and uphill: from a filled height of {from} m to {to} m at {name}")
            }
        }
    }

    /// The cells of the ring that a cell lies on, in the order of flow from it on.
    fn ring(&self, start: usize) -> Vec<usize> {
        let next = |&cell: &usize| self.pointed(cell).and_then(|(_, to)| to).filter(|&to| to != start);
        std::iter::successors(Some(start), next).take(self.codes.len()).collect()
    }

    /// The ring that a cell lies on, in words.
    pub fn ring_named(&self, start: usize) -> String {
        let ring = self.ring(start);
        let mut parts: Vec<String> = ring.iter().take(NAMED).map(|&cell| cell_name(cell, self.header)).collect();
        if ring.len() > NAMED {
            parts.push(format!("{} more", ring.len() - NAMED));
        }
        format!("a trail goes round: {}; and back to the first", parts.join("; "))
    }
}

#[cfg(test)]
mod tests {
    use super::*;

    const NINE: Header = Header { rows: 3, columns: 3, side: 1000, no_data: NO_HEIGHT as i64 };

    /// Which rule a code in the middle of nine cells breaks, beside one of 12.34 m in the east and NoData in the south.
    fn said(code: u8, middle: i32) -> String {
        let filled = [500, 500, 500, 500, middle, 1234, 500, NO_HEIGHT, 500];
        let mut codes = [0; 9];
        codes[4] = code;
        Judged { header: NINE, codes: &codes, filled: &filled }.broken_rule(4)
    }

    #[test]
    fn each_rule_is_named() {
        for code in [0, 1, 3, 128] {
            assert_eq!(said(code, NO_HEIGHT), "the cell is NoData, so its code is 255 or the NoData number");
        }
        for code in [3, 129, 254, 255] {
            assert!(said(code, 500).starts_with("the cell is not NoData, so its code is one of 0, 1, 2, 4,"), "{code}");
        }
        assert_eq!(said(4, 500), "points south at row 2, column 1, which is NoData");
        assert_eq!(
            said(1, -5),
            "points east and uphill: from a filled height of -0.05 m to 12.34 m at row 1, column 2"
        );
        assert!(said(0, 500).starts_with("0 stands only on rim cells, at the edge"));
    }

    #[test]
    fn codes_point_at_their_neighbours_or_off_the_grid() {
        let pointed = |cell: usize, code: u8| {
            let codes = [code; 9];
            Judged { header: NINE, codes: &codes, filled: &[0; 9] }.pointed(cell)
        };
        let codes = [32, 64, 128, 16, 1, 8, 4, 2];
        let cells = codes.map(|code| pointed(4, code).and_then(|(_, to)| to));
        assert_eq!(cells, [0, 1, 2, 3, 5, 6, 7, 8].map(Some));
        assert_eq!(pointed(0, 32), Some(("northwest", None)));
        assert_eq!(pointed(0, 8), Some(("southwest", None)));
        assert_eq!(pointed(8, 128), Some(("northeast", None)));
        assert_eq!(pointed(8, 4), Some(("south", None)));
        assert_eq!([0, 3, 254, 255].map(|code| pointed(4, code)), [None; 4]);
        let codes = [64, 0, 0, 0, 0, 0, 0, 0, 0];
        let off = Judged { header: NINE, codes: &codes, filled: &[0; 9] }.broken_rule(0);
        assert_eq!(off, "points north, off the grid");
    }

    #[test]
    fn a_ring_is_named_in_the_order_of_flow() {
        let ring =
            |codes: &[u8], header, start| Judged { header, codes, filled: &vec![0; codes.len()] }.ring_named(start);
        let pair = "a trail goes round: row 1, column 1; row 1, column 2; and back to the first";
        assert_eq!(ring(&[0, 0, 0, 1, 1, 16, 0, 0, 0], NINE, 4), pair);
        let eight = [1, 1, 4, 64, 0, 4, 64, 16, 16];
        let said = ring(&eight, NINE, 0);
        assert!(
            said.starts_with("a trail goes round: row 0, column 0; row 0, column 1; row 0, column 2; row 1, column 2;")
        );
        assert!(said.ends_with("; row 2, column 0; row 1, column 0; and back to the first"), "{said}");
        let strip = |columns| Header { rows: 2, columns, ..NINE };
        let long = |columns: usize| [vec![1; columns - 1], vec![4, 64], vec![16; columns - 1]].concat();
        assert!(ring(&long(8), strip(8), 0).ends_with("; row 1, column 1; row 1, column 0; and back to the first"));
        assert!(ring(&long(20), strip(20), 0).ends_with("; row 0, column 15; 24 more; and back to the first"));
    }
}
