//! The grid: cells in row order, north row first, their eight neighbours and the codes of the eight bearings.
//! States docs/RULES.md, 1 Quantities, and the codes of 4.3 Directions.

/// -999,900 means NoData, for ground and filled heights alike.
pub const NODATA: i32 = -999_900;

/// Heights in cm.
pub const LOWEST: i64 = -50_000;
pub const HIGHEST: i64 = 900_000;

/// Rows and columns, each 1 to 1,024.
pub const MOST_ROWS: usize = 1_024;

/// The cell side in cm, 1 to 100,000.
pub const LARGEST_SIDE: i64 = 100_000;

/// A bearing: one of the eight compass directions of a neighbour.
pub struct Bearing {
    pub code: u8,
    south: i64,
    east: i64,
}

/// The codes: E 1, SE 2, S 4, SW 8, W 16, NW 32, N 64, NE 128, in this order.
pub const BEARINGS: [Bearing; 8] = [
    Bearing { code: 1, south: 0, east: 1 },
    Bearing { code: 2, south: 1, east: 1 },
    Bearing { code: 4, south: 1, east: 0 },
    Bearing { code: 8, south: 1, east: -1 },
    Bearing { code: 16, south: 0, east: -1 },
    Bearing { code: 32, south: -1, east: -1 },
    Bearing { code: 64, south: -1, east: 0 },
    Bearing { code: 128, south: -1, east: 1 },
];

impl Bearing {
    /// Whether the bearing is a diagonal one.
    pub fn diagonal(&self) -> bool {
        self.south != 0 && self.east != 0
    }
}

/// The bearing with this code, if the code is one of the eight.
pub fn bearing_of(code: u8) -> Option<&'static Bearing> {
    BEARINGS.iter().find(|bearing| bearing.code == code)
}

/// Rows and columns of a grid.
#[derive(Clone, Copy, Debug, PartialEq, Eq)]
pub struct Shape {
    pub rows: usize,
    pub columns: usize,
}

impl Shape {
    /// Rows times columns.
    pub fn cells(&self) -> usize {
        self.rows * self.columns
    }

    pub fn row(&self, cell: usize) -> usize {
        cell / self.columns
    }

    pub fn column(&self, cell: usize) -> usize {
        cell % self.columns
    }

    /// The neighbour on that bearing, if it lies on the grid.
    pub fn neighbour(&self, cell: usize, bearing: &Bearing) -> Option<usize> {
        let row = self.row(cell) as i64 + bearing.south;
        let column = self.column(cell) as i64 + bearing.east;
        let inside = 0 <= row && row < self.rows as i64 && 0 <= column && column < self.columns as i64;
        inside.then(|| row as usize * self.columns + column as usize)
    }

    /// Neighbours are the eight around: those on the grid, in code order, each with its bearing.
    pub fn neighbours(self, cell: usize) -> impl Iterator<Item = (&'static Bearing, usize)> {
        BEARINGS.iter().filter_map(move |bearing| self.neighbour(cell, bearing).map(|next| (bearing, next)))
    }

    /// Whether the cell lies on the grid's edge.
    pub fn on_edge(&self, cell: usize) -> bool {
        BEARINGS.iter().any(|bearing| self.neighbour(cell, bearing).is_none())
    }
}

#[cfg(test)]
mod tests {
    use super::*;

    const SHAPE: Shape = Shape { rows: 3, columns: 4 };

    #[test]
    fn neighbours_in_code_order() {
        let around = |cell| SHAPE.neighbours(cell).map(|(bearing, next)| (bearing.code, next)).collect::<Vec<_>>();
        assert_eq!(around(5), [(1, 6), (2, 10), (4, 9), (8, 8), (16, 4), (32, 0), (64, 1), (128, 2)]);
        assert_eq!(around(3), [(4, 7), (8, 6), (16, 2)]);
        assert_eq!((0..12).filter(|&cell| !SHAPE.on_edge(cell)).collect::<Vec<_>>(), [5, 6]);
    }

    #[test]
    fn bearings_have_their_codes() {
        let diagonal = |code| bearing_of(code).map(Bearing::diagonal);
        assert_eq!([1, 2, 64, 128].map(diagonal), [Some(false), Some(true), Some(false), Some(true)]);
        assert_eq!([0, 3, 255].map(diagonal), [None; 3]);
    }
}
