//! The ground inside a frame of NoData, so that every cell has eight neighbours. Serves docs/RULES.md, 4.1: in a
//! frame, a rim cell is a valid cell beside a NoData one.

use crate::rules::grid::{Shape, BEARINGS, NODATA};

/// A framed ground; a place is an index into it.
pub struct Land {
    shape: Shape,
    width: usize,
    pub ground: Vec<i32>,
}

impl Land {
    pub fn of(shape: Shape, ground: &[i32]) -> Land {
        let width = shape.columns + 2;
        let mut framed = vec![NODATA; width * (shape.rows + 2)];
        for (row, heights) in ground.chunks(shape.columns).enumerate() {
            let start = (row + 1) * width + 1;
            framed[start..start + shape.columns].copy_from_slice(heights);
        }
        Land { shape, width, ground: framed }
    }

    /// The number of places, the frame's included.
    pub fn places(&self) -> usize {
        self.ground.len()
    }

    pub fn valid(&self, place: usize) -> bool {
        self.ground[place] != NODATA
    }

    /// The valid cells in row order.
    pub fn cells(&self) -> impl Iterator<Item = usize> + '_ {
        (0..self.places()).filter(|&place| self.valid(place))
    }

    /// The eight places around a valid cell, in code order.
    pub fn around(&self, cell: usize) -> [usize; 8] {
        let (north, south) = (cell - self.width, cell + self.width);
        [cell + 1, south + 1, south, south - 1, cell - 1, north - 1, north, north + 1]
    }

    /// A rim cell is a valid cell on the grid's edge or beside a NoData cell.
    pub fn rim(&self, cell: usize) -> bool {
        self.around(cell).iter().any(|&next| !self.valid(next))
    }

    /// The place that a code points at from a valid cell, if it is one of the eight.
    pub fn onward(&self, cell: usize, code: u8) -> Option<usize> {
        BEARINGS.iter().position(|bearing| bearing.code == code).map(|bearing| self.around(cell)[bearing])
    }

    /// A framed grid without its frame.
    pub fn inner<T: Copy>(&self, framed: &[T]) -> Vec<T> {
        let rows = framed.chunks(self.width).skip(1).take(self.shape.rows);
        rows.flat_map(|row| row[1..=self.shape.columns].iter().copied()).collect()
    }
}

#[cfg(test)]
mod tests {
    use super::*;

    #[test]
    fn the_frame_goes_on_and_off() {
        let ground = [1, 2, NODATA, 4, 5, 6];
        let land = Land::of(Shape { rows: 2, columns: 3 }, &ground);
        assert_eq!((land.places(), land.cells().collect::<Vec<_>>()), (20, vec![6, 7, 11, 12, 13]));
        assert_eq!(land.inner(&land.ground), ground);
        assert_eq!((land.onward(6, 1), land.onward(6, 2), land.onward(6, 0)), (Some(7), Some(12), None));
    }

    #[test]
    fn the_edge_is_a_rim() {
        let land = Land::of(Shape { rows: 3, columns: 3 }, &[5; 9]);
        assert_eq!(land.cells().filter(|&cell| !land.rim(cell)).collect::<Vec<_>>(), [12]);
    }
}
