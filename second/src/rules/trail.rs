//! Trails, flow counts and the longest trail, each trail walked cell by cell. States docs/RULES.md, 4.5.

use super::direction::NO_DIRECTION;
use super::grid::{bearing_of, Shape};

/// Flow counts and the longest trail in steps between cells.
pub struct Trails {
    pub count: Vec<u32>,
    pub longest: usize,
}

/// Where a trail goes on: to the neighbour that the direction points at. At a cell with direction 0 it ends.
pub fn onward(shape: Shape, direction: &[u8], cell: usize) -> Option<usize> {
    bearing_of(direction[cell]).and_then(|bearing| shape.neighbour(cell, bearing))
}

/// All cells of the trail that begins at a valid cell, the first one included.
fn trail(shape: Shape, direction: &[u8], cell: usize) -> Vec<usize> {
    std::iter::successors(Some(cell), |&at| onward(shape, direction, at)).collect()
}

/// Flow counts, the number of valid cells whose trail passes the cell, itself included; and the longest trail in steps
/// between cells: leaving the map is no step, and an empty map has 0.
pub fn trails(shape: Shape, direction: &[u8]) -> Trails {
    let mut count = vec![0; shape.cells()];
    let mut longest = 0;
    for cell in (0..shape.cells()).filter(|&cell| direction[cell] != NO_DIRECTION) {
        let passed = trail(shape, direction, cell);
        passed.iter().for_each(|&at| count[at] += 1);
        longest = longest.max(passed.len() - 1);
    }
    Trails { count, longest }
}
