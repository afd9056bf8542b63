//! Rim cells and filled heights, relaxed to a fixed point. States docs/RULES.md, 4.1 and 4.2.

use super::grid::{Shape, NODATA};

/// A rim cell is a valid cell on the grid's edge or beside a NoData cell.
pub fn rim(shape: Shape, ground: &[i32], cell: usize) -> bool {
    let beside = || shape.neighbours(cell).any(|(_, next)| ground[next] == NODATA);
    ground[cell] != NODATA && (shape.on_edge(cell) || beside())
}

/// The height of a cell from which no run to a rim cell is known yet.
const NO_RUN: i32 = i32::MAX;

/// The least greatest height of a run known from the cell: of the cell alone if it is a rim cell, else of a step
/// to a neighbour and that neighbour's run.
fn known(shape: Shape, ground: &[i32], filled: &[i32], cell: usize) -> i32 {
    if ground[cell] == NODATA || rim(shape, ground, cell) {
        return ground[cell];
    }
    let onward = shape.neighbours(cell).map(|(_, next)| filled[next]).min().unwrap_or(NO_RUN);
    onward.max(ground[cell])
}

/// Filled height: over all runs of valid neighbours from the cell to a rim cell, the least possible greatest
/// ground height on the run, both ends counted. Sweeps until nothing changes.
pub fn filled(shape: Shape, ground: &[i32]) -> Vec<i32> {
    let mut filled = vec![NO_RUN; shape.cells()];
    let mut changed = true;
    while changed {
        changed = false;
        for cell in 0..shape.cells() {
            let height = known(shape, ground, &filled, cell);
            changed |= height != filled[cell];
            filled[cell] = height;
        }
    }
    filled
}
