//! Directions and steepness, flats breadth first. States docs/RULES.md, 4.3 Directions and 4.4 Flats.

use super::land::Land;
use crate::rules::direction::{Flow, LEAVES, NO_DIRECTION};
use crate::rules::grid::{BEARINGS, NODATA};
use std::collections::VecDeque;

/// Steps of a place that no search has reached.
const FAR: u32 = u32::MAX;

/// Code and steepness of the steepest lower neighbour, the first on a tie; 0 and 0 without one.
fn steepest(land: &Land, filled: &[i32], cell: usize) -> (u8, i64) {
    let mut best = (LEAVES, 0);
    for (bearing, next) in BEARINGS.iter().zip(land.around(cell)) {
        let drop = i64::from(filled[cell]) - i64::from(filled[next]);
        let steep = if bearing.diagonal() { drop * drop } else { 2 * drop * drop };
        if filled[next] != NODATA && drop > 0 && steep > best.1 {
            best = (bearing.code, steep);
        }
    }
    best
}

/// The fewest steps, over valid cells of its own filled height, to a cell with a lower neighbour or to a rim cell:
/// out from those cells, breadth first.
fn fewest_steps(land: &Land, filled: &[i32], direction: &[u8]) -> Vec<u32> {
    let mut steps = vec![FAR; land.places()];
    let ends = |&cell: &usize| direction[cell] != LEAVES || land.rim(cell);
    let mut reached: VecDeque<usize> = land.cells().filter(ends).collect();
    reached.iter().for_each(|&cell| steps[cell] = 0);
    while let Some(cell) = reached.pop_front() {
        for next in land.around(cell) {
            if filled[next] == filled[cell] && steps[next] == FAR {
                steps[next] = steps[cell] + 1;
                reached.push_back(next);
            }
        }
    }
    steps
}

/// A flat cell points at the first neighbour of equal height, in code order, that is one step nearer.
fn across_flat(land: &Land, filled: &[i32], steps: &[u32], cell: usize) -> u8 {
    let nearer = |next: usize| filled[next] == filled[cell] && steps[next] == steps[cell] - 1;
    let bearing = land.around(cell).iter().position(|&next| nearer(next));
    BEARINGS[bearing.expect("a fewest number of steps has a first step")].code
}

/// Every place's direction and steepness.
pub fn flow(land: &Land, filled: &[i32]) -> Flow {
    let mut direction = vec![NO_DIRECTION; land.places()];
    let mut steepness = vec![0; land.places()];
    for cell in land.cells() {
        (direction[cell], steepness[cell]) = steepest(land, filled, cell);
    }
    let steps = fewest_steps(land, filled, &direction);
    for cell in land.cells().filter(|&cell| steps[cell] > 0) {
        direction[cell] = across_flat(land, filled, &steps, cell);
    }
    Flow { direction, steepness }
}
