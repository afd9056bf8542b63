//! Directions and steepness. States docs/RULES.md, 4.3 Directions and 4.4 Flats.

use super::fill::rim;
use super::grid::{Bearing, Shape, NODATA};

/// The code of a cell that leaves the map, and of a NoData cell.
pub const LEAVES: u8 = 0;
pub const NO_DIRECTION: u8 = 255;

/// Each cell's direction and its steepness q.
pub struct Flow {
    pub direction: Vec<u8>,
    pub steepness: Vec<i64>,
}

/// One cell's direction and steepness.
#[derive(Clone, Copy)]
pub struct Slope {
    pub direction: u8,
    pub steepness: i64,
}

impl Flow {
    pub fn slope(&self, cell: usize) -> Slope {
        Slope { direction: self.direction[cell], steepness: self.steepness[cell] }
    }
}

/// Steepness is 2·d·d in a cardinal direction and d·d in a diagonal one.
pub fn steepness(bearing: &Bearing, drop: i64) -> i64 {
    if bearing.diagonal() { drop * drop } else { 2 * drop * drop }
}

/// The direction is the lower neighbour of greatest steepness; on a tie, the first in the order of the codes:
/// code and steepness, or nothing without a lower neighbour.
fn steepest(shape: Shape, filled: &[i32], cell: usize) -> Option<(u8, i64)> {
    let mut best = None;
    for (bearing, next) in shape.neighbours(cell) {
        // A lower neighbour is a valid one of lower filled height.
        if filled[next] == NODATA || filled[next] >= filled[cell] {
            continue;
        }
        let steep = steepness(bearing, i64::from(filled[cell]) - i64::from(filled[next]));
        if best.is_none_or(|(_, greatest)| steep > greatest) {
            best = Some((bearing.code, steep));
        }
    }
    best
}

/// The fewest steps, over valid cells of its own filled height, to a cell with a lower neighbour or to a rim
/// cell, in rounds: a cell not reached before round n with an equal neighbour reached in round n - 1 has n.
fn fewest_steps(shape: Shape, filled: &[i32], ends: &[bool]) -> Vec<Option<usize>> {
    let mut steps: Vec<Option<usize>> = ends.iter().map(|&end| end.then_some(0)).collect();
    let mut round = 0;
    loop {
        let nearer = |cell: usize| {
            shape.neighbours(cell).any(|(_, next)| filled[next] == filled[cell] && steps[next] == Some(round))
        };
        let reached: Vec<usize> = (0..shape.cells())
            .filter(|&cell| filled[cell] != NODATA && steps[cell].is_none() && nearer(cell))
            .collect();
        if reached.is_empty() {
            return steps;
        }
        round += 1;
        reached.iter().for_each(|&cell| steps[cell] = Some(round));
    }
}

/// A flat cell points at the first neighbour of equal height, in code order, that is one step nearer.
fn across_flat(shape: Shape, filled: &[i32], steps: &[Option<usize>], cell: usize) -> u8 {
    let own = steps[cell].expect("every valid cell has a run to the rim");
    let nearer = |next: usize| filled[next] == filled[cell] && steps[next] == Some(own - 1);
    let found = shape.neighbours(cell).find(|&(_, next)| nearer(next));
    found.expect("a fewest number of steps has a first step").0.code
}

/// Each cell's direction and steepness; cells without a lower neighbour have steepness q = 0.
pub fn flow(shape: Shape, ground: &[i32], filled: &[i32]) -> Flow {
    let cells = 0..shape.cells();
    let valid = |cell: usize| filled[cell] != NODATA;
    let lower: Vec<Option<(u8, i64)>> =
        cells.clone().map(|cell| if valid(cell) { steepest(shape, filled, cell) } else { None }).collect();
    let ends: Vec<bool> = cells.clone().map(|cell| lower[cell].is_some() || rim(shape, ground, cell)).collect();
    let steps = fewest_steps(shape, filled, &ends);
    let direction = |cell: usize| match lower[cell] {
        _ if !valid(cell) => NO_DIRECTION,
        Some((code, _)) => code,
        // A rim cell with no lower neighbour has 0.
        None if rim(shape, ground, cell) => LEAVES,
        None => across_flat(shape, filled, &steps, cell),
    };
    Flow {
        direction: cells.clone().map(direction).collect(),
        steepness: cells.map(|cell| lower[cell].map_or(0, |(_, steep)| steep)).collect(),
    }
}
