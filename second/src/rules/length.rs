//! Channels and slope lengths. States docs/RULES.md, 5 Length.

use super::direction::{Flow, Slope, NO_DIRECTION};
use super::farms::Accepted;
use super::grid::{bearing_of, Shape};
use super::settings::{Percents, Rule};
use super::trail::onward;

/// A channel cell has 1,000·count > n·largest, or count > the given number of cells.
pub fn channel(rule: Rule, count: u64, largest: u64) -> bool {
    match rule {
        Rule::Tenths(n) => 1_000 * count > n * largest,
        Rule::Cells(cells) => count > cells,
        Rule::None => false,
    }
}

/// The receiving cell's slope picks the cutoff; under 5 percent means 200·q < c².
fn cutoff(percents: &Percents, q: i64, side: i64) -> i64 {
    if 200 * q < side * side { percents.low } else { percents.high }
}

/// Cut, for receiving q, inflow p and n percent: n is below 100, q < p, and 10,000·q ≤ (100 - n)²·p.
fn cut(q: i64, p: i64, n: i64) -> bool {
    n < 100 && q < p && 10_000 * q <= (100 - n) * (100 - n) * p
}

/// Whether the direction is diagonal. Direction 0 is not.
fn diagonal(direction: u8) -> bool {
    bearing_of(direction).is_some_and(|bearing| bearing.diagonal())
}

/// Where a length starts, at a high point or afresh, by the cell's own direction: half the diagonal, 7,071, where the
/// flow leaves diagonally, else half a cell side, 5,000.
pub fn start(direction: u8) -> u64 {
    if diagonal(direction) { 7_071 } else { 5_000 }
}

/// The step of the inflow's direction: 10,000, or 14,142 if diagonal.
fn step(direction: u8) -> u64 {
    if diagonal(direction) { 14_142 } else { 10_000 }
}

/// What an inflow with this length brings. Both steepnesses 0: a start, by the receiving cell's own direction. A cut:
/// 0. Else its length plus 10,000, or 14,142 if diagonal.
pub fn amount(percents: &Percents, side: i64, receiving: Slope, inflow: Slope, length: u64) -> u64 {
    let (q, p) = (receiving.steepness, inflow.steepness);
    if q == 0 && p == 0 {
        start(receiving.direction)
    } else if cut(q, p, cutoff(percents, q, side)) {
        0
    } else {
        length + step(inflow.direction)
    }
}

/// The cells that point at this one.
fn inflows(shape: Shape, direction: &[u8], cell: usize) -> Vec<usize> {
    let points_here = |&next: &usize| onward(shape, direction, next) == Some(cell);
    shape.neighbours(cell).map(|(_, next)| next).filter(points_here).collect()
}

/// What a length is measured on.
pub struct Terrain<'a> {
    pub shape: Shape,
    pub side: i64,
    pub flow: &'a Flow,
    pub count: &'a [u32],
    pub farms: &'a Accepted<'a>,
}

impl Terrain<'_> {
    /// What one inflow brings. The receiving cell's farm supplies the cutoffs.
    fn amount(&self, length: &[u64], cell: usize, inflow: usize) -> u64 {
        amount(self.farms.of(cell), self.side, self.flow.slope(cell), self.flow.slope(inflow), length[inflow])
    }

    /// Whether a cell is a channel by its own farm's rule, `largest` being the largest flow count.
    pub fn is_channel(&self, largest: u64, cell: usize) -> bool {
        channel(self.farms.of(cell).rule, u64::from(self.count[cell]), largest)
    }

    /// The cell's length once its inflows have theirs: 0 for a channel, else the greatest amount, or a start with no
    /// inflow.
    pub fn measured(&self, length: &[u64], largest: u64, cell: usize) -> u64 {
        if self.is_channel(largest, cell) {
            return 0;
        }
        let amounts = inflows(self.shape, &self.flow.direction, cell);
        let greatest = amounts.iter().map(|&inflow| self.amount(length, cell, inflow)).max();
        greatest.unwrap_or(start(self.flow.direction[cell]))
    }

    /// The largest flow count, whoever farms the cell that has it; 0 on an empty map.
    pub fn largest(&self) -> u64 {
        u64::from(self.count.iter().copied().max().unwrap_or(0))
    }

    /// Every cell's length, 0 for NoData. A cell's count is above that of each inflow, so in the order of counts
    /// the inflows come first.
    pub fn lengths(&self) -> Vec<u64> {
        let valid = |&cell: &usize| self.flow.direction[cell] != NO_DIRECTION;
        let mut order: Vec<usize> = (0..self.shape.cells()).filter(valid).collect();
        order.sort_by_key(|&cell| self.count[cell]);
        let mut length = vec![0; self.shape.cells()];
        for cell in order {
            length[cell] = self.measured(&length, self.largest(), cell);
        }
        length
    }
}

#[cfg(test)]
mod tests {
    use super::*;
    use crate::rules::settings::Formula;

    /// A start goes by the cell's own direction: E 1, S 4, W 16 and N 64 are not diagonal, nor is 0.
    #[test]
    fn starts_by_the_own_direction() {
        assert_eq!([0, 1, 4, 16, 64].map(start), [5_000; 5]);
        assert_eq!([2, 8, 32, 128].map(start), [7_071; 4]);
    }

    /// What an inflow of length 20,000 brings, side 10 m and cutoffs of so many percent.
    fn brought(percent: i64, receiving: (i64, u8), inflow: (i64, u8)) -> u64 {
        let percents = Percents { low: percent, high: percent, rule: Rule::None, formula: Formula::Older };
        let slope = |(steepness, direction)| Slope { steepness, direction };
        amount(&percents, 1_000, slope(receiving), slope(inflow), 20_000)
    }

    /// A flat pair starts by the receiving cell's direction, whatever the inflow's is and at cutoff 1.0 too.
    #[test]
    fn flat_pairs_start_by_the_receiving_direction() {
        for percent in [0, 50, 100] {
            assert_eq!([0, 1, 2, 128].map(|code| brought(percent, (0, code), (0, 1))), [5_000, 5_000, 7_071, 7_071]);
            assert_eq!([0, 1, 2, 128].map(|code| brought(percent, (0, code), (0, 2))), [5_000, 5_000, 7_071, 7_071]);
        }
    }

    /// Any other step is that of the inflow's direction, whatever the receiving cell's is.
    #[test]
    fn steps_go_by_the_inflow() {
        for code in [0, 1, 2] {
            assert_eq!([1, 2].map(|inflow| brought(50, (9, code), (9, inflow))), [30_000, 34_142]);
            assert_eq!([1, 2].map(|inflow| brought(50, (9, code), (0, inflow))), [30_000, 34_142]);
            assert_eq!([1, 2].map(|inflow| brought(100, (0, code), (9, inflow))), [30_000, 34_142]);
            assert_eq!([1, 2].map(|inflow| brought(50, (0, code), (9, inflow))), [0, 0]);
        }
    }
}
