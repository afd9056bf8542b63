//! Counts, longest trail and lengths, each cell after its inflows (Kahn 1962). States docs/RULES.md, 4.5 and
//! 5 Length.

use super::land::Land;
use crate::rules::direction::Flow;
use crate::rules::length::{amount, channel, start};
use crate::rules::settings::Percents;

/// The valid cells, each after all its inflows, and the place that each points at.
pub struct Downhill {
    order: Vec<usize>,
    onward: Vec<Option<usize>>,
}

impl Downhill {
    pub fn of(land: &Land, flow: &Flow) -> Downhill {
        let mut onward = vec![None; land.places()];
        let mut waits_for = vec![0; land.places()];
        for cell in land.cells() {
            onward[cell] = land.onward(cell, flow.direction[cell]);
            onward[cell].iter().for_each(|&next| waits_for[next] += 1);
        }
        let mut order: Vec<usize> = land.cells().filter(|&cell| waits_for[cell] == 0).collect();
        let mut done = 0;
        while done < order.len() {
            if let Some(next) = onward[order[done]] {
                waits_for[next] -= 1;
                if waits_for[next] == 0 {
                    order.push(next);
                }
            }
            done += 1;
        }
        assert_eq!(order.len(), land.cells().count(), "every trail leaves the map");
        Downhill { order, onward }
    }

    /// Flow counts: the number of valid cells whose trail passes the cell, itself included.
    pub fn counts(&self) -> Vec<u32> {
        let mut count = vec![0; self.onward.len()];
        for &cell in &self.order {
            count[cell] += 1;
            self.onward[cell].iter().for_each(|&next| count[next] += count[cell]);
        }
        count
    }

    /// The longest trail, in steps between cells: in reverse, each cell after the one that it points at.
    pub fn longest(&self) -> usize {
        let mut steps = vec![0; self.onward.len()];
        for &cell in self.order.iter().rev() {
            steps[cell] = self.onward[cell].map_or(0, |next| steps[next] + 1);
        }
        steps.into_iter().max().unwrap_or(0)
    }

    /// Every place's length: each cell, once its own is known, brings its amount to the cell that it points at.
    pub fn lengths(&self, flow: &Flow, count: &[u32], side: i64, percents: &Percents) -> Vec<u64> {
        let largest = u64::from(count.iter().copied().max().unwrap_or(0));
        let mut length = vec![0; count.len()];
        let mut greatest = vec![None; count.len()];
        for &cell in &self.order {
            if !channel(percents.rule, u64::from(count[cell]), largest) {
                length[cell] = greatest[cell].unwrap_or(start(flow.direction[cell]));
            }
            if let Some(next) = self.onward[cell] {
                let brought = amount(percents, side, flow.slope(next), flow.slope(cell), length[cell]);
                greatest[next] = greatest[next].max(Some(brought));
            }
        }
        length
    }
}
