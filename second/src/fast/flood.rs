//! Filled heights by priority flood (Barnes, Lehman and Mulla 2014): from the rim inwards, always on from the lowest
//! cell reached. States docs/RULES.md, 4.2.

use super::land::Land;
use crate::rules::grid::NODATA;
use std::cmp::Reverse;
use std::collections::BinaryHeap;

/// Every place's filled height. The lowest cell reached has its own, since every run to the others is as high.
pub fn filled(land: &Land) -> Vec<i32> {
    let mut filled = vec![NODATA; land.places()];
    let mut reached = BinaryHeap::new();
    for cell in land.cells().filter(|&cell| land.rim(cell)) {
        filled[cell] = land.ground[cell];
        reached.push(Reverse((filled[cell], cell)));
    }
    while let Some(Reverse((level, cell))) = reached.pop() {
        for next in land.around(cell) {
            if land.valid(next) && filled[next] == NODATA {
                filled[next] = land.ground[next].max(level);
                reached.push(Reverse((filled[next], next)));
            }
        }
    }
    filled
}
