//! Directions drawn by someone else: judged by the levels that the workspace holds, then searched for rings by peeling
//! (topological sorting, Kahn 1962) in the same words. docs/RULES.md, 4.7 Given directions.

use crate::cells::Shape;
use crate::{refuse, Refusal, NO_CODE, NO_FACTOR};

/// What a word has beside its level: one more for each cell that points here and is not taken yet, and that the cell is.
const INFLOW: u32 = 1 << 24;
const TAKEN: u32 = 1 << 30;

/// Whether a cell of this level may have this code, by every rule but the last.
fn is_good(code: u8, level: u32, near: [u32; 8]) -> bool {
    match code {
        _ if level == 0 => code == NO_CODE,
        0 => near.contains(&0),
        _ => code.is_power_of_two() && (1..=level).contains(&near[code.trailing_zeros() as usize]),
    }
}

/// The first cell on a ring: those are never taken, since each waits for the one before it. Leaves the marks in the words.
fn first_on_ring(shape: Shape, direction: &[u8], words: &mut [u32]) -> Option<usize> {
    let onward = |cell: usize| shape.onward(cell, direction[cell]).map(|(_, next)| next);
    let valid = |cell: usize| direction[cell] != NO_CODE;
    (0..words.len()).filter(|&cell| valid(cell)).filter_map(onward).for_each(|next| words[next] += INFLOW);
    for start in (0..words.len()).filter(|&cell| valid(cell)) {
        let mut at = Some(start);
        while let Some(cell) = at.filter(|&cell| words[cell] < INFLOW) {
            words[cell] += TAKEN;
            at = onward(cell);
            at.into_iter().for_each(|next| words[next] -= INFLOW);
        }
    }
    (0..words.len()).find(|&cell| valid(cell) && words[cell] < TAKEN)
}

/// Makes the tests of refusals 17 and 18. Accepted, the words are the levels that they were.
#[inline(never)]
pub fn judge(shape: Shape, direction: &[u8], words: &mut [u32]) -> Result<(), Refusal> {
    let bad = |&cell: &usize| !is_good(direction[cell], words[cell], shape.near(words, cell));
    if let Some(cell) = (0..words.len()).find(bad) {
        return refuse(17, cell);
    }
    if let Some(cell) = first_on_ring(shape, direction, words) {
        return refuse(18, cell);
    }
    words.iter_mut().for_each(|word| *word %= INFLOW);
    Ok(())
}

/// Writes the falls of the given directions: twice the drop, and one more over a diagonal; 0 where there is no drop.
#[inline(never)]
pub fn measure(shape: Shape, levels: &[u32], direction: &[u8], falls: &mut [u32]) {
    for (cell, fall) in falls.iter_mut().enumerate() {
        let fall_of = |(bearing, next): (usize, usize)| match levels[cell] - levels[next] {
            0 => 0,
            drop => drop * 2 + bearing as u32 % 2,
        };
        *fall = match direction[cell] {
            NO_CODE => NO_FACTOR,
            code => shape.onward(cell, code).map_or(0, fall_of),
        };
    }
}
