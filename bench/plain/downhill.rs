//! The valid cells in an order from the ridges down, by peeling (topological sorting, Kahn 1962): a cell is taken once
//! every cell that points at it is.

use crate::cells::Shape;
use crate::NO_CODE;

/// What a cell that is not to be taken, or not again, waits for.
const SHUT: u32 = u32::MAX;

/// Notes for every valid cell how many cells point at it, and shuts the others.
fn await_inflows(shape: Shape, direction: &[u8], waiting: &mut [u32]) {
    for (waiting, &code) in waiting.iter_mut().zip(direction) {
        *waiting = if code == NO_CODE { SHUT } else { 0 };
    }
    for (cell, &code) in direction.iter().enumerate() {
        if code != NO_CODE {
            if let Some((_, next)) = shape.onward(cell, code) {
                waiting[next] += 1;
            }
        }
    }
}

/// Notes the valid cells in `order`, and gives how many there are. A cell after the start of a trail is left for its own
/// turn, so that the order goes by rows as far as it can. `waiting` is scratch.
#[inline(never)]
pub fn descend(shape: Shape, direction: &[u8], waiting: &mut [u32], order: &mut [u32]) -> usize {
    await_inflows(shape, direction, waiting);
    let mut taken = 0;
    for start in 0..direction.len() {
        let mut cell = start;
        while waiting[cell] == 0 {
            waiting[cell] = SHUT;
            order[taken] = cell as u32;
            taken += 1;
            let Some((_, next)) = shape.onward(cell, direction[cell]) else { break };
            waiting[next] -= 1;
            if next > start {
                break;
            }
            cell = next;
        }
    }
    taken
}
