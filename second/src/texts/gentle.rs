//! Gentle reliefs that mostly drain to one outlet, with drops about the low cutoff. Serves docs/RULES.md, 5 Length.

use super::fields::relief;
use super::seed::Seed;
use crate::rules::grid::Shape;

/// The heights of a shape's cells from a seed, for a side in cm.
pub type Relief = fn(&mut Seed, Shape, i64) -> Vec<i64>;

/// The kinds of gentle relief.
pub const RELIEFS: [Relief; 2] = [valley, bowl];

/// The heights at so many steps from the lowest, 0 there. Seen from above, a drop is any up to 5, 10 or 20 percent of
/// the side, or 25 to 55 percent of the drop before.
fn profile(seed: &mut Seed, steps: usize, side: i64) -> Vec<i64> {
    let steepest = side / *seed.pick(&[20, 20, 10, 5]);
    let mut drops = vec![steepest];
    for step in 1..steps {
        let part = drops[step - 1] * seed.between(25, 55) / 100;
        let drop = if seed.once_in(3) { part } else { seed.between(0, steepest) };
        drops.push(drop);
    }
    let rise = |height: &mut i64, drop: &i64| {
        *height += drop;
        Some(*height)
    };
    std::iter::once(0).chain(drops.iter().rev().scan(0, rise)).collect()
}

/// A valley that leaves over one of the four edges. Its floor is straight, or a cell further across at every few steps.
fn valley(seed: &mut Seed, shape: Shape, side: i64) -> Vec<i64> {
    let (rows, columns) = (shape.rows as i64, shape.columns as i64);
    let (edge, slant) = (seed.below(4), *seed.pick(&[1, 2, 4, 10_000, 10_000]));
    let breadth = if edge < 2 { columns } else { rows };
    let (floor, gentler) = (seed.between(0, breadth - 1), *seed.pick(&[1, 2, 4]));
    let along = profile(seed, shape.rows + shape.columns, side / gentler);
    let across = profile(seed, shape.rows + shape.columns, side);
    relief(shape, |row, column| {
        let (south, east) = (rows - 1 - row, columns - 1 - column);
        let (steps, place) = [(south, column), (row, column), (east, row), (column, row)][edge];
        along[steps as usize] + across[(floor + steps / slant - place).unsigned_abs() as usize]
    })
}

/// Rises from an outlet in the first or last row, by the greater of its distances in rows and columns or by their sum.
fn bowl(seed: &mut Seed, shape: Shape, side: i64) -> Vec<i64> {
    let (top, left) = (*seed.pick(&[0, shape.rows as i64 - 1]), seed.below(shape.columns) as i64);
    let rises = profile(seed, shape.rows + shape.columns, side);
    let by_sum = seed.once_in(2);
    relief(shape, |row, column| {
        let (south, east) = ((row - top).abs(), (column - left).abs());
        rises[if by_sum { south + east } else { south.max(east) } as usize]
    })
}

/// The heights with ripples of up to half a percent of the side, and some cells as hollows.
pub fn rippled(seed: &mut Seed, side: i64, mut heights: Vec<i64>) -> Vec<i64> {
    let ripple = side * seed.pick(&[0, 1, 1, 2, 5]) / 1_000;
    heights.iter_mut().for_each(|height| *height += seed.between(-ripple, ripple));
    for _ in 0..*seed.pick(&[0, 0, 3, 10]) {
        let hollow = seed.below(heights.len());
        heights[hollow] -= seed.between(0, side / 10);
    }
    heights
}
