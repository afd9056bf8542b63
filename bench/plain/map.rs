//! The map call: from ground heights and settings, of one farm or of two, and directions if they are given, to the five
//! grids. docs/RULES.md, 7.2 The map call.

use crate::cells::Shape;
use crate::length::Terms;
use crate::settings::{judge, judge_farms, Rules};
use crate::{direction, downhill, fill, flat, given, refuse, trail, Refusal, Settings, NODATA};

/// The lent grids and the workspace, one place per cell each.
pub struct Grids<'a> {
    pub filled: &'a mut [i32],
    pub direction: &'a mut [u8],
    pub count: &'a mut [u32],
    pub lengths: &'a mut [u64],
    pub factors: &'a mut [u32],
    pub workspace: &'a mut [u32],
}

impl Grids<'_> {
    fn are_long(&self, cells: usize) -> bool {
        let lengths = [self.filled.len(), self.direction.len(), self.count.len()];
        let more = [self.lengths.len(), self.factors.len(), self.workspace.len()];
        lengths.iter().chain(&more).all(|&length| length == cells)
    }
}

/// Makes the tests of refusals 1, 2 and 3, in that order; `lent` has the lengths of the ground and of the marks.
fn judge_sizes(shape: Shape, side: u32, lent: &[usize], grids: &Grids) -> Result<(), Refusal> {
    let sizes = 1..=1_024;
    if !sizes.contains(&shape.rows) || !sizes.contains(&shape.columns) {
        return refuse(1, 0);
    }
    if lent.iter().any(|&length| length != shape.cells()) || !grids.are_long(shape.cells()) {
        return refuse(2, 0);
    }
    if !(1..=100_000).contains(&side) {
        return refuse(3, 0);
    }
    Ok(())
}

/// Makes the test of refusal 5.
fn judge_heights(ground: &[i32]) -> Result<(), Refusal> {
    let bad = |&height: &i32| height != NODATA && !(-50_000..=900_000).contains(&height);
    ground.iter().position(bad).map_or(Ok(()), |cell| refuse(5, cell))
}

/// Makes the test of refusal 19.
pub fn judge_marks(marks: &[u8]) -> Result<(), Refusal> {
    marks.iter().position(|&mark| mark > 1).map_or(Ok(()), |cell| refuse(19, cell))
}

/// Makes the tests of refusals 1 to 5, in that order.
fn judged(shape: Shape, side: u32, settings: Settings, ground: &[i32], grids: &Grids) -> Result<Rules, Refusal> {
    judge_sizes(shape, side, &[ground.len()], grids)?;
    let rules = judge(settings)?;
    judge_heights(ground)?;
    Ok(rules)
}

/// The same for two farms: 1, 2, 3, 4, 19, 5.
fn judged_farms(
    shape: Shape,
    side: u32,
    settings: [Settings; 2],
    marks: &[u8],
    ground: &[i32],
    grids: &Grids,
) -> Result<[Rules; 2], Refusal> {
    judge_sizes(shape, side, &[ground.len(), marks.len()], grids)?;
    let rules = judge_farms(settings)?;
    judge_marks(marks)?;
    judge_heights(ground)?;
    Ok(rules)
}

/// Levels in the workspace, with directions and falls by the rules.
#[inline(always)]
fn direct(shape: Shape, ground: &[i32], grids: &mut Grids) {
    fill::fill(shape, ground, grids.workspace);
    direction::point(shape, grids.workspace, grids.direction, grids.factors, grids.count);
    flat::measure(shape, grids.workspace, grids.count, grids.filled);
    flat::point(shape, grids.workspace, grids.count, grids.direction);
}

/// Levels in the workspace, with the falls of the directions that the lent grid of directions holds, or refusal 17 or 18,
/// which leave zeros in the workspace.
#[inline(always)]
fn take(shape: Shape, ground: &[i32], grids: &mut Grids) -> Result<(), Refusal> {
    fill::fill(shape, ground, grids.workspace);
    if let Err(refusal) = given::judge(shape, grids.direction, grids.workspace) {
        grids.workspace.fill(0);
        return Err(refusal);
    }
    given::measure(shape, grids.workspace, grids.direction, grids.factors);
    Ok(())
}

/// What follows from levels in the workspace, directions and falls, whoever drew the directions. `measure` writes lengths
/// and LS along an order.
#[inline(always)]
fn follow(
    shape: Shape,
    side: u32,
    grids: Grids,
    measure: impl FnOnce(Terms, &[u32], &mut [u64], &mut [u32]),
) -> (u32, u32) {
    let Grids { filled, direction, count, lengths, factors, workspace } = grids;
    fill::write_heights(workspace, filled);
    let valid = downhill::descend(shape, direction, count, workspace);
    let order = &workspace[..valid];
    let longest = trail::longest_trail(shape, direction, order, count);
    trail::count_flow(shape, direction, order, count);
    measure(Terms { shape, side: side.into(), direction, count }, order, lengths, factors);
    workspace.fill(0);
    (valid as u32, longest)
}

/// Maps a ground with cells of this side in cm: the number of valid cells and the steps of the longest trail. After
/// success the workspace holds zeros; a refusal changes nothing.
pub fn map(
    rows: usize,
    columns: usize,
    side: u32,
    settings: Settings,
    ground: &[i32],
    mut grids: Grids,
) -> Result<(u32, u32), Refusal> {
    let shape = Shape::of(rows, columns);
    let rules = judged(shape, side, settings, ground, &grids)?;
    direct(shape, ground, &mut grids);
    Ok(follow(shape, side, grids, |terms, order, lengths, factors| terms.measure(&rules, order, lengths, factors)))
}

/// The same under the directions that the lent grid of directions holds. The refusals 17 and 18 leave zeros in the
/// workspace.
pub fn map_given(
    rows: usize,
    columns: usize,
    side: u32,
    settings: Settings,
    ground: &[i32],
    mut grids: Grids,
) -> Result<(u32, u32), Refusal> {
    let shape = Shape::of(rows, columns);
    let rules = judged(shape, side, settings, ground, &grids)?;
    take(shape, ground, &mut grids)?;
    Ok(follow(shape, side, grids, |terms, order, lengths, factors| terms.measure(&rules, order, lengths, factors)))
}

/// The map of two farms: a cell's mark, 0 or 1, names the farm whose settings it has.
pub fn map_farms(
    rows: usize,
    columns: usize,
    side: u32,
    settings: [Settings; 2],
    marks: &[u8],
    ground: &[i32],
    mut grids: Grids,
) -> Result<(u32, u32), Refusal> {
    let shape = Shape::of(rows, columns);
    let rules = judged_farms(shape, side, settings, marks, ground, &grids)?;
    direct(shape, ground, &mut grids);
    Ok(follow(shape, side, grids, |terms, order, lengths, factors| {
        terms.measure_farms(&rules, marks, order, lengths, factors)
    }))
}

/// The map of two farms under the directions that the lent grid of directions holds.
pub fn map_farms_given(
    rows: usize,
    columns: usize,
    side: u32,
    settings: [Settings; 2],
    marks: &[u8],
    ground: &[i32],
    mut grids: Grids,
) -> Result<(u32, u32), Refusal> {
    let shape = Shape::of(rows, columns);
    let rules = judged_farms(shape, side, settings, marks, ground, &grids)?;
    take(shape, ground, &mut grids)?;
    Ok(follow(shape, side, grids, |terms, order, lengths, factors| {
        terms.measure_farms(&rules, marks, order, lengths, factors)
    }))
}
