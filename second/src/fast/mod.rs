//! The map once more in near-linear time, for grids of full size. States docs/RULES.md, 4 to 6, as `rules/` does; the
//! self-check holds the two together.

mod downhill;
mod flood;
mod flow;
mod land;
mod table;

use crate::rules::direction::Flow;
use crate::rules::factor::NO_FACTOR;
use crate::rules::farms::Farms;
use crate::rules::grid::Shape;
use crate::rules::map::{judge, Map};
use crate::rules::refusal::Refusal;
use crate::rules::settings::{Formula, Settings};
use downhill::Downhill;
use land::Land;
pub use table::Table;

/// LS of every place by the chosen formula; NoData places have none.
fn factors(land: &Land, formula: Formula, side: i64, table: &Table, steepness: &[i64], length: &[u64]) -> Vec<u32> {
    let mut factor = vec![NO_FACTOR; land.places()];
    land.cells().for_each(|cell| factor[cell] = table.factor(formula, length[cell], steepness[cell], side));
    factor
}

/// The map of a ground of one farm, or the refusal.
pub fn map(table: &Table, shape: Shape, side: i64, ground: &[i32], settings: Settings) -> Result<Map, Refusal> {
    let farms = Farms::One(settings);
    let accepted = judge(shape, side, ground, None, &farms)?;
    let percents = accepted.of(0);
    let land = Land::of(shape, ground);
    let filled = flood::filled(&land);
    let flow = flow::flow(&land, &filled);
    let downhill = Downhill::of(&land, &flow);
    let count = downhill.counts();
    let length = downhill.lengths(&flow, &count, side, percents);
    let factor = factors(&land, percents.formula, side, table, &flow.steepness, &length);
    Ok(Map {
        filled: land.inner(&filled),
        flow: Flow { direction: land.inner(&flow.direction), steepness: land.inner(&flow.steepness) },
        count: land.inner(&count),
        length: land.inner(&length),
        factor: land.inner(&factor),
        valid: land.cells().count(),
        longest: downhill.longest(),
    })
}
