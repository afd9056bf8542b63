//! A plain, unverified program of the rules of docs/RULES.md, with the algorithms of crates/text, crates/terrain,
//! crates/factor, crates/writer and crates/report: what their speed is measured against. It makes no comparison that those
//! make only for want of a proof of the order in which a stage works. Grids of floats are read by the processor's own
//! floats, as crates/floats does not. Every grid is the caller's. The stages are not inlined, so that a profiler sees each.

mod cells;
mod direction;
mod downhill;
mod factor;
mod fill;
mod flat;
mod floats;
mod given;
mod length;
mod map;
mod queue;
mod report;
mod settings;
mod slope;
mod text;
mod thresholds;
mod trail;
mod write;

pub use floats::read_floats;
pub use map::{map, map_farms, map_farms_given, map_given, Grids};
pub use report::{add, add_farms, join, Greatest, Report};
pub use settings::{Channel, Formula, Settings};
pub use text::{read_grid, read_header, Header, Span};
pub use write::{room, write_codes, write_counts, write_factors, write_heights, Frame};

/// docs/RULES.md, 1 Quantities: NoData as a height, as a code and as a factor, which is its fall too; and a factor that
/// is too long.
pub const NODATA: i32 = -999_900;
pub const NO_CODE: u8 = 255;
pub const NO_FACTOR: u32 = u32::MAX;
pub const TOO_LONG: u32 = u32::MAX - 1;

/// docs/RULES.md, 3 Numbers of refusal: number and place.
#[derive(Clone, Copy, Debug, PartialEq, Eq)]
pub struct Refusal {
    pub number: u32,
    pub place: usize,
}

fn refuse<T>(number: u32, place: usize) -> Result<T, Refusal> {
    Err(Refusal { number, place })
}
