//! Fields, terrains, texts and grids of floats from a seed, good and hostile ones.

pub mod cases;
pub mod cornered;
pub mod drawings;
pub mod fields;
pub mod float_grids;
mod gentle;
pub mod hostile;
mod lone_headers;
pub mod neighbours;
pub mod seed;
pub mod spelling;
pub mod telling;
pub mod terrains;
pub mod valleys;
