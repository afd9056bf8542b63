//! The rules of docs/RULES.md read literally: the readers, the map, given directions, two farms, the sheet, the
//! writer and the report.

mod beside;
mod big;
pub mod direction;
pub mod factor;
pub mod farms;
pub mod fill;
pub mod float;
pub mod float_grid;
pub mod given;
pub mod grid;
pub mod grid_texts;
pub mod length;
pub mod map;
mod number;
pub mod program;
pub mod refusal;
pub mod report;
pub mod settings;
pub mod sheet;
pub mod text;
pub mod trail;
pub mod write;
