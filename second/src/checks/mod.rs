//! Comparisons: of the rules with a second way to say them, of the fast map with the literal one, of other programs
//! with this one.

pub mod compare;
pub mod directions;
pub mod farms;
mod fast_ways;
pub mod floats;
pub mod full;
mod maps;
pub mod reports;
mod second_ways;
pub mod selfcheck;
pub mod texts;

#[cfg(test)]
pub use second_ways::any_settings;
