//! The steepness of a cell, from its fall: twice its drop, and one more where its direction is diagonal. docs/RULES.md,
//! 4.3 Directions.

/// The steepness of a fall: 2·d·d in a cardinal direction, d·d in a diagonal one.
#[inline]
pub fn steepness(fall: u32) -> u64 {
    let drop = u64::from(fall / 2);
    drop * drop * u64::from(2 - fall % 2)
}
