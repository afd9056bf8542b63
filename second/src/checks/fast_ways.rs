//! The fast map against the literal one, over seeded fields and small terrains. Serves the self-check.

use super::second_ways::any_settings;
use crate::fast::{self, Table};
use crate::rules::factor::slope_length_factor;
use crate::rules::grid::NODATA;
use crate::rules::map;
use crate::rules::settings::Settings;
use crate::texts::fields::{self, Field};
use crate::texts::seed::Seed;
use crate::texts::terrains::{terrain, TERRAINS};

/// The size of the small terrains.
const SIZE: usize = 40;

/// Both maps of a field are the same in every grid and number.
fn same(table: &Table, field: &Field, settings: Settings) {
    let ground: Vec<i32> = field.heights.iter().map(|height| height.map_or(NODATA, |height| height as i32)).collect();
    let literal = map::map(field.shape, field.side, &ground, settings).expect("a field is accepted");
    let fast = fast::map(table, field.shape, field.side, &ground, settings).expect("a field is accepted");
    assert_eq!(fast.filled, literal.filled);
    assert_eq!(fast.flow.direction, literal.flow.direction);
    assert_eq!(fast.flow.steepness, literal.flow.steepness);
    assert_eq!(fast.count, literal.count);
    assert_eq!(fast.length, literal.length);
    assert_eq!(fast.factor, literal.factor);
    assert_eq!((fast.valid, fast.longest), (literal.valid, literal.longest));
}

/// The table of L against the power rule, every so many mm.
fn same_table(table: &Table) {
    for mm in (0..304_800).step_by(311).chain([1, 22_128, 22_129, 88_513, 88_514, 304_799, 304_800]) {
        (2..=5).for_each(|k| assert_eq!(table.slope_length_factor(k, mm), slope_length_factor(k, mm)));
    }
}

/// So many seeded fields and each small terrain, under settings of every kind.
pub fn agree(number: usize) {
    let table = Table::new();
    same_table(&table);
    for case in 0..number {
        let mut seed = Seed::of(2, case as u64);
        let shape = fields::shape(&mut seed);
        let field = fields::field(&mut seed, case % fields::RELIEFS.len(), shape);
        same(&table, &field, any_settings(&mut seed));
    }
    for kind in 0..TERRAINS.len() {
        let field = terrain(kind, SIZE, 1);
        same(&table, &field, any_settings(&mut Seed::of(3, 0)));
    }
}
