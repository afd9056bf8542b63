//! The self-check: the rules in a second way and hostile texts, over seeded fields, and the fast map beside the
//! literal one. The examples of docs/RULES.md, 8 Small fields, are unit tests beside the rules.

use super::fast_ways;
use super::second_ways::{self, Kept};
use crate::rules::sheet::read_small;
use crate::texts::hostile;
use crate::texts::seed::Seed;

/// The number of seeded fields, of those for the fast map, of drawings, of fields of two farms, and of hostile texts of each
/// kind.
const FIELDS: usize = 600;
const FAST_FIELDS: usize = 400;
const DRAWINGS: usize = 1_200;
const FARMS: usize = 1_200;
const HOSTILE: usize = 300;

/// Every hostile text that names its refusal gets it.
fn hostile_texts() {
    for (kind, hostile) in hostile::KINDS.iter().enumerate() {
        for number in 0..HOSTILE {
            let text = hostile(&mut Seed::of(kind as u64, number as u64));
            let read = read_small(&text.bytes).map(|_| ());
            let as_known = text.known.is_none_or(|known| known == read);
            assert!(as_known, "{read:?} for {}", text.bytes.escape_ascii());
        }
    }
}

/// Fields of two farms, on which cells have to come up that keep length and LS and cells that do not.
fn two_farms() {
    let mut seen = Kept::default();
    (0..FARMS).for_each(|number| second_ways::farms(number, &mut seen));
    let Kept { kept, moved } = seen;
    assert!(kept > FARMS && moved > FARMS / 10, "{kept} cells keep their length and LS, {moved} do not");
    print!("selfcheck: {FARMS} fields of two farms; ");
    println!("the other farm's new settings move {moved} cells, {kept} are out of their reach");
}

/// Runs every check; a failing one stops the program with its place.
pub fn selfcheck() {
    second_ways::factors_in_words();
    (0..FIELDS).for_each(second_ways::field);
    (0..DRAWINGS).for_each(second_ways::drawing);
    two_farms();
    hostile_texts();
    fast_ways::agree(FAST_FIELDS);
    println!("selfcheck: {FIELDS} fields hold in a second way, {FAST_FIELDS} more by the fast map");
    println!("selfcheck: {DRAWINGS} drawings on fields hold in a second way");
}
