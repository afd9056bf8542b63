//! Small fields with odd corner words, as texts: what the writer has to copy unchanged; some of them have slopes of nine
//! percent, where the newer formula of S changes. Serves docs/RULES.md, 10 The text that is written, and 6.3 Sine and S.

use super::fields::{self, fallen, relief, with_holes, Field};
use super::seed::Seed;
use super::spelling::{header_words, join, words, Manner};
use crate::rules::grid::Shape;

/// Where the two corner words stand among the words of a text.
const CORNERS: [usize; 2] = [5, 7];

/// So many digits, any of them 0.
fn digits(seed: &mut Seed, number: usize) -> String {
    (0..number).map(|_| char::from(b'0' + seed.below(10) as u8)).collect()
}

/// A corner word: any number of good form, of any length.
fn corner(seed: &mut Seed) -> Vec<u8> {
    if seed.once_in(4) {
        let odd = ["-0", "000000000", "-12.500000", "-000000000.000000", "999999999.999999"];
        return seed.pick(&odd).as_bytes().to_vec();
    }
    let sign = *seed.pick(&["", "-"]);
    let (before, after) = (1 + seed.below(9), seed.below(7));
    let point = if after == 0 { "" } else { "." };
    format!("{sign}{}{point}{}", digits(seed, before), digits(seed, after)).into_bytes()
}

/// Falls east by drops of nine percent, and one cm less and more.
fn nine_percent(seed: &mut Seed, shape: Shape) -> Field {
    let side = *seed.pick(&[100, 1_000, 10_000]);
    let drops: Vec<i64> = (0..shape.columns).map(|_| 9 * side / 100 + seed.between(-1, 1)).collect();
    let (nodata, heights) = with_holes(seed, shape, &relief(shape, |_, column| 90_000 - fallen(&drops, column)));
    Field { shape, side, nodata, heights }
}

/// A field of each kind of relief in turn, every eighth of nine percent.
fn field(seed: &mut Seed, number: usize, shape: Shape) -> Field {
    let kind = number % fields::RELIEFS.len();
    if number % 8 == 7 { nine_percent(seed, shape) } else { fields::field(seed, kind, shape) }
}

/// The text of one field of a seed.
pub fn text(seed: &mut Seed, number: usize) -> Vec<u8> {
    let most = *seed.pick(&[2, 5, 12, 12, 24]);
    let shape = Shape { rows: 1 + seed.below(most), columns: 1 + seed.below(most) };
    let field = field(seed, number, shape);
    let manner = *seed.pick(&[Manner::Plain, Manner::Mixed]);
    let mut words = words(seed, manner, &field);
    CORNERS.iter().for_each(|&index| words[index] = corner(seed));
    join(seed, manner, &words, header_words(&field), shape.columns).bytes
}

#[cfg(test)]
mod tests {
    use super::*;
    use std::collections::BTreeSet;

    /// Drops at nine percent, just below and just above, in few fields.
    #[test]
    fn nine_percent_is_met_and_missed() {
        let beyond = |number| {
            let field = nine_percent(&mut Seed::of(1, number), Shape { rows: 1, columns: 12 });
            let pairs = field.heights.windows(2).filter_map(|pair| Some(pair[0]? - pair[1]?));
            pairs.map(|drop| drop - 9 * field.side / 100).collect::<Vec<_>>()
        };
        let found: BTreeSet<i64> = (0..5).flat_map(beyond).collect();
        assert!((-1..=1).all(|cm| found.contains(&cm)));
    }
}
