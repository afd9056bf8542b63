//! Texts that tell the job's settings from others: both its channels and its low cutoff show on the sheet. Serves
//! docs/RULES.md, 5 Length and 9.3 The programs.

use super::fields::{with_holes, Field};
use super::gentle::{rippled, RELIEFS};
use super::seed::Seed;
use super::spelling::any_text;
use crate::rules::grid::Shape;
use crate::rules::settings::{Channel, Settings, JOB};
use crate::rules::sheet::{sheet, MOST_CELLS};

/// The settings that the job's are told from: without channels, and with the low cutoff 0.7.
const OTHERS: [Settings; 2] = [Settings { channel: Channel::None, ..JOB }, Settings { low: 0.7, ..JOB }];

/// Whether the job's sheet is another one without channels, so that some cell is a channel, and with low cutoff 0.7.
pub fn is_telling(text: &[u8]) -> bool {
    let job = sheet(text, JOB);
    OTHERS.iter().all(|&other| sheet(text, other) != job)
}

/// Shapes of several hundred cells, some to the most that a sheet has. Under 1 percent each cell with an inflow is a
/// channel, unless the largest flow count is at least 200.
fn shape(seed: &mut Seed) -> Shape {
    let most = if seed.once_in(10) { MOST_CELLS } else { 600 };
    let cells = 200 + seed.below(most - 199);
    let rows = 8 + seed.below(22);
    Shape { rows, columns: cells / rows }
}

/// Sides: mostly 10 m.
fn side(seed: &mut Seed) -> i64 {
    let any = seed.between(100, 100_000);
    *seed.pick(&[1_000, 1_000, 1_000, 1_000, 1_000, 100, 200, 250, 500, 2_000, 2_500, 3_000, 9_000, any])
}

/// The text of a gentle field, telling or not.
fn candidate(seed: &mut Seed) -> Vec<u8> {
    let (shape, side) = (shape(seed), side(seed));
    let lowest = seed.between(-3_000, 20_000);
    let relief = *seed.pick(&RELIEFS);
    let ground: Vec<i64> = relief(seed, shape, side).iter().map(|height| lowest + height).collect();
    let ground = rippled(seed, side, ground);
    let (nodata, heights) = with_holes(seed, shape, &ground);
    any_text(seed, &Field { shape, side, nodata, heights })
}

/// The telling text of this number: the first among the candidates of the seed and the number.
pub fn text(seed: u64, number: usize) -> Vec<u8> {
    let mut seed = Seed::of(seed, number as u64);
    loop {
        let text = candidate(&mut seed);
        if is_telling(&text) {
            return text;
        }
    }
}

#[cfg(test)]
mod tests {
    use super::*;
    use crate::rules::sheet::{read_small, MOST_BYTES};
    use crate::texts::fields::relief;
    use crate::texts::spelling::{text as text_of, Manner};

    /// The text of a field by its heights in cm.
    fn field(rows: usize, columns: usize, side: i64, height: impl Fn(i64, i64) -> i64) -> Vec<u8> {
        let shape = Shape { rows, columns };
        let heights = relief(shape, height).into_iter().map(Some).collect();
        text_of(&mut Seed::of(0, 0), Manner::Plain, &Field { shape, side, nodata: None, heights }).bytes
    }

    /// Whether the sheet is another one for each of the other settings.
    fn differs(text: &[u8]) -> [bool; 2] {
        OTHERS.map(|other| sheet(text, other) != sheet(text, JOB))
    }

    /// A strip of 300 cells, the first drop twice the others: its fourth cell is the first channel, its second is cut.
    #[test]
    fn a_telling_strip() {
        let strip = field(1, 300, 100, |_, column| if column == 0 { 301 } else { 300 - column });
        assert_eq!(differs(&strip), [true, true]);
        assert!(is_telling(&strip));
    }

    /// The cell of the largest count is a channel under 1 percent, so only a sheet without valid cells has none.
    #[test]
    fn no_channel_cell() {
        let empty = field(20, 20, 100, |_, _| -999_900);
        assert_eq!(differs(&empty), [false, false]);
        assert_eq!(differs(b""), [false, false]);
        assert!(!is_telling(&empty));
    }

    /// Drops double from ring to ring about an outlet, so every cell that has an inflow is cut, channel or not.
    #[test]
    fn channels_that_do_not_show() {
        let bowl = field(11, 21, 10_000, |row, column| 1 << row.max((column - 10).abs()));
        assert_eq!(differs(&bowl), [false, true]);
        assert!(!is_telling(&bowl));
    }

    /// A strip of equal drops has no cut.
    #[test]
    fn a_cutoff_that_does_not_show() {
        let strip = field(1, 300, 100, |_, column| 300 - column);
        assert_eq!(differs(&strip), [true, false]);
        assert!(!is_telling(&strip));
    }

    #[test]
    fn telling_texts_are_within_the_limits() {
        for number in 0..12 {
            let text = text(1, number);
            assert!(text.len() <= MOST_BYTES);
            assert!(read_small(&text).is_ok_and(|(_, ground)| ground.len() <= MOST_CELLS));
            assert!(is_telling(&text));
        }
    }
}
