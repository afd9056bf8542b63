//! Valleys: lists of small fields for one report, cut into parts, some with a field or a setting that is refused; and
//! records at the edge of 64 bits. Serves docs/RULES.md, 12 The report.

use super::seed::Seed;
use super::{cornered, hostile};
use crate::rules::report::{Greatest, Report};
use crate::rules::settings::{Channel, Settings};

/// The texts of a valley's fields, part by part, their settings, and two records.
pub struct Valley {
    pub parts: Vec<Vec<Vec<u8>>>,
    pub settings: Settings,
    pub records: [Report; 2],
}

/// A strip without data.
const EMPTY: &[u8] = b"ncols 2 nrows 1 xllcorner 0 yllcorner 0 cellsize 10\n-9999 -9999\n";

/// Fields whose first cell has, by the newer formula, an LS of exactly 1, 5 and 10.
const BOUNDS: [&[u8]; 3] = [
    b"ncols 2 nrows 2 xllcorner 0 yllcorner 0 cellsize 0.37\n0.42 0.42\n0.42 0\n",
    b"ncols 2 nrows 1 xllcorner 0 yllcorner 0 cellsize 11.07\n8.87 0\n",
    b"ncols 2 nrows 1 xllcorner 0 yllcorner 0 cellsize 44.26\n35.47 0\n",
];

/// The kinds of hostile texts but those that are too large for a sheet alone.
const HOSTILE: usize = 14;

/// One more field: as one before it, so that the greatest LS is met twice; without data; hostile; at a class bound; or any.
fn field(seed: &mut Seed, before: &[Vec<u8>]) -> Vec<u8> {
    match seed.below(25) {
        0..=4 if !before.is_empty() => seed.pick(before).clone(),
        5 => EMPTY.to_vec(),
        6 => seed.pick(&hostile::KINDS[..HOSTILE])(seed).bytes,
        7..=8 => seed.pick(&BOUNDS).to_vec(),
        number => cornered::text(seed, number),
    }
}

/// The settings, once in twenty with one that is refused.
pub fn spoiled(seed: &mut Seed, settings: Settings) -> Settings {
    match seed.below(60) {
        0 => Settings { low: 0.505, ..settings },
        1 => Settings { high: 1.01, ..settings },
        2 => Settings { channel: Channel::Percentage(0.05), ..settings },
        _ => settings,
    }
}

/// A number that is small, or near the edge of 64 bits.
fn edge(seed: &mut Seed) -> u128 {
    let most = u128::from(u64::MAX);
    let small = seed.below(40) as u128;
    *seed.pick(&[0, 0, 1, small, small, 1_000_000 + small, 1 << 63, most - 1_000_000 - small, most - small, most])
}

/// A record, which may be one that no list of maps could give. Half of its totals are 0, so that half of the records can
/// be joined.
fn record(seed: &mut Seed) -> Report {
    let [maps, valid, channel, zero, long, sum, under_1, from_1, from_5, from_10] =
        [0; 10].map(|_| if seed.once_in(2) { edge(seed) } else { 0 });
    let [other, map, cell] = [0; 3].map(|_| edge(seed));
    let factor = *seed.pick(&[0, 4_810, 54_379, other]);
    let greatest = (!seed.once_in(3)).then_some(Greatest { factor, map, cell });
    Report { maps, valid, channel, zero, long, sum, under_1, from_1, from_5, from_10, greatest }
}

/// A list cut into parts, some of which may be empty.
fn cut(seed: &mut Seed, mut texts: Vec<Vec<u8>>) -> Vec<Vec<Vec<u8>>> {
    let mut parts = Vec::new();
    for _ in 0..seed.below(3) {
        parts.push(texts.split_off(seed.below(texts.len() + 1)));
    }
    parts.push(texts);
    parts.reverse();
    parts
}

/// The valley of a seed: up to six fields, under these settings where they are not spoiled.
pub fn valley(seed: &mut Seed, settings: Settings) -> Valley {
    let mut texts = Vec::new();
    for _ in 0..seed.below(7) {
        texts.push(field(seed, &texts));
    }
    let (parts, settings) = (cut(seed, texts), spoiled(seed, settings));
    Valley { parts, settings, records: [0; 2].map(|_| record(seed)) }
}

#[cfg(test)]
mod tests {
    use super::*;
    use crate::rules::farms::Asked;
    use crate::rules::refusal::Refusal;
    use crate::rules::report::{join, mapped, report, Mapped};
    use crate::rules::settings::{Formula, LIBRARY};
    use std::collections::BTreeSet;

    fn valleys() -> Vec<Valley> {
        (0..300).map(|number| valley(&mut Seed::of(1, number), LIBRARY)).collect()
    }

    fn maps(valley: &Valley) -> Result<Vec<Mapped>, Refusal> {
        valley.parts.concat().iter().map(|text| mapped(text, Asked::One(valley.settings))).collect()
    }

    /// Each number of fields and each number of parts comes up, and each kind of cell in what is accepted.
    #[test]
    fn valleys_have_every_kind_of_list() {
        let sizes: BTreeSet<usize> = valleys().iter().map(|valley| valley.parts.concat().len()).collect();
        let parts: BTreeSet<usize> = valleys().iter().map(|valley| valley.parts.len()).collect();
        assert_eq!((sizes, parts), ((0..7).collect(), (1..4).collect()));
        let reports: Vec<Report> = valleys().iter().filter_map(|valley| report(&maps(valley).ok()?).ok()).collect();
        assert!(reports.iter().any(|report| report.maps > 0 && report.greatest.is_none()));
        assert!(reports.iter().any(|report| report.channel > 0 && report.zero > 0 && report.long > 0));
        assert!(reports.iter().any(|report| [report.from_1, report.from_5, report.from_10].iter().all(|&n| n > 0)));
        assert!(reports.iter().any(|report| report.greatest.is_some_and(|greatest| greatest.map > 0)));
    }

    #[test]
    fn fields_lie_at_class_bounds() {
        let settings = Settings { channel: Channel::None, formula: Formula::Newer, ..LIBRARY };
        let first = |text| mapped(text, Asked::One(settings)).map(|map| map.factor[0]);
        assert_eq!(BOUNDS.map(first), [Ok(100_000), Ok(500_000), Ok(1_000_000)]);
    }

    /// The same greatest LS stands in two maps of some list.
    #[test]
    fn valleys_have_ties() {
        let ties = |valley: &Valley| {
            let Ok(maps) = maps(valley) else { return false };
            let greatest = |maps: &[Mapped]| report(maps).ok().and_then(|report| report.greatest);
            let Some(first) = greatest(&maps) else { return false };
            let later = greatest(&maps[first.map as usize + 1..]);
            later.is_some_and(|later| later.factor == first.factor)
        };
        assert!(valleys().iter().any(ties));
    }

    #[test]
    fn some_valleys_and_some_records_are_refused() {
        let refusals: Vec<Refusal> = valleys().iter().filter_map(|valley| maps(valley).err()).collect();
        let numbers: BTreeSet<u32> = refusals.iter().map(|refusal| refusal.number).collect();
        assert!([4, 5, 7].iter().all(|number| numbers.contains(number)));
        let joined = valleys().iter().filter(|valley| join(valley.records[0], valley.records[1]).is_ok()).count();
        assert!((30..270).contains(&joined));
    }
}
