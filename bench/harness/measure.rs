//! One text measured: the measured side and the others in turn, the best of several rounds of each.

use crate::clock::time;
use crate::lent::{Lent, Side};
use crate::memory::peak;
use crate::sides::{all, FARMS, GIVEN, MEASURED, NEWER, OTHERS, PLAIN, PLAIN_NEWER, REPORTS};
use std::hint::black_box;

/// Rounds of adding a map to a report for each of the others: it is short.
const MORE_REPORTS: usize = 4;

/// Best milliseconds of the measured side and of the plain one.
#[derive(Clone, Copy)]
pub struct Pair {
    pub measured: f64,
    pub plain: f64,
}

impl Pair {
    pub fn ratio(&self) -> f64 {
        self.measured / self.plain
    }

    /// The better of each side.
    pub fn or(&self, other: &Pair) -> Pair {
        Pair { measured: self.measured.min(other.measured), plain: self.plain.min(other.plain) }
    }
}

/// What is found of one text: the times of mapping, reading and writing, of reading the same heights as floats, and of
/// adding the map to a report; the map call's under the newer steepness formula, with our own directions given back, of
/// two farms, the second without a cell or with the east half, and by the library of another commit; the bytes of the text
/// that is read, of the one that is written and of the floats; and the KiB by which the first map call raised the peak.
#[derive(Clone, Copy)]
pub struct Found {
    pub map: Pair,
    pub text: Pair,
    pub write: Pair,
    pub floats: Pair,
    pub report: Pair,
    pub newer: f64,
    pub given: f64,
    pub farms: f64,
    pub halves: f64,
    pub before: Option<f64>,
    pub bytes: usize,
    pub written: usize,
    pub float_bytes: usize,
    pub peak: i64,
}

impl Found {
    /// The measured side's map call under the newer formula by that under the older.
    pub fn ratio_newer(&self) -> f64 {
        self.newer / self.map.measured
    }

    /// The measured side's map call with our own directions given back by that which finds them.
    pub fn ratio_given(&self) -> f64 {
        self.given / self.map.measured
    }

    /// The measured side's map call of two farms by that of one, where all cells are of farm 0.
    pub fn ratio_farms(&self) -> f64 {
        self.farms / self.map.measured
    }

    /// The same where the east half is of farm 1.
    pub fn ratio_halves(&self) -> f64 {
        self.halves / self.map.measured
    }

    /// The measured side's time for adding the map to a report by that for the map call.
    pub fn share_report(&self) -> f64 {
        self.report.measured / self.map.measured
    }

    /// The measured side's map call by that of the library of another commit.
    pub fn ratio_before(&self) -> Option<f64> {
        self.before.map(|before| self.map.measured / before)
    }

    /// The better of each side, and the greater peak.
    pub fn or(&self, other: &Found) -> Found {
        Found {
            map: self.map.or(&other.map),
            text: self.text.or(&other.text),
            write: self.write.or(&other.write),
            floats: self.floats.or(&other.floats),
            report: self.report.or(&other.report),
            newer: self.newer.min(other.newer),
            given: self.given.min(other.given),
            farms: self.farms.min(other.farms),
            halves: self.halves.min(other.halves),
            before: self.before.zip(other.before).map(|(one, other)| one.min(other)),
            bytes: self.bytes,
            written: self.written,
            float_bytes: self.float_bytes,
            peak: self.peak.max(other.peak),
        }
    }
}

/// The best of several rounds of each side, the sides in turn.
fn in_turn<S: Copy>(rounds: usize, sides: &[S], mut call: impl FnMut(S)) -> Vec<f64> {
    let mut best = vec![f64::MAX; sides.len()];
    for _ in 0..rounds {
        for (best, &side) in best.iter_mut().zip(sides) {
            *best = best.min(time(|| call(side)));
        }
    }
    best
}

/// Every side reads the same heights in the floats as in the text.
fn compare_floats(lent: &Lent) {
    for side in all() {
        let mut heights = vec![1; lent.ground.len()];
        (side.read_floats)(&lent.header, &lent.floats, &mut heights);
        assert!(heights == lent.ground, "{} must read the same heights in the floats as in the text", side.name);
    }
}

/// The measured side reports on the map what the plain one does.
fn compare_reports(lent: &Lent) {
    let [measured, plain] = REPORTS.map(|report| report(lent));
    assert_eq!(measured, plain, "{} and {} must report the same", MEASURED.name, PLAIN.name);
}

/// Under the newer formula the measured side gives the grids of the plain one.
fn compare_newer(lent: &mut Lent) {
    (NEWER.map)(lent);
    let mut other = lent.clone();
    (PLAIN_NEWER.map)(&mut other);
    assert!(*lent == other, "{} and {} must give the same grids", NEWER.name, PLAIN_NEWER.name);
}

/// With our own directions, which the lent grid holds, given back the measured side gives the same grids, and with two
/// farms under the same settings.
fn compare_same(lent: &Lent) {
    for side in [&[GIVEN][..], &FARMS].concat() {
        let mut other = lent.clone();
        (side.map)(&mut other);
        assert!(*lent == other, "{} and {} must give the same grids", MEASURED.name, side.name);
    }
}

/// The measured side's times for the map call, under the newer formula, with directions given and of two farms, then those
/// of the others, all in turn. Every side leaves our own directions in the lent grid, where the call that takes them finds
/// them.
fn map_times(rounds: usize, lent: &mut Lent) -> Vec<f64> {
    in_turn(rounds, &[&[MEASURED, NEWER, GIVEN], &FARMS[..], OTHERS].concat(), |side| (side.map)(lent))
}

/// Measures one text, in lent grids that were made for it; all sides must give the same grids and write the same bytes.
pub fn measure(rounds: usize, text: &[u8], mut lent: Lent) -> Found {
    let others: Vec<(&Side, Lent)> = OTHERS.iter().map(|side| (side, lent.clone())).collect();
    (MEASURED.read)(text, &mut lent.ground);
    let peak = peak(|| (MEASURED.map)(&mut lent));
    (MEASURED.write)(&mut lent);
    for (side, mut other) in others {
        (side.read)(text, &mut other.ground);
        (side.map)(&mut other);
        (side.write)(&mut other);
        assert!(lent == other, "{} and {} must give the same grids and bytes", MEASURED.name, side.name);
    }
    compare_floats(&lent);
    compare_reports(&lent);
    compare_same(&lent);
    compare_newer(&mut lent);
    let reading = in_turn(rounds, &[MEASURED, PLAIN], |side| (side.read)(text, &mut lent.ground));
    let floats = |side: Side| (side.read_floats)(&lent.header, &lent.floats, &mut lent.ground);
    let reading_floats = in_turn(rounds, &[MEASURED, PLAIN], floats);
    let writing = in_turn(rounds, &[MEASURED, PLAIN], |side| (side.write)(&mut lent));
    let mapping = map_times(rounds, &mut lent);
    let reporting = in_turn(MORE_REPORTS * rounds, &REPORTS, |report| {
        black_box(report(&lent));
    });
    Found {
        map: Pair { measured: mapping[0], plain: mapping[5] },
        text: Pair { measured: reading[0], plain: reading[1] },
        write: Pair { measured: writing[0], plain: writing[1] },
        floats: Pair { measured: reading_floats[0], plain: reading_floats[1] },
        report: Pair { measured: reporting[0], plain: reporting[1] },
        newer: mapping[1],
        given: mapping[2],
        farms: mapping[3],
        halves: mapping[4],
        before: mapping.get(6).copied(),
        bytes: text.len(),
        written: lent.written,
        float_bytes: lent.floats.len(),
        peak,
    }
}
