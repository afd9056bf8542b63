//! The sides: the plain program and, where they are built, the proved library and that of another commit.

use crate::lent::{Lent, Reported, Side, CUTOFF, PERCENTAGE};
use plain::{Channel, Formula, Frame, Grids, Report, Settings};

fn plain_read(text: &[u8], heights: &mut [i32]) {
    let header = plain::read_header(text).expect("a terrain's text is accepted");
    assert_eq!(plain::read_grid(text, heights), Ok(header));
}

fn plain_read_floats(header: &[u8], floats: &[u8], heights: &mut [i32]) {
    plain::read_floats(header, floats, heights).expect("a terrain's floats are accepted");
}

fn plain_map_by(formula: Formula, lent: &mut Lent) {
    let settings = Settings { low: CUTOFF, high: CUTOFF, channel: Channel::None, formula };
    let grids = Grids {
        filled: &mut lent.filled,
        direction: &mut lent.direction,
        count: &mut lent.count,
        lengths: &mut lent.lengths,
        factors: &mut lent.factors,
        workspace: &mut lent.workspace,
    };
    let answer = plain::map(lent.rows, lent.columns, lent.side, settings, &lent.ground, grids);
    lent.answer = answer.expect("a terrain is accepted");
}

fn plain_map(lent: &mut Lent) {
    plain_map_by(Formula::Older, lent);
}

fn plain_map_newer(lent: &mut Lent) {
    plain_map_by(Formula::Newer, lent);
}

fn plain_write(lent: &mut Lent) {
    let [x, y] = &lent.corners;
    let frame = Frame { rows: lent.rows, columns: lent.columns, side: lent.side, corners: [x, y] };
    lent.written = plain::write_heights(frame, &lent.ground, &mut lent.room).expect("a terrain's heights are accepted");
}

/// Adds the map to an empty report.
fn plain_report(lent: &Lent) -> Reported {
    let channel = Channel::Percentage(PERCENTAGE);
    let settings = Settings { low: CUTOFF, high: CUTOFF, channel, formula: Formula::Older };
    let mut report = Report::default();
    let added = plain::add(&mut report, lent.rows, lent.columns, settings, &lent.count, &lent.factors);
    added.expect("a terrain's map is accepted");
    (report.totals, report.greatest.map(|greatest| [greatest.factor, greatest.map, greatest.cell]))
}

pub const PLAIN: Side =
    Side { name: "plain", read: plain_read, read_floats: plain_read_floats, map: plain_map, write: plain_write };

/// The same under the newer steepness formula.
pub const PLAIN_NEWER: Side = Side { name: "plain newer", map: plain_map_newer, ..PLAIN };

/// The side that is measured: the proved library, or the plain program itself where that is not built.
#[cfg(rattle)]
pub const MEASURED: Side = crate::rattle::RATTLE;
#[cfg(not(rattle))]
pub const MEASURED: Side = PLAIN;

/// The same under the newer steepness formula.
#[cfg(rattle)]
pub const NEWER: Side = crate::rattle::NEWER;
#[cfg(not(rattle))]
pub const NEWER: Side = PLAIN_NEWER;

/// The measured side with our own directions given back; the plain program's map call where the library is not built.
#[cfg(rattle)]
pub const GIVEN: Side = crate::rattle::GIVEN;
#[cfg(not(rattle))]
pub const GIVEN: Side = PLAIN;

/// The measured side's map call of two farms with the same settings, the second without a cell, or with the east half; the
/// plain program's map call where the library is not built.
#[cfg(rattle)]
pub const FARMS: [Side; 2] = [crate::rattle::FARMS, crate::rattle::HALVES];
#[cfg(not(rattle))]
pub const FARMS: [Side; 2] = [PLAIN; 2];

/// A report by the measured side, and by the plain one.
#[cfg(rattle)]
pub const REPORTS: [fn(&Lent) -> Reported; 2] = [crate::rattle::report, plain_report];
#[cfg(not(rattle))]
pub const REPORTS: [fn(&Lent) -> Reported; 2] = [plain_report; 2];

/// The sides that the measured one is held to: the plain program, then the library of another commit.
#[cfg(before)]
pub const OTHERS: &[Side] = &[PLAIN, crate::rattle::BEFORE];
#[cfg(not(before))]
pub const OTHERS: &[Side] = &[PLAIN];

/// Every side under the older steepness formula, the measured one first.
pub fn all() -> Vec<Side> {
    [&[MEASURED], OTHERS].concat()
}
