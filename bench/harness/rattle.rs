//! The proved library as a side: crates/fullsize, through the declarations of the program that lends it memory, under the
//! older steepness formula, under the newer, by given directions, and of two farms; and the library of another commit,
//! through its own declarations with other names, which the build makes.

#[path = "../../host/src/library.rs"]
#[allow(dead_code, reason = "default settings, texts of other grids and other reports are the other program's")]
mod library;

#[cfg(before)]
#[allow(dead_code, reason = "the map call alone is timed; what came later may not be there")]
mod before {
    include!(env!("BEFORE"));
}

use crate::lent::{Lent, Reported, Side, CUTOFF, PERCENTAGE};
use std::mem::take;

/// The side of a library that a module declares, with its map call. Cutoffs as in every measurement, no channels and the
/// older formula, but for the settings that are named. Where the marks of two farms are named, both have these settings.
macro_rules! side {
    ($name:literal, $library:ident, $map:ident $(of $marks:ident)? $(, $setting:ident: $value:expr)*) => {{
        use $library::{Corners, Grids, Header, Numbers, Settings};

        fn read(text: &[u8], heights: &mut [i32]) {
            let (header, _) = $library::read_header(text).ok().expect("a terrain's text is accepted");
            let whole = $library::read_grid(text, heights).ok().expect("a terrain's text is accepted");
            assert_eq!((header.rows, header.columns), (whole.rows, whole.columns));
        }

        fn read_floats(header: &[u8], floats: &[u8], heights: &mut [i32]) {
            $library::read_floats(header, floats, heights).ok().expect("a terrain's floats are accepted");
        }

        fn header(lent: &Lent) -> Header {
            Header { rows: lent.rows, columns: lent.columns, side: lent.side, no_data: 0 }
        }

        fn map(lent: &mut Lent) {
            let mut grids = Grids {
                filled: take(&mut lent.filled),
                direction: take(&mut lent.direction),
                count: take(&mut lent.count),
                lengths: take(&mut lent.lengths),
                factors: take(&mut lent.factors),
                workspace: take(&mut lent.workspace),
            };
            let settings = Settings { low: CUTOFF, high: CUTOFF, $($setting: $value,)* ..Settings::default() };
            let totals = $library::$map(
                header(lent),
                settings,
                $($library::SecondFarm { settings, marks: &lent.$marks },)?
                &lent.ground,
                &mut grids,
            );
            let totals = totals.ok().expect("a terrain is accepted");
            lent.answer = (totals.valid, totals.longest);
            Grids {
                filled: lent.filled,
                direction: lent.direction,
                count: lent.count,
                lengths: lent.lengths,
                factors: lent.factors,
                workspace: lent.workspace,
            } = grids;
        }

        fn write(lent: &mut Lent) {
            let (header, corners) = (header(lent), Corners { x: &lent.corners[0], y: &lent.corners[1] });
            let written = $library::write(header, corners, Numbers::Heights(&lent.ground), &mut lent.room);
            lent.written = written.ok().expect("a terrain's heights are accepted");
        }

        Side { name: $name, read, read_floats, map, write }
    }};
}

pub const RATTLE: Side = side!("rattle", library, map);
pub const NEWER: Side = side!("rattle newer", library, map, formula: 1);

/// By the directions that stand in the lent grid, and stay there.
pub const GIVEN: Side = side!("rattle given", library, map_given);

/// Of two farms, the second without a cell, or with the east half.
pub const FARMS: Side = side!("rattle farms", library, map_farms of alone);
pub const HALVES: Side = side!("rattle farms-half", library, map_farms of halves);

/// Adds the map to an empty report.
pub fn report(lent: &Lent) -> Reported {
    use library::{Header, Settings};
    let header = Header { rows: lent.rows, columns: lent.columns, side: lent.side, no_data: 0 };
    let settings = Settings { low: CUTOFF, high: CUTOFF, kind: 2, percentage: PERCENTAGE, ..Settings::default() };
    let mut report = library::empty_report();
    let added = library::add(&mut report, header, settings, &lent.count, &lent.factors);
    added.ok().expect("a terrain's map is accepted");
    (report.totals, report.greatest)
}

#[cfg(before)]
pub const BEFORE: Side = side!("before", before, map);
