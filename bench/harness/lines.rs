//! Measurements as lines, so that those of several layouts can be put together: layout, terrain, size, the milliseconds
//! of both sides for the map, for reading the text, for writing one, for reading floats and for a report, those of the
//! measured side for the map under the newer formula, with our own directions given back and of two farms, the second
//! without a cell or with the east half, those of another commit's library for the map or `-`, the bytes that are read,
//! those that are written and those of the floats, the peak.

use crate::files::field;
use crate::layout::BYTES;
use crate::measure::{measure, Found, Pair};
use std::path::Path;

pub const TERRAINS: [&str; 7] = ["fractal", "noise", "flat", "plane", "pit", "spiral", "comb"];

/// The two sizes between which growth is measured, and the rounds at the small one for each at the large.
pub const SMALL: usize = 256;
pub const LARGE: usize = 1024;
const MORE_ROUNDS: usize = 4;

/// A measurement and what it is of.
pub struct Line {
    pub layout: String,
    pub terrain: String,
    pub size: usize,
    pub found: Found,
}

/// What stands for a time that was not measured.
const NONE: &str = "-";

fn word(time: f64) -> String {
    format!("{time:.4}")
}

/// Measures every terrain in a folder of texts and prints a line for each size.
pub fn print(rounds: usize, folder: &Path) -> Result<(), String> {
    for terrain in TERRAINS {
        for (size, rounds) in [(SMALL, MORE_ROUNDS * rounds), (LARGE, rounds)] {
            let (text, lent) = field(&folder.join(format!("{terrain}-{size}.asc")))?;
            let found = measure(rounds, &text, lent);
            let Found { map, text, write, floats, report, newer, given, farms, halves, .. } = found;
            let Found { before, bytes, written, float_bytes, peak, .. } = found;
            let pairs = [map, text, write, floats, report];
            let times = pairs.map(|pair| format!("{} {}", word(pair.measured), word(pair.plain)));
            let own = [newer, given, farms, halves].map(word).join(" ");
            let (times, before) = (times.join(" "), before.map_or(NONE.into(), word));
            println!("{BYTES} {terrain} {size} {times} {own} {before} {bytes} {written} {float_bytes} {peak}");
        }
    }
    Ok(())
}

/// The measurement of a line.
pub fn parse(line: &str) -> Option<Line> {
    let words: Vec<&str> = line.split_whitespace().collect();
    let &[layout, terrain, size, ref times @ .., before, bytes, written, float_bytes, peak] = &words[..] else {
        return None;
    };
    let times: Option<Vec<f64>> = times.iter().map(|word| word.parse().ok()).collect();
    let &[ref pairs @ .., newer, given, farms, halves] = &times?[..] else { return None };
    let (&[map, text, write, floats, report], []) = pairs.as_chunks() else { return None };
    let [map, text, write, floats, report] =
        [map, text, write, floats, report].map(|[measured, plain]| Pair { measured, plain });
    let found = Found {
        map,
        text,
        write,
        floats,
        report,
        newer,
        given,
        farms,
        halves,
        before: if before == NONE { None } else { Some(before.parse().ok()?) },
        bytes: bytes.parse().ok()?,
        written: written.parse().ok()?,
        float_bytes: float_bytes.parse().ok()?,
        peak: peak.parse().ok()?,
    };
    Some(Line { layout: layout.into(), terrain: terrain.into(), size: size.parse().ok()?, found })
}
