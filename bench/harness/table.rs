//! The table of lines of measurements: a row for each terrain, and beside it the plain lines that a script can read.

use crate::lines::{Line, LARGE, SMALL, TERRAINS};
use crate::measure::{Found, Pair};
use crate::sides::MEASURED;

/// The exponent in the number of cells by which time grows from the small size to the large.
fn growth(small: f64, large: f64) -> f64 {
    (large / small).log2() / ((LARGE * LARGE) as f64 / (SMALL * SMALL) as f64).log2()
}

/// Bytes of the text that is read by the measured side's time for it, in MB/s.
fn text_speed(found: &Found) -> f64 {
    found.bytes as f64 / 1e3 / found.text.measured
}

/// The same of the text that is written.
fn write_speed(found: &Found) -> f64 {
    found.written as f64 / 1e3 / found.write.measured
}

/// The same of the floats that are read.
fn floats_speed(found: &Found) -> f64 {
    found.float_bytes as f64 / 1e3 / found.floats.measured
}

/// The best of each side over the layouts, and the greatest peak.
fn best(lines: &[Line], terrain: &str, size: usize) -> Option<Found> {
    let of = |line: &&Line| line.terrain == terrain && line.size == size;
    lines.iter().filter(of).map(|line| line.found).reduce(|one, other| one.or(&other))
}

fn print_row(terrain: &str, small: &Found, large: &Found) {
    let pair = |pair: Pair| format!("{:8.2} {:8.2} {:6.3}", pair.measured, pair.plain, pair.ratio());
    print!("{terrain:8} {} {} {:6.0}", pair(large.map), pair(large.text), text_speed(large));
    print!(" {} {:6.0} {} {:6.0}", pair(large.write), write_speed(large), pair(large.floats), floats_speed(large));
    let growths = [growth(small.map.measured, large.map.measured), growth(small.map.plain, large.map.plain)];
    print!(" {:7.3} {:7.3} {:6}", growths[0], growths[1], large.peak);
    if let (Some(before), Some(ratio)) = (large.before, large.ratio_before()) {
        print!(" {before:8.2} {ratio:6.3}");
    }
    println!();
}

/// The lines that a script can read; `layout` gives the ratios within each layout.
fn print_lines(lines: &[Line], terrain: &str, small: &Found, large: &Found) {
    println!("ratio whole {terrain} {:.3}", large.map.ratio());
    println!("ratio text {terrain} {:.3}", large.text.ratio());
    println!("ratio write {terrain} {:.3}", large.write.ratio());
    println!("ratio floats {terrain} {:.3}", large.floats.ratio());
    println!("ratio report {terrain} {:.3}", large.report.ratio());
    println!("share report {terrain} {:.4}", large.share_report());
    println!("ratio newer {terrain} {:.3}", large.ratio_newer());
    println!("ratio given {terrain} {:.3}", large.ratio_given());
    println!("ratio farms {terrain} {:.3}", large.ratio_farms());
    println!("ratio farms-half {terrain} {:.3}", large.ratio_halves());
    if let Some(ratio) = large.ratio_before() {
        println!("ratio before {terrain} {ratio:.3}");
    }
    println!("growth {terrain} {:.3}", growth(small.map.measured, large.map.measured));
    println!("speed text {terrain} {:.0}", text_speed(large));
    println!("speed write {terrain} {:.0}", write_speed(large));
    println!("speed floats {terrain} {:.0}", floats_speed(large));
    println!("speed write-by-text {terrain} {:.3}", write_speed(large) / text_speed(large));
    for line in lines.iter().filter(|line| line.terrain == terrain && line.size == LARGE) {
        let Found { map, text, write, floats, .. } = line.found;
        let [map, text, write, floats] = [map, text, write, floats].map(|pair| pair.ratio());
        let ratios = format!("whole {map:.3} text {text:.3} write {write:.3} floats {floats:.3}");
        println!("layout {} {terrain} {ratios}", line.layout);
    }
}

/// The two lines above the rows; the last columns are there where another commit's library was measured.
fn print_head(before: bool) {
    let (upper, lower) = if before { ("   before", "       ms  ratio") } else { ("", "") };
    println!("{} beside plain, {LARGE} x {LARGE} cells, best over rounds and layouts, processor time", MEASURED.name);
    print!("             map    plain            text    plain           ");
    print!("        write    plain                 floats    plain        ");
    println!("            map   plain   peak{upper}");
    print!("terrain       ms       ms  ratio       ms       ms  ratio   MB/s");
    print!("       ms       ms  ratio   MB/s       ms       ms  ratio   MB/s");
    println!("  growth  growth    KiB{lower}");
}

/// Prints the table and the plain lines.
pub fn print(lines: &[Line]) {
    let found = |terrain| Some((terrain, best(lines, terrain, SMALL)?, best(lines, terrain, LARGE)?));
    let rows: Vec<(&str, Found, Found)> = TERRAINS.iter().filter_map(|&terrain| found(terrain)).collect();
    print_head(rows.iter().any(|(_, _, large)| large.before.is_some()));
    rows.iter().for_each(|(terrain, small, large)| print_row(terrain, small, large));
    println!();
    rows.iter().for_each(|(terrain, small, large)| print_lines(lines, terrain, small, large));
}
