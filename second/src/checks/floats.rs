//! The comparison of grids of floats: made ones of a seed, each under some settings, to a program that writes five grids
//! as texts. Every byte of them, or the refusal with its number and place, against this program's. Serves docs/RULES.md,
//! 11 Grids of floats.

use super::second_ways::any_settings;
use super::texts::{output, run, same_texts, unexpected, words};
use crate::rules::grid_texts::float_grid_texts;
use crate::rules::refusal::Refusal;
use crate::rules::settings::Settings;
use crate::texts::float_grids::{self, FloatGrid};
use crate::texts::seed::Seed;
use std::io;
use std::path::{Path, PathBuf};

/// A grid of floats and the settings of its map.
fn case(seed: u64, number: usize) -> (FloatGrid, Settings) {
    let mut seed = Seed::of(seed, number as u64);
    let grid = float_grids::grid(&mut seed, number);
    (grid, any_settings(&mut seed))
}

/// The folder of a comparison with a grid's two files and that of the texts.
struct Files {
    floats: PathBuf,
    header: PathBuf,
    texts: PathBuf,
}

impl Files {
    fn of(made: &Path) -> Files {
        let [floats, header, texts] = ["heights.flt", "field.hdr", "texts"].map(|name| made.join(name));
        Files { floats, header, texts }
    }
}

/// A program that refuses prints the refusal alone, ends with 1 and writes nothing.
fn same_refusal(program: &[&str], settings: Settings, files: &Files, refusal: Refusal) -> io::Result<()> {
    let words = [Path::new("--floats"), &files.floats, &files.header];
    let output = output(program, settings, &files.texts, &words)?;
    let line = format!("{refusal}\n");
    if output.status.code() == Some(1) && output.stdout == line.as_bytes() && !files.texts.exists() {
        return Ok(());
    }
    Err(io::Error::other(format!("expected {line:?}; {}", unexpected(&output))))
}

/// Compares one grid; whether it is accepted.
fn same_case(program: &[&str], files: &Files, grid: &FloatGrid, settings: Settings) -> io::Result<bool> {
    let FloatGrid { header, floats } = grid;
    std::fs::write(&files.header, header)?;
    std::fs::write(&files.floats, floats)?;
    match float_grid_texts(header, floats, settings) {
        Err(refusal) => same_refusal(program, settings, files, refusal).map(|()| false),
        Ok(expected) => {
            let words = [Path::new("--floats"), &files.floats, &files.header];
            same_texts(&run(program, settings, &files.texts, &words)?, &expected).map(|()| true)
        }
    }
}

/// Compares the first grids of a seed; stops at the first difference, and that grid's files stay.
pub fn compare(seed: u64, grids: usize, program: &[&str]) -> io::Result<()> {
    let made = std::env::current_exe()?.with_file_name("floats");
    std::fs::create_dir_all(&made)?;
    let files = Files::of(&made);
    let mut accepted = 0;
    for number in 0..grids {
        let (grid, settings) = case(seed, number);
        let same = same_case(program, &files, &grid, settings).map_err(|why| {
            let (words, made) = (words(settings).join(" "), made.display());
            io::Error::other(format!("case {number}, {words}: {why}; its files are in {made}"))
        })?;
        accepted += usize::from(same);
    }
    println!("{grids} grids of floats, five texts of {accepted}, {} refused, no difference", grids - accepted);
    Ok(())
}
