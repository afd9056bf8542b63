//! The comparison of given directions: drawings of a seed, each under some settings, to a program that takes them; its map
//! or its refusal against this program's. Serves docs/RULES.md, 4.7 Given directions.

use super::maps::{same_case, Files};
use super::second_ways::any_settings;
use super::texts::words;
use crate::rules::refusal;
use crate::texts::drawings::{drawing, Drawing};
use crate::texts::seed::Seed;
use std::io;

/// The drawing of a number.
fn case(seed: u64, number: usize) -> Drawing {
    let mut seed = Seed::of(seed, number as u64);
    let settings = any_settings(&mut seed);
    drawing(&mut seed, number, settings)
}

/// From so many drawings on each answer has to come up.
const ENOUGH: usize = 200;

/// Compares the first drawings of a seed; stops at the first difference, and that drawing's files stay.
pub fn compare(seed: u64, drawings: usize, program: &[&str]) -> io::Result<()> {
    let made = std::env::current_exe()?.with_file_name("directions");
    std::fs::create_dir_all(&made)?;
    let files = Files::of(&made);
    let mut numbers = Vec::new();
    for number in 0..drawings {
        let drawing = case(seed, number);
        let words = words(drawing.settings);
        let same = same_case(program, &files, &words, drawing.sources()).map_err(|why| {
            let (words, made) = (words.join(" "), made.display());
            io::Error::other(format!("case {number}, {words}: {why}; its files are in {made}"))
        })?;
        numbers.push(same.map_or_else(|refusal| refusal.number, |_| 0));
    }
    let count = |wanted: u32| numbers.iter().filter(|&&number| number == wanted).count();
    let [accepted, codes, rings] = [0, refusal::CODE, refusal::RING].map(count);
    let others = drawings - accepted - codes - rings;
    print!("{drawings} drawings, {accepted} accepted, {codes} refused with 17, {rings} with 18, ");
    println!("{others} with another number, no difference");
    if drawings >= ENOUGH && [accepted, codes, rings, others].contains(&0) {
        return Err(io::Error::other("an answer did not come up"));
    }
    Ok(())
}
