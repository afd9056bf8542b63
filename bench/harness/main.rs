//! Speed and memory of the proved library beside the plain program, on terrains of full size.
//! `harness measure ROUNDS FOLDER` prints lines of measurements, `harness table < LINES` the table of them; `harness
//! once SIDE FILE` maps one text once, for a profiler, and `harness loops PROFILE FUNCTION` tells what that found.

mod clock;
mod files;
mod layout;
mod lent;
mod lines;
mod loops;
mod measure;
mod memory;
#[cfg(rattle)]
mod rattle;
mod sides;
mod table;

use std::ffi::OsString;
use std::path::Path;
use std::process::ExitCode;

const USAGE: &str = "usage: harness measure ROUNDS FOLDER | table < LINES | once SIDE FILE | loops PROFILE FUNCTION";

/// Why there is nothing to print.
type Wrong = Box<dyn std::error::Error>;

/// Measures the texts of a folder.
fn measure(rounds: &str, folder: &str) -> Result<(), Wrong> {
    let rounds = rounds.parse().ok().filter(|&rounds| rounds > 0).ok_or(USAGE)?;
    Ok(lines::print(rounds, Path::new(folder))?)
}

/// The table of the lines on standard input.
fn table() -> Result<(), Wrong> {
    let lines = std::io::read_to_string(std::io::stdin())?;
    let lines: Option<Vec<lines::Line>> = lines.lines().map(lines::parse).collect();
    table::print(&lines.ok_or("harness: a line is no measurement")?);
    Ok(())
}

/// Reads and maps one text once.
fn once(name: &str, file: &str) -> Result<(), Wrong> {
    let side = sides::all().into_iter().find(|side| side.name == name).ok_or(USAGE)?;
    let (text, mut lent) = files::field(Path::new(file))?;
    (side.read)(&text, &mut lent.ground);
    (side.map)(&mut lent);
    println!("{name}: {} valid cells, longest trail {}", lent.answer.0, lent.answer.1);
    Ok(())
}

/// The loops of a function in a profile.
fn loops(profile: &str, function: &str) -> Result<(), Wrong> {
    loops::print(&String::from_utf8(files::read(Path::new(profile))?)?, function);
    Ok(())
}

/// Does what the words ask for.
fn run(words: &[&str]) -> Result<(), Wrong> {
    match *words {
        ["measure", rounds, folder] => measure(rounds, folder),
        ["table"] => table(),
        ["once", side, file] => once(side, file),
        ["loops", profile, function] => loops(profile, function),
        _ => Err(USAGE.into()),
    }
}

fn main() -> ExitCode {
    let words: Vec<OsString> = std::env::args_os().skip(1).collect();
    let words: Option<Vec<&str>> = words.iter().map(|word| word.to_str()).collect();
    match words.ok_or(USAGE.into()).and_then(|words| run(&words)) {
        Ok(()) => ExitCode::SUCCESS,
        Err(wrong) => {
            eprintln!("{wrong}");
            ExitCode::from(2)
        }
    }
}
