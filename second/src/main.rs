//! The second program: the readers, the map, given directions, two farms, the sheet, the writer and the report of
//! docs/RULES.md once more, literal rather than fast.

mod checks;
mod command;
mod fast;
mod rules;
mod texts;

use command::{Command, USAGE};
use std::ffi::OsString;
use std::process::ExitCode;

fn main() -> ExitCode {
    let words: Vec<OsString> = std::env::args_os().skip(1).collect();
    let words: Option<Vec<&str>> = words.iter().map(|word| word.to_str()).collect();
    let Some(command) = words.as_deref().and_then(Command::of) else {
        eprintln!("{USAGE}");
        return ExitCode::from(2);
    };
    match command.run() {
        Ok(()) => ExitCode::SUCCESS,
        Err(fault) => {
            eprintln!("second: {fault}");
            ExitCode::FAILURE
        }
    }
}
