//! lsmap: the LS factor of an Esri ASCII grid, or of a grid of floats with such a header; and a report over many grids.
//! It reads the files, lends the memory to the proved library (crates/fullsize), and writes what the library answers. It
//! judges nothing itself but that given directions and the marks of farms have the field's shape.

mod beside;
mod farms;
mod faults;
mod files;
mod flags;
mod floats;
mod given;
mod grids;
mod jobs;
mod library;
mod lines;
mod messages;
mod number;
mod output;
mod report;
mod report_flags;
mod settings;
mod sheet;
mod summary;
mod texts;

use files::Files;
use flags::{Asked, Field, Flags};
use library::{Corners, Grids, Header, Refusal, Settings, Totals};
use output::Output;
use std::fs;
use std::io::{self, ErrorKind, IsTerminal, Read, Write};
use std::path::PathBuf;
use std::process::ExitCode;
use std::time::Instant;
use texts::Texts;

const HELP: &str = include_str!("help.txt");

/// The commit that host/build was run on.
const VERSION: Option<&str> = option_env!("LSMAP_VERSION");

/// An accepted field with its grids, and the farm of each cell where there are two.
pub struct Map<'a> {
    pub header: Header,
    pub corners: Corners<'a>,
    pub totals: Totals,
    pub ground: Vec<i32>,
    pub grids: Grids,
    pub marks: Option<Vec<u8>>,
}

/// Why there is no whole sheet or no report: a refusal with its message, of a report the message alone, something that
/// kept the program from running, or a reader that had enough.
enum Stop {
    Refused(Refusal, String),
    NoReport(String),
    CouldNotRun(String),
    ReaderLeft,
}

/// What the system says of a failed call, without its number.
pub fn reason(e: &io::Error) -> String {
    let text = e.to_string();
    text.split(" (os error").next().unwrap_or_default().to_string()
}

fn cannot_write(name: &str, e: &io::Error) -> Stop {
    match e.kind() {
        ErrorKind::BrokenPipe => Stop::ReaderLeft,
        _ => Stop::CouldNotRun(format!("cannot write {name}: {}", reason(e))),
    }
}

fn print(text: &str) -> Result<(), Stop> {
    io::stdout().write_all(text.as_bytes()).map_err(|e| cannot_write("standard output", &e))
}

/// Says something on standard error, if that can be written.
fn tell(message: &str) {
    let _ = writeln!(io::stderr(), "lsmap: {message}");
}

/// Tells the settings, those of each farm where there are two.
fn tell_settings(settings: &[Settings; 2], farms: bool) {
    if !farms {
        return tell(&settings::line(&settings[0]));
    }
    let lines = settings.iter().map(settings::line);
    lines.enumerate().for_each(|(farm, line)| tell(&format!("farm {farm}: {line}")));
}

/// Tells which file marks the farms of a field.
fn tell_farms(field: &Field, farms: &Field) {
    tell(&format!("farms of {} marked by {}", field.name(), farms.name()));
}

/// The bytes of a file of a field, or of standard input.
fn read(field: &Field) -> Result<Vec<u8>, Stop> {
    let mut bytes = Vec::new();
    let read = match field {
        Field::StandardInput => io::stdin().read_to_end(&mut bytes).map(|_| bytes),
        Field::File(path) => fs::read(path),
    };
    read.map_err(|e| Stop::CouldNotRun(format!("cannot read {}: {}", field.name(), reason(&e))))
}

/// Writes the sheet to standard output, or to a file that appears when it is whole; the grids and the texts before it.
fn write(map: &Map, flags: &Flags) -> Result<(), Stop> {
    let name = flags.output.as_deref().map_or("standard output".into(), |path| path.to_string_lossy());
    let failed = |e| cannot_write(&name, &e);
    let output = flags.output.as_deref().map(Output::begin).transpose().map_err(failed)?;
    write_grids(map, flags).map_err(Stop::CouldNotRun)?;
    match output {
        None if flags.quiet => Ok(()),
        None => sheet::write(&mut io::stdout().lock(), map).map_err(failed),
        Some(mut output) => sheet::write(&mut output.file, map).and_then(|()| output.finish()).map_err(failed),
    }
}

/// Writes the grids and the texts, which take their places when all else is there.
fn write_grids(map: &Map, flags: &Flags) -> Result<(), String> {
    let texts = flags.text.as_deref().map(|folder| texts::store(folder, map)).transpose()?;
    if let Some(folder) = &flags.grids {
        grids::write(folder, map)?;
    }
    texts.map_or(Ok(()), Texts::finish)
}

/// A file to be written that is one to be read, with its flag and what is read there.
fn written_over(field: &Field, flags: &Flags) -> Option<(&'static str, PathBuf, &'static str)> {
    let heights = std::iter::once(field).chain(&flags.floats).map(|file| (file, "the field itself"));
    let marks = flags.farms.iter().map(|file| (file, "the farms' marks"));
    let codes = flags.directions.iter().map(|file| (file, "the given directions"));
    let read: Vec<_> = heights.chain(marks).chain(codes).collect();
    let output = flags.output.iter().map(|path| ("--output", path.clone()));
    let texts = flags.text.iter().flat_map(|folder| texts::paths(folder)).map(|path| ("--text", path));
    output.chain(texts).find_map(|(flag, path)| {
        let same = |file: &Field| matches!(file, Field::File(file) if output::same(file, &path));
        let &(_, what) = read.iter().find(|(file, _)| same(file))?;
        Some((flag, path, what))
    })
}

/// Reads, maps and writes one field.
fn run(field: &Field, flags: &Flags) -> Result<(), Stop> {
    let start = Instant::now();
    if flags.verbose {
        tell_settings(&flags.settings.farms, flags.farms.is_some());
        flags.farms.iter().for_each(|farms| tell_farms(field, farms));
        flags.directions.iter().for_each(|file| tell(&format!("directions given by {}", file.name())));
    }
    if let Some((flag, path, what)) = written_over(field, flags) {
        return Err(Stop::CouldNotRun(format!("{flag}: {} is {what}", path.display())));
    }
    let files = Files::of_flags(field, flags)?;
    let map = files.map(flags.settings.farms)?;
    write(&map, flags)?;
    if !flags.quiet && io::stderr().is_terminal() {
        tell(&summary::line(&map, start.elapsed().as_secs_f64()));
    }
    Ok(())
}

/// Does what the command line asks.
fn obey() -> Result<(), Stop> {
    match flags::read(std::env::args_os().skip(1), library::default_settings()) {
        Err(why) => Err(Stop::CouldNotRun(format!("{why}; lsmap --help tells the flags"))),
        Ok(Asked::Help) => print(HELP),
        Ok(Asked::Version) => print(&format!("lsmap {}\n", VERSION.unwrap_or("of an unknown commit"))),
        Ok(Asked::Map(field, flags)) => run(&field, &flags),
        Ok(Asked::Report(fields, flags)) => report::run(&fields, &flags),
    }
}

fn main() -> ExitCode {
    match obey() {
        Ok(()) | Err(Stop::ReaderLeft) => ExitCode::SUCCESS,
        Err(Stop::Refused(refusal, message)) => {
            let _ = writeln!(io::stdout(), "refused {} at {}", refusal.number, refusal.place);
            tell(&message);
            ExitCode::from(1)
        }
        Err(Stop::NoReport(message)) => {
            tell(&message);
            ExitCode::from(1)
        }
        Err(Stop::CouldNotRun(message)) => {
            tell(&message);
            ExitCode::from(2)
        }
    }
}
