//! What the command line asks for, and doing it.

use crate::checks::{compare, directions, farms, floats, full, reports, selfcheck, texts};
use crate::rules::farms::Asked;
use crate::rules::grid::MOST_ROWS;
use crate::rules::grid_texts::{mapped as grids_mapped, Sources, NAMES};
use crate::rules::program::Program;
use crate::rules::refusal::Refusal;
use crate::rules::report::{mapped, report};
use crate::rules::settings::{Channel, Formula, Settings, LIBRARY};
use crate::rules::sheet::{sheet, sheet_by};
use crate::texts::{cases, float_grids, telling, terrains};
use std::io::{self, Read, Write};

pub const USAGE: &str = "usage: second sheet [--program PROGRAM] [--steepness FORMULA] [--directions CODES] [FARMS] < TEXT
       second sheets [--program PROGRAM] [--steepness FORMULA] < STREAM
       second text [--program PROGRAM] [--steepness FORMULA] [--directions CODES] [FARMS] GRID < TEXT
           PROGRAM: printer job, printer if not named; FORMULA: older newer, the program's if not named;
           CODES: the file of a text with given directions; GRID: ground filled count ls direction
           FARMS: --farms MARKS [--low1 X] [--high1 X] [--channel1 RULE] [--steepness1 FORMULA], MARKS being the file
           of a text with farm marks; farm 1 has the library's settings where they are not named
       second report [--low X] [--high X] [--channel RULE] [--steepness FORMULA] [FARMS] FIELD...
           RULE: none cells:N percent:P; the library's settings where they are not named; --farms for each field
       second as-floats < TEXT
       second cases SEED N
       second telling SEED N
       second count-telling < STREAM
       second terrain NAME SIZE SEED     NAME: fractal noise flat plane pit spiral comb; SIZE: 1 to 1024
       second compare [--program PROGRAM] SEED N PRINTER...
       second full SIZE PROGRAM...
       second texts SEED N PROGRAM...
       second floats SEED N PROGRAM...
       second directions SEED N PROGRAM...
       second farms SEED N PROGRAM...
       second reports SEED N PROGRAM...
       second selfcheck";

/// What stands beside a field: the settings of both farms, and the files of given directions and of marks, if they are
/// named. Without marks farm 0's settings are those of all cells.
#[derive(Clone, Copy, Debug, PartialEq)]
pub struct Beside<'a> {
    settings: [Settings; 2],
    codes: Option<&'a str>,
    marks: Option<&'a str>,
}

/// A command with its words read; programs are given as their words.
#[derive(Debug, PartialEq)]
pub enum Command<'a> {
    Sheet { beside: Beside<'a> },
    Sheets { settings: Settings },
    Text { beside: Beside<'a>, grid: usize },
    Report { settings: [Settings; 2], marks: Vec<&'a str>, fields: &'a [&'a str] },
    AsFloats,
    Cases { seed: u64, number: usize },
    Telling { seed: u64, number: usize },
    CountTelling,
    Terrain { kind: usize, size: usize, seed: u64 },
    Compare { program: Program, seed: u64, number: usize, printer: &'a [&'a str] },
    Full { size: usize, program: &'a [&'a str] },
    Texts { seed: u64, number: usize, program: &'a [&'a str] },
    Floats { seed: u64, number: usize, program: &'a [&'a str] },
    Directions { seed: u64, number: usize, program: &'a [&'a str] },
    Farms { seed: u64, number: usize, program: &'a [&'a str] },
    Reports { seed: u64, number: usize, program: &'a [&'a str] },
    Selfcheck,
}

fn whole<T: std::str::FromStr>(word: &str) -> Option<T> {
    word.parse().ok()
}

/// The rows and columns of a terrain.
fn size(word: &str) -> Option<usize> {
    whole(word).filter(|size| (1..=MOST_ROWS).contains(size))
}

/// The grid of this name.
fn grid(name: &str) -> Option<usize> {
    NAMES.iter().position(|&known| known == name)
}

fn standard_input() -> io::Result<Vec<u8>> {
    let mut bytes = Vec::new();
    io::stdin().read_to_end(&mut bytes)?;
    Ok(bytes)
}

/// The sheets of a framed stream, each after a line with its case.
fn sheets(stream: &[u8], settings: Settings) -> io::Result<String> {
    let texts = cases::texts(stream)?;
    let numbered = |(number, text): (usize, &&[u8])| format!("case {number}\n{}", sheet(text, settings));
    Ok(texts.iter().enumerate().map(numbered).collect())
}

/// The text of a file.
fn read(file: &str) -> io::Result<Vec<u8>> {
    std::fs::read(file).map_err(|why| io::Error::other(format!("{file}: {why}")))
}

/// The farms of these settings, with the text of the marks if there is one.
fn asked(marks: Option<&[u8]>, settings: [Settings; 2]) -> Asked<'_> {
    marks.map_or(Asked::One(settings[0]), |marks| Asked::Two { marks, settings })
}

/// The sheet of standard input.
fn one_sheet(beside: Beside) -> io::Result<String> {
    let [codes, marks] = [beside.codes, beside.marks].map(|file| file.map(read).transpose());
    let (codes, marks) = (codes?, marks?);
    Ok(sheet_by(&standard_input()?, codes.as_deref(), asked(marks.as_deref(), beside.settings)))
}

/// The text of a grid of the map of standard input; a refusal as a sheet has it.
fn grid_text(beside: Beside, grid: usize) -> io::Result<Vec<u8>> {
    let [codes, marks] = [beside.codes, beside.marks].map(|file| file.map(read).transpose());
    let (text, codes, marks) = (standard_input()?, codes?, marks?);
    let farms = asked(marks.as_deref(), beside.settings);
    let sources = Sources { text: &text, floats: None, codes: codes.as_deref(), farms };
    let texts = grids_mapped(sources).and_then(|mapped| mapped.texts());
    Ok(texts.map_or_else(|refusal: Refusal| format!("{refusal}\n").into_bytes(), |texts| texts[grid].clone()))
}

/// The settings that words name, each after its flag with this ending, and the words after them.
fn settings<'a>(
    mut settings: Settings,
    ending: &str,
    words: &'a [&'a str],
) -> Option<(Settings, &'a [&'a str])> {
    let [flag, value, rest @ ..] = words else { return Some((settings, words)) };
    match flag.strip_suffix(ending) {
        Some("--low") => settings.low = whole(value)?,
        Some("--high") => settings.high = whole(value)?,
        Some("--channel") => settings.channel = Channel::of(value)?,
        Some("--steepness") => settings.formula = Formula::of(value)?,
        _ => return Some((settings, words)),
    }
    self::settings(settings, ending, rest)
}

/// The files of marks that words name, farm 1's settings, and the words after them.
fn two_farms<'a>(mut words: &'a [&'a str]) -> Option<(Vec<&'a str>, Settings, &'a [&'a str])> {
    let mut marks = Vec::new();
    while let ["--farms", file, rest @ ..] = words {
        marks.push(*file);
        words = rest;
    }
    if marks.is_empty() {
        return Some((marks, LIBRARY, words));
    }
    let (second, words) = settings(LIBRARY, "1", words)?;
    Some((marks, second, words))
}

/// The lines of the report on fields, each with its marks if there are some, or the first that is refused.
fn report_lines(settings: [Settings; 2], marks: &[&str], fields: &[&str]) -> io::Result<String> {
    let mut maps = Vec::new();
    for (number, field) in fields.iter().enumerate() {
        let (text, marks) = (read(field)?, marks.get(number).map(|file| read(file)).transpose()?);
        let map = mapped(&text, asked(marks.as_deref(), settings));
        maps.push(map.map_err(|refusal| io::Error::other(format!("{field}: {refusal}")))?);
    }
    report(&maps).map(|report| report.lines()).map_err(|refusal| io::Error::other(refusal.to_string()))
}

/// The heights of a text as floats.
fn as_floats(text: &[u8]) -> io::Result<Vec<u8>> {
    float_grids::of_text(text).map_err(|refusal| io::Error::other(refusal.to_string()))
}

/// The number of telling texts in a framed stream.
fn count_telling(stream: &[u8]) -> io::Result<usize> {
    Ok(cases::texts(stream)?.iter().filter(|text| telling::is_telling(text)).count())
}

impl<'a> Command<'a> {
    /// The command of these words, if they are one.
    pub fn of(words: &'a [&'a str]) -> Option<Command<'a>> {
        match words {
            [name, "--program", program, words @ ..] => Command::for_program(Program::of(program)?, name, words),
            [name, rest @ ..] => {
                Command::for_program(Program::Printer, name, rest).or_else(|| Command::for_itself(words))
            }
            [] => None,
        }
    }

    /// A command that compares a program's sheets, or prints under its settings.
    fn for_program(program: Program, name: &str, words: &'a [&'a str]) -> Option<Command<'a>> {
        let settings = program.settings();
        match (name, words) {
            ("compare", [seed, number, printer @ ..]) if !printer.is_empty() => {
                Some(Command::Compare { program, seed: whole(seed)?, number: whole(number)?, printer })
            }
            (_, ["--steepness", formula, words @ ..]) => {
                Command::under(Settings { formula: Formula::of(formula)?, ..settings }, name, words)
            }
            _ => Command::under(settings, name, words),
        }
    }

    /// A command that prints sheets or a text under these settings.
    fn under(settings: Settings, name: &str, words: &'a [&'a str]) -> Option<Command<'a>> {
        let (codes, words) = match words {
            ["--directions", codes, words @ ..] => (Some(*codes), words),
            _ => (None, words),
        };
        let (marks, second, words) = two_farms(words)?;
        let beside = Beside { settings: [settings, second], codes, marks: marks.first().copied() };
        Some(match (name, words) {
            _ if marks.len() > 1 => return None,
            ("sheet", []) => Command::Sheet { beside },
            ("sheets", []) if codes.is_none() && marks.is_empty() => Command::Sheets { settings },
            ("text", [name]) => Command::Text { beside, grid: grid(name)? },
            _ => return None,
        })
    }

    /// Any other command.
    fn for_itself(words: &'a [&'a str]) -> Option<Command<'a>> {
        Some(match words {
            ["as-floats"] => Command::AsFloats,
            ["cases", seed, number] => Command::Cases { seed: whole(seed)?, number: whole(number)? },
            ["telling", seed, number] => Command::Telling { seed: whole(seed)?, number: whole(number)? },
            ["count-telling"] => Command::CountTelling,
            ["terrain", name, rows, seed] => {
                Command::Terrain { kind: terrains::kind(name)?, size: size(rows)?, seed: whole(seed)? }
            }
            ["full", rows, program @ ..] if !program.is_empty() => Command::Full { size: size(rows)?, program },
            ["texts", seed, number, program @ ..] if !program.is_empty() => {
                Command::Texts { seed: whole(seed)?, number: whole(number)?, program }
            }
            ["floats", seed, number, program @ ..] if !program.is_empty() => {
                Command::Floats { seed: whole(seed)?, number: whole(number)?, program }
            }
            ["directions", seed, number, program @ ..] if !program.is_empty() => {
                Command::Directions { seed: whole(seed)?, number: whole(number)?, program }
            }
            ["farms", seed, number, program @ ..] if !program.is_empty() => {
                Command::Farms { seed: whole(seed)?, number: whole(number)?, program }
            }
            ["reports", seed, number, program @ ..] if !program.is_empty() => {
                Command::Reports { seed: whole(seed)?, number: whole(number)?, program }
            }
            ["report", words @ ..] => {
                let (first, words) = settings(LIBRARY, "", words)?;
                let (marks, second, fields) = two_farms(words)?;
                let good = !fields.iter().any(|field| field.starts_with("--"));
                let good = good && (marks.is_empty() || marks.len() == fields.len());
                good.then_some(Command::Report { settings: [first, second], marks, fields })?
            }
            ["selfcheck"] => Command::Selfcheck,
            _ => return None,
        })
    }

    /// Does what is asked.
    pub fn run(&self) -> io::Result<()> {
        let mut output = io::stdout();
        match *self {
            Command::Sheet { beside } => output.write_all(one_sheet(beside)?.as_bytes()),
            Command::Sheets { settings } => output.write_all(sheets(&standard_input()?, settings)?.as_bytes()),
            Command::Text { beside, grid } => output.write_all(&grid_text(beside, grid)?),
            Command::Report { settings, ref marks, fields } => {
                output.write_all(report_lines(settings, marks, fields)?.as_bytes())
            }
            Command::AsFloats => output.write_all(&as_floats(&standard_input()?)?),
            Command::Cases { seed, number } => output.write_all(&cases::stream(cases::case, seed, number)),
            Command::Telling { seed, number } => output.write_all(&cases::stream(telling::text, seed, number)),
            Command::CountTelling => writeln!(output, "{}", count_telling(&standard_input()?)?),
            Command::Terrain { kind, size, seed } => output.write_all(&terrains::terrain_text(kind, size, seed)),
            Command::Compare { program, seed, number, printer } => compare::compare(program, seed, number, printer),
            Command::Full { size, program } => full::compare(size, program),
            Command::Texts { seed, number, program } => texts::compare(seed, number, program),
            Command::Floats { seed, number, program } => floats::compare(seed, number, program),
            Command::Directions { seed, number, program } => directions::compare(seed, number, program),
            Command::Farms { seed, number, program } => farms::compare(seed, number, program),
            Command::Reports { seed, number, program } => reports::compare(seed, number, program),
            Command::Selfcheck => {
                selfcheck::selfcheck();
                Ok(())
            }
        }
    }
}

#[cfg(test)]
mod tests {
    use super::*;

    #[test]
    fn commands_have_their_words() {
        assert_eq!(Command::of(&["cases", "12", "160"]), Some(Command::Cases { seed: 12, number: 160 }));
        assert_eq!(Command::of(&["telling", "7", "48"]), Some(Command::Telling { seed: 7, number: 48 }));
        assert_eq!(Command::of(&["count-telling"]), Some(Command::CountTelling));
        assert_eq!(Command::of(&["as-floats"]), Some(Command::AsFloats));
        let full = Command::Full { size: 1_024, program: &["valgrind", "lsmap"] };
        assert_eq!(Command::of(&["full", "1024", "valgrind", "lsmap"]), Some(full));
        let texts = Command::Texts { seed: 1, number: 50, program: &["lsmap"] };
        assert_eq!(Command::of(&["texts", "1", "50", "lsmap"]), Some(texts));
        let floats = Command::Floats { seed: 1, number: 50, program: &["lsmap"] };
        assert_eq!(Command::of(&["floats", "1", "50", "lsmap"]), Some(floats));
        let directions = Command::Directions { seed: 1, number: 50, program: &["lsmap"] };
        assert_eq!(Command::of(&["directions", "1", "50", "lsmap"]), Some(directions));
        let farms = Command::Farms { seed: 1, number: 50, program: &["lsmap"] };
        assert_eq!(Command::of(&["farms", "1", "50", "lsmap"]), Some(farms));
        for (kind, (name, ..)) in terrains::TERRAINS.iter().enumerate() {
            assert_eq!(Command::of(&["terrain", name, "1", "0"]), Some(Command::Terrain { kind, size: 1, seed: 0 }));
            assert!(USAGE.contains(name));
        }
    }

    fn alone(settings: Settings) -> Beside<'static> {
        Beside { settings: [settings, LIBRARY], codes: None, marks: None }
    }

    /// Two farms: farm 0 has the program's settings, farm 1 the library's where they are not named.
    #[test]
    fn commands_for_two_farms() {
        let settings = Program::Job.settings();
        let farms = Beside { marks: Some("marks.asc"), ..alone(settings) };
        let sheet = ["sheet", "--program", "job", "--farms", "marks.asc"];
        assert_eq!(Command::of(&sheet), Some(Command::Sheet { beside: farms }));
        let second = Settings { channel: Channel::Cells(3), formula: Formula::Newer, ..LIBRARY };
        let beside = Beside { codes: Some("codes.asc"), settings: [settings, second], ..farms };
        let line = "text --program job --directions codes.asc --farms marks.asc --channel1 cells:3 --steepness1 newer ls";
        assert_eq!(Command::of(&line.split(' ').collect::<Vec<_>>()), Some(Command::Text { beside, grid: 3 }));
        let second = Settings { low: 0.2, high: 0.3, ..LIBRARY };
        let settings = [Settings { low: 0.1, ..LIBRARY }, second];
        let line = "report --low 0.1 --farms a1.asc --farms b1.asc --high1 0.3 --low1 0.2 a.asc b.asc";
        let report = Command::Report { settings, marks: vec!["a1.asc", "b1.asc"], fields: &["a.asc", "b.asc"] };
        assert_eq!(Command::of(&line.split(' ').collect::<Vec<_>>()), Some(report));
    }

    /// The printer's, where no program is named.
    #[test]
    fn commands_for_a_program() {
        let (printer, job) = (Program::Printer, Program::Job);
        let [settings, jobs] = [printer, job].map(Program::settings);
        assert_eq!(Command::of(&["sheet"]), Some(Command::Sheet { beside: alone(settings) }));
        assert_eq!(Command::of(&["sheet", "--program", "printer"]), Command::of(&["sheet"]));
        let sheet = Command::Sheet { beside: Beside { codes: Some("codes.asc"), ..alone(settings) } };
        assert_eq!(Command::of(&["sheet", "--directions", "codes.asc"]), Some(sheet));
        assert_eq!(Command::of(&["sheets"]), Some(Command::Sheets { settings }));
        assert_eq!(Command::of(&["sheets", "--program", "job"]), Some(Command::Sheets { settings: jobs }));
        assert_eq!(Command::of(&["text", "ground"]), Some(Command::Text { beside: alone(settings), grid: 0 }));
        let given = Command::Text { beside: Beside { codes: Some("codes.asc"), ..alone(settings) }, grid: 4 };
        assert_eq!(Command::of(&["text", "--directions", "codes.asc", "direction"]), Some(given));
        let text = Command::Text { beside: alone(jobs), grid: 3 };
        assert_eq!(Command::of(&["text", "--program", "job", "ls"]), Some(text));
        let compare = |program| Some(Command::Compare { program, seed: 1, number: 10, printer: &["valgrind", "job"] });
        assert_eq!(Command::of(&["compare", "1", "10", "valgrind", "job"]), compare(printer));
        assert_eq!(Command::of(&["compare", "--program", "job", "1", "10", "valgrind", "job"]), compare(job));
    }

    /// The library's settings, where none are named.
    #[test]
    fn reports_have_settings_and_fields() {
        let report = |first, fields| Some(Command::Report { settings: [first, LIBRARY], marks: Vec::new(), fields });
        assert_eq!(Command::of(&["report", "a.asc", "b.asc"]), report(LIBRARY, &["a.asc", "b.asc"]));
        assert_eq!(Command::of(&["report"]), report(LIBRARY, &[]));
        let settings = Settings { low: 0.2, high: 0.3, channel: Channel::Cells(4), formula: Formula::Newer };
        let line = "report --steepness newer --high 0.3 --low 0.2 --channel cells:4 a.asc";
        assert_eq!(Command::of(&line.split(' ').collect::<Vec<_>>()), report(settings, &["a.asc"]));
        let reports = Command::Reports { seed: 1, number: 50, program: &["lsmap"] };
        assert_eq!(Command::of(&["reports", "1", "50", "lsmap"]), Some(reports));
    }

    /// The formula may be another than the program's.
    #[test]
    fn commands_under_a_formula() {
        let [printers, jobs] = [Program::Printer, Program::Job].map(Program::settings);
        let settings = Settings { formula: Formula::Newer, ..printers };
        assert_eq!(Command::of(&["sheet", "--steepness", "newer"]), Some(Command::Sheet { beside: alone(settings) }));
        let text = Command::Text { beside: alone(settings), grid: 3 };
        assert_eq!(Command::of(&["text", "--steepness", "newer", "ls"]), Some(text));
        let older = ["sheets", "--program", "job", "--steepness", "older"];
        assert_eq!(Command::of(&older), Some(Command::Sheets { settings: jobs }));
    }

    #[test]
    fn other_words_are_a_usage_error() {
        let wrong: [&[&str]; 43] = [
            &[],
            &["sheet", "field.asc"],
            &["sheet", "--program"],
            &["sheet", "--program", "lsmap"],
            &["sheets", "--program", "job", "stream"],
            &["sheet", "--steepness"],
            &["sheet", "--steepness", "Newer"],
            &["sheet", "--steepness", "newer", "--program", "job"],
            &["compare", "--steepness", "newer", "1", "10", "target/bin/printer"],
            &["--program", "job", "sheet"],
            &["--help"],
            &["cases", "12"],
            &["cases", "-1", "160"],
            &["cases", "twelve", "160"],
            &["terrain", "hills", "256", "1"],
            &["terrain", "pit", "0", "1"],
            &["terrain", "pit", "1025", "1"],
            &["cases", "--program", "job", "12", "160"],
            &["telling", "7"],
            &["compare", "1", "10"],
            &["compare", "--program", "job", "1", "10"],
            &["compare", "--program", "Job", "1", "10", "target/bin/job"],
            &["full", "256"],
            &["full", "big", "target/lsmap"],
            &["text"],
            &["text", "length"],
            &["text", "ls", "--program", "job"],
            &["texts", "1", "50"],
            &["floats", "1", "50"],
            &["directions", "1", "50"],
            &["sheet", "--directions"],
            &["sheets", "--directions", "codes.asc"],
            &["as-floats", "field.asc"],
            &["report", "--low", "half", "field.asc"],
            &["report", "--low"],
            &["report", "field.asc", "--low", "0.5"],
            &["reports", "1", "50"],
            &["farms", "1", "50"],
            &["sheet", "--low1", "0.5"],
            &["sheet", "--farms", "a.asc", "--farms", "b.asc"],
            &["sheets", "--farms", "a.asc"],
            &["report", "--low1", "0.5", "a.asc"],
            &["report", "--farms", "m.asc", "a.asc", "b.asc"],
        ];
        wrong.iter().for_each(|words| assert_eq!(Command::of(words), None));
    }
}
