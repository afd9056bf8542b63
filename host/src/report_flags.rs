//! The command line of a report: many fields, how many at a time, and reports that were saved.

use crate::flags::{Asked, Field, Take, Words, read_once, text, value};
use crate::library::Settings;
use crate::settings::Both;
use std::ffi::OsString;
use std::num::NonZero;
use std::path::PathBuf;

/// What a report's flags ask for. Farms are none, or the marks of each field. Without a number of jobs there are as many
/// as the machine has processors.
pub struct ReportFlags {
    pub settings: Both,
    pub farms: Vec<Field>,
    pub jobs: Option<NonZero<usize>>,
    pub joined: Vec<Field>,
    pub save: Option<PathBuf>,
    pub quiet: bool,
    pub verbose: bool,
}

/// No flags, under these settings.
pub fn none(settings: Settings) -> ReportFlags {
    let (settings, farms, joined) = (Both::of(settings), Vec::new(), Vec::new());
    ReportFlags { settings, farms, jobs: None, joined, save: None, quiet: false, verbose: false }
}

/// The number of jobs that a word gives.
fn jobs(text: &str) -> Result<NonZero<usize>, String> {
    text.parse().map_err(|_| format!("--jobs: {text:?} is no number of threads from 1 on"))
}

/// The file that a report is saved in.
fn file(word: OsString) -> Result<PathBuf, String> {
    if word == "-" {
        return Err("--save wants a file: standard output gets the report without it".to_string());
    }
    Ok(word.into())
}

impl Take for ReportFlags {
    fn take(&mut self, flag: &str, words: &mut Words) -> Result<(), String> {
        match flag {
            "--farms" => self.farms.push(Field::of(value(flag, words)?)),
            "--jobs" => self.jobs = Some(jobs(&text(flag, words)?)?),
            "--join" => self.joined.push(Field::of(value(flag, words)?)),
            "--save" => self.save = Some(file(value(flag, words)?)?),
            "--quiet" => self.quiet = true,
            "--verbose" => self.verbose = true,
            "--floats" => return value(flag, words).and(Err("--floats: a report takes texts alone".to_string())),
            "--directions" => {
                return value(flag, words)
                    .and(Err("--directions: a report's maps have our own directions".to_string()));
            }
            "--output" | "--grids" | "--text" => {
                let why = "a report has neither a sheet nor grids to write; --save FILE writes the report";
                return value(flag, words).and(Err(format!("{flag}: {why}")));
            }
            _ => self.settings.take(flag, words)?,
        }
        Ok(())
    }

    fn asked(self, fields: Vec<OsString>) -> Result<Asked, String> {
        let fields: Vec<Field> = fields.into_iter().map(Field::of).collect();
        self.settings.used(!self.farms.is_empty())?;
        read_once(self.joined.iter().chain(&self.farms).chain(&fields))?;
        if fields.is_empty() && self.joined.is_empty() {
            return Err("no FIELD.asc is named, and no report with --join".to_string());
        }
        let (marks, number) = (self.farms.len(), fields.len());
        if marks > 0 && marks != number {
            let rule = "--farms names one MARKS.asc for each field, in their order";
            return Err(format!("{rule}; there are {marks} for {number}"));
        }
        Ok(Asked::Report(fields, self))
    }
}

#[cfg(test)]
mod tests {
    use super::*;
    use crate::flags::read;
    use crate::settings;
    use crate::settings::tests::DEFAULTS;

    fn asked(line: &str) -> Result<Asked, String> {
        read(format!("report {line}").split_whitespace().map(OsString::from), DEFAULTS)
    }

    /// The fields' names, those of the reports that are joined, and the flags of a line that asks for a report.
    fn wanted(line: &str) -> (Vec<String>, Vec<String>, ReportFlags) {
        let names = |fields: &[Field]| fields.iter().map(Field::name).collect();
        match asked(line) {
            Ok(Asked::Report(fields, flags)) => (names(&fields), names(&flags.joined), flags),
            Ok(_) => panic!("{line}: asks for no report"),
            Err(why) => panic!("{line}: {why}"),
        }
    }

    /// What is wrong with a line.
    fn wrong(line: &str) -> String {
        asked(line).err().unwrap_or_else(|| panic!("{line}: is accepted"))
    }

    #[test]
    fn fields_and_joined_reports_keep_their_order() {
        let (fields, joined, flags) = wanted("b.asc --join 2.txt a.asc --join 1.txt b.asc -- --save");
        assert_eq!(fields, ["b.asc", "a.asc", "b.asc", "--save"]);
        assert_eq!(joined, ["2.txt", "1.txt"]);
        assert_eq!((flags.jobs, flags.save, flags.quiet, flags.verbose), (None, None, false, false));
        let (fields, joined, _) = wanted("--join - --join -x");
        assert_eq!((fields.len(), joined), (0, vec!["standard input".to_string(), "-x".to_string()]));
    }

    #[test]
    fn each_flag_sets_its_own() {
        let line =
            "a.asc --low 0.2 --high 0.3 --channel cells:9 --steepness newer --jobs 3 --save s.txt --quiet --verbose";
        let (_, _, flags) = wanted(line);
        let settings = flags.settings.farms[0];
        assert_eq!(settings::line(&settings), "low 0.2, high 0.3, channel cells:9, steepness newer");
        assert_eq!((flags.jobs.map(NonZero::get), flags.save), (Some(3), Some("s.txt".into())));
        assert!(flags.quiet && flags.verbose);
        assert_eq!(wanted("a.asc --jobs 3 --jobs 1").2.jobs.map(NonZero::get), Some(1));
    }

    #[test]
    fn each_field_has_its_farms_or_none() {
        let (fields, _, flags) = wanted("--farms 1.asc a.asc --farms 2.asc b.asc --high1 0.1 --join r.txt");
        let farms: Vec<String> = flags.farms.iter().map(Field::name).collect();
        assert_eq!((fields, farms), (vec!["a.asc".into(), "b.asc".into()], vec!["1.asc".into(), "2.asc".into()]));
        assert_eq!(flags.settings.farms.map(|farm| farm.high), [0.5, 0.1]);
        assert!(wanted("a.asc b.asc").2.farms.is_empty());
        let why = |marks, fields| {
            format!("--farms names one MARKS.asc for each field, in their order; there are {marks} for {fields}")
        };
        assert_eq!(wrong("--farms 1.asc a.asc b.asc"), why(1, 2));
        assert_eq!(wrong("--farms 1.asc --farms 2.asc a.asc"), why(2, 1));
        assert_eq!(wrong("--farms 1.asc --join r.txt"), why(1, 0));
        assert_eq!(wrong("--farms 1.asc"), "no FIELD.asc is named, and no report with --join");
        assert_eq!(wrong("a.asc --low1 0.5"), "--low1: farm 1 has settings only beside --farms");
        assert_eq!(wrong("a.asc --farms"), "--farms wants a value");
        assert_eq!(wrong("- --farms -"), "standard input, `-`, can be read only once");
    }

    #[test]
    fn jobs_are_a_number_from_1_on() {
        for word in ["0", "-1", "1.5", "two", "99999999999999999999"] {
            assert_eq!(
                wrong(&format!("a.asc --jobs {word}")),
                format!("--jobs: {word:?} is no number of threads from 1 on")
            );
        }
        assert_eq!(wrong("a.asc --jobs"), "--jobs wants a value");
    }

    #[test]
    fn what_makes_no_sense_is_refused_with_its_value() {
        for flag in ["--output", "--grids", "--text"] {
            let said = wrong(&format!("a.asc {flag} b"));
            assert_eq!(
                said,
                format!("{flag}: a report has neither a sheet nor grids to write; --save FILE writes the report")
            );
        }
        assert_eq!(wrong("--floats a.flt a.hdr"), "--floats: a report takes texts alone");
        assert_eq!(wrong("--directions d.asc a.asc"), "--directions: a report's maps have our own directions");
        assert_eq!(wrong("--save - a.asc"), "--save wants a file: standard output gets the report without it");
        assert_eq!(
            wrong("--deep --save --low half"),
            "--deep: no such flag; --save wants a value; --low: \"half\" is not a number that can be handed on"
        );
    }

    #[test]
    fn something_is_named_and_standard_input_once() {
        for line in ["", "--jobs 2", "--"] {
            assert_eq!(wrong(line), "no FIELD.asc is named, and no report with --join");
        }
        for line in ["- a.asc -", "--join - -", "--join - --join - a.asc"] {
            assert_eq!(wrong(line), "standard input, `-`, can be read only once");
        }
        assert_eq!(wanted("a.asc -").0, ["a.asc", "standard input"]);
    }

    #[test]
    fn help_and_version_come_before_faults() {
        assert!(matches!(asked("--output x -h"), Ok(Asked::Help)));
        assert!(matches!(asked("--version"), Ok(Asked::Version)));
    }
}
