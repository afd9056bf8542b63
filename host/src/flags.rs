//! The command line: what its words ask for. A report's flags are in report_flags.rs, the settings in settings.rs.

use crate::library::Settings;
use crate::report_flags::{self, ReportFlags};
use crate::settings::Both;
use std::ffi::OsString;
use std::iter::Peekable;
use std::path::PathBuf;

/// Where a field's text, or the heights beside its header, come from.
pub enum Field {
    StandardInput,
    File(PathBuf),
}

impl Field {
    /// The field that a word names.
    pub fn of(word: OsString) -> Field {
        if word == "-" { Field::StandardInput } else { Field::File(word.into()) }
    }

    /// The field's name in a message.
    pub fn name(&self) -> String {
        match self {
            Field::StandardInput => "standard input".to_string(),
            Field::File(path) => path.display().to_string(),
        }
    }
}

/// What the flags ask for. With floats the field's text is a header alone. With farms there are two, marked there. With
/// directions these are given. Without an output the sheet goes to standard output, unless it is to be quiet.
pub struct Flags {
    pub settings: Both,
    pub floats: Option<Field>,
    pub farms: Option<Field>,
    pub directions: Option<Field>,
    pub output: Option<PathBuf>,
    pub grids: Option<PathBuf>,
    pub text: Option<PathBuf>,
    pub quiet: bool,
    pub verbose: bool,
}

/// What a command line asks for.
pub enum Asked {
    Help,
    Version,
    Map(Field, Flags),
    Report(Vec<Field>, ReportFlags),
}

/// The words of a command line.
pub type Words = Peekable<std::vec::IntoIter<OsString>>;

pub fn words(words: impl Iterator<Item = OsString>) -> Words {
    words.collect::<Vec<_>>().into_iter().peekable()
}

/// The word after a flag, unless it is a long flag itself. A minus alone may begin a number.
pub fn value(flag: &str, words: &mut Words) -> Result<OsString, String> {
    words.next_if(|word| !word.as_encoded_bytes().starts_with(b"--")).ok_or_else(|| format!("{flag} wants a value"))
}

pub fn text(flag: &str, words: &mut Words) -> Result<String, String> {
    let v = value(flag, words)?;
    v.into_string().map_err(|v| format!("{flag}: {v:?} is not text"))
}

/// Whether standard input is among the files once at most.
pub fn read_once<'a>(files: impl Iterator<Item = &'a Field>) -> Result<(), String> {
    if files.filter(|file| matches!(file, Field::StandardInput)).count() > 1 {
        return Err("standard input, `-`, can be read only once".to_string());
    }
    Ok(())
}

/// Flags that take their words and in the end the fields.
pub trait Take: Sized {
    /// Takes a flag, and its value from the words after it.
    fn take(&mut self, flag: &str, words: &mut Words) -> Result<(), String>;

    /// What is asked for with the words that are no flags.
    fn asked(self, fields: Vec<OsString>) -> Result<Asked, String>;
}

impl Take for Flags {
    fn take(&mut self, flag: &str, words: &mut Words) -> Result<(), String> {
        match flag {
            "--floats" => self.floats = Some(Field::of(value(flag, words)?)),
            "--farms" => self.farms = Some(Field::of(value(flag, words)?)),
            "--directions" => self.directions = Some(Field::of(value(flag, words)?)),
            "--output" => self.output = Some(value(flag, words)?).filter(|v| v != "-").map(PathBuf::from),
            "--grids" => self.grids = Some(value(flag, words)?.into()),
            "--text" => self.text = Some(value(flag, words)?.into()),
            "--quiet" => self.quiet = true,
            "--verbose" => self.verbose = true,
            _ => self.settings.take(flag, words)?,
        }
        Ok(())
    }

    fn asked(self, fields: Vec<OsString>) -> Result<Asked, String> {
        self.settings.used(self.farms.is_some())?;
        let field = only(fields, self.floats.as_ref())?;
        read_once(std::iter::once(&field).chain(&self.floats).chain(&self.farms).chain(&self.directions))?;
        Ok(Asked::Map(field, self))
    }
}

/// The one field that the words name: a text, or a header where there are floats.
fn only(fields: Vec<OsString>, floats: Option<&Field>) -> Result<Field, String> {
    match (<[OsString; 1]>::try_from(fields), floats) {
        (Ok([field]), Some(Field::StandardInput)) if field == "-" => {
            Err("--floats: standard input is the header or the heights, and not both".to_string())
        }
        (Ok([field]), _) => Ok(Field::of(field)),
        (Err(fields), None) if fields.is_empty() => Err("no FIELD.asc is named".to_string()),
        (Err(fields), _) if fields.is_empty() => Err("--floats: no FIELD.hdr is named beside it".to_string()),
        (Err(fields), _) => Err(format!("{:?}: one field at a time", fields[1])),
    }
}

/// Has the flags take all words. All wrong flags are told, and only without them the fields, for a word behind a wrong
/// flag may have been meant as its value.
fn take_all(mut flags: impl Take, mut words: Words) -> Result<Asked, String> {
    let (mut fields, mut wrong) = (Vec::new(), Vec::new());
    while let Some(word) = words.next() {
        match &*word.to_string_lossy() {
            "--help" | "-h" => return Ok(Asked::Help),
            "--version" => return Ok(Asked::Version),
            "--" => fields.extend(words.by_ref()),
            flag if flag.starts_with('-') && flag != "-" => wrong.extend(flags.take(flag, &mut words).err()),
            _ => fields.push(word),
        }
    }
    if !wrong.is_empty() {
        return Err(wrong.join("; "));
    }
    flags.asked(fields)
}

/// Reads the words after the program's name; a setting that no flag gives stays as it is, farm 1's too.
pub fn read(words: impl Iterator<Item = OsString>, settings: Settings) -> Result<Asked, String> {
    let mut words = self::words(words);
    if words.next_if(|word| word == "report").is_some() {
        return take_all(report_flags::none(settings), words);
    }
    let (floats, farms, directions) = (None, None, None);
    let (settings, output, grids, text) = (Both::of(settings), None, None, None);
    take_all(Flags { settings, floats, farms, directions, output, grids, text, quiet: false, verbose: false }, words)
}

#[cfg(test)]
mod tests {
    use super::*;
    use crate::settings::tests::DEFAULTS;
    use crate::settings::{channel_text, line};

    fn asked(line: &str) -> Result<Asked, String> {
        read(line.split_whitespace().map(OsString::from), DEFAULTS)
    }

    /// The field's name and the flags of a line that asks for a map.
    fn wanted(line: &str) -> (String, Flags) {
        match asked(line) {
            Ok(Asked::Map(field, flags)) => (field.name(), flags),
            Ok(_) => panic!("{line}: asks for no map"),
            Err(why) => panic!("{line}: {why}"),
        }
    }

    /// What is wrong with a line.
    fn wrong(line: &str) -> String {
        asked(line).err().unwrap_or_else(|| panic!("{line}: is accepted"))
    }

    #[test]
    fn a_field_alone_has_the_defaults() {
        let (name, flags) = wanted("a.asc");
        assert_eq!(name, "a.asc");
        assert_eq!(flags.settings.farms.map(|farm| line(&farm)), [line(&DEFAULTS), line(&DEFAULTS)]);
        assert_eq!((flags.output, flags.grids, flags.text), (None, None, None));
        assert_eq!((flags.floats.is_some(), flags.quiet, flags.verbose), (false, false, false));
    }

    #[test]
    fn each_flag_sets_its_own() {
        let (_, flags) = wanted("--low 0.29 --output out --verbose a.asc --high -0 --grids g --text t");
        let settings = flags.settings.farms[0];
        assert_eq!((settings.low, settings.high.to_bits()), (0.29, (-0.0f64).to_bits()));
        assert_eq!((flags.output, flags.grids), (Some("out".into()), Some("g".into())));
        assert_eq!((flags.text, flags.quiet, flags.verbose), (Some("t".into()), false, true));
        assert!(wanted("--quiet a.asc").1.quiet);
        assert_eq!(wanted("a.asc --low 0.1 --low 0.2").1.settings.farms[0].low, 0.2);
        assert_eq!(wanted("a.asc --steepness newer --steepness older").1.settings.farms[0].formula, 0);
        assert_eq!(channel_text(&wanted("--channel cells:7 a.asc").1.settings.farms[0]), "cells:7");
    }

    #[test]
    fn a_lone_minus_is_standard_input_or_output() {
        let (name, flags) = wanted("- --output -");
        assert_eq!((name.as_str(), flags.output), ("standard input", None));
        assert_eq!(wanted("-- -").0, "standard input");
    }

    #[test]
    fn floats_have_a_header_beside_them() {
        let names = |line| {
            let (name, flags) = wanted(line);
            (flags.floats.map(|floats| floats.name()), name)
        };
        assert_eq!(names("--floats a.flt a.hdr"), (Some("a.flt".into()), "a.hdr".into()));
        assert_eq!(names("a.hdr --floats - --quiet"), (Some("standard input".into()), "a.hdr".into()));
        assert_eq!(names("- --floats a.flt"), (Some("a.flt".into()), "standard input".into()));
        assert_eq!(wrong("--floats a.flt"), "--floats: no FIELD.hdr is named beside it");
        assert_eq!(wrong("--floats a.flt a.hdr b.hdr"), "\"b.hdr\": one field at a time");
        assert_eq!(wrong("- --floats -"), "--floats: standard input is the header or the heights, and not both");
        assert_eq!(wrong("a.hdr --floats"), "--floats wants a value");
    }

    #[test]
    fn directions_may_be_given() {
        let names = |line| {
            let (name, flags) = wanted(line);
            (flags.directions.map(|directions| directions.name()), name)
        };
        assert_eq!(names("a.asc"), (None, "a.asc".into()));
        assert_eq!(names("--directions d.asc a.asc"), (Some("d.asc".into()), "a.asc".into()));
        assert_eq!(names("a.asc --directions -"), (Some("standard input".into()), "a.asc".into()));
        assert_eq!(names("- --directions d.asc"), (Some("d.asc".into()), "standard input".into()));
        assert_eq!(names("--floats a.flt --directions - a.hdr").1, "a.hdr");
        for line in ["- --directions -", "--floats - --directions - a.hdr"] {
            assert_eq!(wrong(line), "standard input, `-`, can be read only once");
        }
        assert_eq!(wrong("a.asc --directions"), "--directions wants a value");
        assert_eq!(wrong("--directions d.asc"), "no FIELD.asc is named");
    }

    #[test]
    fn farms_may_be_marked() {
        let (name, flags) = wanted("--farms m.asc a.asc --low 0.1 --low1 0.2 --steepness1 newer");
        assert_eq!((flags.farms.map(|farms| farms.name()), name), (Some("m.asc".into()), "a.asc".into()));
        let first = "low 0.1, high 0.5, channel percent:1, steepness older";
        let second = "low 0.2, high 0.5, channel percent:1, steepness newer";
        assert_eq!(flags.settings.farms.map(|farm| line(&farm)), [first, second]);
        assert!(wanted("a.asc").1.farms.is_none());
        assert_eq!(wanted("--farms - --directions d.asc --floats a.flt a.hdr").0, "a.hdr");
        for line in ["- --farms -", "--farms - --directions - a.asc", "--floats - --farms - a.hdr"] {
            assert_eq!(wrong(line), "standard input, `-`, can be read only once");
        }
        assert_eq!(wrong("a.asc --farms"), "--farms wants a value");
        assert_eq!(wrong("a.asc --low1 0.5"), "--low1: farm 1 has settings only beside --farms");
        assert_eq!(wrong("--channel1 none"), "--channel1: farm 1 has settings only beside --farms");
        assert_eq!(wrong("--low1 half a.asc"), "--low1: \"half\" is not a number that can be handed on");
    }

    #[test]
    fn two_minuses_end_the_flags() {
        assert_eq!(wanted("--verbose -- --low").0, "--low");
        assert_eq!(wanted("-- --").0, "--");
        assert_eq!(wrong("a.asc -- --help"), "\"--help\": one field at a time");
    }

    #[test]
    fn help_and_version_come_before_faults() {
        for line in ["--help", "-h", "--deep --help", "a.asc b.asc -h"] {
            assert!(matches!(asked(line), Ok(Asked::Help)), "{line}");
        }
        assert!(matches!(asked("-x --version"), Ok(Asked::Version)));
    }

    #[test]
    fn every_wrong_flag_is_told_by_name() {
        assert_eq!(wrong("-x a.asc"), "-x: no such flag");
        assert_eq!(wrong("--low=0.5 a.asc"), "--low=0.5: no such flag");
        assert_eq!(wrong("--deep 3 a.asc -x"), "--deep: no such flag; -x: no such flag");
        assert_eq!(wrong("a.asc --low --grids"), "--low wants a value; --grids wants a value");
        assert_eq!(wrong("--text --quiet a.asc"), "--text wants a value");
        assert_eq!(wrong("--output -- a.asc"), "--output wants a value");
        assert!(wrong("a.asc --low half --deep").ends_with("handed on; --deep: no such flag"));
    }

    #[test]
    fn a_flag_that_is_no_text_is_no_file_name() {
        use std::os::unix::ffi::OsStringExt;
        let read = |bytes: &[u8]| read([OsString::from_vec(bytes.to_vec())].into_iter(), DEFAULTS);
        assert_eq!(read(b"-\xff").err().as_deref(), Some("-\u{fffd}: no such flag"));
        assert!(matches!(read(b"\xff.asc"), Ok(Asked::Map(Field::File(_), _))));
    }

    #[test]
    fn one_field_is_named() {
        assert_eq!(wrong(""), "no FIELD.asc is named");
        assert_eq!(wrong("--"), "no FIELD.asc is named");
        assert_eq!(wrong("a.asc - b.asc"), "\"-\": one field at a time");
        assert_eq!(wanted("-- report").0, "report");
        assert_eq!(wrong("a.asc report"), "\"report\": one field at a time");
        assert_eq!(wrong("a.asc --jobs 2"), "--jobs: no such flag");
    }
}
