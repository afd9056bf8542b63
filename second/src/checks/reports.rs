//! The comparison of reports: valleys of a seed, each under some settings, to a program that reports on them. Every line, or
//! the refusal with the name of the field, against this program's: of the whole list, of its parts as they are saved, of
//! the parts joined, and of records at the edge of 64 bits. Serves docs/RULES.md, 12 The report.

use super::second_ways::any_settings;
use super::texts::{unexpected, words};
use crate::rules::farms::Asked;
use crate::rules::refusal::Refusal;
use crate::rules::report::{add, join, mapped, report, Mapped, Report};
use crate::texts::seed::Seed;
use crate::texts::valleys::{valley, Valley};
use std::io;
use std::path::{Path, PathBuf};
use std::process::{Command, Output};

/// A field's file and its map.
struct Given {
    path: PathBuf,
    map: Result<Mapped, Refusal>,
}

/// A program, the settings and the number of jobs that it is given, and the folder of its files.
struct Reporter<'a> {
    program: &'a [&'a str],
    words: Vec<String>,
    folder: &'a Path,
}

fn paths(fields: &[&Given]) -> Vec<PathBuf> {
    fields.iter().map(|field| field.path.clone()).collect()
}

/// The report of fields, or the refusal of the first that is no good.
fn whole(fields: &[&Given]) -> Result<Report, Refusal> {
    let maps: Result<Vec<Mapped>, Refusal> = fields.iter().map(|field| field.map.clone()).collect();
    report(&maps?)
}

impl Reporter<'_> {
    /// Runs the program; where it has nothing to read, it begins with an empty report.
    fn run(&self, more: &[&str], joined: &[PathBuf], fields: &[PathBuf]) -> io::Result<Output> {
        let mut command = Command::new(self.program[0]);
        command.args(&self.program[1..]).arg("report").args(&self.words).args(more);
        let empty = [self.folder.join("empty.txt")];
        let joined = if joined.is_empty() && fields.is_empty() { &empty } else { joined };
        command.args(joined.iter().flat_map(|path| [Path::new("--join"), path]));
        command.args(fields).output().map_err(|why| io::Error::other(format!("{}: {why}", self.program[0])))
    }

    /// A new file with a report's lines.
    fn store(&self, name: &str, report: &Report) -> io::Result<PathBuf> {
        let path = self.folder.join(name);
        std::fs::write(&path, report.lines())?;
        Ok(path)
    }

    /// The program prints the report's lines and nothing else.
    fn prints(&self, expected: &Report, joined: &[PathBuf], fields: &[PathBuf]) -> io::Result<()> {
        let output = self.run(&[], joined, fields)?;
        if output.status.success() && output.stdout == expected.lines().as_bytes() {
            return Ok(());
        }
        Err(io::Error::other(format!("expected {:?}; {}", expected.lines(), unexpected(&output))))
    }

    /// The program saves the report's lines under a name, and prints nothing since it is quiet: the file.
    fn saves(&self, name: &str, expected: &Report, fields: &[PathBuf]) -> io::Result<PathBuf> {
        let path = self.folder.join(name);
        let output = self.run(&["--quiet", "--save", &path.to_string_lossy()], &[], fields)?;
        let saved = std::fs::read(&path).unwrap_or_default();
        if output.status.success() && output.stdout.is_empty() && saved == expected.lines().as_bytes() {
            return Ok(path);
        }
        let saved = String::from_utf8_lossy(&saved);
        Err(io::Error::other(format!("expected {:?}, saved {saved:?}; {}", expected.lines(), unexpected(&output))))
    }

    /// The program names the file with the refusal, prints nothing, ends with 1 and saves nothing.
    fn refuses(&self, file: &Path, refusal: Refusal, joined: &[PathBuf], fields: &[PathBuf]) -> io::Result<()> {
        let none = self.folder.join("none.txt");
        let output = self.run(&["--save", &none.to_string_lossy()], joined, fields)?;
        let told = format!("{}: {refusal}", file.display());
        let said = String::from_utf8_lossy(&output.stderr);
        let said = said.split_once(&told).is_some_and(|(_, rest)| rest.starts_with([':', ' ']));
        if output.status.code() == Some(1) && output.stdout.is_empty() && said && !none.exists() {
            return Ok(());
        }
        Err(io::Error::other(format!("expected {told:?} and no file; {}", unexpected(&output))))
    }

    /// Two records joined; and the first of them with the fields after it. What is refused first decides.
    fn same_records(&self, records: [Report; 2], fields: &[&Given]) -> io::Result<()> {
        let [first, second] = [self.store("first.txt", &records[0])?, self.store("second.txt", &records[1])?];
        let both = [first.clone(), second.clone()];
        match join(records[0], records[1]) {
            Ok(joined) => self.prints(&joined, &both, &[])?,
            Err(refusal) => self.refuses(&second, refusal, &both, &[])?,
        }
        let added = fields.iter().try_fold(records[0], |before, field| {
            field.map.clone().and_then(|map| add(before, &map)).map_err(|refusal| (&field.path, refusal))
        });
        match added {
            Ok(added) => self.prints(&added, &[first], &paths(fields)),
            Err((path, refusal)) => self.refuses(path, refusal, &[first], &paths(fields)),
        }
    }

    /// Each part as it is saved; then all parts joined, and all but the last with the fields of that one.
    fn same_parts(&self, parts: &[Vec<&Given>], expected: &Report) -> io::Result<()> {
        let (mut saved, mut joined) = (Vec::new(), report(&[]));
        for (number, part) in parts.iter().enumerate() {
            let own = whole(part).map_err(|refusal| io::Error::other(refusal.to_string()))?;
            saved.push(self.saves(&format!("part-{number}.txt"), &own, &paths(part))?);
            joined = joined.and_then(|joined| join(joined, own));
        }
        assert_eq!(joined, Ok(*expected), "this program's own parts, joined, are the whole");
        self.prints(expected, &saved, &[])?;
        self.prints(expected, &saved[..parts.len() - 1], &paths(&parts[parts.len() - 1]))
    }

    /// Compares one valley; whether its fields are accepted.
    fn same_case(&self, valley: &Valley) -> io::Result<bool> {
        self.store("empty.txt", &report(&[]).expect("nothing fits"))?;
        let parts = stored(self.folder, valley)?;
        let parts: Vec<Vec<&Given>> = parts.iter().map(|part| part.iter().collect()).collect();
        let fields = parts.concat();
        self.same_records(valley.records, &fields)?;
        let bad = fields.iter().find_map(|field| Some((&field.path, *field.map.as_ref().err()?)));
        match (bad, whole(&fields)) {
            (None, Ok(expected)) => {
                self.prints(&expected, &[], &paths(&fields))?;
                self.same_parts(&parts, &expected).map(|()| true)
            }
            (Some((path, refusal)), _) => self.refuses(path, refusal, &[], &paths(&fields)).map(|()| false),
            (None, Err(refusal)) => Err(io::Error::other(format!("small fields are {refusal} by this program"))),
        }
    }
}

/// The fields of a valley as files, part by part, each with its map.
fn stored(folder: &Path, valley: &Valley) -> io::Result<Vec<Vec<Given>>> {
    let field = |number: usize, index: usize, text: &[u8]| {
        let path = folder.join(format!("{number}-{index}.asc"));
        std::fs::write(&path, text)?;
        Ok(Given { path, map: mapped(text, Asked::One(valley.settings)) })
    };
    let part = |(number, part): (usize, &Vec<Vec<u8>>)| {
        part.iter().enumerate().map(|(index, text)| field(number, index, text)).collect()
    };
    valley.parts.iter().enumerate().map(part).collect()
}

/// Compares the first valleys of a seed; stops at the first difference, and that valley's files stay.
pub fn compare(seed: u64, valleys: usize, program: &[&str]) -> io::Result<()> {
    let folder = std::env::current_exe()?.with_file_name("reports");
    let mut accepted = 0;
    for number in 0..valleys {
        if folder.exists() {
            std::fs::remove_dir_all(&folder)?;
        }
        std::fs::create_dir_all(&folder)?;
        let mut seed = Seed::of(seed, number as u64);
        let settings = any_settings(&mut seed);
        let valley = valley(&mut seed, settings);
        let jobs = (1 + seed.below(4)).to_string();
        let words = [&words(valley.settings)[..], &["--jobs".into(), jobs]].concat();
        let reporter = Reporter { program, words, folder: &folder };
        accepted += usize::from(reporter.same_case(&valley).map_err(|why| {
            let (words, folder) = (reporter.words.join(" "), folder.display());
            io::Error::other(format!("case {number}, {words}: {why}; its files are in {folder}"))
        })?);
    }
    let refused = valleys - accepted;
    println!("{valleys} valleys, {accepted} reports whole and in parts, {refused} refused, no difference");
    Ok(())
}
