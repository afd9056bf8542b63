//! The comparison of two farms: neighbours of a seed to a program that takes marks and the settings of both; its map or its
//! refusal against this program's. Some are lists of fields for one report, every line of which is compared. Serves
//! docs/RULES.md, 7.1 Settings, 7.2 The map call and 12 The report, for two farms.

use super::maps::{same_case, Files};
use super::second_ways::any_settings;
use super::texts::{unexpected, words};
use crate::rules::refusal::{self, Refusal};
use crate::rules::report::{mapped, report};
use crate::rules::settings::{Settings, LIBRARY};
use crate::texts::neighbours::{channels_cross, list, neighbours, Neighbours};
use crate::texts::seed::Seed;
use std::io;
use std::path::{Path, PathBuf};
use std::process::{Command, Output};

/// The settings of both farms as the program's words. Every other time farm 1's are named only where they are not the
/// library's, which it has then.
fn both_words(settings: [Settings; 2], number: usize) -> Vec<String> {
    let [first, second, defaults] = [settings[0], settings[1], LIBRARY].map(words);
    let mut words = first.to_vec();
    for (named, default) in second.chunks(2).zip(defaults.chunks(2)) {
        if number % 2 == 0 || named != default {
            words.extend([format!("{}1", named[0]), named[1].clone()]);
        }
    }
    words
}

/// Writes a list of fields, each with its marks: the files of the fields and those of the marks.
fn write_list(folder: &Path, list: &[Neighbours]) -> io::Result<[Vec<PathBuf>; 2]> {
    let [mut fields, mut marks] = [Vec::new(), Vec::new()];
    for (number, one) in list.iter().enumerate() {
        fields.push(folder.join(format!("field-{number}.asc")));
        marks.push(folder.join(format!("marks-{number}.asc")));
        std::fs::write(&fields[number], &one.field)?;
        std::fs::write(&marks[number], &one.marks)?;
    }
    Ok([fields, marks])
}

/// A program that refuses names the field, or its marks, with the refusal on standard error, prints nothing and ends with 1.
fn same_refusal(output: &Output, files: [&Path; 2], refusal: Refusal) -> io::Result<()> {
    let said = String::from_utf8_lossy(&output.stderr);
    let told = |file: &Path| {
        let told = format!("{}: {refusal}", file.display());
        said.split_once(&told).is_some_and(|(_, rest)| rest.starts_with([':', ' ', '\n']))
    };
    if output.status.code() == Some(1) && output.stdout.is_empty() && files.into_iter().any(told) {
        return Ok(());
    }
    Err(io::Error::other(format!("expected {refusal} of {}; {}", files[0].display(), unexpected(output))))
}

/// Compares the report on a list of fields; whether it is accepted.
fn same_report(program: &[&str], folder: &Path, words: &[String], list: &[Neighbours]) -> io::Result<bool> {
    let [fields, marks] = write_list(folder, list)?;
    let mut command = Command::new(program[0]);
    command.args(&program[1..]).arg("report").args(words);
    command.args(marks.iter().flat_map(|marks| [Path::new("--farms"), marks])).args(&fields);
    let output = command.output().map_err(|why| io::Error::other(format!("{}: {why}", program[0])))?;
    let mut maps = Vec::new();
    for (number, one) in list.iter().enumerate() {
        match mapped(&one.field, one.farms()) {
            Ok(map) => maps.push(map),
            Err(refusal) => {
                return same_refusal(&output, [&fields[number], &marks[number]], refusal).map(|()| false);
            }
        }
    }
    let expected = report(&maps).map_err(|refusal| io::Error::other(format!("small fields are {refusal}")))?.lines();
    if output.status.success() && output.stdout == expected.as_bytes() {
        return Ok(true);
    }
    Err(io::Error::other(format!("expected {expected:?}; {}", unexpected(&output))))
}

/// What came up: the numbers of the maps' refusals, 0 for those that are accepted; how many maps have a channel that flows
/// into the other farm; and which reports are accepted.
#[derive(Default)]
struct Seen {
    numbers: Vec<u32>,
    crossing: usize,
    reports: Vec<bool>,
}

/// From so many neighbours on each answer has to come up.
const ENOUGH: usize = 200;

impl Seen {
    /// Says what came up; an error if it was not each answer of enough.
    fn tell(&self) -> io::Result<()> {
        let count = |wanted: u32| self.numbers.iter().filter(|&&number| number == wanted).count();
        let [accepted, settings, marks] = [0, refusal::SETTING, refusal::MARK].map(count);
        let others = self.numbers.len() - accepted - settings - marks;
        let [good, bad] = [true, false].map(|kind| self.reports.iter().filter(|&&report| report == kind).count());
        print!("{} maps of two farms, {accepted} accepted, ", self.numbers.len());
        println!("{settings} refused with 4, {marks} with 19, {others} with another number, no difference");
        println!("of those accepted {} have a channel that flows into the other farm", self.crossing);
        println!("{} reports on lists of them, {good} accepted, {bad} refused, no difference", good + bad);
        let kinds = [accepted, settings, marks, others, self.crossing, good, bad];
        if self.numbers.len() + self.reports.len() >= ENOUGH && kinds.contains(&0) {
            return Err(io::Error::other("an answer did not come up"));
        }
        Ok(())
    }
}

/// Every so many neighbours are a list.
const LIST: usize = 11;

/// Compares one case and adds what came up.
fn same(program: &[&str], folder: &Path, seed: u64, number: usize, seen: &mut Seen) -> Result<(), (String, io::Error)> {
    let mut seed = Seed::of(seed, number as u64);
    let any = [any_settings(&mut seed), any_settings(&mut seed)];
    if number % LIST == LIST - 1 {
        let list = list(&mut seed, number / LIST, any);
        let words = both_words(list[0].settings, number);
        let good = same_report(program, folder, &words, &list).map_err(|why| (words.join(" "), why))?;
        seen.reports.push(good);
        return Ok(());
    }
    let case = neighbours(&mut seed, number, any);
    let words = both_words(case.settings, number);
    let answer = same_case(program, &Files::of(folder), &words, case.sources()).map_err(|why| (words.join(" "), why))?;
    seen.crossing += usize::from(answer.as_ref().is_ok_and(channels_cross));
    seen.numbers.push(answer.map_or_else(|refusal| refusal.number, |_| 0));
    Ok(())
}

/// Compares the first neighbours of a seed; stops at the first difference, and their files stay.
pub fn compare(seed: u64, cases: usize, program: &[&str]) -> io::Result<()> {
    let folder = std::env::current_exe()?.with_file_name("farms");
    let mut seen = Seen::default();
    for number in 0..cases {
        if folder.exists() {
            std::fs::remove_dir_all(&folder)?;
        }
        std::fs::create_dir_all(&folder)?;
        same(program, &folder, seed, number, &mut seen).map_err(|(words, why)| {
            io::Error::other(format!("case {number}, {words}: {why}; its files are in {}", folder.display()))
        })?;
    }
    seen.tell()
}

#[cfg(test)]
mod tests {
    use super::*;

    /// Farm 1's flags end in 1; where they may be left out, those of the library's settings are.
    #[test]
    fn words_of_both_farms() {
        let second = Settings { high: 0.25, ..LIBRARY };
        let line = |number| both_words([LIBRARY, second], number).join(" ");
        let first = "--channel percent:1 --low 0.7 --high 0.5 --steepness older";
        assert_eq!(line(0), format!("{first} --channel1 percent:1 --low1 0.7 --high1 0.25 --steepness1 older"));
        assert_eq!(line(1), format!("{first} --high1 0.25"));
    }
}
