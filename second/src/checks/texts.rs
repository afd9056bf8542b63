//! The comparison of texts: fields of a seed, each under some settings, to a program that writes five grids as texts;
//! every byte of them against this program's. The text of the ground is read again, by this program and by that one.
//! Serves docs/RULES.md, 10 The text that is written.

use super::compare::difference_file;
use super::second_ways::any_settings;
use crate::rules::grid_texts::{grid_texts, Texts, NAMES};
use crate::rules::settings::Settings;
use crate::rules::text::{read_grid, read_header, Header};
use crate::texts::cornered;
use crate::texts::seed::Seed;
use std::io;
use std::path::Path;
use std::process::{Command, Output};

/// A field's text and the settings of its map.
fn case(seed: u64, number: usize) -> (Vec<u8>, Settings) {
    let mut seed = Seed::of(seed, number as u64);
    let text = cornered::text(&mut seed, number);
    (text, any_settings(&mut seed))
}

/// The settings as the program's words.
pub fn words(settings: Settings) -> [String; 8] {
    let channel = settings.channel.word();
    let [low, high] = [settings.low, settings.high].map(|cutoff| cutoff.to_string());
    let formula = settings.formula.name().to_string();
    ["--channel".into(), channel, "--low".into(), low, "--high".into(), high, "--steepness".into(), formula]
}

/// A file's bytes, or why there are none.
fn bytes(file: &Path) -> io::Result<Vec<u8>> {
    std::fs::read(file).map_err(|why| io::Error::other(format!("{}: {why}", file.display())))
}

/// Runs the program on the words that name a field; it has to write five texts to a folder that was not there.
pub fn output(program: &[&str], settings: Settings, folder: &Path, field: &[&Path]) -> io::Result<Output> {
    if folder.exists() {
        std::fs::remove_dir_all(folder)?;
    }
    let mut command = Command::new(program[0]);
    command.args(&program[1..]).args(words(settings)).arg("--text").arg(folder).arg("--quiet").args(field);
    command.output().map_err(|why| io::Error::other(format!("{}: {why}", program[0])))
}

/// A program's ending that was not expected.
pub fn unexpected(output: &Output) -> io::Error {
    let [printed, said] = [&output.stdout, &output.stderr].map(|bytes| String::from_utf8_lossy(bytes));
    io::Error::other(format!("the program ended with {}, printed {printed:?} and said {said:?}", output.status))
}

/// The five texts that a program has written to a folder.
pub fn written(folder: &Path) -> io::Result<Texts> {
    let file = |name: &str| bytes(&folder.join(format!("{name}.asc")));
    let [ground, filled, count, ls, direction] = NAMES;
    Ok([file(ground)?, file(filled)?, file(count)?, file(ls)?, file(direction)?])
}

/// The texts that the program writes to the folder; it prints nothing.
pub fn run(program: &[&str], settings: Settings, folder: &Path, field: &[&Path]) -> io::Result<Texts> {
    let output = output(program, settings, folder, field)?;
    if !output.status.success() || !output.stdout.is_empty() {
        return Err(unexpected(&output));
    }
    written(folder)
}

/// The first line in which two texts differ, with both lines.
fn difference(given: &[u8], expected: &[u8]) -> Option<String> {
    let lines = |text: &[u8]| -> Vec<String> {
        text.split_inclusive(|&byte| byte == b'\n').map(|line| line.escape_ascii().to_string()).collect()
    };
    let (given, expected) = (lines(given), lines(expected));
    let at = (0..given.len().max(expected.len())).find(|&at| given.get(at) != expected.get(at))?;
    Some(format!("line {} is {:?}, expected {:?}", at + 1, given.get(at), expected.get(at)))
}

/// The texts of the program are those that are expected.
pub fn same_texts(given: &Texts, expected: &Texts) -> io::Result<()> {
    let pairs = given.iter().zip(expected).map(|(given, expected)| difference(given, expected));
    let first = NAMES.iter().zip(pairs).find_map(|(name, difference)| Some((name, difference?)));
    first.map_or(Ok(()), |(name, difference)| Err(io::Error::other(format!("{name}.asc: {difference}"))))
}

/// What a text says: shape and side, the corner words, the heights.
fn content(text: &[u8]) -> io::Result<(Header, [&[u8]; 2], Vec<i32>)> {
    let refused = |refusal| io::Error::other(format!("{refusal:?}"));
    let (header, corners) = read_header(text).map_err(refused)?;
    let mut heights = vec![0; header.shape.cells()];
    let header = read_grid(text, &mut heights).map_err(refused)?;
    Ok((Header { nodata: 0, ..header }, corners.map(|span| span.of(text)), heights))
}

/// Compares one field. The ground that was written is a field with the same content, and has the same texts.
fn same_case(program: &[&str], made: &Path, text: &[u8], settings: Settings) -> io::Result<()> {
    let [field, first, again] = ["field.asc", "first", "again"].map(|name| made.join(name));
    std::fs::write(&field, text)?;
    let expected = grid_texts(text, settings).map_err(|refusal| io::Error::other(format!("{refusal:?}")))?;
    let given = run(program, settings, &first, &[&field])?;
    same_texts(&given, &expected)?;
    if content(&given[0])? != content(text)? {
        return Err(io::Error::other("ground.asc has another content than the field"));
    }
    same_texts(&run(program, settings, &again, &[&first.join("ground.asc")])?, &expected)
}

/// Compares the first fields of a seed; stops at the first difference and keeps that field's text.
pub fn compare(seed: u64, fields: usize, program: &[&str]) -> io::Result<()> {
    let made = std::env::current_exe()?.with_file_name("texts");
    std::fs::create_dir_all(&made)?;
    for number in 0..fields {
        let (text, settings) = case(seed, number);
        if let Err(why) = same_case(program, &made, &text, settings) {
            let kept = difference_file()?;
            std::fs::write(&kept, &text)?;
            let (kept, words) = (kept.display(), words(settings).join(" "));
            return Err(io::Error::other(format!("case {number}, {words}: {why}; its text is in {kept}")));
        }
    }
    println!("{fields} fields, five texts of each, no difference");
    Ok(())
}

#[cfg(test)]
mod tests {
    use super::*;
    use crate::rules::settings::Formula;

    /// The texts of each of the first fields of a seed.
    fn first_texts() -> Vec<Texts> {
        let texts = |(text, settings): (Vec<u8>, Settings)| grid_texts(&text, settings).expect("a field is accepted");
        (0..150).map(|number| texts(case(1, number))).collect()
    }

    /// Each formula comes up, on fields whose LS tells it from the other.
    #[test]
    fn fields_have_both_formulas() {
        let tells = |(text, settings): &(Vec<u8>, Settings)| {
            let [older, newer] = Formula::ALL.map(|formula| grid_texts(text, Settings { formula, ..*settings }));
            older != newer
        };
        let cases: Vec<(Vec<u8>, Settings)> = (0..20).map(|number| case(1, number)).filter(tells).collect();
        assert!(Formula::ALL.iter().all(|&formula| cases.iter().any(|(_, settings)| settings.formula == formula)));
    }

    /// The words of a text's cells.
    fn words_of(text: &[u8]) -> Vec<String> {
        let text = String::from_utf8(text.to_vec()).expect("a text is of ASCII letters");
        text.split_whitespace().skip(12).map(str::to_string).collect()
    }

    /// Each kind of word comes up in the texts of few fields.
    #[test]
    fn fields_have_every_kind_of_word() {
        let texts = first_texts();
        let words = |grid: usize| texts.iter().flat_map(|texts| words_of(&texts[grid])).collect::<Vec<_>>();
        let [ground, count, ls, direction] = [0, 2, 3, 4].map(words);
        let has = |words: &[String], wanted: &str| words.iter().any(|word| word == wanted);
        let begins = |words: &[String], start: &str| words.iter().any(|word| word.starts_with(start));
        assert!(["-9999", "0.00", "-500.00", "9000.00"].iter().all(|word| has(&ground, word)));
        assert!(["-0.0", "-0.1", "0.0", "-1", "1"].iter().all(|start| begins(&ground, start)));
        assert!(["-9999", "1"].iter().all(|word| has(&count, word)) && count.iter().any(|word| word.len() == 3));
        let codes = ["-9999", "0", "1", "2", "4", "8", "16", "32", "64", "128"];
        assert!(codes.iter().all(|word| has(&direction, word)));
        assert!(["-9999", "0.00000"].iter().all(|word| has(&ls, word)) && ls.iter().any(|word| word.len() == 8));
        assert!(ls.iter().zip(&count).any(|(ls, count)| ls == "-9999" && count != "-9999"), "a slope is too long");
    }
}
