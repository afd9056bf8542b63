//! A program's map of a field, with what stands beside it, against this program's: the line that its sheet begins with,
//! every cell of six grids and every byte of five texts, or the refusal with its number and place. Serves the comparisons of
//! given directions and of two farms.

use super::full::same_grids;
use super::texts::{same_texts, unexpected, written};
use crate::rules::farms::Asked;
use crate::rules::grid_texts::{mapped, Mapped, Sources};
use crate::rules::refusal::Refusal;
use crate::rules::sheet::lines;
use std::ffi::OsString;
use std::io;
use std::path::{Path, PathBuf};
use std::process::{Command, Output};

/// The folder of a comparison with the files of one map, the folder of the grids, which is there, and that of the texts.
pub struct Files {
    field: PathBuf,
    floats: PathBuf,
    codes: PathBuf,
    marks: PathBuf,
    grids: PathBuf,
    texts: PathBuf,
}

impl Files {
    pub fn of(made: &Path) -> Files {
        let file = |name: &str| made.join(name);
        Files {
            field: file("field.asc"),
            floats: file("heights.flt"),
            codes: file("codes.asc"),
            marks: file("marks.asc"),
            grids: file("grids"),
            texts: file("texts"),
        }
    }

    /// Writes what a map is made of, and clears both folders; the words that name the files.
    fn write(&self, sources: &Sources) -> io::Result<Vec<OsString>> {
        for folder in [&self.grids, &self.texts] {
            if folder.exists() {
                std::fs::remove_dir_all(folder)?;
            }
        }
        std::fs::create_dir_all(&self.grids)?;
        std::fs::write(&self.field, sources.text)?;
        let marks = if let Asked::Two { marks, .. } = sources.farms { Some(marks) } else { None };
        let beside = [
            ("--farms", &self.marks, marks),
            ("--directions", &self.codes, sources.codes),
            ("--floats", &self.floats, sources.floats),
        ];
        let mut words = Vec::new();
        for (flag, file, bytes) in beside {
            if let Some(bytes) = bytes {
                std::fs::write(file, bytes)?;
                words.extend([flag.into(), file.into()]);
            }
        }
        words.extend(["--grids".into(), (&self.grids).into(), "--text".into(), (&self.texts).into()]);
        words.push((&self.field).into());
        Ok(words)
    }

    /// Whether a program has written nothing.
    fn untouched(&self) -> io::Result<bool> {
        Ok(!self.texts.exists() && std::fs::read_dir(&self.grids)?.next().is_none())
    }
}

/// A program that refuses prints the refusal alone, ends with 1 and writes nothing.
fn same_refusal(output: &Output, files: &Files, refusal: Refusal) -> io::Result<()> {
    let line = format!("{refusal}\n");
    if output.status.code() == Some(1) && output.stdout == line.as_bytes() && files.untouched()? {
        return Ok(());
    }
    Err(io::Error::other(format!("expected {line:?} and nothing written; {}", unexpected(output))))
}

/// A program that accepts prints the sheet, or its first line alone, and writes the grids and the texts.
fn same_map(output: &Output, files: &Files, expected: &Mapped) -> io::Result<()> {
    let Mapped { header, ground, map, .. } = expected;
    let lines = lines(*header, ground, map);
    let printed = |sheet: &str| output.stdout == sheet.as_bytes();
    if !output.status.success() || !printed(&lines[0]) && !printed(&lines.concat()) {
        return Err(io::Error::other(format!("expected {:?} and its sheet; {}", lines[0], unexpected(output))));
    }
    same_grids(&files.grids, header.shape, ground, map)?;
    let texts = expected.texts().map_err(|refusal| io::Error::other(format!("{refusal:?}")))?;
    same_texts(&written(&files.texts)?, &texts)
}

/// Compares one map, whose settings the words name; the map, or its refusal.
pub fn same_case<'a>(
    program: &[&str],
    files: &Files,
    settings: &[String],
    sources: Sources<'a>,
) -> io::Result<Result<Mapped<'a>, Refusal>> {
    let named = files.write(&sources)?;
    let mut command = Command::new(program[0]);
    command.args(&program[1..]).args(settings).args(named);
    let output = command.output().map_err(|why| io::Error::other(format!("{}: {why}", program[0])))?;
    let expected = mapped(sources);
    match &expected {
        Err(refusal) => same_refusal(&output, files, *refusal)?,
        Ok(expected) => same_map(&output, files, expected)?,
    }
    Ok(expected)
}
