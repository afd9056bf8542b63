//! The comparison at full size: each terrain's text to a program that writes the grids, and every cell of them against
//! the fast map. Serves docs/RULES.md, 4 to 6.

use super::texts::words;
use crate::fast::{self, Table};
use crate::rules::grid::Shape;
use crate::rules::map::Map;
use crate::rules::settings::{Channel, Formula, Settings, PRINTER};
use crate::rules::text::{read_grid, read_header};
use crate::texts::terrains::{terrain_text, TERRAINS};
use std::fmt::Debug;
use std::io;
use std::path::{Path, PathBuf};
use std::process::{Command, Stdio};

/// The settings that each terrain is mapped under.
const SETTINGS: [Settings; 3] = [
    PRINTER,
    Settings { low: 0.7, high: 0.3, channel: Channel::Percentage(1.0), formula: Formula::Newer },
    Settings { low: 1.0, high: 0.0, channel: Channel::Cells(500), formula: Formula::Older },
];

/// A fault of the comparison.
fn fault(words: String) -> io::Error {
    io::Error::other(words)
}

/// Runs the program on a text; its first printed line.
fn first_line(program: &[&str], words: &[String], grids: &Path, text: &Path) -> io::Result<String> {
    let mut command = Command::new(program[0]);
    command.args(&program[1..]).args(words).arg("--grids").arg(grids).arg(text);
    let output = command.stderr(Stdio::inherit()).output().map_err(|why| fault(format!("{}: {why}", program[0])))?;
    if !output.status.success() {
        return Err(fault(format!("{} ended with {}", program[0], output.status)));
    }
    let line = output.stdout.split(|&byte| byte == b'\n').next().unwrap_or(&[]);
    Ok(String::from_utf8_lossy(line).into_owned())
}

/// Compares one grid, stored as little-endian numbers of N bytes, with what is expected.
fn same_grid<T: PartialEq + Debug, const N: usize>(
    file: PathBuf,
    shape: Shape,
    expected: &[T],
    number: fn([u8; N]) -> T,
) -> io::Result<()> {
    let bytes = std::fs::read(&file).map_err(|why| fault(format!("{}: {why}", file.display())))?;
    if bytes.len() != N * expected.len() {
        return Err(fault(format!("{} has {} bytes for {} cells", file.display(), bytes.len(), expected.len())));
    }
    let given = bytes.chunks_exact(N).map(|chunk| number(chunk.try_into().expect("a chunk has N bytes")));
    match given.zip(expected).enumerate().find(|(_, (given, expected))| given != *expected) {
        None => Ok(()),
        Some((cell, (given, expected))) => {
            let (row, column) = (shape.row(cell), shape.column(cell));
            let file = file.display();
            Err(fault(format!("{file}: row {row} column {column} has {given:?}, expected {expected:?}")))
        }
    }
}

/// Compares the six grids in a folder with a ground and its map.
pub fn same_grids(folder: &Path, shape: Shape, ground: &[i32], map: &Map) -> io::Result<()> {
    same_grid(folder.join("ground.bin"), shape, ground, i32::from_le_bytes)?;
    same_grid(folder.join("filled.bin"), shape, &map.filled, i32::from_le_bytes)?;
    same_grid(folder.join("direction.bin"), shape, &map.flow.direction, u8::from_le_bytes)?;
    same_grid(folder.join("count.bin"), shape, &map.count, u32::from_le_bytes)?;
    same_grid(folder.join("length.bin"), shape, &map.length, u64::from_le_bytes)?;
    same_grid(folder.join("ls.bin"), shape, &map.factor, u32::from_le_bytes)
}

/// Compares one terrain under every settings; the line that its sheet begins with.
fn same_terrain(table: &Table, kind: usize, size: usize, program: &[&str], made: &Path) -> io::Result<String> {
    let (name, ..) = TERRAINS[kind];
    let text = terrain_text(kind, size, 1);
    let file = made.join(format!("{name}-{size}.asc"));
    std::fs::write(&file, &text)?;
    let grids = made.join("grids");
    std::fs::create_dir_all(&grids)?;
    let (header, _) = read_header(&text).map_err(|refusal| fault(format!("{refusal:?}")))?;
    let mut ground = vec![0; header.shape.cells()];
    read_grid(&text, &mut ground).map_err(|refusal| fault(format!("{refusal:?}")))?;
    let mut line = String::new();
    for settings in SETTINGS {
        let words = words(settings);
        let map = fast::map(table, header.shape, header.side, &ground, settings);
        let map = map.map_err(|refusal| fault(format!("{refusal:?}")))?;
        line = format!("{size} {size} {} {} {}", header.side, map.valid, map.longest);
        let printed = first_line(program, &words, &grids, &file)?;
        if printed != line {
            return Err(fault(format!("{name} {}: printed {printed}, expected {line}", words.join(" "))));
        }
        let named = |why| fault(format!("{name} {}: {why}", words.join(" ")));
        same_grids(&grids, header.shape, &ground, &map).map_err(named)?;
    }
    Ok(line)
}

/// Compares the seven terrains of one size; stops at the first difference.
pub fn compare(size: usize, program: &[&str]) -> io::Result<()> {
    let made = std::env::current_exe()?.with_file_name("full");
    std::fs::create_dir_all(&made)?;
    let table = Table::new();
    for (kind, (name, ..)) in TERRAINS.iter().enumerate() {
        let line = same_terrain(&table, kind, size, program, &made)?;
        println!("{name} {size}: {line}; {} settings, six grids, no difference", SETTINGS.len());
    }
    Ok(())
}
