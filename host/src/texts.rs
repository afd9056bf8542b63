//! Five grids as texts for mapping programs, NAME.asc in a folder: the library writes the text, this file puts it there.
//! All five are stored beside their places before the first takes its own.

use crate::library::{self, Numbers};
use crate::output::Output;
use crate::{Map, messages};
use std::fs;
use std::io::{self, Write};
use std::path::{Path, PathBuf};

const NAMES: [&str; 5] = ["ground.asc", "filled.asc", "direction.asc", "count.asc", "ls.asc"];

/// The files that a folder gets.
pub fn paths(folder: &Path) -> [PathBuf; 5] {
    NAMES.map(|name| folder.join(name))
}

/// The grids, in the order of the names.
fn grids<'a>(map: &'a Map) -> [Numbers<'a>; 5] {
    let g = &map.grids;
    [
        Numbers::Heights(&map.ground),
        Numbers::Heights(&g.filled),
        Numbers::Directions(&g.direction),
        Numbers::Counts(&g.count),
        Numbers::Factors(&g.factors),
    ]
}

fn cannot_write(path: &Path, e: &io::Error) -> String {
    format!("cannot write {}: {}", path.display(), crate::reason(e))
}

/// Texts that are stored, each beside its place.
pub struct Texts(Vec<(PathBuf, Output)>);

/// Stores one text beside its place.
fn store_one(path: &Path, text: &[u8]) -> io::Result<Output> {
    let mut output = Output::begin(path)?;
    output.file.write_all(text)?;
    output.store()?;
    Ok(output)
}

/// Stores the texts in the folder, which is made where it is not there.
pub fn store(folder: &Path, map: &Map) -> Result<Texts, String> {
    fs::create_dir_all(folder).map_err(|e| format!("cannot make {}: {}", folder.display(), crate::reason(&e)))?;
    let mut room = vec![0; library::room(map.header)];
    let mut stored = Vec::new();
    for (path, grid) in paths(folder).into_iter().zip(grids(map)) {
        let length = library::write(map.header, map.corners, grid, &mut room)
            .map_err(|r| format!("cannot write {}: {}", path.display(), messages::of_write(r)))?;
        let output = store_one(&path, &room[..length]).map_err(|e| cannot_write(&path, &e))?;
        stored.push((path, output));
    }
    Ok(Texts(stored))
}

impl Texts {
    /// Puts the texts into their places.
    pub fn finish(self) -> Result<(), String> {
        self.0.into_iter().try_for_each(|(path, output)| output.finish().map_err(|e| cannot_write(&path, &e)))
    }
}
