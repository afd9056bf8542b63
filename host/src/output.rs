//! A file that is written beside its place and takes the place when it is whole, so that a run that fails leaves what
//! was there. A device or a pipe is written at once.

use std::fs::{self, File, OpenOptions};
use std::io::{self, ErrorKind};
use std::path::{Path, PathBuf};

/// The file to write, its place, and its path until it is whole.
pub struct Output {
    pub file: File,
    place: PathBuf,
    part: Option<PathBuf>,
}

impl Output {
    /// Begins a file in the folder of its place, under a name that no file has.
    fn beside(place: PathBuf) -> io::Result<Output> {
        let mut number = std::process::id();
        loop {
            let part = place.with_file_name(format!(".lsmap.{number}"));
            match File::create_new(&part) {
                Err(e) if e.kind() == ErrorKind::AlreadyExists => number = number.wrapping_add(1),
                made => return made.map(|file| Output { file, place, part: Some(part) }),
            }
        }
    }

    /// Begins a file for a path. What is there already has to be writable, and hands on its mode.
    pub fn begin(path: &Path) -> io::Result<Output> {
        let place = fs::canonicalize(path).unwrap_or_else(|_| path.to_path_buf());
        match OpenOptions::new().write(true).open(&place) {
            Ok(file) if !file.metadata()?.is_file() => Ok(Output { file, place, part: None }),
            Ok(old) => {
                let output = Output::beside(place)?;
                output.file.set_permissions(old.metadata()?.permissions())?;
                Ok(output)
            }
            Err(e) if e.kind() == ErrorKind::NotFound => Output::beside(place),
            Err(e) => Err(e),
        }
    }

    /// Has the system store what was written; a device or a pipe has nothing to store.
    pub fn store(&self) -> io::Result<()> {
        if self.part.is_some() { self.file.sync_all() } else { Ok(()) }
    }

    /// Puts the whole file, once it is stored, into its place.
    pub fn finish(mut self) -> io::Result<()> {
        self.store()?;
        if let Some(part) = &self.part {
            fs::rename(part, &self.place)?;
        }
        self.part = None;
        Ok(())
    }
}

impl Drop for Output {
    fn drop(&mut self) {
        if let Some(part) = &self.part {
            let _ = fs::remove_file(part);
        }
    }
}

/// Whether two paths lead to one file.
pub fn same(a: &Path, b: &Path) -> bool {
    fs::canonicalize(a).is_ok_and(|a| fs::canonicalize(b).is_ok_and(|b| a == b))
}
