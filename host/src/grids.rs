//! Each grid as a file of little-endian numbers in row order, NAME.bin, and beside it one line that describes it, NAME.txt.

use crate::Map;
use std::fs;
use std::path::Path;

/// A grid's name, its type and its bytes.
type Grid = (&'static str, &'static str, Vec<u8>);

fn all(map: &Map) -> [Grid; 6] {
    let g = &map.grids;
    [
        ("ground", "i32", map.ground.iter().flat_map(|v| v.to_le_bytes()).collect()),
        ("filled", "i32", g.filled.iter().flat_map(|v| v.to_le_bytes()).collect()),
        ("direction", "u8", g.direction.clone()),
        ("count", "u32", g.count.iter().flat_map(|v| v.to_le_bytes()).collect()),
        ("length", "u64", g.lengths.iter().flat_map(|v| v.to_le_bytes()).collect()),
        ("ls", "u32", g.factors.iter().flat_map(|v| v.to_le_bytes()).collect()),
    ]
}

fn put(path: &Path, bytes: &[u8]) -> Result<(), String> {
    fs::write(path, bytes).map_err(|e| format!("cannot write {}: {}", path.display(), crate::reason(&e)))
}

/// Writes every grid into the folder, which is made where it is not there.
pub fn write(folder: &Path, map: &Map) -> Result<(), String> {
    let h = map.header;
    fs::create_dir_all(folder).map_err(|e| format!("cannot make {}: {}", folder.display(), crate::reason(&e)))?;
    for (name, kind, bytes) in all(map) {
        put(&folder.join(format!("{name}.bin")), &bytes)?;
        let line = format!("{name} rows {} columns {} type {kind} side {}\n", h.rows, h.columns, h.side);
        put(&folder.join(format!("{name}.txt")), line.as_bytes())?;
    }
    Ok(())
}
