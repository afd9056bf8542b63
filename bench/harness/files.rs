//! Files that are read.

use crate::lent::Lent;
use std::path::Path;

/// What a file holds, or what is wrong with it.
pub fn read(file: &Path) -> Result<Vec<u8>, String> {
    std::fs::read(file).map_err(|error| format!("harness: {}: {error}", file.display()))
}

/// A field's text, and grids to lend for it.
pub fn field(file: &Path) -> Result<(Vec<u8>, Lent), String> {
    let text = read(file)?;
    let lent = Lent::for_text(&text).map_err(|refused| format!("harness: {}: {refused}", file.display()))?;
    Ok((text, lent))
}
