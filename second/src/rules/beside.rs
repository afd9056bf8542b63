//! Grids of bytes that stand beside a field as texts of its shape: given directions and farm marks. Serves docs/RULES.md,
//! 4.7 Given directions, and 7.2 The map call.

use super::grid::Shape;
use super::refusal::{self, refuse, Refusal};
use super::text::{read_grid, read_header};

/// The byte of a number of a text in cm: the whole number of metres, if it is one. NoData is none.
pub fn byte(cm: i32) -> Option<u8> {
    if cm % 100 == 0 { u8::try_from(cm / 100).ok() } else { None }
}

/// The bytes of a text, which is read as a field's is; 2 if it has another shape than the field.
pub fn read_bytes(text: &[u8], shape: Shape, byte: fn(i32) -> u8) -> Result<Vec<u8>, Refusal> {
    let mut numbers = vec![0; read_header(text)?.0.shape.cells()];
    let header = read_grid(text, &mut numbers)?;
    if header.shape != shape {
        return refuse(refusal::LENT, 0);
    }
    Ok(numbers.into_iter().map(byte).collect())
}
