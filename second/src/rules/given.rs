//! Directions drawn by someone else: reading them, judging them, and their steepness. States docs/RULES.md, 4.7 Given
//! directions.

use super::beside::{byte, read_bytes};
use super::direction::{steepness, Flow, LEAVES, NO_DIRECTION};
use super::fill::rim;
use super::grid::{bearing_of, Shape, NODATA};
use super::refusal::{self, refuse, Refusal};
use super::trail::onward;

/// A code that is none of the ten: what a number that is no byte is handed on as.
const NO_CODE: u8 = 3;

/// The code of a number of a text in cm: its byte, if it is one. NoData is 255.
fn code(cm: i32) -> u8 {
    if cm == NODATA { NO_DIRECTION } else { byte(cm).unwrap_or(NO_CODE) }
}

/// The codes of a text, which is read as a field's is; 2 if it has another shape than the field.
pub fn read_codes(text: &[u8], shape: Shape) -> Result<Vec<u8>, Refusal> {
    read_bytes(text, shape, code)
}

/// Whether a cell's code keeps every rule but the last: a NoData cell has 255, every other code is one of the nine, none
/// points off the grid or at NoData or to a higher filled cell, and 0 stands only on rim cells.
fn allowed(shape: Shape, ground: &[i32], filled: &[i32], cell: usize, code: u8) -> bool {
    if ground[cell] == NODATA {
        return code == NO_DIRECTION;
    }
    if code == LEAVES {
        return rim(shape, ground, cell);
    }
    let Some(bearing) = bearing_of(code) else { return false };
    let Some(next) = shape.neighbour(cell, bearing) else { return false };
    ground[next] != NODATA && filled[next] <= filled[cell]
}

/// Whether the cell lies on a ring: its trail comes back to it, which takes at most as many steps as there are cells.
fn on_ring(shape: Shape, given: &[u8], cell: usize) -> bool {
    let mut at = cell;
    for _ in 0..shape.cells() {
        match onward(shape, given, at) {
            None => return false,
            Some(next) if next == cell => return true,
            Some(next) => at = next,
        }
    }
    false
}

/// 17, a code that breaks any rule but the last, at the first such cell; then 18, a trail that goes round, at the first cell
/// in row order on a ring.
pub fn judge(shape: Shape, ground: &[i32], filled: &[i32], given: &[u8]) -> Result<(), Refusal> {
    let cells = 0..shape.cells();
    if let Some(cell) = cells.clone().find(|&cell| !allowed(shape, ground, filled, cell, given[cell])) {
        return refuse(refusal::CODE, cell);
    }
    cells.clone().find(|&cell| on_ring(shape, given, cell)).map_or(Ok(()), |cell| refuse(refusal::RING, cell))
}

/// The given directions, each cell with the steepness of its own; 0 for code 0.
pub fn flow(shape: Shape, filled: &[i32], given: &[u8]) -> Flow {
    let steep = |cell: usize| {
        let Some(bearing) = bearing_of(given[cell]) else { return 0 };
        let next = shape.neighbour(cell, bearing).expect("an accepted code points at a cell");
        steepness(bearing, i64::from(filled[cell]) - i64::from(filled[next]))
    };
    Flow { direction: given.to_vec(), steepness: (0..shape.cells()).map(steep).collect() }
}

#[cfg(test)]
mod tests {
    use super::super::fill::filled;
    use super::*;

    const HEADER: &str = "ncols 2 nrows 1 xllcorner 0 yllcorner 0 cellsize 10 ";

    /// Number and place of the refusal of codes on heights in cm.
    fn judged(columns: usize, ground: &[i32], given: &[u8]) -> Result<(), (u32, usize)> {
        let shape = Shape { rows: ground.len() / columns, columns };
        let answer = judge(shape, ground, &filled(shape, ground), given);
        answer.map_err(|Refusal { number, place }| (number, place))
    }

    #[test]
    fn numbers_are_codes_if_they_are_bytes() {
        assert_eq!([0, 100, 12_800, 25_500, NODATA].map(code), [0, 1, 128, 255, 255]);
        assert_eq!([1, -1, 150, -100, 25_600, 30_000, 25_501].map(code), [NO_CODE; 7]);
        assert!(bearing_of(NO_CODE).is_none() && NO_CODE != LEAVES && NO_CODE != NO_DIRECTION);
    }

    /// The text's own refusals come before that of its shape, which is not its number of cells.
    #[test]
    fn codes_are_read_as_a_field() {
        let read = |rest: &str, rows, columns| {
            let codes = read_codes(format!("{HEADER}{rest}").as_bytes(), Shape { rows, columns });
            codes.map_err(|Refusal { number, place }| (number, place))
        };
        assert_eq!(read("1.00 -0", 1, 2), Ok(vec![1, 0]));
        assert_eq!(read("-9999 255", 1, 2), Ok(vec![255, 255]));
        assert_eq!(read("nodata_value 0 0 -1", 1, 2), Ok(vec![255, NO_CODE]));
        assert_eq!(read("1 0", 2, 1), Err((2, 0)));
        assert_eq!(read("1 0,5", 2, 1), Err((12, HEADER.len() + 3)));
        assert_eq!(read("1", 2, 1), Err((9, HEADER.len() + 1)));
        assert_eq!(read("1 9001", 1, 2), Err((5, HEADER.len() + 2)));
    }

    /// A row that falls east, with one NoData cell; each rule of 17 on its own.
    #[test]
    fn codes_that_break_a_rule() {
        let ground = [900, 800, NODATA, 700];
        assert_eq!(judged(4, &ground, &[1, 0, 255, 0]), Ok(()));
        assert_eq!(judged(4, &ground, &[0, 0, 255, 0]), Ok(()));
        assert_eq!(judged(4, &ground, &[1, 0, 0, 0]), Err((17, 2)));
        assert_eq!(judged(4, &ground, &[1, 255, 255, 0]), Err((17, 1)));
        assert_eq!(judged(4, &ground, &[3, 0, 255, 0]), Err((17, 0)));
        assert_eq!(judged(4, &ground, &[64, 0, 255, 0]), Err((17, 0)));
        assert_eq!(judged(4, &ground, &[1, 1, 255, 0]), Err((17, 1)));
        assert_eq!(judged(4, &ground, &[1, 16, 255, 0]), Err((17, 1)));
        assert_eq!(judged(4, &ground, &[1, 16, 255, 1]), Err((17, 1)));
        let inland = [5; 9];
        assert_eq!(judged(3, &inland, &[0; 9]), Err((17, 4)));
        assert_eq!(judged(3, &inland, &[0, 0, 0, 0, 64, 0, 0, 0, 0]), Ok(()));
    }

    /// Equal filled heights, whatever the ground is: from the bottom of a pit to its sill.
    #[test]
    fn codes_may_point_at_higher_ground() {
        let pit = [500, 500, 500, 500, 200, 400, 500, 500, 500];
        assert_eq!(judged(3, &pit, &[0, 0, 0, 0, 1, 0, 0, 0, 0]), Ok(()));
        assert_eq!(judged(3, &pit, &[0, 0, 0, 0, 16, 0, 0, 0, 0]), Err((17, 4)));
        assert_eq!(judged(3, &pit, &[0, 0, 0, 0, 1, 16, 0, 0, 0]), Err((18, 4)));
    }

    /// The place lies on the ring, not on a way into it; the first of two rings decides; 17 comes before.
    #[test]
    fn trails_that_go_round() {
        assert_eq!(judged(5, &[7; 5], &[1, 1, 1, 1, 0]), Ok(()));
        assert_eq!(judged(5, &[7; 5], &[1, 1, 16, 0, 0]), Err((18, 1)));
        assert_eq!(judged(5, &[7; 5], &[1, 16, 0, 1, 16]), Err((18, 0)));
        assert_eq!(judged(5, &[7; 5], &[1, 16, 0, 1, 1]), Err((17, 4)));
        assert_eq!(judged(3, &[7; 9], &[1, 1, 4, 64, 64, 4, 64, 16, 16]), Err((18, 0)));
    }

    /// The steepness of the given direction, not of the steepest one.
    #[test]
    fn steepness_of_the_given_direction() {
        let (shape, ground) = (Shape { rows: 2, columns: 2 }, [9, 8, 5, 9]);
        assert_eq!(flow(shape, &ground, &[1, 0, 0, 0]).steepness, [2, 0, 0, 0]);
        assert_eq!(flow(shape, &ground, &[4, 8, 0, 64]).steepness, [32, 9, 0, 2]);
        assert_eq!(flow(shape, &ground, &[2, 0, 0, 0]).steepness, [0; 4]);
    }
}
