//! The sheet of one text. States docs/RULES.md, 9 The printed sheet.

use super::factor::{NO_FACTOR, TOO_LONG};
use super::farms::Asked;
use super::given::read_codes;
use super::grid::{Shape, NODATA};
use super::map::{map_by, Map};
use super::refusal::{self, refuse, Refusal};
use super::settings::Settings;
use super::text::{read_grid, read_header, Header};

/// A text of more bytes gets 11 at this place.
pub const MOST_BYTES: usize = 32_768;

/// After a good header, more cells get 11 at 0.
pub const MOST_CELLS: usize = 2_048;

/// The header and heights of a text within the limits of a sheet.
pub fn read_small(text: &[u8]) -> Result<(Header, Vec<i32>), Refusal> {
    if text.len() > MOST_BYTES {
        return refuse(refusal::PRINTER, MOST_BYTES);
    }
    let cells = read_header(text)?.0.shape.cells();
    if cells > MOST_CELLS {
        return refuse(refusal::PRINTER, 0);
    }
    let mut ground = vec![0; cells];
    let header = read_grid(text, &mut ground)?;
    Ok((header, ground))
}

/// A cell's row, column, ground, filled, direction, count, length, LS.
fn cell_line(shape: Shape, ground: &[i32], map: &Map, cell: usize) -> String {
    let (row, column) = (shape.row(cell), shape.column(cell));
    if ground[cell] == NODATA {
        return format!("{row} {column} - - - - - -\n");
    }
    let factor = match map.factor[cell] {
        TOO_LONG => "long".to_string(),
        NO_FACTOR => unreachable!("a valid cell has a factor"),
        factor => factor.to_string(),
    };
    let (ground, filled, direction) = (ground[cell], map.filled[cell], map.flow.direction[cell]);
    let (count, length) = (map.count[cell], map.length[cell]);
    format!("{row} {column} {ground} {filled} {direction} {count} {length} {factor}\n")
}

/// A line with rows, columns, side, valid cells and longest trail, then each cell's line.
pub fn lines(header: Header, ground: &[i32], map: &Map) -> Vec<String> {
    let Header { shape, side, .. } = header;
    let first = format!("{} {} {} {} {}\n", shape.rows, shape.columns, side, map.valid, map.longest);
    let lines = (0..shape.cells()).map(|cell| cell_line(shape, ground, map, cell));
    std::iter::once(first).chain(lines).collect()
}

/// The sheet of a text that is accepted, under the directions of another text if there is one. The field is read first, then
/// the marks, then the codes.
fn accepted(text: &[u8], codes: Option<&[u8]>, asked: Asked) -> Result<String, Refusal> {
    let (header, ground) = read_small(text)?;
    let farms = asked.read(header.shape)?;
    let given = codes.map(|codes| read_codes(codes, header.shape)).transpose()?;
    let map = map_by(header.shape, header.side, &ground, given.as_deref(), &farms)?;
    Ok(lines(header, &ground, &map).concat())
}

/// The sheet under these settings; a refusal prints `refused 7 at 52` and nothing else.
pub fn sheet(text: &[u8], settings: Settings) -> String {
    sheet_by(text, None, Asked::One(settings))
}

/// The same of one farm or of two, under the directions of another text, if there is one.
pub fn sheet_by(text: &[u8], codes: Option<&[u8]>, asked: Asked) -> String {
    accepted(text, codes, asked).unwrap_or_else(|refusal| format!("{refusal}\n"))
}

#[cfg(test)]
mod tests {
    use super::*;
    use crate::rules::settings::{Channel, JOB, PRINTER};
    use crate::texts::cases::{Example, PIT};

    /// The printer's sheet.
    fn printed(text: &[u8]) -> String {
        sheet(text, PRINTER)
    }

    /// docs/RULES.md, 9 The printed sheet.
    #[test]
    fn sheet_of_the_pit() {
        let lines = "3 3 1000 9 2\n\
            0 0 500 500 2 1 7071 39424\n\
            0 1 500 500 4 1 5000 54379\n\
            0 2 500 500 4 1 5000 54379\n\
            1 0 500 500 1 1 5000 54379\n\
            1 1 200 400 1 6 0 0\n\
            1 2 400 400 0 9 5000 4810\n\
            2 0 500 500 128 1 7071 39424\n\
            2 1 500 500 64 1 5000 54379\n\
            2 2 500 500 64 1 5000 54379\n";
        assert_eq!(printed(PIT.as_bytes()), lines);
    }

    /// Of 9 cells each is a channel under 1 percent, so the job shows no length.
    #[test]
    fn sheet_of_the_pit_under_channels() {
        let lines = "3 3 1000 9 2\n\
            0 0 500 500 2 1 0 0\n\
            0 1 500 500 4 1 0 0\n\
            0 2 500 500 4 1 0 0\n\
            1 0 500 500 1 1 0 0\n\
            1 1 200 400 1 6 0 0\n\
            1 2 400 400 0 9 0 0\n\
            2 0 500 500 128 1 0 0\n\
            2 1 500 500 64 1 0 0\n\
            2 2 500 500 64 1 0 0\n";
        assert_eq!(sheet(PIT.as_bytes(), JOB), lines);
    }

    /// A culvert from the pit's bottom to the south: what is given decides, and a fall of 0 is steepness 0.
    #[test]
    fn sheet_under_given_directions() {
        let codes = |rows: &str| format!("ncols 3 nrows 3 xllcorner 7 yllcorner 7 cellsize 1 {rows}").into_bytes();
        let culvert = codes("0 0 0 1 1 0 0 0 0");
        let lines = "3 3 1000 9 2\n\
            0 0 500 500 0 1 5000 4810\n\
            0 1 500 500 0 1 5000 4810\n\
            0 2 500 500 0 1 5000 4810\n\
            1 0 500 500 1 1 5000 54379\n\
            1 1 200 400 1 2 0 0\n\
            1 2 400 400 0 3 5000 4810\n\
            2 0 500 500 0 1 5000 4810\n\
            2 1 500 500 0 1 5000 4810\n\
            2 2 500 500 0 1 5000 4810\n";
        assert_eq!(sheet_by(PIT.as_bytes(), Some(&culvert), Asked::One(PRINTER)), lines);
        let uphill = codes("0 0 0 1 64 0 0 0 0");
        assert_eq!(sheet_by(PIT.as_bytes(), Some(&uphill), Asked::One(PRINTER)), "refused 17 at 4\n");
        let ring = codes("0 0 0 1 1 16 0 0 0");
        assert_eq!(sheet_by(PIT.as_bytes(), Some(&ring), Asked::One(PRINTER)), "refused 18 at 4\n");
    }

    /// The pit of two farms: its bottom row is farm 1's, where every cell is a channel. Refusals of the field come before
    /// those of the marks, and those before the ones of the codes.
    #[test]
    fn sheet_of_two_farms() {
        let head = "ncols 3 nrows 3 xllcorner 0 yllcorner 0 cellsize 1 ";
        let shared = |text: &[u8], codes: Option<&[u8]>, marks: &str| {
            let (marks, second) = (format!("{head}{marks}"), Settings { channel: Channel::Cells(0), ..PRINTER });
            sheet_by(text, codes, Asked::Two { marks: marks.as_bytes(), settings: [PRINTER, second] })
        };
        let one: String = printed(PIT.as_bytes()).lines().take(7).map(|line| format!("{line}\n")).collect();
        let row = "2 0 500 500 128 1 0 0\n2 1 500 500 64 1 0 0\n2 2 500 500 64 1 0 0\n";
        assert_eq!(shared(PIT.as_bytes(), None, "0 0 0 0 0 0 1 1 1"), format!("{one}{row}"));
        assert_eq!(shared(PIT.as_bytes(), None, "0 0 0 0 0 0 1 2 1"), "refused 19 at 7\n");
        assert_eq!(shared(PIT.as_bytes(), Some(b"ncols"), "0 0 0 0"), "refused 9 at 58\n");
        assert_eq!(shared(PIT.as_bytes(), Some(b"ncols"), "0 0 0 0 0 0 1 2 1"), "refused 9 at 5\n");
        assert_eq!(shared(b"ncols ", Some(b"ncols"), "0 0 0 0"), "refused 9 at 6\n");
    }

    #[test]
    fn long_and_no_data_are_not_numbers() {
        assert_eq!(printed(&Example(1, 1, "609.60", "0").text()), "1 1 60960 1 0\n0 0 0 0 0 1 5000 10920\n");
        assert_eq!(printed(&Example(1, 1, "609.61", "0").text()), "1 1 60961 1 0\n0 0 0 0 0 1 5000 long\n");
        assert_eq!(printed(&Example(1, 1, "10", "-9999").text()), "1 1 1000 0 0\n0 0 - - - - - -\n");
    }

    #[test]
    fn refusals_alone() {
        assert_eq!(printed(b""), "refused 9 at 0\n");
        assert_eq!(printed(&Example(1, 1, "10", "12,5").text()), "refused 12 at 54\n");
        assert_eq!(printed(&[b' '; MOST_BYTES + 1]), "refused 11 at 32768\n");
        assert_eq!(printed(&Example(64, 33, "10", "?").text()), "refused 11 at 0\n");
    }
}
