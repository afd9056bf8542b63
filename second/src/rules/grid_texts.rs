//! The five grids of a field's map that have a text, given back as texts. Serves docs/RULES.md, 10 The text that is
//! written, and 11 Grids of floats.

use super::farms::{Asked, Farms};
use super::float_grid::read_floats;
use super::given::read_codes;
use super::map::{map_by, Map};
use super::refusal::Refusal;
use super::settings::Settings;
use super::text::{read_grid, read_header, Header, Span};
use super::write::{room, write, Frame, Numbers};

/// The names of the grids.
pub const NAMES: [&str; 5] = ["ground", "filled", "count", "ls", "direction"];

/// The texts of the grids, in the order of the names.
pub type Texts = [Vec<u8>; 5];

/// A field as it was read, its corner words as they stand in the text that was read, its farms and its map.
pub struct Mapped<'a> {
    pub header: Header,
    pub corners: [&'a [u8]; 2],
    pub ground: Vec<i32>,
    pub farms: Farms,
    pub map: Map,
}

fn written(frame: Frame, grid: Numbers) -> Result<Vec<u8>, Refusal> {
    let mut text = vec![0; room(frame.shape)];
    let length = write(frame, grid, &mut text)?;
    text.truncate(length);
    Ok(text)
}

impl Mapped<'_> {
    /// The texts of the grids.
    pub fn texts(&self) -> Result<Texts, Refusal> {
        let Mapped { header, corners, ground, map, .. } = self;
        let frame = Frame { shape: header.shape, side: header.side, corners: *corners };
        Ok([
            written(frame, Numbers::Heights(ground))?,
            written(frame, Numbers::Heights(&map.filled))?,
            written(frame, Numbers::Counts(&map.count))?,
            written(frame, Numbers::Factors(&map.factor))?,
            written(frame, Numbers::Codes(&map.flow.direction))?,
        ])
    }
}

/// What a map is made of: a field as a text, or as a header with its floats; the text of given directions, if there is one;
/// and the settings, with the marks of two farms.
#[derive(Clone, Copy)]
pub struct Sources<'a> {
    pub text: &'a [u8],
    pub floats: Option<&'a [u8]>,
    pub codes: Option<&'a [u8]>,
    pub farms: Asked<'a>,
}

impl<'a> Sources<'a> {
    /// The text of a field of one farm, with nothing beside it.
    pub fn alone(text: &'a [u8], settings: Settings) -> Sources<'a> {
        Sources { text, floats: None, codes: None, farms: Asked::One(settings) }
    }
}

/// The texts of the grids of a text's field.
pub fn grid_texts(text: &[u8], settings: Settings) -> Result<Texts, Refusal> {
    mapped(Sources::alone(text, settings))?.texts()
}

/// The same of a header and its floats.
pub fn float_grid_texts(header: &[u8], floats: &[u8], settings: Settings) -> Result<Texts, Refusal> {
    mapped(Sources { floats: Some(floats), ..Sources::alone(header, settings) })?.texts()
}

/// The map of a field. The field is read first, then the marks, then the codes, then the map call judges them.
pub fn mapped(sources: Sources) -> Result<Mapped, Refusal> {
    let Sources { text, floats, codes, farms } = sources;
    let (header, corners) = read_header(text)?;
    let mut ground = vec![0; header.shape.cells()];
    match floats {
        None => read_grid(text, &mut ground)?,
        Some(floats) => read_floats(text, floats, &mut ground)?,
    };
    let farms = farms.read(header.shape)?;
    let given = codes.map(|codes| read_codes(codes, header.shape)).transpose()?;
    let map = map_by(header.shape, header.side, &ground, given.as_deref(), &farms)?;
    Ok(Mapped { header, corners: corners.map(|span: Span| span.of(text)), ground, farms, map })
}

#[cfg(test)]
mod tests {
    use super::*;
    use crate::rules::settings::PRINTER;

    #[test]
    fn texts_of_the_pit() {
        let pit = b"NCOLS 3\tnrows 03 xllcorner -12.500000 yllcorner\r\n-0 cellsize 10\n5 5 5\n5 2 4\n5 5 5\n";
        let header = "ncols 3\nnrows 3\nxllcorner -12.500000\nyllcorner -0\ncellsize 10.00\nnodata_value -9999\n";
        let rows = [
            "5.00 5.00 5.00\n5.00 2.00 4.00\n5.00 5.00 5.00\n",
            "5.00 5.00 5.00\n5.00 4.00 4.00\n5.00 5.00 5.00\n",
            "1 1 1\n1 6 9\n1 1 1\n",
            "0.39424 0.54379 0.54379\n0.54379 0.00000 0.04810\n0.39424 0.54379 0.54379\n",
            "2 4 4\n1 1 0\n128 64 64\n",
        ];
        assert_eq!(grid_texts(pit, PRINTER), Ok(rows.map(|rows| [header, rows].concat().into_bytes())));
    }

    /// The pit's own directions written, read and given back; and the field's refusal before that of the codes.
    #[test]
    fn directions_given_back() {
        let pit = b"ncols 3 nrows 3 xllcorner 0 yllcorner 0 cellsize 10\n5 5 5\n5 2 4\n5 5 5\n";
        let texts = grid_texts(pit, PRINTER).expect("the pit is accepted");
        fn under<'a>(text: &'a [u8], codes: &'a [u8]) -> Result<Mapped<'a>, Refusal> {
            mapped(Sources { codes: Some(codes), ..Sources::alone(text, PRINTER) })
        }
        assert_eq!(under(pit, &texts[4]).and_then(|mapped| mapped.texts()), Ok(texts));
        let refused = |text: &[u8], codes: &[u8]| {
            under(text, codes).err().map(|Refusal { number, place }| (number, place))
        };
        assert_eq!(refused(b"ncols 3", b""), Some((9, 7)));
        assert_eq!(refused(pit, b""), Some((9, 0)));
        assert_eq!(refused(pit, pit), Some((17, 0)));
    }
}
