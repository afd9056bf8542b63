//! The reader of text grids: words, header, heights and their refusals. States docs/RULES.md, 2 The text.

use super::grid::{Shape, HIGHEST, LARGEST_SIDE, LOWEST, MOST_ROWS, NODATA};
use super::number::{judge, value, Form, Number};
use super::refusal::{self, refuse, Refusal};

/// What a reader call answers: rows and columns, side and NoData number in cm.
#[derive(Clone, Copy, Debug, PartialEq, Eq)]
pub struct Header {
    pub shape: Shape,
    pub side: i64,
    pub nodata: i64,
}

/// Where a corner word stands in the text: its first byte and its length.
#[derive(Clone, Copy, Debug, PartialEq, Eq)]
pub struct Span {
    pub first: usize,
    pub length: usize,
}

impl Span {
    /// The word that stands there.
    pub fn of(self, text: &[u8]) -> &[u8] {
        &text[self.first..self.first + self.length]
    }
}

/// The NoData number where the header has none, in cm.
const USUAL_NODATA: i64 = -999_900;

/// A word and the offset of its first byte.
struct Word<'a> {
    place: usize,
    bytes: &'a [u8],
}

/// Words are read left to right, each from where the last ended.
#[derive(Clone)]
struct Words<'a> {
    text: &'a [u8],
    at: usize,
}

/// Blanks are space, tab, CR, LF.
fn blank(byte: u8) -> bool {
    matches!(byte, b' ' | b'\t' | b'\r' | b'\n')
}

impl<'a> Words<'a> {
    fn of(text: &'a [u8]) -> Words<'a> {
        Words { text, at: 0 }
    }

    /// The next word: a longest run of other bytes.
    fn next(&mut self) -> Option<Word<'a>> {
        let text = self.text;
        let place = (self.at..text.len()).find(|&at| !blank(text[at]))?;
        let end = (place..text.len()).find(|&at| blank(text[at])).unwrap_or(text.len());
        self.at = end;
        Some(Word { place, bytes: &text[place..end] })
    }

    /// The next word; 9, text ends too early, at the text length.
    fn wanted(&mut self) -> Result<Word<'a>, Refusal> {
        let length = self.text.len();
        self.next().map_or(refuse(refusal::ENDS, length), Ok)
    }

    /// 6, header word not the expected one; letter case is ignored.
    fn name(&mut self, expected: &str) -> Result<(), Refusal> {
        let word = self.wanted()?;
        if word.bytes.eq_ignore_ascii_case(expected.as_bytes()) {
            return Ok(());
        }
        refuse(refusal::NAME, word.place)
    }

    /// The next word in the form that its position wants.
    fn right(&mut self, form: Form) -> Result<Word<'a>, Refusal> {
        let word = self.wanted()?;
        judge(word.place, word.bytes, form).map(|()| word)
    }

    /// 1, rows or columns 0 or above 1,024.
    fn count(&mut self) -> Result<usize, Refusal> {
        let word = self.right(Form::Count)?;
        let count = value(word.bytes) as usize;
        if count == 0 || count > MOST_ROWS {
            return refuse(refusal::SHAPE, word.place);
        }
        Ok(count)
    }

    /// Corner numbers are checked for form only; the header call tells each one's first byte and length.
    fn corner(&mut self) -> Result<Span, Refusal> {
        self.right(Form::Number).map(|word| Span { first: word.place, length: word.bytes.len() })
    }

    /// Cell side, NoData and heights become cm exactly: form, then fineness. Place and cm.
    fn centimetres(&mut self) -> Result<(usize, i64), Refusal> {
        let word = self.right(Form::Number)?;
        let cm = Number::of(word.bytes).centimetres();
        cm.map_or(refuse(refusal::FINE, word.place), |cm| Ok((word.place, cm)))
    }

    /// 3, cell side out of range.
    fn side(&mut self) -> Result<i64, Refusal> {
        let (place, cm) = self.centimetres()?;
        if cm < 1 || cm > LARGEST_SIDE {
            return refuse(refusal::SIDE, place);
        }
        Ok(cm)
    }

    /// Optionally nodata_value and its number; an eleventh word that begins with a letter must be nodata_value.
    fn nodata(&mut self) -> Result<i64, Refusal> {
        let eleventh = self.clone().next();
        if !eleventh.is_some_and(|word| word.bytes[0].is_ascii_alphabetic()) {
            return Ok(USUAL_NODATA);
        }
        self.name("nodata_value")?;
        Ok(self.centimetres()?.1)
    }

    /// A height equal to the NoData number is NoData and becomes -999,900; that test precedes the range.
    fn height(&mut self, nodata: i64) -> Result<i32, Refusal> {
        let (place, cm) = self.centimetres()?;
        if cm == nodata {
            return Ok(NODATA);
        }
        if cm < LOWEST || cm > HIGHEST {
            return refuse(refusal::HEIGHT, place);
        }
        Ok(cm as i32)
    }

    /// The header: ncols, nrows, xllcorner, yllcorner, cellsize in that order, each followed by its number.
    fn header(&mut self) -> Result<(Header, [Span; 2]), Refusal> {
        self.name("ncols")?;
        let columns = self.count()?;
        self.name("nrows")?;
        let rows = self.count()?;
        self.name("xllcorner")?;
        let x = self.corner()?;
        self.name("yllcorner")?;
        let y = self.corner()?;
        self.name("cellsize")?;
        let side = self.side()?;
        let nodata = self.nodata()?;
        Ok((Header { shape: Shape { rows, columns }, side, nodata }, [x, y]))
    }

    /// 10, a word after what is read.
    fn end(&mut self) -> Result<(), Refusal> {
        self.next().map_or(Ok(()), |word| refuse(refusal::AFTER, word.place))
    }
}

/// Reads the header alone, tells where the two corner words stand, and judges nothing after it.
pub fn read_header(text: &[u8]) -> Result<(Header, [Span; 2]), Refusal> {
    Words::of(text).header()
}

/// Reads a header that stands alone in its text.
pub fn read_lone_header(text: &[u8]) -> Result<Header, Refusal> {
    let mut words = Words::of(text);
    let (header, _) = words.header()?;
    words.end().map(|()| header)
}

/// Reads the whole text into lent heights. The lent length is tested right after the header, and a refusal changes no
/// lent grid.
pub fn read_grid(text: &[u8], lent: &mut [i32]) -> Result<Header, Refusal> {
    let mut words = Words::of(text);
    let (header, _) = words.header()?;
    if lent.len() != header.shape.cells() {
        return refuse(refusal::LENT, 0);
    }
    let heights = (0..lent.len()).map(|_| words.height(header.nodata)).collect::<Result<Vec<i32>, Refusal>>()?;
    words.end()?;
    lent.copy_from_slice(&heights);
    Ok(header)
}

#[cfg(test)]
mod tests {
    use super::*;
    use crate::texts::cases::{Example, PIT};

    /// The refusal of a text, as number and place.
    fn refused(text: &[u8]) -> (u32, usize) {
        read_header(text).map_err(|Refusal { number, place }| (number, place)).unwrap_err()
    }

    /// docs/RULES.md, 8 Small fields.
    #[test]
    fn heights() {
        let height = |word| {
            let mut lent = [0];
            read_grid(&Example(1, 1, "10", word).text(), &mut lent).map(|_| lent[0])
        };
        let refused = |number, place| Err(Refusal { number, place });
        assert_eq!((height("12.5000"), height("-0"), height("12.505")), (Ok(1_250), Ok(0), refused(8, 52)));
        assert_eq!([".5", "+5"].map(height), [refused(7, 52); 2]);
        assert_eq!((height("12,5"), height("5.")), (refused(12, 54), refused(7, 54)));
        assert_eq!((height("-500"), height("-9999")), (Ok(LOWEST as i32), Ok(NODATA)));
        assert_eq!(height("-500.01"), refused(5, 52));
    }

    /// The text of one cell up to the word of an index, without a blank after it, and the place of that word.
    fn cut_at(index: usize, word: &str) -> (Vec<u8>, usize) {
        let words = "ncols 1 nrows 1 xllcorner 0 yllcorner 0 cellsize 10 nodata_value 0 5";
        let before: String = words.split(' ').take(index).flat_map(|word| [word, " "]).collect();
        (format!("{before}{word}").into_bytes(), before.len())
    }

    /// A number is judged in the form that its position wants, at the end of the text too.
    #[test]
    fn positions() {
        let refused = |index: usize, word: &str| {
            let (mut text, place) = cut_at(index, word);
            let at_end = read_grid(&text, &mut [0]).unwrap_err();
            text.extend(b"\nnrows");
            assert_eq!(read_grid(&text, &mut [0]), Err(at_end), "{word}");
            (at_end.number, at_end.place - place)
        };
        for index in [1, 3] {
            assert_eq!(["5.0", "1,5", "-5", "5,"].map(|word| refused(index, word)), [(7, 1), (7, 1), (7, 0), (7, 1)]);
        }
        for index in [5, 7, 9, 11, 12] {
            assert_eq!(["12,5", "-0,505"].map(|word| refused(index, word)), [(12, 2), (12, 2)]);
            assert_eq!(["5.", "-", "1,2,3", "+5"].map(|word| refused(index, word)), [(7, 2), (7, 1), (7, 1), (7, 0)]);
        }
    }

    #[test]
    fn headers() {
        assert_eq!((refused(b""), refused(b" \n"), refused(b"ncols 0")), ((9, 0), (9, 2), (1, 6)));
        assert_eq!((refused(b"ncols 3 nro"), refused(b"ncols 3 nrows")), ((6, 8), (9, 13)));
        let header = b"NCOLS 2\r\nnRows\t003 xllcorner 0.5 yllcorner -1 cellsize 1.25 NODATA_value -0.01 ?";
        let read = Header { shape: Shape { rows: 3, columns: 2 }, side: 125, nodata: -1 };
        let corners = [Span { first: 29, length: 3 }, Span { first: 43, length: 2 }];
        assert_eq!(read_header(header), Ok((read, corners)));
        assert_eq!(corners.map(|span| span.of(header)), [&b"0.5"[..], b"-1"]);
    }

    /// The lent length is tested right after the header; a refusal changes no lent grid.
    #[test]
    fn lent_heights() {
        let mut lent = [7; 3];
        let mut refused = |text: &[u8]| read_grid(text, &mut lent).map_err(|Refusal { number, place }| (number, place));
        assert_eq!(refused(PIT.as_bytes()), Err((2, 0)));
        assert_eq!(refused(&Example(3, 1, "10", "1 2 x").text()), Err((7, 56)));
        assert_eq!(refused(&Example(3, 1, "10", "1 2 3 4").text()), Err((10, 58)));
        assert_eq!(lent, [7; 3]);
    }
}
