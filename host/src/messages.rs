//! A refusal in words: where it stands in the text, what stands there, and what was expected.

use crate::library::{Header, Refusal};
use crate::number::Word;

/// What the header's next word is; the end is what may follow the header.
macro_rules! names {
    ($end:literal) => {
        concat!(
            "expected the header's next word: ncols, nrows, xllcorner, yllcorner, cellsize, then nodata_value or ",
            $end
        )
    };
}

/// What a text is: a whole grid of heights; a header alone, whose heights are floats in another file; or a whole grid of
/// given directions, or of the farms' marks.
#[derive(Clone, Copy)]
pub enum Text {
    Grid,
    Header,
    Codes,
    Marks,
}

impl Text {
    /// What the cells have.
    pub fn cells(self) -> &'static str {
        match self {
            Text::Grid | Text::Header => "heights",
            Text::Codes => "codes",
            Text::Marks => "marks",
        }
    }
}

/// What refusals 1 to 10 of the text's calls expect, as docs/RULES.md 3 has them; of 7 and 12 the word itself tells it.
pub fn expected(number: u32) -> &'static str {
    match number {
        1 => "the number of rows and the number of columns are each from 1 to 1024",
        3 => "the cell side is from 0.01 to 1000 m",
        5 => "a height is from -500 to 9000 m, or equals the NoData number",
        6 => names!("the heights"),
        8 => "a number is whole in cm: a digit after the second decimal has to be 0",
        9 => "the text ends too early: a word is missing here",
        10 => "nothing may follow the last height",
        _ => "a lent grid has the wrong length, which is a fault of lsmap",
    }
}

/// The same of a header alone.
fn expected_alone(number: u32) -> &'static str {
    match number {
        6 => names!("the end"),
        10 => "nothing may follow the header, for the heights are floats in a file of their own",
        _ => expected(number),
    }
}

/// The same of given directions.
fn expected_codes(number: u32) -> &'static str {
    match number {
        5 => "a code is a whole number from 0 to 255, or equals the NoData number",
        6 => names!("the codes"),
        8 => "a digit after the second decimal has to be 0",
        10 => "nothing may follow the last code",
        _ => expected(number),
    }
}

/// The same of marks; of their decimals as of those of codes.
fn expected_marks(number: u32) -> &'static str {
    match number {
        5 => "a mark is 0 or 1",
        6 => names!("the marks"),
        10 => "nothing may follow the last mark",
        _ => expected_codes(number),
    }
}

/// A cell's row and column, both from 0.
pub fn cell_name(cell: usize, header: Header) -> String {
    format!("row {}, column {}", cell / header.columns, cell % header.columns)
}

/// A number of cm as metres.
pub fn metres(cm: i64) -> String {
    let sign = if cm < 0 { "-" } else { "" };
    format!("{sign}{}.{:02}", cm.unsigned_abs() / 100, cm.unsigned_abs() % 100)
}

/// Line and column of a place, both from 1, the column in bytes.
fn line_and_column(text: &[u8], place: usize) -> (usize, usize) {
    let before = &text[..place.min(text.len())];
    let line = before.iter().filter(|b| **b == b'\n').count() + 1;
    let column = before.iter().rev().take_while(|b| **b != b'\n').count() + 1;
    (line, column)
}

/// How the place lies to the word that is refused, and the start of that word as it may be shown.
fn shown(text: &[u8], refusal: Refusal) -> String {
    if refusal.number == 9 {
        return "at the end of the text".to_string();
    }
    let word = Word::around(text, refusal.place);
    let more = if word.bytes.len() > 24 { ".." } else { "" };
    let bytes = word.bytes[..word.bytes.len().min(24)].escape_ascii();
    match word.byte() {
        Some(_) => format!("at `{bytes}{more}`"),
        None if refusal.place == text.len() => format!("after `{bytes}{more}`, at the end of the text"),
        None => format!("after `{bytes}{more}`"),
    }
}

/// Whether a text begins with a byte order mark, of UTF-8 or of UTF-16.
fn is_marked(text: &[u8]) -> bool {
    let marks: [&[u8]; 3] = [b"\xef\xbb\xbf", b"\xff\xfe", b"\xfe\xff"];
    marks.iter().any(|mark| text.starts_with(mark))
}

/// What is likely behind a refusal, where its number and the bytes there tell.
fn hint(text: &[u8], refusal: Refusal, header: Option<Header>, kind: Text) -> String {
    match (refusal.number, header) {
        (6, _) if refusal.place == 0 && is_marked(text) => {
            "; the text begins with a byte order mark: save it as plain text without one".to_string()
        }
        (9 | 10, Some(h)) => format!("; the header asks for {} rows of {} {}", h.rows, h.columns, kind.cells()),
        (9, None) if text.is_empty() => "; the text is empty".to_string(),
        _ => String::new(),
    }
}

/// The same of a header alone: some programs write a line `byteorder`.
fn hint_alone(text: &[u8], refusal: Refusal) -> String {
    let is_order = Word::around(text, refusal.place).bytes.eq_ignore_ascii_case(b"byteorder");
    match refusal.number {
        6 if refusal.place == 0 && is_order => "; docs/FROM-GIS.md makes this header of GDAL's own".to_string(),
        6 | 10 if is_order => "; leave the line out: floats are little-endian here".to_string(),
        10 => String::new(),
        _ => hint(text, refusal, None, Text::Header),
    }
}

/// The message for a refusal of the text; the header is there where the header call accepted.
pub fn of_text(text: &[u8], refusal: Refusal, header: Option<Header>, kind: Text) -> String {
    let Refusal { number, place } = refusal;
    if number == 2 {
        return format!("refused {number} at {place}: {}", expected(number));
    }
    let (line, column) = line_and_column(text, place);
    let why = match (number, kind) {
        (7, _) => Word::around(text, place).fault(),
        (12, _) => Word::around(text, place).comma(),
        (_, Text::Grid) => format!("{}{}", expected(number), hint(text, refusal, header, kind)),
        (_, Text::Codes) => format!("{}{}", expected_codes(number), hint(text, refusal, header, kind)),
        (_, Text::Marks) => format!("{}{}", expected_marks(number), hint(text, refusal, header, kind)),
        (_, Text::Header) => format!("{}{}", expected_alone(number), hint_alone(text, refusal)),
    };
    format!("refused {number} at {place} (line {line}, column {column}, {}): {why}", shown(text, refusal))
}

/// What the setting at a place of refusal 4 takes: 1, 2, 3 and 7 are those of one farm or of farm 0, the others farm 1's.
fn setting(place: usize, farms: bool) -> String {
    let (whose, number) = match (place, farms) {
        (1 | 2 | 3 | 7, true) => ("farm 0's ", ""),
        (1 | 2 | 3 | 7, false) => ("", ""),
        _ => ("farm 1's ", "1"),
    };
    match place {
        1 | 4 => format!("{whose}--low{number} is a cutoff: 0.00, 0.01 and so on up to 1.00"),
        2 | 5 => format!("{whose}--high{number} is a cutoff: 0.00, 0.01 and so on up to 1.00"),
        3 | 6 => format!("{whose}--channel{number} percent:P takes 0.0, 0.1 and so on up to 100.0"),
        _ => format!("{whose}--steepness{number} takes older or newer"),
    }
}

/// The message for a refusal of the map call, of one farm or of two, whose place is a setting or a cell.
pub fn of_map(refusal: Refusal, header: Header, farms: bool) -> String {
    let Refusal { number, place } = refusal;
    let what = match (number, place) {
        (4, place) => setting(place, farms),
        (5, cell) => format!("{}: {}", cell_name(cell, header), expected(5)),
        _ => expected(number).to_string(),
    };
    format!("refused {number} at {place}: {what}")
}

/// The message for a refusal of a write call. What lsmap hands on there was accepted before, so the fault is its own.
pub fn of_write(refusal: Refusal) -> String {
    let Refusal { number, place } = refusal;
    let what = match (number, place) {
        (7, 1) => "the word handed on for xllcorner is no number",
        (7, _) => "the word handed on for yllcorner is no number",
        (13, _) => "the text is longer than the room for it",
        _ => expected(number),
    };
    format!("refused {number} at {place}: {what}; that should not happen and is a fault of lsmap")
}

/// The message for a refusal of a call for reports. Only a map that was accepted is added: all but 16 is lsmap's fault.
pub fn of_report(refusal: Refusal) -> String {
    let Refusal { number, place } = refusal;
    let what = match number {
        16 => "with it a total, the number of maps or the map of the greatest LS would no longer fit 64 bits",
        _ => "the map's own shape, settings or marks are not taken, which is a fault of lsmap",
    };
    format!("refused {number} at {place}: {what}")
}

#[cfg(test)]
mod tests {
    use super::*;

    const HEADER_LINE: &str = "ncols 3 nrows 1 xllcorner 0 yllcorner 0 cellsize 10\n";
    const ONE_ROW: Header = Header { rows: 1, columns: 3, side: 1000, no_data: -999_900 };

    fn message(text: &[u8], number: u32, place: usize) -> String {
        of_text(text, Refusal { number, place }, None, Text::Grid)
    }

    fn message_alone(text: &[u8], number: u32, place: usize) -> String {
        of_text(text, Refusal { number, place }, None, Text::Header)
    }

    #[test]
    fn a_place_is_told_as_line_and_column() {
        assert!(
            message(b"ncols 3\nnrows x\n", 7, 14)
                .starts_with("refused 7 at 14 (line 2, column 7, at `x`): expected a digit, not `x`; ncols and nrows")
        );
        assert!(
            message(b"", 9, 0)
                .starts_with("refused 9 at 0 (line 1, column 1, at the end of the text): the text ends too early")
        );
        assert!(message(b"ncols\n", 9, 6).contains("(line 2, column 1, at the end of the text)"));
    }

    #[test]
    fn a_word_is_shown_short_and_in_letters() {
        assert!(message(&[b'7'; 1000], 6, 0).contains("at `777777777777777777777777..`)"));
        assert!(message(b"a\x00\xff`\tb", 6, 0).contains("at `a\\x00\\xff``)"));
    }

    #[test]
    fn a_comma_decimal_says_what_to_write() {
        let text = format!("{HEADER_LINE}12,5 2 3\n");
        let said = "refused 12 at 54 (line 2, column 3, at `12,5`): a comma stands where a point belongs: write `12.5`";
        assert_eq!(message(text.as_bytes(), 12, 54), said);
    }

    #[test]
    fn the_whole_word_is_shown_where_it_breaks() {
        let said = |heights: &str, place| message(format!("{HEADER_LINE}{heights}").as_bytes(), 7, place);
        assert!(
            said("1e3 2 3\n", 53)
                .starts_with("refused 7 at 53 (line 2, column 2, at `1e3`): expected a digit, a point or the end of")
        );
        assert!(said("5.\n2 3\n", 54).contains("(line 2, column 3, after `5.`): the word stops too soon: expected a"));
        assert!(said("1 2 -", 57).contains("(line 2, column 6, after `-`, at the end of the text): the word stops"));
        assert!(said(&"7".repeat(1000), 61).contains("column 10, at `777777777777777777777777..`): expected a point"));
    }

    #[test]
    fn marks_and_empty_texts_get_a_hint() {
        for text in [&b"\xef\xbb\xbfncols"[..], b"\xff\xfen\0", b"\xfe\xff\0n"] {
            assert!(message(text, 6, 0).contains("begins with a byte order mark"));
        }
        assert!(message(b"", 9, 0).ends_with("; the text is empty"));
    }

    #[test]
    fn what_the_header_asks_for_is_told() {
        for number in [9, 10] {
            let said = of_text(b"", Refusal { number, place: 0 }, Some(ONE_ROW), Text::Grid);
            assert!(said.ends_with("; the header asks for 1 rows of 3 heights"), "{said}");
        }
    }

    #[test]
    fn a_header_alone_has_no_heights() {
        let text = format!("{HEADER_LINE}5 5 5");
        let said =
            "refused 10 at 52 (line 2, column 1, at `5`): nothing may follow the header, for the heights are floats in";
        assert!(message_alone(text.as_bytes(), 10, 52).starts_with(said));
        assert!(message_alone(b"", 9, 0).ends_with("; the text is empty"));
        assert!(message_alone(b"ncols 3\nrows", 6, 8).ends_with("cellsize, then nodata_value or the end"));
        assert!(message_alone(b"\xef\xbb\xbfncols", 6, 0).contains("begins with a byte order mark"));
        let said = "refused 12 at 7 (line 1, column 8, at `3,5`): a comma stands where a point belongs: write `3.5`";
        assert_eq!(message_alone(b"ncols 3,5", 12, 7), said);
    }

    #[test]
    fn given_directions_have_codes() {
        let said = |number, header| of_text(b"x", Refusal { number, place: 0 }, header, Text::Codes);
        assert!(said(5, None).ends_with(
            "(line 1, column 1, at `x`): a code is a whole number from 0 to 255, or equals the NoData number"
        ));
        assert!(said(6, None).ends_with("cellsize, then nodata_value or the codes"));
        assert!(said(8, None).ends_with("): a digit after the second decimal has to be 0"));
        assert!(
            said(10, Some(ONE_ROW))
                .ends_with("nothing may follow the last code; the header asks for 1 rows of 3 codes")
        );
        assert!(said(3, None).ends_with("the cell side is from 0.01 to 1000 m"));
    }

    #[test]
    fn farms_have_marks() {
        let said = |number, header| of_text(b"x", Refusal { number, place: 0 }, header, Text::Marks);
        assert!(said(5, None).ends_with("(line 1, column 1, at `x`): a mark is 0 or 1"));
        assert!(said(6, None).ends_with("cellsize, then nodata_value or the marks"));
        assert!(said(8, None).ends_with("): a digit after the second decimal has to be 0"));
        assert!(said(9, Some(ONE_ROW)).ends_with("; the header asks for 1 rows of 3 marks"));
        assert!(said(10, None).ends_with("nothing may follow the last mark"));
        assert!(said(3, None).ends_with("the cell side is from 0.01 to 1000 m"));
    }

    #[test]
    fn the_byte_order_of_other_headers_gets_a_hint() {
        let text = format!("{HEADER_LINE}byteorder LSBFIRST");
        for number in [6, 10] {
            let said = message_alone(text.as_bytes(), number, 52);
            assert!(said.ends_with("; leave the line out: floats are little-endian here"), "{said}");
        }
        assert!(
            message_alone(b"BYTEORDER      I", 6, 0).ends_with("; docs/FROM-GIS.md makes this header of GDAL's own")
        );
    }

    #[test]
    fn settings_and_cells_are_named() {
        let said = |number, place| of_map(Refusal { number, place }, ONE_ROW, false);
        assert!(said(4, 1).starts_with("refused 4 at 1: --low is a cutoff"));
        assert!(said(4, 2).starts_with("refused 4 at 2: --high is a cutoff"));
        assert!(said(4, 3).starts_with("refused 4 at 3: --channel percent:P takes"));
        assert_eq!(said(4, 7), "refused 4 at 7: --steepness takes older or newer");
        assert!(said(5, 5).starts_with("refused 5 at 5: row 1, column 2: a height is"));
        assert!(said(2, 0).starts_with("refused 2 at 0: a lent grid has the wrong length"));
    }

    #[test]
    fn the_settings_of_two_farms_are_named() {
        let said = |place| of_map(Refusal { number: 4, place }, ONE_ROW, true);
        for (place, words) in [
            (1, "farm 0's --low is a cutoff: 0.00, 0.01 and so on"),
            (2, "farm 0's --high is a cutoff"),
            (3, "farm 0's --channel percent:P takes 0.0, 0.1 and"),
            (4, "farm 1's --low1 is a cutoff: 0.00, 0.01 and so on"),
            (5, "farm 1's --high1 is a cutoff"),
            (6, "farm 1's --channel1 percent:P takes 0.0, 0.1 and"),
            (7, "farm 0's --steepness takes older or newer"),
            (8, "farm 1's --steepness1 takes older or newer"),
        ] {
            assert!(said(place).starts_with(&format!("refused 4 at {place}: {words}")), "{place}: {}", said(place));
        }
    }

    #[test]
    fn a_text_that_is_not_written_is_a_fault_of_lsmap() {
        let said = |number, place| of_write(Refusal { number, place });
        assert!(
            said(7, 1).starts_with("refused 7 at 1: the word handed on for xllcorner is no number; that should not")
        );
        assert!(said(7, 2).starts_with("refused 7 at 2: the word handed on for yllcorner is no number;"));
        assert!(said(13, 0).starts_with("refused 13 at 0: the text is longer than the room for it;"));
        assert!(said(5, 8).starts_with("refused 5 at 8: a height is from -500 to 9000 m"));
        assert!([1, 2, 3, 5, 7, 13].iter().all(|&number| said(number, 0).ends_with("is a fault of lsmap")));
    }

    #[test]
    fn a_report_that_is_full_is_told() {
        let said = |number| of_report(Refusal { number, place: 0 });
        assert!(
            said(16).starts_with("refused 16 at 0: with it a total, the number of maps or the map of the greatest LS")
        );
        assert!([1, 2, 4, 19].iter().all(|&number| said(number).ends_with("which is a fault of lsmap")));
    }
}
