//! Fields written as texts, in all the spellings that docs/RULES.md, 2 The text, allows.

use super::fields::Field;
use super::seed::Seed;
use crate::rules::sheet::MOST_BYTES;

/// How a text is written.
#[derive(Clone, Copy, PartialEq, Eq)]
pub enum Manner {
    /// Shortest numbers, one blank between words.
    Plain,
    /// Zeros before and after, minus zero, names in any case, any blanks.
    Mixed,
}

/// The number of metres, shortest.
fn shortest(cm: i64) -> String {
    let sign = if cm < 0 { "-" } else { "" };
    let (whole, rest) = (cm.abs() / 100, cm.abs() % 100);
    match rest {
        0 => format!("{sign}{whole}"),
        _ if rest % 10 == 0 => format!("{sign}{whole}.{}", rest / 10),
        _ => format!("{sign}{whole}.{rest:02}"),
    }
}

/// The same number with zeros that say nothing.
fn with_zeros(seed: &mut Seed, number: String) -> String {
    let (sign, digits) = number.strip_prefix('-').map_or(("", &number[..]), |digits| ("-", digits));
    let (whole, decimals) = digits.split_once('.').unwrap_or((digits, ""));
    let before = "0".repeat(seed.below(10 - whole.len()));
    let after = "0".repeat(seed.below(7 - decimals.len()));
    let point = if decimals.is_empty() && after.is_empty() { "" } else { "." };
    format!("{sign}{before}{whole}{point}{decimals}{after}")
}

/// A spelling of a number of metres given in cm.
fn metres(seed: &mut Seed, manner: Manner, cm: i64) -> Vec<u8> {
    let number = shortest(cm);
    if manner == Manner::Plain || !seed.once_in(3) {
        return number.into_bytes();
    }
    let number = if cm == 0 && seed.once_in(2) { "-0".to_string() } else { number };
    with_zeros(seed, number).into_bytes()
}

/// A spelling of a count.
fn count(seed: &mut Seed, manner: Manner, count: usize) -> Vec<u8> {
    let digits = count.to_string();
    if manner == Manner::Plain || !seed.once_in(3) {
        return digits.into_bytes();
    }
    let before = "0".repeat(seed.below(10 - digits.len()));
    format!("{before}{digits}").into_bytes()
}

/// Letter case is ignored.
fn name(seed: &mut Seed, manner: Manner, name: &str) -> Vec<u8> {
    let kind = if manner == Manner::Plain { 0 } else { seed.below(4) };
    let letter = |letter: u8, seed: &mut Seed| match kind {
        1 => letter.to_ascii_uppercase(),
        2 if seed.once_in(2) => letter.to_ascii_uppercase(),
        _ => letter,
    };
    name.bytes().map(|byte| letter(byte, seed)).collect()
}

/// A corner number: any number of good form.
fn corner(seed: &mut Seed, manner: Manner) -> Vec<u8> {
    let corners = ["0", "-0", "123456789.654321", "-999999999.999999", "12.505", "5.0", "000"];
    let choice = if manner == Manner::Plain { 0 } else { seed.below(corners.len()) };
    corners[choice].as_bytes().to_vec()
}

/// The words of a field's text: ten, the NoData pair if given, then the heights.
pub fn words(seed: &mut Seed, manner: Manner, field: &Field) -> Vec<Vec<u8>> {
    let mut words = vec![
        name(seed, manner, "ncols"),
        count(seed, manner, field.shape.columns),
        name(seed, manner, "nrows"),
        count(seed, manner, field.shape.rows),
        name(seed, manner, "xllcorner"),
        corner(seed, manner),
        name(seed, manner, "yllcorner"),
        corner(seed, manner),
        name(seed, manner, "cellsize"),
        metres(seed, manner, field.side),
    ];
    if let Some(number) = field.nodata {
        words.push(name(seed, manner, "nodata_value"));
        words.push(metres(seed, manner, number));
    }
    let number = field.nodata.unwrap_or(-999_900);
    words.extend(field.heights.iter().map(|height| metres(seed, manner, height.unwrap_or(number))));
    words
}

/// A text and the place of each of its words.
pub struct Text {
    pub bytes: Vec<u8>,
    pub places: Vec<usize>,
}

/// Blanks between two words.
fn blanks(seed: &mut Seed, style: usize, ends_row: bool) -> &'static [u8] {
    let ragged: [&[u8]; 8] = [b" ", b"\t", b"\n", b"\r\n", b"\r", b"  ", b" \n\n", b"\t\r\n "];
    match style {
        0 => b" ",
        1 => *seed.pick(&ragged),
        2 if ends_row => b"\r\n",
        _ if ends_row => b"\n",
        3 => b"\t",
        _ => b" ",
    }
}

/// The words with blanks between them: the header in pairs, the heights in rows of `columns`.
pub fn join(seed: &mut Seed, manner: Manner, words: &[Vec<u8>], header: usize, columns: usize) -> Text {
    let style = if manner == Manner::Plain { 4 } else { seed.below(5) };
    let mut text = Text { bytes: Vec::new(), places: Vec::new() };
    if style == 1 && seed.once_in(2) {
        text.bytes.extend(blanks(seed, style, false));
    }
    for (index, word) in words.iter().enumerate() {
        text.places.push(text.bytes.len());
        text.bytes.extend(word);
        let ends_row = if index < header { index % 2 == 1 } else { (index + 1 - header) % columns == 0 };
        if index + 1 < words.len() || seed.once_in(2) {
            text.bytes.extend(blanks(seed, style, ends_row));
        }
    }
    text
}

/// The number of header words of a field's text.
pub fn header_words(field: &Field) -> usize {
    if field.nodata.is_some() { 12 } else { 10 }
}

/// A field's text.
pub fn text(seed: &mut Seed, manner: Manner, field: &Field) -> Text {
    let words = words(seed, manner, field);
    join(seed, manner, &words, header_words(field), field.shape.columns)
}

/// A field's text in any manner, in the plain one if it would have too many bytes for a sheet.
pub fn any_text(seed: &mut Seed, field: &Field) -> Vec<u8> {
    let manner = *seed.pick(&[Manner::Plain, Manner::Mixed]);
    let bytes = text(seed, manner, field).bytes;
    if bytes.len() > MOST_BYTES { text(seed, Manner::Plain, field).bytes } else { bytes }
}
