//! Hostile texts for every refusal that the printer can give: each names the refusal that it asks for, where that is
//! known. States docs/RULES.md, 3 Numbers of refusal, by examples.

use super::fields::{self, Field};
use super::seed::Seed;
use super::spelling::{self, Manner, Text};
use crate::rules::grid::Shape;
use crate::rules::refusal::{self, Refusal, COMMA, FORM};
use crate::rules::sheet::{MOST_BYTES, MOST_CELLS};

/// A text and what its reading must give, unless that is left to the reader.
pub struct Hostile {
    pub bytes: Vec<u8>,
    pub known: Option<Result<(), Refusal>>,
}

/// The kinds of hostile text.
pub const KINDS: [fn(&mut Seed) -> Hostile; 17] = [
    |seed| spoiled(seed, wrong_name),
    |seed| spoiled(seed, malformed_count),
    |seed| spoiled(seed, count_out_of_range),
    |seed| spoiled(seed, malformed),
    |seed| spoiled(seed, malformed),
    |seed| spoiled(seed, too_fine),
    |seed| spoiled(seed, side_out_of_range),
    |seed| spoiled(seed, height_out_of_range),
    wrong_eleventh,
    ends_early,
    word_after,
    misstated_count,
    two_faults,
    wordless,
    many_bytes,
    many_cells,
    mutated,
];

const NAMES: [&[u8]; 14] = [
    b"ncol", b"NROWS_", b"xllcenter", b"yllcenter", b"cellsize=10", b"nodata", b"NODATA-VALUE", b"\xEF\xBB\xBFncols",
    b"ncols\0", b"x", b"5", b"\x1A", b"\xC3\xA4", b"dx",
];
pub const LETTERS: [&[u8]; 9] =
    [b"x", b"nan", b"NaN", b"inf", b"nodata_valu", b"NODATA_VALUES", b"e5", b"Z9999", b"ncols"];
/// Words that are no counts, with the place at which each breaks.
const COUNTS: [(&[u8], usize); 12] = [
    (b"-5", 0), (b"-0", 0), (b"5.0", 1), (b"+5", 0), (b"1e3", 1), (b"1234567890", 9), (b"0000000005", 9), (b"5,", 1),
    (b"1,5", 1), (b"five", 0), (b"5\0", 1), (b"\xD9\xA5", 0),
];
const NO_COUNTS: [&[u8]; 6] = [b"0", b"000000000", b"1025", b"999999999", b"001025", b"00"];
/// Words that are no numbers, with the number and place of the refusal of each.
const NO_NUMBERS: [(&[u8], u32, usize); 34] = [
    (b"12,5", COMMA, 2), (b".5", FORM, 0), (b"5.", FORM, 2), (b"+5", FORM, 0), (b"1e3", FORM, 1),
    (b"1234567890", FORM, 9), (b"0.1234567", FORM, 8), (b"-", FORM, 1), (b"--5", FORM, 1), (b"5-", FORM, 1),
    (b"-.5", FORM, 1), (b"-5.", FORM, 3), (b"1.5,3", FORM, 3), (b",5", FORM, 0), (b"5\0", FORM, 1), (b"\0", FORM, 0),
    (b"1,234", COMMA, 1), (b"5\x0B", FORM, 1), (b"\x0C5", FORM, 0), (b"1,234.5", FORM, 1), (b"5,", FORM, 1),
    (b"12\xC2\xA0", FORM, 2), (b"1234567890,5", FORM, 9), (b"-1234567890", FORM, 10), (b"12,1234567", FORM, 2),
    (b"1,2,3", FORM, 1), (b"12,505", COMMA, 2), (b"\x7F", FORM, 0), (b"/", FORM, 0), (b":", FORM, 0),
    (b"5..0", FORM, 2), (b"-0,5", COMMA, 2), (b"0.0000000", FORM, 8), (b"\xEF\xBB\xBF5", FORM, 0),
];
const FINE: [&[u8]; 9] = [
    b"12.505", b"0.001", b"-0.001", b"1000.001", b"999999999.001", b"5.000001", b"-9999.009", b"0.000010", b"9000.001",
];
const NO_SIDES: [&[u8]; 9] = [b"0", b"-0", b"0.00", b"-1", b"1000.01", b"999999999", b"-0.01", b"-10", b"1001"];
const NO_HEIGHTS: [&[u8]; 8] = [
    b"-500.01", b"9000.01", b"-999999999.98", b"999999999.98", b"-501", b"9001", b"-9998.99", b"100000.000000",
];
pub const AFTER: [&[u8]; 9] = [b"0", b"x", b"\0", b"\x1A", b"12,5", b"-9999", b"9999999999", b"ncols", b"\x0C"];

/// A word put in the place of another one, and the number and place of its refusal, from its first byte.
pub struct Fault {
    pub index: usize,
    pub word: &'static [u8],
    number: u32,
    place: usize,
}

/// A fault that is refused at its word.
fn at_word(index: usize, word: &'static [u8], number: u32) -> Fault {
    Fault { index, word, number, place: 0 }
}

type Fails = fn(&mut Seed, &Field) -> Fault;

/// The faults of one word.
const FAULTS: [Fails; 7] =
    [wrong_name, malformed_count, count_out_of_range, malformed, too_fine, side_out_of_range, height_out_of_range];

/// Any fault of one word.
pub fn fault(seed: &mut Seed, field: &Field) -> Fault {
    seed.pick(&FAULTS)(seed, field)
}

/// A small field of any kind.
fn small(seed: &mut Seed) -> Field {
    let kind = seed.below(fields::RELIEFS.len());
    let shape = Shape { rows: 1 + seed.below(5), columns: 1 + seed.below(5) };
    fields::field(seed, kind, shape)
}

fn manner(seed: &mut Seed) -> Manner {
    *seed.pick(&[Manner::Plain, Manner::Mixed])
}

/// The index of a height's word.
fn height_word(seed: &mut Seed, field: &Field) -> usize {
    let (last, any) = (field.heights.len() - 1, seed.below(field.heights.len()));
    spelling::header_words(field) + *seed.pick(&[0, last, any])
}

fn wrong_name(seed: &mut Seed, field: &Field) -> Fault {
    let names = spelling::header_words(field) / 2;
    let index = 2 * seed.below(names);
    // The eleventh word is judged as a name only if it begins with a letter.
    let word = *seed.pick(if index == 10 { &LETTERS } else { &NAMES[..] });
    at_word(index, word, refusal::NAME)
}

fn malformed_count(seed: &mut Seed, _: &Field) -> Fault {
    let index = *seed.pick(&[1, 3]);
    let (word, place) = *seed.pick(&COUNTS);
    Fault { index, word, number: FORM, place }
}

fn count_out_of_range(seed: &mut Seed, _: &Field) -> Fault {
    at_word(*seed.pick(&[1, 3]), *seed.pick(&NO_COUNTS), refusal::SHAPE)
}

/// The index of the cell side, the NoData number or a height.
fn centimetre_word(seed: &mut Seed, field: &Field) -> usize {
    let height = height_word(seed, field);
    let nodata = if field.nodata.is_some() { 11 } else { height };
    *seed.pick(&[9, nodata, height, height])
}

fn malformed(seed: &mut Seed, field: &Field) -> Fault {
    let (any, height) = (centimetre_word(seed, field), height_word(seed, field));
    let index = *seed.pick(&[5, 7, any, height]);
    if index != 10 && seed.once_in(5) {
        return at_word(index, *seed.pick(&LETTERS), FORM);
    }
    let (word, number, place) = *seed.pick(&NO_NUMBERS);
    Fault { index, word, number, place }
}

fn too_fine(seed: &mut Seed, field: &Field) -> Fault {
    at_word(centimetre_word(seed, field), *seed.pick(&FINE), refusal::FINE)
}

fn side_out_of_range(seed: &mut Seed, _: &Field) -> Fault {
    at_word(9, *seed.pick(&NO_SIDES), refusal::SIDE)
}

/// Also `-9999` where the NoData number is another one.
fn height_out_of_range(seed: &mut Seed, field: &Field) -> Fault {
    let usual = field.nodata.unwrap_or(-999_900) == -999_900;
    let word: &[u8] = if !usual && seed.once_in(3) { b"-9999" } else { *seed.pick(&NO_HEIGHTS) };
    // 9000.01 is one of the NoData numbers of `fields`.
    let word = if field.nodata == Some(900_001) { b"9000.02" } else { word };
    at_word(height_word(seed, field), word, refusal::HEIGHT)
}

/// The text with one word spoiled, refused in that word.
fn spoiled(seed: &mut Seed, fails: Fails) -> Hostile {
    let field = small(seed);
    let fault = fails(seed, &field);
    faulty(seed, &field, &[fault])
}

/// Words are judged in order, and the first fault decides.
fn two_faults(seed: &mut Seed) -> Hostile {
    let field = small(seed);
    let (one, other) = (fault(seed, &field), fault(seed, &field));
    faulty(seed, &field, &[one, other])
}

/// The text with faults; of two for one word the first is kept.
fn faulty(seed: &mut Seed, field: &Field, faults: &[Fault]) -> Hostile {
    let manner = manner(seed);
    let mut words = spelling::words(seed, manner, field);
    faults.iter().rev().for_each(|fault| words[fault.index] = fault.word.to_vec());
    let text = joined(seed, manner, &words, field);
    let first = faults.iter().min_by_key(|fault| fault.index).expect("there is a fault");
    refused(&text.bytes, first.number, text.places[first.index] + first.place)
}

fn joined(seed: &mut Seed, manner: Manner, words: &[Vec<u8>], field: &Field) -> Text {
    spelling::join(seed, manner, words, spelling::header_words(field), field.shape.columns)
}

fn refused(bytes: &[u8], number: u32, place: usize) -> Hostile {
    Hostile { bytes: bytes.to_vec(), known: Some(Err(Refusal { number, place })) }
}

/// An eleventh word that begins with a letter must be nodata_value.
fn wrong_eleventh(seed: &mut Seed) -> Hostile {
    let mut field = small(seed);
    field.nodata = None;
    let fault = at_word(10, *seed.pick(&LETTERS), refusal::NAME);
    faulty(seed, &field, &[fault])
}

/// The text after some of its words: 9 at the text length.
fn ends_early(seed: &mut Seed) -> Hostile {
    let (field, manner) = (small(seed), manner(seed));
    let words = spelling::words(seed, manner, &field);
    let kept = if seed.once_in(2) { seed.below(words.len().min(13)) } else { seed.below(words.len()) };
    let text = joined(seed, manner, &words[..kept], &field);
    refused(&text.bytes, refusal::ENDS, text.bytes.len())
}

/// A word after the last height, whatever it is.
fn word_after(seed: &mut Seed) -> Hostile {
    let (field, manner) = (small(seed), manner(seed));
    let mut words = spelling::words(seed, manner, &field);
    let heights = words.len();
    for _ in 0..1 + seed.below(3) {
        words.push(seed.pick(&AFTER).to_vec());
    }
    let text = joined(seed, manner, &words, &field);
    refused(&text.bytes, refusal::AFTER, text.places[heights])
}

/// One count is a good number and not the true one.
fn misstated_count(seed: &mut Seed) -> Hostile {
    let (mut field, manner) = (small(seed), manner(seed));
    let header = spelling::header_words(&field);
    let true_cells = field.shape.cells();
    let mut words = spelling::words(seed, manner, &field);
    let count = *seed.pick(&[1, 2, 3, 6, 1_024]);
    field.shape = *seed.pick(&[Shape { rows: count, ..field.shape }, Shape { columns: count, ..field.shape }]);
    words[1] = field.shape.columns.to_string().into_bytes();
    words[3] = field.shape.rows.to_string().into_bytes();
    let text = joined(seed, manner, &words, &field);
    match field.shape.cells() {
        cells if cells > MOST_CELLS => refused(&text.bytes, refusal::PRINTER, 0),
        cells if cells > true_cells => refused(&text.bytes, refusal::ENDS, text.bytes.len()),
        cells if cells < true_cells => refused(&text.bytes, refusal::AFTER, text.places[header + cells]),
        _ => Hostile { bytes: text.bytes, known: Some(Ok(())) },
    }
}

/// No word at all: 9 at the text length.
fn wordless(seed: &mut Seed) -> Hostile {
    let length = *seed.pick(&[0, 1, 2, 7, 100]);
    let bytes: Vec<u8> = (0..length).map(|_| *seed.pick(b" \t\r\n")).collect();
    refused(&bytes, refusal::ENDS, length)
}

/// A text of exactly 32,768 bytes is read; one byte more gets 11 before anything else.
fn many_bytes(seed: &mut Seed) -> Hostile {
    let field = small(seed);
    let mut bytes = spelling::text(seed, Manner::Mixed, &field).bytes;
    match seed.below(4) {
        0 => bytes.clear(),
        1 => bytes.insert(0, b'?'),
        _ => {}
    }
    let spoiled = bytes.first().is_none_or(|&byte| byte == b'?');
    let length = MOST_BYTES + if spoiled { 1 } else { seed.below(2) };
    bytes.resize(length, b' ');
    if length > MOST_BYTES {
        return refused(&bytes, refusal::PRINTER, MOST_BYTES);
    }
    Hostile { bytes, known: Some(Ok(())) }
}

/// 2,048 cells are printed; more get 11 after a good header, before any height is judged.
fn many_cells(seed: &mut Seed) -> Hostile {
    let shapes = [(32, 64), (2, 1_024), (1_024, 2), (3, 683), (683, 3), (46, 45), (1_024, 1_024)];
    let (rows, columns) = *seed.pick(&shapes);
    let shape = Shape { rows, columns };
    let small = shape.cells() <= MOST_CELLS;
    let field = Field { shape, side: 1_000, nodata: Some(0), heights: levels(seed, shape.cells().min(2_100)) };
    let mut words = spelling::words(seed, Manner::Plain, &field);
    let kind = seed.below(5);
    match kind {
        _ if small => {}
        0 => words[11] = b"0,0".to_vec(),
        1 => words[10] = b"nodata".to_vec(),
        2 => words[12] = b"12,5".to_vec(),
        3 => words.truncate(12),
        _ => {}
    }
    let text = joined(seed, Manner::Plain, &words, &field);
    match kind {
        _ if small => Hostile { bytes: text.bytes, known: Some(Ok(())) },
        0 => refused(&text.bytes, COMMA, text.places[11] + 1),
        1 => refused(&text.bytes, refusal::NAME, text.places[10]),
        _ => refused(&text.bytes, refusal::PRINTER, 0),
    }
}

/// Heights of one digit, NoData among them.
fn levels(seed: &mut Seed, cells: usize) -> Vec<Option<i64>> {
    (0..cells).map(|_| Some(100 * seed.between(0, 9)).filter(|&height| height != 0)).collect()
}

/// A good text with a few bytes changed: whatever the reader says.
fn mutated(seed: &mut Seed) -> Hostile {
    let (field, manner) = (small(seed), manner(seed));
    let mut bytes = spelling::text(seed, manner, &field).bytes;
    mutate(seed, &mut bytes);
    Hostile { bytes, known: None }
}

/// Changes a few bytes, leaves some out or puts some in, or cuts them off.
pub fn mutate(seed: &mut Seed, bytes: &mut Vec<u8>) {
    for _ in 0..1 + seed.below(3) {
        let any = seed.below(256) as u8;
        let byte = if seed.once_in(8) { any } else { *seed.pick(b" \n\r\t019-.,+eN\0\x1A\x0B\xFF") };
        let at = seed.below(bytes.len().max(1));
        match seed.below(4) {
            _ if bytes.is_empty() => bytes.push(byte),
            0 => bytes[at] = byte,
            1 => bytes.insert(at, byte),
            2 => drop(bytes.remove(at)),
            _ if seed.once_in(2) => bytes.truncate(at),
            _ => bytes[at] ^= 1 << seed.below(8),
        }
    }
}
