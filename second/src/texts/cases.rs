//! Streams of cases: the examples of docs/RULES.md, 8 Small fields, then fields and hostile texts in turn; and the
//! framing of a stream, a line with the length in bytes before each text.

use super::fields;
use super::hostile;
use super::seed::Seed;
use super::spelling::any_text;
use std::io;

/// The pit of docs/RULES.md, 9.3.
pub const PIT: &str = "ncols 3 nrows 3 xllcorner 0 yllcorner 0 cellsize 10\n5 5 5\n5 2 4\n5 5 5\n";

/// A small text: columns, rows, side and heights in metres.
pub struct Example(pub usize, pub usize, pub &'static str, pub &'static str);

/// The other examples of 8 Small fields, then fields and words at the bounds of the rules.
pub const EXAMPLES: [Example; 24] = [
    Example(1, 1, "10", "0"),
    Example(4, 1, "10", "9 8 7 5"),
    Example(3, 1, "10", "9 7 6"),
    Example(2, 2, "10", "9 8 9 7.59"),
    Example(2, 2, "10", "9 8 9 7.58"),
    Example(7, 1, "10", "10 9.5 9.01 8.7 8.4 8.3 8.21"),
    Example(1, 1, "10", "12.5000"),
    Example(1, 1, "10", "-0"),
    Example(1, 1, "10", "12.505"),
    Example(1, 1, "10", "12,5"),
    Example(1, 1, "10", ".5"),
    Example(1, 1, "10", "5."),
    Example(1, 1, "10", "+5"),
    // The east drops, each with a length that is not cut.
    Example(2, 5, "10", "9 8.5 -9999 -9999 9 8.51 -9999 -9999 9 8.69"),
    Example(2, 5, "10", "9 8.7 -9999 -9999 9 8.9 -9999 -9999 9 8.91"),
    // 304,800 mm and more.
    Example(1, 1, "609.6", "0"),
    Example(1, 1, "609.61", "0"),
    // 138,303 mm, where t = 250 is reached with equality for k = 5.
    Example(11, 2, "13.95", "20 19 18 17 16 15 14 13 12 -9999 -9999 \
        -9999 -9999 -9999 -9999 -9999 -9999 -9999 -9999 -9999 11 10"),
    // Ties.
    Example(3, 1, "10", "8 9 8"),
    Example(3, 3, "10", "5 5 5 5 5 5 5 5 5"),
    Example(2, 1, "10", "-9999 -9999"),
    // Words that other readers would take.
    Example(1, 1, "10", "0.1234567"),
    Example(2, 1, "10", "5\x0B6"),
    Example(1, 1, "10", "5\x0C"),
];

impl Example {
    pub fn text(&self) -> Vec<u8> {
        let Example(columns, rows, side, heights) = self;
        format!("ncols {columns} nrows {rows} xllcorner 0 yllcorner 0 cellsize {side}\n{heights}\n").into_bytes()
    }
}

/// A field's text of the given kind of relief.
fn good(seed: &mut Seed, kind: usize) -> Vec<u8> {
    let shape = fields::shape(seed);
    let field = fields::field(seed, kind, shape);
    any_text(seed, &field)
}

/// The text of one case of the stream.
pub fn case(seed: u64, number: usize) -> Vec<u8> {
    if number == 0 {
        return PIT.into();
    }
    if number <= EXAMPLES.len() {
        return EXAMPLES[number - 1].text();
    }
    let later = number - EXAMPLES.len() - 1;
    let mut seed = Seed::of(seed, later as u64);
    match (later, later % 2) {
        (0, _) => Vec::new(),
        (_, 0) => good(&mut seed, later / 2 % fields::RELIEFS.len()),
        _ => hostile::KINDS[later / 2 % hostile::KINDS.len()](&mut seed).bytes,
    }
}

/// The framed stream of the first texts of a seed, each made from the seed and its number.
pub fn stream(text: fn(u64, usize) -> Vec<u8>, seed: u64, texts: usize) -> Vec<u8> {
    let framed = |text: Vec<u8>| [format!("{}\n", text.len()).into_bytes(), text].concat();
    (0..texts).flat_map(|number| framed(text(seed, number))).collect()
}

/// The texts of a framed stream.
pub fn texts(mut stream: &[u8]) -> io::Result<Vec<&[u8]>> {
    let broken = || io::Error::other("the stream is not framed");
    let mut texts = Vec::new();
    while !stream.is_empty() {
        let end = stream.iter().position(|&byte| byte == b'\n').ok_or_else(broken)?;
        let digits = std::str::from_utf8(&stream[..end]).map_err(|_| broken())?;
        let length: usize = digits.parse().map_err(|_| broken())?;
        let text = stream.get(end + 1..end + 1 + length).ok_or_else(broken)?;
        texts.push(text);
        stream = &stream[end + 1 + length..];
    }
    Ok(texts)
}

#[cfg(test)]
mod tests {
    use super::*;

    #[test]
    fn framing_and_its_reading_agree() {
        let stream = stream(case, 1, 60);
        let texts = texts(&stream).expect("a stream is framed");
        assert!(texts.iter().enumerate().all(|(number, &text)| text == case(1, number)));
        assert_eq!(texts.len(), 60);
    }

    #[test]
    fn streams_that_are_not_framed() {
        let wrong: [&[u8]; 5] = [b"3", b"x\nabc", b"4\nabc", b"-1\n", b"2\nabc"];
        wrong.iter().for_each(|stream| assert!(texts(stream).is_err()));
        assert_eq!(texts(b"0\n2\na\n").expect("two texts"), [&b""[..], b"a\n"]);
    }
}
