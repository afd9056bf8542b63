//! The word of a refused number: where it breaks, and what could have stood there by docs/RULES.md 2.3.

fn is_blank(byte: &u8) -> bool {
    b" \t\r\n".contains(byte)
}

/// The words of a text.
pub fn words(text: &[u8]) -> impl DoubleEndedIterator<Item = &[u8]> {
    text.split(is_blank).filter(|word| !word.is_empty())
}

/// A word of a text, and a place in it or right after it.
pub struct Word<'a> {
    pub bytes: &'a [u8],
    place: usize,
    is_count: bool,
}

impl<'a> Word<'a> {
    /// The word around a place of a text, or the one that ends there.
    pub fn around(text: &'a [u8], place: usize) -> Word<'a> {
        let (before, rest) = text.split_at(place.min(text.len()));
        let start = before.iter().rposition(is_blank).map_or(0, |blank| blank + 1);
        let length = rest.iter().take_while(|byte| !is_blank(byte)).count();
        let is_count = count_comes_next(&text[..start]);
        Word { bytes: &text[start..before.len() + length], place: before.len() - start, is_count }
    }

    /// The byte at the place; none right after the word.
    pub fn byte(&self) -> Option<u8> {
        self.bytes.get(self.place).copied()
    }

    fn beginning(&self) -> &[u8] {
        &self.bytes[..self.place]
    }

    /// How many bytes of the beginning stand behind its point, if it has one.
    fn decimals(&self) -> Option<usize> {
        self.beginning().iter().rev().position(|byte| *byte == b'.')
    }

    /// What could have stood at the place.
    fn expected(&self) -> &'static str {
        let digits = self.beginning().iter().filter(|byte| byte.is_ascii_digit()).count();
        match (self.decimals(), digits) {
            (None, 0) if self.is_count || self.place > 0 => "a digit",
            (None, 0) => "a digit or a minus",
            (None, 9) if self.is_count => "the end of the word",
            (None, 9) => "a point or the end of the word",
            (None, _) if self.is_count => "a digit or the end of the word",
            (None, _) => "a digit, a point or the end of the word",
            (Some(0), _) => "a digit",
            (Some(6), _) => "the end of the word",
            (Some(_), _) => "a digit or the end of the word",
        }
    }

    /// What is likely behind the byte at the place, or else what a word of this position looks like.
    fn hint(&self) -> &'static str {
        match (self.byte(), self.decimals()) {
            _ if self.is_count => "ncols and nrows take 1 to 9 digits and nothing else",
            (Some(b','), _) => "decimals take a point and no comma",
            (Some(b'0'..=b'9'), Some(6)) => {
                "at most six digits may stand behind the point: docs/FROM-GIS.md has a command that shortens them"
            }
            _ => "a number is an optional minus, 1 to 9 digits, then optionally a point and 1 to 6 digits",
        }
    }

    /// Why the word is malformed: it breaks at the place.
    pub fn fault(&self) -> String {
        let (expected, hint) = (self.expected(), self.hint());
        match self.byte() {
            None => format!("the word stops too soon: expected {expected}; {hint}"),
            Some(byte) => format!("expected {expected}, not `{}`; {hint}", byte.escape_ascii()),
        }
    }

    /// Why the word is a comma decimal: its comma is at the place. Before three digits it may part thousands as well.
    pub fn comma(&self) -> String {
        let decimals = self.bytes.get(self.place + 1..).unwrap_or_default();
        let pointed = [self.beginning(), b".", decimals].concat();
        let said = format!("a comma stands where a point belongs: write `{}`", pointed.escape_ascii());
        if decimals.len() != 3 {
            return said;
        }
        let thousands = [self.beginning(), decimals].concat();
        format!("{said}, or `{}` if it parts thousands", thousands.escape_ascii())
    }
}

/// Whether the word after these is a count: the second one of a text after ncols, or the fourth after nrows.
fn count_comes_next(text: &[u8]) -> bool {
    let words: Vec<&[u8]> = words(text).take(4).collect();
    match words[..] {
        [name] => name.eq_ignore_ascii_case(b"ncols"),
        [_, _, name] => name.eq_ignore_ascii_case(b"nrows"),
        _ => false,
    }
}

#[cfg(test)]
mod tests {
    use super::*;

    const HEADER: &str = "ncols 3 nrows 1 xllcorner 0 yllcorner 0 cellsize 10\n";

    /// What is said of a word as the first height, broken at a place counted from its first byte.
    fn fault(word: &str, place: usize) -> String {
        Word::around(format!("{HEADER}{word} 2 3\n").as_bytes(), HEADER.len() + place).fault()
    }

    #[test]
    fn what_could_have_stood_there_is_told() {
        for (word, place, expected) in [
            ("x", 0, "expected a digit or a minus, not `x`"),
            ("+5", 0, "expected a digit or a minus, not `+`"),
            ("--5", 1, "expected a digit, not `-`"),
            ("1e3", 1, "expected a digit, a point or the end of the word, not `e`"),
            ("5\0", 1, "expected a digit, a point or the end of the word, not `\\x00`"),
            ("1234567890", 9, "expected a point or the end of the word, not `0`"),
            ("-1234567890", 10, "expected a point or the end of the word, not `0`"),
            ("5..0", 2, "expected a digit, not `.`"),
            ("1.2.3", 3, "expected a digit or the end of the word, not `.`"),
            ("1.000000x", 8, "expected the end of the word, not `x`"),
            ("-", 1, "the word stops too soon: expected a digit"),
            ("5.", 2, "the word stops too soon: expected a digit"),
            ("-5.", 3, "the word stops too soon: expected a digit"),
        ] {
            let form = "; a number is an optional minus, 1 to 9 digits, then optionally a point and 1 to 6 digits";
            assert_eq!(fault(word, place), format!("{expected}{form}"), "{word}");
        }
    }

    #[test]
    fn counts_take_digits_only() {
        let form = "; ncols and nrows take 1 to 9 digits and nothing else";
        for (text, place, expected) in [
            ("ncols -5", 6, "expected a digit, not `-`"),
            ("\nNCols  1,5\n", 9, "expected a digit or the end of the word, not `,`"),
            ("ncols 1 nrows 5.0", 15, "expected a digit or the end of the word, not `.`"),
            ("ncols 1\tNROWS 1234567890", 23, "expected the end of the word, not `0`"),
        ] {
            assert_eq!(Word::around(text.as_bytes(), place).fault(), format!("{expected}{form}"), "{text}");
        }
        let corner = b"ncols 1 nrows 1 xllcorner x";
        assert!(Word::around(corner, 26).fault().starts_with("expected a digit or a minus, not `x`; a number is"));
    }

    #[test]
    fn commas_get_a_hint() {
        for (word, place) in [("12,0000000", 2), ("5,", 1), ("1,2,3", 1), ("1.5,3", 3), (",5", 0)] {
            assert!(fault(word, place).ends_with("not `,`; decimals take a point and no comma"), "{word}");
        }
    }

    #[test]
    fn too_many_decimals_get_a_hint() {
        for (word, place) in [("10.000000000000", 9), ("-0.1234567", 9), ("123456789.0000000", 16)] {
            let said = fault(word, place);
            assert!(said.contains("; at most six digits may stand behind the point: docs/FROM-GIS.md"), "{said}");
        }
    }

    #[test]
    fn a_comma_decimal_is_shown_with_a_point() {
        for (word, comma, pointed) in [
            ("12,5", 2, "`12.5`"),
            ("-0,05", 2, "`-0.05`"),
            ("1,230", 1, "`1.230`, or `1230` if it parts thousands"),
            ("1,2345", 1, "`1.2345`"),
        ] {
            let said = Word::around(format!("{HEADER}2 {word}").as_bytes(), HEADER.len() + 2 + comma).comma();
            assert_eq!(said, format!("a comma stands where a point belongs: write {pointed}"));
        }
    }
}
