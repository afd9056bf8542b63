//! Numbers and counts: which words are right, which are comma decimals, and where any other one breaks. States
//! docs/RULES.md, 2.3 Numbers.

use super::refusal::{self, refuse, Refusal};

/// What a word's position wants: a count after ncols and nrows, a number elsewhere.
#[derive(Clone, Copy, Debug, PartialEq, Eq)]
pub enum Form {
    Count,
    Number,
}

/// The parts of a word: what stands after an optional minus, before and after the first point.
pub struct Number<'a> {
    minus: bool,
    whole: &'a [u8],
    decimals: Option<&'a [u8]>,
}

/// Whether these are 1 to `most` digits and nothing else.
fn digits(bytes: &[u8], most: usize) -> bool {
    !bytes.is_empty() && bytes.len() <= most && bytes.iter().all(u8::is_ascii_digit)
}

/// The whole number that digits stand for.
pub fn value(digits: &[u8]) -> i64 {
    digits.iter().fold(0, |value, digit| 10 * value + i64::from(digit - b'0'))
}

impl<'a> Number<'a> {
    pub fn of(word: &'a [u8]) -> Number<'a> {
        let minus = word.first() == Some(&b'-');
        let unsigned = if minus { &word[1..] } else { word };
        match unsigned.iter().position(|&byte| byte == b'.') {
            None => Number { minus, whole: unsigned, decimals: None },
            Some(point) => Number { minus, whole: &unsigned[..point], decimals: Some(&unsigned[point + 1..]) },
        }
    }

    /// The number of metres in cm; a nonzero digit past the second decimal is too fine.
    pub fn centimetres(&self) -> Option<i64> {
        let decimals = self.decimals.unwrap_or_default();
        let digit = |at: usize| decimals.get(at).map_or(0, |digit| i64::from(digit - b'0'));
        if (2..decimals.len()).any(|at| digit(at) != 0) {
            return None;
        }
        let size = 100 * value(self.whole) + 10 * digit(0) + digit(1);
        Some(if self.minus { -size } else { size })
    }
}

/// A number is an optional minus, 1 to 9 digits, and then optionally a point and 1 to 6 digits; a count is 1 to 9
/// digits; nothing else.
fn is_right(word: &[u8], form: Form) -> bool {
    let Number { whole, decimals, .. } = Number::of(word);
    match form {
        Form::Count => digits(word, 9),
        Form::Number => digits(whole, 9) && decimals.is_none_or(|decimals| digits(decimals, 6)),
    }
}

/// Whether some right word begins so. Two endings are enough to try, none and one digit: if a right word is cut
/// anywhere, what stands before the cut is right itself, or it is empty, a lone minus or ends with the point, and then
/// any one digit makes it right.
fn can_begin(beginning: &[u8], form: Form) -> bool {
    is_right(beginning, form) || is_right(&[beginning, b"0"].concat(), form)
}

/// The first byte at which the word so far can no longer begin a right one; or else the byte after the word.
fn first_break(word: &[u8], form: Form) -> usize {
    (0..word.len()).find(|&at| !can_begin(&word[..=at], form)).unwrap_or(word.len())
}

/// The first comma of a word that would be right if that comma were a point.
fn decimal_comma(word: &[u8], form: Form) -> Option<usize> {
    let comma = word.iter().position(|&byte| byte == b',')?;
    let pointed = [&word[..comma], b".", &word[comma + 1..]].concat();
    is_right(&pointed, form).then_some(comma)
}

/// The form of the word at a place: 12, comma decimal, at the comma; 7, number malformed, where it breaks.
pub fn judge(place: usize, word: &[u8], form: Form) -> Result<(), Refusal> {
    if is_right(word, form) {
        return Ok(());
    }
    match decimal_comma(word, form) {
        Some(comma) => refuse(refusal::COMMA, place + comma),
        None => refuse(refusal::FORM, place + first_break(word, form)),
    }
}

#[cfg(test)]
mod tests {
    use super::*;

    /// Number and place of the refusal of a word at 0.
    fn refused(word: &str, form: Form) -> (u32, usize) {
        judge(0, word.as_bytes(), form).map_err(|Refusal { number, place }| (number, place)).unwrap_err()
    }

    /// docs/RULES.md, 2.3 Numbers.
    #[test]
    fn comma_decimals() {
        for (word, comma) in [("12,5", 2), ("12,505", 2), ("1,234", 1), ("-0,5", 2), ("123456789,123456", 9)] {
            assert_eq!(refused(word, Form::Number), (12, comma), "{word}");
            assert_eq!(refused(word, Form::Count).0, 7, "{word}");
        }
    }

    #[test]
    fn malformed_numbers() {
        let at_first = [".5", "+5", "x", ",5", ".", ",", ""].map(|word| (word, 0));
        let after = [("5.", 2), ("-", 1), ("-5.", 3)];
        let within = [
            ("1e3", 1), ("5,", 1), ("12,1234567", 2), ("1,2,3", 1), ("1.5,3", 3), ("1234567890", 9),
            ("1234567890,5", 9), ("1.1234567", 8), ("-1234567890", 10), ("-1.1234567", 9), ("1,234.5", 1), ("-,5", 1),
            ("--5", 1), ("5..0", 2), ("1.2.3", 3), ("5-", 1), ("5\0", 1), ("12\u{a0}", 2),
        ];
        for (word, place) in at_first.into_iter().chain(after).chain(within) {
            assert_eq!(refused(word, Form::Number), (7, place), "{word}");
        }
    }

    #[test]
    fn malformed_counts() {
        for (word, place) in [("5.0", 1), ("1,5", 1), ("-5", 0), ("-0", 0), ("+5", 0), ("1e3", 1), ("1234567890", 9)] {
            assert_eq!(refused(word, Form::Count), (7, place), "{word}");
        }
    }

    #[test]
    fn right_words() {
        for word in ["007", "0", "123456789"] {
            assert_eq!([Form::Count, Form::Number].map(|form| judge(0, word.as_bytes(), form)), [Ok(()); 2], "{word}");
        }
        for word in ["-0", "12.505", "-123456789.123456"] {
            assert_eq!(judge(0, word.as_bytes(), Form::Number), Ok(()), "{word}");
        }
    }

    /// Every right word that has no digit but 0, and there are no others.
    fn all_right(form: Form) -> Vec<String> {
        let zeros = |most| (1..=most).map(|digits| "0".repeat(digits));
        if form == Form::Count {
            return zeros(9).collect();
        }
        let unsigned = zeros(9).flat_map(|whole| zeros(6).map(move |decimals| format!("{whole}.{decimals}")));
        unsigned.chain(zeros(9)).flat_map(|word| [format!("-{word}"), word]).collect()
    }

    /// Every word of these letters up to a length.
    fn all_words(letters: &str, most: usize) -> Vec<String> {
        if most == 0 {
            return vec![String::new()];
        }
        let shorter = all_words(letters, most - 1);
        let longer = shorter.iter().flat_map(|word| letters.chars().map(move |letter| format!("{word}{letter}")));
        std::iter::once(String::new()).chain(longer).collect()
    }

    /// Words with as many digits as are allowed before and after a point or comma, one less and more.
    fn at_limits() -> Vec<String> {
        let mut words = Vec::new();
        for whole in 8..=10 {
            for middle in ["", ".", ",", ",,", ".,", "x"] {
                for decimals in [0, 1, 5, 6, 7] {
                    let word = format!("{}{middle}{}", "0".repeat(whole), "0".repeat(decimals));
                    words.extend(["", ",", ".", ",0", "x"].map(|end| format!("{word}{end}")));
                }
            }
        }
        words.iter().flat_map(|word| [word.clone(), format!("-{word}")]).collect()
    }

    /// A word breaks at the same place if its beginnings are looked for among all right words.
    #[test]
    fn breaks_by_all_right_words() {
        for form in [Form::Count, Form::Number] {
            let right = all_right(form);
            for word in all_words("-0.,x", 5).into_iter().chain(at_limits()) {
                let begins = |end: &usize| right.iter().any(|right| right.starts_with(&word[..*end]));
                let place = (1..=word.len()).find(|end| !begins(end)).map_or(word.len(), |end| end - 1);
                assert_eq!(first_break(word.as_bytes(), form), place, "{word}");
                assert_eq!(is_right(word.as_bytes(), form), right.contains(&word), "{word}");
            }
        }
    }
}
