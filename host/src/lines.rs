//! A report as lines `name value`, an LF after each: what is printed and saved, and read again.

use crate::library::Report;

const TOTALS: [&str; 10] =
    ["maps", "valid", "channel", "zero", "long", "sum", "under_1", "from_1", "from_5", "from_10"];
const GREATEST: [&str; 3] = ["greatest", "greatest_map", "greatest_cell"];

/// What stands for the greatest where there is none.
const NONE: &str = "none";

/// The lines of a report.
pub fn text(report: &Report) -> String {
    let totals = report.totals.map(|total| total.to_string());
    let greatest = report.greatest.map_or([NONE; 3].map(String::from), |of| of.map(|number| number.to_string()));
    let values = totals.into_iter().chain(greatest);
    TOTALS.iter().chain(&GREATEST).zip(values).map(|(name, value)| format!("{name} {value}\n")).collect()
}

/// A number as `text` writes it, and no other spelling.
fn number(value: &[u8]) -> Option<u64> {
    let digits = str::from_utf8(value).ok().filter(|digits| digits.bytes().all(|byte| byte.is_ascii_digit()))?;
    digits.parse().ok().filter(|_| digits == "0" || !digits.starts_with('0'))
}

/// The start of what stands in a line, as it may be shown.
fn shown(bytes: &[u8]) -> String {
    let more = if bytes.len() > 40 { ".." } else { "" };
    format!("`{}{more}`", bytes[..bytes.len().min(40)].escape_ascii())
}

/// The lines that are left of a text, and the number of the last one taken.
struct Lines<'a> {
    left: &'a [u8],
    number: usize,
}

impl<'a> Lines<'a> {
    fn wrong<T>(&self, why: String) -> Result<T, String> {
        Err(format!("line {}: {why}", self.number))
    }

    /// The value in the next line, which has to have this name.
    fn value(&mut self, name: &str) -> Result<&'a [u8], String> {
        self.number += 1;
        if self.left.is_empty() {
            return self.wrong(format!("expected `{name}` and its value, but the text ends here"));
        }
        let Some(end) = self.left.iter().position(|&byte| byte == b'\n') else {
            return self.wrong(format!("the text ends within the line: {} has no LF behind it", shown(self.left)));
        };
        let line = &self.left[..end];
        self.left = &self.left[end + 1..];
        match line.strip_prefix(name.as_bytes()).and_then(|rest| rest.strip_prefix(b" ")) {
            Some(value) => Ok(value),
            None => self.wrong(format!("expected `{name}` and its value, not {}", shown(line))),
        }
    }

    /// The number in the next line.
    fn number(&mut self, name: &str) -> Result<u64, String> {
        let value = self.value(name)?;
        let why = "is not a number in decimal digits below 2^64 without leading zeros";
        number(value).map_or_else(|| self.wrong(format!("{} {why}", shown(value))), Ok)
    }

    /// The numbers of the greatest, or the same lines without.
    fn greatest(&mut self) -> Result<Option<[u64; 3]>, String> {
        let [factor, map, cell] = GREATEST;
        if !self.left.starts_with(format!("{factor} {NONE}\n").as_bytes()) {
            return Ok(Some([self.number(factor)?, self.number(map)?, self.number(cell)?]));
        }
        for name in GREATEST {
            let value = self.value(name)?;
            if value != NONE.as_bytes() {
                return self.wrong(format!("`{factor}` is none, so `{name}` has to be none, not {}", shown(value)));
            }
        }
        Ok(None)
    }
}

/// The report of a text, or which line is wrong, counted from 1, and why.
pub fn read(text: &[u8]) -> Result<Report, String> {
    let mut lines = Lines { left: text, number: 0 };
    let mut totals = [0; TOTALS.len()];
    for (total, name) in totals.iter_mut().zip(TOTALS) {
        *total = lines.number(name)?;
    }
    let greatest = lines.greatest()?;
    if lines.left.is_empty() {
        return Ok(Report { totals, greatest });
    }
    lines.number += 1;
    lines.wrong(format!("nothing may follow `{}`, but there is {}", GREATEST[2], shown(lines.left)))
}

#[cfg(test)]
mod tests {
    use super::*;

    const SOME: Report = Report { totals: [2, 18, 0, 1, 0, 804_632, 18, 0, 0, 0], greatest: Some([54_379, 0, 1]) };
    const SOME_TEXT: &str = "maps 2\nvalid 18\nchannel 0\nzero 1\nlong 0\nsum 804632\n\
        under_1 18\nfrom_1 0\nfrom_5 0\nfrom_10 0\ngreatest 54379\ngreatest_map 0\ngreatest_cell 1\n";

    /// What is wrong with the text after a piece of it is replaced.
    fn wrong(piece: &str, by: &str) -> String {
        let text = SOME_TEXT.replacen(piece, by, 1);
        read(text.as_bytes()).err().unwrap_or_else(|| panic!("{text:?} is read"))
    }

    #[test]
    fn lines_have_names_and_values() {
        assert_eq!(text(&SOME), SOME_TEXT);
        let none = text(&Report { greatest: None, ..SOME });
        assert!(none.ends_with("\nfrom_10 0\ngreatest none\ngreatest_map none\ngreatest_cell none\n"));
        assert_eq!(none.lines().count(), 13);
    }

    #[test]
    fn what_is_written_is_read_as_the_same() {
        let most = Report { totals: [u64::MAX; 10], greatest: Some([u64::MAX; 3]) };
        let zeros = Report { totals: [0; 10], greatest: Some([0; 3]) };
        for report in [SOME, most, zeros, Report { greatest: None, ..SOME }, Report { greatest: None, ..zeros }] {
            assert_eq!(read(text(&report).as_bytes()), Ok(report));
        }
    }

    #[test]
    fn a_text_that_is_cut_short_is_never_read() {
        for report in [SOME, Report { greatest: None, ..SOME }] {
            let text = text(&report);
            assert!((0..text.len()).all(|length| read(&text.as_bytes()[..length]).is_err()));
        }
        assert_eq!(read(b"").err().as_deref(), Some("line 1: expected `maps` and its value, but the text ends here"));
        let said = wrong("greatest_cell 1\n", "greatest_cell 1");
        assert_eq!(said, "line 13: the text ends within the line: `greatest_cell 1` has no LF behind it");
    }

    #[test]
    fn names_stand_in_their_order() {
        assert_eq!(wrong("valid 18\n", ""), "line 2: expected `valid` and its value, not `channel 0`");
        assert_eq!(wrong("valid", "Valid"), "line 2: expected `valid` and its value, not `Valid 18`");
        assert_eq!(wrong("zero 1\n", "\nzero 1\n"), "line 4: expected `zero` and its value, not ``");
        assert_eq!(wrong("sum 804632", "sum804632"), "line 6: expected `sum` and its value, not `sum804632`");
        assert_eq!(wrong("long 0\n", "long\n"), "line 5: expected `long` and its value, not `long`");
        let said = wrong("greatest_map 0\ngreatest_cell 1", "greatest_cell 1\ngreatest_map 0");
        assert_eq!(said, "line 12: expected `greatest_map` and its value, not `greatest_cell 1`");
        assert_eq!(wrong("maps", "\u{feff}maps"), "line 1: expected `maps` and its value, not `\\xef\\xbb\\xbfmaps 2`");
    }

    #[test]
    fn numbers_are_spelled_in_one_way() {
        let why = "is not a number in decimal digits below 2^64 without leading zeros";
        for word in [
            "",
            "02",
            "00",
            "+2",
            "-2",
            "2.0",
            "2 ",
            " 2",
            "2e3",
            "0x2",
            "2\r",
            "\u{662}",
            "none",
            "18446744073709551616",
        ] {
            let shown = word.as_bytes().escape_ascii();
            assert_eq!(wrong("maps 2", &format!("maps {word}")), format!("line 1: `{shown}` {why}"));
        }
        assert_eq!(wrong("greatest_cell 1", "greatest_cell 01"), format!("line 13: `01` {why}"));
        assert!(
            wrong("maps 2", &format!("maps {}", "9".repeat(99)))
                .starts_with(&format!("line 1: `{}..` is", "9".repeat(40)))
        );
    }

    #[test]
    fn the_greatest_is_none_in_all_three_lines() {
        let why = "is not a number in decimal digits below 2^64 without leading zeros";
        assert_eq!(wrong("greatest_cell 1", "greatest_cell none"), format!("line 13: `none` {why}"));
        assert_eq!(wrong("greatest_map 0", "greatest_map none"), format!("line 12: `none` {why}"));
        let said = wrong("greatest 54379", "greatest none");
        assert_eq!(said, "line 12: `greatest` is none, so `greatest_map` has to be none, not `0`");
        let said = wrong("greatest 54379\ngreatest_map 0", "greatest none\ngreatest_map none");
        assert_eq!(said, "line 13: `greatest` is none, so `greatest_cell` has to be none, not `1`");
        assert_eq!(wrong("greatest 54379", "greatest None"), format!("line 11: `None` {why}"));
    }

    #[test]
    fn nothing_follows_the_last_line() {
        for more in ["\n", " ", "maps 2\n"] {
            let text = format!("{SOME_TEXT}{more}");
            let said = read(text.as_bytes()).err().unwrap_or_default();
            let shown = more.as_bytes().escape_ascii();
            assert_eq!(said, format!("line 14: nothing may follow `greatest_cell`, but there is `{shown}`"));
        }
    }
}
