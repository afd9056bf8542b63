//! The settings on the command line: a flag becomes a number and is handed on; the library judges it.

use crate::flags::{Words, text};
use crate::library::Settings;

/// A flag's text as a number.
pub fn number<T: std::str::FromStr>(flag: &str, text: &str) -> Result<T, String> {
    text.parse().map_err(|_| format!("{flag}: {text:?} is not a number that can be handed on"))
}

/// Sets the channel rule that `none`, `cells:N` or `percent:P` names.
fn set_channel(settings: &mut Settings, flag: &str, text: &str) -> Result<(), String> {
    if text == "none" {
        settings.kind = 0;
    } else if let Some(n) = text.strip_prefix("cells:") {
        settings.kind = 1;
        settings.cells = number(&format!("{flag} cells:N"), n)?;
    } else if let Some(p) = text.strip_prefix("percent:") {
        settings.kind = 2;
        settings.percentage = number(&format!("{flag} percent:P"), p)?;
    } else {
        return Err(format!("{flag}: {text:?} is none of none, cells:N, percent:P"));
    }
    Ok(())
}

/// The number of the steepness formula that `older` or `newer` names.
fn formula(flag: &str, text: &str) -> Result<u32, String> {
    match text {
        "older" => Ok(0),
        "newer" => Ok(1),
        _ => Err(format!("{flag}: {text:?} is neither older nor newer")),
    }
}

/// The settings of farm 0, which are those of all cells where there is one farm, and of farm 1; and the flags that gave
/// settings of farm 1.
pub struct Both {
    pub farms: [Settings; 2],
    second: Vec<String>,
}

impl Both {
    /// The same settings for both farms, by no flag.
    pub fn of(settings: Settings) -> Both {
        Both { farms: [settings; 2], second: Vec::new() }
    }

    /// Takes the flag of a setting, and its value from the words after it. A flag that ends in 1 is farm 1's.
    pub fn take(&mut self, flag: &str, words: &mut Words) -> Result<(), String> {
        let [first, second] = &mut self.farms;
        let (settings, name) = match flag.strip_suffix('1') {
            Some(name) => (second, name),
            None => (first, flag),
        };
        match name {
            "--low" => settings.low = number(flag, &text(flag, words)?)?,
            "--high" => settings.high = number(flag, &text(flag, words)?)?,
            "--channel" => set_channel(settings, flag, &text(flag, words)?)?,
            "--steepness" => settings.formula = formula(flag, &text(flag, words)?)?,
            _ => return Err(format!("{}: no such flag", flag.escape_debug())),
        }
        self.second.extend((name != flag).then(|| flag.to_string()));
        Ok(())
    }

    /// Whether farm 1 has settings by flags only where there are two farms.
    pub fn used(&self, farms: bool) -> Result<(), String> {
        if farms || self.second.is_empty() {
            return Ok(());
        }
        Err(format!("{}: farm 1 has settings only beside --farms", self.second.join(", ")))
    }
}

/// The channel rule as the flag names it.
pub fn channel_text(settings: &Settings) -> String {
    match settings.kind {
        0 => "none".to_string(),
        1 => format!("cells:{}", settings.cells),
        _ => format!("percent:{}", settings.percentage),
    }
}

/// The steepness formula as the flag names it.
pub fn steepness_text(settings: &Settings) -> &'static str {
    if settings.formula == 0 { "older" } else { "newer" }
}

/// The settings in words.
pub fn line(settings: &Settings) -> String {
    let (channel, steepness) = (channel_text(settings), steepness_text(settings));
    format!("low {}, high {}, channel {channel}, steepness {steepness}", settings.low, settings.high)
}

#[cfg(test)]
pub mod tests {
    use super::*;
    use crate::flags::words;

    pub const DEFAULTS: Settings = Settings { low: 0.7, high: 0.5, kind: 2, cells: 0, percentage: 1.0, formula: 0 };

    /// The settings that a flag with its value makes of the defaults.
    fn taken(flag: &str, value: &str) -> Result<Both, String> {
        let (mut settings, mut words) = (Both::of(DEFAULTS), words([value.into()].into_iter()));
        settings.take(flag, &mut words).map(|()| settings)
    }

    /// Those of the farm that the flag names; the other farm keeps the defaults.
    fn wanted(flag: &str, value: &str) -> Settings {
        let [first, second] = taken(flag, value).unwrap_or_else(|why| panic!("{flag} {value}: {why}")).farms;
        let (settings, other) = if flag.ends_with('1') { (second, first) } else { (first, second) };
        assert_eq!(line(&other), line(&DEFAULTS), "{flag} is one farm's");
        settings
    }

    fn wrong(flag: &str, value: &str) -> String {
        taken(flag, value).err().unwrap_or_else(|| panic!("{flag} {value} is accepted"))
    }

    #[test]
    fn channel_rules_are_named_as_they_are_given() {
        for rule in ["none", "cells:0", "cells:4294967295", "percent:0.1", "percent:NaN"] {
            assert_eq!(channel_text(&wanted("--channel", rule)), rule);
        }
        assert!(
            wrong("--channel", "cells:4294967296").starts_with("--channel cells:N: \"4294967296\" is not a number")
        );
        assert!(wrong("--channel", "percent:").starts_with("--channel percent:P: \"\" is not a number"));
        assert_eq!(wrong("--channel", "Cells:2"), "--channel: \"Cells:2\" is none of none, cells:N, percent:P");
    }

    #[test]
    fn steepness_formulas_are_numbers() {
        for (number, name) in [(0, "older"), (1, "newer")] {
            let settings = wanted("--steepness", name);
            assert_eq!((settings.formula, steepness_text(&settings)), (number, name));
        }
        for word in ["Newer", "0", "1", ""] {
            assert_eq!(wrong("--steepness", word), format!("--steepness: {word:?} is neither older nor newer"));
        }
        assert_eq!(wrong("--steepness", "--quiet"), "--steepness wants a value");
    }

    #[test]
    fn a_flag_that_ends_in_1_is_farm_1s() {
        assert_eq!(line(&wanted("--low1", "0.1")), "low 0.1, high 0.5, channel percent:1, steepness older");
        assert_eq!(line(&wanted("--high1", "0.1")), "low 0.7, high 0.1, channel percent:1, steepness older");
        assert_eq!(line(&wanted("--channel1", "cells:7")), "low 0.7, high 0.5, channel cells:7, steepness older");
        assert_eq!(line(&wanted("--steepness1", "newer")), "low 0.7, high 0.5, channel percent:1, steepness newer");
        assert!(wrong("--channel1", "cells:x").starts_with("--channel1 cells:N: \"x\" is not a number"));
        assert_eq!(wrong("--channel1", "some"), "--channel1: \"some\" is none of none, cells:N, percent:P");
        assert_eq!(wrong("--steepness1", "new"), "--steepness1: \"new\" is neither older nor newer");
        assert_eq!(wrong("--low1", "--quiet"), "--low1 wants a value");
        for flag in ["--low2", "--low11", "--deep1", "--1", "-1"] {
            assert_eq!(wrong(flag, "0.5"), format!("{flag}: no such flag"));
        }
    }

    #[test]
    fn settings_of_farm_1_want_two_farms() {
        let (mut settings, mut words) = (Both::of(DEFAULTS), words(["0.5", "0.5", "0.5"].map(Into::into).into_iter()));
        settings.take("--low", &mut words).expect("farm 0's");
        assert_eq!((settings.used(false), settings.used(true)), (Ok(()), Ok(())));
        settings.take("--low1", &mut words).expect("farm 1's");
        settings.take("--high1", &mut words).expect("farm 1's");
        let why = "--low1, --high1: farm 1 has settings only beside --farms";
        assert_eq!((settings.used(false), settings.used(true)), (Err(why.to_string()), Ok(())));
    }
}
