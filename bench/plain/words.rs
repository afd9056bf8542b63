//! What the words of the plain program ask for; they are those of `lsmap`.

use plain::{Channel, Formula, Settings};
use std::path::PathBuf;

pub const USAGE: &str = "usage: plain SETTINGS [FARMS] [--grids DIR] [--text DIR] [--quiet] [--directions CODES] \
    [--floats HEIGHTS] FILE
       plain report SETTINGS [FARMS] FILE...
           SETTINGS: --channel none|percent:P|cells:N --low X --high X --steepness older|newer
           FARMS: --farms MARKS for each file, [--channel1 RULE] [--low1 X] [--high1 X] [--steepness1 FORMULA]";

/// The library's defaults, which farm 1 has where no flag gives a setting.
const DEFAULTS: Settings =
    Settings { low: 0.7, high: 0.5, channel: Channel::Percentage(1.0), formula: Formula::Older };

/// What the words ask for.
pub struct Asked {
    pub report: bool,
    pub settings: [Settings; 2],
    pub marks: Vec<PathBuf>,
    pub grids: Option<PathBuf>,
    pub text: Option<PathBuf>,
    pub quiet: bool,
    pub codes: Option<PathBuf>,
    pub floats: Option<PathBuf>,
    pub files: Vec<PathBuf>,
}

fn channel(word: &str) -> Option<Channel> {
    match word.split_once(':') {
        None if word == "none" => Some(Channel::None),
        Some(("percent", share)) => share.parse().ok().map(Channel::Percentage),
        Some(("cells", cells)) => cells.parse().ok().map(Channel::Cells),
        _ => None,
    }
}

fn formula(word: &str) -> Option<Formula> {
    match word {
        "older" => Some(Formula::Older),
        "newer" => Some(Formula::Newer),
        _ => None,
    }
}

/// The settings of one farm as far as they are named.
#[derive(Default)]
struct Named {
    low: Option<f64>,
    high: Option<f64>,
    channel: Option<Channel>,
    formula: Option<Formula>,
}

impl Named {
    /// Takes the value of a flag; nothing if it is no such flag, or the value no such value.
    fn take(&mut self, flag: &str, value: &str) -> Option<()> {
        match flag {
            "--low" => self.low = Some(value.parse().ok()?),
            "--high" => self.high = Some(value.parse().ok()?),
            "--channel" => self.channel = Some(channel(value)?),
            "--steepness" => self.formula = Some(formula(value)?),
            _ => return None,
        }
        Some(())
    }

    /// All settings, if each is named.
    fn all(&self) -> Option<Settings> {
        Some(Settings { low: self.low?, high: self.high?, channel: self.channel?, formula: self.formula? })
    }

    fn none(&self) -> bool {
        self.low.is_none() && self.high.is_none() && self.channel.is_none() && self.formula.is_none()
    }

    /// All settings, the defaults where none is named.
    fn or_defaults(&self) -> Settings {
        Settings {
            low: self.low.unwrap_or(DEFAULTS.low),
            high: self.high.unwrap_or(DEFAULTS.high),
            channel: self.channel.unwrap_or(DEFAULTS.channel),
            formula: self.formula.unwrap_or(DEFAULTS.formula),
        }
    }
}

/// What the words ask for, if they are the usage's: flags with their values in any order, and files.
pub fn asked(words: &[String]) -> Option<Asked> {
    let report = words.first()? == "report";
    let (mut first, mut second) = (Named::default(), Named::default());
    let (mut grids, mut text, mut quiet, mut codes, mut floats) = (None, None, false, None, None);
    let (mut marks, mut files) = (Vec::new(), Vec::new());
    let mut words = words[usize::from(report)..].iter();
    while let Some(word) = words.next() {
        match word.as_str() {
            "--farms" => marks.push(words.next()?.into()),
            "--grids" => grids = Some(words.next()?.into()),
            "--text" => text = Some(words.next()?.into()),
            "--quiet" => quiet = true,
            "--directions" => codes = Some(words.next()?.into()),
            "--floats" => floats = Some(words.next()?.into()),
            flag if flag.starts_with("--") => match flag.strip_suffix('1') {
                Some(flag) => second.take(flag, words.next()?)?,
                None => first.take(flag, words.next()?)?,
            },
            file => files.push(file.into()),
        }
    }
    let counts = if report { !files.is_empty() } else { files.len() == 1 };
    let farms = marks.len() == files.len() || marks.is_empty() && second.none();
    let settings = [first.all()?, second.or_defaults()];
    let asked = Asked { report, settings, marks, grids, text, quiet, codes, floats, files };
    (counts && farms).then_some(asked)
}
