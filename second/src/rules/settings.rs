//! The settings record and its whole percentages. States docs/RULES.md, 7.1 Settings.

use super::refusal::{self, refuse, Refusal};

/// The channel rule is a percentage of the largest flow count, a number of cells, or none.
#[derive(Clone, Copy, Debug, PartialEq)]
pub enum Channel {
    Percentage(f64),
    Cells(u32),
    None,
}

impl Channel {
    /// The channel rule's word on a command line.
    pub fn word(self) -> String {
        match self {
            Channel::None => "none".to_string(),
            Channel::Cells(cells) => format!("cells:{cells}"),
            Channel::Percentage(share) => format!("percent:{share}"),
        }
    }

    /// The channel rule of this word.
    pub fn of(word: &str) -> Option<Channel> {
        match word.split_once(':') {
            None if word == "none" => Some(Channel::None),
            Some(("cells", cells)) => cells.parse().ok().map(Channel::Cells),
            Some(("percent", share)) => share.parse().ok().map(Channel::Percentage),
            _ => None,
        }
    }
}

/// The formula of S: the older one of Handbook 537, or the newer one of Handbook 703 (RUSLE).
#[derive(Clone, Copy, Debug, PartialEq, Eq)]
pub enum Formula {
    Older,
    Newer,
}

impl Formula {
    pub const ALL: [Formula; 2] = [Formula::Older, Formula::Newer];

    /// The formula's name on a command line.
    pub fn name(self) -> &'static str {
        match self {
            Formula::Older => "older",
            Formula::Newer => "newer",
        }
    }

    /// The formula of this name.
    pub fn of(name: &str) -> Option<Formula> {
        Formula::ALL.into_iter().find(|formula| formula.name() == name)
    }
}

/// The settings record holds two cutoffs as 64-bit floats, one for slopes under 5 percent and one for the rest, the
/// channel rule and the steepness formula.
#[derive(Clone, Copy, Debug, PartialEq)]
pub struct Settings {
    pub low: f64,
    pub high: f64,
    pub channel: Channel,
    pub formula: Formula,
}

/// The printer's settings: cutoffs 0.5, no channels and the older formula.
pub const PRINTER: Settings = Settings { low: 0.5, high: 0.5, channel: Channel::None, formula: Formula::Older };

/// The job's settings: the printer's, with channels from 1 percent of the largest flow count.
pub const JOB: Settings = Settings { channel: Channel::Percentage(1.0), ..PRINTER };

/// The library's defaults.
pub const LIBRARY: Settings =
    Settings { low: 0.7, high: 0.5, channel: Channel::Percentage(1.0), formula: Formula::Older };

/// The channel rule with its percentage in tenths.
#[derive(Clone, Copy)]
pub enum Rule {
    Tenths(u64),
    Cells(u64),
    None,
}

/// Accepted settings: cutoffs in whole percent, the channel rule and the steepness formula.
#[derive(Clone, Copy)]
pub struct Percents {
    pub low: i64,
    pub high: i64,
    pub rule: Rule,
    pub formula: Formula,
}

/// The whole percentage n of a cutoff, accepted exactly if it equals the float quotient n / 100, n from 0 to 100.
fn cutoff(x: f64) -> Option<i64> {
    (0..=100).find(|&n| x == n as f64 / 100.0)
}

/// The percentage is a 64-bit float and must equal n / 10 for a whole n from 0 to 1,000.
fn tenths(x: f64) -> Option<u64> {
    (0..=1_000).find(|&n| x == n as f64 / 10.0)
}

/// The channel rule; any 32-bit number of cells is accepted.
fn rule(channel: Channel) -> Option<Rule> {
    match channel {
        Channel::Percentage(x) => tenths(x).map(Rule::Tenths),
        Channel::Cells(cells) => Some(Rule::Cells(u64::from(cells))),
        Channel::None => Some(Rule::None),
    }
}

/// 4, a setting not accepted: the first bad one of 1 low cutoff, 2 high, 3 channel. Each formula is accepted.
pub fn percents(settings: Settings) -> Result<Percents, Refusal> {
    let Some(low) = cutoff(settings.low) else { return refuse(refusal::SETTING, 1) };
    let Some(high) = cutoff(settings.high) else { return refuse(refusal::SETTING, 2) };
    let Some(rule) = rule(settings.channel) else { return refuse(refusal::SETTING, 3) };
    Ok(Percents { low, high, rule, formula: settings.formula })
}

#[cfg(test)]
mod tests {
    use super::*;

    /// The place of the refusal, if these settings are refused.
    fn place(settings: Settings) -> Result<(), usize> {
        percents(settings).map(|_| ()).map_err(|refusal| refusal.place)
    }

    /// A cutoff is accepted exactly if it equals the float quotient n / 100.
    #[test]
    fn cutoffs() {
        assert_eq!([0.29, 1.0, -0.0, 0.07].map(cutoff), [Some(29), Some(100), Some(0), Some(7)]);
        assert_eq!([0.295, 1.01, -0.01, f64::NAN, 0.1 + 0.2, f64::INFINITY].map(cutoff), [None; 6]);
    }

    #[test]
    fn channels() {
        let channel = |channel| place(Settings { channel, ..PRINTER });
        assert_eq!([0.0, -0.0, 0.3, 1.0, 99.9, 100.0].map(|x| channel(Channel::Percentage(x))), [Ok(()); 6]);
        assert_eq!([0.1 + 0.2, 100.1, -0.1, f64::NAN].map(|x| channel(Channel::Percentage(x))), [Err(3); 4]);
        assert_eq!([0, u32::MAX].map(|cells| channel(Channel::Cells(cells))), [Ok(()); 2]);
    }

    #[test]
    fn the_first_bad_one_decides() {
        let bad = Settings { low: 2.0, high: 2.0, channel: Channel::Percentage(0.05), formula: Formula::Newer };
        assert_eq!(place(bad), Err(1));
        assert_eq!(place(Settings { low: 0.5, high: 0.005, ..bad }), Err(2));
        assert_eq!(place(Settings { low: 0.5, high: 0.5, ..bad }), Err(3));
    }

    #[test]
    fn channels_have_their_words() {
        let channels = [Channel::None, Channel::Cells(7), Channel::Percentage(0.5)];
        assert_eq!(channels.map(|channel| Channel::of(&channel.word())), channels.map(Some));
        assert_eq!(["", "None", "cells:", "cells:-1", "percent:x", "7"].map(Channel::of), [None; 6]);
    }

    /// A formula is accepted and handed on.
    #[test]
    fn formulas() {
        let handed_on = |formula| percents(Settings { formula, ..PRINTER }).map(|percents| percents.formula);
        assert_eq!(Formula::ALL.map(handed_on), [Ok(Formula::Older), Ok(Formula::Newer)]);
        assert_eq!(["older", "newer"].map(Formula::of), [Some(Formula::Older), Some(Formula::Newer)]);
        assert_eq!(["", "Newer", "1"].map(Formula::of), [None; 3]);
    }
}
