//! The programs that print a sheet, each with its settings. States docs/RULES.md, 9.3 The programs.

use super::settings::{Settings, JOB, PRINTER};

#[derive(Clone, Copy, Debug, PartialEq, Eq)]
pub enum Program {
    Printer,
    Job,
}

impl Program {
    /// The program of this name.
    pub fn of(name: &str) -> Option<Program> {
        match name {
            "printer" => Some(Program::Printer),
            "job" => Some(Program::Job),
            _ => None,
        }
    }

    pub fn settings(self) -> Settings {
        match self {
            Program::Printer => PRINTER,
            Program::Job => JOB,
        }
    }
}

#[cfg(test)]
mod tests {
    use super::*;
    use crate::rules::settings::{percents, Formula, Rule};

    #[test]
    fn programs_have_their_names() {
        assert_eq!(["printer", "job"].map(Program::of), [Some(Program::Printer), Some(Program::Job)]);
        assert_eq!(["", "Job", "job ", "lsmap"].map(Program::of), [None; 4]);
    }

    /// docs/RULES.md, 9.3: they differ in the channel rule alone.
    #[test]
    fn programs_have_their_settings() {
        let percents = |program: Program| percents(program.settings()).expect("a program's settings are accepted");
        let (printer, job) = (percents(Program::Printer), percents(Program::Job));
        assert_eq!([printer.low, printer.high, job.low, job.high], [50; 4]);
        assert!(matches!((printer.rule, job.rule), (Rule::None, Rule::Tenths(10))));
        assert_eq!([printer.formula, job.formula], [Formula::Older; 2]);
    }
}
