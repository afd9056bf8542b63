//! The report over many fields. Each is mapped and gets a report of its own, some of them at a time; the library joins
//! these in the order of the command line, and its law of joining says that this is the report of the whole list.

use crate::files::Files;
use crate::flags::Field;
use crate::library::{self, Grids, Refusal, Report, SecondFarm, Settings};
use crate::output::{self, Output};
use crate::report_flags::ReportFlags;
use crate::{Map, Stop, jobs, lines, messages, summary};
use std::io::{self, IsTerminal, Write};
use std::path::Path;
use std::sync::atomic::{AtomicUsize, Ordering::Relaxed};
use std::time::Instant;

/// A refusal of a call for reports, with the name of what was to be added.
fn refused(name: &str, refusal: Refusal) -> Stop {
    Stop::Refused(refusal, format!("{name}: {}", messages::of_report(refusal)))
}

/// The report that was saved in a file.
fn saved(file: &Field) -> Result<Report, Stop> {
    let text = crate::read(file)?;
    lines::read(&text).map_err(|why| Stop::CouldNotRun(format!("--join: {}: {why}", file.name())))
}

/// The report of a map alone.
fn of_map(map: &Map, [first, second]: [Settings; 2]) -> Result<Report, Refusal> {
    let (mut report, Grids { count, factors, .. }) = (library::empty_report(), &map.grids);
    match &map.marks {
        None => library::add(&mut report, map.header, first, count, factors)?,
        Some(marks) => {
            let farm = SecondFarm { settings: second, marks };
            library::add_farms(&mut report, map.header, first, farm, count, factors)?;
        }
    }
    Ok(report)
}

/// The report of one field, by the marks of its farms where it has two, and the line for a terminal.
fn of_field(field: &Field, farms: Option<&Field>, settings: [Settings; 2]) -> Result<(Report, String), Stop> {
    let start = Instant::now();
    let files = Files::of_text(field)?.with_farms(farms)?;
    let map = files.map(settings)?;
    let report = of_map(&map, settings).map_err(|r| refused(&field.name(), r))?;
    Ok((report, summary::line(&map, start.elapsed().as_secs_f64())))
}

/// Joins what was saved, in the order of the command line.
fn joined(flags: &ReportFlags) -> Result<Report, Stop> {
    let mut whole = library::empty_report();
    for file in &flags.joined {
        library::join(&mut whole, &saved(file)?).map_err(|r| refused(&file.name(), r))?;
    }
    Ok(whole)
}

/// Joins the reports of the fields to a report. The first field that is no good decides.
fn with_fields(mut whole: Report, fields: &[Field], flags: &ReportFlags) -> Result<Report, Stop> {
    let told = !flags.quiet && io::stderr().is_terminal();
    let done = AtomicUsize::new(0);
    let farmed: Vec<_> = fields.iter().enumerate().map(|(number, field)| (field, flags.farms.get(number))).collect();
    let reports = jobs::in_order(&farmed, flags.jobs.unwrap_or_else(jobs::processors), |&(field, farms)| {
        let (report, line) = of_field(field, farms, flags.settings.farms)?;
        let number = done.fetch_add(1, Relaxed) + 1;
        if told {
            crate::tell(&format!("{number} of {}, {}: {line}", fields.len(), field.name()));
        }
        Ok(report)
    });
    for (field, report) in fields.iter().zip(reports) {
        library::join(&mut whole, &report?).map_err(|r| refused(&field.name(), r))?;
    }
    Ok(whole)
}

/// Puts the report into its file.
fn save(mut output: Output, text: &str) -> io::Result<()> {
    output.file.write_all(text.as_bytes())?;
    output.finish()
}

/// Makes the report, saves it and prints it. The file is begun before the fields, so that no long run is for nothing.
fn make(fields: &[Field], flags: &ReportFlags) -> Result<(), Stop> {
    for (files, what) in [(fields, "a field itself"), (&flags.farms, "the marks of a field")] {
        let is_read =
            |path: &Path| files.iter().any(|file| matches!(file, Field::File(file) if output::same(file, path)));
        if let Some(path) = flags.save.as_deref().filter(|path| is_read(path)) {
            return Err(Stop::CouldNotRun(format!("--save: {} is {what}", path.display())));
        }
    }
    let joined = joined(flags)?;
    let name = flags.save.as_deref().map_or("".into(), Path::to_string_lossy);
    let failed = |e| crate::cannot_write(&name, &e);
    let output = flags.save.as_deref().map(Output::begin).transpose().map_err(failed)?;
    let text = lines::text(&with_fields(joined, fields, flags)?);
    output.map_or(Ok(()), |output| save(output, &text)).map_err(failed)?;
    if flags.quiet { Ok(()) } else { crate::print(&text) }
}

/// The report that the command line asks for. A refusal of it is told on standard error alone.
pub fn run(fields: &[Field], flags: &ReportFlags) -> Result<(), Stop> {
    if flags.verbose {
        crate::tell_settings(&flags.settings.farms, !flags.farms.is_empty());
        fields.iter().zip(&flags.farms).for_each(|(field, farms)| crate::tell_farms(field, farms));
    }
    make(fields, flags).map_err(|stop| match stop {
        Stop::Refused(_, message) => Stop::NoReport(message),
        other => other,
    })
}
