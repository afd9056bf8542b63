//! The comparison with a program that prints sheets: a process for each text, its output against this program's sheet.

use crate::rules::program::Program;
use crate::rules::sheet::sheet;
use crate::texts::{cases, telling};
use std::io::{self, Write};
use std::path::PathBuf;
use std::process::{Command, Stdio};

/// What the printer writes to standard output for a text. A printer that a signal ends has printed nothing.
fn printed(printer: &[&str], text: &[u8]) -> io::Result<Vec<u8>> {
    let mut command = Command::new(printer[0]);
    let started = command.args(&printer[1..]).stdin(Stdio::piped()).stdout(Stdio::piped()).spawn();
    let mut child = started.map_err(|fault| io::Error::other(format!("{}: {fault}", printer[0])))?;
    let mut input = child.stdin.take().expect("standard input is piped");
    match input.write_all(text) {
        Err(fault) if fault.kind() != io::ErrorKind::BrokenPipe => return Err(fault),
        _ => drop(input),
    }
    let output = child.wait_with_output()?;
    match output.status.code() {
        Some(_) => Ok(output.stdout),
        None => Ok(format!("ended by a signal: {}\n", output.status).into_bytes()),
    }
}

/// Where the text of a difference is kept: beside this program.
pub fn difference_file() -> io::Result<PathBuf> {
    Ok(std::env::current_exe()?.with_file_name("difference.txt"))
}

/// Keeps the text, shows both sheets and names the first line that differs.
fn report(number: usize, text: &[u8], printed: &[u8], expected: &str) -> io::Result<()> {
    let file = difference_file()?;
    std::fs::write(&file, text)?;
    let printed = String::from_utf8_lossy(printed);
    let same = printed.lines().zip(expected.lines()).take_while(|(one, other)| one == other).count();
    println!("the printer:\n{printed}");
    println!("the second program:\n{expected}");
    println!("case {number} differs in line {}; its text is in {}", same + 1, file.display());
    Err(io::Error::other("a difference"))
}

/// The text of one case: of the stream of cases, and for the job of that and of its telling texts in turn.
fn case(program: Program, seed: u64, number: usize) -> Vec<u8> {
    match program {
        Program::Printer => cases::case(seed, number),
        Program::Job if number % 2 == 0 => cases::case(seed, number / 2),
        Program::Job => telling::text(seed, number / 2),
    }
}

/// Compares the first cases of a seed; stops at the first difference.
pub fn compare(program: Program, seed: u64, cases: usize, printer: &[&str]) -> io::Result<()> {
    for number in 0..cases {
        let text = case(program, seed, number);
        let expected = sheet(&text, program.settings());
        let printed = printed(printer, &text)?;
        if printed != expected.as_bytes() {
            return report(number, &text, &printed, &expected);
        }
    }
    println!("{cases} cases, no difference");
    Ok(())
}
