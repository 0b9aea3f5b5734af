//! What the modes share that run a program on generated sheets, or on generated files, and compare what it prints,
//! byte for byte, with what the model says.

use crate::model::Refusal;
use crate::{fail, refused_line, text_of, Counts};
use std::io::{ErrorKind, Write};
use std::ops::Range;
use std::process::{exit, Command, Stdio};

/// With fewer sheets than these it is not asked whether every kind was among them.
const ENOUGH: u64 = 1_000;

/// What a program prints for a sheet, or for what else it is given.
pub type Program<'a, T = [u8]> = &'a dyn Fn(&T) -> Vec<u8>;

/// What a mode has of its own.
pub struct Mode<T: ?Sized = [u8]> {
    pub word: &'static str,
    /// What a program is given, in words.
    pub given: &'static str,
    /// Compares what a program prints for the sheet, or the files, of one seed.
    pub compare_one: fn(Program<T>, u64, &mut Counts) -> Result<(), String>,
    /// The kinds of sheets, or of files, that are to be among many.
    pub kinds: &'static [&'static str],
    /// What was compared, in words.
    pub tally: fn(&Counts) -> String,
}

/// "or `refused N line L` with the number and the line".
pub fn printed(outcome: Result<Vec<u8>, Refusal>) -> Vec<u8> {
    outcome.unwrap_or_else(|refusal| refused_line("", refusal).into_bytes())
}

/// Compares a program, given by its path and its arguments with spaces between, on the sheets of some seeds.
pub fn compare(mode: &Mode, command: &str, seeds: Range<u64>) {
    with_program(command, |program| all_compared(mode, command, seeds, program));
}

/// Prints what comes of a comparison of such a program.
pub fn with_program(command: &str, compared: impl FnOnce(Program) -> Result<String, String>) {
    let words: Vec<&str> = command.split_whitespace().collect();
    end(compared(&|sheet| run(&words, sheet)));
}

/// What was compared, or what differs, or the kind that is missing.
pub fn all_compared<T: ?Sized>(
    mode: &Mode<T>, command: &str, seeds: Range<u64>, program: Program<T>,
) -> Result<String, String> {
    let mut counts = Counts::new();
    for seed in seeds.clone() {
        (mode.compare_one)(program, seed, &mut counts)
            .map_err(|difference| format!("{difference}again: compare {} '{command}' {seed} 1", mode.word))?;
    }
    let number = seeds.end - seeds.start;
    let compared = format!("{number} {} from seed {}, {}", mode.given, seeds.start, (mode.tally)(&counts));
    match mode.kinds.iter().find(|kind| number >= ENOUGH && !counts.contains_key(**kind)) {
        Some(kind) => Err(format!("{compared}: none {kind}")),
        None => Ok(format!("{compared}: no difference")),
    }
}

/// Prints what came of a comparison; the exit is 1 where something differs.
pub fn end(outcome: Result<String, String>) {
    println!("{}", outcome.as_ref().unwrap_or_else(|difference| difference));
    if outcome.is_err() {
        exit(1);
    }
}

/// Runs a program once. It may end before it has read all.
fn run(words: &[&str], sheet: &[u8]) -> Vec<u8> {
    let trouble = |error: std::io::Error| -> ! { fail(2, &format!("{}: {error}", words.join(" "))) };
    let (path, arguments) = words.split_first().unwrap_or_else(|| fail(2, "this needs a program"));
    let started = Command::new(path).args(arguments).stdin(Stdio::piped()).stdout(Stdio::piped()).spawn();
    let mut child = started.unwrap_or_else(|error| trouble(error));
    match child.stdin.take().expect("a pipe").write_all(sheet) {
        Err(error) if error.kind() != ErrorKind::BrokenPipe => trouble(error),
        _ => {}
    }
    child.wait_with_output().unwrap_or_else(|error| trouble(error)).stdout
}

/// What the program prints for a sheet, against what it is to print.
pub fn check(program: Program, which: &str, sheet: &[u8], right: &[u8]) -> Result<(), String> {
    same(&program(sheet), right).map_err(|words| format!("{which} of {}{words}", told(sheet)))
}

/// What is printed is what is to be printed; or words for both.
pub fn same(answer: &[u8], right: &[u8]) -> Result<(), String> {
    if answer == right { Ok(()) } else { Err(format!("printed are {}and not {}", told(answer), told(right))) }
}

/// So many bytes, line by line.
pub fn told(bytes: &[u8]) -> String {
    format!("{} bytes\n{}", bytes.len(), text_of(bytes))
}
