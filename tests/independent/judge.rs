//! The mode `judge`: a program that reads `sheet.csv` and `listing.csv` in the folder that it is started in and prints
//! the judge's verdict on the listing's table (02, point 4), against the model. Each pair of files is written into a
//! folder for the time of the comparison.

use crate::gen::{self, Rng};
use crate::model::{self, Files, Refusal, Verdict};
use crate::program::{self, same, told, Mode, Program};
use crate::{count, fail, Counts};
use std::io::ErrorKind;
use std::ops::Range;
use std::path::{absolute, Path, PathBuf};
use std::process::{Command, Stdio};

/// Each verdict, each refusal of a listing on several lines, some of them for a sheet with labelled events, and files
/// that are missing, or longer than any that is read.
const KINDS: [&str; 20] = [
    "pass", "late", "rule", "unheard", "refused by the sheet", "18 line 1", "18 line 2", "18 further down",
    "18 behind the last case", "19 line 2", "19 line 3", "19 further down", "without a sheet", "without a listing",
    "with a longer sheet", "with a longer listing", "labelled pass", "labelled late", "labelled rule",
    "labelled unheard",
];

pub const JUDGE: Mode<Files> = Mode { word: "judge", given: "pairs of files", compare_one, kinds: &KINDS, tally };

/// The files of one seed.
fn compare_one(program: Program<Files>, seed: u64, counts: &mut Counts) -> Result<(), String> {
    let files = gen::files(&mut Rng::new(seed));
    let (sheet, listing) = files.bytes();
    let outcome = model::judge_listing(sheet, listing);
    kinds(&files, &outcome).into_iter().for_each(|kind| count(counts, kind.to_string()));
    same(&program(&files), model::judge_text(&outcome).as_bytes())
        .map_err(|words| format!("sheet.csv {}listing.csv {}{words}", scene(&files.sheet), scene(&files.listing)))
}

fn scene(file: &Option<Vec<u8>>) -> String {
    file.as_ref().map_or("is missing\n".to_string(), |bytes| format!("of {}", told(bytes)))
}

/// What is to be said of the listing, and what is odd about the files.
fn kinds(files: &Files, outcome: &Result<Verdict, Refusal>) -> Vec<&'static str> {
    let (sheet, listing) = files.bytes();
    let behind = model::read(sheet).map_or(0, |net| net.cases() + 2);
    let said = match *outcome {
        Ok(Verdict::Pass) => "pass",
        Ok(Verdict::Late { .. }) => "late",
        Ok(Verdict::Rule { .. }) => "rule",
        Ok(Verdict::Unheard { .. }) => "unheard",
        Err(Refusal { number: 18, line: 1 }) => "18 line 1",
        Err(Refusal { number: 18, line }) if line == behind => "18 behind the last case",
        Err(Refusal { number: 18, line: 2 }) => "18 line 2",
        Err(Refusal { number: 18, .. }) => "18 further down",
        Err(Refusal { number: 19, line: 2 }) => "19 line 2",
        Err(Refusal { number: 19, line: 3 }) => "19 line 3",
        Err(Refusal { number: 19, .. }) => "19 further down",
        Err(_) => "refused by the sheet",
    };
    let odd = [
        (files.sheet.is_none(), "without a sheet"),
        (files.listing.is_none(), "without a listing"),
        (sheet.len() > model::SHEET_MOST, "with a longer sheet"),
        (listing.len() > model::LISTING_MOST, "with a longer listing"),
    ];
    let labelled = model::read(sheet).is_ok_and(|net| net.is_labelled());
    let too = KINDS.into_iter().filter(|kind| labelled && kind.strip_prefix("labelled ") == Some(said));
    [said].into_iter().chain(too).chain(odd.into_iter().filter(|odd| odd.0).map(|odd| odd.1)).collect()
}

/// What was compared.
fn tally(counts: &Counts) -> String {
    KINDS.map(|kind| format!("{} {kind}", counts.get(kind).copied().unwrap_or(0))).join(", ")
}

// ---------------------------------------------------------------- The program's folder

/// Compares a program, given by its path and its arguments with spaces between, on the files of some seeds.
pub fn compare(command: &str, seeds: Range<u64>) {
    let room = Room::new(command);
    let outcome = program::all_compared(&JUDGE, command, seeds, &|files| room.run(files));
    drop(room);
    program::end(outcome);
}

/// A folder of our own that a program is run in; it is removed at the end.
struct Room {
    folder: PathBuf,
    words: Vec<String>,
}

impl Drop for Room {
    fn drop(&mut self) {
        let _ = std::fs::remove_dir_all(&self.folder);
    }
}

impl Room {
    /// The program is found from where we are, and not from its folder.
    fn new(command: &str) -> Self {
        let mut words: Vec<String> = command.split_whitespace().map(String::from).collect();
        let program = words.first_mut().unwrap_or_else(|| fail(2, "this needs a program"));
        if program.contains('/') {
            let path = absolute(&*program).unwrap_or_else(|error| fail(2, &format!("{program}: {error}")));
            *program = path.to_string_lossy().into_owned();
        }
        let folder = std::env::temp_dir().join(format!("compare-judge-{}", std::process::id()));
        std::fs::create_dir(&folder).unwrap_or_else(|error| fail(2, &format!("{}: {error}", folder.display())));
        Room { folder, words }
    }

    /// Ends all without leaving the folder behind.
    fn fail(&self, status: i32, words: &str) -> ! {
        let _ = std::fs::remove_dir_all(&self.folder);
        fail(status, &format!("{}: {words}", self.words.join(" ")))
    }

    /// Runs the program once on these files, which it is to leave alone.
    fn run(&self, files: &Files) -> Vec<u8> {
        let written = put(&self.folder, files).and_then(|_| {
            let mut command = Command::new(&self.words[0]);
            command.args(&self.words[1..]).current_dir(&self.folder).stdin(Stdio::null()).stderr(Stdio::inherit());
            command.output()
        });
        match (written, read(&self.folder)) {
            (Ok(output), Ok(left)) if left == *files => output.stdout,
            (Ok(_), Ok(_)) => self.fail(1, "it has changed its files"),
            (Err(error), _) | (_, Err(error)) => self.fail(2, &error.to_string()),
        }
    }
}

/// The names of the files, which the paper gives.
const NAMES: [&str; 2] = ["sheet.csv", "listing.csv"];

/// Writes the files that are there, and sees to it that the others are not.
fn put(folder: &Path, files: &Files) -> std::io::Result<()> {
    for (name, file) in NAMES.iter().zip([&files.sheet, &files.listing]) {
        match (file, std::fs::remove_file(folder.join(name))) {
            (Some(bytes), _) => std::fs::write(folder.join(name), bytes)?,
            (None, Err(error)) if error.kind() != ErrorKind::NotFound => return Err(error),
            (None, _) => {}
        }
    }
    Ok(())
}

/// The files of a folder; nothing for one that is not there.
pub fn read(folder: &Path) -> std::io::Result<Files> {
    let one = |name: &str| match std::fs::read(folder.join(name)) {
        Ok(bytes) => Ok(Some(bytes)),
        Err(error) if error.kind() == ErrorKind::NotFound => Ok(None),
        Err(error) => Err(error),
    };
    Ok(Files { sheet: one(NAMES[0])?, listing: one(NAMES[1])? })
}
