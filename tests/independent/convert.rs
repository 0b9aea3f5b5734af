//! The mode `convert`: a program that reads a sheet on standard input and prints it without its `fix` rows (02, point
//! 7), against the model.

use crate::gen::{self, Rng};
use crate::model::{self, Kind};
use crate::program::{check, printed, Mode, Program};
use crate::{count, Counts};

/// Sheets without a `fix`, with some and with nothing else; some that have reactions other than 1, or labelled events;
/// some whose count gets a digit more, and some of which 64 rows result; and sheets refused for each reason.
const KINDS: [&str; 20] = [
    "unchanged", "converted", "fix rows only", "slow", "labelled", "from 9 rows or fewer to 10 or more", "64 rows",
    "refused 17", "refused 1", "refused 2", "refused 3", "refused 4", "refused 5", "refused 6", "refused 7",
    "refused 8", "refused 9", "refused 10", "refused 20", "refused 21",
];

pub const CONVERT: Mode = Mode { word: "convert", given: "sheets", compare_one, kinds: &KINDS, tally };

/// The sheet of one seed; where it is converted, also what it is converted to, of which every byte is to stay.
fn compare_one(program: Program, seed: u64, counts: &mut Counts) -> Result<(), String> {
    let sheet = gen::former_sheet(&mut Rng::new(seed));
    let outcome = model::convert(&sheet);
    kinds(&sheet).into_iter().for_each(|kind| count(counts, kind));
    check(program, "the sheet", &sheet, &printed(outcome.clone()))?;
    match outcome {
        Ok(converted) => check(program, "a converted sheet", &converted, &converted),
        Err(_) => Ok(()),
    }
}

/// What there is to see in a sheet.
fn kinds(sheet: &[u8]) -> Vec<String> {
    if let Err(refusal) = model::convert(sheet) {
        return vec![format!("refused {}", refusal.number)];
    }
    let net = model::read_formerly(sheet).expect("a sheet that is converted");
    let fixes = net.rules.iter().filter(|rule| rule.kind == Kind::Fix).count();
    let rows = net.rules.len() + fixes;
    let seen = [
        (fixes == 0, "unchanged"),
        (fixes > 0, "converted"),
        (fixes > 0 && fixes == net.rules.len(), "fix rows only"),
        (fixes > 0 && net.is_slow(), "slow"),
        (fixes > 0 && net.is_labelled(), "labelled"),
        (net.rules.len() < 10 && rows >= 10, "from 9 rows or fewer to 10 or more"),
        (fixes > 0 && rows == 64, "64 rows"),
    ];
    seen.into_iter().filter(|kind| kind.0).map(|kind| kind.1.to_string()).collect()
}

/// What was compared.
fn tally(counts: &Counts) -> String {
    KINDS.map(|kind| format!("{} {kind}", counts.get(kind).copied().unwrap_or(0))).join(", ")
}
