//! The mode `table`: a program that reads a sheet on standard input and prints the listing of its least good table (01, The
//! printed listing), against the model.

use crate::gen::{self, Rng};
use crate::model;
use crate::program::{check, printed, Mode, Program};
use crate::{count, Counts};

/// Sheets refused for each reason, sheets without a table, and sheets with one; of these two also some with reactions
/// other than 1, and some with labelled events.
const KINDS: [&str; 19] = [
    "refused 1", "refused 2", "refused 3", "refused 4", "refused 5", "refused 6", "refused 7", "refused 8", "refused 9",
    "refused 10", "refused 20", "refused 21", "refused 22", "refused 13", "slow and refused 13",
    "labelled and refused 13", "listed", "slow and listed", "labelled and listed",
];

pub const TABLE: Mode = Mode { word: "table", given: "sheets", compare_one, kinds: &KINDS, tally };

/// The sheet of one seed.
fn compare_one(program: Program, seed: u64, counts: &mut Counts) -> Result<(), String> {
    let sheet = gen::table_sheet(&mut Rng::new(seed));
    let outcome = model::table(&sheet);
    let kind = match &outcome {
        Ok(_) => "listed".to_string(),
        Err(refusal) => format!("refused {}", refusal.number),
    };
    let net = model::read(&sheet).ok();
    if net.as_ref().is_some_and(|net| net.is_slow()) {
        count(counts, format!("slow and {kind}"));
    }
    if net.is_some_and(|net| net.is_labelled()) {
        count(counts, format!("labelled and {kind}"));
    }
    count(counts, kind);
    check(program, "the sheet", &sheet, &printed(outcome))
}

/// What was compared.
fn tally(counts: &Counts) -> String {
    KINDS.map(|kind| format!("{} {kind}", counts.get(kind).copied().unwrap_or(0))).join(", ")
}
