//! The mode `house`: a program that reads a sheet on standard input and prints its house form (02, points 2, 3 and 6),
//! against the model.

use crate::gen::{self, Rng};
use crate::model;
use crate::program::{check, printed, Mode, Program};
use crate::{count, text_of, Counts};

const KINDS: [&str; 6] = ["forms", "slow forms", "labelled forms", "64 rows", "refused 22", "refused otherwise"];

pub const HOUSE: Mode = Mode { word: "house", given: "sheets", compare_one, kinds: &KINDS, tally };

/// The sheet of one seed; where it has a form, also the form itself and another typing of the same procedure, and for
/// some a procedure that differs in one reaction, and one that differs in one event's label.
fn compare_one(program: Program, seed: u64, counts: &mut Counts) -> Result<(), String> {
    let mut rng = Rng::new(seed);
    let (kind, sheet) = gen::house_sheet(&mut rng);
    let outcome = model::house(&sheet);
    count(counts, kind.to_string());
    check(program, "the sheet", &sheet, &printed(outcome.clone()))?;
    match outcome {
        Ok(form) => {
            count(counts, "forms".to_string());
            check(program, "a form", &form, &form)?;
            let net = model::read(&sheet).expect("a sheet that has a form");
            let retyped = gen::retyped(&mut rng, &sheet, &net);
            check(program, &format!("a sheet retyped, which was\n{}and is", text_of(&sheet)), &retyped, &form)?;
            if net.is_slow() {
                count(counts, "slow forms".to_string());
            }
            if net.is_labelled() {
                count(counts, "labelled forms".to_string());
            }
            if model::rows_left(&net).len() == 64 {
                count(counts, "64 rows".to_string());
            }
            if net.signals.is_empty() || rng.chance(75) {
                return Ok(());
            }
            let slowed = gen::slowed(&mut rng, &sheet, &net);
            check(program, "a sheet with another reaction", &slowed, &printed(model::house(&slowed)))?;
            let Some(relabelled) = gen::relabelled(&mut rng, &sheet, &net) else { return Ok(()) };
            check(program, "a sheet with another label", &relabelled, &printed(model::house(&relabelled)))
        }
        Err(refusal) => {
            count(counts, if refusal.number == 22 { "refused 22" } else { "refused otherwise" }.to_string());
            Ok(())
        }
    }
}

/// What was compared.
fn tally(counts: &Counts) -> String {
    let of = |kind: &str| counts.get(kind).copied().unwrap_or(0);
    let made_for = ["drafted", "crowded", "brimming", "outdated", "damaged"];
    let kinds = made_for.map(|kind| format!("{} {kind}", of(kind)));
    let ends = ["refused 22", "refused otherwise"].map(|kind| format!("{} {kind}", of(kind)));
    let [slow, labelled, full] = ["slow forms", "labelled forms", "64 rows"].map(of);
    let some = format!("{slow} of them with reactions, {labelled} with labels and {full} with 64 rows");
    let forms = format!("{} forms, {some}", of("forms"));
    format!("{}; {forms}, each also for itself and retyped, {}", kinds.join(", "), ends.join(", "))
}
