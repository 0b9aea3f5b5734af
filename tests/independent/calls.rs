//! The mode without a word: the C calls of `libopening.a` on generated sheets, tables, minutes, texts, listings and
//! lines, against the model.

use crate::floors;
use crate::gen::{self, Rng};
use crate::lent::{lend_bytes, lend_room, lend_text, Lent};
use crate::library::{self, Library, Question};
use crate::model::{self, Net, Refusal, Verdict};
use crate::rounds::{self, Run};
use crate::program::told;
use crate::{alike, count, lines, pace, text_of, Counts};
use std::process::exit;

// ---------------------------------------------------------------- The answers that the papers ask for

/// The number and the line stand in the lowest three bytes of every answer; on a refusal the other numbers are 0, but
/// for the count of rounds beside 13.
pub fn refusal_answer(refusal: Refusal) -> u64 {
    u64::from(refusal.number) | (refusal.line as u64) << 8
}

/// What is written or due stands in the next two bytes.
pub fn value_answer(value: usize) -> u64 {
    (value as u64) << 24
}

/// The count of rounds stands in the three bytes behind the minutes. It "goes with a solver's table and with refusal
/// 13"; beside every other refusal it is 0.
pub fn rounds_answer(outcome: &Result<&[u16], Refusal>, count: u32) -> u64 {
    match outcome {
        Ok(_) | Err(Refusal { number: 13, .. }) => u64::from(count) << 40,
        Err(_) => 0,
    }
}

/// The word and its three bytes: "Late case, event; Rule case, rule; Unheard case, case, event".
fn verdict_answer(verdict: Verdict) -> u64 {
    let (word, first, second, third) = match verdict {
        Verdict::Pass => (0, 0, 0, 0),
        Verdict::Late { case, event } => (1, case, event, 0),
        Verdict::Rule { case, rule } => (2, case, rule, 0),
        Verdict::Unheard { s, r, u } => (3, s, r, u),
    };
    word << 24 | (first as u64) << 32 | (second as u64) << 40 | (third as u64) << 48
}

/// A refusal of a call: "Lines are 0 for refusals 1 and 11 to 13", and "as for each later refusal whose request names no line".
pub fn of_call(number: u8) -> Refusal {
    Refusal { number, line: 0 }
}

/// What the solver does with a table of so many bytes: the sheet's own refusals, 12 and 13 in this order, or the
/// minutes.
fn solver_outcome(case: &Case, length: usize) -> Result<&[u16], Refusal> {
    let net = case.reading.as_ref().map_err(|refusal| *refusal)?;
    if length / 2 < net.cells() {
        return Err(of_call(12));
    }
    case.solved.as_deref().ok_or(of_call(13))
}

/// For a table of so many bytes that is handed in: the sheet's own refusals, then 11.
pub fn of_size(reading: &Result<Net, Refusal>, bytes: usize) -> Result<&Net, Refusal> {
    let net = reading.as_ref().map_err(|refusal| *refusal)?;
    if bytes == 2 * net.cells() { Ok(net) } else { Err(of_call(11)) }
}

/// The minutes of the whole pairs, low byte first.
pub fn minutes(table: &[u8]) -> Vec<u16> {
    table.chunks_exact(2).map(|pair| u16::from(pair[0]) + 256 * u16::from(pair[1])).collect()
}

/// What the judge says of these bytes: the sheet's own refusals, 11, then the verdict.
pub fn judge_outcome(reading: &Result<Net, Refusal>, table: &[u8]) -> Result<Verdict, Refusal> {
    of_size(reading, table.len()).map(|net| model::judge(net, &minutes(table)))
}

/// The sheet's own refusals, then 11, then what the player says.
fn due_outcome(reading: &Result<Net, Refusal>, table: &[u8], minute: u16, heard: &[u8]) -> Result<u16, Refusal> {
    of_size(reading, table.len()).and_then(|net| played(net, &minutes(table), minute, model::heard(heard)))
}

/// What is due by a table of the right length for those who have heard this list, if it is one: 14, 15 and 16, or the events.
pub fn played(net: &Net, table: &[u16], minute: u16, heard: Option<Vec<(u8, bool)>>) -> Result<u16, Refusal> {
    if model::judge(net, table) != Verdict::Pass {
        return Err(of_call(14));
    }
    heard.ok_or(15).and_then(|list| model::due(net, table, minute, &list)).map_err(of_call)
}

// ---------------------------------------------------------------- compare

/// A generated sheet, what the model reads in it, its table, and how many rounds this takes.
struct Case {
    sheet: Lent,
    reading: Result<Net, Refusal>,
    solved: Option<Vec<u16>>,
    rounds: u32,
}

impl Case {
    /// Its table and its rounds are only asked for where the sheet is for the solver too.
    fn new(rng: &mut Rng, sheet: &[u8], run: fn(&Net) -> Run) -> Self {
        let reading = model::read(sheet);
        let Run { count, table } = reading.as_ref().map_or(NO_RUN, run);
        Case { sheet: lend_text(rng, sheet), reading, solved: table, rounds: count }
    }
}

const NO_RUN: Run = Run { count: 0, table: None };

/// Plain rounds, whose table is the one by raising.
fn solve(net: &Net) -> Run {
    let run = rounds::run(net);
    assert_eq!(run.table, model::solve(net), "raising and rounds do not agree");
    run
}

pub fn compare(seed: u64, cases: u64) {
    let mut counts = Counts::new();
    for seed in seed..seed + cases {
        if let Err(words) = compare_one(&library::LIBRARY, seed, &mut counts) {
            println!("{words}\nagain: compare {seed} 1");
            exit(1);
        }
    }
    for (kind, count) in &counts {
        println!("{count:>8}  {kind}");
    }
    println!("{cases} cases from seed {seed}: no difference");
}

/// All calls for what one seed makes: the one that may stop a run for a sheet of its own.
pub fn compare_one(library: &Library, seed: u64, counts: &mut Counts) -> Result<(), String> {
    compare_others(library, seed, counts)?;
    floors::compare_one(library, seed, counts)
}

/// All other calls for a sheet, the converter's for one that is made for it too, at times those that write other texts
/// for a second sheet, which has more of what they turn on, and the writer of the heaviest sheets for a line.
pub fn compare_others(library: &Library, seed: u64, counts: &mut Counts) -> Result<(), String> {
    let mut rng = Rng::new(seed);
    let sheet = gen::sheet(&mut rng);
    let case = Case::new(&mut rng, &sheet, solve);
    count(counts, reading_kind(&case.reading));
    for length in solver_lengths(&mut rng, &case.reading) {
        let table = lend_room(&mut rng, length);
        compare_solver(library, &case, &table, counts)?;
    }
    let mut tables = vec![];
    for _ in 0..3 {
        let table = match &case.reading {
            Ok(net) => gen::table(&mut rng, net, case.solved.as_deref()),
            Err(_) => gen::any_bytes(&mut rng),
        };
        let table = lend_bytes(&mut rng, &table);
        compare_judge(library, &case, &table, counts)?;
        tables.push(table);
    }
    tables.extend(case.solved.as_ref().map(|solved| lend_bytes(&mut rng, &gen::bytes_of(solved))));
    let asked = if case.reading.is_ok() { &tables[..] } else { &tables[..1] };
    for table in asked {
        ask_player(&mut rng, library, &case, table, counts)?;
        ask_for_listing(&mut rng, library, &case, table, counts)?;
    }
    ask_for_house_form(&mut rng, library, &case, counts)?;
    ask_for_conversion(&mut rng, library, &case, counts)?;
    let former = gen::former_sheet(&mut rng);
    let former = Case::new(&mut rng, &former, |_| NO_RUN);
    ask_for_conversion(&mut rng, library, &former, counts)?;
    if rng.chance(15) {
        compare_long_texts(library, &mut rng, counts)?;
    }
    for _ in 0..if case.reading.is_ok() { 3 } else { 1 } {
        let listing = gen::listing(&mut rng, &sheet, case.reading.as_ref().ok(), case.solved.as_deref());
        ask_to_read(&mut rng, library, &case, &listing, counts)?;
    }
    ask_for_ring(&mut rng, library, counts)
}

/// House forms of about 64 rows, and listings with minutes of five digits.
fn compare_long_texts(library: &Library, rng: &mut Rng, counts: &mut Counts) -> Result<(), String> {
    let sheet = gen::text_sheet(rng);
    let case = Case::new(rng, &sheet, |_| NO_RUN);
    if let Ok(net) = &case.reading {
        let minutes = gen::wide_table(rng, net);
        let table = lend_bytes(rng, &gen::bytes_of(&minutes));
        ask_for_listing(rng, library, &case, &table, counts)?;
        ask_to_read(rng, library, &case, &model::listing(&sheet, net, &minutes), counts)?;
    }
    ask_for_house_form(rng, library, &case, counts)
}

/// Exact, generous, odd and too short tables; for a refused sheet a short and a long one.
pub fn solver_lengths(rng: &mut Rng, reading: &Result<Net, Refusal>) -> Vec<usize> {
    match reading {
        Err(_) => vec![rng.below(40), 600],
        Ok(net) => {
            let exact = 2 * net.cells();
            vec![exact, exact + 2 + rng.below(64), exact + 1, exact - 1, exact - 2, 0]
        }
    }
}

/// Some questions about a table, more where it is good.
fn ask_player(rng: &mut Rng, library: &Library, case: &Case, table: &Lent, counts: &mut Counts) -> Result<(), String> {
    let good = judge_outcome(&case.reading, table.slice()) == Ok(Verdict::Pass);
    for _ in 0..if good { 6 } else { 1 } {
        let minutes = minutes(table.slice());
        let minute = gen::minute(rng, case.reading.as_ref().ok(), &minutes);
        let heard = gen::heard(rng, case.reading.as_ref().ok(), &minutes, minute);
        let heard = lend_text(rng, &heard);
        compare_due(library, case, table, minute, &heard, counts)?;
    }
    Ok(())
}

fn ask_for_listing(rng: &mut Rng, library: &Library, case: &Case, table: &Lent, counts: &mut Counts) -> Result<(), String> {
    let net = of_size(&case.reading, table.length);
    let text = net.map(|net| model::listing(case.sheet.slice(), net, &minutes(table.slice())));
    for room in rooms(rng, &text) {
        compare_listing(library, case, table, &text, &lend_room(rng, room), counts)?;
    }
    Ok(())
}

fn ask_for_house_form(rng: &mut Rng, library: &Library, case: &Case, counts: &mut Counts) -> Result<(), String> {
    let text = model::house(case.sheet.slice());
    for room in rooms(rng, &text) {
        compare_house(library, case, &text, &lend_room(rng, room), counts)?;
    }
    Ok(())
}

fn ask_for_conversion(rng: &mut Rng, library: &Library, case: &Case, counts: &mut Counts) -> Result<(), String> {
    let text = model::convert(case.sheet.slice());
    for room in rooms(rng, &text) {
        compare_convert(library, case, &text, &lend_room(rng, room), counts)?;
    }
    Ok(())
}

/// A line, and the rooms of other texts: exact or a byte less, and another; where it is in order, all four.
fn ask_for_ring(rng: &mut Rng, library: &Library, counts: &mut Counts) -> Result<(), String> {
    let line = lines::line(rng);
    let text = model::ring(&line);
    let line = lend_text(rng, &line);
    let mut lengths = rooms(rng, &text).to_vec();
    if let Ok(text) = &text {
        lengths = vec![text.len(), text.len() - 1, text.len() + 1 + rng.below(64), lengths[1], 0];
    }
    for room in lengths {
        compare_ring(library, &line, &text, &lend_room(rng, room), counts)?;
    }
    Ok(())
}

/// A listing is read into tables as they are lent to the solver, of which some are enough where it is refused; where
/// it is not, what was read is printed.
fn ask_to_read(
    rng: &mut Rng, library: &Library, case: &Case, listing: &[u8], counts: &mut Counts,
) -> Result<(), String> {
    let listing = lend_text(rng, listing);
    let net = case.reading.as_ref().map_err(|refusal| *refusal);
    let recovered = net.and_then(|net| model::returned(case.sheet.slice(), net, listing.slice()));
    count(counts, reader_kind(&case.reading, &recovered));
    let mut lengths = solver_lengths(rng, &case.reading);
    if recovered.is_err() {
        lengths = vec![rng.pick(&lengths), rng.pick(&lengths), 600];
    }
    for length in lengths {
        let table = lend_room(rng, length);
        let right = recovered.clone().and_then(|minutes| model::fitting(minutes, length / 2));
        compare_reader(library, case, &listing, &table, &right)?;
    }
    match recovered {
        Ok(minutes) => compare_printed_back(library, case, &listing, 2 * minutes.len()),
        Err(_) => Ok(()),
    }
}

/// Two lengths to lend for a text: exact or a byte less, and another; for a refusal an empty room or a short one, and a long one.
fn rooms(rng: &mut Rng, text: &Result<Vec<u8>, Refusal>) -> [usize; 2] {
    match text {
        Err(_) => [rng.pick(&[0, 1, 40]), rng.pick(&[600, 4_096, 5_000])],
        Ok(text) => {
            let exact = text.len();
            let other = match rng.below(4) {
                0 => 0,
                1 => rng.below(exact),
                2 => exact + 1,
                _ => exact + 2 + rng.below(64),
            };
            [exact - rng.below(2), other]
        }
    }
}

// ---------------------------------------------------------------- One call

/// One call of the solver, with its count of rounds.
fn compare_solver(library: &Library, case: &Case, table: &Lent, counts: &mut Counts) -> Result<(), String> {
    let outcome = solver_outcome(case, table.length);
    let (sheet, mut lent) = (case.sheet.clone(), table.clone());
    let answer = (library.solve)(sheet.slice(), lent.slice_mut());
    let (right, asked) = match outcome {
        Err(refusal) => (refusal_answer(refusal), table.clone()),
        Ok(minutes) => (value_answer(minutes.len()), table.with(&gen::bytes_of(minutes))),
    };
    let right = right | rounds_answer(&outcome, case.rounds);
    count(counts, solver_kind(case, &outcome));
    if right >> 40 != 0 {
        count(counts, rounds_kind(&outcome, case.rounds));
    }
    check("solver", (right, answer), &[("table", &asked, &lent), ("sheet", &case.sheet, &sheet)])
        .map_err(|words| words + &scene(case, Some(table)))
}

/// One call of the judge; it alters nothing.
fn compare_judge(library: &Library, case: &Case, table: &Lent, counts: &mut Counts) -> Result<(), String> {
    let outcome = judge_outcome(&case.reading, table.slice());
    let (sheet, lent) = (case.sheet.clone(), table.clone());
    let answer = (library.judge)(sheet.slice(), lent.slice());
    let right = outcome.map_or_else(refusal_answer, verdict_answer);
    count(counts, judge_kind(&outcome));
    check("judge", (right, answer), &[("table", table, &lent), ("sheet", &case.sheet, &sheet)])
        .map_err(|words| words + &scene(case, Some(table)))
}

/// One call of the player; it alters nothing.
fn compare_due(library: &Library, case: &Case, table: &Lent, minute: u16, heard: &Lent, counts: &mut Counts) -> Result<(), String> {
    let outcome = due_outcome(&case.reading, table.slice(), minute, heard.slice());
    let (sheet, lent, text) = (case.sheet.clone(), table.clone(), heard.clone());
    let answer = (library.due)(Question { sheet: sheet.slice(), table: lent.slice(), minute, heard: text.slice() });
    let right = outcome.map_or_else(refusal_answer, |events| value_answer(events.into()));
    count(counts, due_kind(&outcome, heard.slice()));
    check("player", (right, answer), &[("table", table, &lent), ("sheet", &case.sheet, &sheet), ("text", heard, &text)])
        .map_err(|words| format!("{words}minute {minute}, heard \"{}\"\n{}", heard.slice().escape_ascii(), scene(case, Some(table))))
}

/// What a text into this room leaves there, and the answer: the text's own refusal, then 12.
fn written(text: &Result<Vec<u8>, Refusal>, room: &Lent) -> (Lent, Result<usize, Refusal>) {
    match text.clone().and_then(|text| model::within(text, room.length)) {
        Err(refusal) => (room.clone(), Err(refusal)),
        Ok(text) => (room.with(&text), Ok(text.len())),
    }
}

/// One call of the listing writer.
fn compare_listing(
    library: &Library, case: &Case, table: &Lent, text: &Result<Vec<u8>, Refusal>, room: &Lent, counts: &mut Counts,
) -> Result<(), String> {
    let (asked, outcome) = written(text, room);
    let (sheet, lent, mut out) = (case.sheet.clone(), table.clone(), room.clone());
    let answer = (library.listing)(sheet.slice(), lent.slice(), out.slice_mut());
    let right = outcome.map_or_else(refusal_answer, value_answer);
    count(counts, text_kind("listing", &outcome));
    check("listing writer", (right, answer), &[("buffer", &asked, &out), ("table", table, &lent), ("sheet", &case.sheet, &sheet)])
        .map_err(|words| format!("{words}room for {} bytes\n{}", room.length, scene(case, Some(table))))
}

/// One call of the writer of house forms.
fn compare_house(
    library: &Library, case: &Case, text: &Result<Vec<u8>, Refusal>, room: &Lent, counts: &mut Counts,
) -> Result<(), String> {
    let (asked, outcome) = written(text, room);
    let (sheet, mut out) = (case.sheet.clone(), room.clone());
    let answer = (library.house)(sheet.slice(), out.slice_mut());
    let right = outcome.map_or_else(refusal_answer, value_answer);
    count(counts, text_kind("house form", &outcome));
    check("house form", (right, answer), &[("buffer", &asked, &out), ("sheet", &case.sheet, &sheet)])
        .map_err(|words| format!("{words}room for {} bytes\n{}", room.length, scene(case, None)))
}

/// One call of the converter.
fn compare_convert(
    library: &Library, case: &Case, text: &Result<Vec<u8>, Refusal>, room: &Lent, counts: &mut Counts,
) -> Result<(), String> {
    let (asked, outcome) = written(text, room);
    let (sheet, mut out) = (case.sheet.clone(), room.clone());
    let answer = (library.convert)(sheet.slice(), out.slice_mut());
    let right = outcome.map_or_else(refusal_answer, value_answer);
    let changed = if text.as_deref() == Ok(case.sheet.slice()) { "unchanged sheet" } else { "converted sheet" };
    count(counts, text_kind(changed, &outcome));
    check("converter", (right, answer), &[("buffer", &asked, &out), ("sheet", &case.sheet, &sheet)])
        .map_err(|words| format!("{words}room for {} bytes\n{}", room.length, scene(case, None)))
}

/// One call of the writer of the heaviest sheets.
fn compare_ring(
    library: &Library, line: &Lent, text: &Result<Vec<u8>, Refusal>, room: &Lent, counts: &mut Counts,
) -> Result<(), String> {
    let (asked, outcome) = written(text, room);
    let (asking, mut out) = (line.clone(), room.clone());
    let answer = (library.ring)(asking.slice(), out.slice_mut());
    let right = outcome.map_or_else(refusal_answer, value_answer);
    count(counts, text_kind("heaviest sheet", &outcome));
    check("heaviest sheet", (right, answer), &[("buffer", &asked, &out), ("line", line, &asking)])
        .map_err(|words| format!("{words}room for {} bytes\nline of {}", room.length, told(line.slice())))
}

/// One call of the reader of listings.
fn compare_reader(
    library: &Library, case: &Case, listing: &Lent, table: &Lent, right: &Result<Vec<u16>, Refusal>,
) -> Result<(), String> {
    let (sheet, text, mut lent) = (case.sheet.clone(), listing.clone(), table.clone());
    let answer = (library.read_listing)(sheet.slice(), text.slice(), lent.slice_mut());
    let (right, asked) = match right {
        Err(refusal) => (refusal_answer(*refusal), table.clone()),
        Ok(minutes) => (value_answer(minutes.len()), table.with(&gen::bytes_of(minutes))),
    };
    let memory = [("table", &asked, &lent), ("listing", listing, &text), ("sheet", &case.sheet, &sheet)];
    check("reader of listings", (right, answer), &memory)
        .map_err(|words| words + &listing_scene(listing) + &scene(case, Some(table)))
}

/// "a listing that is accepted prints back to its own bytes": what the library reads into a table of so many bytes, it
/// writes.
fn compare_printed_back(library: &Library, case: &Case, listing: &Lent, length: usize) -> Result<(), String> {
    let (mut table, mut text) = (vec![0; length], vec![0; listing.length]);
    (library.read_listing)(case.sheet.slice(), listing.slice(), &mut table);
    let answer = (library.listing)(case.sheet.slice(), &table, &mut text);
    if text == listing.slice() && answer == value_answer(text.len()) {
        return Ok(());
    }
    let words = format!("a listing is read and printed as\n{}", text_of(&text));
    Err(words + &listing_scene(listing) + &scene(case, None))
}

fn listing_scene(listing: &Lent) -> String {
    format!("listing of {} bytes\n{}", listing.length, text_of(listing.slice()))
}

/// A call's answer, and each part of lent memory, its guards too: first what it is to be, then what it is.
pub fn check(call: &str, (right, answer): (u64, u64), memory: &[(&str, &Lent, &Lent)]) -> Result<(), String> {
    if answer != right {
        let bytes = |answer: u64| answer.to_le_bytes().map(|byte| byte.to_string()).join(" ");
        return Err(format!("the {call} answers the bytes\n  {}\nand not\n  {}\n", bytes(answer), bytes(right)));
    }
    for (which, right, lent) in memory {
        lent.is(right).map_err(|words| format!("the {call}'s {which} has {words}\n"))?;
    }
    Ok(())
}

fn scene(case: &Case, table: Option<&Lent>) -> String {
    scene_of(&case.sheet, table)
}

/// The sheet and the table, so that the call can be made by hand.
pub fn scene_of(sheet: &Lent, table: Option<&Lent>) -> String {
    let sheet = format!("sheet of {} bytes\n{}", sheet.length, text_of(sheet.slice()));
    sheet + &table.map_or(String::new(), |table| format!("table of {} bytes {:?}", table.length, table.slice()))
}

// ---------------------------------------------------------------- What was compared, in words

fn reading_kind(reading: &Result<Net, Refusal>) -> String {
    match reading {
        Ok(net) => format!("sheet accepted, {}", pace(net)),
        Err(refusal) => format!("sheet refused {:>2}", refusal.number),
    }
}

fn solver_kind(case: &Case, outcome: &Result<&[u16], Refusal>) -> String {
    match (&case.reading, outcome) {
        (Ok(net), Ok(_)) if net.is_labelled() => "solver wrote a table, with blanks".to_string(),
        (Ok(net), Ok(table)) => format!("solver wrote a table, {}", alike(net, table)),
        (Ok(net), Err(Refusal { number: 13, .. })) if net.is_labelled() => "solver refused 13, labelled".to_string(),
        (_, Ok(_)) => "solver wrote a table for a refused sheet".to_string(),
        (_, Err(refusal)) => format!("solver refused {:>2}", refusal.number),
    }
}

fn judge_kind(outcome: &Result<Verdict, Refusal>) -> String {
    match outcome {
        Ok(Verdict::Pass) => "judge pass".to_string(),
        Ok(Verdict::Late { .. }) => "judge late".to_string(),
        Ok(Verdict::Rule { .. }) => "judge rule".to_string(),
        Ok(Verdict::Unheard { s, r, .. }) => format!("judge unheard, {} signals differ", (s ^ r).count_ones()),
        Err(refusal) => format!("judge refused {:>2}", refusal.number),
    }
}

fn due_kind(outcome: &Result<u16, Refusal>, heard: &[u8]) -> String {
    match outcome {
        Ok(events) => {
            let signals = heard.iter().filter(|byte| byte.is_ascii_lowercase()).count();
            format!("player, {signals} signals heard: {}", if *events == 0 { "nothing is due" } else { "events are due" })
        }
        Err(refusal) => format!("player refused {:>2}", refusal.number),
    }
}

/// How many rounds: few most often.
fn rounds_kind(outcome: &Result<&[u16], Refusal>, rounds: u32) -> String {
    let to = if outcome.is_ok() { "a table" } else { "13" };
    match rounds {
        0..=9 => format!("solver's rounds to {to}: {rounds}"),
        10..=255 => format!("solver's rounds to {to}: 10 to 255"),
        _ => format!("solver's rounds to {to}: more than 255"),
    }
}

fn text_kind(what: &str, outcome: &Result<usize, Refusal>) -> String {
    match outcome {
        Ok(_) => format!("{what} written"),
        Err(refusal) => format!("{what} refused {:>2}", refusal.number),
    }
}

/// The verdict on what is read, or the refusal, with its line where it is the listing's.
fn reader_kind(reading: &Result<Net, Refusal>, recovered: &Result<Vec<u16>, Refusal>) -> String {
    match (reading, recovered) {
        (Ok(_), Err(refusal)) => format!("listing back refused {} line {:>2}", refusal.number, refusal.line),
        (Ok(net), Ok(table)) => format!("listing back, {}", judge_kind(&Ok(model::judge(net, table)))),
        (Err(refusal), _) => format!("listing back, sheet refused {:>2}", refusal.number),
    }
}
