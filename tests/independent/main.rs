//! The comparison of `libopening.a` and `libtally.a`, and of programs that print tables, house forms, converted sheets,
//! verdicts or the heaviest sheets, with the model of documents 01 and 02.
//!
//! compare [SEED [COUNT]]                  generated sheets, tables, numbers of rounds, texts, listings and lines,
//!                                         every answer and every lent byte compared
//! compare table PROGRAM [SEED [COUNT]]    generated sheets, what a program that prints tables prints for each compared
//! compare house PROGRAM [SEED [COUNT]]    the same for a program that prints house forms
//! compare convert PROGRAM [SEED [COUNT]]  the same for a program that prints sheets without their `fix` rows
//! compare judge PROGRAM [SEED [COUNT]]    generated sheets and listings, as files in a folder for a program that
//!                                         judges a listing's table, what it prints for each pair compared
//! compare ring PROGRAM [SEED [COUNT]]     the heaviest sheets for every n at some H, what a program prints, what the
//!                                         library writes, how many rounds it takes to solve it and the floors on the
//!                                         way; then generated lines, what the program prints for each
//! compare numbers                         each number that the library can write, in listings, house forms, converted
//!                                         and heaviest sheets
//! compare count [SEED [COUNT]]            generated sheets of many rounds, the count of rounds and the table compared,
//!                                         also of the C call, and the floors at many numbers of rounds
//! compare count-files FILE..              the same for given sheets, with a line for each
//! compare expected DIR                    the answers that the papers ask for the trial files DIR/001.csv or 001.fix,
//!                                         002.csv or 002.fix, ..
//! compare selftest [SEED [COUNT]]         the model's solvers against each other, and forms and converted sheets
//!                                         against sheets, on tiny sheets; its readers of listings against each other
//!
//! compare faults [SEED [COUNT]]           that the comparison notices each wrong program of faults.rs, heavy.rs and
//!                                         early.rs
//! compare table-faults [SEED [COUNT]]     that `table` notices each wrong program of printers.rs, for tables
//! compare house-faults [SEED [COUNT]]     that `house` notices each wrong program of printers.rs, for house forms
//! compare convert-faults [SEED [COUNT]]   that `convert` notices each wrong program of printers.rs, for sheets
//! compare judge-faults [SEED [COUNT]]     that `judge` notices each wrong program of verdicts.rs
//! compare ring-faults [SEED [COUNT]]      that `ring` notices each wrong program of heavy.rs, and some of early.rs
//! compare numbers-faults                  that `numbers` notices each wrong program of digits.rs
//! compare count-faults [SEED [COUNT]]     that `count` notices each wrong program of leaps.rs, and some of heavy.rs
//!                                         and early.rs
//! compare table-standin [FAULT]           the model as a program that prints tables, or one of the wrong ones
//! compare house-standin [FAULT]           the same for house forms
//! compare convert-standin [FAULT]         the same for sheets without their `fix` rows
//! compare judge-standin [FAULT]           the same for verdicts on the listing in the folder that it is started in
//! compare ring-standin [FAULT]            the same for the heaviest sheets
//!
//! Build: rustc --edition 2021 -O -o compare main.rs -L native=DIR   (DIR has libopening.a and libtally.a)
//!    or: rustc --edition 2021 -O -o compare main.rs --cfg standalone

mod calls;
mod convert;
mod converters;
mod digits;
mod early;
mod faults;
mod floors;
mod gen;
mod heavy;
mod house;
mod judge;
mod labels;
mod leaps;
mod lent;
mod library;
mod lines;
mod long;
mod model;
mod printers;
mod program;
mod readers;
mod retired;
mod ring;
mod ringers;
mod rounds;
mod sections;
mod table;
mod tally;
mod verdicts;

use calls::{judge_outcome, minutes, of_call, of_size, played};
use convert::CONVERT;
use faults::FAULTS;
use gen::Rng;
use house::HOUSE;
use judge::JUDGE;
use leaps::COUNT_FAULTS;
use library::{own, Library};
use model::{Files, Kind, Net, Refusal, Verdict};
use printers::{Printer, CONVERT_FAULTS, HOUSE_FAULTS, TABLE_FAULTS};
use program::Mode;
use rounds::{Floor, Kept, Run};
use std::collections::BTreeMap;
use std::io::{Read, Write};
use std::ops::Range;
use std::path::Path;
use std::process::exit;
use table::TABLE;
use tally::Counting;
use verdicts::{Judging, JUDGE_FAULTS};

const SEED: u64 = 1;
const COUNT: u64 = 20_000;
const FAULT_COUNT: u64 = 4_000;
const TINY_COUNT: u64 = 5_000;
const PROGRAM_COUNT: u64 = 2_000;
const LONG_COUNT: u64 = 400;
const LONG_FAULT_COUNT: u64 = 100;
/// So many rounds are few.
const FEW_ROUNDS: u32 = 300;

const USAGE: &str = "usage: compare [SEED [COUNT]] | table PROGRAM [SEED [COUNT]] | house PROGRAM [SEED [COUNT]] | \
    convert PROGRAM [SEED [COUNT]] | judge PROGRAM [SEED [COUNT]] | ring PROGRAM [SEED [COUNT]] | numbers | \
    count [SEED [COUNT]] | count-files FILE.. | expected DIR | selftest [SEED [COUNT]] | faults [SEED [COUNT]] | \
    table-faults [SEED [COUNT]] | house-faults [SEED [COUNT]] | convert-faults [SEED [COUNT]] | \
    judge-faults [SEED [COUNT]] | ring-faults [SEED [COUNT]] | numbers-faults | count-faults [SEED [COUNT]] | \
    table-standin [FAULT] | house-standin [FAULT] | convert-standin [FAULT] | judge-standin [FAULT] | \
    ring-standin [FAULT]";

const NO_FAULT: &str = "this is no fault of printers.rs, verdicts.rs or heavy.rs";

fn main() {
    let arguments: Vec<String> = std::env::args().skip(1).collect();
    let words: Vec<&str> = arguments.iter().map(String::as_str).collect();
    match words[..] {
        ["table", program, ref numbers @ ..] => program::compare(&TABLE, program, seeds(numbers, PROGRAM_COUNT)),
        ["house", program, ref numbers @ ..] => program::compare(&HOUSE, program, seeds(numbers, PROGRAM_COUNT)),
        ["convert", program, ref numbers @ ..] => program::compare(&CONVERT, program, seeds(numbers, PROGRAM_COUNT)),
        ["judge", program, ref numbers @ ..] => judge::compare(program, seeds(numbers, PROGRAM_COUNT)),
        ["ring", program, ref numbers @ ..] => ring::compare(program, seeds(numbers, PROGRAM_COUNT)),
        ["numbers"] => compare_numbers(),
        ["count", ref numbers @ ..] => tally::compare(number(numbers, 0, SEED), number(numbers, 1, LONG_COUNT)),
        ["count-files", ref paths @ ..] if !paths.is_empty() => tally::compare_files(paths),
        ["expected", directory] => print(&expected(directory)),
        ["selftest", ref numbers @ ..] => selftest(number(numbers, 0, SEED), number(numbers, 1, TINY_COUNT)),
        ["faults", ref numbers @ ..] => notice_faults(seeds(numbers, FAULT_COUNT)),
        ["table-faults", ref numbers @ ..] => {
            notice_printers(&TABLE, printers::table_by_fields, &TABLE_FAULTS, seeds(numbers, PROGRAM_COUNT))
        }
        ["house-faults", ref numbers @ ..] => {
            notice_printers(&HOUSE, printers::house_by_sorting, &HOUSE_FAULTS, seeds(numbers, PROGRAM_COUNT))
        }
        ["convert-faults", ref numbers @ ..] => {
            notice_printers(&CONVERT, printers::convert_by_rows, &CONVERT_FAULTS, seeds(numbers, PROGRAM_COUNT))
        }
        ["judge-faults", ref numbers @ ..] => notice_judges(seeds(numbers, PROGRAM_COUNT)),
        ["ring-faults", ref numbers @ ..] => notice_rings(seeds(numbers, PROGRAM_COUNT)),
        ["numbers-faults"] => notice("numbers-faults", &digits::RIGHT, &digits::FAULTS, digits::compare_all),
        ["count-faults", ref numbers @ ..] => {
            notice_count_faults(number(numbers, 0, SEED), number(numbers, 1, LONG_FAULT_COUNT))
        }
        ["table-standin"] => standin(model::table),
        ["table-standin", name] => standin(fault_named(&TABLE_FAULTS, name)),
        ["house-standin"] => standin(model::house),
        ["house-standin", name] => standin(fault_named(&HOUSE_FAULTS, name)),
        ["convert-standin"] => standin(model::convert),
        ["convert-standin", name] => standin(fault_named(&CONVERT_FAULTS, name)),
        ["judge-standin"] => judge_standin(verdicts::right),
        ["judge-standin", name] => judge_standin(fault_named(&JUDGE_FAULTS, name)),
        ["ring-standin"] => standin(model::ring),
        ["ring-standin", name] => standin(heavy::printer(name).unwrap_or_else(|| fail(2, NO_FAULT))),
        ref numbers => calls::compare(number(numbers, 0, SEED), number(numbers, 1, COUNT)),
    }
}

fn compare_numbers() {
    if let Err((_, words)) = digits::compare_all(&library::LIBRARY) {
        println!("{words}");
        exit(1);
    }
    println!("{}", digits::words());
}

fn number(words: &[&str], place: usize, otherwise: u64) -> u64 {
    match words.get(place).map(|word| word.parse()) {
        None => otherwise,
        Some(Ok(number)) if words.len() <= 2 => number,
        Some(_) => fail(2, USAGE),
    }
}

fn seeds(words: &[&str], count: u64) -> Range<u64> {
    let first = number(words, 0, SEED);
    first..first + number(words, 1, count)
}

fn fail(status: i32, words: &str) -> ! {
    eprintln!("{words}");
    exit(status)
}

fn print(text: &[u8]) {
    std::io::stdout().write_all(text).unwrap_or_else(|error| fail(2, &error.to_string()));
}

/// How often each kind of something was among what was compared.
type Counts = BTreeMap<String, u64>;

fn count(counts: &mut Counts, kind: String) {
    *counts.entry(kind).or_insert(0) += 1;
}

/// The lines of some bytes, each with its line feed written out.
fn text_of(bytes: &[u8]) -> String {
    bytes.split_inclusive(|&byte| byte == b'\n').map(|line| format!("  {}\n", line.escape_ascii())).collect()
}

/// Whether all cases of a table have the same minutes.
fn alike(net: &Net, table: &[u16]) -> &'static str {
    let events = net.events.len();
    if table.chunks(events).all(|row| *row == table[..events]) { "cases alike" } else { "cases differ" }
}

/// Whether some signal has a reaction other than 1, and some event a label other than `-`.
fn pace(net: &Net) -> &'static str {
    match (net.is_slow(), net.is_labelled()) {
        (false, false) => "not slow",
        (true, false) => "slow",
        (false, true) => "labelled",
        (true, true) => "slow, labelled",
    }
}

// ---------------------------------------------------------------- selftest and faults

/// Raising, searching and rounds agree on tiny sheets, and so do a sheet and its house form, and its forms and those of
/// another typing; and so do other tiny sheets, by the former rules, and what they are converted to. Raising and rounds
/// agree on other sheets of few rounds, floors on these and on the tiny ones, and two readers of rows, of reactions and
/// of labels on all of those. The two converters agree on sheets that are made for them, the readers of listings on
/// other sheets and listings, and the writers of the heaviest sheets on lines; plain rounds of those are as many as was
/// promised.
fn selftest(seed: u64, cases: u64) {
    let mut counts = Counts::new();
    if let Err(words) = selftest_ring_rounds() {
        println!("{words}");
        exit(1);
    }
    for seed in seed..seed + cases {
        let sheet = gen::tiny_sheet(&mut Rng::new(seed));
        let net = model::read(&sheet).expect("a valid sheet");
        let (raised, found) = (model::solve(&net), model::solve_by_search(&net));
        if raised != found {
            println!("raised {raised:?}\nfound {found:?}\n{}again: compare selftest {seed} 1", sheet.escape_ascii());
            exit(1);
        }
        let other = gen::sheet(&mut Rng::new(seed));
        let former = gen::tiny_former_sheet(&mut Rng::new(seed));
        let alike_otherwise = selftest_house(&sheet, &net, seed).and_then(|_| selftest_rounds(&sheet));
        let converted_alike = selftest_former(&former, &mut counts)
            .and_then(|_| selftest_convert(&gen::former_sheet(&mut Rng::new(seed))))
            .map_err(|words| format!("{words}\nof {}", text_of(&former)));
        let others_alike = || selftest_rounds(&other).and_then(|_| selftest_reader(&other));
        let judged_alike = || selftest_judge(&sheet, seed).and_then(|_| selftest_judge(&other, seed));
        let all_alike = alike_otherwise.and(converted_alike).and_then(|_| others_alike()).and_then(|_| judged_alike());
        let all_alike = all_alike.and_then(|_| selftest_ring(&lines::line(&mut Rng::new(seed)), &mut counts));
        let mut read_alike = || selftest_listings(&gen::files(&mut Rng::new(seed)), &mut counts);
        if let Err(words) = all_alike.and_then(|_| read_alike()) {
            println!("{words}\n{}again: compare selftest {seed} 1", text_of(&sheet));
            exit(1);
        }
        let kind = raised.map_or("no table".to_string(), |table| format!("a table, {}", alike(&net, &table)));
        count(&mut counts, format!("{} cases, {}, {kind}", net.cases(), pace(&net)));
    }
    for (kind, count) in &counts {
        println!("{count:>8}  {kind}");
    }
    let agree = "raising, searching, rounds and floors agree, sheets, house forms and converted sheets too, readers of \
        as many listings, and writers of the heaviest sheets on as many lines";
    println!("{cases} tiny sheets from seed {seed}: {agree}");
}

/// Rounds in arrays, rounds by the paper's words and raising, where a sheet is accepted and takes few rounds. The count "is at most
/// C × H + 1, with C the happening cells other than the start's".
fn selftest_rounds(sheet: &[u8]) -> Result<(), String> {
    let Ok(net) = model::read(sheet) else { return Ok(()) };
    let Some(run) = rounds::run_within(&net, FEW_ROUNDS) else { return Ok(()) };
    let (by_words, raised) = (model::solve_by_rounds(&net), model::solve(&net));
    if (run.count, &run.table) != (by_words.0, &by_words.1) || run.table != raised {
        return Err(format!("in arrays {run:?}\nby words {by_words:?}\nraised {raised:?}\n{}", text_of(sheet)));
    }
    let most = net.free_cells() as i64 * net.horizon + 1;
    if i64::from(run.count) > most {
        return Err(format!("{} rounds, more than {most}\n{}", run.count, text_of(sheet)));
    }
    selftest_floors(&net, &run).map_err(|words| format!("{words}\n{}", text_of(sheet)))
}

/// Each floor by the paper's words and kept from a run; and some of them, and the end, in arrays and by a solver that
/// passes over rounds.
fn selftest_floors(net: &Net, run: &Run) -> Result<(), String> {
    let kept = Kept::new(net);
    let by_words = model::floors_by_rounds(net, run.count).into_iter().map(|(table, left)| Floor { table, left });
    let by_words: Vec<Option<Floor>> = by_words.map(Some).chain([None]).collect();
    if (0..=run.count).map(|most| kept.floor(most)).ne(by_words.iter().cloned()) || kept.run != *run {
        return Err("other floors by words".to_string());
    }
    for most in [0, run.count / 2, run.count - 1, run.count] {
        let right = by_words[most as usize].clone().map_or_else(|| Ok(run.clone()), Err);
        let leapt = leaps::stopped_with(net, most, leaps::Slip::None);
        if rounds::stopped(net, most) != right || leapt != right {
            return Err(format!("after {most} rounds not {right:?}"));
        }
    }
    Ok(())
}

/// The model's reader, and those of `sections.rs` and `retired.rs` without a slip.
fn selftest_reader(sheet: &[u8]) -> Result<(), String> {
    let one = model::read(sheet);
    for other in [sections::read_again(sheet), retired::read_again(sheet)] {
        if one != other {
            return Err(format!("read {one:?}\nagain {other:?}\n{}", text_of(sheet)));
        }
    }
    Ok(())
}

/// For a tiny sheet that the former rules accept: "the good tables before and after are the same set", by trying each
/// row of each case; the least of them is the same by raising, and before also by search.
fn selftest_former(sheet: &[u8], counts: &mut Counts) -> Result<(), String> {
    let former = model::read_formerly(sheet).map_err(|refusal| format!("not read by the former rules: {refusal:?}"))?;
    let converted = model::convert(sheet).map_err(|refusal| format!("not converted: {refusal:?}"))?;
    let net = model::read(&converted).map_err(|refusal| format!("what it is converted to is not read: {refusal:?}"))?;
    let fixes = former.rules.iter().filter(|rule| rule.kind == Kind::Fix).count();
    let other = Net { rules: net.rules.clone(), events: net.events.clone(), ..former.clone() };
    if other != net || net.rules.len() != former.rules.len() + fixes || !model::same_lawful_rows(&former, &net) {
        return Err("what it is converted to has other good tables".to_string());
    }
    let (before, after) = (model::solve_by_search(&former), model::solve(&net));
    if before != after || model::solve(&former) != after {
        return Err("what it is converted to has another least table".to_string());
    }
    let fixed = if fixes > 0 { "fix rows" } else { "no fix row" };
    count(counts, format!("converted, {fixed}, {}", if after.is_some() { "a table" } else { "no table" }));
    Ok(())
}

/// The model's converter, and that of `converters.rs` without a slip; and a second pass changes no byte. What today's
/// rules accept is not changed, and what they refuse otherwise than with 22 is refused so.
fn selftest_convert(sheet: &[u8]) -> Result<(), String> {
    let (one, other) = (model::convert(sheet), converters::convert_again(sheet));
    let again = one.as_ref().ok().map(|text| model::convert(text));
    let today = match model::read(sheet) {
        Ok(_) => one.as_deref() == Ok(sheet),
        Err(Refusal { number: 22, line }) => one.as_ref().err().is_none_or(|own| own.line == 0 || own.line >= line),
        Err(refusal) => one == Err(refusal),
    };
    match today && one == other && again.is_none_or(|again| again == one) {
        true => Ok(()),
        false => Err(format!("converted {one:?}\nagain {other:?}\n{}", text_of(sheet))),
    }
}

/// The model's judge, and that of `labels.rs` without a slip.
fn selftest_judge(sheet: &[u8], seed: u64) -> Result<(), String> {
    let Ok(net) = model::read(sheet) else { return Ok(()) };
    let (mut rng, solved) = (Rng::new(seed), model::solve(&net));
    for _ in 0..4 {
        let table = minutes(&gen::table(&mut rng, &net, solved.as_deref()));
        if table.len() != net.cells() {
            continue;
        }
        let (one, other) = (model::judge(&net, &table), labels::judge(&net, &table, labels::Slip::None));
        if one != other {
            return Err(format!("judged {one:?}\nagain {other:?}\ntable {table:?}\n{}", text_of(sheet)));
        }
    }
    Ok(())
}

/// The model's reader of listings, that of `readers.rs` without a slip, and printing, by which a listing is accepted
/// if it is what some table prints to. "Any table of the right length that was printed is recovered number for
/// number".
fn selftest_listings(files: &Files, counts: &mut Counts) -> Result<(), String> {
    let (sheet, listing) = files.bytes();
    let (one, other) = (model::recover(sheet, listing, usize::MAX), readers::read_again(sheet, listing));
    let scene = || format!("of {}with a listing of {}", program::told(sheet), program::told(listing));
    if one != other {
        return Err(format!("read {one:?}\nagain {other:?}\n{}", scene()));
    }
    let number = one.as_ref().map_or_else(|refusal| refusal.number, |_| 0);
    count(counts, if number == 0 { "listing read back".to_string() } else { format!("listing refused {number:>2}") });
    let Ok(net) = model::read(sheet) else { return Ok(()) };
    let by_printing = readers::accepted_by_printing(sheet, &net, listing);
    if one.as_ref().ok() != by_printing.as_ref() {
        return Err(format!("read {one:?}\nby printing {by_printing:?}\n{}", scene()));
    }
    let wide = gen::wide_table(&mut Rng::new(listing.len() as u64), &net);
    let back = model::returned(sheet, &net, &model::listing(sheet, &net, &wide));
    if back.as_ref() == Ok(&wide) { Ok(()) } else { Err(format!("printed {wide:?}\nread {back:?}\n{}", scene())) }
}

/// The model's writer, that of `ringers.rs` without a slip, and that of `long.rs`.
fn selftest_ring(line: &[u8], counts: &mut Counts) -> Result<(), String> {
    let (one, other) = (model::ring(line), ringers::ring_again(line));
    let differ = |what: &str| Err(format!("{what}: {one:?}\nagain {other:?}\nfor a line of {}", program::told(line)));
    if one != other {
        return differ("two heaviest sheets");
    }
    let number = one.as_ref().map_or_else(|refusal| refusal.number, |_| 0);
    count(counts, if number == 0 { "heaviest sheet".to_string() } else { format!("line refused {number:>2}") });
    match one.as_ref().map(|sheet| (sheet, model::read(sheet))) {
        Err(_) => Ok(()),
        Ok((sheet, Ok(net))) if *sheet == long::heaviest(net.events.len(), net.horizon) => Ok(()),
        Ok(_) => differ("not the heaviest sheet"),
    }
}

/// For every n, plain rounds of the heaviest sheet: no table, and "exactly (n - 1) × H + 1 rounds, the most for n
/// events, that H and no signal", the most being C × H + 1; and the floors on the way, as they are reckoned.
fn selftest_ring_rounds() -> Result<(), String> {
    for events in model::RING_LEAST as usize..=model::EVENTS_MOST as usize {
        for horizon in [0, 1, 2, 60, 999, model::MINUTES_MOST] {
            let net = model::read(model::ring_of(events, horizon).as_bytes()).expect("a sheet");
            let (kept, right) = (Kept::new(&net), model::ring_rounds(events, horizon));
            let run = &kept.run;
            let most = net.free_cells() as i64 * horizon + 1;
            if (run.count, &run.table) != (right, &None) || i64::from(right) != most {
                return Err(format!("{run:?} and not 13 with {right} rounds for {events},{horizon}"));
            }
            for stop in [1, right / 3, right - 1].into_iter().filter(|&stop| stop < right) {
                let (table, left) = model::ring_floor(events, horizon, stop);
                if kept.floor(stop) != Some(Floor { table, left }) {
                    return Err(format!("another floor after {stop} rounds for {events},{horizon}"));
                }
            }
        }
    }
    Ok(())
}

/// "The form reads back to the same good tables, and a second pass changes no byte"; points 1 and 2, the reactions and
/// the labels have all that may differ. A procedure that differs in one reaction or one label has another form.
fn selftest_house(sheet: &[u8], net: &Net, seed: u64) -> Result<(), String> {
    let form = model::house(sheet).map_err(|refusal| format!("no form: {refusal:?}"))?;
    let back = model::read(&form).map_err(|refusal| format!("its form is not read: {refusal:?}"))?;
    let names = |sheet: &[u8], net: &Net| -> Vec<Vec<u8>> { net.events.iter().map(|event| sheet[event.clone()].to_vec()).collect() };
    let same_head = net.horizon == back.horizon && names(sheet, net) == names(&form, &back) && net.signals == back.signals;
    let set = |label: &model::Label| -> BTreeMap<usize, bool> { label.iter().copied().collect() };
    let sets = |net: &Net| -> Vec<BTreeMap<usize, bool>> { net.labels.iter().map(set).collect() };
    if !same_head || sets(net) != sets(&back) || !model::same_lawful_rows(net, &back) {
        return Err("its form has other good tables".to_string());
    }
    let retyped = gen::retyped(&mut Rng::new(seed), sheet, net);
    if [&form, &retyped].iter().any(|other| model::house(other).as_ref() != Ok(&form)) {
        return Err("its form or another typing has another form".to_string());
    }
    if model::read(&retyped).map(|net| model::solve(&net)) != Ok(model::solve(net)) {
        return Err("another typing has another table".to_string());
    }
    if !net.signals.is_empty() && model::house(&gen::slowed(&mut Rng::new(seed), sheet, net)).as_ref() == Ok(&form) {
        return Err("another reaction has the same form".to_string());
    }
    if gen::relabelled(&mut Rng::new(seed), sheet, net).is_some_and(|other| model::house(&other) == Ok(form)) {
        return Err("another label has the same form".to_string());
    }
    Ok(())
}

/// Its place among the sheets, from 1, and its words.
type Difference = (u64, String);

/// That each of some wrong programs is noticed, and the right one that they are made from is not.
fn notice<T>(mode: &str, right: &T, faults: &[(&str, T)], compared: impl Fn(&T) -> Result<(), Difference>) {
    if let Err((_, words)) = compared(right) {
        fail(1, &format!("{mode}, without a fault: {words}"));
    }
    let mut missed = 0;
    for (name, fault) in faults {
        match compared(fault) {
            Err((place, _)) => println!("{place:>8}  {name}"),
            Ok(()) => {
                println!("  missed  {name}");
                missed += 1;
            }
        }
    }
    println!("{mode}: {} wrong programs, {missed} missed", faults.len());
    exit(if missed == 0 { 0 } else { 1 });
}

/// The first difference among the sheets of some seeds.
fn all_compared(seeds: Range<u64>, compare_one: impl Fn(u64) -> Result<(), String>) -> Result<(), Difference> {
    (1..).zip(seeds).try_for_each(|(place, seed)| compare_one(seed).map_err(|words| (place, words)))
}

/// A library, and what is compared of it for one seed: all calls, or those in which a wrong one may differ.
#[derive(Clone, Copy)]
struct Trying {
    library: Library,
    compare_one: fn(&Library, u64, &mut Counts) -> Result<(), String>,
}

fn notice_faults(seeds: Range<u64>) {
    let stopping = |(name, library)| (name, Trying { library, compare_one: floors::compare_one });
    let others = |(name, library)| (name, Trying { library, compare_one: calls::compare_others });
    let faults = FAULTS.into_iter().chain(heavy::faults()).map(others).chain(early::faults().into_iter().map(stopping));
    let right = Trying { library: own::LIBRARY, compare_one: calls::compare_one };
    notice("faults", &right, &faults.collect::<Vec<_>>(), |Trying { library, compare_one }| {
        all_compared(seeds.clone(), |seed| compare_one(library, seed, &mut Counts::new()))
    });
}

fn notice_printers(mode: &Mode, right: Printer, faults: &[(&str, Printer)], seeds: Range<u64>) {
    notice(&format!("{}-faults", mode.word), &right, faults, |printer| {
        let program = |sheet: &[u8]| program::printed(printer(sheet));
        all_compared(seeds.clone(), |seed| (mode.compare_one)(&program, seed, &mut Counts::new()))
    });
}

fn notice_judges(seeds: Range<u64>) {
    let right: Judging = verdicts::judge_by_faults;
    notice("judge-faults", &right, &JUDGE_FAULTS, |judging| {
        let program = |files: &Files| judging(files).into_bytes();
        all_compared(seeds.clone(), |seed| (JUDGE.compare_one)(&program, seed, &mut Counts::new()))
    });
}

fn notice_rings(seeds: Range<u64>) {
    notice("ring-faults", &heavy::RIGHT, &heavy::ring_faults(), |ringing| ring::compare_both(ringing, seeds.clone()));
}

/// The counters of `leaps.rs` by themselves, and some solvers of `heavy.rs` and `early.rs` beside the right counters.
fn notice_count_faults(seed: u64, sheets: u64) {
    let counters = COUNT_FAULTS.map(|(name, tally)| (name, Counting { tally, library: None }));
    let beside = |library| Counting { tally: own::TALLY, library: Some(library) };
    let solvers = heavy::SOLVERS.into_iter().chain(early::LONG).map(|(name, library)| (name, beside(library)));
    let right = beside(heavy::LEAPING);
    let faults: Vec<_> = counters.into_iter().chain(solvers).collect();
    notice("count-faults", &right, &faults, |counting| tally::compare_sheets(counting, seed, sheets).map(drop));
}

fn fault_named<T: Copy>(faults: &[(&str, T)], name: &str) -> T {
    match faults.iter().find(|fault| fault.0 == name) {
        Some(fault) => fault.1,
        None => fail(2, NO_FAULT),
    }
}

/// Prints what a program prints of the sheet on standard input.
fn standin(printer: Printer) {
    let mut sheet = vec![];
    std::io::stdin().read_to_end(&mut sheet).unwrap_or_else(|error| fail(2, &error.to_string()));
    print(&program::printed(printer(&sheet)));
}

/// Prints what a program prints of the files of the folder that it is started in.
fn judge_standin(judging: Judging) {
    let files = judge::read(Path::new(".")).unwrap_or_else(|error| fail(2, &error.to_string()));
    print(judging(&files).as_bytes());
}

// ---------------------------------------------------------------- expected

/// What the papers ask for the trial files of a directory, up to the first missing number.
fn expected(directory: &str) -> Vec<u8> {
    let mut text = vec![];
    let mut last_form = None;
    for number in 1.. {
        let file = |kind: &str| std::fs::read(format!("{directory}/{number:03}.{kind}")).ok();
        let Some(mut sheet) = file("csv").or_else(|| file("fix")) else { break };
        text.extend(format!("{number:03} ").into_bytes());
        if file("csv").is_none() {
            text.extend(reading_line(&model::read(&sheet)).into_bytes());
            text.extend(expected_conversion(&sheet));
            match model::convert(&sheet) {
                Ok(converted) => sheet = converted,
                Err(_) => continue,
            }
        }
        let (table, listing) = (file("tab").unwrap_or_default(), file("lst"));
        let reading = model::read(&sheet);
        text.extend(reading_line(&reading).into_bytes());
        text.extend(expected_house(&sheet, &mut last_form));
        text.extend(match listing {
            Some(listing) => expected_returned(&sheet, &reading, &listing),
            None => expected_tables(&sheet, &reading, &table),
        });
    }
    if text.is_empty() {
        fail(2, &format!("there is no {directory}/001.csv"));
    }
    text
}

/// The converter's refusal; or the sheet that it makes, whether that stays as it is, and what the call says to a buffer
/// that is one byte too short.
fn expected_conversion(sheet: &[u8]) -> Vec<u8> {
    let converted = match model::convert(sheet) {
        Err(refusal) => return refused_line("converted ", refusal).into_bytes(),
        Ok(converted) => converted,
    };
    [b"converted\n", &converted[..], again_and_short(&converted, model::convert).as_bytes()].concat()
}

/// Whether a text is written once more as it is, and what a call says that would write it into a buffer that is one
/// byte too short.
fn again_and_short(text: &[u8], write: Printer) -> String {
    let again = if write(text).as_deref() == Ok(text) { "same" } else { "other" };
    let short = match model::within(text.to_vec(), text.len() - 1) {
        Ok(text) => text.len().to_string(),
        Err(refusal) => short_refusal(refusal),
    };
    format!("again {again} short {short}\n")
}

/// The house form's refusal; or the form, unless the last one before it was the same, whether it is its own form, and what the call says
/// to a buffer that is one byte too short.
fn expected_house(sheet: &[u8], last_form: &mut Option<Vec<u8>>) -> Vec<u8> {
    let form = match model::house(sheet) {
        Err(refusal) => return refused_line("house ", refusal).into_bytes(),
        Ok(form) => form,
    };
    let mut text = match last_form {
        Some(last) if *last == form => b"house as before\n".to_vec(),
        _ => [b"house\n", &form[..]].concat(),
    };
    text.extend(again_and_short(&form, model::house).into_bytes());
    *last_form = Some(form);
    text
}

fn expected_tables(sheet: &[u8], reading: &Result<Net, Refusal>, table: &[u8]) -> Vec<u8> {
    let mut text = vec![];
    if !table.is_empty() {
        text.extend(judged_line(&judge_outcome(reading, table)).into_bytes());
        text.extend(listed(sheet, reading, &minutes(table)));
        text.extend(asked_first(reading, &minutes(table)).into_bytes());
    } else if let Ok(net) = reading {
        text.extend(match model::solve(net) {
            Some(table) => solved(sheet, net, &table),
            None => refused_line("solved ", of_call(13)).into_bytes(),
        });
    }
    text
}

/// A listing read back: its refusal; or how many minutes it has, what the call says to a table that is one minute too
/// short, the verdict on the table and its listing.
fn expected_returned(sheet: &[u8], reading: &Result<Net, Refusal>, listing: &[u8]) -> Vec<u8> {
    let table = match model::recover(sheet, listing, usize::MAX) {
        Err(refusal) => return refused_line("returned ", refusal).into_bytes(),
        Ok(table) => table,
    };
    let short = match model::recover(sheet, listing, table.len() - 1) {
        Ok(table) => table.len().to_string(),
        Err(refusal) => short_refusal(refusal),
    };
    let mut text = format!("returned {} short {short}\n", table.len()).into_bytes();
    text.extend(judged_line(&judge_outcome(reading, &gen::bytes_of(&table))).into_bytes());
    text.extend(listed(sheet, reading, &table));
    text
}

/// A solved table: its listing, and whether that is read back to the same minutes; the listing again, since playing
/// each case minute by minute gives its row; and what is due for some lists.
fn solved(sheet: &[u8], net: &Net, table: &[u16]) -> Vec<u8> {
    let listing = model::listing(sheet, net, table);
    let mut text = listing.clone();
    let same = model::returned(sheet, net, &listing).as_deref() == Ok(table);
    text.extend(if same { b"returned same\nplayed ".iter() } else { b"returned other\nplayed ".iter() });
    text.extend(listing);
    for minute in [0, 1, 6, net.horizon as u16, 65535] {
        text.extend(format!("asked {minute}").into_bytes());
        for list in lists(net) {
            text.extend(match model::due(net, table, minute, &list) {
                Ok(events) => format!(" {events}").into_bytes(),
                Err(number) => format!(" {}", short_refusal(of_call(number))).into_bytes(),
            });
        }
        text.push(b'\n');
    }
    text
}

/// What is due at minute 0 of any table, for those who have heard nothing, and for a list with a byte that is no letter.
fn asked_first(reading: &Result<Net, Refusal>, table: &[u16]) -> String {
    let mut text = "asked 0".to_string();
    for list in [vec![], vec![(0, false)]] {
        let outcome = of_size(reading, 2 * table.len()).and_then(|net| played(net, table, 0, Some(list)));
        text.push_str(&match outcome {
            Ok(events) => format!(" {events}"),
            Err(refusal) => format!(" {}", short_refusal(refusal)),
        });
    }
    text.push('\n');
    text
}

/// The lists that the program `trials` asks about.
fn lists(net: &Net) -> Vec<Vec<(u8, bool)>> {
    let a = net.signals.first().map_or(b'p', |signal| signal.letter);
    let backwards = |truths: &[bool]| net.signals.iter().rev().map(|signal| signal.letter).zip(truths.iter().copied()).collect::<Vec<_>>();
    let with_all = |more: &[(u8, bool)]| [&backwards(&[true; 4])[..], more].concat();
    vec![
        vec![],
        vec![(a, true)],
        vec![(a, false)],
        backwards(&[true; 4]),
        backwards(&[false; 4]),
        backwards(&[true, false, true, false]),
        vec![(a, true), (a, false)],
        vec![(a, true), (a, true)],
        vec![(b'P', true), (a, true)],
        vec![(0, false)],
        vec![(255, true)],
        vec![(b'{', false), (b'`', false)],
        // asked by masks that no list has, as what they name: all signals true, the first with both truths; and with a bit of no letter
        with_all(&[(a, true), (a, false)]),
        with_all(&[(0, true)]),
        with_all(&[(0, false)]),
    ]
}

fn short_refusal(refusal: Refusal) -> String {
    format!("r{}.{}", refusal.number, refusal.line)
}

fn refused_line(before: &str, refusal: Refusal) -> String {
    format!("{before}refused {} line {}\n", refusal.number, refusal.line)
}

fn reading_line(reading: &Result<Net, Refusal>) -> String {
    match reading {
        Ok(net) => format!("accepted {} {} {} {}\n", net.horizon, net.events.len(), net.signals.len(), net.rules.len()),
        Err(refusal) => refused_line("", *refusal),
    }
}

fn judged_line(outcome: &Result<Verdict, Refusal>) -> String {
    format!("judged {}", model::judge_text(outcome))
}

/// The listing "prints any table of the right length"; another length is refusal 11, after the sheet's own.
fn listed(sheet: &[u8], reading: &Result<Net, Refusal>, table: &[u16]) -> Vec<u8> {
    match of_size(reading, 2 * table.len()) {
        Err(refusal) => refused_line("listed ", refusal).into_bytes(),
        Ok(net) => model::listing(sheet, net, table),
    }
}
