//! The modes `count` and `count-files`: the count of rounds and the table by a run that passes over
//! rounds, by plain rounds, by the solver's C call, and by the model; and the floors of a run that is stopped.

use crate::floors::{self, Asked};
use crate::gen::Rng;
use crate::lent::lend_text;
use crate::library::own::{ended, refused};
use crate::library::{Library, Tally, LIBRARY, TALLY};
use crate::model::{Net, Refusal};
use crate::rounds::{self, Kept, NO_TABLE};
use crate::{fail, long, model, text_of, Counts};
use std::process::exit;

/// With fewer sheets than these it is not asked how many leapt.
const ENOUGH: u64 = 100;

/// A run is stopped at so many more numbers of rounds as make no more than these one by one, but at a few of them at
/// least.
const FLOORS_MOST: u64 = 24;
const FLOORS_LEAST: u64 = 4;
const TURNS: u64 = 50_000;

/// What counts: the three calls, and the solver's two if they are asked too.
#[derive(Clone, Copy)]
pub struct Counting {
    pub tally: Tally,
    pub library: Option<Library>,
}

const COUNTING: Counting = Counting { tally: TALLY, library: Some(LIBRARY) };

/// What was compared.
#[derive(Default)]
pub struct Seen {
    sheets: u64,
    leapt: u64,
    leapt_to_tables: u64,
    floors: u64,
    floors_leapt: u64,
    tables: u64,
    without: u64,
    refused: u64,
    slow_tables: u64,
    slow_without: u64,
    labelled_tables: u64,
    labelled_without: u64,
}

/// What all of them say of a sheet that is not refused.
struct Counted {
    count: u32,
    turns: u64,
    /// How often it was stopped.
    floors: u64,
    has_table: bool,
    /// Whether some signal has a reaction other than 1.
    slow: bool,
    /// Whether some event has a label other than `-`.
    labelled: bool,
}

/// Compares on the heaviest sheets and on generated ones.
pub fn compare(seed: u64, sheets: u64) {
    let rings = compare_rings(&COUNTING).unwrap_or_else(|words| differs(&words));
    match compare_sheets(&COUNTING, seed, sheets) {
        Ok(seen) => println!("{}; {rings} rings of (n - 1) * H + 1 rounds: no difference", seen.words()),
        Err((_, words)) => differs(&words),
    }
}

fn differs(words: &str) -> ! {
    println!("{words}");
    exit(1)
}

/// The same for given sheets, with a line for each.
pub fn compare_files(paths: &[&str]) {
    for path in paths {
        let sheet = std::fs::read(path).unwrap_or_else(|error| fail(2, &format!("{path}: {error}")));
        match check(&COUNTING, &sheet) {
            Err(words) => differs(&format!("{path}\n{words}")),
            Ok(Err(refusal)) => println!("{path} refused {} line {}", refusal.number, refusal.line),
            Ok(Ok(Counted { count, turns, has_table, .. })) => {
                println!("{path} {count} {turns} {}", if has_table { "table" } else { "13" })
            }
        }
    }
}

/// The heaviest sheet "takes exactly (n - 1) × H + 1 rounds". Gives the number of rings.
fn compare_rings(counting: &Counting) -> Result<u64, String> {
    let mut rings = 0;
    for events in 2..=16 {
        for horizon in [0, 1, 7, 60, 10_080] {
            let sheet = long::heaviest(events, horizon);
            let right = (events as u32 - 1) * horizon as u32 + 1;
            match check(counting, &sheet)? {
                Ok(Counted { count, has_table: false, .. }) if count == right => rings += 1,
                _ => return Err(format!("the ring does not take {right} rounds to refusal 13\n{}", text_of(&sheet))),
            }
        }
    }
    Ok(rings)
}

/// The sheets of so many seeds; or the place of the first difference among them, from 1, and what it is.
pub fn compare_sheets(counting: &Counting, seed: u64, sheets: u64) -> Result<Seen, (u64, String)> {
    let mut seen = Seen::default();
    for seed in seed..seed + sheets {
        seen.sheets += 1;
        let again = |words| (seen.sheets, format!("{words}again: compare count {seed} 1"));
        let checked = check(counting, &long::sheet(seed)).map_err(again)?;
        match checked {
            Err(_) => seen.refused += 1,
            Ok(counted) => seen.add(&counted),
        }
    }
    if sheets >= ENOUGH && 4 * seen.leapt < sheets {
        return Err((sheets, format!("{}: fewer than a quarter leapt", seen.words())));
    }
    if sheets >= ENOUGH && seen.slow_tables.min(seen.slow_without) == 0 {
        return Err((sheets, format!("{}: no table, or no refusal 13, with reactions other than 1", seen.words())));
    }
    if sheets >= ENOUGH && seen.labelled_tables.min(seen.labelled_without) == 0 {
        return Err((sheets, format!("{}: no table, or no refusal 13, with labelled events", seen.words())));
    }
    if sheets >= ENOUGH && counting.library.is_some() && seen.floors_leapt < sheets {
        return Err((sheets, format!("{}: fewer floors than sheets where rounds were leapt", seen.words())));
    }
    Ok(seen)
}

impl Seen {
    fn add(&mut self, counted: &Counted) {
        let leapt = 2 * counted.turns <= u64::from(counted.count);
        self.leapt += u64::from(leapt);
        self.leapt_to_tables += u64::from(leapt && counted.has_table);
        self.floors += counted.floors;
        self.floors_leapt += if leapt { counted.floors } else { 0 };
        self.tables += u64::from(counted.has_table);
        self.without += u64::from(!counted.has_table);
        self.slow_tables += u64::from(counted.slow && counted.has_table);
        self.slow_without += u64::from(counted.slow && !counted.has_table);
        self.labelled_tables += u64::from(counted.labelled && counted.has_table);
        self.labelled_without += u64::from(counted.labelled && !counted.has_table);
    }

    pub fn words(&self) -> String {
        let leapt = format!("{} leapt (at most half of the rounds made one by one), {} of them to a table", self.leapt, self.leapt_to_tables);
        let floors = format!("{} floors, {} of them where rounds were leapt", self.floors, self.floors_leapt);
        let slow = format!("with reactions {} tables, {} without", self.slow_tables, self.slow_without);
        let labelled = format!("with labels {} tables, {} without", self.labelled_tables, self.labelled_without);
        let all = format!("{} tables, {} without", self.tables, self.without);
        let ends = format!("{all}; {slow}; {labelled}; {} refused", self.refused);
        format!("{} sheets, {leapt}; {floors}; {ends}", self.sheets)
    }
}

/// The answers for one sheet. A refused sheet makes no round, another at least one and no more than are counted.
fn check(Counting { tally, library }: &Counting, sheet: &[u8]) -> Result<Result<Counted, Refusal>, String> {
    let lent = lend_text(&mut Rng::new(sheet.len() as u64), sheet);
    let unaltered = lent.clone();
    let reading = model::read(sheet);
    let kept = reading.as_ref().ok().map(Kept::new);
    let right = reading.as_ref().ok().zip(kept.as_ref()).map_or(0, |(net, kept)| rounds::answer(net, &kept.run));
    let (leaping, plain, turns) = ((tally.leaping)(lent.slice()), (tally.plain)(lent.slice()), (tally.turns)(lent.slice()));
    let count = right as u32;
    let fault = match (leaping == right, plain == right) {
        (false, _) => format!("by passing over rounds {}, and not {}", words_of(leaping), words_of(right)),
        (_, false) => format!("by plain rounds {}, and not {}", words_of(plain), words_of(right)),
        _ if (turns == 0) != (count == 0) || turns > u64::from(count) => format!("{turns} rounds one by one of {count}"),
        _ if lent.is(&unaltered).is_err() => "the sheet was altered".to_string(),
        _ if library.is_some_and(|library| !solved(&library, sheet, &reading, kept.as_ref())) => {
            format!("the solver's answer or its table is not that of {}", words_of(right))
        }
        _ => {
            let asked = Asked { sheet: &lent, reading: &reading, kept: kept.as_ref() };
            let floors = library.map_or(Ok(0), |library| stopped(&library, &asked, turns))?;
            let has_table = (right >> 32) as u32 != NO_TABLE;
            let found = |net: &Net| Counted {
                count, turns, floors, has_table, slow: net.is_slow(), labelled: net.is_labelled(),
            };
            return Ok(reading.as_ref().map(found).map_err(|refusal| *refusal));
        }
    };
    Err(format!("{fault}\nsheet of {} bytes\n{}", sheet.len(), text_of(sheet)))
}

/// The C call writes this run's table, or answers 13, with its count of rounds; or it gives the sheet's refusal.
fn solved(library: &Library, sheet: &[u8], reading: &Result<Net, Refusal>, kept: Option<&Kept>) -> bool {
    let (mut right, mut table) = ([b'?'; 512], [b'?'; 512]);
    let answer = match (reading, kept) {
        (Err(refusal), _) => refused(*refusal),
        (_, kept) => ended(&kept.expect("an accepted sheet has a run").run, &mut right),
    };
    (library.solve)(sheet, &mut table) == answer && table == right
}

/// The run stopped at many numbers of rounds. Gives how many of them are fewer than it takes.
fn stopped(library: &Library, asked: &Asked, turns: u64) -> Result<u64, String> {
    let mut rng = Rng::new(asked.sheet.length as u64);
    let more = (TURNS / turns.max(1)).clamp(FLOORS_LEAST, FLOORS_MOST);
    let numbers = floors::numbers(&mut rng, asked, more as usize);
    floors::compare(library, &mut rng, asked, &numbers, &mut Counts::new())?;
    let rounds = asked.kept.map_or(0, |kept| kept.run.count);
    Ok(numbers.iter().filter(|&&number| 0 < number && number < rounds).count() as u64)
}

fn words_of(answer: u64) -> String {
    match (answer as u32, (answer >> 32) as u32) {
        (0, 0) => "it is refused".to_string(),
        (count, NO_TABLE) => format!("{count} rounds and no table"),
        (count, sum) => format!("{count} rounds and a table with the sum {sum}"),
    }
}
