//! A solver that passes over many rounds at once, in the place of `libtally.a` in standalone builds; and wrong ones like it, to see that the
//! mode `count` notices them.
//!
//! A round gives each cell the greatest of its bounds, and a bound is the least of some cells, each with minutes added. Where the rises of
//! the last rounds repeat those of the rounds before them, a period further on each table is that of a period before with each cell moved on
//! by its rise in a period. This stays so as long as no bound of a cell gets above the cell moved on, as one that rises faster may, and one
//! of its bounds keeps it up, as one that a signal holds up may not. Both are asked of each round of the period, and the answer is a number
//! of periods, since everything moves along lines. A run that is to be stopped passes over no more rounds than are left.

use crate::library::own;
use crate::library::Tally;
use crate::model::{self, holds_in, truth, Kind, Net, Rule, BLANK};
use crate::rounds::{self, Floor, Run};

/// A bound of a cell: the least of these cells, each with these minutes added.
type Bound = Vec<(usize, i64)>;
type Table = Vec<i64>;

/// More periods than any run has.
const MANY: i64 = 1_000_000;
/// After so many tables, and then each time there are a quarter more, a period is looked for.
const FIRST_LOOK: usize = 6;
/// So many tables are kept to look for a period.
const TABLES_MOST: usize = 6_000;

/// What is wrong with a solver.
#[derive(Clone, Copy, PartialEq)]
pub enum Slip {
    None,
    LastNotCounted,
    IdleNotCounted,
    PassingNotCounted,
    PeriodAsOne,
    OneTooMany,
    FasterIgnored,
    HoldUpIgnored,
    GuessNotTested,
    StartPassedOver,
    StartNotLimited,
    HorizonPassedOver,
    HorizonExcluded,
    LimitTestedBefore,
    TableBeforeLeap,
    SameMinute,
    OneSignalCases,
    RaisedInPlace,
    ReactionOfOne,
    ReactionOfSixty,
    ReactionAMinuteMore,
    ReactionOfTheNext,
    LongestForAll,
    ShortestForAll,
    LeaptAsSixty,
    NoWaits,
    WaitsOfOne,
    WaitsForTrue,
    WaitsForFirst,
    RulesOfLabelOnly,
    AbsentRaised,
    BlanksZero,
    StopPassedOver,
    StopAtNextPeriod,
    StopAtLastPeriod,
    StopBeforeLeap,
    StopByTurns,
    StopBeforeEnd,
}

pub const COUNT_FAULTS: [(&str, Tally); 32] = [
    ("last-round-not-counted", wrong(|sheet| answer(sheet, Slip::LastNotCounted))),
    ("idle-round-not-counted", wrong(|sheet| answer(sheet, Slip::IdleNotCounted))),
    ("passing-round-not-counted", wrong(|sheet| answer(sheet, Slip::PassingNotCounted))),
    ("period-counted-as-one-round", wrong(|sheet| answer(sheet, Slip::PeriodAsOne))),
    ("one-period-too-many", wrong(|sheet| answer(sheet, Slip::OneTooMany))),
    ("faster-cells-ignored", wrong(|sheet| answer(sheet, Slip::FasterIgnored))),
    ("leaps-past-a-hold-up", wrong(|sheet| answer(sheet, Slip::HoldUpIgnored))),
    ("guess-not-tested", wrong(|sheet| answer(sheet, Slip::GuessNotTested))),
    ("leaps-past-the-start's-limit", wrong(|sheet| answer(sheet, Slip::StartPassedOver))),
    ("start-has-no-limit", wrong(|sheet| answer(sheet, Slip::StartNotLimited))),
    ("leaps-past-the-horizon", wrong(|sheet| answer(sheet, Slip::HorizonPassedOver))),
    ("horizon-excluded", wrong(|sheet| answer(sheet, Slip::HorizonExcluded))),
    ("limit-tested-before-the-round", wrong(|sheet| answer(sheet, Slip::LimitTestedBefore))),
    ("table-from-before-the-leap", wrong(|sheet| answer(sheet, Slip::TableBeforeLeap))),
    ("signal-in-its-own-minute", wrong(|sheet| answer(sheet, Slip::SameMinute))),
    ("one-signal-cases-only", wrong(|sheet| answer(sheet, Slip::OneSignalCases))),
    ("raised-in-place", wrong(|sheet| answer(sheet, Slip::RaisedInPlace))),
    ("reaction-of-one", wrong(|sheet| answer(sheet, Slip::ReactionOfOne))),
    ("reaction-a-minute-more", wrong(|sheet| answer(sheet, Slip::ReactionAMinuteMore))),
    ("reaction-of-the-next-signal", wrong(|sheet| answer(sheet, Slip::ReactionOfTheNext))),
    ("longest-reaction-for-all", wrong(|sheet| answer(sheet, Slip::LongestForAll))),
    ("shortest-reaction-for-all", wrong(|sheet| answer(sheet, Slip::ShortestForAll))),
    ("reaction-taken-for-60-in-leaps", wrong(|sheet| answer(sheet, Slip::LeaptAsSixty))),
    ("labels-set-no-waits", wrong(|sheet| answer(sheet, Slip::NoWaits))),
    ("label-waits-of-one", wrong(|sheet| answer(sheet, Slip::WaitsOfOne))),
    ("label-waits-for-true-letters", wrong(|sheet| answer(sheet, Slip::WaitsForTrue))),
    ("label-waits-for-the-first-letter", wrong(|sheet| answer(sheet, Slip::WaitsForFirst))),
    ("rule-of-an-absent-event", wrong(|sheet| answer(sheet, Slip::RulesOfLabelOnly))),
    ("absent-cell-raised", wrong(|sheet| answer(sheet, Slip::AbsentRaised))),
    ("refused-sheet-counts-one", wrong(|sheet| leaping(sheet).max(1))),
    ("plain-rounds-wrong", Tally { plain: |sheet| answer(sheet, Slip::LastNotCounted), ..own::TALLY }),
    ("never-leaps", Tally { leaping: own::plain, plain: own::plain, turns: |sheet| own::plain(sheet) & 0xffff_ffff }),
];

const fn wrong(leaping: fn(&[u8]) -> u64) -> Tally {
    Tally { leaping, plain: own::plain, turns }
}

/// The right one.
pub fn leaping(sheet: &[u8]) -> u64 {
    answer(sheet, Slip::None)
}

/// How many rounds the right one makes one by one.
pub fn turns(sheet: &[u8]) -> u64 {
    model::read(sheet).map_or(0, |net| u64::from(run_and_turns(&net).1))
}

/// The table of a solver with a slip.
pub fn table_with(net: &Net, slip: Slip) -> Option<Vec<u16>> {
    run_with(net, slip).table
}

/// Its table and its count.
pub fn run_with(net: &Net, slip: Slip) -> Run {
    stopped_with(net, u32::MAX, slip).expect(NOT_STOPPED)
}

/// The same, or its floor after so many rounds.
pub fn stopped_with(net: &Net, most: u32, slip: Slip) -> Result<Run, Floor> {
    Leaper::new(net, slip).run(most).ends
}

/// The run of the right one, and how many rounds it makes one by one.
pub fn run_and_turns(net: &Net) -> (Run, u32) {
    let Course { ends, turns, .. } = Leaper::new(net, Slip::None).run(u32::MAX);
    (ends.expect(NOT_STOPPED), turns)
}

/// How many rounds are made before and behind each leap of the right one.
pub fn bends(net: &Net) -> Vec<u32> {
    Leaper::new(net, Slip::None).run(u32::MAX).bends
}

fn answer(sheet: &[u8], slip: Slip) -> u64 {
    model::read(sheet).map_or(0, |net| rounds::answer(&net, &run_with(&net, slip)))
}

/// How a run goes.
struct Course {
    /// Its end, or the floor where it is stopped.
    ends: Result<Run, Floor>,
    /// How many rounds were made one by one.
    turns: u32,
    /// How many rounds were made before and behind each leap.
    bends: Vec<u32>,
}

const NOT_STOPPED: &str = "no run is that long";

struct Leaper {
    /// The bounds of each cell; the first is its own value.
    bounds: Vec<Vec<Bound>>,
    /// The same as a leap is tested by: a wrong solver may take others there.
    leap_bounds: Vec<Vec<Bound>>,
    limits: Table,
    /// The cells without their event.
    blank: Vec<bool>,
    events: usize,
    slip: Slip,
}

/// Where a run may be taken up: so many periods of so many rounds further on.
struct Leap {
    period: usize,
    times: i64,
    table: Table,
}

impl Leaper {
    fn new(net: &Net, slip: Slip) -> Self {
        let events = net.events.len();
        let horizon = if slip == Slip::HorizonExcluded { net.horizon - 1 } else { net.horizon };
        let limit = |cell: usize| if cell % events == 0 && slip != Slip::StartNotLimited { 0 } else { horizon };
        let all = |slip: Slip| (0..net.cells()).map(|cell| bounds(net, cell / events, cell % events, slip)).collect();
        let leap_slip = if slip == Slip::LeaptAsSixty { Slip::ReactionOfSixty } else { slip };
        let limits = (0..net.cells()).map(limit).collect();
        let blank = (0..net.cells()).map(|cell| !net.happens(cell / events, cell % events)).collect();
        Leaper { bounds: all(slip), leap_bounds: all(leap_slip), limits, blank, events, slip }
    }

    /// The run, or the floor after so many rounds.
    fn run(&self, most: u32) -> Course {
        let mut tables = vec![vec![0; self.limits.len()]];
        let (mut count, mut turns, mut look) = (0u32, 0, FIRST_LOOK);
        let (mut before_leap, mut bends) = (None, vec![]);
        let ends = loop {
            let before = tables.last().unwrap();
            if most <= if self.slip == Slip::StopByTurns { turns } else { count } {
                let found = if self.slip == Slip::StopBeforeLeap { before_leap.as_ref() } else { None };
                break Err(self.floor(found.unwrap_or(before)));
            }
            let after = self.round(before);
            (count, turns) = (count + 1, turns + 1);
            if self.slip == Slip::StopBeforeEnd && count == most {
                break Err(self.floor(before));
            }
            if self.passed(if self.slip == Slip::LimitTestedBefore { before } else { &after }) {
                break Ok(self.ended(count, None));
            }
            if after == *before {
                let found = if self.slip == Slip::TableBeforeLeap { before_leap.unwrap_or(after) } else { after };
                break Ok(self.ended(count, Some(found)));
            }
            tables.push(after);
            if tables.len() >= look {
                look += look / 4;
                if let Some(leap) = self.leap(&tables, most.wrapping_sub(count)) {
                    let landing = count.wrapping_add(self.passed_over(&leap));
                    bends.extend([count, landing]);
                    let stops = self.slip == Slip::StopAtLastPeriod && most < landing + leap.period as u32;
                    count = if stops { most } else { landing };
                    before_leap = tables.pop();
                    tables = vec![leap.table];
                    look = FIRST_LOOK;
                }
            }
            if tables.len() > TABLES_MOST {
                tables.drain(..tables.len() - 1);
                look = FIRST_LOOK;
            }
        };
        Course { ends, turns, bends }
    }

    fn ended(&self, count: u32, table: Option<Table>) -> Run {
        let uncounted = match self.slip {
            Slip::LastNotCounted => true,
            Slip::IdleNotCounted => table.is_some(),
            Slip::PassingNotCounted => table.is_none(),
            _ => false,
        };
        Run { count: count - u32::from(uncounted), table: table.map(|table| self.written(&table)) }
    }

    fn written(&self, table: &Table) -> Vec<u16> {
        let number = |(&minute, &blank): (&i64, &bool)| match blank && self.slip != Slip::BlanksZero {
            true => BLANK,
            false => minute as u16,
        };
        table.iter().zip(&self.blank).map(number).collect()
    }

    fn floor(&self, table: &Table) -> Floor {
        let free = (0..table.len()).filter(|cell| cell % self.events != 0 && !self.blank[*cell]);
        let left = free.map(|cell| self.limits[cell] - table[cell]).sum::<i64>() as u32;
        Floor { table: self.written(table), left }
    }

    fn passed_over(&self, leap: &Leap) -> u32 {
        (leap.times * if self.slip == Slip::PeriodAsOne { 1 } else { leap.period as i64 }) as u32
    }

    fn round(&self, before: &Table) -> Table {
        let mut after = before.clone();
        for (cell, bounds) in self.bounds.iter().enumerate() {
            for bound in bounds {
                let from = if self.slip == Slip::RaisedInPlace { &after } else { before };
                let minute = bound.iter().map(|&(other, wait)| from[other] + wait).min().unwrap();
                after[cell] = after[cell].max(minute);
            }
        }
        after
    }

    fn passed(&self, table: &Table) -> bool {
        table.iter().zip(&self.limits).any(|(minute, limit)| minute > limit)
    }

    /// A leap from the last of these tables, if the rises before it repeat and will do so for some time, over no more
    /// rounds than are left.
    fn leap(&self, tables: &[Table], left: u32) -> Option<Leap> {
        let period = period(tables)?;
        let tables = &tables[tables.len() - 1 - period..];
        let (first, last) = (&tables[0], &tables[period]);
        let rises: Table = last.iter().zip(first).map(|(last, first)| last - first).collect();
        let mut times = self.periods(tables, &rises) - 1;
        if self.slip != Slip::HorizonPassedOver {
            times = (0..last.len()).filter(|&cell| rises[cell] > 0).map(|cell| (self.limits[cell] - last[cell]) / rises[cell]).fold(times, i64::min);
        }
        times = times.min(match self.slip {
            Slip::StopPassedOver | Slip::StopByTurns => MANY,
            Slip::StopAtNextPeriod => left.div_ceil(period as u32).into(),
            _ => (left / period as u32).into(),
        });
        if times < 1 {
            return None;
        }
        times += i64::from(self.slip == Slip::OneTooMany);
        Some(Leap { period, times, table: last.iter().zip(&rises).map(|(last, rise)| last + times * rise).collect() })
    }

    /// For how many periods the rounds between these tables are made alike, the first time included.
    fn periods(&self, tables: &[Table], rises: &Table) -> i64 {
        let mut periods = MANY;
        for pair in tables.windows(2) {
            for cell in 0..rises.len() {
                periods = periods.min(self.periods_of_cell(cell, &pair[0], pair[1][cell], rises));
            }
        }
        periods
    }

    /// The same for one cell in one round; `after` is what the round made of it.
    fn periods_of_cell(&self, cell: usize, before: &Table, after: i64, rises: &Table) -> i64 {
        let (mut above, mut kept) = (MANY, 0);
        for bound in &self.leap_bounds[cell] {
            let parts = bound.iter().map(|&(other, wait)| (before[other] + wait - after, rises[other] - rises[cell]));
            above = above.min(first_above(parts.clone()));
            kept = kept.max(times_kept(parts));
        }
        let is_start = cell % self.events == 0;
        match self.slip {
            Slip::GuessNotTested => MANY,
            Slip::FasterIgnored if !is_start => kept,
            Slip::StartPassedOver if is_start => kept,
            Slip::HoldUpIgnored => above,
            _ => above.min(kept),
        }
    }
}

/// All bounds of one cell. One without its event has none but its own value.
fn bounds(net: &Net, s: usize, u: usize, slip: Slip) -> Vec<Bound> {
    let mut bounds = vec![vec![(net.cell(s, u), 0)]];
    if !net.happens(s, u) && slip != Slip::AbsentRaised {
        return bounds;
    }
    let covers = |rule: &&Rule| match slip {
        Slip::RulesOfLabelOnly | Slip::AbsentRaised => holds_in(&rule.label, s),
        _ => net.covers(rule, s),
    };
    // what a wrong solver takes for the minute of an event that is absent
    let absent = |event: usize| i64::from(slip == Slip::RulesOfLabelOnly && !net.happens(s, event)) * i64::from(BLANK);
    for rule in net.rules.iter().filter(covers) {
        if rule.to == u && rule.kind == Kind::Min {
            bounds.push(vec![(net.cell(s, rule.from), rule.limit + absent(rule.from))]);
        }
        if rule.from == u && rule.kind == Kind::Max {
            bounds.push(vec![(net.cell(s, rule.to), absent(rule.to) - rule.limit)]);
        }
    }
    let other = |r: usize| r != s && (slip != Slip::OneSignalCases || (r ^ s).is_power_of_two());
    for r in (0..net.cases()).filter(|&r| other(r) && net.happens(r, u)) {
        let mut bound = vec![(net.cell(r, u), 0)];
        for (signal, given) in net.signals.iter().enumerate() {
            if truth(s, signal) != truth(r, signal) && net.gives(s, signal) {
                bound.push((net.cell(s, given.event), reaction(net, signal, slip)));
            }
        }
        bounds.push(bound);
    }
    let waits = net.labels[u].iter().enumerate().filter(|(place, letter)| match slip {
        Slip::NoWaits => false,
        Slip::WaitsForTrue => letter.1,
        Slip::WaitsForFirst => *place == 0,
        _ => true,
    });
    bounds.extend(waits.map(|(_, letter)| wait(net, s, letter.0, slip)));
    bounds
}

/// The bound that a letter of a label sets.
fn wait(net: &Net, s: usize, signal: usize, slip: Slip) -> Bound {
    let wait = if slip == Slip::WaitsOfOne { 1 } else { reaction(net, signal, slip) };
    vec![(net.cell(s, net.signals[signal].event), wait)]
}

/// The minutes after which a signal counts.
fn reaction(net: &Net, signal: usize, slip: Slip) -> i64 {
    let of = |signal: usize| net.signals[signal].reaction;
    let all = (0..net.signals.len()).map(of);
    match slip {
        Slip::SameMinute => of(signal) - 1,
        Slip::ReactionOfOne => 1,
        Slip::ReactionOfSixty => 60,
        Slip::ReactionAMinuteMore => of(signal) + i64::from(of(signal) > 1),
        Slip::ReactionOfTheNext => of((signal + 1) % net.signals.len()),
        Slip::LongestForAll => all.max().unwrap(),
        Slip::ShortestForAll => all.min().unwrap(),
        _ => of(signal),
    }
}

/// The least number of rounds whose rises, up to the last table, are those of as many rounds before them.
fn period(tables: &[Table]) -> Option<usize> {
    let last = tables.len() - 1;
    let rise = |round: usize, cell: usize| tables[round][cell] - tables[round - 1][cell];
    let alike = |one: usize, other: usize| (0..tables[0].len()).all(|cell| rise(one, cell) == rise(other, cell));
    (1..=last / 2).find(|&period| (0..period).all(|back| alike(last - back, last - back - period)))
}

/// The first time at which all parts are above 0. A part is what it is at time 0, and its gain from each time to the next.
fn first_above(parts: impl Iterator<Item = (i64, i64)>) -> i64 {
    let (mut first, mut last) = (0, MANY);
    for (part, gain) in parts {
        if part > 0 && gain < 0 {
            last = last.min((part - 1) / -gain);
        } else if part <= 0 && gain > 0 {
            first = first.max(-part / gain + 1);
        } else if part <= 0 {
            return MANY;
        }
    }
    if first <= last { first } else { MANY }
}

/// For how many times, from 0 on, no part is below 0.
fn times_kept(parts: impl Iterator<Item = (i64, i64)>) -> i64 {
    let mut times = MANY;
    for (part, gain) in parts {
        if part < 0 {
            return 0;
        }
        if gain < 0 {
            times = times.min(part / -gain + 1);
        }
    }
    times
}
