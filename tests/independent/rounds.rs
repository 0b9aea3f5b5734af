//! Document 02, point 8: rounds, one after another, and their exact count, in arrays so that long runs can be counted
//! too. And point 9: the floor after any number of them.
//!
//! "from all zeros, each cell takes the greatest of its own value and each bound that rules, signals (by the
//! hyperarcs, with reactions) and label waits set from the table before the round." Cells without their event take no
//! part: they stay 0 and are made blank at the end. The mode `selftest` compares this with `model.rs`.

use crate::model::{truth, Kind, Net, Refusal, Rule, BLANK};

/// As many events, and as many cases, as a sheet may have.
const MOST: usize = 16;

/// The minutes of one case; the places behind the last event stay 0. A minute is at most 10,080 before a round and 20,160 after it.
type Row = [i16; MOST];

type Table = [Row; MOST];

/// "from all zeros"
const ZEROS: Table = [[0; MOST]; MOST];

/// How a run of rounds ends: the count "goes with a solver's table and with refusal 13".
#[derive(Clone, Debug, PartialEq, Eq)]
pub struct Run {
    pub count: u32,
    pub table: Option<Vec<u16>>,
}

/// What a run hands out that is stopped.
#[derive(Clone, Debug, PartialEq, Eq)]
pub struct Floor {
    /// "the floor it has, blanks as in a table"
    pub table: Vec<u16>,
    /// "the sum, over happening cells other than the start's, of H minus the floor"
    pub left: u32,
}

/// A run with the tables after every so many of its rounds: the floor after any number of them is then soon made.
pub struct Kept {
    pub run: Run,
    rounds: Rounds,
    tables: Vec<Table>,
}

/// So many rounds lie between two tables that are kept.
const STRIDE: u32 = 64;

/// What the rounds need of a network.
struct Rounds {
    cases: usize,
    events: usize,
    /// "a limit (the horizon, or 0 for the start)"
    limits: Row,
    /// For each case the bounds of its rules and of the labels that hold in it: the event at the second place is at
    /// least so many minutes after the one at the first.
    bounds: Vec<Vec<(usize, usize, i16)>>,
    /// The event of each signal, and its reaction.
    givers: Vec<(usize, i16)>,
    /// For each case a mask of each event: -1 where it happens, 0 where it does not.
    happening: Vec<Row>,
}

/// All rounds of a network.
pub fn run(net: &Net) -> Run {
    run_within(net, u32::MAX).expect("no run is that long")
}

/// The same, or nothing if it takes more rounds than these.
pub fn run_within(net: &Net, most: u32) -> Option<Run> {
    stopped(net, most).ok()
}

/// The same, or the floor after these rounds: a run "stops only after the Nth round, and only if that round raised a
/// cell and passed no limit".
pub fn stopped(net: &Net, most: u32) -> Result<Run, Floor> {
    let (rounds, mut table) = (Rounds::new(net), ZEROS);
    match (1..=most).find_map(|count| rounds.end(&mut table, count)) {
        Some(run) => Ok(run),
        None => Err(rounds.floor(&table)),
    }
}

impl Kept {
    pub fn new(net: &Net) -> Self {
        let (rounds, mut table, mut tables) = (Rounds::new(net), ZEROS, vec![ZEROS]);
        for count in 1.. {
            if let Some(run) = rounds.end(&mut table, count) {
                return Kept { run, rounds, tables };
            }
            if count % STRIDE == 0 {
                tables.push(table);
            }
        }
        unreachable!()
    }

    /// The floor after so many rounds, if they do not end the run.
    pub fn floor(&self, count: u32) -> Option<Floor> {
        if count >= self.run.count {
            return None;
        }
        let first = self.tables[(count / STRIDE) as usize];
        Some(self.rounds.floor(&(0..count % STRIDE).fold(first, |table, _| self.rounds.round(&table))))
    }
}

impl Rounds {
    fn new(net: &Net) -> Self {
        let mut limits = [0; MOST];
        limits[1..net.events.len()].fill(net.horizon as i16);
        let of_rules = |case: usize| net.rules.iter().filter(move |rule| net.covers(rule, case)).map(bound);
        let of_case = |case: usize| of_rules(case).chain(waits(net, case)).collect();
        let happens = |case: usize| {
            let mut masks = [0; MOST];
            (0..net.events.len()).for_each(|event| masks[event] = -i16::from(net.happens(case, event)));
            masks
        };
        Rounds {
            cases: net.cases(),
            events: net.events.len(),
            limits,
            bounds: (0..net.cases()).map(of_case).collect(),
            givers: net.signals.iter().map(|signal| (signal.event, signal.reaction as i16)).collect(),
            happening: (0..net.cases()).map(happens).collect(),
        }
    }

    /// Makes one more round, with this count: the run, if it ends with it.
    fn end(&self, table: &mut Table, count: u32) -> Option<Run> {
        let after = self.round(table);
        if self.passed(&after) {
            return Some(Run { count, table: None });
        }
        if after == *table {
            return Some(Run { count, table: Some(self.table(&after)) });
        }
        *table = after;
        None
    }

    /// One round, from the table before it.
    fn round(&self, before: &Table) -> Table {
        let mut after = *before;
        for s in 0..self.cases {
            for &(from, to, wait) in &self.bounds[s] {
                after[s][to] = after[s][to].max(before[s][from] + wait);
            }
            for r in (0..self.cases).filter(|&r| r != s) {
                let told = self.told(&before[s], s, r);
                let (here, there) = (&self.happening[s], &self.happening[r]);
                for u in 0..MOST {
                    after[s][u] = after[s][u].max(before[r][u].min(told) & here[u] & there[u]);
                }
            }
        }
        after
    }

    /// The first minute in this case at which a signal counts that is given in s and on which s and r differ.
    fn told(&self, row: &Row, s: usize, r: usize) -> i16 {
        let mut told = i16::MAX;
        for (signal, &(giver, reaction)) in self.givers.iter().enumerate() {
            if truth(s, signal) != truth(r, signal) && self.happening[s][giver] != 0 {
                told = told.min(row[giver] + reaction);
            }
        }
        told
    }

    fn passed(&self, table: &Table) -> bool {
        table.iter().any(|row| (0..MOST).any(|u| row[u] > self.limits[u]))
    }

    /// "case 0 first, events in sheet order"; "A cell without its event holds 65,535".
    fn table(&self, table: &Table) -> Vec<u16> {
        let number = |cell: usize| match (cell / self.events, cell % self.events) {
            (case, event) if self.happening[case][event] == 0 => BLANK,
            (case, event) => table[case][event] as u16,
        };
        (0..self.cases * self.events).map(number).collect()
    }

    fn floor(&self, table: &Table) -> Floor {
        let mut left = 0;
        for (row, happening) in table.iter().zip(&self.happening) {
            let free = (1..self.events).filter(|&event| happening[event] != 0);
            left += free.map(|event| (self.limits[event] - row[event]) as u32).sum::<u32>();
        }
        Floor { table: self.table(table), left }
    }
}

/// The bounds of one case's labels: an event comes at least the reaction after the event of each signal in its label.
fn waits(net: &Net, case: usize) -> Vec<(usize, usize, i16)> {
    let mut waits = vec![];
    for event in (0..net.events.len()).filter(|&event| net.happens(case, event)) {
        let givers = net.labels[event].iter().map(|letter| &net.signals[letter.0]);
        waits.extend(givers.map(|signal| (signal.event, event, signal.reaction as i16)));
    }
    waits
}

/// `min` bounds `to` by `from` and `max` bounds `from` by `to`.
fn bound(rule: &Rule) -> (usize, usize, i16) {
    let limit = rule.limit as i16;
    match rule.kind {
        Kind::Min => (rule.from, rule.to, limit),
        Kind::Max => (rule.to, rule.from, -limit),
        Kind::Fix => unreachable!("a sheet with a `fix` is not solved"),
    }
}

// ---------------------------------------------------------------- The answer of libtally.a

/// The upper four bytes where no good table exists.
pub const NO_TABLE: u32 = u32::MAX;

/// The sum of a table laid out as 16 rows of 16 cells, with zeros where there is no case or event, and for blanks.
pub fn sum(net: &Net, table: &[u16]) -> u32 {
    let (mut one, mut two) = (0u32, 0u32);
    for case in 0..MOST {
        for event in 0..MOST {
            let there = case < net.cases() && event < net.events.len() && net.happens(case, event);
            one = one.wrapping_add(if there { u32::from(table[net.cell(case, event)]) } else { 0 });
            two = two.wrapping_add(one);
        }
    }
    two
}

/// The count of rounds in the lower four bytes, the sum of the table in the upper four.
pub fn answer(net: &Net, run: &Run) -> u64 {
    let upper = run.table.as_ref().map_or(NO_TABLE, |table| sum(net, table));
    u64::from(upper) << 32 | u64::from(run.count)
}

/// The answer for a sheet; 0 where it is refused.
pub fn answer_of(reading: &Result<Net, Refusal>) -> u64 {
    reading.as_ref().map_or(0, |net| answer(net, &run(net)))
}
