//! A second judge of tables for sheets with labelled events (02, point 6), with a search of its own for each point.
//! With a slip it is a wrong judge, for the libraries of `faults.rs` and the programs of `verdicts.rs`.
//!
//! Some other slips would be none. Where point 1 holds, an event of one case only comes after a signal that tells the
//! two cases apart, and a signal that is not given has a number that is later than every minute: so a judge that
//! compares all events by number, or asks all signals, names the same breaches.

use crate::model::{self, holds_in, truth, Net, Rule, Verdict, BLANK};

/// What is wrong with a judge.
#[derive(Clone, Copy, PartialEq)]
pub enum Slip {
    None,
    // point 1
    FilledNotAsked,
    ZeroAccepted,
    BlankNotAsked,
    LabelsIgnored,
    WaitNotAsked,
    WaitOfOne,
    WaitAMinuteLess,
    WaitAMinuteMore,
    WaitInItsMinute,
    WaitForTrue,
    WaitForFalse,
    WaitForFirst,
    WaitNotForBlanks,
    WaitWhereAbsent,
    WaitsLast,
    BlanksFirst,
    WaitIsRule,
    // point 2
    RuleByLabel,
    RuleIfFrom,
    RuleIfTo,
    RuleIfEither,
    BlankIsZero,
    // point 3
    NotGivenCounts,
    OneCaseUnheard,
    UnlabelledOnly,
}

/// The verdict, with one slip or none.
pub fn judge(net: &Net, table: &[u16], slip: Slip) -> Verdict {
    let unlabelled = Net { labels: vec![vec![]; net.events.len()], ..net.clone() };
    let judge = Judge { net: if slip == Slip::LabelsIgnored { &unlabelled } else { net }, table, slip };
    let late = judge.late().map(|(case, event)| match slip {
        Slip::WaitIsRule if judge.rank(case, event) == Some(2) => Verdict::Rule { case, rule: event },
        _ => Verdict::Late { case, event },
    });
    late.or_else(|| judge.broken()).or_else(|| judge.unheard()).unwrap_or(Verdict::Pass)
}

struct Judge<'a> {
    net: &'a Net,
    table: &'a [u16],
    slip: Slip,
}

impl Judge<'_> {
    fn at(&self, case: usize, event: usize) -> i64 {
        i64::from(self.table[case * self.net.events.len() + event])
    }

    /// The first cell at fault: all of them are found, and one is chosen.
    fn late(&self) -> Option<(usize, usize)> {
        let cells = (0..self.net.cases()).flat_map(|case| (0..self.net.events.len()).map(move |event| (case, event)));
        let found = cells.filter_map(|(case, event)| self.rank(case, event).map(|rank| (rank, case, event)));
        let first = found.min_by_key(|&(rank, case, event)| match self.slip {
            Slip::WaitsLast => (rank == 2, case, event),
            Slip::BlanksFirst => (rank != 0, case, event),
            _ => (false, case, event),
        });
        first.map(|(_, case, event)| (case, event))
    }

    /// What is wrong with a cell: 0, it is filled or blank and should not be; 1, it is over the horizon, or a start
    /// that isn't 0; 2, it is too soon for its label.
    fn rank(&self, case: usize, event: usize) -> Option<u8> {
        let (minute, slip) = (self.at(case, event), self.slip);
        let blank = minute == i64::from(BLANK);
        match self.net.happens(case, event) {
            false if slip == Slip::FilledNotAsked => None,
            false if slip == Slip::ZeroAccepted && minute == 0 => None,
            false if slip == Slip::WaitWhereAbsent && blank => self.too_soon(case, event),
            false => Some(0).filter(|_| !blank),
            true if blank && slip == Slip::BlankNotAsked => None,
            true if blank => Some(0),
            true if minute > self.net.horizon || event == 0 && minute != 0 => Some(1),
            true => self.too_soon(case, event),
        }
    }

    fn too_soon(&self, case: usize, event: usize) -> Option<u8> {
        let slip = self.slip;
        let label = &self.net.labels[event];
        let asked = label.iter().enumerate().filter(|(place, letter)| match slip {
            Slip::WaitNotAsked => false,
            Slip::WaitForTrue => letter.1,
            Slip::WaitForFalse => !letter.1,
            Slip::WaitForFirst => *place == 0,
            _ => true,
        });
        let mut waits = asked.map(|(_, letter)| &self.net.signals[letter.0]);
        let soon = waits.any(|signal| {
            let given = self.at(case, signal.event);
            let wait = match slip {
                Slip::WaitOfOne => 1,
                Slip::WaitInItsMinute => 0,
                Slip::WaitAMinuteLess => signal.reaction - 1,
                Slip::WaitAMinuteMore => signal.reaction + 1,
                _ => signal.reaction,
            };
            let excused = slip == Slip::WaitNotForBlanks && given == i64::from(BLANK);
            !excused && self.at(case, event) - given < wait
        });
        if soon { Some(2) } else { None }
    }

    fn covers(&self, rule: &Rule, case: usize) -> bool {
        let (from, to) = (self.net.happens(case, rule.from), self.net.happens(case, rule.to));
        holds_in(&rule.label, case)
            && match self.slip {
                Slip::RuleByLabel | Slip::BlankIsZero => true,
                Slip::RuleIfFrom => from,
                Slip::RuleIfTo => to,
                Slip::RuleIfEither => from || to,
                _ => from && to,
            }
    }

    fn broken(&self) -> Option<Verdict> {
        let minute = |case: usize, event: usize| match self.table[case * self.net.events.len() + event] {
            BLANK if self.slip == Slip::BlankIsZero => 0,
            minute => minute,
        };
        let kept = |case: usize, rule: &Rule| model::holds(rule, minute(case, rule.from), minute(case, rule.to));
        let broken = |case: usize| self.net.rules.iter().position(|rule| self.covers(rule, case) && !kept(case, rule));
        (0..self.net.cases()).find_map(|case| broken(case).map(|rule| Verdict::Rule { case, rule }))
    }

    fn unheard(&self) -> Option<Verdict> {
        let (cases, events) = (self.net.cases(), self.net.events.len());
        let places = (0..cases * cases * events).map(|it| (it / events / cases, it / events % cases, it % events));
        places.into_iter().find(|&(s, r, u)| self.breach(s, r, u)).map(|(s, r, u)| Verdict::Unheard { s, r, u })
    }

    fn breach(&self, s: usize, r: usize, u: usize) -> bool {
        let told = (0..self.net.signals.len()).any(|signal| {
            let giver = &self.net.signals[signal];
            let known = self.at(s, giver.event) + giver.reaction;
            let counts = match self.net.gives(s, signal) {
                true => known <= self.at(s, u),
                false => self.slip == Slip::NotGivenCounts,
            };
            truth(s, signal) != truth(r, signal) && counts
        });
        let (here, there) = (self.net.happens(s, u), self.net.happens(r, u));
        match self.slip {
            Slip::OneCaseUnheard if here != there => true,
            Slip::UnlabelledOnly if !self.net.labels[u].is_empty() => false,
            _ => here && there && !told && self.at(s, u) != self.at(r, u),
        }
    }
}
