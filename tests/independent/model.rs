//! Document 01, and points 1, 2, 3, 4, 6, 7 and 8 of document 02, in plain Rust, written from the papers alone.
//!
//! Nothing here is fast or clever on purpose: each function renders one rule of the paper, and its comment says which.
//! Quoted words are those of the papers. "Readings" are the decisions of docs/DECISIONS.md with this title.

use std::collections::{BTreeMap, VecDeque};
use std::ops::Range;

/// Refusal 1: "The sheet is longer than 4,096 bytes."
pub const SHEET_MOST: usize = 4096;
/// "H from 0 to 10,080"; a limit runs "from -10,080 to 10,080".
pub const MINUTES_MOST: i64 = 10_080;
/// "n from 1 to 16".
pub const EVENTS_MOST: i64 = 16;
/// Of the heaviest sheet: "n from 2 to 16".
pub const RING_LEAST: i64 = 2;
/// "k from 0 to 4".
pub const SIGNALS_MOST: i64 = 4;
/// "m from 0 to 64".
pub const RULES_MOST: i64 = 64;
/// "r from 0 to 4".
pub const REACTIONS_MOST: i64 = 4;
/// "minutes from 1 to 60".
pub const REACTION_MOST: i64 = 60;
/// An event name has "1 to 8 bytes".
pub const NAME_MOST: usize = 8;
/// Refusal 18: "the listing is longer than 4,096 bytes".
pub const LISTING_MOST: usize = 4096;
/// "A cell without its event holds 65,535", and "that number is printed `-`".
pub const BLANK: u16 = 65_535;
/// In a listing "the digits 65535 are refused with 19".
pub const MINUTE_MOST: i64 = 65_534;

/// "A refusal gives its number and a line, the first line being 1."
#[derive(Clone, Copy, Debug, PartialEq, Eq)]
pub struct Refusal {
    pub number: u8,
    pub line: usize,
}

/// A rule's kind. `fix` is one by the former rules only (02, point 7).
#[derive(Clone, Copy, Debug, PartialEq, Eq)]
pub enum Kind {
    Max,
    Min,
    Fix,
}

/// A signal has a letter, the event that gives it, and the minutes until it counts: "A signal without a line keeps 1."
#[derive(Clone, Debug, PartialEq, Eq)]
pub struct Signal {
    pub letter: u8,
    pub event: usize,
    pub reaction: i64,
}

/// A list of signals, each with the truth that is asked (none for `-`).
pub type Label = Vec<(usize, bool)>;

/// A rule line.
#[derive(Clone, Debug, PartialEq, Eq)]
pub struct Rule {
    pub kind: Kind,
    pub from: usize,
    pub to: usize,
    pub limit: i64,
    pub label: Label,
}

/// What a sheet says. An event is the place of its name in the sheet; each has a label, of no letters where the sheet
/// gives it none.
#[derive(Clone, Debug, PartialEq, Eq)]
pub struct Net {
    pub horizon: i64,
    pub events: Vec<Range<usize>>,
    pub signals: Vec<Signal>,
    pub rules: Vec<Rule>,
    pub labels: Vec<Label>,
}

/// "The verdict is either a pass or a breach, and the breach is itself one of three."
#[derive(Clone, Copy, Debug, PartialEq, Eq)]
pub enum Verdict {
    Pass,
    Late { case: usize, event: usize },
    Rule { case: usize, rule: usize },
    Unheard { s: usize, r: usize, u: usize },
}

impl Net {
    /// "There are 2^k cases, numbered from 0."
    pub fn cases(&self) -> usize {
        1 << self.signals.len()
    }

    /// A table has "n × 2^k" minutes "in all".
    pub fn cells(&self) -> usize {
        self.events.len() * self.cases()
    }

    /// "case 0 first, events in sheet order".
    pub fn cell(&self, case: usize, event: usize) -> usize {
        case * self.events.len() + event
    }

    /// Whether some signal has a reaction "other than 1".
    pub fn is_slow(&self) -> bool {
        self.signals.iter().any(|signal| signal.reaction != 1)
    }

    /// Whether some event has a label "other than `-`".
    pub fn is_labelled(&self) -> bool {
        self.labels.iter().any(|label| !label.is_empty())
    }

    /// "An event happens where its label holds."
    pub fn happens(&self, case: usize, event: usize) -> bool {
        holds_in(&self.labels[event], case)
    }

    /// Whether a signal is given in a case: whether its event happens there.
    pub fn gives(&self, case: usize, signal: usize) -> bool {
        self.happens(case, self.signals[signal].event)
    }

    /// "A rule covers a case only if both its events happen there", and where its label holds.
    pub fn covers(&self, rule: &Rule, case: usize) -> bool {
        holds_in(&rule.label, case) && self.happens(case, rule.from) && self.happens(case, rule.to)
    }

    /// The happening cells other than the start's.
    pub fn free_cells(&self) -> usize {
        let of_case = |case: usize| (1..self.events.len()).filter(|&event| self.happens(case, event)).count();
        (0..self.cases()).map(of_case).sum()
    }
}

/// "the signal is true where its weight is in the case number"; the first signal has weight 1, the next 2, and so on.
pub fn truth(case: usize, signal: usize) -> bool {
    (case >> signal) & 1 == 1
}

/// A case agrees with a label when each letter has the truth that the label asks.
pub fn holds_in(label: &[(usize, bool)], case: usize) -> bool {
    label.iter().all(|&(signal, asked)| truth(case, signal) == asked)
}

// ---------------------------------------------------------------- The sheet

/// By which rules a sheet is read: those of today, or, by the converter, "the former rules". Readings: these are
/// those after request 6.
#[derive(Clone, Copy, PartialEq)]
enum Kinds {
    Today,
    Former,
}

/// Reads a sheet, "from the top", and gives the network or the refusal of the first line at fault.
pub fn read(sheet: &[u8]) -> Result<Net, Refusal> {
    read_by(sheet, Kinds::Today)
}

/// The same by the former rules.
pub fn read_formerly(sheet: &[u8]) -> Result<Net, Refusal> {
    read_by(sheet, Kinds::Former)
}

fn read_by(sheet: &[u8], kinds: Kinds) -> Result<Net, Refusal> {
    if sheet.len() > SHEET_MOST {
        return Err(Refusal { number: 1, line: 0 });
    }
    let mut lines = Lines { sheet, at: 0, number: 0 };
    let horizon = lines.section(b"horizon", 0, MINUTES_MOST)?;
    let mut net = Net { horizon, events: vec![], signals: vec![], rules: vec![], labels: vec![] };
    for _ in 0..lines.section(b"events", 1, EVENTS_MOST)? {
        let line = lines.take()?;
        let name = event_line(sheet, line, &net).map_err(|number| lines.refuse(number))?;
        net.events.push(name);
        net.labels.push(vec![]);
    }
    for _ in 0..lines.section(b"signals", 0, SIGNALS_MOST)? {
        let line = lines.take()?;
        let signal = signal_line(sheet, line, &net).map_err(|number| lines.refuse(number))?;
        net.signals.push(signal);
    }
    for _ in 0..lines.section(b"rules", 0, RULES_MOST)? {
        let line = lines.take()?;
        let rule = rule_line(sheet, line, &net, kinds).map_err(|number| lines.refuse(number))?;
        net.rules.push(rule);
    }
    if !lines.at_end() {
        lines.reactions(&mut net)?;
    }
    if !lines.at_end() {
        lines.labels(&mut net)?;
    }
    lines.end()?;
    Ok(net)
}

/// The sheet, the place of its first unread byte, and the number of the line taken last.
struct Lines<'a> {
    sheet: &'a [u8],
    at: usize,
    number: usize,
}

impl Lines<'_> {
    /// A refusal of the line taken last.
    fn refuse(&self, number: u8) -> Refusal {
        Refusal { number, line: self.number }
    }

    /// The next line without its line feed. Refusal 2: "The sheet ends where a line is due, or that line has no line feed."
    fn take(&mut self) -> Result<Range<usize>, Refusal> {
        self.number += 1;
        match self.sheet[self.at..].iter().position(|&byte| byte == b'\n') {
            None => Err(self.refuse(2)),
            Some(length) => {
                let line = self.at..self.at + length;
                self.at = line.end + 1;
                Ok(line)
            }
        }
    }

    /// A section line: its word and a number in its range (refusals 3, 4 and 5).
    fn section(&mut self, word: &[u8], least: i64, most: i64) -> Result<i64, Refusal> {
        let line = self.take()?;
        let fields = fields(&self.sheet[line]);
        if fields.len() != 2 || fields[0] != word {
            return Err(self.refuse(3));
        }
        number(fields[1], least, most).map_err(|number| self.refuse(number))
    }

    /// A line `n,H`, "n from 2 to 16", refused "as a sheet of one line is": on it the lowest number over both fields
    /// decides (refusals 3, 4 and 5).
    fn size(&mut self) -> Result<(usize, i64), Refusal> {
        let line = self.take()?;
        let fields = fields(&self.sheet[line]);
        if fields.len() != 2 {
            return Err(self.refuse(3));
        }
        match (number(fields[0], RING_LEAST, EVENTS_MOST), number(fields[1], 0, MINUTES_MOST)) {
            (Ok(events), Ok(horizon)) => Ok((events as usize, horizon)),
            (events, horizon) => Err(self.refuse(lowest(&[events.err(), horizon.err()]).unwrap())),
        }
    }

    /// "A section `reactions,r` .. may follow the rules, with lines `letter,minutes`"; "Any byte after the last rule
    /// begins this section".
    fn reactions(&mut self, net: &mut Net) -> Result<(), Refusal> {
        let mut seen = vec![];
        for _ in 0..self.section(b"reactions", 0, REACTIONS_MOST)? {
            let line = self.take()?;
            let read = reaction_line(&self.sheet[line], net, &seen);
            let (signal, minutes) = read.map_err(|number| self.refuse(number))?;
            net.signals[signal].reaction = minutes;
            seen.push(net.signals[signal].letter);
        }
        Ok(())
    }

    /// "A section `cases,c` (c from 0 to n) may follow `reactions`, with lines `event,label`"; "any byte after
    /// `reactions` begins this section". 20 and 21 are "judged on and given with the section's last line, 20 first".
    /// Readings: "With `cases,0` neither 20 nor 21 arises."
    fn labels(&mut self, net: &mut Net) -> Result<(), Refusal> {
        let mut seen = vec![];
        for _ in 0..self.section(b"cases", 0, net.events.len() as i64)? {
            let line = self.take()?;
            let read = label_line(self.sheet, line, net, &seen);
            let (event, label) = read.map_err(|number| self.refuse(number))?;
            net.labels[event] = label;
            seen.push(event);
        }
        match seen.is_empty() {
            false if !net.labels[0].is_empty() => Err(self.refuse(20)),
            false if !all_complete(net) => Err(self.refuse(21)),
            _ => Ok(()),
        }
    }

    fn at_end(&self) -> bool {
        self.at == self.sheet.len()
    }

    /// "A sheet that ends after its rules is still good", as is one that ends after its reactions; "Refusal 10 moves
    /// to the end of" the section of labels, and its line is the one that bytes behind it begin. Readings: never 2,
    /// and one line feed is enough.
    fn end(&mut self) -> Result<(), Refusal> {
        self.number += 1;
        if self.at_end() { Ok(()) } else { Err(self.refuse(10)) }
    }
}

/// "Fields are separated by one comma." Readings: an empty line has one empty field.
fn fields(line: &[u8]) -> Vec<&[u8]> {
    line.split(|&byte| byte == b',').collect()
}

/// "on one line the lowest number does": the least of the faults found on one line.
fn lowest(faults: &[Option<u8>]) -> Option<u8> {
    faults.iter().flatten().min().copied()
}

/// One event name. Refusals 3 (a comma in the line), 6 and 7.
fn event_line(sheet: &[u8], line: Range<usize>, net: &Net) -> Result<Range<usize>, u8> {
    let name = &sheet[line.clone()];
    if fields(name).len() != 1 {
        return Err(3);
    }
    if !is_name(name) {
        return Err(6);
    }
    if find_event(sheet, net, name).is_some() {
        return Err(7);
    }
    Ok(line)
}

/// `letter,event`. Refusals 3, 6, 7 and 8.
fn signal_line(sheet: &[u8], line: Range<usize>, net: &Net) -> Result<Signal, u8> {
    let fields = fields(&sheet[line]);
    if fields.len() != 2 {
        return Err(3);
    }
    let letter = new_letter(net, fields[0]);
    let event = used_event(sheet, net, fields[1]).and_then(|event| gives_no_signal_yet(net, event));
    match (letter, event) {
        (Ok(letter), Ok(event)) => Ok(Signal { letter, event, reaction: 1 }),
        (letter, event) => Err(lowest(&[letter.err(), event.err()]).unwrap()),
    }
}

/// "The letter is one of a to z" (6).
fn one_letter(field: &[u8]) -> Result<u8, u8> {
    match field {
        [letter] if letter.is_ascii_lowercase() => Ok(*letter),
        _ => Err(6),
    }
}

/// A letter that is not "defined a second time" (7).
fn new_letter(net: &Net, field: &[u8]) -> Result<u8, u8> {
    let letter = one_letter(field)?;
    if find_signal(net, letter).is_some() { Err(7) } else { Ok(letter) }
}

/// `letter,minutes`, where these letters have a line already: the signal and its reaction. Refusals 3, 4, 5, 6, 7 and
/// 8.
fn reaction_line(line: &[u8], net: &Net, seen: &[u8]) -> Result<(usize, i64), u8> {
    let fields = fields(line);
    if fields.len() != 2 {
        return Err(3);
    }
    let signal = slow_letter(net, fields[0], seen);
    let minutes = number(fields[1], 1, REACTION_MOST);
    match (signal, minutes) {
        (Ok(signal), Ok(minutes)) => Ok((signal, minutes)),
        (signal, minutes) => Err(lowest(&[signal.err(), minutes.err()]).unwrap()),
    }
}

/// "a letter's second line is refused with 7"; a letter that gives no signal is "not defined" (8).
fn slow_letter(net: &Net, field: &[u8], seen: &[u8]) -> Result<usize, u8> {
    let letter = one_letter(field)?;
    if seen.contains(&letter) { Err(7) } else { find_signal(net, letter).ok_or(8) }
}

/// `event,label`, where these events have a line already: the event and its label. Refusals 3, 6, 7, 8 and 9.
fn label_line(sheet: &[u8], line: Range<usize>, net: &Net, seen: &[usize]) -> Result<(usize, Label), u8> {
    let fields = fields(&sheet[line]);
    if fields.len() != 2 {
        return Err(3);
    }
    let event = used_event(sheet, net, fields[0]).and_then(|event| first_line(event, seen));
    let label = label(net, fields[1]);
    match (event, label) {
        (Ok(event), Ok(label)) => Ok((event, label)),
        (event, label) => Err(lowest(&[event.err(), label.err()]).unwrap()),
    }
}

/// "an event's second line is refused with 7".
fn first_line(event: usize, seen: &[usize]) -> Result<usize, u8> {
    if seen.contains(&event) { Err(7) } else { Ok(event) }
}

/// 21: "an event's or rule's label lacks part of the label of an event whose signal it uses". Its parts are its signed
/// letters.
fn all_complete(net: &Net) -> bool {
    let labels = net.labels.iter().chain(net.rules.iter().map(|rule| &rule.label));
    labels.into_iter().all(|label| is_complete(net, label))
}

fn is_complete(net: &Net, label: &[(usize, bool)]) -> bool {
    let asked_by = |&(signal, _): &(usize, bool)| &net.labels[net.signals[signal].event];
    label.iter().flat_map(asked_by).all(|part| label.contains(part))
}

/// "An event gives at most one signal" (7).
fn gives_no_signal_yet(net: &Net, event: usize) -> Result<usize, u8> {
    if net.signals.iter().any(|signal| signal.event == event) { Err(7) } else { Ok(event) }
}

/// `kind,from,to,limit,label`. Refusals 3, 22, 4, 5, 6, 8 and 9: "22, the row is a `fix`, .. tried directly after 3".
fn rule_line(sheet: &[u8], line: Range<usize>, net: &Net, kinds: Kinds) -> Result<Rule, u8> {
    let fields = fields(&sheet[line]);
    if fields.len() != 5 {
        return Err(3);
    }
    let kind = kind(fields[0], kinds)?;
    let from = used_event(sheet, net, fields[1]);
    let to = used_event(sheet, net, fields[2]);
    let limit = number(fields[3], -MINUTES_MOST, MINUTES_MOST);
    let label = label(net, fields[4]);
    match (from, to, limit, label) {
        (Ok(from), Ok(to), Ok(limit), Ok(label)) => Ok(Rule { kind, from, to, limit, label }),
        (from, to, limit, label) => Err(lowest(&[from.err(), to.err(), limit.err(), label.err()]).unwrap()),
    }
}

/// Refusal 3: "another .. kind"; refusal 22: "the row is a `fix`".
fn kind(field: &[u8], kinds: Kinds) -> Result<Kind, u8> {
    match field {
        b"max" => Ok(Kind::Max),
        b"min" => Ok(Kind::Min),
        b"fix" if kinds == Kinds::Former => Ok(Kind::Fix),
        b"fix" => Err(22),
        _ => Err(3),
    }
}

/// An event where it is used: its name well-formed (6, by the readings also here) and defined (8).
fn used_event(sheet: &[u8], net: &Net, field: &[u8]) -> Result<usize, u8> {
    if !is_name(field) {
        return Err(6);
    }
    find_event(sheet, net, field).ok_or(8)
}

fn find_event(sheet: &[u8], net: &Net, name: &[u8]) -> Option<usize> {
    net.events.iter().position(|event| &sheet[event.clone()] == name)
}

fn find_signal(net: &Net, letter: u8) -> Option<usize> {
    net.signals.iter().position(|signal| signal.letter == letter)
}

/// "1 to 8 bytes, a lower-case letter, then lower-case letters or digits".
fn is_name(field: &[u8]) -> bool {
    let rest_is_good = |rest: &[u8]| rest.iter().all(|byte| byte.is_ascii_lowercase() || byte.is_ascii_digit());
    match field {
        [] => false,
        [first, rest @ ..] => field.len() <= NAME_MOST && first.is_ascii_lowercase() && rest_is_good(rest),
    }
}

/// "A number is `0`, or digits without a leading zero, with one `-` before it if it is negative" (4), within its range (5).
fn number(field: &[u8], least: i64, most: i64) -> Result<i64, u8> {
    let (negative, digits) = match field {
        [b'-', digits @ ..] => (true, digits),
        digits => (false, digits),
    };
    if digits.is_empty() || !digits.iter().all(u8::is_ascii_digit) {
        return Err(4);
    }
    if digits[0] == b'0' && (negative || digits.len() > 1) {
        return Err(4);
    }
    let size = magnitude(digits);
    let value = if negative { -size } else { size };
    if least <= value && value <= most { Ok(value) } else { Err(5) }
}

/// The value of digits without a leading zero. More than six digits are beyond every range, "however many" there are.
fn magnitude(digits: &[u8]) -> i64 {
    if digits.len() > 6 {
        return 1_000_000;
    }
    digits.iter().fold(0, |value, digit| 10 * value + i64::from(digit - b'0'))
}

/// "A label is `-` (every case) or one or more letters, each with an optional `!` before it" (6), each defined (8), none twice (9).
fn label(net: &Net, field: &[u8]) -> Result<Label, u8> {
    let letters = letters(field).ok_or(6)?;
    if letters.iter().any(|&(letter, _)| find_signal(net, letter).is_none()) {
        return Err(8);
    }
    let twice = |place: usize| letters[..place].iter().any(|&(letter, _)| letter == letters[place].0);
    if (0..letters.len()).any(twice) {
        return Err(9);
    }
    Ok(letters.iter().map(|&(letter, truth)| (find_signal(net, letter).unwrap(), truth)).collect())
}

/// The letters of a label with their signs, or nothing if the label is ill-formed.
fn letters(field: &[u8]) -> Option<Vec<(u8, bool)>> {
    if field == b"-" {
        return Some(vec![]);
    }
    if field.is_empty() {
        return None;
    }
    let mut letters = vec![];
    let mut rest = field;
    while !rest.is_empty() {
        let (letter, truth, behind) = match rest {
            [b'!', letter, behind @ ..] => (*letter, false, behind),
            [letter, behind @ ..] => (*letter, true, behind),
            [] => unreachable!(),
        };
        if !letter.is_ascii_lowercase() {
            return None;
        }
        letters.push((letter, truth));
        rest = behind;
    }
    Some(letters)
}

// ---------------------------------------------------------------- Good tables and the judge

/// Whether minute(to) - minute(from) is as the rule's kind asks; a `fix`, by the former rules, asks that "it equals the
/// limit".
pub fn holds(rule: &Rule, from: u16, to: u16) -> bool {
    let difference = i64::from(to) - i64::from(from);
    match rule.kind {
        Kind::Max => difference <= rule.limit,
        Kind::Min => difference >= rule.limit,
        Kind::Fix => difference == rule.limit,
    }
}

/// The minutes of one case.
fn row<'a>(net: &Net, table: &'a [u16], case: usize) -> &'a [u16] {
    &table[net.cell(case, 0)..net.cell(case + 1, 0)]
}

/// Point 1 for one cell of a case's row: "at most H, and the start is at minute 0"; and not "wrongly filled, wrongly
/// blank or sooner than its label's signals allow".
fn on_time(net: &Net, row: &[u16], case: usize, event: usize) -> bool {
    let minute = i64::from(row[event]);
    match net.happens(case, event) {
        false => row[event] == BLANK,
        true => minute <= net.horizon && (event != 0 || minute == 0) && waits_kept(net, row, event),
    }
}

/// "An event comes no sooner than each signal in its label plus that signal's reaction." Readings: this goes by number,
/// so nothing may wait for a cell that is blank.
fn waits_kept(net: &Net, row: &[u16], event: usize) -> bool {
    let known = |signal: &Signal| i64::from(row[signal.event]) + signal.reaction;
    net.labels[event].iter().all(|&(signal, _)| known(&net.signals[signal]) <= i64::from(row[event]))
}

/// Point 2 for one case, given by its row, and one rule.
fn rule_kept(net: &Net, row: &[u16], case: usize, rule: &Rule) -> bool {
    !net.covers(rule, case) || holds(rule, row[rule.from], row[rule.to])
}

/// "a signal now counts once its minute plus its reaction is at most the minute in question"; one that is not given in
/// the case never does.
fn counts(net: &Net, table: &[u16], case: usize, signal: usize, minute: u16) -> bool {
    let Signal { event, reaction, .. } = net.signals[signal];
    net.gives(case, signal) && i64::from(table[net.cell(case, event)]) + reaction <= i64::from(minute)
}

/// Point 3's condition: "no signal on which s and r differ" counts, in s, at the minute of u in s.
fn cannot_tell(net: &Net, table: &[u16], s: usize, r: usize, u: usize) -> bool {
    let heard = |signal: usize| counts(net, table, s, signal, table[net.cell(s, u)]);
    !(0..net.signals.len()).any(|signal| truth(s, signal) != truth(r, signal) && heard(signal))
}

/// Point 3 for s, r and u: "then u has the same minute in s and in r". It "compares only events that happen in both
/// cases".
fn same_unless_told(net: &Net, table: &[u16], s: usize, r: usize, u: usize) -> bool {
    let in_both = net.happens(s, u) && net.happens(r, u);
    !in_both || !cannot_tell(net, table, s, r, u) || table[net.cell(s, u)] == table[net.cell(r, u)]
}

/// The judge. "Points 1, 2, 3 are tried in that order, and the first breach ends the search." The table has n × 2^k numbers.
pub fn judge(net: &Net, table: &[u16]) -> Verdict {
    assert_eq!(table.len(), net.cells());
    first_late(net, table)
        .or_else(|| first_rule(net, table))
        .or_else(|| first_unheard(net, table))
        .unwrap_or(Verdict::Pass)
}

/// "Late: the lowest cell, by case and then event".
fn first_late(net: &Net, table: &[u16]) -> Option<Verdict> {
    for case in 0..net.cases() {
        for event in 0..net.events.len() {
            if !on_time(net, row(net, table, case), case, event) {
                return Some(Verdict::Late { case, event });
            }
        }
    }
    None
}

/// "Rule: the case and the rule's place in the sheet (from 0), by case and then rule."
fn first_rule(net: &Net, table: &[u16]) -> Option<Verdict> {
    for case in 0..net.cases() {
        for (rule, line) in net.rules.iter().enumerate() {
            if !rule_kept(net, row(net, table, case), case, line) {
                return Some(Verdict::Rule { case, rule });
            }
        }
    }
    None
}

/// "Unheard: the cases s, r and the event u, in that order of search."
fn first_unheard(net: &Net, table: &[u16]) -> Option<Verdict> {
    for s in 0..net.cases() {
        for r in 0..net.cases() {
            for u in 0..net.events.len() {
                if !same_unless_told(net, table, s, r, u) {
                    return Some(Verdict::Unheard { s, r, u });
                }
            }
        }
    }
    None
}

// ---------------------------------------------------------------- The least good table, by raising

/// The least good table, or nothing if there is no good table.
///
/// All cells start at 0, so at or below every good table. A cell is raised only as far as it stands in every good table, so this
/// stays true, and a cell beyond its highest minute shows that there is no good table. Cells that rose wait in a queue until
/// everything that they force has been looked at. Cells without their event are never raised, and blank at the end.
pub fn solve(net: &Net) -> Option<Vec<u16>> {
    let mut raising = Raising::new(net);
    while let Some((case, event)) = raising.next() {
        raising.force_by_rules(case, event);
        raising.force_in_other_cases(case, event);
        raising.force_by_signal(case, event);
        raising.force_waits(case, event);
        if raising.too_late {
            return None;
        }
    }
    let table = with_blanks(net, &raising.minutes);
    assert_eq!(judge(net, &table), Verdict::Pass, "the raised table is not good");
    Some(table)
}

/// A table of these minutes, in which "A cell without its event holds 65,535".
pub fn with_blanks(net: &Net, minutes: &[i64]) -> Vec<u16> {
    let events = net.events.len();
    let number = |cell: usize| if net.happens(cell / events, cell % events) { minutes[cell] as u16 } else { BLANK };
    (0..net.cells()).map(number).collect()
}

struct Raising<'a> {
    net: &'a Net,
    minutes: Vec<i64>,
    queue: VecDeque<usize>,
    queued: Vec<bool>,
    too_late: bool,
}

impl<'a> Raising<'a> {
    fn new(net: &'a Net) -> Self {
        let (cells, events) = (net.cells(), net.events.len());
        let happens = |cell: usize| net.happens(cell / events, cell % events);
        let (queue, queued) = ((0..cells).filter(|&cell| happens(cell)).collect(), (0..cells).map(happens).collect());
        Raising { net, minutes: vec![0; cells], queue, queued, too_late: false }
    }

    fn next(&mut self) -> Option<(usize, usize)> {
        let cell = self.queue.pop_front()?;
        self.queued[cell] = false;
        Some((cell / self.net.events.len(), cell % self.net.events.len()))
    }

    fn minute(&self, case: usize, event: usize) -> i64 {
        self.minutes[self.net.cell(case, event)]
    }

    /// In every good table the cell has at least this minute. Point 1 says how far it may rise.
    fn raise(&mut self, case: usize, event: usize, minute: i64) {
        let cell = self.net.cell(case, event);
        if minute <= self.minutes[cell] {
            return;
        }
        self.minutes[cell] = minute;
        let highest = if event == 0 { 0 } else { self.net.horizon };
        self.too_late |= minute > highest;
        if !self.queued[cell] {
            self.queued[cell] = true;
            self.queue.push_back(cell);
        }
    }

    /// Point 2: the rules of this case that name the event.
    fn force_by_rules(&mut self, case: usize, event: usize) {
        let net = self.net;
        for rule in &net.rules {
            if (rule.from == event || rule.to == event) && net.covers(rule, case) {
                self.force_by_rule(case, rule);
            }
        }
    }

    /// to - from <= limit forces `from` up to to - limit; to - from >= limit forces `to` up to from + limit. A `fix` of
    /// the former rules forces both.
    fn force_by_rule(&mut self, case: usize, rule: &Rule) {
        if rule.kind != Kind::Min {
            self.raise(case, rule.from, self.minute(case, rule.to) - rule.limit);
        }
        if rule.kind != Kind::Max {
            self.raise(case, rule.to, self.minute(case, rule.from) + rule.limit);
        }
    }

    /// Point 1, where the event that rose gives a signal: the events of this case that have it in their labels.
    fn force_waits(&mut self, case: usize, event: usize) {
        let net = self.net;
        let Some(signal) = net.signals.iter().position(|signal| signal.event == event) else { return };
        let waits = |u: &usize| net.happens(case, *u) && net.labels[*u].iter().any(|letter| letter.0 == signal);
        for u in (0..net.events.len()).filter(waits) {
            self.raise(case, u, self.minute(case, event) + net.signals[signal].reaction);
        }
    }

    /// Point 3, for the other cases' minute of an event that rose here.
    fn force_in_other_cases(&mut self, case: usize, event: usize) {
        for other in 0..self.net.cases() {
            self.force_by_case(other, case, event);
        }
    }

    /// Point 3, where the event that rose gives a signal: all events of this case, against the cases that differ on it.
    fn force_by_signal(&mut self, case: usize, event: usize) {
        let Some(signal) = self.net.signals.iter().position(|signal| signal.event == event) else { return };
        for other in (0..self.net.cases()).filter(|&other| truth(other, signal) != truth(case, signal)) {
            for u in 0..self.net.events.len() {
                self.force_by_case(case, other, u);
            }
        }
    }

    /// Point 3 in the form of the hyperarcs, for an event that happens in both cases: a minute is at least the lesser
    /// of the other case's minute and the first at which a differing signal that is given counts in its own case. In
    /// any good table u in s either is at or after a minute at which one counts, or has the same minute as in r.
    fn force_by_case(&mut self, s: usize, r: usize, u: usize) {
        let net = self.net;
        if s == r || !net.happens(s, u) || !net.happens(r, u) {
            return;
        }
        let differing = |signal: &usize| truth(s, *signal) != truth(r, *signal) && net.gives(s, *signal);
        let known = |signal: usize| self.minute(s, net.signals[signal].event) + net.signals[signal].reaction;
        let told = (0..net.signals.len()).filter(differing).map(known);
        self.raise(s, u, told.fold(self.minute(r, u), i64::min));
    }
}

// ---------------------------------------------------------------- The least good table, by search

/// The same by trying everything, for small networks only: every row of every case that points 1 and 2 allow, every choice of
/// one row per case that point 3 allows, and of all these good tables the least minute cell by cell. That this minimum is
/// itself good is checked. Hyperarcs are not used.
pub fn solve_by_search(net: &Net) -> Option<Vec<u16>> {
    let rows = (0..net.cases()).map(|case| lawful_rows(net, case)).collect();
    let mut search = Search { net, rows, table: vec![], least: None };
    search.fill(0);
    if let Some(least) = &search.least {
        assert_eq!(judge(net, least), Verdict::Pass, "the minimum of all good tables is not good");
    }
    search.least
}

/// How many tables the search may have to look at: a row per case, a minute per happening event after the start.
pub fn search_size(net: &Net) -> f64 {
    ((net.horizon + 1) as f64).powi(net.free_cells() as i32)
}

/// All rows of one case that keep points 1 and 2: of those with each minute from 0 to H, or the blank, in each cell.
fn lawful_rows(net: &Net, case: usize) -> Vec<Vec<u16>> {
    let mut rows: Vec<Vec<u16>> = vec![vec![]];
    for event in 0..net.events.len() {
        let numbers = if net.happens(case, event) { 0..=net.horizon as u16 } else { BLANK..=BLANK };
        let numbers = if event == 0 { 0..=0 } else { numbers };
        rows = rows.iter().flat_map(|row| numbers.clone().map(|number| [&row[..], &[number]].concat())).collect();
    }
    rows.retain(|row| (0..net.events.len()).all(|event| on_time(net, row, case, event)));
    rows.retain(|row| net.rules.iter().all(|rule| rule_kept(net, row, case, rule)));
    rows
}

struct Search<'a> {
    net: &'a Net,
    rows: Vec<Vec<Vec<u16>>>,
    table: Vec<u16>,
    least: Option<Vec<u16>>,
}

impl Search<'_> {
    /// Puts each lawful row of this case behind those of the cases before it, and goes on where point 3 holds among them.
    fn fill(&mut self, case: usize) {
        if case == self.net.cases() {
            return self.take_good_table();
        }
        for place in 0..self.rows[case].len() {
            let end = self.table.len();
            self.table.extend_from_slice(&self.rows[case][place]);
            if (0..case).all(|other| self.point_3(case, other) && self.point_3(other, case)) {
                self.fill(case + 1);
            }
            self.table.truncate(end);
        }
    }

    fn point_3(&self, s: usize, r: usize) -> bool {
        (0..self.net.events.len()).all(|u| same_unless_told(self.net, &self.table, s, r, u))
    }

    /// Keeps the lesser minute of each cell.
    fn take_good_table(&mut self) {
        match &mut self.least {
            None => self.least = Some(self.table.clone()),
            Some(least) => least.iter_mut().zip(&self.table).for_each(|(least, &minute)| *least = (*least).min(minute)),
        }
    }
}

// ---------------------------------------------------------------- The least good table, by rounds

/// Document 02, point 8, for short runs: the count of rounds, which "includes the round that raised nothing or passed a limit (the horizon,
/// or 0 for the start)", and the least good table, or nothing if there is no good table. `rounds.rs` has the same for long runs.
pub fn solve_by_rounds(net: &Net) -> (u32, Option<Vec<u16>>) {
    let limit = |cell: usize| if cell % net.events.len() == 0 { 0 } else { net.horizon };
    let mut before = vec![0; net.cells()];
    for count in 1.. {
        let after = round(net, &before);
        if (0..net.cells()).any(|cell| after[cell] > limit(cell)) {
            return (count, None);
        }
        if after == before {
            return (count, Some(with_blanks(net, &after)));
        }
        before = after;
    }
    unreachable!()
}

/// Document 02, point 9, for short runs: the floors after 0, 1, 2 and so on rounds, so many of them, "blanks as in a
/// table", each with "the sum, over happening cells other than the start's, of H minus the floor".
pub fn floors_by_rounds(net: &Net, count: u32) -> Vec<(Vec<u16>, u32)> {
    let tables = std::iter::successors(Some(vec![0; net.cells()]), |before| Some(round(net, before)));
    let floors = tables.take(count as usize).map(|minutes| with_blanks(net, &minutes));
    floors.map(|floor| (floor.clone(), left(net, &floor))).collect()
}

/// That sum for any floor.
pub fn left(net: &Net, floor: &[u16]) -> u32 {
    let events = net.events.len();
    let free = (0..net.cells()).filter(|cell| cell % events != 0 && net.happens(cell / events, cell % events));
    free.map(|cell| net.horizon - i64::from(floor[cell])).sum::<i64>() as u32
}

/// "each cell takes the greatest of its own value and each bound that rules, signals (by the hyperarcs, with
/// reactions) and label waits set from the table before the round". A cell without its event takes no part.
fn round(net: &Net, before: &[i64]) -> Vec<i64> {
    let bounds = |case: usize, event: usize| match net.happens(case, event) {
        false => vec![],
        true => [by_rules, by_signals, by_label].map(|bounds| bounds(net, before, case, event)).concat(),
    };
    let raised = |cell: usize| bounds(cell / net.events.len(), cell % net.events.len()).into_iter().fold(before[cell], i64::max);
    (0..net.cells()).map(raised).collect()
}

/// The first minute at which each signal of the event's label counts.
fn by_label(net: &Net, before: &[i64], case: usize, event: usize) -> Vec<i64> {
    let known = |signal: &Signal| before[net.cell(case, signal.event)] + signal.reaction;
    net.labels[event].iter().map(|&(signal, _)| known(&net.signals[signal])).collect()
}

fn by_rules(net: &Net, before: &[i64], case: usize, event: usize) -> Vec<i64> {
    let mut bounds = vec![];
    for rule in net.rules.iter().filter(|rule| net.covers(rule, case)) {
        if rule.kind == Kind::Max && rule.from == event {
            bounds.push(before[net.cell(case, rule.to)] - rule.limit);
        }
        if rule.kind == Kind::Min && rule.to == event {
            bounds.push(before[net.cell(case, rule.from)] + rule.limit);
        }
    }
    bounds
}

/// The lesser of the other case's minute and the first at which a differing signal that is given counts in its own
/// case, for each other case in which the event happens too.
fn by_signals(net: &Net, before: &[i64], s: usize, u: usize) -> Vec<i64> {
    let known = |signal: usize| before[net.cell(s, net.signals[signal].event)] + net.signals[signal].reaction;
    let differs = |signal: usize, r: usize| truth(s, signal) != truth(r, signal) && net.gives(s, signal);
    let told = |r: usize| (0..net.signals.len()).filter(move |&signal| differs(signal, r)).map(known).min();
    let bound = |r: usize| told(r).unwrap_or(i64::MAX).min(before[net.cell(r, u)]);
    (0..net.cases()).filter(|&r| r != s && net.happens(r, u)).map(bound).collect()
}

// ---------------------------------------------------------------- The listing

/// The listing of "any table of the right length"; the names are taken out of the sheet.
pub fn listing(sheet: &[u8], net: &Net, table: &[u16]) -> Vec<u8> {
    assert_eq!(table.len(), net.cells());
    let mut text = header(sheet, net);
    for case in 0..net.cases() {
        text.extend(case_line(net, table, case).into_bytes());
    }
    text
}

/// "First line: `case`, then a comma and a name for each event", with its line feed.
fn header(sheet: &[u8], net: &Net) -> Vec<u8> {
    let mut text = b"case".to_vec();
    for name in &net.events {
        text.push(b',');
        text.extend_from_slice(&sheet[name.clone()]);
    }
    text.push(b'\n');
    text
}

/// "one `T` or `F` per signal in sheet order (`-` if there is none)".
fn mark(net: &Net, case: usize) -> String {
    match net.signals.len() {
        0 => "-".to_string(),
        signals => (0..signals).map(|signal| if truth(case, signal) { 'T' } else { 'F' }).collect(),
    }
}

/// The mark, "then a comma and a minute per event".
fn case_line(net: &Net, table: &[u16], case: usize) -> String {
    let mut line = mark(net, case);
    for &minute in row(net, table, case) {
        line.push(',');
        line.push_str(&minute_text(minute));
    }
    line.push('\n');
    line
}

/// 65,535 "is printed `-`". Readings: in every cell.
fn minute_text(minute: u16) -> String {
    if minute == BLANK { "-".to_string() } else { minute.to_string() }
}

/// What the program `table` prints of a sheet that is not refused: "the solver's listing".
pub fn table(sheet: &[u8]) -> Result<Vec<u8>, Refusal> {
    let net = read(sheet)?;
    let least = solve(&net).ok_or(Refusal { number: 13, line: 0 })?;
    Ok(listing(sheet, &net, &least))
}

/// A text to be written into a lent buffer of so many bytes: 12 where that is "too short for what would be written".
pub fn within(text: Vec<u8>, room: usize) -> Result<Vec<u8>, Refusal> {
    if text.len() <= room { Ok(text) } else { Err(Refusal { number: 12, line: 0 }) }
}

// ---------------------------------------------------------------- Reading a printed table back

/// Document 02, points 4 and 6, for an accepted sheet: the table that a listing has; or 18, which "is tried over the
/// whole listing first"; or 19, "a minute is ill-formed, negative or over 65,535", or it is "the digits 65535", with
/// the first line that has one.
pub fn returned(sheet: &[u8], net: &Net, listing: &[u8]) -> Result<Vec<u16>, Refusal> {
    let rows = case_rows(sheet, net, listing).map_err(|line| Refusal { number: 18, line })?;
    let mut table = vec![];
    for (case, minutes) in rows.into_iter().enumerate() {
        for field in minutes {
            table.push(minute_of(field).ok_or(Refusal { number: 19, line: line_of(case) })?);
        }
    }
    Ok(table)
}

/// What `-` or digits stand for, in any cell; or nothing for another text.
fn minute_of(field: &[u8]) -> Option<u16> {
    if field == b"-" { Some(BLANK) } else { number(field, 0, MINUTE_MOST).ok().map(|minute| minute as u16) }
}

/// The listing's first line is the header, so case 0 has the second.
fn line_of(case: usize) -> usize {
    case + 2
}

/// The fields of minutes, case by case; or the line of refusal 18: "the listing is longer than 4,096 bytes (line 1),
/// or its header, cases, fields or line ends are not this sheet's, a line missing or left over included". Readings: "A
/// missing line has the number that it would have."
fn case_rows<'a>(sheet: &[u8], net: &Net, listing: &'a [u8]) -> Result<Vec<Vec<&'a [u8]>>, usize> {
    if listing.len() > LISTING_MOST {
        return Err(1);
    }
    let mut rest = listing.strip_prefix(&header(sheet, net)[..]).ok_or(1usize)?;
    let mut rows = vec![];
    for case in 0..net.cases() {
        let (row, behind) = one_row(net, case, rest).ok_or(line_of(case))?;
        rows.push(row);
        rest = behind;
    }
    if rest.is_empty() { Ok(rows) } else { Err(line_of(net.cases())) }
}

/// The minutes of the line that stands here, and what is behind its line feed; or nothing if it has none, or another
/// mark than this case's, or another count of fields.
fn one_row<'a>(net: &Net, case: usize, rest: &'a [u8]) -> Option<(Vec<&'a [u8]>, &'a [u8])> {
    let length = rest.iter().position(|&byte| byte == b'\n')?;
    let mut fields = fields(&rest[..length]);
    let fits = fields.len() == 1 + net.events.len() && fields.remove(0) == mark(net, case).as_bytes();
    if fits { Some((fields, &rest[length + 1..])) } else { None }
}

/// The call over a lent table of so many numbers: the sheet's own refusals, 18 and 19, then 12; or the minutes to be
/// written.
pub fn recover(sheet: &[u8], listing: &[u8], numbers: usize) -> Result<Vec<u16>, Refusal> {
    let net = read(sheet)?;
    fitting(returned(sheet, &net, listing)?, numbers)
}

/// A table to be written into a lent one of so many numbers: 12 where these are fewer.
pub fn fitting(table: Vec<u16>, numbers: usize) -> Result<Vec<u16>, Refusal> {
    if table.len() <= numbers { Ok(table) } else { Err(Refusal { number: 12, line: 0 }) }
}

/// The files `sheet.csv` and `listing.csv`, each as far as it can be opened.
#[derive(Clone, Debug, PartialEq)]
pub struct Files {
    pub sheet: Option<Vec<u8>>,
    pub listing: Option<Vec<u8>>,
}

impl Files {
    /// Both files' bytes: "A file that can't be opened counts as empty."
    pub fn bytes(&self) -> (&[u8], &[u8]) {
        (self.sheet.as_deref().unwrap_or_default(), self.listing.as_deref().unwrap_or_default())
    }
}

/// The verdict on the table that a listing has, or the refusal of the sheet or of the listing.
pub fn judge_listing(sheet: &[u8], listing: &[u8]) -> Result<Verdict, Refusal> {
    let net = read(sheet)?;
    returned(sheet, &net, listing).map(|table| judge(&net, &table))
}

/// What the program `judge` prints: "`pass`, `late` with case and event, `rule` with case and rule, `unheard` with
/// both cases and the event (numbers from 0, spaces between), or the line that `table` prints for a refusal".
pub fn judge_text(outcome: &Result<Verdict, Refusal>) -> String {
    match outcome {
        Ok(Verdict::Pass) => "pass\n".to_string(),
        Ok(Verdict::Late { case, event }) => format!("late {case} {event}\n"),
        Ok(Verdict::Rule { case, rule }) => format!("rule {case} {rule}\n"),
        Ok(Verdict::Unheard { s, r, u }) => format!("unheard {s} {r} {u}\n"),
        Err(Refusal { number, line }) => format!("refused {number} line {line}\n"),
    }
}

// ---------------------------------------------------------------- What is due this minute

/// The signals heard as opening.h has them written: letters as in a label, "nothing, or `-`, for none"; or nothing for any other text.
pub fn heard(text: &[u8]) -> Option<Vec<(u8, bool)>> {
    if text.is_empty() { Some(vec![]) } else { letters(text) }
}

/// Document 02, points 1, 3 and 6, for a table that passes: the events due at a minute, bit u for event u, for those
/// who have heard exactly this list; or 15 where a letter is undefined or stands twice, or 16 where no case has heard
/// exactly this list. "A cell without its event .. is never due, its signal never heard".
pub fn due(net: &Net, table: &[u16], minute: u16, heard: &[(u8, bool)]) -> Result<u16, u8> {
    let defined = |letter: u8| net.signals.iter().any(|signal| signal.letter == letter);
    let stands = |letter: u8| heard.iter().filter(|(l, _)| *l == letter).count();
    if heard.iter().any(|(letter, _)| !defined(*letter) || stands(*letter) > 1) {
        return Err(15);
    }
    let mut list = heard.to_vec();
    list.sort();
    for case in 0..net.cases() {
        let mut history = vec![];
        for (p, signal) in net.signals.iter().enumerate() {
            if counts(net, table, case, p, minute) {
                history.push((signal.letter, truth(case, p)));
            }
        }
        history.sort();
        if history == list {
            let due = |u: &usize| net.happens(case, *u) && table[net.cell(case, *u)] == minute;
            return Ok((0..net.events.len()).filter(due).map(|u| 1u16 << u).sum());
        }
    }
    Err(16)
}

// ---------------------------------------------------------------- The house form

/// A rule of the house form: "All rules become `max` rows". Its label is by signal, so in no order of its own.
#[derive(Clone, Debug, PartialEq, Eq)]
pub struct Row {
    pub from: usize,
    pub to: usize,
    pub limit: i64,
    pub label: BTreeMap<usize, bool>,
}

/// What the rows are ordered by: "by `from`, then `to`, in event order, then by the sum of the true letters' weights, then of the
/// false ones'".
pub type Key = (usize, usize, u32, u32);

/// Document 02, points 2, 3 and 6: the house form of a sheet, or its own refusal. Each rule leaves at most one row, "so
/// the house form never meets 17 again".
pub fn house(sheet: &[u8]) -> Result<Vec<u8>, Refusal> {
    let net = read(sheet)?;
    let rows = rows_left(&net);
    let mut form = head(sheet, &net);
    form.extend(format!("rules,{}\n", rows.len()).into_bytes());
    for row in rows.values() {
        let (from, to) = (&sheet[net.events[row.from].clone()], &sheet[net.events[row.to].clone()]);
        let (limit, label) = (row.limit.to_string().into_bytes(), label_text(&net, &row.label));
        form.extend([&b"max"[..], from, to, &limit, &label].join(&b","[..]));
        form.push(b'\n');
    }
    form.extend(reactions_text(&net).into_bytes());
    form.extend(labels_text(sheet, &net));
    Ok(form)
}

/// "The house form lists only reactions other than 1, in signal order, with no section if there are none"; but it
/// "writes `reactions,0`" where lines of labels follow.
fn reactions_text(net: &Net) -> String {
    let slow: Vec<&Signal> = net.signals.iter().filter(|signal| signal.reaction != 1).collect();
    if slow.is_empty() && !net.is_labelled() {
        return String::new();
    }
    let line = |signal: &&Signal| format!("{},{}\n", char::from(signal.letter), signal.reaction);
    let lines: String = slow.iter().map(line).collect();
    format!("reactions,{}\n{lines}", slow.len())
}

/// It "lists the lines whose label is not `-`, in event order and with no section if there are none". Their letters
/// stand in signal order too.
fn labels_text(sheet: &[u8], net: &Net) -> Vec<u8> {
    let labelled: Vec<usize> = (0..net.events.len()).filter(|&event| !net.labels[event].is_empty()).collect();
    if labelled.is_empty() {
        return vec![];
    }
    let mut text = format!("cases,{}\n", labelled.len()).into_bytes();
    for event in labelled {
        let label = label_text(net, &net.labels[event].iter().copied().collect());
        text.extend([&sheet[net.events[event].clone()], &label[..]].join(&b","[..]));
        text.push(b'\n');
    }
    text
}

/// "a `min` swaps its ends and negates its limit".
fn max_row(rule: &Rule) -> Row {
    let label = rule.label.iter().copied().collect();
    match rule.kind {
        Kind::Max => Row { from: rule.from, to: rule.to, limit: rule.limit, label },
        Kind::Min => Row { from: rule.to, to: rule.from, limit: -rule.limit, label },
        Kind::Fix => unreachable!("a sheet with a `fix` has no form"),
    }
}

/// "Of rows with equal ends and label the least limit stays." Readings: labels are equal when their signed letters are, and a row that
/// no table can break stays too.
pub fn rows_left(net: &Net) -> BTreeMap<Key, Row> {
    let mut left: BTreeMap<Key, Row> = BTreeMap::new();
    for row in net.rules.iter().map(max_row) {
        let key = (row.from, row.to, weights(&row.label, true), weights(&row.label, false));
        let stays = left.entry(key).or_insert_with(|| row.clone());
        assert_eq!(stays.label, row.label, "two labels with equal sums");
        stays.limit = stays.limit.min(row.limit);
    }
    left
}

/// The sum of the weights of the letters with this truth; "The first signal of the sheet has weight 1, the next 2, and so on".
fn weights(label: &BTreeMap<usize, bool>, truth: bool) -> u32 {
    label.iter().filter(|letter| *letter.1 == truth).map(|letter| 2u32.pow(*letter.0 as u32)).sum()
}

/// "Label letters stand in signal order"; `-` for none.
fn label_text(net: &Net, label: &BTreeMap<usize, bool>) -> Vec<u8> {
    let mut text = vec![];
    for (&signal, &truth) in label {
        if !truth {
            text.push(b'!');
        }
        text.push(net.signals[signal].letter);
    }
    if text.is_empty() { b"-".to_vec() } else { text }
}

/// The lines before the rules as they are: the horizon, and each of two sections with its count.
fn head(sheet: &[u8], net: &Net) -> Vec<u8> {
    let lines = 1 + (1 + net.events.len()) + (1 + net.signals.len());
    sheet.split_inclusive(|&byte| byte == b'\n').take(lines).flatten().copied().collect()
}

// ---------------------------------------------------------------- The converter

/// Document 02, point 7: the sheet with "a `max` and a `min` row in the place of each `fix`", in which "every other
/// byte but the count of rules stays"; or its refusal by the former rules; or "17 if more than 64 rows would result".
/// Readings: its line is 0.
pub fn convert(sheet: &[u8]) -> Result<Vec<u8>, Refusal> {
    let net = read_formerly(sheet)?;
    let rows = |rule: &Rule| if rule.kind == Kind::Fix { 2 } else { 1 };
    let count: i64 = net.rules.iter().map(rows).sum();
    if count > RULES_MOST {
        return Err(Refusal { number: 17, line: 0 });
    }
    let lines: Vec<&[u8]> = sheet.split_inclusive(|&byte| byte == b'\n').collect();
    let (head, rest) = lines.split_at(1 + (1 + net.events.len()) + (1 + net.signals.len()));
    let (rules, behind) = rest[1..].split_at(net.rules.len());
    let mut text = [head.concat(), format!("rules,{count}\n").into_bytes()].concat();
    for (rule, line) in net.rules.iter().zip(rules) {
        match (rule.kind, line.strip_prefix(b"fix")) {
            (Kind::Fix, Some(ends)) => text.extend([b"max", ends, b"min", ends].concat()),
            _ => text.extend_from_slice(line),
        }
    }
    text.extend(behind.concat());
    Ok(text)
}

/// Whether two networks with equal events allow a case the same rows by points 1 and 2; for small networks only.
pub fn same_lawful_rows(one: &Net, other: &Net) -> bool {
    (0..one.cases()).all(|case| lawful_rows(one, case) == lawful_rows(other, case))
}

// ---------------------------------------------------------------- The heaviest sheet

/// From one line `n,H`, "refused with 1 to 5 or 10 as a sheet of one line is", a sheet "without
/// signals that takes exactly (n - 1) × H + 1 rounds".
pub fn ring(line: &[u8]) -> Result<Vec<u8>, Refusal> {
    if line.len() > SHEET_MOST {
        return Err(Refusal { number: 1, line: 0 });
    }
    let mut lines = Lines { sheet: line, at: 0, number: 0 };
    let (events, horizon) = lines.size()?;
    lines.end()?;
    Ok(ring_of(events, horizon).into_bytes())
}

/// "Its events are a, b, c and so on; its rules are `min` rows labelled `-`, of 0 from b on to each next event, then of
/// 1 from the last back to b."
pub fn ring_of(events: usize, horizon: i64) -> String {
    let name = |event: usize| char::from(b'a' + event as u8);
    let mut text = format!("horizon,{horizon}\nevents,{events}\n");
    (0..events).for_each(|event| text += &format!("{}\n", name(event)));
    text += &format!("signals,0\nrules,{}\n", events - 1);
    (1..events - 1).for_each(|event| text += &format!("min,{},{},0,-\n", name(event), name(event + 1)));
    text + &format!("min,{},b,1,-\n", name(events - 1))
}

/// "exactly (n - 1) × H + 1 rounds, the most for n events, that H and no signal".
pub fn ring_rounds(events: usize, horizon: i64) -> u32 {
    (events as u32 - 1) * horizon as u32 + 1
}

/// The floor of that sheet after so many rounds, of which each but the last raises one event by a minute, b first and
/// a round later the next; and the sum beside it, which is one less after each.
pub fn ring_floor(events: usize, horizon: i64, rounds: u32) -> (Vec<u16>, u32) {
    let length = events as u32 - 1;
    let climbing = (0..length).map(|place| ((rounds + length - 1 - place) / length) as u16);
    (std::iter::once(0).chain(climbing).collect(), length * horizon as u32 - rounds)
}
