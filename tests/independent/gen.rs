//! Sheets, tables and questions to try, made from a seed and nothing else.
//!
//! `sheet` makes valid and damaged sheets of all sizes, `tiny_sheet` those that the search of `model.rs` can finish,
//! and `table` the bytes of a table for a sheet that was accepted. `table_sheet` has the longest listings among its
//! sheets; `house_sheet` makes sheets whose house forms are worth a look, `retyped` types the procedure of an
//! accepted sheet another way, and `slowed` and `relabelled` make a procedure of it that differs in one reaction or in
//! one event's label only. `former_sheet` and `tiny_former_sheet` make sheets for the converter, most of them with
//! `fix` rows. `minute` and `heard` make questions to the player of a table. `listing` makes listings to be read back,
//! printed and damaged, and `files` a sheet and a listing for the program `judge`.

use crate::model::{self, Files, Kind, Label, Net, Verdict, BLANK};
use std::collections::BTreeSet;

// ---------------------------------------------------------------- Chance

/// A small generator (splitmix64): the same seed gives the same numbers on every machine.
pub struct Rng(u64);

impl Rng {
    pub fn new(seed: u64) -> Self {
        Rng(seed)
    }

    pub fn next(&mut self) -> u64 {
        self.0 = self.0.wrapping_add(0x9e37_79b9_7f4a_7c15);
        let mut z = self.0;
        z = (z ^ (z >> 30)).wrapping_mul(0xbf58_476d_1ce4_e5b9);
        z = (z ^ (z >> 27)).wrapping_mul(0x94d0_49bb_1331_11eb);
        z ^ (z >> 31)
    }

    /// A number below `end`, which is not 0.
    pub fn below(&mut self, end: usize) -> usize {
        (self.next() % end as u64) as usize
    }

    /// A number from `least` to `most`, both possible.
    pub fn between(&mut self, least: i64, most: i64) -> i64 {
        least + (self.next() % (most - least + 1) as u64) as i64
    }

    pub fn chance(&mut self, percent: usize) -> bool {
        self.below(100) < percent
    }

    pub fn pick<T: Copy>(&mut self, from: &[T]) -> T {
        from[self.below(from.len())]
    }

    /// `count` different numbers below `end`, in any order.
    pub fn different(&mut self, count: usize, end: usize) -> Vec<usize> {
        let mut all: Vec<usize> = (0..end).collect();
        for place in 0..count {
            let other = place + self.below(end - place);
            all.swap(place, other);
        }
        all.truncate(count);
        all
    }

    /// The same in any order.
    pub fn shuffled<T: Clone>(&mut self, all: &[T]) -> Vec<T> {
        self.different(all.len(), all.len()).into_iter().map(|place| all[place].clone()).collect()
    }
}

// ---------------------------------------------------------------- Valid sheets

#[derive(Clone)]
pub struct DraftRule {
    pub kind: &'static str,
    pub from: usize,
    pub to: usize,
    pub limit: i64,
    pub label: Label,
}

pub struct Draft {
    pub horizon: i64,
    pub events: Vec<String>,
    pub signals: Vec<(u8, usize)>,
    pub rules: Vec<DraftRule>,
    /// The lines of the section of reactions, each a signal and its minutes, in any order; or no section.
    pub reactions: Option<Vec<(usize, i64)>>,
    /// The label of each event.
    pub labels: Vec<Label>,
    /// The events that have a line in the last section, in any order, all those with a label among them; or no section.
    pub cases: Option<Vec<usize>>,
}

/// What a line is for.
#[derive(Clone, Copy, PartialEq)]
enum Place {
    Section,
    Name,
    Signal,
    Rule,
    Reaction,
    Label,
}

/// A line's place and its fields.
type Line = (Place, Vec<Vec<u8>>);

/// A sheet cut into lines and fields, so that it can be damaged with aim.
#[derive(Clone)]
struct Paper {
    lines: Vec<Line>,
}

impl Paper {
    fn bytes(&self) -> Vec<u8> {
        self.lines.iter().flat_map(|(_, fields)| [fields.join(&b","[..]), b"\n".to_vec()].concat()).collect()
    }

    fn put(&mut self, place: Place, fields: &[&str]) {
        self.lines.push((place, fields.iter().map(|field| field.as_bytes().to_vec()).collect()));
    }

    /// The numbers of the lines that are for this.
    fn of(&self, place: Place) -> Vec<usize> {
        (0..self.lines.len()).filter(|&line| self.lines[line].0 == place).collect()
    }
}

impl Draft {
    pub fn bytes(&self) -> Vec<u8> {
        self.paper().bytes()
    }

    fn paper(&self) -> Paper {
        let mut paper = Paper { lines: vec![] };
        paper.put(Place::Section, &["horizon", &self.horizon.to_string()]);
        paper.put(Place::Section, &["events", &self.events.len().to_string()]);
        for name in &self.events {
            paper.put(Place::Name, &[name]);
        }
        paper.put(Place::Section, &["signals", &self.signals.len().to_string()]);
        for (signal, &(_, event)) in self.signals.iter().enumerate() {
            paper.put(Place::Signal, &[&self.letter_text(signal), &self.events[event]]);
        }
        paper.put(Place::Section, &["rules", &self.rules.len().to_string()]);
        for rule in &self.rules {
            let (from, to) = (&self.events[rule.from], &self.events[rule.to]);
            paper.put(Place::Rule, &[rule.kind, from, to, &rule.limit.to_string(), &self.label_text(&rule.label)]);
        }
        if self.reactions.is_some() || self.cases.is_some() {
            let lines = self.reactions.as_deref().unwrap_or_default();
            paper.put(Place::Section, &["reactions", &lines.len().to_string()]);
            for &(signal, minutes) in lines {
                paper.put(Place::Reaction, &[&self.letter_text(signal), &minutes.to_string()]);
            }
        }
        if let Some(events) = &self.cases {
            paper.put(Place::Section, &["cases", &events.len().to_string()]);
            for &event in events {
                paper.put(Place::Label, &[&self.events[event], &self.label_text(&self.labels[event])]);
            }
        }
        paper
    }

    fn happens(&self, case: usize, event: usize) -> bool {
        model::holds_in(&self.labels[event], case)
    }

    /// A label with what the labels of the events ask whose signals it uses; a letter that would contradict those
    /// before it is left out, with what it needs.
    pub fn completed(&self, label: &[(usize, bool)]) -> Label {
        label.iter().fold(vec![], |whole, &letter| self.with_letter(&whole, letter).unwrap_or(whole))
    }

    /// A label with a letter more and all that this one needs, or nothing if that contradicts it.
    fn with_letter(&self, label: &[(usize, bool)], letter: (usize, bool)) -> Option<Label> {
        let (mut whole, mut needed) = (label.to_vec(), vec![letter]);
        while let Some((signal, truth)) = needed.pop() {
            if whole.contains(&(signal, !truth)) {
                return None;
            }
            if !whole.contains(&(signal, truth)) {
                whole.push((signal, truth));
                needed.extend(self.labels[self.signals[signal].1].iter().copied());
            }
        }
        Some(whole)
    }

    fn letter_text(&self, signal: usize) -> String {
        char::from(self.signals[signal].0).to_string()
    }

    /// "A signal without a line keeps 1."
    pub fn reaction(&self, signal: usize) -> i64 {
        let lines = self.reactions.iter().flatten();
        lines.copied().find(|line| line.0 == signal).map_or(1, |line| line.1)
    }

    fn label_text(&self, label: &[(usize, bool)]) -> String {
        let letters: Vec<(u8, bool)> = label.iter().map(|&(signal, truth)| (self.signals[signal].0, truth)).collect();
        if letters.is_empty() { "-".to_string() } else { letters_text(&letters) }
    }

    fn solved(&self) -> Option<Vec<u16>> {
        model::solve(&model::read(&self.paper().bytes()).expect("a drafted sheet is valid"))
    }
}

/// Letters, "each with an optional `!` before it".
fn letters_text(letters: &[(u8, bool)]) -> String {
    letters.iter().map(|&(letter, truth)| format!("{}{}", if truth { "" } else { "!" }, char::from(letter))).collect()
}

/// How many events, signals and rules.
pub struct Size {
    pub events: usize,
    pub signals: usize,
    pub rules: usize,
}

fn size(rng: &mut Rng) -> Size {
    let (events, signals, rules) = match rng.below(20) {
        0..=3 => (rng.between(1, 3), rng.between(0, 2), rng.between(0, 4)),
        4..=10 => (rng.between(2, 6), rng.between(0, 3), rng.between(0, 12)),
        11..=15 => (rng.between(3, 6), rng.between(2, 4), rng.between(0, 5)),
        16..=18 => (rng.between(1, 16), rng.between(0, 4), rng.between(0, 64)),
        _ => (16, 4, 64),
    };
    Size { events: events as usize, signals: signals.min(events) as usize, rules: rules as usize }
}

fn horizon(rng: &mut Rng) -> i64 {
    match rng.below(8) {
        0 => rng.between(0, 3),
        1..=2 => rng.between(4, 20),
        3..=5 => 60,
        6 => 10_080,
        _ => rng.between(0, 10_080),
    }
}

/// Names that a careless reader might mistake for something else.
const TRAPS: [&str; 17] = [
    "horizon", "events", "signals", "rules", "reaction", "max", "min", "fix", "p", "q", "a", "aa", "a0", "a00",
    "start", "zzzzzzzz", "z9999999",
];

fn name(rng: &mut Rng, length: usize) -> String {
    let letter = |rng: &mut Rng, set: &[u8]| char::from(rng.pick(set));
    let mut name = letter(rng, b"abcdefghijklmnopqrstuvwxyz").to_string();
    while name.len() < length {
        name.push(letter(rng, b"abcxyz0123456789"));
    }
    name
}

fn names(rng: &mut Rng, count: usize) -> Vec<String> {
    let mut names: Vec<String> = vec![];
    while names.len() < count {
        let length = rng.between(1, 8) as usize;
        let new = if rng.chance(30) { rng.pick(&TRAPS).to_string() } else { name(rng, length) };
        if !names.contains(&new) {
            names.push(new);
        }
    }
    names
}

pub fn any_label(rng: &mut Rng, signals: usize) -> Label {
    if signals == 0 || rng.chance(25) { vec![] } else { some_letters(rng, &(0..signals).collect::<Vec<usize>>()) }
}

/// One of these signals or more, each with a truth.
fn some_letters(rng: &mut Rng, signals: &[usize]) -> Label {
    let letters = if rng.chance(60) { 1 } else { rng.between(1, signals.len() as i64) as usize };
    let places = rng.different(letters, signals.len());
    places.into_iter().map(|place| (signals[place], rng.chance(50))).collect()
}

/// A label that a rule of this draft may have.
fn label(rng: &mut Rng, draft: &Draft) -> Label {
    let label = draft.completed(&any_label(rng, draft.signals.len()));
    rng.shuffled(&label)
}

/// A draft without rules; about half of those with signals have labelled events.
pub fn bare(rng: &mut Rng, size: &Size, horizon: i64) -> Draft {
    let mut draft = unlabelled(rng, size, horizon);
    let percent = if rng.chance(40) { 0 } else { rng.pick(&[20, 40, 70]) };
    label_events(rng, &mut draft, percent);
    draft
}

/// A draft without rules and without labelled events.
pub fn unlabelled(rng: &mut Rng, size: &Size, horizon: i64) -> Draft {
    let letters = rng.different(size.signals, 26);
    let givers = rng.different(size.signals, size.events);
    let signals = letters.into_iter().zip(givers).map(|(letter, event)| (b'a' + letter as u8, event)).collect();
    let reactions = reactions(rng, size.signals, horizon);
    let labels = vec![vec![]; size.events];
    Draft { horizon, events: names(rng, size.events), signals, rules: vec![], reactions, labels, cases: None }
}

/// Labels some of the events, and draws the last section. A giver's label has only signals whose givers have theirs
/// already, so that no event waits for itself, but for a few drafts in which some do.
pub fn label_events(rng: &mut Rng, draft: &mut Draft, percent: usize) {
    let order = rng.different(draft.signals.len(), draft.signals.len());
    let ringed = rng.chance(8);
    for (place, &signal) in order.iter().enumerate() {
        let known = if ringed { &order[..] } else { &order[..place] };
        label_event(rng, draft, draft.signals[signal].1, known, if percent == 0 { 0 } else { percent.max(50) });
    }
    for event in 1..draft.events.len() {
        if draft.signals.iter().all(|signal| signal.1 != event) {
            label_event(rng, draft, event, &order, percent);
        }
    }
    if ringed {
        complete_rings(draft);
    }
    draft.labels.iter_mut().for_each(|label| *label = rng.shuffled(label));
    draft.cases = cases_anew(rng, draft);
}

fn label_event(rng: &mut Rng, draft: &mut Draft, event: usize, signals: &[usize], percent: usize) {
    if event != 0 && !signals.is_empty() && rng.chance(percent) {
        let letters = some_letters(rng, signals);
        draft.labels[event] = draft.completed(&letters);
    }
}

/// Completes labels that use one another's signals; where they contradict each other there are none.
fn complete_rings(draft: &mut Draft) {
    for _ in 0..=draft.signals.len() {
        let completed = draft.labels.iter().map(|label| draft.completed(label)).collect();
        draft.labels = completed;
    }
    if draft.labels.iter().any(|label| draft.completed(label).len() != label.len()) {
        draft.labels.iter_mut().for_each(Vec::clear);
    }
}

/// No section, or one with lines for some of the signals, in any order.
fn reactions(rng: &mut Rng, signals: usize, horizon: i64) -> Option<Vec<(usize, i64)>> {
    if rng.chance(50) {
        return None;
    }
    let lines = if rng.chance(60) { signals } else { rng.below(signals + 1) };
    Some(rng.different(lines, signals).into_iter().map(|signal| (signal, reaction(rng, horizon))).collect())
}

/// Minutes from 1 to 60: most often few, or few enough to be felt before the horizon; both ends and their neighbours.
fn reaction(rng: &mut Rng, horizon: i64) -> i64 {
    match rng.below(12) {
        0..=1 => 1,
        2..=4 => 2,
        5..=7 => rng.between(2, (horizon / 3).clamp(2, 8)),
        8 => rng.between(1, (horizon / 3).clamp(1, 60)),
        9 => 60,
        10 => rng.pick(&[59, 60]),
        _ => rng.between(1, 60),
    }
}

/// A draft of the given size. The first rules push events to later minutes; the others are laid close to the table that the
/// first ones give, at times a little too tight, so that about half of the sheets have a table.
fn draft(rng: &mut Rng, size: Size, horizon: i64) -> Draft {
    let mut draft = bare(rng, &size, horizon);
    let pushing = rng.below(size.rules.min(24) + 1);
    let branching = size.signals > 0 && rng.chance(60);
    while draft.rules.len() < pushing {
        let rule = if branching && rng.chance(60) { branching_rule(rng, &draft) } else { pushing_rule(rng, &draft) };
        draft.rules.push(rule);
    }
    let solved = draft.solved();
    let mut tight = if rng.chance(90) { rng.between(1, 4) as usize } else { 0 };
    while draft.rules.len() < size.rules {
        let rule = match &solved {
            Some(table) if rng.chance(90) => close_rule(rng, &draft, table, &mut tight),
            _ => any_rule(rng, &draft),
        };
        draft.rules.push(rule);
    }
    shuffle_and_repeat(rng, &mut draft.rules);
    draft
}

/// A rule that asks for a later minute of an event further down the sheet.
fn pushing_rule(rng: &mut Rng, draft: &Draft) -> DraftRule {
    let events = draft.events.len();
    let (one, two) = (rng.below(events), rng.below(events));
    let (first, then) = if rng.chance(97) { (one.min(two), one.max(two)) } else { (one, two) };
    let step = (3 * draft.horizon / (events as i64 + 2)).max(1);
    let wait = if first == then { -rng.between(0, 3) } else { rng.between(0, step.min(draft.horizon)) };
    let label = label(rng, draft);
    if rng.chance(60) {
        DraftRule { kind: "min", from: first, to: then, limit: wait, label }
    } else {
        DraftRule { kind: "max", from: then, to: first, limit: -wait, label }
    }
}

/// A rule that asks for a later minute of some event, counted from a signal and only where it has one of its truths.
fn branching_rule(rng: &mut Rng, draft: &Draft) -> DraftRule {
    let signal = rng.below(draft.signals.len());
    let from = if rng.chance(70) { draft.signals[signal].1 } else { 0 };
    let to = if rng.chance(90) { draft.events.len() - 1 - rng.below(draft.events.len().div_ceil(2)) } else { from };
    let wait = if from == to { 0 } else { rng.between(1, (draft.horizon / 3).max(3)) };
    DraftRule { kind: "min", from, to, limit: wait, label: draft.completed(&[(signal, rng.chance(50))]) }
}

/// A rule with a limit near to what the table has in the cases of its label; `tight` counts those that may ask for more.
fn close_rule(rng: &mut Rng, draft: &Draft, table: &[u16], tight: &mut usize) -> DraftRule {
    let events = draft.events.len();
    let from = rng.below(events);
    let to = if rng.chance(8) { from } else { rng.below(events) };
    let label = label(rng, draft);
    let (least, most) = differences(draft, table, from, to, &label);
    let mut slack = rng.pick(&[0, 0, 0, 1, 2, 30]);
    if *tight > 0 && rng.chance(50) {
        *tight -= 1;
        slack = -rng.between(1, 3);
    }
    let (kind, limit) = if rng.chance(55) { ("max", most + slack) } else { ("min", least - slack) };
    DraftRule { kind, from, to, limit: limit.clamp(-10_080, 10_080), label }
}

/// The least and the greatest minute(to) - minute(from) over the cases that a rule with the label covers; 0 if it
/// covers none.
fn differences(draft: &Draft, table: &[u16], from: usize, to: usize, label: &[(usize, bool)]) -> (i64, i64) {
    let both = |case: usize| draft.happens(case, from) && draft.happens(case, to);
    let covers = |case: &usize| model::holds_in(label, *case) && both(*case);
    let row = |case: usize| &table[case * draft.events.len()..];
    let difference = |case: usize| i64::from(row(case)[to]) - i64::from(row(case)[from]);
    let all: Vec<i64> = (0..1 << draft.signals.len()).filter(covers).map(difference).collect();
    (all.iter().min().copied().unwrap_or(0), all.iter().max().copied().unwrap_or(0))
}

/// A rule from anywhere to anywhere, with limits at both ends and around 0 among them.
fn any_rule(rng: &mut Rng, draft: &Draft) -> DraftRule {
    let events = draft.events.len();
    let limit = match rng.below(4) {
        0 => rng.between(-3, 3),
        1 => rng.pick(&[10_080, -10_080, 10_079, -10_079]),
        _ => rng.between(-draft.horizon, draft.horizon),
    };
    let (kind, from, to) = (rng.pick(&["max", "min"]), rng.below(events), rng.below(events));
    DraftRule { kind, from, to, limit, label: label(rng, draft) }
}

/// Moves rules about, and writes one over another at times: "Rules may repeat."
fn shuffle_and_repeat(rng: &mut Rng, rules: &mut [DraftRule]) {
    for place in 0..rules.len() {
        let other = rng.below(rules.len());
        rules.swap(place, other);
    }
    if rules.len() >= 2 && rng.chance(15) {
        let (old, new) = (rng.below(rules.len()), rng.below(rules.len()));
        rules[new] = rules[old].clone();
    }
}

fn valid(rng: &mut Rng) -> Paper {
    let (size, horizon) = (size(rng), horizon(rng));
    draft(rng, size, horizon).paper()
}

/// A valid or a damaged sheet, or one that still holds a `fix`.
pub fn sheet(rng: &mut Rng) -> Vec<u8> {
    let paper = valid(rng);
    match rng.below(100) {
        0..=48 => paper.bytes(),
        49..=65 => damaged_at_its_end(rng, paper),
        66..=72 => outdated(rng, paper),
        _ => damaged(rng, paper),
    }
}

/// The same, or at times a sheet with the longest listing that there is.
pub fn table_sheet(rng: &mut Rng) -> Vec<u8> {
    if rng.chance(95) { sheet(rng) } else { broad(rng).bytes() }
}

/// A sheet for the house form, or one with the longest listing.
pub fn text_sheet(rng: &mut Rng) -> Vec<u8> {
    if rng.chance(80) { house_sheet(rng).1 } else { broad(rng).bytes() }
}

/// 16 events with names of 8 bytes, 4 signals, and minutes of five digits everywhere but at the start.
fn broad(rng: &mut Rng) -> Draft {
    let mut draft = unlabelled(rng, &Size { events: 16, signals: 4, rules: 30 }, 10_080);
    draft.events = long_names(rng, 16);
    if rng.chance(20) {
        label_events(rng, &mut draft, 30);
    }
    for to in 1..16 {
        for (least, label) in [(10_000, vec![]), (10_040, label(rng, &draft))] {
            draft.rules.push(DraftRule { kind: "min", from: 0, to, limit: least + rng.between(0, 40), label });
        }
    }
    draft
}

/// A valid sheet so small that all its tables can be tried.
pub fn tiny_sheet(rng: &mut Rng) -> Vec<u8> {
    tiny_draft(rng).bytes()
}

fn tiny_draft(rng: &mut Rng) -> Draft {
    loop {
        let events = rng.pick(&[1, 2, 3, 3, 3, 4]);
        let signals = rng.pick(&[0, 1, 1, 1, 2, 2, 2, 3]).min(events);
        let size = Size { events, signals, rules: rng.below(9) };
        let horizon = rng.between(0, 7);
        let draft = draft(rng, size, horizon);
        if model::search_size(&model::read(&draft.bytes()).unwrap()) <= 2_000_000.0 {
            return draft;
        }
    }
}

// ---------------------------------------------------------------- One procedure typed many ways

/// As many rules as a sheet may have.
const RULES_MOST: usize = model::RULES_MOST as usize;

/// A sheet for the house form, and the word for what it was made for.
pub fn house_sheet(rng: &mut Rng) -> (&'static str, Vec<u8>) {
    let (kind, mut draft) = match rng.below(10) {
        0..=2 => ("drafted", drafted(rng)),
        3..=5 => ("crowded", crowded(rng)),
        _ => ("brimming", brimming(rng)),
    };
    type_anew(rng, &mut draft);
    let mut bytes = draft.paper().bytes();
    match rng.below(100) {
        0..=8 => ("damaged", damaged(rng, draft.paper())),
        9..=11 => ("outdated", outdated(rng, draft.paper())),
        12..=14 => {
            append_bytes(rng, &mut bytes);
            ("damaged", bytes)
        }
        _ => (kind, bytes),
    }
}

/// A sheet as those for the solver.
fn drafted(rng: &mut Rng) -> Draft {
    let (size, horizon) = (size(rng), horizon(rng));
    draft(rng, size, horizon)
}

/// Up to 64 rules for a few pairs of ends and labels, so that few rows are left.
fn crowded(rng: &mut Rng) -> Draft {
    let (events, signals, rules) = (rng.between(1, 5) as usize, rng.between(0, 4) as usize, rng.between(0, 64) as usize);
    let horizon = horizon(rng);
    let mut draft = bare(rng, &Size { events, signals: signals.min(events), rules }, horizon);
    let places: Vec<DraftRule> = (0..rng.between(1, 12)).map(|_| house_rule(rng, &draft)).collect();
    for _ in 0..rules {
        let mut rule = places[rng.below(places.len())].clone();
        rule.kind = rng.pick(&["max", "min"]);
        let limit = if rng.chance(50) { rule.limit + rng.between(-2, 2) } else { house_limit(rng) };
        rule.limit = limit.clamp(-10_080, 10_080);
        draft.rules.push(rule);
    }
    draft
}

/// As many rows left as there may be, or few less.
fn brimming(rng: &mut Rng) -> Draft {
    let goal = match rng.below(10) {
        0..=4 => 64,
        5..=6 => 63,
        7 => 62,
        _ => rng.between(48, 61),
    } as usize;
    let (events, signals, horizon) = (rng.between(12, 16) as usize, rng.between(0, 4) as usize, horizon(rng));
    let mut draft = bare(rng, &Size { events, signals, rules: goal }, horizon);
    let long = rng.chance(25);
    if long {
        draft.events = long_names(rng, events);
    }
    let mut left = BTreeSet::new();
    while left.len() < goal {
        let rule = if long { long_rule(rng, &draft) } else { house_rule(rng, &draft) };
        if left.insert(place(&rule)) {
            draft.rules.push(rule);
        }
    }
    draft
}

/// Names of 8 bytes.
fn long_names(rng: &mut Rng, count: usize) -> Vec<String> {
    let mut names = BTreeSet::new();
    while names.len() < count {
        names.insert(name(rng, 8));
    }
    let names: Vec<String> = names.into_iter().collect();
    rng.shuffled(&names)
}

/// A `max` rule from anywhere to anywhere, at times from an event to itself.
fn house_rule(rng: &mut Rng, draft: &Draft) -> DraftRule {
    let from = rng.below(draft.events.len());
    let to = if rng.chance(10) { from } else { rng.below(draft.events.len()) };
    DraftRule { kind: "max", from, to, limit: house_limit(rng), label: label(rng, draft) }
}

/// The same with a limit of many digits, and as many letters as there are signals, most of them false.
fn long_rule(rng: &mut Rng, draft: &Draft) -> DraftRule {
    let order = rng.different(draft.signals.len(), draft.signals.len());
    let letters: Label = order.into_iter().map(|signal| (signal, rng.chance(10))).collect();
    DraftRule { limit: -rng.between(1_000, 10_080), label: draft.completed(&letters), ..house_rule(rng, draft) }
}

/// Both ends, around 0, and between.
fn house_limit(rng: &mut Rng) -> i64 {
    match rng.below(6) {
        0 => rng.pick(&[10_080, -10_080, 10_079, -10_079]),
        1 => 0,
        2 => rng.between(-2, 2),
        3 => rng.between(-10_080, 10_080),
        _ => rng.between(-120, 120),
    }
}

/// The ends of a `max` rule and its label in any order: what two rows must share for one of them to go.
fn place(rule: &DraftRule) -> (usize, usize, BTreeSet<(usize, bool)>) {
    (rule.from, rule.to, rule.label.iter().copied().collect())
}

/// The same rule seen from its other end: to - from <= limit says that from - to >= -limit.
pub fn turned(rule: &DraftRule) -> DraftRule {
    let kind = if rule.kind == "max" { "min" } else { "max" };
    DraftRule { kind, from: rule.to, to: rule.from, limit: -rule.limit, label: rule.label.clone() }
}

/// Another typing of the same procedure, for a sheet that was accepted.
pub fn retyped(rng: &mut Rng, sheet: &[u8], net: &Net) -> Vec<u8> {
    let mut draft = drafted_from(sheet, net);
    type_anew(rng, &mut draft);
    draft.bytes()
}

/// The same with another reaction of one signal, for an accepted sheet that has one: another procedure, with another
/// house form.
pub fn slowed(rng: &mut Rng, sheet: &[u8], net: &Net) -> Vec<u8> {
    let mut draft = drafted_from(sheet, net);
    let signal = rng.below(draft.signals.len());
    let lines = draft.reactions.as_mut().expect("a line for each signal");
    let old = lines[signal].1;
    while lines[signal].1 == old {
        let near = rng.pick(&[1, 2, 60, old - 1, old + 1]).clamp(1, 60);
        lines[signal].1 = if rng.chance(50) { near } else { rng.between(1, 60) };
    }
    type_anew(rng, &mut draft);
    draft.bytes()
}

/// The same with another label of one event: another procedure, with another house form. Nothing where a few trials
/// find no other label with which the sheet is accepted.
pub fn relabelled(rng: &mut Rng, sheet: &[u8], net: &Net) -> Option<Vec<u8>> {
    let sorted = |label: &Label| label.iter().copied().collect::<BTreeSet<(usize, bool)>>();
    for _ in 0..if net.events.len() > 1 { 20 } else { 0 } {
        let mut draft = drafted_from(sheet, net);
        let event = 1 + rng.below(net.events.len() - 1);
        draft.labels[event] = label(rng, &draft);
        draft.cases = cases_anew(rng, &draft);
        type_anew(rng, &mut draft);
        let bytes = draft.bytes();
        if sorted(&draft.labels[event]) != sorted(&net.labels[event]) && model::read(&bytes).is_ok() {
            return Some(bytes);
        }
    }
    None
}

/// What an accepted sheet says, with a line for the reaction of each signal.
fn drafted_from(sheet: &[u8], net: &Net) -> Draft {
    let name = |event: &std::ops::Range<usize>| String::from_utf8(sheet[event.clone()].to_vec()).expect("a name");
    let rule = |rule: &model::Rule| {
        let kind = if rule.kind == Kind::Max { "max" } else { "min" };
        DraftRule { kind, from: rule.from, to: rule.to, limit: rule.limit, label: rule.label.clone() }
    };
    Draft {
        horizon: net.horizon,
        events: net.events.iter().map(name).collect(),
        signals: net.signals.iter().map(|signal| (signal.letter, signal.event)).collect(),
        rules: net.rules.iter().map(rule).collect(),
        reactions: Some(net.signals.iter().map(|signal| signal.reaction).enumerate().collect()),
        labels: net.labels.clone(),
        cases: Some((0..net.events.len()).collect()),
    }
}

/// Types the rules, the reactions and the labels of a draft another way; what they ask stays the same.
fn type_anew(rng: &mut Rng, draft: &mut Draft) {
    draft.reactions = reactions_anew(rng, draft);
    draft.labels.iter_mut().for_each(|label| *label = rng.shuffled(label));
    draft.cases = cases_anew(rng, draft);
    let rules = &mut draft.rules;
    double_some(rng, rules);
    for rule in rules.iter_mut() {
        if rng.chance(50) {
            *rule = turned(rule);
        }
        rule.label = rng.shuffled(&rule.label);
    }
    *rules = rng.shuffled(rules);
}

/// The reactions in any order, those of 1 with a line or without; where no line is left, an empty section or none.
fn reactions_anew(rng: &mut Rng, draft: &Draft) -> Option<Vec<(usize, i64)>> {
    let percent = rng.pick(&[0, 50, 100]);
    let all = (0..draft.signals.len()).map(|signal| (signal, draft.reaction(signal)));
    let lines: Vec<(usize, i64)> = all.filter(|line| line.1 != 1 || rng.chance(percent)).collect();
    if lines.is_empty() && rng.chance(50) { None } else { Some(rng.shuffled(&lines)) }
}

/// The events with a label in any order, the others with a line or without; where no line is left, an empty section or
/// most often none.
fn cases_anew(rng: &mut Rng, draft: &Draft) -> Option<Vec<usize>> {
    let percent = rng.pick(&[0, 0, 10, 50, 100]);
    let labelled = draft.labels.iter().any(|label| !label.is_empty());
    let listed = |event: &usize| !draft.labels[*event].is_empty() || rng.chance(percent);
    let lines: Vec<usize> = (0..draft.events.len()).filter(listed).collect();
    if !labelled && rng.chance(80) { None } else { Some(rng.shuffled(&lines)) }
}

/// Rules a second time, some of them with slack, in the room that there is.
fn double_some(rng: &mut Rng, rules: &mut Vec<DraftRule>) {
    if rules.is_empty() || rng.chance(30) {
        return;
    }
    for _ in 0..rng.below(RULES_MOST - rules.len() + 1) {
        let mut double = rules[rng.below(rules.len())].clone();
        let slack = rng.pick(&[0, 0, 1, 2, 30, 20_160]);
        double.limit = match double.kind {
            "max" => (double.limit + slack).min(10_080),
            _ => (double.limit - slack).max(-10_080),
        };
        rules.push(double);
    }
}

// ---------------------------------------------------------------- Sheets that still hold a `fix`

/// A sheet with a `fix` in a row; at times with something else at fault there, in another row or in any line, with a
/// second `fix`, or cut before the row's line feed.
fn outdated(rng: &mut Rng, mut paper: Paper) -> Vec<u8> {
    let Some(row) = fix_row(rng, &mut paper) else { return paper.bytes() };
    match rng.below(20) {
        0..=4 => {}
        5..=12 => spoil_row(rng, &mut paper, row),
        13..=15 => {
            let other = rng.pick(&paper.of(Place::Rule));
            spoil_row(rng, &mut paper, other);
        }
        16 => drop(fix_row(rng, &mut paper)),
        17..=18 => damage_fields(rng, &mut paper),
        _ => {
            paper.lines.truncate(row + 1);
            let mut bytes = paper.bytes();
            bytes.pop();
            return bytes;
        }
    }
    paper.bytes()
}

/// Writes `fix` into the first row, the last or any, and gives its place among the lines; nothing if there is no row.
fn fix_row(rng: &mut Rng, paper: &mut Paper) -> Option<usize> {
    let rows = paper.of(Place::Rule);
    let row = match rng.below(4) {
        0 => *rows.first()?,
        1 => *rows.last()?,
        _ => *rows.get(rng.below(rows.len().max(1)))?,
    };
    *paper.lines[row].1.first_mut()? = b"fix".to_vec();
    Some(row)
}

/// Another count of fields, number, name, label or kind in a row.
fn spoil_row(rng: &mut Rng, paper: &mut Paper, row: usize) {
    let letters = letters_of(paper);
    let fields = &mut paper.lines[row].1;
    match rng.below(14) {
        0..=1 => drop(fields.pop()),
        2 => fields.push(vec![]),
        3..=5 => fields[3] = odd_number(rng),
        6..=7 => fields[1 + rng.below(2)] = odd_name(rng),
        8..=10 => fields[4] = odd_label(rng, &letters),
        11 => fields.truncate(1),
        _ => fields[0] = rng.pick(&["fixx", "fi", "Fix", "FIX", " fix", "fix ", "fix\r"]).as_bytes().to_vec(),
    }
}

/// A sheet for the converter, valid or damaged.
pub fn former_sheet(rng: &mut Rng) -> Vec<u8> {
    let draft = match rng.below(20) {
        0..=1 => drafted(rng),
        2..=6 => partly_fixed(rng),
        7..=8 => wholly_fixed(rng),
        9..=13 => about_64(rng),
        14..=15 => about_ten(rng),
        _ => worded(rng),
    };
    match rng.below(100) {
        0..=11 => damaged(rng, draft.paper()),
        12..=22 => damaged_at_its_end(rng, draft.paper()),
        23..=30 => outdated(rng, draft.paper()),
        _ => draft.bytes(),
    }
}

/// A valid one so small that all its tables can be tried.
pub fn tiny_former_sheet(rng: &mut Rng) -> Vec<u8> {
    let mut draft = tiny_draft(rng);
    fix_some(rng, &mut draft);
    draft.bytes()
}

/// A sheet as those for the solver, with some `fix` rows.
fn partly_fixed(rng: &mut Rng) -> Draft {
    let mut draft = drafted(rng);
    fix_some(rng, &mut draft);
    draft
}

/// The same with `fix` rows only.
fn wholly_fixed(rng: &mut Rng) -> Draft {
    let mut draft = if rng.chance(50) { drafted(rng) } else { crowded(rng) };
    draft.rules.truncate(if rng.chance(60) { 32 } else { RULES_MOST });
    draft.rules.iter_mut().for_each(|rule| rule.kind = "fix");
    draft
}

/// Makes a `fix` of some rules, most of them with the difference that the least table has, so that it stays a table.
fn fix_some(rng: &mut Rng, draft: &mut Draft) {
    let (percent, solved) = (rng.pick(&[15, 40, 100]), draft.solved());
    let of_table = rng.chance(85);
    for place in 0..draft.rules.len() {
        let rule = draft.rules[place].clone();
        let limit = match &solved {
            Some(table) if of_table => match differences(draft, table, rule.from, rule.to, &rule.label) {
                (least, most) if least == most => least,
                _ => continue,
            },
            _ => rule.limit,
        };
        if rng.chance(percent) {
            draft.rules[place] = DraftRule { kind: "fix", limit, ..rule };
        }
    }
}

/// So many rules that about 64 rows would result, or more.
fn about_64(rng: &mut Rng) -> Draft {
    let goal = match rng.below(10) {
        0..=2 => 64,
        3..=5 => 65,
        6 => rng.pick(&[62, 63]),
        7 => 66,
        8 => rng.between(58, 72),
        _ => rng.between(65, 128),
    };
    let events = rng.between(3, 16) as usize;
    resulting(rng, events, goal as usize)
}

/// So many that one digit is enough for their count, or is no more once they are converted.
fn about_ten(rng: &mut Rng) -> Draft {
    let (events, goal) = (rng.between(1, 6) as usize, rng.pick(&[8, 9, 9, 10, 10, 10, 11, 12]));
    resulting(rng, events, goal)
}

/// A draft of whose rules so many rows would result: one of each, and two of a `fix`.
fn resulting(rng: &mut Rng, events: usize, goal: usize) -> Draft {
    let (fewest, most) = (goal.saturating_sub(RULES_MOST), goal / 2);
    let fixes = match rng.below(4) {
        0 => fewest,
        1 => most,
        _ => rng.between(fewest as i64, most as i64) as usize,
    };
    let (signals, rules, horizon) = (rng.below(events.min(4) + 1), goal - fixes, horizon(rng));
    let mut draft = bare(rng, &Size { events, signals, rules }, horizon);
    let long = rng.chance(25);
    if long {
        draft.events = long_names(rng, events);
    }
    let fixed = rng.different(fixes, rules);
    for place in 0..rules {
        let rule = if long { long_rule(rng, &draft) } else { house_rule(rng, &draft) };
        let kind = if fixed.contains(&place) { "fix" } else { rng.pick(&["max", "min"]) };
        draft.rules.push(DraftRule { kind, ..rule });
    }
    draft
}

/// Words of the sheet as names, most often with a line for each event behind the reactions: `fix,p` is no row.
fn worded(rng: &mut Rng) -> Draft {
    const WORDS: [&str; 10] =
        ["fix", "rules", "max", "min", "cases", "signals", "events", "horizon", "reaction", "fixx"];
    let (events, horizon) = (rng.between(2, 8) as usize, horizon(rng));
    let signals = rng.below(events.min(4) + 1);
    let mut draft = bare(rng, &Size { events, signals, rules: 0 }, horizon);
    draft.events = rng.shuffled(&WORDS).into_iter().take(events).map(String::from).collect();
    if rng.chance(60) {
        draft.cases = Some(rng.different(events, events));
    }
    for _ in 0..rng.below(16) {
        let kind = rng.pick(&["max", "min", "fix"]);
        draft.rules.push(DraftRule { kind, ..house_rule(rng, &draft) });
    }
    draft
}

// ---------------------------------------------------------------- Damaged sheets

/// A sheet with one or two things done to it; most of them are refused.
fn damaged(rng: &mut Rng, mut paper: Paper) -> Vec<u8> {
    if rng.chance(65) {
        damage_fields(rng, &mut paper);
    }
    if rng.chance(25) {
        damage_fields(rng, &mut paper);
    }
    let mut bytes = paper.bytes();
    if rng.chance(45) {
        damage_bytes(rng, &mut bytes);
    }
    bytes
}

/// A sheet with something done to its reactions or its labels, or behind its last line, and nothing else.
fn damaged_at_its_end(rng: &mut Rng, mut paper: Paper) -> Vec<u8> {
    match rng.below(10) {
        0..=2 => {
            damage_reactions(rng, &mut paper);
            return paper.bytes();
        }
        3..=7 => {
            damage_labels(rng, &mut paper);
            return paper.bytes();
        }
        _ => {}
    }
    let mut bytes = paper.bytes();
    match rng.below(5) {
        0 => bytes.truncate(bytes.len() - 1),
        _ => append_bytes(rng, &mut bytes),
    }
    bytes
}

fn damage_fields(rng: &mut Rng, paper: &mut Paper) {
    match rng.below(18) {
        0..=1 => put_number(rng, paper),
        2 => shift_count(rng, paper),
        3..=4 => put_name(rng, paper),
        5..=8 => put_label(rng, paper),
        9 => put_letter(rng, paper),
        10 => put_word(rng, paper),
        11..=12 => define_twice(rng, paper),
        13 => move_lines(rng, paper),
        14 => if rng.chance(50) { change_field_count(rng, paper) } else { empty_field(rng, paper) },
        15 => damage_one_rule_twice(rng, paper),
        16 => damage_reactions(rng, paper),
        _ => damage_labels(rng, paper),
    }
}

/// Writes a field of one of the lines for `place`, if there are any.
fn put(rng: &mut Rng, paper: &mut Paper, place: Place, field: usize, text: Vec<u8>) {
    let lines = paper.of(place);
    if !lines.is_empty() {
        let line = rng.pick(&lines);
        if let Some(old) = paper.lines[line].1.get_mut(field) {
            *old = text;
        }
    }
}

pub fn odd_number(rng: &mut Rng) -> Vec<u8> {
    const NUMBERS: [&str; 36] = [
        "010", "-0", "-0", "-0", "+5", "-", "", "18446744073709551621", "18446744073709551621",
        "18446744073709551621", "18446744073709551616", "4294967301", "65541", "10081", "-10081", "10080", "-10080",
        "00", "0", "-1", "--1", "1-", "1.0", " 1", "1 ", "1e3", "0x1", "5\r", "-010", "16", "17", "4", "5", "64",
        "65", "99999",
    ];
    match rng.below(10) {
        0 => [if rng.chance(50) { "-" } else { "" }, &"7".repeat(rng.between(3_000, 4_000) as usize)].concat().into_bytes(),
        1 => (18_446_744_073_709_551_616u128 + rng.below(10_081) as u128).to_string().into_bytes(),
        2 => (4_294_967_296u64 + rng.below(10_081) as u64).to_string().into_bytes(),
        3 => format!("-{}", 18_446_744_073_709_551_616u128 - rng.below(10_081) as u128).into_bytes(),
        4 => vec![b'1', rng.below(256) as u8],
        _ => rng.pick(&NUMBERS).as_bytes().to_vec(),
    }
}

fn put_number(rng: &mut Rng, paper: &mut Paper) {
    let text = odd_number(rng);
    if rng.chance(50) {
        put(rng, paper, Place::Section, 1, text);
    } else {
        put(rng, paper, Place::Rule, 3, text);
    }
}

/// A count that is one too high or too low for the lines behind it.
fn shift_count(rng: &mut Rng, paper: &mut Paper) {
    let place = rng.pick(&[Place::Name, Place::Signal, Place::Rule]);
    let count = paper.of(place).len() as i64 + rng.pick(&[-1, 1]);
    put_count(paper, place, count);
}

/// Writes the count of the section that has the lines for `place`.
fn put_count(paper: &mut Paper, place: Place, count: i64) {
    let word: &[u8] = match place {
        Place::Name => b"events",
        Place::Signal => b"signals",
        Place::Reaction => b"reactions",
        Place::Label => b"cases",
        _ => b"rules",
    };
    for (_, fields) in paper.lines.iter_mut().filter(|line| line.1.first().is_some_and(|first| first == word)) {
        *fields = vec![word.to_vec(), count.to_string().into_bytes()];
    }
}

fn odd_name(rng: &mut Rng) -> Vec<u8> {
    let (nine, byte) = (name(rng, 9), rng.below(256) as u8);
    match rng.below(8) {
        0 => nine.into_bytes(),
        1 => nine[..8].as_bytes().to_vec(),
        2 => vec![b'a', byte],
        3 => vec![byte],
        4 => b"Start".to_vec(),
        5 => b"1a".to_vec(),
        6 => b"undef".to_vec(),
        _ => rng.pick(&["", "a b", "start ", "start\r", "-", "a-b", "a_b", "caf\u{e9}"]).as_bytes().to_vec(),
    }
}

fn put_name(rng: &mut Rng, paper: &mut Paper) {
    let text = odd_name(rng);
    match rng.below(4) {
        0 => put(rng, paper, Place::Name, 0, text),
        1 => put(rng, paper, Place::Signal, 1, text),
        place => put(rng, paper, Place::Rule, place - 1, text),
    }
}

/// A label made of these letters and of others, with each way to be wrong.
fn odd_label(rng: &mut Rng, own: &[u8]) -> Vec<u8> {
    let letter = |rng: &mut Rng| match own.is_empty() || rng.chance(25) {
        true => rng.pick(b"abpqz"),
        false => rng.pick(own),
    };
    let (p, q) = (letter(rng), letter(rng));
    const PATTERNS: [&str; 20] = [
        "p", "!p", "pq", "p!q", "!p!q", "!!p", "p!", "!", "", "p-", "-p", "--", "!-", "pp", "p!p", "!p!p", "pqp", "P", "p ", "p1",
    ];
    let pattern = rng.pick(&PATTERNS);
    let write = |byte: u8| match byte {
        b'p' => p,
        b'q' => q,
        other => other,
    };
    pattern.bytes().map(write).collect()
}

fn put_label(rng: &mut Rng, paper: &mut Paper) {
    let text = odd_label(rng, &letters_of(paper));
    put(rng, paper, Place::Rule, 4, text);
}

fn odd_letter(rng: &mut Rng) -> Vec<u8> {
    let text = rng.pick(&["", "pq", "P", "1", "-", "!", "!p", " ", "p ", "p\r", "\u{e9}", "z", "a", "p"]);
    text.as_bytes().to_vec()
}

fn put_letter(rng: &mut Rng, paper: &mut Paper) {
    let text = odd_letter(rng);
    put(rng, paper, Place::Signal, 0, text);
}

fn put_word(rng: &mut Rng, paper: &mut Paper) {
    if rng.chance(50) {
        let word = rng.pick(&["", "max", "min", "fix", "Max", "MIN", "max ", "mix", "fixx", "ma", " fix", "max\0"]);
        put(rng, paper, Place::Rule, 0, word.as_bytes().to_vec());
    } else {
        let word = rng.pick(&[
            "horizon", "events", "signals", "rules", "reactions", "rule", "Events", "signals ", "", "event", "eventss",
            "rul\u{e9}s", "reaction", "reactionss", "cases", "case", "Cases", "casess",
        ]);
        put(rng, paper, Place::Section, 0, word.as_bytes().to_vec());
    }
}

/// A name, a letter or a signal's event that another line has already.
fn define_twice(rng: &mut Rng, paper: &mut Paper) {
    let (place, field) = rng.pick(&[(Place::Name, 0), (Place::Signal, 0), (Place::Signal, 1)]);
    let lines = paper.of(place);
    if lines.len() >= 2 {
        let text = paper.lines[rng.pick(&lines)].1.get(field).cloned().unwrap_or_default();
        put(rng, paper, place, field, text);
    }
}

/// A line dropped, doubled or swapped with another.
fn move_lines(rng: &mut Rng, paper: &mut Paper) {
    let (line, other) = (rng.below(paper.lines.len()), rng.below(paper.lines.len()));
    match rng.below(3) {
        0 => drop(paper.lines.remove(line)),
        1 => paper.lines.insert(line, paper.lines[line].clone()),
        _ => paper.lines.swap(line, other),
    }
}

fn change_field_count(rng: &mut Rng, paper: &mut Paper) {
    let line = rng.below(paper.lines.len());
    let fields = &mut paper.lines[line].1;
    match rng.below(3) {
        0 => fields.push(vec![]),
        1 => fields.insert(0, vec![]),
        _ => drop(fields.pop()),
    }
}

fn empty_field(rng: &mut Rng, paper: &mut Paper) {
    let line = rng.below(paper.lines.len());
    let fields = &mut paper.lines[line].1;
    if !fields.is_empty() {
        let field = rng.below(fields.len());
        fields[field].clear();
    }
}

/// Two faults on one line: "on one line the lowest number does".
fn damage_one_rule_twice(rng: &mut Rng, paper: &mut Paper) {
    let rules = paper.of(Place::Rule);
    let Some(&line) = rules.get(rng.below(rules.len().max(1))) else { return };
    for field in rng.different(2, 5) {
        let text = match field {
            0 => b"mox".to_vec(),
            3 => odd_number(rng),
            4 => rng.pick(&["", "!", "zz", "z", "y!y"]).as_bytes().to_vec(),
            _ => odd_name(rng),
        };
        if let Some(old) = paper.lines[line].1.get_mut(field) {
            *old = text;
        }
    }
}

/// The lines from a section's heading on, which are taken off the paper; none if there is no such heading.
fn split_section(paper: &mut Paper, word: &[u8]) -> Vec<Line> {
    let heading = |line: &Line| line.0 == Place::Section && line.1.first().is_some_and(|first| first == word);
    let place = paper.lines.iter().position(heading).unwrap_or(paper.lines.len());
    paper.lines.split_off(place)
}

/// Something done to the section of reactions, which is put behind the rules first if there is none; the section of
/// labels stays behind it.
fn damage_reactions(rng: &mut Rng, paper: &mut Paper) {
    let labels = split_section(paper, b"cases");
    damage_last_reactions(rng, paper);
    paper.lines.extend(labels);
}

fn damage_last_reactions(rng: &mut Rng, paper: &mut Paper) {
    if !paper.lines.iter().any(|line| line.1.first().is_some_and(|word| word == b"reactions")) {
        paper.put(Place::Section, &["reactions", "0"]);
    }
    if paper.of(Place::Reaction).is_empty() && rng.chance(80) {
        let letters = letters_of(paper);
        letters.iter().for_each(|&letter| put_reaction(rng, paper, letter));
        put_count(paper, Place::Reaction, letters.len() as i64);
    }
    match rng.below(20) {
        0..=4 => {
            let text = if rng.chance(70) { odd_reaction(rng) } else { odd_number(rng) };
            put(rng, paper, Place::Reaction, 1, text);
        }
        5..=7 => {
            let text = odd_letter(rng);
            put(rng, paper, Place::Reaction, 0, text);
        }
        8..=10 => add_reactions(rng, paper),
        11 => {
            let count = paper.of(Place::Reaction).len() as i64 + rng.pick(&[-1, 1]);
            put_count(paper, Place::Reaction, count);
        }
        12 => put_count(paper, Place::Reaction, rng.pick(&[-1, 4, 5, 5, 6])),
        13..=14 => damage_one_reaction_twice(rng, paper),
        15 => change_reaction_fields(rng, paper),
        16 => paper.lines.extend(reaction_section(paper)),
        17 => move_section(paper),
        _ => drop(paper.lines.pop()),
    }
}

fn put_reaction(rng: &mut Rng, paper: &mut Paper, letter: u8) {
    paper.put(Place::Reaction, &[&char::from(letter).to_string(), &reaction(rng, 60).to_string()]);
}

/// The letters of the signals' lines, as far as there are any.
fn letters_of(paper: &Paper) -> Vec<u8> {
    let letters = paper.of(Place::Signal).into_iter().filter_map(|line| paper.lines[line].1.first());
    letters.filter_map(|letter| letter.first().copied()).collect()
}

/// The ends of the range and what is beyond them, or no number; also what a byte or 16 bits would make of a larger
/// one.
fn odd_reaction(rng: &mut Rng) -> Vec<u8> {
    const MINUTES: [&str; 20] = [
        "0", "0", "61", "61", "60", "59", "1", "-1", "-60", "", "01", "-0", "+2", "2 ", "2\r", "257", "257", "258",
        "65538", "62",
    ];
    rng.pick(&MINUTES).as_bytes().to_vec()
}

/// Lines for letters that have one, for undefined ones, or for any others, with their count: more than there are
/// signals, or more than four.
fn add_reactions(rng: &mut Rng, paper: &mut Paper) {
    let own = letters_of(paper);
    let goal = if rng.chance(50) { paper.of(Place::Reaction).len() + 1 } else { rng.pick(&[4, 4, 5]) };
    while paper.of(Place::Reaction).len() < goal {
        let letter = if own.is_empty() || rng.chance(30) { rng.pick(b"abpqz") } else { rng.pick(&own) };
        put_reaction(rng, paper, letter);
    }
    put_count(paper, Place::Reaction, goal as i64);
}

/// Two faults on one line, or a fault and a letter that has a line already.
fn damage_one_reaction_twice(rng: &mut Rng, paper: &mut Paper) {
    let lines = paper.of(Place::Reaction);
    let Some(&line) = lines.last() else { return };
    let letter = match paper.lines[lines[0]].1.first() {
        Some(first) if rng.chance(50) => first.clone(),
        _ => odd_letter(rng),
    };
    let mut fields = vec![letter, odd_reaction(rng)];
    if rng.chance(15) {
        fields.push(vec![]);
    }
    paper.lines[line].1 = fields;
}

fn change_reaction_fields(rng: &mut Rng, paper: &mut Paper) {
    let line = paper.lines.len() - 1 - rng.below(reaction_section(paper).len());
    let fields = &mut paper.lines[line].1;
    match rng.below(4) {
        0 => fields.push(b"1".to_vec()),
        1 => fields.insert(0, vec![]),
        2 => drop(fields.pop()),
        _ => fields.clear(),
    }
}

/// The lines of the section, its heading first.
fn reaction_section(paper: &Paper) -> Vec<Line> {
    let heading = |line: &Line| line.1.first().is_some_and(|word| word == b"reactions");
    paper.lines.iter().skip_while(|line| !heading(line)).cloned().collect()
}

/// The section before that of the rules.
fn move_section(paper: &mut Paper) {
    let section = reaction_section(paper);
    paper.lines.truncate(paper.lines.len() - section.len());
    let rules = paper.lines.iter().position(|line| line.1.first().is_some_and(|word| word == b"rules"));
    let place = rules.unwrap_or(paper.lines.len());
    paper.lines.splice(place..place, section);
}

/// Something done to the section of labels, which is put behind the reactions first if there is none.
fn damage_labels(rng: &mut Rng, paper: &mut Paper) {
    let mut section = split_section(paper, b"cases");
    if !paper.lines.iter().any(|line| line.1.first().is_some_and(|word| word == b"reactions")) {
        paper.put(Place::Section, &["reactions", "0"]);
    }
    if section.is_empty() {
        section = vec![(Place::Section, vec![b"cases".to_vec(), b"0".to_vec()])];
    }
    paper.lines.extend(section);
    if paper.of(Place::Label).is_empty() && rng.chance(85) {
        add_labels(rng, paper);
    }
    match rng.below(34) {
        0..=3 => {
            let text = odd_label(rng, &letters_of(paper));
            put(rng, paper, Place::Label, 1, text);
        }
        4..=5 => {
            let text = odd_name(rng);
            put(rng, paper, Place::Label, 0, text);
        }
        6..=9 => second_label(rng, paper),
        10 => put_count(paper, Place::Label, paper.of(Place::Label).len() as i64 + rng.pick(&[-1, 1])),
        11 => put_count(paper, Place::Label, paper.of(Place::Name).len() as i64 + rng.pick(&[0, 1, 1])),
        12 => put_count(paper, Place::Label, rng.pick(&[-1, 0, 16, 17])),
        13..=15 => damage_one_label_twice(rng, paper),
        16 if rng.chance(50) => put(rng, paper, Place::Label, 1, vec![]),
        16 => change_label_fields(rng, paper),
        17 => move_labels(rng, paper),
        18 => paper.lines.extend(split_section(&mut paper.clone(), b"cases")),
        19 => drop(paper.lines.pop()),
        20..=22 => label_start(rng, paper),
        23..=27 => unsettle_label(rng, paper, Place::Label, 1),
        28..=29 => unsettle_label(rng, paper, Place::Rule, 4),
        30..=31 => change_label_fields(rng, paper),
        _ => {
            label_start(rng, paper);
            unsettle_label(rng, paper, Place::Label, 1);
        }
    }
    if rng.chance(25) {
        let text = rng.pick(&["", "x", "start,-", "cases,0"]);
        paper.put(Place::Section, &[text]);
    }
}

/// The names that the sheet has.
fn names_of(paper: &Paper) -> Vec<Vec<u8>> {
    paper.of(Place::Name).into_iter().filter_map(|line| paper.lines[line].1.first().cloned()).collect()
}

fn put_label_line(paper: &mut Paper, name: &[u8], label: &[u8]) {
    paper.lines.push((Place::Label, vec![name.to_vec(), label.to_vec()]));
}

/// Letters of the sheet, or none, that a label line may have.
fn label_bytes(rng: &mut Rng, letters: &[u8]) -> Vec<u8> {
    if letters.is_empty() || rng.chance(30) {
        return b"-".to_vec();
    }
    let places: Vec<usize> = (0..letters.len()).collect();
    let signed = some_letters(rng, &places).into_iter().map(|(place, sign)| (letters[place], sign));
    letters_text(&signed.collect::<Vec<(u8, bool)>>()).into_bytes()
}

/// Lines for some events, with labels of any letters, and their count; the start among them at times.
fn add_labels(rng: &mut Rng, paper: &mut Paper) {
    let (names, letters) = (names_of(paper), letters_of(paper));
    let lines = rng.between(1, names.len().max(1) as i64) as usize;
    for place in rng.different(lines.min(names.len()), names.len()) {
        let label = if place == 0 { b"-".to_vec() } else { label_bytes(rng, &letters) };
        put_label_line(paper, &names[place], &label);
    }
    put_count(paper, Place::Label, paper.of(Place::Label).len() as i64);
}

/// A second line for an event that has one, most often with its count; either of them may have `-`.
fn second_label(rng: &mut Rng, paper: &mut Paper) {
    let lines = paper.of(Place::Label);
    if lines.is_empty() {
        return;
    }
    let line = rng.pick(&lines);
    let letters = letters_of(paper);
    let label = label_bytes(rng, &letters);
    if let (Some(old), true) = (paper.lines[line].1.get_mut(1), rng.chance(50)) {
        *old = b"-".to_vec();
    }
    let name = paper.lines[line].1.first().cloned().unwrap_or_default();
    match lines.iter().find(|&&other| other != line) {
        Some(&other) if rng.chance(60) => paper.lines[other].1 = vec![name, label],
        _ => {
            put_label_line(paper, &name, &label);
            put_count(paper, Place::Label, lines.len() as i64 + 1);
        }
    }
}

/// Two faults on one line, or a fault and an event that has a line already.
fn damage_one_label_twice(rng: &mut Rng, paper: &mut Paper) {
    let mut lines = paper.of(Place::Label);
    if lines.len() == 1 {
        put_label_line(paper, b"", b"");
        put_count(paper, Place::Label, 2);
        lines = paper.of(Place::Label);
    }
    let Some(&line) = lines.last() else { return };
    let name = match paper.lines[lines[0]].1.first() {
        Some(first) if rng.chance(60) => first.clone(),
        _ => odd_name(rng),
    };
    let own = letters_of(paper);
    let undefined: Vec<u8> = (b'a'..=b'z').filter(|letter| !own.contains(letter)).collect();
    let label = match rng.below(10) {
        0..=1 => vec![rng.pick(&undefined)],
        2 => vec![rng.pick(&undefined); 2],
        _ => odd_label(rng, &own),
    };
    let mut fields = vec![name, label];
    if rng.chance(15) {
        fields.push(vec![]);
    }
    paper.lines[line].1 = fields;
}

fn change_label_fields(rng: &mut Rng, paper: &mut Paper) {
    let place = paper.lines.len() - 1 - rng.below(1 + paper.of(Place::Label).len()).min(paper.lines.len() - 1);
    let fields = &mut paper.lines[place].1;
    match rng.below(4) {
        0 => fields.push(b"-".to_vec()),
        1 => fields.insert(0, vec![]),
        2 => drop(fields.pop()),
        _ => fields.clear(),
    }
}

/// The section of labels before that of the reactions, or before the rules, or in the place of the reactions.
fn move_labels(rng: &mut Rng, paper: &mut Paper) {
    let labels = split_section(paper, b"cases");
    let reactions = split_section(paper, b"reactions");
    match rng.below(4) {
        0..=1 => paper.lines.extend(labels),
        2 => paper.lines.extend([labels, reactions].concat()),
        _ => {
            let rules = split_section(paper, b"rules");
            paper.lines.extend([labels, rules, reactions].concat());
        }
    }
}

/// The start's own line with a label other than `-`, and its count.
fn label_start(rng: &mut Rng, paper: &mut Paper) {
    let (names, letters) = (names_of(paper), letters_of(paper));
    let Some(start) = names.first() else { return };
    let label = label_bytes(rng, &letters);
    let own = |line: &&usize| paper.lines[**line].1.first() == Some(start);
    match paper.of(Place::Label).iter().find(own) {
        Some(&line) => paper.lines[line].1 = vec![start.clone(), label],
        None => {
            let lines = paper.of(Place::Label);
            let place = if lines.is_empty() { paper.lines.len() } else { rng.pick(&lines) };
            paper.lines.insert(place, (Place::Label, vec![start.clone(), label]));
            put_count(paper, Place::Label, lines.len() as i64 + 1);
        }
    }
}

/// A label that may lack something: a letter less, another sign, or other letters.
fn unsettle_label(rng: &mut Rng, paper: &mut Paper, place: Place, field: usize) {
    let letters = letters_of(paper);
    let lines: Vec<usize> = paper.of(place).into_iter().filter(|&line| paper.lines[line].1.len() > field).collect();
    let long: Vec<usize> = lines.iter().copied().filter(|&line| paper.lines[line].1[field].len() > 1).collect();
    if lines.is_empty() {
        return;
    }
    let line = if long.is_empty() || rng.chance(30) { rng.pick(&lines) } else { rng.pick(&long) };
    let old = paper.lines[line].1[field].clone();
    let mut signed: Vec<Vec<u8>> = vec![];
    old.iter().for_each(|&byte| match signed.last_mut() {
        Some(last) if last == b"!" => last.push(byte),
        _ => signed.push(vec![byte]),
    });
    let letter = rng.below(signed.len().max(1));
    match rng.below(3) {
        0 if signed.len() > 1 => drop(signed.remove(letter)),
        1 if old != b"-" && !signed.is_empty() => match signed[letter].strip_prefix(b"!") {
            Some(rest) => signed[letter] = rest.to_vec(),
            None => signed[letter].insert(0, b'!'),
        },
        _ => signed = vec![label_bytes(rng, &letters)],
    }
    paper.lines[line].1[field] = signed.concat();
}

fn damage_bytes(rng: &mut Rng, bytes: &mut Vec<u8>) {
    match rng.below(12) {
        0..=2 => change_byte(rng, bytes),
        3 => append_bytes(rng, bytes),
        4 => all_lines_end_in_crlf(bytes),
        5 => drop(bytes.pop()),
        6 => bytes.truncate(rng.below(bytes.len() + 1)),
        7..=8 => pad(rng, bytes),
        9 => bytes.clear(),
        10 => insert_line_feed(rng, bytes),
        _ => append_bytes(rng, bytes),
    }
}

fn some_byte(rng: &mut Rng) -> u8 {
    if rng.chance(50) { rng.pick(b",\n!-0159 apz\r\0\x7f\x80\xff") } else { rng.below(256) as u8 }
}

/// A byte changed, removed or inserted.
pub fn change_byte(rng: &mut Rng, bytes: &mut Vec<u8>) {
    let byte = some_byte(rng);
    if bytes.is_empty() {
        return bytes.push(byte);
    }
    let place = rng.below(bytes.len());
    match rng.below(3) {
        0 => bytes[place] = byte,
        1 => drop(bytes.remove(place)),
        _ => bytes.insert(place, byte),
    }
}

/// Bytes behind the end: behind the rules they begin the section of reactions, behind it that of labels, and behind
/// that there is nothing.
fn append_bytes(rng: &mut Rng, bytes: &mut Vec<u8>) {
    const TEXTS: [&str; 30] = [
        "\n", "\n", "\n\n", " ", "x", "\r\n", "\0", "max,start,start,0,-\n", "rules,0\n", "reactions,0\n",
        "reactions,0", "reactions,0\n\n", "reactions,0\nx", "reactions,0\nreactions,0\n", "reactions,00\n",
        "reactions\n", "cases,0\n", "cases,0\n", "cases,0", "cases\n", "cases,1\n", "cases,0\n\n",
        "reactions,0\ncases,0\n", "reactions,0\ncases,0\n\n", "reactions,0\ncases,0\nx", "reactions,0\ncases,17\n",
        "reactions,0\ncases,0\ncases,0\n", "reactions,0\ncases,00\n", "reactions,0\ncases,1\nstart,-\n",
        "reactions,0\ncase,0\n",
    ];
    bytes.extend_from_slice(rng.pick(&TEXTS).as_bytes());
}

fn all_lines_end_in_crlf(bytes: &mut Vec<u8>) {
    *bytes = bytes.iter().flat_map(|&byte| if byte == b'\n' { vec![b'\r', b'\n'] } else { vec![byte] }).collect();
}

fn insert_line_feed(rng: &mut Rng, bytes: &mut Vec<u8>) {
    let place = rng.below(bytes.len() + 1);
    bytes.insert(place, b'\n');
}

/// Lengths at the edge of refusal 1: padded behind the end, or within a number.
fn pad(rng: &mut Rng, bytes: &mut Vec<u8>) {
    let length = rng.pick(&[4_095, 4_096, 4_097, 4_098, 5_000]);
    let missing = usize::saturating_sub(length, bytes.len());
    if rng.chance(50) || bytes.len() < 9 {
        let byte = rng.pick(b"\nx");
        bytes.extend(std::iter::repeat(byte).take(missing));
    } else {
        bytes.splice(8..8, std::iter::repeat(b'1').take(missing));
    }
}

// ---------------------------------------------------------------- Tables

/// A table as the bench hands it in: "two bytes a minute, low byte first".
pub fn bytes_of(table: &[u16]) -> Vec<u8> {
    table.iter().flat_map(|minute| minute.to_le_bytes()).collect()
}

/// The bytes of a table for an accepted sheet; `solved` is its least good table, if it has one.
pub fn table(rng: &mut Rng, net: &Net, solved: Option<&[u16]>) -> Vec<u8> {
    let hasty = if net.is_slow() && rng.chance(20) { model::solve(&hastened(net)) } else { None };
    let mut table = match (hasty, solved) {
        (Some(hasty), _) => hasty,
        (_, Some(solved)) if rng.chance(65) => solved.to_vec(),
        _ if rng.chance(70) => heard_table(rng, net),
        _ => random_table(rng, net),
    };
    if net.is_slow() && rng.chance(30) {
        act_about_when_known(rng, net, &mut table);
    }
    if net.is_labelled() && rng.chance(35) {
        (0..rng.between(1, 2)).for_each(|_| misplace_blank(rng, net, &mut table));
    }
    match rng.below(16) {
        0..=2 => {}
        3..=5 => nudge_cell(rng, &mut table),
        6 => change_cell(rng, net, &mut table),
        7 => edge_cell(rng, net, &mut table),
        8 => nudge_event(rng, net, &mut table),
        9..=12 => table = far_breach(rng, net, &table),
        13 => change_length(rng, &mut table),
        _ => {}
    }
    let mut bytes = bytes_of(&table);
    if rng.chance(6) {
        make_odd(rng, &mut bytes);
    }
    bytes
}

/// The same procedure, with each signal trusted after a minute: its tables may be too quick for the sheet's reactions.
fn hastened(net: &Net) -> Net {
    let mut hastened = net.clone();
    hastened.signals.iter_mut().for_each(|signal| signal.reaction = 1);
    hastened
}

/// A cell without its event filled, one with it blank, or one too soon for a signal in its label, or just in time, or
/// with nothing of that signal to wait for.
fn misplace_blank(rng: &mut Rng, net: &Net, table: &mut [u16]) {
    let cells: Vec<(usize, usize)> =
        (0..net.cases()).flat_map(|case| (0..net.events.len()).map(move |event| (case, event))).collect();
    let (here, absent): (Vec<_>, Vec<_>) = cells.into_iter().partition(|&(case, event)| net.happens(case, event));
    let waiting: Vec<_> = here.iter().copied().filter(|&(_, event)| !net.labels[event].is_empty()).collect();
    match rng.below(8) {
        0..=2 if !absent.is_empty() => {
            let ((case, event), other) = (rng.pick(&absent), rng.pick(&here));
            let minutes = [0, net.horizon as u16, table[net.cell(other.0, other.1)], 65_534, random_minute(rng, net)];
            table[net.cell(case, event)] = rng.pick(&minutes);
        }
        0..=3 => {
            let (case, event) = rng.pick(&here);
            table[net.cell(case, event)] = BLANK;
        }
        4 if !absent.is_empty() => {
            let (_, event) = rng.pick(&absent);
            let minute = random_minute(rng, net);
            (0..net.cases()).for_each(|case| table[net.cell(case, event)] = minute);
        }
        5 if !waiting.is_empty() => {
            let (case, event) = rng.pick(&waiting);
            let (signal, _) = rng.pick(&net.labels[event]);
            table[net.cell(case, net.signals[signal].event)] = BLANK;
        }
        _ if !waiting.is_empty() => {
            let (_, event) = rng.pick(&waiting);
            let (signal, _) = rng.pick(&net.labels[event]);
            let off = rng.pick(&[-1, -1, 0, 0, 1]);
            for case in (0..net.cases()).filter(|&case| net.happens(case, event)) {
                let known = i64::from(table[net.cell(case, net.signals[signal].event)]) + net.signals[signal].reaction;
                table[net.cell(case, event)] = (known + off).clamp(0, 65_535) as u16;
            }
        }
        _ => {}
    }
}

/// Moves an event, where a signal is true, to the minute at which the signal counts there, or to one of its
/// neighbours, and leaves it or moves it to a later minute where the signal is false. Cells without the event, or
/// without the signal, are left alone.
fn act_about_when_known(rng: &mut Rng, net: &Net, table: &mut [u16]) {
    let (signal, event) = (rng.below(net.signals.len()), rng.below(net.events.len()));
    let (off, wait) = (rng.pick(&[-1, -1, 0, 0, 1]), rng.pick(&[0, 0, 1, 5]));
    let (truth, given) = (rng.chance(50), net.signals[signal].event);
    for case in (0..net.cases()).filter(|&case| net.happens(case, event) && net.happens(case, given)) {
        let known = i64::from(table[net.cell(case, given)]) + net.signals[signal].reaction;
        let cell = &mut table[net.cell(case, event)];
        match model::truth(case, signal) == truth {
            true => *cell = (known + off).clamp(0, 65_535) as u16,
            false if wait > 0 => *cell = (known + wait).clamp(0, 65_535) as u16,
            false => {}
        }
    }
}

/// A table whose minutes mostly have five digits, whatever the sheet says; some have 65,535 in any cells.
pub fn wide_table(rng: &mut Rng, net: &Net) -> Vec<u16> {
    let (least, percent) = (rng.pick(&[0, 9_990, 10_000, 65_000, 65_530]), rng.pick(&[0, 0, 0, 1, 10, 60]));
    let minute = |rng: &mut Rng| if rng.chance(percent) { BLANK } else { rng.between(least, 65_534) as u16 };
    (0..net.cells()).map(|_| minute(rng)).collect()
}

/// Any bytes, for a sheet that is refused.
pub fn any_bytes(rng: &mut Rng) -> Vec<u8> {
    (0..rng.below(80)).map(|_| rng.next() as u8).collect()
}

fn random_minute(rng: &mut Rng, net: &Net) -> u16 {
    let most = if rng.chance(50) { net.horizon } else { net.horizon.min(4) };
    rng.between(0, most) as u16
}

fn random_table(rng: &mut Rng, net: &Net) -> Vec<u16> {
    let (start_is_0, blanks) = (rng.chance(80), rng.chance(80));
    let events = net.events.len();
    let minute = |cell: usize, rng: &mut Rng| match cell % events {
        0 if start_is_0 => 0,
        event if blanks && !net.happens(cell / events, event) => BLANK,
        _ => random_minute(rng, net),
    };
    (0..net.cells()).map(|cell| minute(cell, rng)).collect()
}

/// A table that keeps points 1 and 3, whatever the rules say, unless labels ask for more than the horizon has: each
/// signal has one minute in all cases that have it, and each other event has a minute that depends on earlier signals
/// only. Labels are waited for.
fn heard_table(rng: &mut Rng, net: &Net) -> Vec<u16> {
    let mut minutes = vec![0];
    minutes.extend((1..net.events.len()).map(|_| i64::from(random_minute(rng, net))));
    for _ in 0..net.signals.len() {
        for event in 1..net.events.len() {
            let givers = net.labels[event].iter().map(|letter| &net.signals[letter.0]);
            let known = givers.map(|signal| minutes[signal.event] + signal.reaction);
            minutes[event] = known.fold(minutes[event], i64::max);
        }
    }
    let mut table: Vec<i64> = (0..net.cells()).map(|cell| minutes[cell % net.events.len()]).collect();
    for event in 1..net.events.len() {
        if net.signals.iter().all(|signal| signal.event != event) && rng.chance(60) {
            put_off(rng, net, &minutes, &mut table, event);
        }
    }
    model::with_blanks(net, &table)
}

/// Moves an event to later minutes in cases that earlier signals tell apart, each where it is given.
fn put_off(rng: &mut Rng, net: &Net, minutes: &[i64], table: &mut [i64], event: usize) {
    let known = |signal: usize| minutes[net.signals[signal].event] + net.signals[signal].reaction;
    let heard = |case: usize, signal: usize| known(signal) <= minutes[event] && net.gives(case, signal);
    let room = (net.horizon - minutes[event]).max(0);
    let waits: Vec<i64> = (0..net.cases()).map(|_| rng.between(0, room.min(3))).collect();
    for case in 0..net.cases() {
        let mask: usize = (0..net.signals.len()).filter(|&signal| heard(case, signal)).map(|signal| 1 << signal).sum();
        table[net.cell(case, event)] += waits[case & mask];
    }
}

fn nudge_cell(rng: &mut Rng, table: &mut [u16]) {
    let cell = rng.below(table.len());
    table[cell] = if rng.chance(50) { table[cell].saturating_add(1) } else { table[cell].saturating_sub(1) };
}

fn change_cell(rng: &mut Rng, net: &Net, table: &mut [u16]) {
    let cell = rng.below(table.len());
    table[cell] = random_minute(rng, net);
}

/// The horizon, one beyond it, 65,535 and its neighbours.
fn edge_cell(rng: &mut Rng, net: &Net, table: &mut [u16]) {
    let horizon = net.horizon as u16;
    let cell = rng.below(table.len());
    table[cell] = rng.pick(&[horizon, horizon, horizon + 1, 65_535, 65_534, 32_768, 256, 10_081]);
}

/// One event a minute later in all cases.
fn nudge_event(rng: &mut Rng, net: &Net, table: &mut [u16]) {
    let event = rng.below(net.events.len());
    for case in 0..net.cases() {
        let cell = net.cell(case, event);
        table[cell] = table[cell].saturating_add(1);
    }
}

/// A table near this one whose first breach stands between cases that differ in two signals or more, if a few trials find one.
fn far_breach(rng: &mut Rng, net: &Net, table: &[u16]) -> Vec<u16> {
    let mut near = table.to_vec();
    for _ in 0..8 {
        near = table.to_vec();
        for _ in 0..rng.between(1, 2) {
            nudge_cell(rng, &mut near);
        }
        match model::judge(net, &near) {
            Verdict::Unheard { s, r, .. } if (s ^ r).count_ones() >= 2 => return near,
            _ => {}
        }
    }
    near
}

fn change_length(rng: &mut Rng, table: &mut Vec<u16>) {
    let length = table.len();
    table.resize(rng.pick(&[length - 1, length + 1, 0, 2 * length, length + 7, length / 2]), 0);
}

fn make_odd(rng: &mut Rng, bytes: &mut Vec<u8>) {
    if rng.chance(50) || bytes.is_empty() {
        bytes.push(0);
    } else {
        bytes.pop();
    }
}

// ---------------------------------------------------------------- Questions to the player

/// A minute to ask about: one that the table has, or at which a signal counts in it; one next to it or with another
/// high byte; an edge; or any.
pub fn minute(rng: &mut Rng, net: Option<&Net>, table: &[u16]) -> u16 {
    let near = match net {
        _ if table.is_empty() => 0,
        Some(net) if !net.signals.is_empty() && rng.chance(35) => minute_known(rng, net, table),
        _ => rng.pick(table),
    };
    match rng.below(20) {
        0..=8 => near,
        9..=13 => near.saturating_add(1),
        14..=15 => near.saturating_sub(1),
        16 => near ^ 256,
        17..=18 => rng.pick(&[0, 1, 10_080, 10_081, 65_535]),
        _ => rng.next() as u16,
    }
}

/// The minute at which a signal counts in some case. A table of another length has minute 0 for what it lacks.
fn minute_known(rng: &mut Rng, net: &Net, table: &[u16]) -> u16 {
    let (case, signal) = (rng.below(net.cases()), &net.signals[rng.below(net.signals.len())]);
    let given = table.get(net.cell(case, signal.event)).copied().unwrap_or(0);
    given.saturating_add(signal.reaction as u16)
}

/// A text of signals heard: what some case has heard before the minute, in any order; or that with something done to the list or to the text.
/// There is no network where the sheet is refused.
pub fn heard(rng: &mut Rng, net: Option<&Net>, table: &[u16], minute: u16) -> Vec<u8> {
    let own: Vec<u8> = net.map_or(vec![], |net| net.signals.iter().map(|signal| signal.letter).collect());
    let mut list = net.map_or(vec![], |net| history(rng, net, table, minute));
    if rng.chance(30) {
        damage_list(rng, &own, &mut list);
    }
    let mut text = letters_text(&rng.shuffled(&list)).into_bytes();
    if text.is_empty() && rng.chance(50) {
        text.push(b'-');
    }
    if rng.chance(20) {
        damage_heard(rng, &own, &mut text);
    }
    text
}

/// What some case has heard before the minute, or at times before the one after it or the one before it, or what one
/// would have heard that trusts each signal after a minute. A table of another length has minute 0 for what it lacks.
fn history(rng: &mut Rng, net: &Net, table: &[u16], minute: u16) -> Vec<(u8, bool)> {
    let case = rng.below(net.cases());
    let at = i64::from(minute) + rng.pick(&[1, 1, -1, 0, 0, 0, 0, 0, 0, 0, 0, 0, 0, 0, 0, 0, 0, 0, 0, 0]);
    let hasty = rng.chance(10);
    let given = |event: usize| i64::from(table.get(net.cell(case, event)).copied().unwrap_or(0));
    let known = |signal: &model::Signal| given(signal.event) + if hasty { 1 } else { signal.reaction };
    let all = net.signals.iter().enumerate().filter(|(_, signal)| known(signal) <= at);
    all.map(|(place, signal)| (signal.letter, model::truth(case, place))).collect()
}

/// A signal more or less, another truth, or a letter a second time; `own` are the sheet's letters.
fn damage_list(rng: &mut Rng, own: &[u8], list: &mut Vec<(u8, bool)>) {
    let place = rng.below(list.len().max(1));
    let letter = if own.is_empty() || rng.chance(40) { b'a' + rng.below(26) as u8 } else { rng.pick(own) };
    match rng.below(5) {
        0..=1 => list.push((letter, rng.chance(50))),
        _ if list.is_empty() => {}
        2 => drop(list.remove(place)),
        3 => list[place].1 = !list[place].1,
        _ => list.push((list[place].0, rng.chance(50))),
    }
}

/// A text that most often is ill-formed.
fn damage_heard(rng: &mut Rng, own: &[u8], text: &mut Vec<u8>) {
    match rng.below(8) {
        0..=1 => *text = odd_label(rng, own),
        2 => change_byte(rng, text),
        3 => text.push(rng.pick(b"!- \n\r\0,1")),
        4 => text.insert(0, rng.pick(b"!- \n\0")),
        5 => text.make_ascii_uppercase(),
        6 => *text = text.repeat(rng.pick(&[2, 26, 256])),
        _ => *text = any_bytes(rng),
    }
}

// ---------------------------------------------------------------- Listings to be read back

/// The files of the program `judge`: most often an accepted sheet and a listing for it; at times one or both are
/// missing, longer than any that is read, or exchanged.
pub fn files(rng: &mut Rng) -> Files {
    let sheet = if rng.chance(75) { valid(rng).bytes() } else { table_sheet(rng) };
    let net = model::read(&sheet).ok();
    let solved = net.as_ref().and_then(model::solve);
    let listing = listing(rng, &sheet, net.as_ref(), solved.as_deref());
    let mut files = Files { sheet: Some(sheet), listing: Some(listing) };
    match rng.below(40) {
        0 => files.sheet = None,
        1 => files.listing = None,
        2 => files = Files { sheet: None, listing: None },
        3 => lengthen(rng, files.sheet.as_mut().expect("a sheet")),
        4 => lengthen(rng, files.listing.as_mut().expect("a listing")),
        5 => files = Files { sheet: files.listing, listing: files.sheet },
        _ => {}
    }
    files
}

/// A listing for a sheet that was accepted, or for one that was refused; `solved` is its least good table, if it has
/// one: printed, damaged, or of another sheet.
pub fn listing(rng: &mut Rng, sheet: &[u8], net: Option<&Net>, solved: Option<&[u16]>) -> Vec<u8> {
    let Some(net) = net else { return stray_listing(rng) };
    let table = printed_table(rng, net, solved);
    let text = model::listing(sheet, net, &table);
    match rng.below(100) {
        0..=41 => text,
        42..=43 => stray_listing(rng),
        44..=46 => listing_of_less(rng, sheet, net),
        47..=48 => {
            let mut text = text;
            lengthen(rng, &mut text);
            text
        }
        _ => damaged_listing(rng, text),
    }
}

/// A listing of another sheet, or nothing, or any bytes.
pub fn stray_listing(rng: &mut Rng) -> Vec<u8> {
    match rng.below(6) {
        0 => vec![],
        1 => any_bytes(rng),
        _ => {
            let other = valid(rng).bytes();
            let net = model::read(&other).expect("a valid sheet");
            let mut text = model::listing(&other, &net, &wide_table(rng, &net));
            if rng.chance(20) {
                lengthen(rng, &mut text);
            }
            text
        }
    }
}

/// A listing of the same sheet without its last event, or without its last signal, as far as it has two events or one
/// signal.
fn listing_of_less(rng: &mut Rng, sheet: &[u8], net: &Net) -> Vec<u8> {
    let mut less = net.clone();
    if rng.chance(50) && less.events.len() > 1 {
        less.events.pop();
    } else {
        less.signals.pop();
    }
    let table: Vec<u16> = (0..less.cells()).map(|_| rng.below(100) as u16).collect();
    model::listing(sheet, &less, &table)
}

/// A table to be printed: the least good one, one near to it or otherwise of this sheet, or any minutes to 65,535.
fn printed_table(rng: &mut Rng, net: &Net, solved: Option<&[u16]>) -> Vec<u16> {
    match (rng.below(16), solved) {
        (0..=3, Some(solved)) => solved.to_vec(),
        (0..=12, _) => {
            let (bytes, minute) = (table(rng, net, solved), |pair: &[u8]| u16::from_le_bytes([pair[0], pair[1]]));
            let mut minutes: Vec<u16> = bytes.chunks_exact(2).map(minute).collect();
            minutes.resize(net.cells(), 0);
            minutes
        }
        (13, _) => {
            let mut near = solved.map_or_else(|| heard_table(rng, net), <[u16]>::to_vec);
            (0..rng.between(1, 2)).for_each(|_| edge_cell(rng, net, &mut near));
            near
        }
        (14, _) => wide_table(rng, net),
        _ => (0..net.cells()).map(|_| rng.next() as u16 >> rng.below(16)).collect(),
    }
}

/// A listing cut into lines and fields.
type Rows = Vec<Vec<Vec<u8>>>;

fn rows_of(text: &[u8]) -> Rows {
    let lines = text.split_inclusive(|&byte| byte == b'\n').map(|line| line.strip_suffix(b"\n").unwrap_or(line));
    lines.map(|line| line.split(|&byte| byte == b',').map(<[u8]>::to_vec).collect()).collect()
}

fn text_of_rows(rows: &Rows) -> Vec<u8> {
    rows.iter().flat_map(|row| [row.join(&b","[..]), b"\n".to_vec()].concat()).collect()
}

/// A printed listing with one or two things done to it; most of them are refused.
fn damaged_listing(rng: &mut Rng, text: Vec<u8>) -> Vec<u8> {
    let mut rows = rows_of(&text);
    match rng.below(20) {
        0..=2 => damage_header(rng, &mut rows),
        3..=4 => move_rows(rng, &mut rows),
        5..=11 => damage_one_row(rng, &mut rows),
        12..=14 => damage_two_rows(rng, &mut rows),
        _ => {
            let mut bytes = text;
            (0..rng.between(1, 2)).for_each(|_| damage_listing_bytes(rng, &mut bytes));
            return bytes;
        }
    }
    let mut bytes = text_of_rows(&rows);
    if rng.chance(10) {
        damage_listing_bytes(rng, &mut bytes);
    }
    bytes
}

/// The header with names exchanged, missing, doubled or misspelt, or with another first word or end.
fn damage_header(rng: &mut Rng, rows: &mut Rows) {
    let header = &mut rows[0];
    let names = header.len() - 1;
    let (one, two) = (1 + rng.below(names), 1 + rng.below(names));
    match rng.below(11) {
        0..=1 if names > 1 => header.swap(one, if one == two { 1 + one % names } else { two }),
        2 => drop(header.remove(if rng.chance(50) { one } else { names })),
        3 => header.insert(one, header[two].clone()),
        4 => header.push(rng.pick(&["", "a", "zz"]).as_bytes().to_vec()),
        5 => header[one] = if rng.chance(50) { odd_name(rng) } else { with_high_bit(rng, &header[one]) },
        6 => header[one].make_ascii_uppercase(),
        7 => header[0] = rng.pick(&["Case", "cases", "", "cas", " case", "case ", "CASE"]).as_bytes().to_vec(),
        8 => header.last_mut().expect("a name").push(rng.pick(b"\r\r \0,")),
        _ => misspell(rng, &mut header[one]),
    }
}

/// A letter of a name changed, lost or added.
fn misspell(rng: &mut Rng, name: &mut Vec<u8>) {
    let place = rng.below(name.len());
    let letter = rng.pick(b"abcxyz019");
    match rng.below(4) {
        0 => name[place] = letter,
        1 => drop(name.remove(place)),
        2 => name.push(letter),
        _ => name[place] ^= 128,
    }
}

/// Rows exchanged, doubled, missing or one more; the header may be among them.
fn move_rows(rng: &mut Rng, rows: &mut Rows) {
    let cases = rows.len() - 1;
    let (one, two) = (1 + rng.below(cases), 1 + rng.below(cases));
    match rng.below(10) {
        0..=1 if cases > 1 => rows.swap(one, if one == two { 1 + one % cases } else { two }),
        2 => rows.insert(one, rows[one].clone()),
        3 => rows.push(rows[two].clone()),
        4 => drop(rows.remove(one)),
        5 => drop(rows.pop()),
        6 => rows.truncate(rng.below(rows.len())),
        7 => rows.insert(rng.below(rows.len() + 1), vec![vec![]]),
        8 => rows.swap(0, one),
        _ => rows.extend(rows.clone()),
    }
}

/// One row with something wrong: a minute, its mark, or its count of fields; at times two of them.
fn damage_one_row(rng: &mut Rng, rows: &mut Rows) {
    let row = 1 + rng.below(rows.len() - 1);
    match rng.below(12) {
        0..=7 => put_minute(rng, &mut rows[row]),
        8..=9 => put_mark(rng, &mut rows[row]),
        10 => change_row_fields(rng, &mut rows[row]),
        _ => {
            put_minute(rng, &mut rows[row]);
            if rng.chance(50) { put_mark(rng, &mut rows[row]) } else { change_row_fields(rng, &mut rows[row]) }
        }
    }
}

/// A minute at fault in one row, and in any row something that is tried before it or after it: "18 is tried over the
/// whole listing first".
fn damage_two_rows(rng: &mut Rng, rows: &mut Rows) {
    let (one, two) = (1 + rng.below(rows.len() - 1), 1 + rng.below(rows.len() - 1));
    put_minute(rng, &mut rows[one]);
    match rng.below(6) {
        0..=1 => put_minute(rng, &mut rows[two]),
        2 => put_mark(rng, &mut rows[two]),
        3 => change_row_fields(rng, &mut rows[two]),
        4 => rows.push(rows[two].clone()),
        _ => drop(rows.pop()),
    }
}

/// A field written anew, at times one with a `-`.
fn put_minute(rng: &mut Rng, row: &mut [Vec<u8>]) {
    if row.len() > 1 {
        let dashes: Vec<usize> = (1..row.len()).filter(|&field| row[field] == b"-").collect();
        let dash = !dashes.is_empty() && rng.chance(40);
        let field = if dash { rng.pick(&dashes) } else { 1 + rng.below(row.len() - 1) };
        row[field] = if dash && rng.chance(50) { b"65535".to_vec() } else { odd_minute(rng, &row[field]) };
    }
}

/// A minute that most often is ill-formed, negative or over 65,534; some are made of the one that stood there. A lone
/// `-` is the only way to write 65,535.
fn odd_minute(rng: &mut Rng, old: &[u8]) -> Vec<u8> {
    const MINUTES: [&str; 44] = [
        "05", "00", "-0", "-0", "+5", "-5", "-1", "-", "-", "-", "--", " -", "- ", "", "", " ", "--5", "5-", "1.0",
        "1e3", "0x5", "T", "65535", "65535", "65535", "65534", "65536", "65536", "65537", "65541", "70000", "99999",
        "100000", "131072", "655350", "-65535", "-65536", "4294967296", "5:", "65:35", "/5", "5\0", "\u{ff15}",
        "\u{663}",
    ];
    let value: u128 = String::from_utf8_lossy(old).parse().unwrap_or(5);
    let (before, behind) = (rng.pick(b"000--++ \t\0"), rng.pick(b"  \r\r::\0x,"));
    match rng.below(20) {
        0..=3 => [&[before][..], old].concat(),
        4 => [old, &[behind][..]].concat(),
        5 => (value + 65_536).to_string().into_bytes(),
        6 => (value + (1 << 32)).to_string().into_bytes(),
        7 => (value + (1 << 64)).to_string().into_bytes(),
        8 => rng.pick(&["4", "9", "10"]).repeat(rng.pick(&[20, 40, 300])).into_bytes(),
        9 => with_high_bit(rng, old),
        10 => vec![rng.below(256) as u8],
        _ => rng.pick(&MINUTES).as_bytes().to_vec(),
    }
}

/// The same with a byte over 127, which an ASCII reader might take for another.
fn with_high_bit(rng: &mut Rng, field: &[u8]) -> Vec<u8> {
    let mut field = field.to_vec();
    let place = rng.below(field.len().max(1));
    field.iter_mut().skip(place).take(1).for_each(|byte| *byte |= 128);
    field
}

/// Another mark: in lower case, with another truth, of another length, `-` for letters or letters for `-`.
fn put_mark(rng: &mut Rng, row: &mut [Vec<u8>]) {
    let mark = &mut row[0];
    let place = rng.below(mark.len().max(1));
    match rng.below(9) {
        0..=1 if mark == b"-" => *mark = rng.pick(&["", "", "F", "T"]).as_bytes().to_vec(),
        0..=1 => mark.make_ascii_lowercase(),
        2 if !mark.is_empty() => mark[place] = rng.pick(b"FT-ft01\0"),
        3 => mark.push(rng.pick(b"FT- \r\0")),
        4 => drop(mark.pop()),
        5 => mark.reverse(),
        6 => mark.clear(),
        7 => *mark = b"-".to_vec(),
        8 => *mark = rng.pick(&["F", "T", "FF", "FT", "TF", "TT", "TTTTT", " -", "--"]).as_bytes().to_vec(),
        _ => mark.insert(0, rng.pick(b"FT \0")),
    }
}

fn change_row_fields(rng: &mut Rng, row: &mut Vec<Vec<u8>>) {
    match rng.below(6) {
        0 => row.push(vec![]),
        1 => row.push(b"0".to_vec()),
        2 => row.insert(1, b"0".to_vec()),
        3 => drop(row.remove(0)),
        4 => row.truncate(1),
        _ => drop(row.pop()),
    }
    if row.is_empty() {
        row.push(vec![]);
    }
}

fn damage_listing_bytes(rng: &mut Rng, bytes: &mut Vec<u8>) {
    match rng.below(20) {
        0..=3 => change_behind_header(rng, bytes),
        4..=5 => change_byte(rng, bytes),
        6..=7 => one_line_ends_in_crlf(rng, bytes),
        8 => all_lines_end_in_crlf(bytes),
        9..=10 => drop(bytes.pop()),
        11 => bytes.truncate(rng.below(bytes.len() + 1)),
        12 => bytes.clear(),
        13 => insert_line_feed(rng, bytes),
        14..=15 => bytes.extend_from_slice(rng.pick(&["\n", "\n", "\r\n", " ", "\0", "x", "-,0\n", "T"]).as_bytes()),
        16 => swap_bytes(rng, bytes),
        17 => *bytes = with_high_bit(rng, bytes),
        _ => pad_listing(rng, bytes),
    }
}

/// A byte of a case's line changed, removed or inserted.
fn change_behind_header(rng: &mut Rng, bytes: &mut Vec<u8>) {
    let header = bytes.iter().position(|&byte| byte == b'\n').map_or(0, |feed| feed + 1);
    let mut rows = bytes.split_off(header);
    change_byte(rng, &mut rows);
    bytes.extend(rows);
}

fn one_line_ends_in_crlf(rng: &mut Rng, bytes: &mut Vec<u8>) {
    let feeds: Vec<usize> = (0..bytes.len()).filter(|&place| bytes[place] == b'\n').collect();
    if !feeds.is_empty() {
        bytes.insert(rng.pick(&feeds), b'\r');
    }
}

fn swap_bytes(rng: &mut Rng, bytes: &mut [u8]) {
    if bytes.len() > 1 {
        let place = rng.below(bytes.len() - 1);
        bytes.swap(place, place + 1);
    }
}

/// Lengths at the edge of 4,096 bytes: padded within a minute, within the header, or behind the end; at times with a
/// byte behind the last line besides.
fn pad_listing(rng: &mut Rng, bytes: &mut Vec<u8>) {
    let length: usize = rng.pick(&[4_095, 4_096, 4_096, 4_096, 4_097, 4_097, 4_098, 5_000]);
    if rng.chance(25) {
        bytes.push(rng.pick(b"\nx0"));
    }
    let missing = length.saturating_sub(bytes.len());
    let commas: Vec<usize> = (0..bytes.len()).filter(|&place| bytes[place] == b',').collect();
    match rng.below(4) {
        0 => bytes.extend(std::iter::repeat(rng.pick(b"\nx0")).take(missing)),
        _ if commas.is_empty() => bytes.resize(length, b','),
        _ => {
            let place = if rng.chance(50) { commas[commas.len() - 1] } else { rng.pick(&commas) } + 1;
            bytes.splice(place..place, std::iter::repeat(b'1').take(missing));
        }
    }
}

/// A file, or a listing, that is longer than any that is read, the same bytes first: just too long, or so long that a
/// length of 16 bits would forget it.
fn lengthen(rng: &mut Rng, bytes: &mut Vec<u8>) {
    let length = rng.pick(&[4_097, 4_097, 4_098, 5_000, 8_192, 8_193, 65_536 + bytes.len()]);
    let byte = rng.pick(b"\nx0");
    bytes.resize(length.max(bytes.len()), byte);
}
