//! What the library does, in plain Rust, for comparison: the same checks in the same order, the same compiled form, the same rounds.
//! No allocation and no `unsafe`. `read`, `compile` and `rounds` are kept as functions, so that callgrind shows each.

use std::array;

pub const EVENTS: usize = 16;
pub const SIGNALS: usize = 4;
pub const RULES: usize = 64;
pub const SCENARIOS: usize = 1 << SIGNALS;
/// The latest horizon, and the size of the largest limit.
pub const HORIZON: i32 = 10_080;
const SHEET_MOST: usize = 4096;
const NAME_MOST: usize = 8;
/// The most minutes until a signal counts.
const REACTION_MOST: i32 = 60;
/// The most fields that a line has.
const FIELDS: usize = 5;
/// A constraint has one bound, and an event one for each letter of its label.
const BOUNDS: usize = RULES + EVENTS * SIGNALS;
/// What a cell holds whose event does not happen in its scenario.
pub const BLANK: u16 = u16::MAX;
/// Later than any known time: when a proposition is known that is not given.
const NEVER: u16 = 32_767;

// ---------------------------------------------------------------- The sheet

#[derive(Clone, Copy)]
pub enum Kind {
    Max,
    Min,
}

/// The sum of the weights of a label's true letters, and that of its false ones.
#[derive(Clone, Copy, PartialEq)]
pub struct Label {
    pub positive: u8,
    pub negative: u8,
}

impl Label {
    const NONE: Label = Label { positive: 0, negative: 0 };

    /// No true letter is false in the scenario, and no false one true. (In bytes, so that many are tested at once.)
    pub fn covers(self, scenario: usize) -> bool {
        let scenario = scenario as u8;
        (self.positive & !scenario) | (self.negative & scenario) == 0
    }

    /// Whether the letter of a proposition stands in the label.
    pub fn mentions(self, proposition: usize) -> bool {
        (self.positive | self.negative) >> proposition & 1 == 1
    }

    /// Whether each letter of the other stands here with the same sign.
    fn includes(self, other: Label) -> bool {
        self.positive & other.positive == other.positive && self.negative & other.negative == other.negative
    }

    /// The letters of both.
    fn join(self, other: Label) -> Label {
        Label { positive: self.positive | other.positive, negative: self.negative | other.negative }
    }
}

#[derive(Clone, Copy)]
pub struct Constraint {
    pub kind: Kind,
    pub from: u8,
    pub to: u8,
    pub label: Label,
    pub limit: i32,
}

/// What a sheet says. Names are parts of the sheet.
pub struct Network<'a> {
    pub horizon: u16,
    events: usize,
    names: [&'a [u8]; EVENTS],
    signals: usize,
    letters: [u8; SIGNALS],
    observations: [u8; SIGNALS],
    reactions: [u16; SIGNALS],
    rules: usize,
    constraints: [Constraint; RULES],
    labels: [Label; EVENTS],
}

impl<'a> Network<'a> {
    fn empty(horizon: u16) -> Self {
        Network {
            horizon,
            events: 0,
            names: [&[]; EVENTS],
            signals: 0,
            letters: [0; SIGNALS],
            observations: [0; SIGNALS],
            reactions: [1; SIGNALS],
            rules: 0,
            constraints: [Constraint { kind: Kind::Max, from: 0, to: 0, label: Label::NONE, limit: 0 }; RULES],
            labels: [Label::NONE; EVENTS],
        }
    }

    pub fn events(&self) -> usize {
        self.events
    }

    pub fn scenarios(&self) -> usize {
        1 << self.signals
    }

    pub fn cells(&self) -> usize {
        self.events * self.scenarios()
    }

    /// The observation event of each proposition.
    pub fn observations(&self) -> &[u8] {
        &self.observations[..self.signals]
    }

    /// The reaction of each proposition: 1, or what its line says.
    pub fn reactions(&self) -> &[u16] {
        &self.reactions[..self.signals]
    }

    pub fn constraints(&self) -> &[Constraint] {
        &self.constraints[..self.rules]
    }

    /// The label of each event: `-`, or what its line says.
    pub fn labels(&self) -> &[Label] {
        &self.labels[..self.events]
    }

    fn event_named(&self, name: &[u8]) -> Option<usize> {
        self.names[..self.events].iter().position(|&known| known == name)
    }

    fn letter_at(&self, letter: u8) -> Option<usize> {
        self.letters[..self.signals].iter().position(|&known| known == letter)
    }
}

/// A refusal: its number and its line.
pub type Refusal = (u8, u16);

/// A line in parts, as its commas cut it; a line with more fields than any place asks counts as one with six.
struct Line<'a> {
    parts: [&'a [u8]; FIELDS + 1],
    count: usize,
}

impl<'a> Line<'a> {
    fn fields(&self) -> &[&'a [u8]] {
        &self.parts[..self.count]
    }
}

struct Lines<'a> {
    rest: &'a [u8],
    /// The number of the line taken last.
    line: u16,
}

impl<'a> Lines<'a> {
    /// The next line, without its line feed. (Inlined, so that its parts are not copied.)
    #[inline(always)]
    fn next(&mut self) -> Result<Line<'a>, Refusal> {
        self.line += 1;
        let rest = self.rest;
        let mut line = Line { parts: [&[]; FIELDS + 1], count: 0 };
        let mut start = 0;
        for (i, &b) in rest.iter().enumerate() {
            if b != b',' && b != b'\n' {
                continue;
            }
            if line.count <= FIELDS {
                line.parts[line.count] = &rest[start..i];
                line.count += 1;
            }
            start = i + 1;
            if b == b'\n' {
                self.rest = &rest[start..];
                return Ok(line);
            }
        }
        Err((2, self.line))
    }

    /// A section's line: its word, and a count from `least` to `most`.
    fn section(&mut self, word: &[u8], least: i32, most: i32) -> Result<i32, Refusal> {
        let line = self.next()?;
        let count = match *line.fields() {
            [first, count] if first == word => number(count, least, most),
            _ => Err(3),
        };
        count.map_err(|number| (number, self.line))
    }
}

/// The network of a sheet, or the refusal of the first line at fault.
#[inline(never)]
pub fn read(sheet: &[u8]) -> Result<Network<'_>, Refusal> {
    if sheet.len() > SHEET_MOST {
        return Err((1, 0));
    }
    let mut lines = Lines { rest: sheet, line: 0 };
    let mut network = Network::empty(lines.section(b"horizon", 0, HORIZON)? as u16);
    for _ in 0..lines.section(b"events", 1, EVENTS as i32)? {
        let line = lines.next()?;
        add_event(&mut network, line.fields()).map_err(|number| (number, lines.line))?;
    }
    for _ in 0..lines.section(b"signals", 0, SIGNALS as i32)? {
        let line = lines.next()?;
        add_signal(&mut network, line.fields()).map_err(|number| (number, lines.line))?;
    }
    for _ in 0..lines.section(b"rules", 0, RULES as i32)? {
        let line = lines.next()?;
        add_rule(&mut network, line.fields()).map_err(|number| (number, lines.line))?;
    }
    if lines.rest.is_empty() {
        return Ok(network);
    }
    let mut slow = 0;
    for _ in 0..lines.section(b"reactions", 0, SIGNALS as i32)? {
        let line = lines.next()?;
        slow |= add_reaction(&mut network, line.fields(), slow).map_err(|number| (number, lines.line))?;
    }
    if lines.rest.is_empty() {
        return Ok(network);
    }
    let mut placed = 0;
    let count = lines.section(b"cases", 0, network.events as i32)?;
    for _ in 0..count {
        let line = lines.next()?;
        placed |= add_label(&mut network, line.fields(), placed).map_err(|number| (number, lines.line))?;
    }
    if count > 0 {
        test_labels(&network).map_err(|number| (number, lines.line))?;
    }
    if !lines.rest.is_empty() {
        return Err((10, lines.line + 1));
    }
    Ok(network)
}

fn add_event<'a>(network: &mut Network<'a>, fields: &[&'a [u8]]) -> Result<(), u8> {
    let &[name] = fields else {
        return Err(3);
    };
    if !is_name(name) {
        return Err(6);
    }
    if network.event_named(name).is_some() {
        return Err(7);
    }
    network.names[network.events] = name;
    network.events += 1;
    Ok(())
}

fn add_signal(network: &mut Network, fields: &[&[u8]]) -> Result<(), u8> {
    let &[letter, event] = fields else {
        return Err(3);
    };
    let &[letter @ b'a'..=b'z'] = letter else {
        return Err(6);
    };
    if !is_name(event) {
        return Err(6);
    }
    let event = network.event_named(event).map(|u| u as u8);
    if network.letter_at(letter).is_some() || event.is_some_and(|u| network.observations().contains(&u)) {
        return Err(7);
    }
    network.letters[network.signals] = letter;
    network.observations[network.signals] = event.ok_or(8)?;
    network.signals += 1;
    Ok(())
}

/// The weight of the proposition, where those of these weights have a line already.
fn add_reaction(network: &mut Network, fields: &[&[u8]], slow: u8) -> Result<u8, u8> {
    let &[letter, minutes] = fields else {
        return Err(3);
    };
    let minutes = number(minutes, 1, REACTION_MOST)?;
    let &[letter @ b'a'..=b'z'] = letter else {
        return Err(6);
    };
    let signal = network.letter_at(letter).ok_or(8)?;
    if slow >> signal & 1 == 1 {
        return Err(7);
    }
    network.reactions[signal] = minutes as u16;
    Ok(1 << signal)
}

/// The bit of the event, where those of these bits have a line already.
fn add_label(network: &mut Network, fields: &[&[u8]], placed: u16) -> Result<u16, u8> {
    let &[name, label] = fields else {
        return Err(3);
    };
    if !is_name(name) || !is_label(label) {
        return Err(6);
    }
    let event = network.event_named(name);
    if event.is_some_and(|u| placed >> u & 1 == 1) {
        return Err(7);
    }
    let event = event.ok_or(8)?;
    network.labels[event] = label_of(network, label)?;
    Ok(1 << event)
}

/// All labels together: 20 where the start has one, 21 where one lacks part of the label of an event whose signal it
/// uses.
fn test_labels(network: &Network) -> Result<(), u8> {
    if network.labels[0] != Label::NONE {
        return Err(20);
    }
    for (p, &event) in network.observations().iter().enumerate() {
        let needed = network.labels[usize::from(event)];
        let lacks = |label: Label| label.mentions(p) && !label.includes(needed);
        if network.labels().iter().any(|&label| lacks(label)) || network.constraints().iter().any(|c| lacks(c.label)) {
            return Err(21);
        }
    }
    Ok(())
}

fn add_rule(network: &mut Network, fields: &[&[u8]]) -> Result<(), u8> {
    let &[kind, from, to, limit, label] = fields else {
        return Err(3);
    };
    let kind = match kind {
        b"max" => Kind::Max,
        b"min" => Kind::Min,
        b"fix" => return Err(22),
        _ => return Err(3),
    };
    let limit = number(limit, -HORIZON, HORIZON)?;
    if !is_name(from) || !is_name(to) || !is_label(label) {
        return Err(6);
    }
    let from = network.event_named(from).ok_or(8)? as u8;
    let to = network.event_named(to).ok_or(8)? as u8;
    let label = label_of(network, label)?;
    network.constraints[network.rules] = Constraint { kind, from, to, label, limit };
    network.rules += 1;
    Ok(())
}

/// A number within its range; 4 where it is ill-formed, 5 where it is beyond.
fn number(field: &[u8], least: i32, most: i32) -> Result<i32, u8> {
    let (negative, digits) = match field {
        [b'-', digits @ ..] => (true, digits),
        digits => (false, digits),
    };
    match digits {
        [] | [b'0', _, ..] => return Err(4),
        [b'0'] if negative => return Err(4),
        _ => {}
    }
    let mut size = 0;
    for digit in digits {
        if !digit.is_ascii_digit() {
            return Err(4);
        }
        size = (10 * size + i32::from(digit - b'0')).min(HORIZON + 1);
    }
    let value = if negative { -size } else { size };
    if value < least || most < value {
        return Err(5);
    }
    Ok(value)
}

fn is_name(field: &[u8]) -> bool {
    match field {
        [b'a'..=b'z', rest @ ..] => rest.len() < NAME_MOST && rest.iter().all(|b| matches!(b, b'a'..=b'z' | b'0'..=b'9')),
        _ => false,
    }
}

fn is_label(field: &[u8]) -> bool {
    if field == b"-" {
        return true;
    }
    let mut negated = false;
    for &b in field {
        match b {
            b'!' if !negated => negated = true,
            b'a'..=b'z' => negated = false,
            _ => return false,
        }
    }
    !field.is_empty() && !negated
}

/// A well-formed label; 8 where a letter is not defined, 9 where one stands twice.
fn label_of(network: &Network, field: &[u8]) -> Result<Label, u8> {
    let mut label = Label::NONE;
    if field == b"-" {
        return Ok(label);
    }
    let mut negated = false;
    let mut twice = false;
    for &b in field {
        if b == b'!' {
            negated = true;
            continue;
        }
        let weight = 1 << network.letter_at(b).ok_or(8)?;
        twice |= (label.positive | label.negative) & weight != 0;
        if negated {
            label.negative |= weight;
        } else {
            label.positive |= weight;
        }
        negated = false;
    }
    if twice {
        return Err(9);
    }
    Ok(label)
}

// ---------------------------------------------------------------- The compiled form

pub type Row = [u16; EVENTS];
pub type Table = [Row; SCENARIOS];

/// The time of the target is at least the time of the source and the weight, less 10,080.
#[derive(Clone, Copy)]
struct Bound {
    target: u8,
    source: u8,
    weight: u16,
}

/// The bounds of each scenario, and what else a round takes of a network. Where no event has a label, `labelled` is
/// false, and no label is looked at.
pub struct Compiled {
    horizon: u16,
    scenarios: usize,
    signals: usize,
    observations: [u8; SIGNALS],
    reactions: [u16; SIGNALS],
    labels: [Label; EVENTS],
    labelled: bool,
    counts: [usize; SCENARIOS],
    bounds: [[Bound; BOUNDS]; SCENARIOS],
}

impl Compiled {
    /// No bounds yet.
    fn of(network: &Network) -> Self {
        Compiled {
            horizon: network.horizon,
            scenarios: network.scenarios(),
            signals: network.signals,
            observations: network.observations,
            reactions: network.reactions,
            labels: network.labels,
            labelled: network.labels.iter().any(|&label| label != Label::NONE),
            counts: [0; SCENARIOS],
            bounds: [[Bound { target: 0, source: 0, weight: 0 }; BOUNDS]; SCENARIOS],
        }
    }

    /// Whether event `u` happens in scenario `s`.
    fn happens(&self, s: usize, u: usize) -> bool {
        !self.labelled || self.labels[u % EVENTS].covers(s)
    }

    fn list(&mut self, label: Label, target: u8, source: u8, weight: i32) {
        let bound = Bound { target, source, weight: weight as u16 };
        for s in 0..self.scenarios {
            if label.covers(s) {
                self.bounds[s][self.counts[s]] = bound;
                self.counts[s] += 1;
            }
        }
    }

    fn bounds(&self, scenario: usize) -> &[Bound] {
        &self.bounds[scenario][..self.counts[scenario]]
    }
}

/// The bound of each constraint, under the label that joins its own and those of its two events; behind them the waits
/// of the labels.
#[inline(never)]
pub fn compile(network: &Network, compiled: &mut Compiled) {
    for c in network.constraints() {
        let ends = network.labels[usize::from(c.from) % EVENTS].join(network.labels[usize::from(c.to) % EVENTS]);
        let label = c.label.join(ends);
        match c.kind {
            Kind::Max => compiled.list(label, c.from, c.to, HORIZON - c.limit),
            Kind::Min => compiled.list(label, c.to, c.from, HORIZON + c.limit),
        }
    }
    if compiled.labelled {
        list_waits(network, compiled);
    }
}

/// An event comes no sooner than each signal in its label plus that signal's reaction.
fn list_waits(network: &Network, compiled: &mut Compiled) {
    for (u, &label) in network.labels().iter().enumerate() {
        for (p, (&event, &reaction)) in network.observations().iter().zip(network.reactions()).enumerate() {
            if label.mentions(p) {
                compiled.list(label, u as u8, event, HORIZON + i32::from(reaction));
            }
        }
    }
}

// ---------------------------------------------------------------- The rounds

enum Outcome {
    Passes,
    Rests,
    Rises,
}

/// The first known time of each set of propositions in scenario `s`.
fn first_known(compiled: &Compiled, row: &Row, s: usize) -> [u16; SCENARIOS] {
    let mut first = [NEVER; SCENARIOS];
    let mut sets = 1;
    for (&u, &reaction) in compiled.observations.iter().zip(&compiled.reactions).take(compiled.signals) {
        let u = usize::from(u) % EVENTS;
        let time = if compiled.happens(s, u) { row[u] + reaction } else { NEVER };
        for d in 0..sets {
            first[sets + d] = first[d].min(time);
        }
        sets *= 2;
    }
    first
}

/// One row after the round, from the table before it. (Events are below 16 anyhow; `%` is cheaper than the test of an index.)
fn raise_row(compiled: &Compiled, table: &Table, s: usize) -> Row {
    let row = table[s];
    let first = first_known(compiled, &row, s);
    let mut raised = row.map(|time| time + HORIZON as u16);
    for bound in compiled.bounds(s) {
        let target = &mut raised[usize::from(bound.target) % EVENTS];
        *target = (*target).max(row[usize::from(bound.source) % EVENTS] + bound.weight);
    }
    let mut raised = raised.map(|time| time - HORIZON as u16);
    for (d, &known) in first[..compiled.scenarios].iter().enumerate().skip(1) {
        let other = &table[(s ^ d) % SCENARIOS];
        raised = array::from_fn(|u| raised[u].max(other[u].min(known)));
    }
    if compiled.labelled {
        return clear_absent(compiled, s, raised);
    }
    raised
}

/// Zero in each cell of the row whose event does not happen in scenario `s`.
fn clear_absent(compiled: &Compiled, s: usize, row: Row) -> Row {
    array::from_fn(|u| if compiled.labels[u].covers(s) { row[u] } else { 0 })
}

fn round(compiled: &Compiled, table: &Table, new: &mut Table) -> Outcome {
    let mut climb = 0;
    let mut highest = 0;
    let mut origin = 0;
    for s in 0..compiled.scenarios {
        let raised = raise_row(compiled, table, s);
        for (&after, &before) in raised.iter().zip(&table[s]) {
            climb = climb.max(after - before);
            highest = highest.max(after);
        }
        origin = origin.max(raised[0]);
        new[s] = raised;
    }
    if highest > compiled.horizon || origin > 0 {
        return Outcome::Passes;
    }
    if climb == 0 {
        return Outcome::Rests;
    }
    Outcome::Rises
}

/// The rounds from all zeros: the table where they rest, or nothing where one passes a limit; and how many there were.
#[inline(never)]
pub fn rounds(compiled: &Compiled, table: &mut Table) -> (bool, u32) {
    let mut other = [[0; EVENTS]; SCENARIOS];
    let mut count = 0;
    loop {
        count += 1;
        match round(compiled, table, &mut other) {
            Outcome::Passes => return (false, count),
            Outcome::Rests => return (true, count),
            Outcome::Rises => {}
        }
        count += 1;
        match round(compiled, &other, table) {
            Outcome::Passes => return (false, count),
            Outcome::Rests => return (true, count),
            Outcome::Rises => {}
        }
    }
}

// ---------------------------------------------------------------- The calls

/// The least table of a sheet into the first numbers of `table`, and how many they are; and the count of rounds.
#[inline(never)]
pub fn solve_counted(sheet: &[u8], table: &mut [u16]) -> (Result<usize, Refusal>, u32) {
    let network = match read(sheet) {
        Ok(network) => network,
        Err(refusal) => return (Err(refusal), 0),
    };
    let cells = network.cells();
    if table.len() < cells {
        return (Err((12, 0)), 0);
    }
    let mut compiled = Compiled::of(&network);
    compile(&network, &mut compiled);
    let mut times = [[0; EVENTS]; SCENARIOS];
    let (found, count) = rounds(&compiled, &mut times);
    if !found {
        return (Err((13, 0)), count);
    }
    let rows = times[..network.scenarios()].iter().enumerate();
    for (out, (s, row)) in table.chunks_exact_mut(network.events).zip(rows) {
        for (u, (cell, &time)) in out.iter_mut().zip(row).enumerate() {
            *cell = if compiled.happens(s, u) { time } else { BLANK };
        }
    }
    (Ok(cells), count)
}

#[allow(dead_code)] // main.rs takes solve_bytes
pub fn solve(sheet: &[u8], table: &mut [u16]) -> Result<usize, Refusal> {
    solve_counted(sheet, table).0
}

/// A solver that writes numbers, as the C interface has it: into pairs of bytes, with its answer packed into one number.
pub fn by_bytes(solver: fn(&[u8], &mut [u16]) -> (Result<usize, Refusal>, u32), sheet: &[u8], bytes: &mut [u8]) -> u64 {
    let mut table = [0; EVENTS * SCENARIOS];
    let lent = (bytes.len() / 2).min(table.len());
    let (answer, rounds) = solver(sheet, &mut table[..lent]);
    let (number, line, minutes) = match answer {
        Ok(minutes) => (0, 0, minutes),
        Err((number, line)) => (number, line, 0),
    };
    for (pair, minute) in bytes.chunks_exact_mut(2).zip(&table[..minutes]) {
        pair.copy_from_slice(&minute.to_le_bytes());
    }
    u64::from(number) | u64::from(line) << 8 | (minutes as u64) << 24 | u64::from(rounds) << 40
}

pub fn solve_bytes(sheet: &[u8], bytes: &mut [u8]) -> u64 {
    by_bytes(solve_counted, sheet, bytes)
}
