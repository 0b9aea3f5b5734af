//! Sheets that take many rounds (02, point 8), made from a seed and nothing else.
//!
//! What makes a run long is a ring of rows in which each round raises one event after another by little. A ring whose rows hold in one case
//! climbs until a limit is passed. A ring whose rows alternate between the cases of a signal climbs only while the signal is not heard: until
//! then an event is no earlier in one case than in the other. So a signal whose event is held late ends the climb with a table.

use crate::gen::{self, Draft, DraftRule, Rng, Size};
use crate::model::{self, Label, Net};
use crate::rounds;

/// As many rounds as the run of a sheet made here may take.
const ROUNDS_MOST: u32 = 300_000;
/// How many sheets are drawn to find one that takes many rounds.
const TRIES: u32 = 12;

/// As many rules as a sheet may have.
const RULES_MOST: usize = model::RULES_MOST as usize;

type Maker = fn(&mut Rng, i64) -> Draft;

const MAKERS: [Maker; 7] = [ring, held_ring, coupled_rings, chase, rings_by_case, small_rows, kept_rows];

/// The sheet of a seed: an ordinary one, or one that takes many rounds.
pub fn sheet(seed: u64) -> Vec<u8> {
    let mut rng = Rng::new(seed);
    if rng.chance(25) {
        return ordinary(&mut rng);
    }
    let (make, horizon) = (rng.pick(&MAKERS), horizon(&mut rng));
    long_sheet(&mut rng, make, horizon)
}

/// The first sheet of one of the makers that takes as many rounds as the horizon has minutes, or the last one tried. Where a run is too
/// long, the horizon is halved.
fn long_sheet(rng: &mut Rng, make: Maker, mut horizon: i64) -> Vec<u8> {
    let mut tries = 0;
    loop {
        let sheet = finished(rng, make, horizon);
        tries += 1;
        match count_of(&sheet) {
            None => horizon /= 2,
            Some(count) if i64::from(count) >= horizon || tries >= TRIES => return sheet,
            Some(_) => {}
        }
    }
}

/// A sheet of one of the makers with a small horizon: its run is soon made, and most often takes more rounds than that
/// of an ordinary sheet.
pub fn climb(rng: &mut Rng) -> Vec<u8> {
    let (make, horizon) = (rng.pick(&MAKERS), rng.between(3, 60));
    finished(rng, make, horizon)
}

/// The heaviest sheet: "Its events are a, b, c and so on; its rules are `min` rows labelled `-`, of 0 from b on to each
/// next event, then of 1 from the last back to b."
pub fn heaviest(events: usize, horizon: i64) -> Vec<u8> {
    let names = (0..events).map(|event| char::from(b'a' + event as u8).to_string()).collect();
    let places: Vec<usize> = (1..events).collect();
    let rules = ring_rows(&places, 1, |_| vec![]);
    let labels = vec![vec![]; events];
    Draft { horizon, events: names, signals: vec![], rules, reactions: None, labels, cases: None }.bytes()
}

/// A sheet of the other generator, valid or damaged, whose run is not too long.
fn ordinary(rng: &mut Rng) -> Vec<u8> {
    loop {
        let sheet = gen::sheet(rng);
        if count_of(&sheet).is_some() {
            return sheet;
        }
    }
}

/// How many rounds a sheet takes, 0 where it is refused, or nothing if they are too many.
fn count_of(sheet: &[u8]) -> Option<u32> {
    model::read(sheet).map_or(Some(0), |net| rounds::run_within(&net, ROUNDS_MOST).map(|run| run.count))
}

fn horizon(rng: &mut Rng) -> i64 {
    match rng.below(20) {
        0..=1 => rng.between(0, 59),
        2..=3 => 10_080,
        _ => rng.between(200, 2_000),
    }
}

// ---------------------------------------------------------------- What all of them share

/// A draft from one of the makers, with its rules turned about and in any order, and at times with an upper bound or a tight horizon.
fn finished(rng: &mut Rng, make: Maker, horizon: i64) -> Vec<u8> {
    let mut draft = make(rng, horizon);
    if rng.chance(25) {
        bound_above(rng, &mut draft);
    }
    let labels: Vec<Label> = draft.rules.iter().map(|rule| draft.completed(&rule.label)).collect();
    draft.rules.iter_mut().zip(labels).for_each(|(rule, label)| rule.label = label);
    for rule in draft.rules.iter_mut() {
        if rng.chance(15) {
            *rule = gen::turned(rule);
        }
    }
    let order = rng.different(draft.rules.len(), draft.rules.len());
    draft.rules = order.into_iter().take(RULES_MOST).map(|place| draft.rules[place].clone()).collect();
    if rng.chance(25) {
        tighten(rng, &mut draft);
    }
    draft.bytes()
}

/// A row that may end the climb before the horizon does, and at times the other half of one difference.
fn bound_above(rng: &mut Rng, draft: &mut Draft) {
    let Some(climbing) = draft.rules.get(rng.below(draft.rules.len().max(1))).map(|rule| rule.to) else { return };
    let minute = rng.between(0, draft.horizon);
    let label = if rng.chance(50) { vec![] } else { gen::any_label(rng, draft.signals.len()) };
    let (from, limit) = if rng.chance(80) { (0, minute) } else { (rng.below(draft.events.len()), rng.between(0, 3)) };
    if rng.chance(30) {
        draft.rules.push(min(from, climbing, limit, label.clone()));
    }
    draft.rules.push(DraftRule { kind: "max", from, to: climbing, limit, label });
}

/// Brings the horizon close to the latest minute of the table, if there is one: at it, or up to two below or above. (A
/// sheet is refused where another event gives a signal now and its label is not part of those that use the signal.)
fn tighten(rng: &mut Rng, draft: &mut Draft) {
    let Ok(net) = model::read(&draft.bytes()) else { return };
    let table = rounds::run_within(&net, ROUNDS_MOST).and_then(|run| run.table);
    let latest = table.and_then(|table| table.into_iter().filter(|&minute| minute != model::BLANK).max());
    if let Some(latest) = latest {
        draft.horizon = (i64::from(latest) + rng.between(-2, 2)).clamp(0, draft.horizon);
    }
}

/// A draft without rules whose signals are not given by the start. About half of those with signals have reactions, and
/// some have labelled events.
fn giving(rng: &mut Rng, events: usize, signals: usize, horizon: i64) -> Draft {
    let mut draft = gen::unlabelled(rng, &Size { events, signals, rules: 0 }, horizon);
    let givers = rng.different(signals, events - 1);
    draft.signals.iter_mut().zip(givers).for_each(|(signal, giver)| signal.1 = giver + 1);
    if rng.chance(50) {
        let percent = rng.pick(&[10, 30, 50]);
        gen::label_events(rng, &mut draft, percent);
    }
    draft
}

fn min(from: usize, to: usize, limit: i64, label: Label) -> DraftRule {
    DraftRule { kind: "min", from, to, limit, label }
}

/// All events but the start that give no signal, in any order.
fn free_events(rng: &mut Rng, draft: &Draft) -> Vec<usize> {
    let order = rng.different(draft.events.len(), draft.events.len());
    order.into_iter().filter(|&event| event != 0 && draft.signals.iter().all(|signal| signal.1 != event)).collect()
}

/// `min` rows of 0 from each of these events to the next, and of `last` from the last back to the first.
fn ring_rows(places: &[usize], last: i64, mut label: impl FnMut(usize) -> Label) -> Vec<DraftRule> {
    let length = places.len();
    let row = |place: usize| {
        let limit = if place + 1 == length { last } else { 0 };
        min(places[place], places[(place + 1) % length], limit, label(place))
    };
    (0..length).map(row).collect()
}

/// Moves the events of rows against each other: the limits along a ring change, and their sum does not.
fn stagger(rng: &mut Rng, rules: &mut [DraftRule]) {
    if rng.chance(70) {
        return;
    }
    let most = rng.pick(&[1, 3, 20]);
    let shifts: Vec<i64> = (0..model::EVENTS_MOST).map(|_| rng.between(0, most)).collect();
    rules.iter_mut().for_each(|rule| rule.limit += shifts[rule.to] - shifts[rule.from]);
}

/// Labels that alternate between a signal and its opposite, some of them with another letter.
fn alternating(rng: &mut Rng, signals: usize, signal: usize, place: usize) -> Label {
    let mut label = vec![(signal, place % 2 == 0)];
    if signals > 1 && rng.chance(15) {
        label.push(((signal + 1 + rng.below(signals - 1)) % signals, rng.chance(50)));
    }
    label
}

/// Holds the event of each signal late, but for some: most of them close to the horizon.
fn hold(rng: &mut Rng, draft: &mut Draft, percent: usize) {
    let room = rng.pick(&[1, 2, 3, 5, draft.horizon / 8, draft.horizon / 2]);
    for (_, event) in draft.signals.clone() {
        if rng.chance(percent) {
            let early = if rng.chance(25) { rng.between(0, draft.horizon) } else { room + rng.between(0, 2) };
            draft.rules.push(min(0, event, (draft.horizon - early).max(0), vec![]));
        }
    }
}

/// A limit that lets one event run ahead of another, by little or until late in the run.
fn lead(rng: &mut Rng, horizon: i64) -> i64 {
    if rng.chance(60) { -rng.between(0, 3) } else { -rng.between(0, horizon / 2) }
}

/// The events but the start that no row holds late, in any order.
fn unheld_events(rng: &mut Rng, draft: &Draft) -> Vec<usize> {
    let order = rng.different(draft.events.len(), draft.events.len());
    order.into_iter().filter(|&event| event != 0 && draft.rules.iter().all(|rule| rule.to != event)).collect()
}

// ---------------------------------------------------------------- The makers

/// One ring of any length without labels, and other events behind it.
fn ring(rng: &mut Rng, horizon: i64) -> Draft {
    let signals = rng.pick(&[0, 0, 0, 1, 2]);
    let events = rng.between(signals as i64 + 2, 16) as usize;
    let mut draft = giving(rng, events, signals, horizon);
    let mut places = free_events(rng, &draft);
    let behind = places.split_off(rng.between(1, places.len() as i64) as usize);
    draft.rules = ring_rows(&places, rng.pick(&[1, 1, 1, 2, 3]), |_| vec![]);
    stagger(rng, &mut draft.rules);
    for event in behind {
        draft.rules.push(min(rng.pick(&places), event, lead(rng, horizon), vec![]));
    }
    draft
}

/// One ring whose rows alternate between a signal and its opposite, its giver held late, and other events behind it.
fn held_ring(rng: &mut Rng, horizon: i64) -> Draft {
    let signals = rng.pick(&[1, 1, 1, 2, 2, 3, 4]);
    let events = rng.between(signals as i64 + 3, 16) as usize;
    let mut draft = giving(rng, events, signals, horizon);
    let mut places = free_events(rng, &draft);
    let behind = places.split_off(rng.between(2, places.len() as i64) as usize);
    let signal = rng.below(signals);
    draft.rules = ring_rows(&places, rng.pick(&[1, 1, 2, 3]), |place| alternating(rng, signals, signal, place));
    stagger(rng, &mut draft.rules);
    for event in behind {
        let label = gen::any_label(rng, signals);
        draft.rules.push(min(rng.pick(&places), event, lead(rng, horizon), label));
    }
    hold(rng, &mut draft, 95);
    draft
}

/// Two to four rings, most of them with alternating labels, others with any or with none, and rows from one to another.
fn coupled_rings(rng: &mut Rng, horizon: i64) -> Draft {
    let signals = rng.between(1, 4) as usize;
    let events = rng.between(signals as i64 + 5, 16) as usize;
    let mut draft = giving(rng, events, signals, horizon);
    let places = free_events(rng, &draft);
    let rings = rng.between(2, (places.len() as i64 / 2).min(4)) as usize;
    let all_alternate = rng.chance(75);
    for ring in places.chunks(places.len().div_ceil(rings)) {
        let (signal, last, kind) = (rng.below(signals), rng.pick(&[1, 1, 2]), if all_alternate { 0 } else { rng.below(3) });
        let label = |place: usize| match kind {
            0 => alternating(rng, signals, signal, place),
            1 => gen::any_label(rng, signals),
            _ => vec![],
        };
        draft.rules.extend(ring_rows(ring, last, label));
    }
    stagger(rng, &mut draft.rules);
    for _ in 0..rng.between(1, 4) {
        let label = gen::any_label(rng, signals);
        draft.rules.push(min(rng.pick(&places), rng.pick(&places), lead(rng, horizon), label));
    }
    hold(rng, &mut draft, 90);
    draft
}

/// A short ring that climbs fast, and a long one that is ahead of it and climbs slowly until the short one drives it on. At times the long
/// one gives the signal that the short one waits for, so that what holds it up moves too.
fn chase(rng: &mut Rng, horizon: i64) -> Draft {
    let signals = rng.pick(&[0, 1, 2, 2, 2, 3]);
    let events = rng.between(signals as i64 + 6, 16) as usize;
    let mut draft = giving(rng, events, signals, horizon);
    let places = free_events(rng, &draft);
    let (fast, slow) = places.split_at(rng.between(2, places.len() as i64 / 2) as usize);
    let (fast_waits, slow_waits) = (signals > 0 && rng.chance(85), signals > 0 && rng.chance(85));
    draft.rules = ring_rows(fast, rng.pick(&[1, 1, 2]), |place| if fast_waits { vec![(0, place % 2 == 0)] } else { vec![] });
    draft.rules.extend(ring_rows(slow, 1, |place| if slow_waits { vec![(signals - 1, place % 2 == 0)] } else { vec![] }));
    stagger(rng, &mut draft.rules);
    let ahead = rng.between(0, 2 * horizon / 3);
    draft.rules.push(min(0, rng.pick(slow), ahead, vec![]));
    draft.rules.push(min(rng.pick(fast), rng.pick(slow), rng.between(-3.min(ahead), ahead), vec![]));
    hold(rng, &mut draft, 90);
    if signals > 1 && rng.chance(50) {
        draft.signals[0].1 = rng.pick(slow);
    }
    draft
}

/// A ring that some cases leave for its start sooner than others, so that it has other lengths there. Its rows alternate at times between
/// a signal that is held late and its opposite; the others are given early.
fn rings_by_case(rng: &mut Rng, horizon: i64) -> Draft {
    let signals = rng.between(1, 4) as usize;
    let events = rng.between(signals as i64 + 4, 16) as usize;
    let mut draft = giving(rng, events, signals, horizon);
    if rng.chance(50) {
        draft.signals[0].1 = 0;
    }
    let places = free_events(rng, &draft);
    let held = (signals > 1 && rng.chance(60)).then_some(signals - 1);
    draft.rules = ring_rows(&places, 1, |place| held.map_or(vec![], |signal| vec![(signal, place % 2 == 0)]));
    for _ in 0..rng.between(1, 6) {
        let place = places.len() - 1 - rng.below(places.len().div_ceil(2));
        let mut label: Label = (0..signals - usize::from(held.is_some())).map(|signal| (signal, rng.chance(50))).collect();
        label.extend(held.map(|signal| (signal, place % 2 == 0)));
        draft.rules.push(min(places[place], places[0], 1, label));
    }
    if let Some(signal) = held {
        let minute = (horizon - rng.pick(&[0, 2, 3, horizon / 8, horizon / 2])).max(0);
        draft.rules.push(min(0, draft.signals[signal].1, minute, vec![]));
    }
    draft
}

/// Rows of any labels with small limits, one to three for each event.
fn small_rows(rng: &mut Rng, horizon: i64) -> Draft {
    let signals = rng.between(0, 4) as usize;
    let events = rng.between(signals as i64 + 3, 16) as usize;
    let mut draft = giving(rng, events, signals, horizon);
    hold(rng, &mut draft, 50);
    let (most, from) = (rng.pick(&[0, 1, 1, 2]), unheld_events(rng, &draft));
    for _ in 0..rng.between(events as i64, 3 * events as i64) {
        let label = gen::any_label(rng, signals);
        draft.rules.push(min(rng.pick(&from), 1 + rng.below(events - 1), rng.between(-3, most), label));
    }
    draft
}

/// Rows with small limits that all hold in one hidden table, so that there is a good one.
fn kept_rows(rng: &mut Rng, horizon: i64) -> Draft {
    let signals = rng.between(1, 4) as usize;
    let events = rng.between(signals as i64 + 3, 16) as usize;
    let mut draft = giving(rng, events, signals, horizon);
    hold(rng, &mut draft, 100);
    let net = model::read(&draft.bytes()).expect("a drafted sheet is valid");
    let (hidden, from) = (hidden_table(rng, &net), unheld_events(rng, &draft));
    let goal = signals + rng.between(events as i64, 3 * events as i64) as usize;
    for _ in 0..20 * goal {
        let (from, to) = (rng.pick(&from), 1 + rng.below(events - 1));
        let label = if rng.chance(50) { gen::any_label(rng, signals) } else { whole_label(rng, signals) };
        let limit = least_difference(&net, &hidden, from, to, &label);
        if draft.rules.len() < goal && from != to && (-3..=2).contains(&limit) {
            draft.rules.push(min(from, to, limit, label));
        }
    }
    draft
}

/// A label that one case agrees with.
fn whole_label(rng: &mut Rng, signals: usize) -> Label {
    (0..signals).map(|signal| (signal, rng.chance(50))).collect()
}

/// A table in which the signals are given at the minutes that the rules ask, and each other event comes soon after
/// one of them counts, at a minute that depends only on those that count by then.
fn hidden_table(rng: &mut Rng, net: &Net) -> Vec<i64> {
    let given: Vec<i64> = net.signals.iter().map(|signal| net.rules.iter().find(|rule| rule.to == signal.event).unwrap().limit).collect();
    let known: Vec<i64> = given.iter().zip(&net.signals).map(|(minute, signal)| minute + signal.reaction).collect();
    let mut hidden = vec![0; net.cells()];
    for event in 1..net.events.len() {
        let from = known[rng.below(known.len())];
        let heard: usize = (0..known.len()).filter(|&signal| known[signal] <= from).map(|signal| 1 << signal).sum();
        let last = known.iter().filter(|&&minute| minute > from).map(|minute| minute - 1).fold(net.horizon, i64::min);
        let waits: Vec<i64> = (0..net.cases()).map(|_| rng.between(0, 3)).collect();
        let own = net.signals.iter().position(|signal| signal.event == event);
        for case in 0..net.cases() {
            hidden[net.cell(case, event)] = own.map_or((from + waits[case & heard]).min(last), |signal| given[signal]);
        }
    }
    hidden
}

/// The least minute(to) - minute(from) over the cases that agree with the label.
fn least_difference(net: &Net, table: &[i64], from: usize, to: usize, label: &[(usize, bool)]) -> i64 {
    let difference = |case: usize| table[net.cell(case, to)] - table[net.cell(case, from)];
    (0..net.cases()).filter(|&case| model::holds_in(label, case)).map(difference).min().unwrap()
}
