//! Wrong programs that print tables (01, The printed listing), house forms (02, points 2, 3 and 6) or sheets without
//! their `fix` rows (02, point 7), to see that the comparison notices them.

use crate::converters::{self, convert_with, Slip as Converted};
use crate::digits::{self, recounted, respelled};
use crate::leaps::{self, Slip as Solved};
use crate::model::{self, Kind, Net, Refusal, Rule};
use crate::retired::is_of;
use std::collections::BTreeSet;

// ---------------------------------------------------------------- Wrong listings

/// A program that prints something of a sheet, or its refusal.
pub type Printer = fn(&[u8]) -> Result<Vec<u8>, Refusal>;

pub const TABLE_FAULTS: [(&str, Printer); 47] = [
    ("line-before", |sheet| refused_with(sheet, |refusal| refusal.line = refusal.line.saturating_sub(1))),
    ("line-lost", |sheet| refused_with(sheet, |refusal| refusal.line = 0)),
    ("12-for-13", |sheet| refused_with(sheet, |refusal| if refusal.number == 13 { refusal.number = 12 })),
    ("13-with-a-line", |sheet| refused_with(sheet, |refusal| if refusal.number == 13 { refusal.line = 1 })),
    ("13-not-printed", |sheet| match model::table(sheet) {
        Err(Refusal { number: 13, .. }) => Ok(vec![]),
        outcome => outcome,
    }),
    ("refusal-without-feed", |sheet| model::table(sheet).or_else(|refusal| Ok(without_feed(refusal)))),
    ("4096-bytes-read", |sheet| model::table(&sheet[..sheet.len().min(4096)])),
    ("cases-exchanged", |sheet| listed_with(sheet, cases_exchanged)),
    ("truths-exchanged", |sheet| listed_with(sheet, |rows| relabel(rows, truths_exchanged))),
    ("signals-reversed", |sheet| listed_with(sheet, |rows| relabel(rows, |label| label.chars().rev().collect()))),
    ("dash-lost", |sheet| listed_with(sheet, |rows| relabel(rows, |label| label.replace('-', "")))),
    ("header-lost", |sheet| listed_with(sheet, |rows| drop(rows.remove(0)))),
    ("last-case-lost", |sheet| listed_with(sheet, |rows| drop(rows.pop()))),
    ("start-left-out", |sheet| listed_with(sheet, |rows| rows.iter_mut().for_each(|row| drop(row.remove(1))))),
    ("last-minute-later", |sheet| listed_with(sheet, last_minute_later)),
    ("two-digits-at-least", |sheet| listed_with(sheet, two_digits_at_least)),
    ("1700-bytes-at-most", |sheet| model::table(sheet).map(|text| text[..text.len().min(1700)].to_vec())),
    ("last-feed-lost", |sheet| model::table(sheet).map(|text| text[..text.len() - 1].to_vec())),
    ("reactions-refused", |sheet| match typed_reactions(sheet) {
        Some(_) => Err(Refusal { number: 10, line: lines_before(sheet) + 1 }),
        None => model::table(sheet),
    }),
    ("reactions-ignored", |sheet| table_with(sheet, |_| 1)),
    ("reaction-a-minute-more", |sheet| table_with(sheet, |reaction| reaction + i64::from(reaction > 1))),
    ("reaction-a-minute-less", |sheet| table_with(sheet, |reaction| (reaction - 1).max(1))),
    ("reactions-of-one-digit", |sheet| table_with(sheet, |minutes| if minutes > 9 { minutes / 10 } else { minutes })),
    ("labels-refused", |sheet| match typed_labels(sheet) {
        Some(_) => Err(Refusal { number: 10, line: label_heading(sheet) }),
        None => model::table(sheet),
    }),
    ("labels-ignored", |sheet| solved_by(sheet, labels_ignored)),
    ("label-waits-ignored", |sheet| solved_by(sheet, |net| leaps::table_with(net, Solved::NoWaits))),
    ("label-waits-of-one", |sheet| solved_by(sheet, |net| leaps::table_with(net, Solved::WaitsOfOne))),
    ("rule-of-an-absent-event", |sheet| solved_by(sheet, |net| leaps::table_with(net, Solved::RulesOfLabelOnly))),
    ("blank-cells-are-0", |sheet| solved_by(sheet, |net| leaps::table_with(net, Solved::BlanksZero))),
    ("blank-in-digits", |sheet| listed_with(sheet, |rows| reword(rows, "65535"))),
    ("blank-is-empty", |sheet| listed_with(sheet, |rows| reword(rows, ""))),
    ("blank-is-a-space", |sheet| listed_with(sheet, |rows| reword(rows, " "))),
    ("blank-columns-left-out", |sheet| listed_with(sheet, |rows| rows.iter_mut().skip(1).for_each(without_dashes))),
    ("20-is-21", |sheet| refused_with(sheet, |refusal| if refusal.number == 20 { refusal.number = 21 })),
    ("21-is-20", |sheet| refused_with(sheet, |refusal| if refusal.number == 21 { refusal.number = 20 })),
    ("20-without-line", |sheet| refused_with(sheet, |refusal| if refusal.number == 20 { refusal.line = 0 })),
    ("21-without-line", |sheet| refused_with(sheet, |refusal| if refusal.number == 21 { refusal.line = 0 })),
    ("22-is-3", |sheet| refused_with(sheet, |refusal| if refusal.number == 22 { refusal.number = 3 })),
    ("22-without-line", |sheet| refused_with(sheet, |refusal| if refusal.number == 22 { refusal.line = 0 })),
    ("22-a-line-behind", |sheet| refused_with(sheet, |refusal| if refusal.number == 22 { refusal.line += 1 })),
    ("fix-is-read", |sheet| model::table(&model::convert(sheet).unwrap_or(sheet.to_vec()))),
    ("digits-place-skipped", |sheet| model::table(sheet).map(|text| respelled(&text, digits::Slip::PlaceSkipped))),
    ("digits-leading-zero", |sheet| model::table(sheet).map(|text| respelled(&text, digits::Slip::LeadingZero))),
    ("digits-ten-ones", |sheet| model::table(sheet).map(|text| respelled(&text, digits::Slip::TenOnes))),
    ("digits-zeros-lost", |sheet| model::table(sheet).map(|text| respelled(&text, digits::Slip::ZerosLost))),
    ("digits-nothing-for-0", |sheet| model::table(sheet).map(|text| respelled(&text, digits::Slip::NothingForZero))),
    ("digits-nine-is-eight", |sheet| model::table(sheet).map(|text| respelled(&text, digits::Slip::NineIsEight))),
];

/// The same without a slip, so that it is the slip that is noticed.
pub fn table_by_fields(sheet: &[u8]) -> Result<Vec<u8>, Refusal> {
    listed_with(sheet, |_| {}).map(|text| respelled(&text, digits::Slip::None))
}

/// The header and a line for each case, each cut into its fields.
type Rows = Vec<Vec<String>>;

/// A right listing with its lines changed.
fn listed_with(sheet: &[u8], change: fn(&mut Rows)) -> Result<Vec<u8>, Refusal> {
    let text = String::from_utf8(model::table(sheet)?).expect("a listing is ASCII");
    let mut rows = text.lines().map(|line| line.split(',').map(String::from).collect()).collect();
    change(&mut rows);
    Ok(rows.iter().map(|row| row.join(",") + "\n").collect::<String>().into_bytes())
}

/// A right answer with its refusal changed.
fn refused_with(sheet: &[u8], change: fn(&mut Refusal)) -> Result<Vec<u8>, Refusal> {
    model::table(sheet).map_err(|mut refusal| {
        change(&mut refusal);
        refusal
    })
}

/// The listing for other reactions than the sheet's.
fn table_with(sheet: &[u8], change: fn(i64) -> i64) -> Result<Vec<u8>, Refusal> {
    let changed = |net: &mut Net| net.signals.iter_mut().for_each(|signal| signal.reaction = change(signal.reaction));
    solved_net(sheet, changed, model::solve)
}

/// The listing by another solver.
fn solved_by(sheet: &[u8], solve: Solver) -> Result<Vec<u8>, Refusal> {
    solved_net(sheet, |_| {}, solve)
}

/// Minutes for a network, or none.
type Solver = fn(&Net) -> Option<Vec<u16>>;

fn labels_ignored(net: &Net) -> Option<Vec<u16>> {
    model::solve(&Net { labels: vec![vec![]; net.events.len()], ..net.clone() })
}

fn solved_net(sheet: &[u8], change: impl Fn(&mut Net), solve: Solver) -> Result<Vec<u8>, Refusal> {
    let mut net = model::read(sheet)?;
    change(&mut net);
    let table = solve(&net).ok_or(Refusal { number: 13, line: 0 })?;
    Ok(model::listing(sheet, &net, &table))
}

/// Another word for a blank.
fn reword(rows: &mut Rows, word: &str) {
    let fields = rows[1..].iter_mut().flat_map(|row| &mut row[1..]);
    fields.filter(|field| *field == "-").for_each(|field| *field = word.to_string());
}

/// A row without its blanks.
fn without_dashes(row: &mut Vec<String>) {
    let mark = row.remove(0);
    row.retain(|field| field != "-");
    row.insert(0, mark);
}

/// The lines of reactions of an accepted sheet as they are typed, each without its line feed; nothing if there is no
/// section.
fn typed_reactions(sheet: &[u8]) -> Option<Vec<String>> {
    typed_section(sheet, 0)
}

/// The same for the labels.
fn typed_labels(sheet: &[u8]) -> Option<Vec<String>> {
    typed_section(sheet, 1 + typed_reactions(sheet)?.len())
}

/// The lines of a section that begins so many lines behind the rules, as many as its heading says.
fn typed_section(sheet: &[u8], behind: usize) -> Option<Vec<String>> {
    let net = model::read(sheet).ok()?;
    let text = String::from_utf8_lossy(sheet);
    let mut lines = text.lines().skip(4 + net.events.len() + net.signals.len() + net.rules.len() + behind);
    let count = lines.next()?.split(',').nth(1)?.parse().ok()?;
    Some(lines.take(count).map(String::from).collect())
}

/// The line of the heading of an accepted sheet's labels.
fn label_heading(sheet: &[u8]) -> usize {
    lines_before(sheet) + 2 + typed_reactions(sheet).map_or(0, |lines| lines.len())
}

/// How many lines an accepted sheet has as far as its rules.
fn lines_before(sheet: &[u8]) -> usize {
    model::read(sheet).map_or(0, |net| 4 + net.events.len() + net.signals.len() + net.rules.len())
}

fn without_feed(refusal: Refusal) -> Vec<u8> {
    format!("refused {} line {}", refusal.number, refusal.line).into_bytes()
}

/// The minutes of cases 0 and 1, and not their letters.
fn cases_exchanged(rows: &mut Rows) {
    if let [_, first, second, ..] = &mut rows[..] {
        first[1..].swap_with_slice(&mut second[1..]);
    }
}

fn relabel(rows: &mut Rows, change: fn(&str) -> String) {
    rows[1..].iter_mut().for_each(|row| row[0] = change(&row[0]));
}

fn truths_exchanged(label: &str) -> String {
    let other = |letter: char| match letter {
        'T' => 'F',
        'F' => 'T',
        dash => dash,
    };
    label.chars().map(other).collect()
}

fn last_minute_later(rows: &mut Rows) {
    let last = rows.last_mut().and_then(|row| row.last_mut()).expect("a minute");
    *last = last.parse::<u32>().map_or("0".to_string(), |minute| (minute + 1).to_string());
}

fn two_digits_at_least(rows: &mut Rows) {
    rows[1..].iter_mut().flat_map(|row| &mut row[1..]).for_each(|minute| *minute = format!("{minute:0>2}"));
}

// ---------------------------------------------------------------- Wrong house forms

pub const HOUSE_FAULTS: [(&str, Printer); 70] = [
    ("greatest-limit-kept", |sheet| house_with(sheet, Slip::GreatestLimit)),
    ("first-limit-kept", |sheet| house_with(sheet, Slip::FirstLimit)),
    ("last-limit-kept", |sheet| house_with(sheet, Slip::LastLimit)),
    ("nearest-to-0-kept", |sheet| house_with(sheet, Slip::NearestLimit)),
    ("letters-reversed", |sheet| house_with(sheet, Slip::LettersReversed)),
    ("letters-as-typed", |sheet| house_with(sheet, Slip::LettersAsTyped)),
    ("letters-in-alphabet", |sheet| house_with(sheet, Slip::LettersInAlphabet)),
    ("false-letters-last", |sheet| house_with(sheet, Slip::FalseLettersLast)),
    ("label-order-counts", |sheet| house_with(sheet, Slip::LabelOrderCounts)),
    ("signs-ignored", |sheet| house_with(sheet, Slip::SignsIgnored)),
    ("min-not-swapped", |sheet| house_with(sheet, Slip::NotSwapped)),
    ("min-not-negated", |sheet| house_with(sheet, Slip::NotNegated)),
    ("min-negated-to-10079", |sheet| house_with(sheet, Slip::EndLost)),
    ("fix-is-read", |sheet| model::house(&model::convert(sheet).unwrap_or(sheet.to_vec()))),
    ("22-is-17", |sheet| model::house(sheet).map_err(seventeen_for_22)),
    ("to-before-from", |sheet| house_with(sheet, Slip::ToFirst)),
    ("label-before-ends", |sheet| house_with(sheet, Slip::LabelFirst)),
    ("false-before-true", |sheet| house_with(sheet, Slip::FalseFirst)),
    ("weights-reversed", |sheet| house_with(sheet, Slip::WeightsReversed)),
    ("names-in-alphabet", |sheet| house_with(sheet, Slip::NamesInAlphabet)),
    ("order-as-typed", |sheet| house_with(sheet, Slip::OrderAsTyped)),
    ("minus-0", |sheet| house_with(sheet, Slip::MinusZero)),
    ("count-as-typed", |sheet| house_with(sheet, Slip::CountAsTyped)),
    ("64th-row-dropped", |sheet| house_with(sheet, Slip::RowDropped)),
    ("64-rows-refused", |sheet| house_with(sheet, Slip::Refused64)),
    ("64-rules-refused", |sheet| house_with(sheet, Slip::RefusedUnmerged)),
    ("own-line-lost", |sheet| model::house(sheet).map_err(|refusal| Refusal { line: 0, ..refusal })),
    ("self-rows-dropped", |sheet| house_with(sheet, Slip::SelfDropped)),
    ("idle-self-rows-dropped", |sheet| house_with(sheet, Slip::IdleSelfDropped)),
    ("rows-beyond-horizon-dropped", |sheet| house_with(sheet, Slip::BeyondHorizonDropped)),
    ("implied-rows-dropped", |sheet| house_with(sheet, Slip::ImpliedDropped)),
    ("nothing-done", |sheet| model::read(sheet).map(|_| sheet.to_vec())),
    ("2048-bytes-at-most", |sheet| model::house(sheet).map(|form| form[..form.len().min(2048)].to_vec())),
    ("last-feed-lost", |sheet| model::house(sheet).map(|form| form[..form.len() - 1].to_vec())),
    ("reactions-dropped", |sheet| house_with(sheet, Slip::ReactionsDropped)),
    ("reactions-copied", |sheet| house_with(sheet, Slip::ReactionsCopied)),
    ("reactions-of-1-listed", |sheet| house_with(sheet, Slip::ReactionsOf1Listed)),
    ("reactions-0-written", |sheet| house_with(sheet, Slip::Reactions0Written)),
    ("reactions-in-their-order", |sheet| house_with(sheet, Slip::ReactionsInTheirOrder)),
    ("reactions-in-alphabet", |sheet| house_with(sheet, Slip::ReactionsInAlphabet)),
    ("reactions-by-minutes", |sheet| house_with(sheet, Slip::ReactionsByMinutes)),
    ("reactions-before-rules", |sheet| house_with(sheet, Slip::ReactionsBeforeRules)),
    ("reactions-count-of-signals", |sheet| house_with(sheet, Slip::ReactionsCountOfSignals)),
    ("reactions-count-as-typed", |sheet| house_with(sheet, Slip::ReactionsCountAsTyped)),
    ("reactions-of-the-first-only", |sheet| house_with(sheet, Slip::ReactionsOfTheFirst)),
    ("labels-dropped", |sheet| house_with(sheet, Slip::LabelsDropped)),
    ("labels-copied", |sheet| house_with(sheet, Slip::LabelsCopied)),
    ("labels-with-dashes", |sheet| house_with(sheet, Slip::LabelsWithDashes)),
    ("labels-in-typed-order", |sheet| house_with(sheet, Slip::LabelsInTypedOrder)),
    ("labels-in-alphabet", |sheet| house_with(sheet, Slip::LabelsInAlphabet)),
    ("label-letters-as-typed", |sheet| house_with(sheet, Slip::LabelLettersAsTyped)),
    ("label-letters-in-alphabet", |sheet| house_with(sheet, Slip::LabelLettersInAlphabet)),
    ("label-true-letters-first", |sheet| house_with(sheet, Slip::LabelTrueFirst)),
    ("label-signs-lost", |sheet| house_with(sheet, Slip::LabelSignsLost)),
    ("labels-count-of-events", |sheet| house_with(sheet, Slip::LabelsCountOfEvents)),
    ("labels-count-as-typed", |sheet| house_with(sheet, Slip::LabelsCountAsTyped)),
    ("labels-of-the-first-only", |sheet| house_with(sheet, Slip::LabelsOfTheFirst)),
    ("labels-before-reactions", |sheet| house_with(sheet, Slip::LabelsBeforeReactions)),
    ("labels-0-written", |sheet| house_with(sheet, Slip::Labels0Written)),
    ("labels-without-reactions-0", |sheet| house_with(sheet, Slip::LabelsWithoutReactions0)),
    ("reactions-0-if-cases-were-typed", |sheet| house_with(sheet, Slip::Reactions0IfTyped)),
    ("labels-only-if-slow", |sheet| house_with(sheet, Slip::LabelsOnlyIfSlow)),
    ("labels-joined-to-rules", |sheet| house_with(sheet, Slip::LabelsJoinedToRules)),
    ("label-of-givers-dropped", |sheet| house_with(sheet, Slip::LabelsOfGiversDropped)),
    ("digits-place-skipped", |sheet| model::house(sheet).map(|form| respelled(&form, digits::Slip::PlaceSkipped))),
    ("digits-leading-zero", |sheet| model::house(sheet).map(|form| respelled(&form, digits::Slip::LeadingZero))),
    ("digits-ten-ones", |sheet| model::house(sheet).map(|form| respelled(&form, digits::Slip::TenOnes))),
    ("digits-zeros-lost", |sheet| model::house(sheet).map(|form| respelled(&form, digits::Slip::ZerosLost))),
    ("digits-nothing-for-0", |sheet| model::house(sheet).map(|form| respelled(&form, digits::Slip::NothingForZero))),
    ("digits-nine-is-eight", |sheet| model::house(sheet).map(|form| respelled(&form, digits::Slip::NineIsEight))),
];

/// The same without a slip, so that it is the slip that is noticed.
pub fn house_by_sorting(sheet: &[u8]) -> Result<Vec<u8>, Refusal> {
    house_with(sheet, Slip::None).map(|form| respelled(&form, digits::Slip::None))
}

#[derive(Clone, Copy, PartialEq)]
enum Slip {
    None,
    GreatestLimit,
    FirstLimit,
    LastLimit,
    NearestLimit,
    LettersReversed,
    LettersAsTyped,
    LettersInAlphabet,
    FalseLettersLast,
    LabelOrderCounts,
    SignsIgnored,
    NotSwapped,
    NotNegated,
    EndLost,
    ToFirst,
    LabelFirst,
    FalseFirst,
    WeightsReversed,
    NamesInAlphabet,
    OrderAsTyped,
    MinusZero,
    CountAsTyped,
    RowDropped,
    Refused64,
    RefusedUnmerged,
    SelfDropped,
    IdleSelfDropped,
    BeyondHorizonDropped,
    ImpliedDropped,
    ReactionsDropped,
    ReactionsCopied,
    ReactionsOf1Listed,
    Reactions0Written,
    ReactionsInTheirOrder,
    ReactionsInAlphabet,
    ReactionsByMinutes,
    ReactionsBeforeRules,
    ReactionsCountOfSignals,
    ReactionsCountAsTyped,
    ReactionsOfTheFirst,
    LabelsDropped,
    LabelsCopied,
    LabelsWithDashes,
    LabelsInTypedOrder,
    LabelsInAlphabet,
    LabelLettersAsTyped,
    LabelLettersInAlphabet,
    LabelTrueFirst,
    LabelSignsLost,
    LabelsCountOfEvents,
    LabelsCountAsTyped,
    LabelsOfTheFirst,
    LabelsBeforeReactions,
    Labels0Written,
    LabelsWithoutReactions0,
    Reactions0IfTyped,
    LabelsOnlyIfSlow,
    LabelsJoinedToRules,
    LabelsOfGiversDropped,
}

/// A row with its label as it was typed, its place among the rows, and whether its limit was negated.
#[derive(Clone)]
struct Typed {
    from: usize,
    to: usize,
    limit: i64,
    label: Vec<(usize, bool)>,
    place: usize,
    negated: bool,
}

/// A house form made another way than the model's, by sorting, with one slip or none.
fn house_with(sheet: &[u8], slip: Slip) -> Result<Vec<u8>, Refusal> {
    let net = model::read(sheet)?;
    let refused = Err(Refusal { number: 17, line: 0 });
    let mut rows = typed_rows(&net, slip);
    if slip == Slip::RefusedUnmerged && rows.len() == 64 {
        return refused;
    }
    rows.sort_by_key(|row| (row_key(sheet, &net, row, slip), kept_first(row, slip)));
    rows.dedup_by_key(|row| row_key(sheet, &net, row, slip));
    drop_rows(&net, &mut rows, slip);
    match (rows.len(), slip) {
        (64, Slip::Refused64) => return refused,
        (64, Slip::RowDropped) => drop(rows.pop()),
        _ => {}
    }
    if slip == Slip::OrderAsTyped {
        rows.sort_by_key(|row| row.place);
    }
    let name = |event: usize| String::from_utf8_lossy(&sheet[net.events[event].clone()]).into_owned();
    let mut form = format!("horizon,{}\nevents,{}\n", net.horizon, net.events.len());
    (0..net.events.len()).for_each(|event| form += &format!("{}\n", name(event)));
    form += &format!("signals,{}\n", net.signals.len());
    net.signals.iter().for_each(|signal| form += &format!("{},{}\n", char::from(signal.letter), name(signal.event)));
    let labels = label_section(sheet, &net, slip);
    let section = match reaction_section(sheet, &net, slip) {
        section if slip == Slip::LabelsBeforeReactions => labels + &section,
        section => section + &labels,
    };
    if slip == Slip::ReactionsBeforeRules {
        form += &section;
    }
    form += &format!("rules,{}\n", if slip == Slip::CountAsTyped { net.rules.len() } else { rows.len() });
    for row in &rows {
        let minus = if slip == Slip::MinusZero && row.limit == 0 && row.negated { "-" } else { "" };
        form += &format!("max,{},{},{minus}{},{}\n", name(row.from), name(row.to), row.limit, letters(&net, row, slip));
    }
    if slip != Slip::ReactionsBeforeRules {
        form += &section;
    }
    Ok(form.into_bytes())
}

/// The section of reactions with its heading, or nothing.
fn reaction_section(sheet: &[u8], net: &Net, slip: Slip) -> String {
    let typed = typed_reactions(sheet).unwrap_or_default();
    let slow = |line: &String| !line.ends_with(",1");
    let mut lines: Vec<String> = match slip {
        Slip::ReactionsDropped => vec![],
        Slip::ReactionsCopied => typed.clone(),
        Slip::ReactionsInTheirOrder => typed.iter().filter(|line| slow(line)).cloned().collect(),
        _ => {
            let all = net.signals.iter().map(|signal| format!("{},{}", char::from(signal.letter), signal.reaction));
            all.filter(|line| slip == Slip::ReactionsOf1Listed || slow(line)).collect()
        }
    };
    match slip {
        Slip::ReactionsInAlphabet => lines.sort(),
        Slip::ReactionsByMinutes => lines.sort_by_key(|line| line[2..].parse::<i64>().expect("minutes")),
        Slip::ReactionsOfTheFirst => lines.truncate(1),
        _ => {}
    }
    let count = match slip {
        Slip::ReactionsCountOfSignals => net.signals.len(),
        Slip::ReactionsCountAsTyped => typed.len(),
        _ => lines.len(),
    };
    let text: String = lines.iter().map(|line| format!("{line}\n")).collect();
    let needed = match slip {
        Slip::LabelsDropped | Slip::LabelsWithoutReactions0 | Slip::LabelsOnlyIfSlow => false,
        Slip::Reactions0Written => true,
        Slip::Reactions0IfTyped => net.is_labelled() || typed_labels(sheet).is_some(),
        Slip::LabelsCopied | Slip::Labels0Written => typed_labels(sheet).is_some(),
        _ => net.is_labelled(),
    };
    if lines.is_empty() && !needed { text } else { format!("reactions,{count}\n{text}") }
}

/// The section of labels with its heading, or nothing.
fn label_section(sheet: &[u8], net: &Net, slip: Slip) -> String {
    let typed = typed_labels(sheet).unwrap_or_default();
    let name = |event: usize| String::from_utf8_lossy(&sheet[net.events[event].clone()]).into_owned();
    let line = |event: usize| format!("{},{}", name(event), label_letters(net, event, slip));
    let place = |line: &String| (0..net.events.len()).find(|&event| line.split(',').next() == Some(&name(event)));
    let with_dashes = slip == Slip::LabelsWithDashes && net.is_labelled();
    let labelled = |event: &usize| with_dashes || !net.labels[*event].is_empty();
    let gives = |event: usize| net.signals.iter().any(|signal| signal.event == event);
    let mut events: Vec<usize> = match slip {
        Slip::LabelsDropped => vec![],
        Slip::LabelsInTypedOrder => typed.iter().filter_map(place).filter(labelled).collect(),
        Slip::LabelsOnlyIfSlow if !net.is_slow() => vec![],
        _ => (0..net.events.len()).filter(labelled).collect(),
    };
    match slip {
        Slip::LabelsInAlphabet => events.sort_by_key(|&event| name(event)),
        Slip::LabelsOfTheFirst => events.truncate(1),
        Slip::LabelsOfGiversDropped => events.retain(|&event| !gives(event)),
        _ => {}
    }
    let own: Vec<String> = events.into_iter().map(line).collect();
    let lines = if slip == Slip::LabelsCopied { typed.clone() } else { own };
    let count = match slip {
        Slip::LabelsCountOfEvents => net.events.len(),
        Slip::LabelsCountAsTyped => typed.len(),
        _ => lines.len(),
    };
    let empty = match slip {
        Slip::Labels0Written | Slip::LabelsCopied => typed_labels(sheet).is_none() && lines.is_empty(),
        _ => lines.is_empty(),
    };
    let text: String = lines.iter().map(|line| format!("{line}\n")).collect();
    if empty { text } else { format!("cases,{count}\n{text}") }
}

/// The letters of an event's label.
fn label_letters(net: &Net, event: usize, slip: Slip) -> String {
    let mut label = net.labels[event].clone();
    match slip {
        Slip::LabelLettersAsTyped => {}
        Slip::LabelLettersInAlphabet => label.sort_by_key(|letter| net.signals[letter.0].letter),
        Slip::LabelTrueFirst => label.sort_by_key(|letter| (!letter.1, letter.0)),
        _ => label.sort(),
    }
    let sign = |truth: bool| if truth || slip == Slip::LabelSignsLost { "" } else { "!" };
    let one = |letter: &(usize, bool)| format!("{}{}", sign(letter.1), char::from(net.signals[letter.0].letter));
    if label.is_empty() { "-".to_string() } else { label.iter().map(one).collect() }
}

/// A `fix` refused as if its rows were too many.
fn seventeen_for_22(refusal: Refusal) -> Refusal {
    if refusal.number == 22 { Refusal { number: 17, line: 0 } } else { refusal }
}

fn typed_rows(net: &Net, slip: Slip) -> Vec<Typed> {
    let mut rows = vec![];
    for rule in &net.rules {
        let Rule { kind, from, to, limit, ref label } = *rule;
        let joined = || {
            let mut whole = label.clone();
            let more = net.labels[from].iter().chain(&net.labels[to]);
            more.for_each(|letter| if whole.iter().all(|own| own.0 != letter.0) { whole.push(*letter) });
            whole
        };
        let label = if slip == Slip::LabelsJoinedToRules { &joined() } else { label };
        let (label, place) = (label.clone(), rows.len());
        if kind == Kind::Max {
            rows.push(Typed { from, to, limit, label, place, negated: false });
            continue;
        }
        let mut min = Typed { from: to, to: from, limit: -limit, label, place, negated: true };
        match slip {
            Slip::NotSwapped => (min.from, min.to) = (from, to),
            Slip::NotNegated => min.limit = limit,
            Slip::EndLost => min.limit = min.limit.max(-10_079),
            _ => {}
        }
        rows.push(min);
    }
    rows
}

/// Of rows with equal keys the one for which this is least stays.
fn kept_first(row: &Typed, slip: Slip) -> i64 {
    match slip {
        Slip::GreatestLimit => -row.limit,
        Slip::FirstLimit => row.place as i64,
        Slip::LastLimit => -(row.place as i64),
        Slip::NearestLimit => row.limit.abs(),
        _ => row.limit,
    }
}

/// What rows are ordered by, and what two rows share when one of them goes.
fn row_key(sheet: &[u8], net: &Net, row: &Typed, slip: Slip) -> (Vec<usize>, Vec<(usize, bool)>) {
    let last = net.signals.len().saturating_sub(1);
    let weight = |signal: usize| 1 << if slip == Slip::WeightsReversed { last - signal } else { signal };
    let sum = |truth: bool| row.label.iter().filter(|letter| letter.1 == truth).map(|letter| weight(letter.0)).sum();
    let (trues, falses): (usize, usize) = (sum(true), sum(false));
    let rank = |event: usize| {
        let name = |event: usize| &sheet[net.events[event].clone()];
        (0..net.events.len()).filter(|&other| name(other) < name(event)).count()
    };
    let numbers = match slip {
        Slip::ToFirst => [row.to, row.from, trues, falses],
        Slip::LabelFirst => [trues, falses, row.from, row.to],
        Slip::FalseFirst => [row.from, row.to, falses, trues],
        Slip::SignsIgnored => [row.from, row.to, trues + falses, 0],
        Slip::NamesInAlphabet => [rank(row.from), rank(row.to), trues, falses],
        _ => [row.from, row.to, trues, falses],
    };
    (numbers.to_vec(), if slip == Slip::LabelOrderCounts { row.label.clone() } else { vec![] })
}

fn drop_rows(net: &Net, rows: &mut Vec<Typed>, slip: Slip) {
    let all = rows.clone();
    let implied = |row: &Typed| {
        let same_ends = |other: &&Typed| other.from == row.from && other.to == row.to && other.limit <= row.limit;
        let wider = |other: &Typed| other.label.len() < row.label.len() && other.label.iter().all(|letter| row.label.contains(letter));
        all.iter().filter(same_ends).any(wider)
    };
    rows.retain(|row| match slip {
        Slip::SelfDropped => row.from != row.to,
        Slip::IdleSelfDropped => row.from != row.to || row.limit < 0,
        Slip::BeyondHorizonDropped => row.limit < net.horizon,
        Slip::ImpliedDropped => !implied(row),
        _ => true,
    });
}

fn letters(net: &Net, row: &Typed, slip: Slip) -> String {
    let mut label = row.label.clone();
    match slip {
        Slip::LettersAsTyped => {}
        Slip::LettersInAlphabet => label.sort_by_key(|letter| net.signals[letter.0].letter),
        Slip::FalseLettersLast => label.sort_by_key(|letter| (!letter.1, letter.0)),
        _ => label.sort(),
    }
    if slip == Slip::LettersReversed {
        label.reverse();
    }
    let one = |letter: &(usize, bool)| [if letter.1 { "" } else { "!" }, &char::from(net.signals[letter.0].letter).to_string()].concat();
    if label.is_empty() { "-".to_string() } else { label.iter().map(one).collect() }
}

// ---------------------------------------------------------------- Wrong converted sheets

pub const CONVERT_FAULTS: [(&str, Printer); 68] = [
    ("min-left-out", |sheet| convert_with(sheet, Converted::MinLeftOut)),
    ("max-left-out", |sheet| convert_with(sheet, Converted::MaxLeftOut)),
    ("both-max", |sheet| convert_with(sheet, Converted::BothMax)),
    ("both-min", |sheet| convert_with(sheet, Converted::BothMin)),
    ("min-first", |sheet| convert_with(sheet, Converted::MinFirst)),
    ("min-negated", |sheet| convert_with(sheet, Converted::MinNegated)),
    ("both-negated", |sheet| convert_with(sheet, Converted::BothNegated)),
    ("two-max-rows", |sheet| convert_with(sheet, Converted::AsMaxRows)),
    ("min-with-ends-swapped", |sheet| convert_with(sheet, Converted::EndsSwapped)),
    ("label-in-signal-order", |sheet| convert_with(sheet, Converted::LabelOrdered)),
    ("label-lost", |sheet| convert_with(sheet, Converted::LabelLost)),
    ("limit-0-once", |sheet| convert_with(sheet, Converted::ZeroOnce)),
    ("self-row-once", |sheet| convert_with(sheet, Converted::SelfOnce)),
    ("doubles-dropped", |sheet| convert_with(sheet, Converted::DoublesDropped)),
    ("min-rows-at-the-end", |sheet| convert_with(sheet, Converted::MinAtTheEnd)),
    ("both-rows-at-the-end", |sheet| convert_with(sheet, Converted::BothAtTheEnd)),
    ("each-fix-of-a-row-replaced", |sheet| convert_with(sheet, Converted::EachFixReplaced)),
    ("nothing-done", |sheet| convert_with(sheet, Converted::NothingDone)),
    ("only-the-first-converted", |sheet| convert_with(sheet, Converted::OnlyFirst)),
    ("only-the-last-converted", |sheet| convert_with(sheet, Converted::OnlyLast)),
    ("first-missed", |sheet| convert_with(sheet, Converted::FirstMissed)),
    ("last-missed", |sheet| convert_with(sheet, Converted::LastMissed)),
    ("second-of-two-missed", |sheet| convert_with(sheet, Converted::SecondOfTwoMissed)),
    ("count-kept", |sheet| convert_with(sheet, Converted::CountKept)),
    ("count-one-more", |sheet| convert_with(sheet, Converted::CountOneMore)),
    ("count-doubled", |sheet| convert_with(sheet, Converted::CountDoubled)),
    ("count-of-fix-rows", |sheet| convert_with(sheet, Converted::CountOfFixes)),
    ("count-of-one-digit", |sheet| convert_with(sheet, Converted::CountOfOneDigit)),
    ("count-of-two-digits", |sheet| convert_with(sheet, Converted::CountOfTwoDigits)),
    ("count-ten-ones", |sheet| counted(sheet, digits::Slip::TenOnes)),
    ("count-leading-zero", |sheet| counted(sheet, digits::Slip::LeadingZero)),
    ("count-nothing-for-0", |sheet| counted(sheet, digits::Slip::NothingForZero)),
    ("cases-converted", |sheet| convert_with(sheet, Converted::CasesConverted)),
    ("names-converted", |sheet| convert_with(sheet, Converted::NamesConverted)),
    ("other-rows-turned", |sheet| convert_with(sheet, Converted::OthersTurned)),
    ("other-labels-in-signal-order", |sheet| convert_with(sheet, Converted::OthersOrdered)),
    ("reactions-dropped", |sheet| convert_with(sheet, Converted::ReactionsDropped)),
    ("reactions-of-1-dropped", |sheet| convert_with(sheet, Converted::ReactionsOf1Dropped)),
    ("cases-dropped", |sheet| convert_with(sheet, Converted::CasesDropped)),
    ("cases-with-dashes-dropped", |sheet| convert_with(sheet, Converted::DashesDropped)),
    ("64-rows-refused", |sheet| convert_with(sheet, Converted::Refused64)),
    ("65-rows-accepted", |sheet| convert_with(sheet, Converted::Passed65)),
    ("17-missed", |sheet| convert_with(sheet, Converted::NeverRefused)),
    ("64-rules-refused", |sheet| convert_with(sheet, Converted::Refused64Rules)),
    ("17-of-fix-rows-only", |sheet| convert_with(sheet, Converted::FixesOnly)),
    ("17-with-a-line", |sheet| convert_with(sheet, Converted::SeventeenWithLine)),
    ("17-at-the-heading", |sheet| convert_with(sheet, Converted::SeventeenAtTheHeading)),
    ("17-is-5", |sheet| convert_with(sheet, Converted::SeventeenIs5)),
    ("17-is-12", |sheet| convert_with(sheet, Converted::SeventeenIs12)),
    ("17-before-the-sheet", |sheet| convert_with(sheet, Converted::SeventeenFirst)),
    ("17-of-different-rows", seventeen_of_different_rows),
    ("22", |sheet| convert_with(sheet, Converted::TwentyTwo)),
    ("22-on-a-row-at-fault", |sheet| convert_with(sheet, Converted::TwentyTwoOnTheRow)),
    ("22-before-a-fault", |sheet| convert_with(sheet, Converted::TwentyTwoBefore)),
    ("fix-is-3", |sheet| convert_with(sheet, Converted::FixIsThree)),
    ("line-lost", |sheet| convert_with(sheet, Converted::LineLost)),
    ("line-before", |sheet| convert_with(sheet, Converted::LineBefore)),
    ("line-behind", |sheet| convert_with(sheet, Converted::LineBehind)),
    ("line-as-converted", |sheet| convert_with(sheet, Converted::LineAsConverted)),
    ("refused-sheets-as-they-are", |sheet| convert_with(sheet, Converted::RefusedAsItIs)),
    ("house-form", |sheet| model::house(&model::convert(sheet)?)),
    ("without-fix-silent", |sheet| if model::read(sheet).is_ok() { Ok(vec![]) } else { model::convert(sheet) }),
    ("as-long-as-the-sheet", |sheet| model::convert(sheet).map(|text| text[..sheet.len()].to_vec())),
    ("2048-bytes-at-most", |sheet| model::convert(sheet).map(|text| text[..text.len().min(2048)].to_vec())),
    ("last-feed-lost", |sheet| model::convert(sheet).map(|text| text[..text.len() - 1].to_vec())),
    ("feed-behind", |sheet| model::convert(sheet).map(|text| [text, b"\n".to_vec()].concat())),
    ("refusal-without-feed", |sheet| model::convert(sheet).or_else(|refusal| Ok(without_feed(refusal)))),
    ("4096-bytes-read", |sheet| model::convert(&sheet[..sheet.len().min(4096)])),
];

/// The same without a slip, so that it is the slip that is noticed.
pub fn convert_by_rows(sheet: &[u8]) -> Result<Vec<u8>, Refusal> {
    counted(sheet, digits::Slip::None)
}

/// A converted sheet with the count of its rules spelt by counting off.
fn counted(sheet: &[u8], slip: digits::Slip) -> Result<Vec<u8>, Refusal> {
    converters::convert_again(sheet).map(|text| recounted(&text, slip))
}

/// 17 only where more than 64 of the rows that would result are different ones.
fn seventeen_of_different_rows(sheet: &[u8]) -> Result<Vec<u8>, Refusal> {
    let all = convert_with(sheet, Converted::NeverRefused)?;
    let rows = all.split(|&byte| byte == b'\n').filter(|line| is_of(line, b"max", 5) || is_of(line, b"min", 5));
    if rows.collect::<BTreeSet<&[u8]>>().len() <= 64 { Ok(all) } else { model::convert(sheet) }
}
