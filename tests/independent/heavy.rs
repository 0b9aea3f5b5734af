//! Wrong programs about how long a sheet can keep us, to see that they are noticed: libraries whose
//! solver counts other rounds or puts their count elsewhere, by the mode without a word; and writers of the heaviest
//! sheets, as libraries by that mode and as programs by the mode `ring`.

use crate::early;
use crate::leaps::{self, Slip as Solved};
use crate::library::own::{self, refused_call, write_text};
use crate::library::Library;
use crate::model::{self, Net, Refusal};
use crate::ringers::{ring_again, ring_with, Slip};
use crate::rounds::{self, Run};

/// A program that prints the sheet for a line, or its refusal.
pub type Printer = fn(&[u8]) -> Result<Vec<u8>, Refusal>;

/// What the mode `ring` compares: a program, and a library.
#[derive(Clone, Copy)]
pub struct Ringing {
    pub print: Printer,
    pub library: Library,
}

/// The right one; its solver passes over rounds.
pub const RIGHT: Ringing = Ringing { print: ring_again, library: LEAPING };

pub const LEAPING: Library = Library { solve: leaping, solve_within: leaping_within, ..own::LIBRARY };

const fn solver(solve: fn(&[u8], &mut [u8]) -> u64) -> Library {
    Library { solve, ..own::LIBRARY }
}

const fn writer(ring: fn(&[u8], &mut [u8]) -> u64) -> Library {
    Library { ring, ..own::LIBRARY }
}

/// The wrong libraries.
pub fn faults() -> Vec<(&'static str, Library)> {
    [&COUNTS[..], &CALLS, &ROOMS].concat()
}

/// What the mode `ring` is to notice.
pub fn ring_faults() -> Vec<(&'static str, Ringing)> {
    let printing = |(name, print): (&'static str, Printer)| (name, Ringing { print, ..RIGHT });
    let calling = |(name, library): (&'static str, Library)| (name, Ringing { library, ..RIGHT });
    let printers = PRINTERS.into_iter().chain(PROGRAMS).map(printing);
    printers.chain(BESIDE.into_iter().chain(early::RINGS).map(calling)).collect()
}

/// The wrong program with a name.
pub fn printer(name: &str) -> Option<Printer> {
    PRINTERS.into_iter().chain(PROGRAMS).find(|fault| fault.0 == name).map(|fault| fault.1)
}

// ---------------------------------------------------------------- Wrong counts

const COUNTS: [(&str, Library); 33] = [
    ("rounds-left-out", solver(|sheet, table| recounted(sheet, table, 0..=13, |_| 0))),
    ("rounds-left-out-with-a-table", solver(|sheet, table| recounted(sheet, table, 0..=0, |_| 0))),
    ("rounds-left-out-with-13", solver(|sheet, table| recounted(sheet, table, 13..=13, |_| 0))),
    ("rounds-last-not-counted", solver(|sheet, table| counted_as(sheet, table, Solved::LastNotCounted))),
    ("rounds-idle-not-counted", solver(|sheet, table| counted_as(sheet, table, Solved::IdleNotCounted))),
    ("rounds-passing-not-counted", solver(|sheet, table| counted_as(sheet, table, Solved::PassingNotCounted))),
    ("rounds-one-more-with-a-table", solver(|sheet, table| recounted(sheet, table, 0..=0, |count| count + 1))),
    ("rounds-one-more-with-13", solver(|sheet, table| recounted(sheet, table, 13..=13, |count| count + 1))),
    ("rounds-limit-tested-before", solver(|sheet, table| counted_as(sheet, table, Solved::LimitTestedBefore))),
    ("rounds-are-turns", solver(|sheet, table| own::solve_by(sheet, table, turns))),
    ("rounds-are-turns-with-13", solver(|sheet, table| own::solve_by(sheet, table, turns_with_13))),
    ("rounds-period-as-one", solver(|sheet, table| counted_as(sheet, table, Solved::PeriodAsOne))),
    ("rounds-one-period-too-many", solver(|sheet, table| counted_as(sheet, table, Solved::OneTooMany))),
    ("rounds-raised-in-place", solver(|sheet, table| counted_as(sheet, table, Solved::RaisedInPlace))),
    ("rounds-by-one-signal-cases", solver(|sheet, table| counted_as(sheet, table, Solved::OneSignalCases))),
    ("rounds-of-reaction-one", solver(|sheet, table| counted_as(sheet, table, Solved::ReactionOfOne))),
    ("rounds-without-label-waits", solver(|sheet, table| counted_as(sheet, table, Solved::NoWaits))),
    ("rounds-of-absent-cells-too", solver(|sheet, table| counted_as(sheet, table, Solved::AbsentRaised))),
    ("rounds-as-many-as-may-be", solver(|sheet, table| own::solve_by(sheet, table, as_many_as_may_be))),
    ("rounds-of-a-byte", solver(|sheet, table| recounted(sheet, table, 0..=13, |count| count % 256))),
    ("rounds-255-at-most", solver(|sheet, table| recounted(sheet, table, 0..=13, |count| count.min(255)))),
    ("rounds-high-byte-first", solver(|sheet, table| recounted(sheet, table, 0..=13, |it| it.swap_bytes() >> 8))),
    ("rounds-a-byte-later", solver(|sheet, table| moved(own::solve(sheet, table), 48))),
    ("rounds-a-byte-sooner", solver(|sheet, table| moved(own::solve(sheet, table), 32))),
    ("rounds-where-minutes-are", solver(|sheet, table| moved(own::solve(sheet, table), 24))),
    ("rounds-where-the-line-is", solver(|sheet, table| moved(own::solve(sheet, table), 8))),
    ("rounds-beside-12", solver(|sheet, table| beside_12(sheet, table, |net| rounds::run(net).count))),
    ("rounds-1-beside-12", solver(|sheet, table| beside_12(sheet, table, |_| 1))),
    ("rounds-1-beside-1-to-10", solver(|sheet, table| recounted(sheet, table, 1..=10, |_| 1))),
    ("rounds-1-beside-20-to-22", solver(|sheet, table| recounted(sheet, table, 20..=22, |_| 1))),
    ("rounds-with-13-at-once", solver(|sheet, table| own::solve_by(sheet, table, thirteen_at_once))),
    ("minutes-beside-13", solver(minutes_beside_13)),
    ("line-1-beside-13", solver(|sheet, table| beside_13(own::solve(sheet, table), 1 << 8))),
];

/// The right solver, which passes over rounds.
pub fn leaping(sheet: &[u8], table: &mut [u8]) -> u64 {
    own::solve_by(sheet, table, |net| leaps::run_and_turns(net).0)
}

/// The same where it may be stopped.
pub fn leaping_within(sheet: &[u8], rounds: u32, table: &mut [u8]) -> u64 {
    own::solve_within_by(sheet, rounds, table, |net, most| leaps::stopped_with(net, most, Solved::None))
}

/// The right table, with the count of a run with a slip.
fn counted_as(sheet: &[u8], table: &mut [u8], slip: Solved) -> u64 {
    own::solve_by(sheet, table, |net| Run { count: leaps::run_with(net, slip).count, ..rounds::run(net) })
}

/// Another count where the answer's number is one of these.
fn recounted(
    sheet: &[u8], table: &mut [u8], numbers: std::ops::RangeInclusive<u64>, change: fn(u32) -> u32,
) -> u64 {
    let answer = own::solve(sheet, table);
    if !numbers.contains(&(answer & 0xff)) || answer == refused_call(12) {
        return answer;
    }
    own::with_rounds(answer & 0xff_ffff_ffff, change((answer >> 40) as u32) & 0xff_ffff)
}

/// The rounds that a run makes one by one, where it passes over others.
fn turns(net: &Net) -> Run {
    let (run, count) = leaps::run_and_turns(net);
    Run { count, ..run }
}

fn turns_with_13(net: &Net) -> Run {
    let (run, count) = leaps::run_and_turns(net);
    if run.table.is_none() { Run { count, ..run } } else { run }
}

/// "It is at most C × H + 1".
fn as_many_as_may_be(net: &Net) -> Run {
    Run { count: (net.free_cells() as i64 * net.horizon + 1) as u32, ..rounds::run(net) }
}

/// A solver that sees that there is no table before it makes a round.
fn thirteen_at_once(net: &Net) -> Run {
    let run = rounds::run(net);
    if run.table.is_none() { Run { count: 1, ..run } } else { run }
}

/// The count so many bits further up than the answer's lowest, and not where it belongs.
fn moved(answer: u64, bits: u32) -> u64 {
    answer & 0xff_ffff_ffff | answer >> 40 << bits
}

/// 12 with a count.
fn beside_12(sheet: &[u8], table: &mut [u8], count: fn(&Net) -> u32) -> u64 {
    match (own::solve(sheet, table), model::read(sheet)) {
        (12, Ok(net)) => own::with_rounds(12, count(&net)),
        (answer, _) => answer,
    }
}

fn beside_13(answer: u64, more: u64) -> u64 {
    if answer & 0xff == 13 { answer | more } else { answer }
}

fn minutes_beside_13(sheet: &[u8], table: &mut [u8]) -> u64 {
    let cells = model::read(sheet).map_or(0, |net| net.cells() as u64);
    beside_13(own::solve(sheet, table), cells << 24)
}

// ---------------------------------------------------------------- Wrong writers

/// Each slip of `ringers.rs`, as a library and as a program.
macro_rules! slips {
    ($count:literal: $($name:literal $slip:ident,)*) => {
        const CALLS: [(&str, Library); $count] =
            [$((concat!("ring-", $name), writer(|line, out| write_text(ring_with(line, Slip::$slip), out))),)*];
        const PRINTERS: [(&str, Printer); $count] = [$(($name, |line| ring_with(line, Slip::$slip)),)*];
    };
}

slips! { 71:
    "4096-refused" Refused4096,
    "4097-accepted" Accepted4097,
    "length-not-asked" LengthNotAsked,
    "1-on-line-1" LongOnLine1,
    "last-feed-optional" LastFeedOptional,
    "cr-accepted" CrAccepted,
    "nul-ends-the-line" NulEnds,
    "2-on-line-0" TwoOnLine0,
    "2-on-line-2" TwoOnLine2,
    "more-fields-ignored" MoreFieldsIgnored,
    "last-comma-ignored" LastCommaIgnored,
    "spaces-separate" SpacesSeparate,
    "second-missing-is-0" SecondMissingIsZero,
    "empty-line-is-2" EmptyIsTwo,
    "first-field-before-the-number" FieldsInTurn,
    "second-field-before-the-first" SecondFieldFirst,
    "5-before-4" FiveBeforeFour,
    "4-is-5" FourIsFive,
    "5-is-4" FiveIsFour,
    "leading-0-accepted" LeadingZero,
    "minus-0-accepted" MinusZero,
    "plus-accepted" Plus,
    "spaces-accepted" Spaces,
    "empty-is-0" EmptyIsZero,
    "minus-ignored" MinusIgnored,
    "negative-is-4" NegativeIsFour,
    "long-is-4" LongIsFour,
    "wraps-at-2-16" WrapsAt16Bits,
    "wraps-at-2-32" WrapsAt32Bits,
    "wraps-at-2-64" WrapsAt64Bits,
    "1-event-accepted" Accepts1,
    "17-events-accepted" Accepts17,
    "2-events-refused" Refuses2,
    "16-events-refused" Refuses16,
    "10081-accepted" AcceptsHorizon10081,
    "10080-refused" RefusesHorizon10080,
    "horizon-0-refused" RefusesHorizon0,
    "fields-exchanged" FieldsExchanged,
    "bytes-behind-ignored" BehindIgnored,
    "feed-behind-ignored" FeedBehindIgnored,
    "10-on-line-1" TenOnLine1,
    "10-on-line-0" TenOnLine0,
    "10-before-the-line" TenBeforeTheLine,
    "10-before-its-numbers" TenBeforeNumbers,
    "second-line-is-3" BehindIsThree,
    "bytes-behind-are-2" BehindIsTwo,
    "1-on-the-first-row" OneOnTheFirstRow,
    "1-on-each-row" OneOnEachRow,
    "0-on-each-row" NoOne,
    "2-on-the-last-row" TwoAtTheEnd,
    "names-from-b" NamesFromB,
    "names-numbered" NamesNumbered,
    "row-from-the-start" RowFromTheStart,
    "last-row-twice" LastRowTwice,
    "first-row-left-out" FirstRowLeftOut,
    "last-row-left-out" LastRowLeftOut,
    "two-rows-for-2-events" TwoRowsForTwo,
    "back-to-the-start" BackToTheStart,
    "back-to-c" BackToTheNext,
    "last-row-first" LastRowFirst,
    "ring-turned-about" Backwards,
    "min-as-max" AsMax,
    "min-turned-into-max" NegatedMax,
    "rules-of-events" CountOfEvents,
    "events-of-rules" EventsOfRules,
    "horizon-one-more" HorizonOneMore,
    "horizon-of-60" HorizonOf60,
    "signals-left-out" SignalsLeftOut,
    "reactions-0-written" ReactionsWritten,
    "labels-left-out" LabelsLeftOut,
    "last-feed-lost" LastFeedLost,
}

/// Wrong about the room that they are lent, or about the answer.
const ROOMS: [(&str, Library); 17] = [
    ("ring-12-before-the-line", writer(|line, out| if out.is_empty() { 12 } else { own::ring(line, out) })),
    ("ring-12-before-10", writer(|line, out| room_before(line, out, 10))),
    ("ring-12-before-5", writer(|line, out| room_before(line, out, 5))),
    ("ring-12-with-line-1", writer(|line, out| with_line_1(own::ring(line, out), 12))),
    ("ring-needs-a-byte-more", writer(|line, out| needing(line, out, |need| need + 1))),
    ("ring-needs-the-longest", writer(|line, out| needing(line, out, |_| 255))),
    ("ring-needs-the-line's-length", writer(|line, out| needing(line, out, |need| need + line.len()))),
    ("ring-byte-behind", writer(byte_behind)),
    ("ring-untouched", writer(|line, out| own::ring(line, &mut out.to_vec()))),
    ("ring-as-far-as-it-fits", writer(as_far_as_it_fits)),
    ("ring-altered-on-12", writer(|line, out| altered_on(line, out, 12))),
    ("ring-altered-on-10", writer(|line, out| altered_on(line, out, 10))),
    ("ring-altered-on-5", writer(|line, out| altered_on(line, out, 5))),
    ("ring-count-one-less", writer(|line, out| answered(own::ring(line, out), |count| count - 1))),
    ("ring-count-lost", writer(|line, out| answered(own::ring(line, out), |_| 0))),
    ("ring-rounds-beside", writer(rounds_beside)),
    ("ring-count-on-a-refusal", writer(|line, out| count_on_a_refusal(own::ring(line, out), out))),
];

/// 12 where the room is too short for any sheet, before this number.
fn room_before(line: &[u8], out: &mut [u8], number: u64) -> u64 {
    let answer = own::ring(line, out);
    if answer & 0xff == number && out.len() < 60 { refused_call(12) } else { answer }
}

fn with_line_1(answer: u64, number: u64) -> u64 {
    if answer == number { answer | 1 << 8 } else { answer }
}

/// A writer that asks for more room than its sheet takes.
fn needing(line: &[u8], out: &mut [u8], need: impl Fn(usize) -> usize) -> u64 {
    match model::ring(line) {
        Ok(text) if out.len() < need(text.len()) => refused_call(12),
        _ => own::ring(line, out),
    }
}

fn byte_behind(line: &[u8], out: &mut [u8]) -> u64 {
    let answer = own::ring(line, out);
    if let (0, Some(behind)) = (answer & 0xff, out.get_mut((answer >> 24) as usize)) {
        *behind = 0;
    }
    answer
}

fn as_far_as_it_fits(line: &[u8], out: &mut [u8]) -> u64 {
    out.iter_mut().zip(model::ring(line).unwrap_or_default()).for_each(|(byte, right)| *byte = right);
    own::ring(line, out)
}

fn altered_on(line: &[u8], out: &mut [u8], number: u64) -> u64 {
    let answer = own::ring(line, out);
    if answer & 0xff == number {
        out.fill(0);
    }
    answer
}

fn answered(answer: u64, change: fn(u64) -> u64) -> u64 {
    if answer & 0xff == 0 { change(answer >> 24) << 24 } else { answer }
}

/// The rounds that the sheet takes, in the bytes that hold the solver's.
fn rounds_beside(line: &[u8], out: &mut [u8]) -> u64 {
    let answer = own::ring(line, out);
    match model::ring(line).map(|sheet| model::read(&sheet)) {
        Ok(Ok(net)) if answer & 0xff == 0 => {
            own::with_rounds(answer, model::ring_rounds(net.events.len(), net.horizon))
        }
        _ => answer,
    }
}

fn count_on_a_refusal(answer: u64, out: &[u8]) -> u64 {
    if answer & 0xff == 0 { answer } else { answer | (out.len() as u64 & 0xffff) << 24 }
}

// ---------------------------------------------------------------- Wrong only for the mode `ring`

const PROGRAMS: [(&str, Printer); 6] = [
    ("only-4096-bytes-read", |line| model::ring(&line[..line.len().min(4_096)])),
    ("line-lost", |line| model::ring(line).map_err(|refusal| Refusal { line: 0, ..refusal })),
    ("refusal-without-feed", |line| model::ring(line).or_else(without_feed)),
    ("refusal-not-printed", |line| model::ring(line).or(Ok(vec![]))),
    ("sheet-twice", |line| model::ring(line).map(|text| text.repeat(2))),
    ("250-bytes-at-most", |line| model::ring(line).map(|text| text[..text.len().min(250)].to_vec())),
];

fn without_feed(Refusal { number, line }: Refusal) -> Result<Vec<u8>, Refusal> {
    Ok(format!("refused {number} line {line}").into_bytes())
}

/// Libraries beside the right program: another writer, or another count of rounds.
const BESIDE: [(&str, Library); 10] = [
    ("call-1-on-the-first-row", of_slip(|line, out| write_text(ring_with(line, Slip::OneOnTheFirstRow), out))),
    ("call-16-events-refused", of_slip(|line, out| write_text(ring_with(line, Slip::Refuses16), out))),
    ("call-10080-refused", of_slip(|line, out| write_text(ring_with(line, Slip::RefusesHorizon10080), out))),
    ("call-byte-behind", of_slip(byte_behind)),
    ("rounds-of-16-bits", solving(|sheet, table| rounds_as(sheet, table, |count| count & 0xffff))),
    ("rounds-65535-at-most", solving(|sheet, table| rounds_as(sheet, table, |count| count.min(65_535)))),
    ("rounds-passing-not-counted", solving(|sheet, table| rounds_as(sheet, table, |count| count - 1))),
    ("rounds-one-more-from-2-16-on", solving(|sheet, table| rounds_as(sheet, table, |it| it + (it >> 16).min(1)))),
    ("rounds-are-turns", solving(|sheet, table| own::solve_by(sheet, table, turns))),
    ("rounds-high-byte-lost-in-the-line", solving(|sheet, table| moved(leaping(sheet, table), 8))),
];

/// For the mode `count`: solvers that count other rounds than plain ones.
pub const SOLVERS: [(&str, Library); 4] = [
    ("solver's-rounds-are-turns", solving(|sheet, table| own::solve_by(sheet, table, turns))),
    ("solver's-rounds-one-less-from-1000-on", solving(|s, table| rounds_as(s, table, |it| it - (it / 1_000).min(1)))),
    ("solver's-rounds-of-a-run-in-place", solving(|sheet, table| counted_as(sheet, table, Solved::RaisedInPlace))),
    ("solver's-rounds-left-out", solving(|sheet, table| leaping(sheet, table) & 0xff_ffff_ffff)),
];

const fn of_slip(ring: fn(&[u8], &mut [u8]) -> u64) -> Library {
    Library { ring, ..LEAPING }
}

const fn solving(solve: fn(&[u8], &mut [u8]) -> u64) -> Library {
    Library { solve, ..LEAPING }
}

fn rounds_as(sheet: &[u8], table: &mut [u8], change: fn(u64) -> u64) -> u64 {
    let answer = leaping(sheet, table);
    answer & 0xff_ffff_ffff | change(answer >> 40) << 40
}
