//! Wrong libraries whose run may be stopped (02, point 9), to see that they are noticed: by the mode without a word,
//! and some that pass over rounds, or are wrong about long runs only, by the modes `count` and `ring`.

use crate::heavy::{leaping_within, LEAPING};
use crate::leaps::{self, Slip};
use crate::library::own::{self, ended, halted, refused_call, roomy, with_rounds};
use crate::library::Library;
use crate::model::{self, Net, BLANK};
use crate::rounds::{self, Floor, Run};
use std::ops::RangeInclusive;

const fn within(solve_within: fn(&[u8], u32, &mut [u8]) -> u64) -> Library {
    Library { solve_within, ..own::LIBRARY }
}

const fn leaping(solve_within: fn(&[u8], u32, &mut [u8]) -> u64) -> Library {
    Library { solve_within, ..LEAPING }
}

/// The wrong libraries. Each is handed a sheet `s`, a number of rounds `n` and a table `t`.
pub fn faults() -> Vec<(&'static str, Library)> {
    [&STOPS[..], &FLOORS, &SUMS, &ANSWERS, &REFUSALS].concat()
}

// ---------------------------------------------------------------- Where the run stops

const STOPS: [(&str, Library); 30] = [
    ("early-a-round-early", within(|s, n, t| stopping(s, n, t, |n| n - 1))),
    ("early-a-round-late", within(|s, n, t| stopping(s, n, t, |n| n.saturating_add(1)))),
    ("early-before-any-round", within(|s, n, t| stopping(s, n, t, |_| 0))),
    ("early-behind-the-first-round", within(|s, n, t| stopping(s, n, t, |_| 1))),
    ("early-never", within(|s, n, t| stopping(s, n, t, |_| u32::MAX))),
    ("early-n-of-8-bits", within(|s, n, t| own::solve_within(s, n & 0xff, t))),
    ("early-n-of-16-bits", within(|s, n, t| own::solve_within(s, n & 0xffff, t))),
    ("early-n-of-16-bits-0-is-no-limit", within(|s, n, t| stopping(s, n, t, |n| or_all(n & 0xffff)))),
    ("early-n-of-16-bits-0-is-no-round", within(|s, n, t| stopping(s, n, t, |n| n & 0xffff))),
    ("early-n-of-24-bits", within(|s, n, t| own::solve_within(s, n & 0xff_ffff, t))),
    ("early-n-of-31-bits", within(|s, n, t| own::solve_within(s, n & 0x7fff_ffff, t))),
    ("early-n-below-0", within(|s, n, t| own::solve_within(s, n * u32::from(n >> 31 == 0), t))),
    ("early-n-bytes-swapped", within(|s, n, t| own::solve_within(s, n.swap_bytes(), t))),
    ("early-stopped-at-its-count", within(|s, n, t| slipping(s, n, t, Slip::StopBeforeEnd))),
    ("early-floor-at-the-count-of-a-table", within(|s, n, t| stopped_at_its_count(s, n, t, true))),
    ("early-floor-at-the-count-of-13", within(|s, n, t| stopped_at_its_count(s, n, t, false))),
    ("early-table-at-the-count-less-one", within(|s, n, t| ended_a_round_before(s, n, t, true))),
    ("early-13-at-the-count-less-one", within(|s, n, t| ended_a_round_before(s, n, t, false))),
    ("early-idle-round-not-made", within(idle_round_not_made)),
    ("early-ended-where-nothing-is-left", within(|s, n, t| ended_if(s, n, t, |_, _, floor| floor.left == 0))),
    ("early-ended-at-the-least-table", within(|s, n, t| ended_if(s, n, t, |_, run, floor| is_least(run, floor)))),
    ("early-13-if-that-is-how-it-ends", within(|s, n, t| ended_if(s, n, t, |_, run, _| run.table.is_none()))),
    ("early-table-if-that-is-how-it-ends", within(|s, n, t| ended_if(s, n, t, |_, run, _| run.table.is_some()))),
    ("early-stops-by-turns", within(|s, n, t| slipping(s, n, t, Slip::StopByTurns))),
    ("early-stop-passed-over", within(|s, n, t| slipping(s, n, t, Slip::StopPassedOver))),
    ("early-stops-at-the-next-period", within(|s, n, t| slipping(s, n, t, Slip::StopAtNextPeriod))),
    ("early-stops-at-the-last-period", within(|s, n, t| slipping(s, n, t, Slip::StopAtLastPeriod))),
    ("early-floor-from-before-the-leap", within(|s, n, t| slipping(s, n, t, Slip::StopBeforeLeap))),
    ("early-period-counted-as-one-round", within(|s, n, t| slipping(s, n, t, Slip::PeriodAsOne))),
    ("early-leaps-a-period-too-far", within(|s, n, t| slipping(s, n, t, Slip::OneTooMany))),
];

/// Another number of rounds where it is not 0.
fn stopping(s: &[u8], n: u32, t: &mut [u8], change: fn(u32) -> u32) -> u64 {
    own::solve_within_by(s, n, t, |net, n| rounds::stopped(net, change(n)))
}

fn or_all(n: u32) -> u32 {
    if n == 0 { u32::MAX } else { n }
}

/// A solver that passes over rounds, with a slip.
fn slipping(s: &[u8], n: u32, t: &mut [u8], slip: Slip) -> u64 {
    own::solve_within_by(s, n, t, |net, n| leaps::stopped_with(net, n, slip))
}

/// Stopped where N is the count of a run to a table, or of one to none.
fn stopped_at_its_count(s: &[u8], n: u32, t: &mut [u8], to_table: bool) -> u64 {
    own::solve_within_by(s, n, t, |net, n| match rounds::stopped(net, n)? {
        run if run.count == n && run.table.is_some() == to_table => Err(floor_after(net, n - 1)),
        run => Ok(run),
    })
}

/// Finished where N is that count less one.
fn ended_a_round_before(s: &[u8], n: u32, t: &mut [u8], to_table: bool) -> u64 {
    ended_if(s, n, t, |n, run, _| n + 1 == run.count && run.table.is_some() == to_table)
}

/// A table is known by its last raise: the count is one less, and so is that of a run which raises nothing.
fn idle_round_not_made(s: &[u8], n: u32, t: &mut [u8]) -> u64 {
    own::solve_within_by(s, n, t, |net, n| match rounds::stopped(net, n.saturating_add(1)) {
        Ok(run) if run.table.is_some() => Ok(Run { count: run.count - 1, ..run }),
        _ => rounds::stopped(net, n),
    })
}

/// Finished, and not stopped, if N, the whole run and the floor are such.
fn ended_if(s: &[u8], n: u32, t: &mut [u8], ends: impl Fn(u32, &Run, &Floor) -> bool) -> u64 {
    own::solve_within_by(s, n, t, |net, n| {
        rounds::stopped(net, n).or_else(|floor| {
            let run = rounds::run(net);
            if ends(n, &run, &floor) { Ok(run) } else { Err(floor) }
        })
    })
}

fn is_least(run: &Run, floor: &Floor) -> bool {
    run.table.as_ref() == Some(&floor.table)
}

fn floor_after(net: &Net, n: u32) -> Floor {
    rounds::stopped(net, n).expect_err("a run of more rounds")
}

// ---------------------------------------------------------------- What it leaves in the table

const FLOORS: [(&str, Library); 27] = [
    ("early-raised-in-place", within(|s, n, t| slipping(s, n, t, Slip::RaisedInPlace))),
    ("early-one-signal-cases", within(|s, n, t| slipping(s, n, t, Slip::OneSignalCases))),
    ("early-reaction-of-one", within(|s, n, t| slipping(s, n, t, Slip::ReactionOfOne))),
    ("early-without-label-waits", within(|s, n, t| slipping(s, n, t, Slip::NoWaits))),
    ("early-absent-cells-raised", within(|s, n, t| slipping(s, n, t, Slip::AbsentRaised))),
    ("early-start-as-late-as-the-horizon", within(|s, n, t| slipping(s, n, t, Slip::StartNotLimited))),
    ("early-start-at-the-horizon", within(|s, n, t| of_starts(s, n, t, |net| net.horizon as u16))),
    ("early-start-is-blank", within(|s, n, t| of_starts(s, n, t, |_| BLANK))),
    ("early-blanks-are-0", within(|s, n, t| of_blanks(s, n, t, |_| 0))),
    ("early-blanks-are-65534", within(|s, n, t| of_blanks(s, n, t, |_| BLANK - 1))),
    ("early-blanks-are-the-horizon", within(|s, n, t| of_blanks(s, n, t, |net| net.horizon as u16))),
    ("early-blank-until-raised", within(|s, n, t| of_others(s, n, t, |it| if it == 0 { BLANK } else { it }))),
    ("early-zeros", within(|s, n, t| of_others(s, n, t, |_| 0))),
    ("early-minutes-of-a-byte", within(|s, n, t| of_others(s, n, t, |it| it % 256))),
    ("early-a-minute-more", within(|s, n, t| of_others(s, n, t, |it| it + 1))),
    ("early-floor-of-the-round-before", within(|s, n, t| floored(s, n, t, |net, n, _| floor_after(net, n - 1).table))),
    ("early-floor-of-the-round-behind", within(|s, n, t| floored(s, n, t, |net, n, _| table_after(net, n + 1)))),
    ("early-the-least-table-for-it", within(|s, n, t| floored(s, n, t, |net, _, floor| least(net).unwrap_or(floor)))),
    ("early-case-0-copied", within(|s, n, t| floored(s, n, t, case_0_copied))),
    ("early-by-events", within(|s, n, t| floored(s, n, t, by_events))),
    ("early-high-byte-first", within(high_byte_first)),
    ("early-floor-not-written", within(|s, n, t| untouched(s, n, t, true))),
    ("early-table-not-written", within(|s, n, t| untouched(s, n, t, false))),
    ("early-writes-behind-a-floor", within(|s, n, t| written_behind(s, n, t, true))),
    ("early-writes-behind-a-table", within(|s, n, t| written_behind(s, n, t, false))),
    ("early-writes-the-odd-byte", within(writes_the_odd_byte)),
    ("early-floor-left-with-13", within(floor_left_with_13)),
];

/// The right sum beside another floor.
fn floored(s: &[u8], n: u32, t: &mut [u8], change: impl Fn(&Net, u32, Vec<u16>) -> Vec<u16>) -> u64 {
    own::solve_within_by(s, n, t, |net, n| {
        rounds::stopped(net, n).map_err(|Floor { table, left }| Floor { table: change(net, n, table), left })
    })
}

/// Another minute for each start.
fn of_starts(s: &[u8], n: u32, t: &mut [u8], minute: fn(&Net) -> u16) -> u64 {
    floored(s, n, t, |net, _, mut floor| {
        floor.chunks_mut(net.events.len()).for_each(|row| row[0] = minute(net));
        floor
    })
}

/// Another number for each blank.
fn of_blanks(s: &[u8], n: u32, t: &mut [u8], number: fn(&Net) -> u16) -> u64 {
    floored(s, n, t, |net, _, floor| floor.iter().map(|&it| if it == BLANK { number(net) } else { it }).collect())
}

/// Another minute for each event that happens, but for the start.
fn of_others(s: &[u8], n: u32, t: &mut [u8], minute: fn(u16) -> u16) -> u64 {
    floored(s, n, t, |net, _, floor| {
        let is_other = |cell: usize, it: u16| it != BLANK && cell % net.events.len() > 0;
        floor.iter().enumerate().map(|(cell, &it)| if is_other(cell, it) { minute(it) } else { it }).collect()
    })
}

/// The floor, or the least good table, or at 13 the floor before it.
fn table_after(net: &Net, n: u32) -> Vec<u16> {
    match rounds::stopped(net, n) {
        Err(floor) => floor.table,
        Ok(run) => run.table.unwrap_or_else(|| floor_after(net, run.count - 1).table),
    }
}

fn least(net: &Net) -> Option<Vec<u16>> {
    rounds::run(net).table
}

fn case_0_copied(net: &Net, _: u32, floor: Vec<u16>) -> Vec<u16> {
    floor[..net.events.len()].repeat(net.cases())
}

/// Event after event, and not case after case.
fn by_events(net: &Net, _: u32, floor: Vec<u16>) -> Vec<u16> {
    let cases = net.cases();
    (0..floor.len()).map(|place| floor[net.cell(place % cases, place / cases)]).collect()
}

/// Whether an answer has a floor, or a table.
fn has(answer: u64, floor: bool) -> bool {
    answer & 0xff == 0 && (answer & FLAG != 0) == floor
}

fn length_of(answer: u64) -> usize {
    2 * (answer >> 24 & 0xffff) as usize
}

fn high_byte_first(s: &[u8], n: u32, t: &mut [u8]) -> u64 {
    let answer = own::solve_within(s, n, t);
    if has(answer, true) {
        t[..length_of(answer)].chunks_exact_mut(2).for_each(|pair| pair.swap(0, 1));
    }
    answer
}

fn untouched(s: &[u8], n: u32, t: &mut [u8], floor: bool) -> u64 {
    let before = t.to_vec();
    let answer = own::solve_within(s, n, t);
    if has(answer, floor) {
        t.copy_from_slice(&before);
    }
    answer
}

fn written_behind(s: &[u8], n: u32, t: &mut [u8], floor: bool) -> u64 {
    let answer = own::solve_within(s, n, t);
    if has(answer, floor) {
        t[length_of(answer)..].fill(0);
    }
    answer
}

fn writes_the_odd_byte(s: &[u8], n: u32, t: &mut [u8]) -> u64 {
    let answer = own::solve_within(s, n, t);
    if has(answer, true) && t.len() % 2 == 1 {
        *t.last_mut().unwrap() = 0;
    }
    answer
}

/// What the last round began with stays in the table.
fn floor_left_with_13(s: &[u8], n: u32, t: &mut [u8]) -> u64 {
    let answer = own::solve_within(s, n, t);
    if let (13, Ok(net)) = (answer & 0xff, model::read(s)) {
        halted(&floor_after(&net, (answer >> 40) as u32 - 1), t);
    }
    answer
}

// ---------------------------------------------------------------- The sum beside it, and the count

const SUMS: [(&str, Library); 28] = [
    ("early-sum-with-the-starts'", within(|s, n, t| summed(s, n, t, |net, _, it| it.left + of_all_starts(net)))),
    ("early-sum-with-one-start's", within(|s, n, t| summed(s, n, t, |net, _, it| it.left + net.horizon as u32))),
    ("early-sum-over-blanks", within(|s, n, t| summed(s, n, t, |net, _, it| with_blank_cells(net, it, 0)))),
    ("early-sum-over-65535", within(|s, n, t| summed(s, n, t, |net, _, it| with_blank_cells(net, it, BLANK)))),
    ("early-sum-one-less", within(|s, n, t| summed(s, n, t, |_, _, it| it.left.saturating_sub(1)))),
    ("early-sum-one-more", within(|s, n, t| summed(s, n, t, |_, _, it| it.left + 1))),
    ("early-sum-left-out", within(|s, n, t| summed(s, n, t, |_, _, _| 0))),
    ("early-sum-of-minutes", within(|s, n, t| summed(s, n, t, |net, _, it| of_all(net) - it.left))),
    ("early-sum-of-horizons", within(|s, n, t| summed(s, n, t, |net, _, _| of_all(net)))),
    ("early-sum-of-horizons-less-n", within(|s, n, t| summed(s, n, t, |net, n, _| of_all(net).saturating_sub(n)))),
    ("early-sum-of-case-0", within(|s, n, t| summed(s, n, t, of_case_0))),
    ("early-sum-of-raised-cells", within(|s, n, t| summed(s, n, t, of_raised))),
    ("early-sum-to-the-least-table", within(|s, n, t| summed(s, n, t, to_the_least))),
    ("early-sum-of-the-round-before", within(|s, n, t| summed(s, n, t, |net, n, _| floor_after(net, n - 1).left))),
    ("early-sum-of-the-round-behind", within(|s, n, t| summed(s, n, t, behind_the_next))),
    ("early-sum-of-a-byte", within(|s, n, t| summed(s, n, t, |_, _, it| it.left % 256))),
    ("early-sum-of-16-bits", within(|s, n, t| summed(s, n, t, |_, _, it| it.left & 0xffff))),
    ("early-sum-65535-at-most", within(|s, n, t| summed(s, n, t, |_, _, it| it.left.min(65_535)))),
    ("early-sum-high-byte-first", within(|s, n, t| summed(s, n, t, |_, _, it| it.left.swap_bytes() >> 8))),
    ("early-n-for-the-sum", within(|s, n, t| summed(s, n, t, |_, n, _| n))),
    ("early-count-for-the-sum", within(|s, n, t| summed(s, n, t, |net, _, _| rounds::run(net).count))),
    ("early-rounds-that-remain", within(|s, n, t| summed(s, n, t, |net, n, _| rounds::run(net).count - n))),
    ("early-rounds-that-raise", within(|s, n, t| summed(s, n, t, |net, n, _| rounds::run(net).count - n - 1))),
    ("early-sum-for-the-count", within(|s, n, t| counted(s, n, t, of_table))),
    ("early-n-for-the-count", within(|s, n, t| counted(s, n, t, |_, n, _| n))),
    ("early-count-one-less", within(|s, n, t| counted(s, n, t, |_, _, run| run.count - 1))),
    ("early-count-left-out", within(|s, n, t| counted(s, n, t, |_, _, _| 0))),
    ("early-count-left-out-with-13", within(|s, n, t| of_numbers(s, n, t, &[13], |it| it & LOW))),
];

/// As many bits as the sum and the count have.
const BITS: u32 = 0x7f_ffff;

/// The right floor with another sum.
fn summed(s: &[u8], n: u32, t: &mut [u8], sum: impl Fn(&Net, u32, &Floor) -> u32) -> u64 {
    own::solve_within_by(s, n, t, |net, n| {
        rounds::stopped(net, n).map_err(|floor| Floor { left: sum(net, n, &floor) & BITS, ..floor })
    })
}

/// The right end with another count.
fn counted(s: &[u8], n: u32, t: &mut [u8], count: impl Fn(&Net, u32, &Run) -> u32) -> u64 {
    own::solve_within_by(s, n, t, |net, n| {
        rounds::stopped(net, n).map(|run| Run { count: count(net, n, &run) & BITS, ..run })
    })
}

/// The horizon for each start.
fn of_all_starts(net: &Net) -> u32 {
    net.cases() as u32 * net.horizon as u32
}

/// The horizon for each event that happens, but for the start.
fn of_all(net: &Net) -> u32 {
    net.free_cells() as u32 * net.horizon as u32
}

/// With the horizon less so many minutes for each blank.
fn with_blank_cells(net: &Net, floor: &Floor, minutes: u16) -> u32 {
    let blanks = floor.table.iter().filter(|&&it| it == BLANK).count() as u32;
    floor.left.wrapping_add(blanks.wrapping_mul((net.horizon as u32).wrapping_sub(minutes.into())))
}

fn of_case_0(net: &Net, _: u32, floor: &Floor) -> u32 {
    let row = floor.table[1..net.events.len()].iter().filter(|&&it| it != BLANK);
    row.map(|&it| net.horizon as u32 - u32::from(it)).sum()
}

/// Only those that have left 0.
fn of_raised(net: &Net, _: u32, floor: &Floor) -> u32 {
    let raised = floor.table.iter().filter(|&&it| it != BLANK && it > 0);
    raised.map(|&it| net.horizon as u32 - u32::from(it)).sum()
}

/// How far it is to the least good table, if there is one.
fn to_the_least(net: &Net, _: u32, floor: &Floor) -> u32 {
    floor.left - least(net).map_or(0, |least| model::left(net, &least))
}

/// The sum of the table behind the next round too.
fn behind_the_next(net: &Net, n: u32, _: &Floor) -> u32 {
    model::left(net, &table_after(net, n + 1))
}

fn of_table(net: &Net, _: u32, run: &Run) -> u32 {
    run.table.as_ref().map_or(0, |table| model::left(net, table))
}

// ---------------------------------------------------------------- The answer

const FLAG: u64 = 1 << 63;

const ANSWERS: [(&str, Library); 18] = [
    ("early-flag-left-out", within(|s, n, t| own::solve_within(s, n, t) & !FLAG)),
    ("early-flag-inverted", within(|s, n, t| of_numbers(s, n, t, &[0, 13], |it| it ^ FLAG))),
    ("early-flag-inverted-everywhere", within(|s, n, t| own::solve_within(s, n, t) ^ FLAG)),
    ("early-flag-in-bit-62", within(|s, n, t| of_stopped(s, n, t, |it| it ^ FLAG | 1 << 62))),
    ("early-flag-in-bit-39", within(|s, n, t| of_stopped(s, n, t, |it| it ^ FLAG | 1 << 39))),
    ("early-flag-in-the-number", within(|s, n, t| of_stopped(s, n, t, |it| it ^ FLAG | 1))),
    ("early-flag-beside-a-table", within(|s, n, t| of_numbers(s, n, t, &[0], |it| it | FLAG))),
    ("early-flag-beside-12", within(|s, n, t| of_numbers(s, n, t, &[12], |it| it | FLAG))),
    ("early-flag-beside-13", within(|s, n, t| of_numbers(s, n, t, &[13], |it| it | FLAG))),
    ("early-flag-beside-23", within(|s, n, t| of_numbers(s, n, t, &[23], |it| it | FLAG))),
    ("early-flag-beside-what-is-refused", within(|s, n, t| of_numbers(s, n, t, &OF_SHEETS, |it| it | FLAG))),
    ("early-called-finished", within(|s, n, t| of_stopped(s, n, t, |it| with_rounds(it & LOW, n)))),
    ("early-called-13", within(|s, n, t| untouched_as(s, n, t, 13))),
    ("early-called-23", within(|s, n, t| untouched_as(s, n, t, 23))),
    ("early-23-beside-a-floor", within(|s, n, t| of_stopped(s, n, t, |it| it | 23))),
    ("early-n-in-the-line", within(|s, n, t| of_stopped(s, n, t, |it| it | u64::from(n & 0xffff) << 8))),
    ("early-minutes-left-out", within(|s, n, t| of_stopped(s, n, t, |it| it & !LOW))),
    ("early-bytes-for-minutes", within(|s, n, t| of_stopped(s, n, t, |it| it + (it & LOW)))),
];

/// The number, the line and the count of minutes.
const LOW: u64 = 0xff_ffff_ffff;

/// The numbers with which a sheet is refused.
const OF_SHEETS: [u64; 13] = [1, 2, 3, 4, 5, 6, 7, 8, 9, 10, 20, 21, 22];

/// Another answer with a floor.
fn of_stopped(s: &[u8], n: u32, t: &mut [u8], change: impl Fn(u64) -> u64) -> u64 {
    let answer = own::solve_within(s, n, t);
    if answer & FLAG != 0 { change(answer) } else { answer }
}

/// Another answer with these numbers.
fn of_numbers(s: &[u8], n: u32, t: &mut [u8], numbers: &[u64], change: impl Fn(u64) -> u64) -> u64 {
    let answer = own::solve_within(s, n, t);
    if numbers.contains(&(answer & 0xff)) { change(answer) } else { answer }
}

/// Refused with a number, and N beside it, where it is stopped.
fn untouched_as(s: &[u8], n: u32, t: &mut [u8], number: u8) -> u64 {
    let answer = untouched(s, n, t, true);
    if has(answer, true) { with_rounds(refused_call(number), n) } else { answer }
}

// ---------------------------------------------------------------- What is turned away

const REFUSALS: [(&str, Library); 28] = [
    ("early-23-before-12", within(|s, n, t| of_numbers(s, n, t, &[12], |it| if n == 0 { 23 } else { it }))),
    ("early-23-before-the-sheet", within(|s, n, t| if n == 0 { 23 } else { own::solve_within(s, n, t) })),
    ("early-23-behind-13", within(|s, n, t| for_0(s, n, t, |net, t| thirteen(net, t).unwrap_or(23)))),
    ("early-23-with-a-table-only", within(|s, n, t| for_0(s, n, t, no_round_to_13))),
    ("early-0-is-no-limit", within(|s, n, t| for_0(s, n, t, |net, t| ended(&rounds::run(net), t)))),
    ("early-0-is-no-round", within(|s, n, t| for_0(s, n, t, no_round))),
    ("early-0-is-1", within(|s, n, t| own::solve_within(s, n.max(1), t))),
    ("early-1-is-23", within(|s, n, t| own::solve_within(s, if n == 1 { 0 } else { n }, t))),
    ("early-12-for-23", within(|s, n, t| of_numbers(s, n, t, &[23], |_| 12))),
    ("early-22-for-23", within(|s, n, t| of_numbers(s, n, t, &[23], |_| 22))),
    ("early-23-for-12", within(|s, n, t| of_numbers(s, n, t, &[12], |_| 23))),
    ("early-23-with-a-line", within(|s, n, t| of_numbers(s, n, t, &[23], |it| it | 1 << 8))),
    ("early-23-with-a-count", within(|s, n, t| of_numbers(s, n, t, &[23], |it| with_rounds(it, 1)))),
    ("early-12-with-a-line", within(|s, n, t| of_numbers(s, n, t, &[12], |it| it | 1 << 8))),
    ("early-12-with-a-count", within(|s, n, t| of_numbers(s, n, t, &[12], |it| with_rounds(it, 1)))),
    ("early-12-behind-13", within(twelve_behind_13)),
    ("early-12-not-for-a-floor", within(as_much_as_fits)),
    ("early-needs-a-pair-more", within(|s, n, t| lent(s, n, t, |length, needed| length > needed + 1))),
    ("early-longer-refused", within(|s, n, t| lent(s, n, t, |length, needed| length < needed + 2))),
    ("early-odd-refused", within(|s, n, t| lent(s, n, t, |length, _| length % 2 == 0))),
    ("early-half-pair-counts", within(half_pair_counts)),
    ("early-line-lost", within(|s, n, t| of_numbers(s, n, t, &OF_SHEETS, |it| it & 0xff))),
    ("early-line-of-the-next", within(|s, n, t| of_numbers(s, n, t, &OF_SHEETS, |it| it + (1 << 8)))),
    ("early-cleared-on-12", within(|s, n, t| cleared_on(s, n, t, 12..=12))),
    ("early-cleared-on-13", within(|s, n, t| cleared_on(s, n, t, 13..=13))),
    ("early-cleared-on-23", within(|s, n, t| cleared_on(s, n, t, 23..=23))),
    ("early-cleared-on-1-to-10", within(|s, n, t| cleared_on(s, n, t, 1..=10))),
    ("early-cleared-on-20-to-22", within(|s, n, t| cleared_on(s, n, t, 20..=22))),
];

/// Another answer where N is 0, for a sheet that is accepted and a table with room.
fn for_0(s: &[u8], n: u32, t: &mut [u8], answer: impl Fn(&Net, &mut [u8]) -> u64) -> u64 {
    match roomy(s, t) {
        Ok(net) if n == 0 => answer(&net, t),
        _ => own::solve_within(s, n, t),
    }
}

/// 13, if that is how the run ends.
fn thirteen(net: &Net, t: &mut [u8]) -> Option<u64> {
    let run = rounds::run(net);
    if run.table.is_none() { Some(ended(&run, t)) } else { None }
}

/// The floor before any round.
fn no_round(net: &Net, t: &mut [u8]) -> u64 {
    halted(&floor_after(net, 0), t)
}

/// The same unless there is a table.
fn no_round_to_13(net: &Net, t: &mut [u8]) -> u64 {
    if least(net).is_some() { 23 } else { no_round(net, t) }
}

/// 12 only where 13 is not found.
fn twelve_behind_13(s: &[u8], n: u32, t: &mut [u8]) -> u64 {
    let answer = own::solve_within(s, n, &mut [0; 512]);
    if answer & 0xff == 13 { answer } else { own::solve_within(s, n, t) }
}

/// A floor is written as far as it fits.
fn as_much_as_fits(s: &[u8], n: u32, t: &mut [u8]) -> u64 {
    let mut room = [0; 512];
    let answer = own::solve_within(s, n, &mut room);
    if !has(answer, true) {
        return own::solve_within(s, n, t);
    }
    t.iter_mut().zip(&room[..length_of(answer)]).for_each(|(byte, right)| *byte = *right);
    answer
}

/// 12 unless the bytes that are lent and needed are such.
fn lent(s: &[u8], n: u32, t: &mut [u8], is_enough: fn(usize, usize) -> bool) -> u64 {
    match roomy(s, t) {
        Ok(net) if !is_enough(t.len(), 2 * net.cells()) => refused_call(12),
        _ => own::solve_within(s, n, t),
    }
}

/// An odd length is rounded up.
fn half_pair_counts(s: &[u8], n: u32, t: &mut [u8]) -> u64 {
    let mut longer = [t, &[0][..]].concat();
    let answer = own::solve_within(s, n, &mut longer);
    t.copy_from_slice(&longer[..t.len()]);
    answer
}

fn cleared_on(s: &[u8], n: u32, t: &mut [u8], numbers: RangeInclusive<u64>) -> u64 {
    let answer = own::solve_within(s, n, t);
    if numbers.contains(&(answer & 0xff)) {
        t.fill(0);
    }
    answer
}

// ---------------------------------------------------------------- Where rounds are passed over, or are many

/// For the mode `count`.
pub const LONG: [(&str, Library); 14] = [
    ("floor's-run-never-stopped", leaping(|s, n, t| long_stop(s, n, t, |_| u32::MAX))),
    ("floor-a-round-early-from-1000-on", leaping(|s, n, t| long_stop(s, n, t, |n| n - u32::from(n >= 1_000)))),
    ("floor-a-round-late-from-1000-on", leaping(|s, n, t| long_stop(s, n, t, |n| n + u32::from(n >= 1_000)))),
    ("floor-after-10080-rounds-at-most", leaping(|s, n, t| long_stop(s, n, t, |n| n.min(10_080)))),
    ("floor-by-turns", leaping(|s, n, t| slipping(s, n, t, Slip::StopByTurns))),
    ("floor-behind-the-leap", leaping(|s, n, t| slipping(s, n, t, Slip::StopPassedOver))),
    ("floor-at-the-next-period", leaping(|s, n, t| slipping(s, n, t, Slip::StopAtNextPeriod))),
    ("floor-at-the-last-period", leaping(|s, n, t| slipping(s, n, t, Slip::StopAtLastPeriod))),
    ("floor-before-the-leap", leaping(|s, n, t| slipping(s, n, t, Slip::StopBeforeLeap))),
    ("floor-a-leap-too-far", leaping(|s, n, t| slipping(s, n, t, Slip::OneTooMany))),
    ("floor-leaps-not-tested", leaping(|s, n, t| slipping(s, n, t, Slip::GuessNotTested))),
    ("floor-faster-cells-ignored", leaping(|s, n, t| slipping(s, n, t, Slip::FasterIgnored))),
    ("floor-stopped-at-the-count", leaping(|s, n, t| slipping(s, n, t, Slip::StopBeforeEnd))),
    ("floor's-sum-left-out", leaping(|s, n, t| sum_of_long(s, n, t, |_| 0))),
];

/// For the mode `ring`.
pub const RINGS: [(&str, Library); 3] = [
    ("floor-of-16-bits", leaping(|s, n, t| long_stop(s, n, t, |n| or_all(n & 0xffff)))),
    ("floor-after-65535-rounds-at-most", leaping(|s, n, t| long_stop(s, n, t, |n| n.min(65_535)))),
    ("floor's-sum-of-16-bits", leaping(|s, n, t| sum_of_long(s, n, t, |sum| sum & 0xffff))),
];

/// Another number of rounds where it is not 0.
fn long_stop(s: &[u8], n: u32, t: &mut [u8], change: fn(u32) -> u32) -> u64 {
    leaping_within(s, if n == u32::MAX { n } else { change(n) }, t)
}

/// Another sum.
fn sum_of_long(s: &[u8], n: u32, t: &mut [u8], change: fn(u64) -> u64) -> u64 {
    let answer = leaping_within(s, n, t);
    if has(answer, true) { FLAG | change(answer >> 40 & u64::from(BITS)) << 40 | answer & LOW } else { answer }
}
