//! The mode `ring`: a program that reads one line `n,H` on standard input and prints the heaviest sheet for n events
//! and the horizon H, against the model; and the library beside it, which is to write the same, to solve it in as many
//! rounds as were promised, and to hand out the floors of a run that is stopped, as they are reckoned.

use crate::gen::Rng;
use crate::heavy::Ringing;
use crate::library::own::{halted, refused_call, two_bytes, with_rounds};
use crate::library::{Library, LIBRARY};
use crate::model::{self, EVENTS_MOST, RING_LEAST};
use crate::rounds::Floor;
use crate::program::{all_compared, check, printed, told, with_program, Mode, Program};
use crate::{count, lines, Counts, Difference};
use std::ops::Range;

/// Both ends, a day, and about where digits, bytes and hours end.
const HORIZONS: [i64; 21] = [
    0, 1, 2, 7, 10, 59, 60, 61, 99, 100, 255, 999, 1_000, 1_440, 4_095, 4_096, 5_000, 9_999, 10_000, 10_079, 10_080,
];

const KINDS: [&str; 7] =
    ["written", "refused 1", "refused 2", "refused 3", "refused 4", "refused 5", "refused 10"];

const RING: Mode = Mode { word: "ring", given: "lines", compare_one, kinds: &KINDS, tally };

/// Every n at some H, then the lines of the seeds.
pub fn compare(command: &str, seeds: Range<u64>) {
    with_program(command, |program| {
        compare_rings(program, &LIBRARY).map_err(|difference| difference.1)?;
        let number = rings().count();
        let rings = format!("{number} rings, printed and written alike, solved in (n - 1) * H + 1 rounds and stopped");
        Ok(format!("{rings}; {}", all_compared(&RING, command, seeds, program)?))
    });
}

/// The same for a program and a library of our own; a difference has its place among the rings and the lines.
pub fn compare_both(ringing: &Ringing, seeds: Range<u64>) -> Result<(), Difference> {
    let program = |line: &[u8]| printed((ringing.print)(line));
    compare_rings(&program, &ringing.library)?;
    let first = rings().count() as u64 + 1;
    let compare_line = |seed: u64| compare_one(&program, seed, &mut Counts::new());
    (first..).zip(seeds).try_for_each(|(place, seed)| compare_line(seed).map_err(|words| (place, words)))
}

fn rings() -> impl Iterator<Item = (usize, i64)> {
    (RING_LEAST as usize..=EVENTS_MOST as usize).flat_map(|events| HORIZONS.map(|horizon| (events, horizon)))
}

fn compare_rings(program: Program, library: &Library) -> Result<(), Difference> {
    let compared = |(events, horizon)| compare_one_ring(program, library, events, horizon);
    (1..).zip(rings()).try_for_each(|(place, ring)| compared(ring).map_err(|words| (place, words)))
}

/// The program prints the sheet byte for byte, the library writes the same, and its solver answers 13 with
/// "exactly (n - 1) × H + 1 rounds"; and where it is stopped before, at some numbers of them, with their floor.
fn compare_one_ring(program: Program, library: &Library, events: usize, horizon: i64) -> Result<(), String> {
    let (line, sheet) = (format!("{events},{horizon}\n").into_bytes(), model::ring_of(events, horizon).into_bytes());
    check(program, "the line", &line, &sheet)?;
    let room = sheet.len() + 9;
    let (mut out, mut table) = (vec![b'?'; room], vec![b'?'; 512]);
    let answer = (library.ring)(&line, &mut out);
    if answer != two_bytes(sheet.len() as u16) || out != [&sheet[..], &[b'?'; 9]].concat() {
        return Err(format!("for {}the library answers {answer:#x} and leaves in {}", told(&line), told(&out)));
    }
    let (solved, rounds) = ((library.solve)(&sheet, &mut table), model::ring_rounds(events, horizon));
    if solved != with_rounds(refused_call(13), rounds) || table != [b'?'; 512] {
        return Err(format!("solving does not answer 13 with {rounds} rounds but {solved:#x}; of {}", told(&sheet)));
    }
    let stops = [1, events as u32, rounds / 2, 65_536, rounds - 1];
    for stop in stops.into_iter().filter(|&stop| 0 < stop && stop < rounds) {
        if !is_floor(library, &sheet, (events, horizon), stop) {
            return Err(format!("after {stop} rounds another floor or sum; of {}", told(&sheet)));
        }
    }
    for most in [rounds, u32::MAX] {
        let answer = (library.solve_within)(&sheet, most, &mut table);
        if answer != solved || table != [b'?'; 512] {
            return Err(format!("within {most} rounds not 13 but {answer:#x}; of {}", told(&sheet)));
        }
    }
    Ok(())
}

/// A run that is stopped after so many rounds leaves their floor, and answers with the sum that is left.
fn is_floor(library: &Library, sheet: &[u8], (events, horizon): (usize, i64), rounds: u32) -> bool {
    let (mut right, mut table) = ([b'?'; 512], [b'?'; 512]);
    let (floor, left) = model::ring_floor(events, horizon, rounds);
    let answer = halted(&Floor { table: floor, left }, &mut right);
    (library.solve_within)(sheet, rounds, &mut table) == answer && table == right
}

/// The line of one seed.
fn compare_one(program: Program, seed: u64, counts: &mut Counts) -> Result<(), String> {
    let line = lines::line(&mut Rng::new(seed));
    let outcome = model::ring(&line);
    count(counts, outcome.as_ref().map_or_else(|refusal| format!("refused {}", refusal.number), |_| "written".into()));
    check(program, "the line", &line, &printed(outcome))
}

/// What was compared.
fn tally(counts: &Counts) -> String {
    KINDS.map(|kind| format!("{} {kind}", counts.get(kind).copied().unwrap_or(0))).join(", ")
}
