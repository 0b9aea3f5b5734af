//! Stopping early (02, point 9): `opening_solve_within` at many numbers of rounds, against the floors of plain rounds;
//! and what has to hold among its answers to one sheet, and between them and that of `opening_solve`, whoever gives
//! them.

use crate::calls::{check, minutes, of_call, refusal_answer, scene_of, solver_lengths, value_answer};
use crate::gen::{self, Rng};
use crate::lent::{lend_room, lend_text, Lent};
use crate::library::Library;
use crate::model::{self, Net, Refusal, BLANK};
use crate::rounds::{Floor, Kept, Run};
use crate::{count, leaps, long, Counts};

// ---------------------------------------------------------------- The answers that the papers ask for

/// The header's functions, by hand: the highest bit says that the run was stopped, and the 23 bits below it are the sum
/// then, and otherwise the count of rounds.
#[derive(Debug, PartialEq)]
struct Told {
    finished: bool,
    rounds: u32,
    left: u32,
}

impl Told {
    fn of(answer: u64) -> Self {
        let (stopped, number) = (answer >> 63 == 1, (answer >> 40) as u32 & 0x7f_ffff);
        match stopped {
            true => Told { finished: false, rounds: 0, left: number },
            false => Told { finished: number > 0, rounds: number, left: 0 },
        }
    }
}

/// What the call does; a run that ended without a table is refused with 13.
enum Outcome {
    Refused(Refusal),
    Ended(Run),
    Stopped(Floor),
}

impl Outcome {
    fn answer(&self) -> u64 {
        let value = value_answer(self.written().len());
        match self {
            Outcome::Refused(refusal) => refusal_answer(*refusal),
            Outcome::Ended(Run { count, table: None }) => refusal_answer(of_call(13)) | u64::from(*count) << 40,
            Outcome::Ended(Run { count, .. }) => value | u64::from(*count) << 40,
            Outcome::Stopped(Floor { left, .. }) => value | u64::from(*left) << 40 | 1 << 63,
        }
    }

    fn told(&self) -> Told {
        match self {
            Outcome::Refused(_) => Told { finished: false, rounds: 0, left: 0 },
            Outcome::Ended(run) => Told { finished: true, rounds: run.count, left: 0 },
            Outcome::Stopped(floor) => Told { finished: false, rounds: 0, left: floor.left },
        }
    }

    fn written(&self) -> &[u16] {
        match self {
            Outcome::Ended(Run { table: Some(table), .. }) | Outcome::Stopped(Floor { table, .. }) => table,
            _ => &[],
        }
    }

    fn kind(&self) -> String {
        let words = match self {
            Outcome::Refused(refusal) => return format!("within N rounds refused {:>2}", refusal.number),
            Outcome::Ended(Run { table: None, .. }) => "refused 13",
            Outcome::Ended(_) => "a table",
            Outcome::Stopped(Floor { left: 0, .. }) => "a floor, with the sum 0",
            Outcome::Stopped(Floor { table, .. }) if table.contains(&BLANK) => "a floor, with blanks",
            Outcome::Stopped(_) => "a floor",
        };
        format!("within N rounds {words}")
    }
}

/// A sheet, what the model reads in it, and its run if it is accepted.
pub struct Asked<'a> {
    pub sheet: &'a Lent,
    pub reading: &'a Result<Net, Refusal>,
    pub kept: Option<&'a Kept>,
}

impl Asked<'_> {
    /// The sheet's own refusals, 12, 23 and 13 in this order; a table where the run takes at most N rounds, and
    /// otherwise the floor after N.
    fn outcome(&self, most: u32, length: usize) -> Outcome {
        match (self.reading, self.kept) {
            (Err(refusal), _) => Outcome::Refused(*refusal),
            (Ok(net), _) if length / 2 < net.cells() => Outcome::Refused(of_call(12)),
            (Ok(_), _) if most == 0 => Outcome::Refused(of_call(23)),
            (Ok(_), kept) => {
                let kept = kept.expect("an accepted sheet has a run");
                kept.floor(most).map_or_else(|| Outcome::Ended(kept.run.clone()), Outcome::Stopped)
            }
        }
    }

    /// So many minutes stand in the table of an accepted sheet.
    fn cells(&self) -> usize {
        self.reading.as_ref().map_or(0, Net::cells)
    }

    fn scene(&self, most: u32, table: Option<&Lent>) -> String {
        format!("N is {most}\n{}", scene_of(self.sheet, table))
    }
}

// ---------------------------------------------------------------- Numbers of rounds

/// For a sheet that is refused 0, any and the greatest. For others 0, 1, 2, about as many rounds as the run takes, any
/// up to that, a greater one whose low bits are such a number, and the greatest; and so many of those that `others`
/// has.
pub fn numbers(rng: &mut Rng, asked: &Asked, more: usize) -> Vec<u32> {
    let (Ok(net), Some(Kept { run, .. })) = (asked.reading, asked.kept) else {
        return vec![0, rng.between(1, 300) as u32, u32::MAX];
    };
    let rounds = run.count;
    let low = rng.between(1, rounds.into()) as u32;
    let wide = (1 << rng.between(8, 31)) + rng.below(rounds as usize) as u32;
    let mut numbers = vec![0, 1, 2, rounds - 1, rounds, rounds + 1, low, wide, u32::MAX];
    if more > 0 {
        let others = others(rng, net, rounds);
        numbers.extend(rng.shuffled(&others).into_iter().take(more));
    }
    numbers.sort_unstable();
    numbers.dedup();
    numbers
}

/// Any up to a run's own number, more of them at its beginning and at its end, and some in a row there and at any
/// place; and some about where 16 bits end and about where a solver of our own leaves plain rounds and comes back to
/// them.
fn others(rng: &mut Rng, net: &Net, rounds: u32) -> Vec<u32> {
    let any = |rng: &mut Rng| rng.between(1, rounds.into()) as u32;
    let small = |rng: &mut Rng| {
        let most = 1 << rng.between(1, 20);
        rng.between(1, most) as u32
    };
    let (bends, mut numbers) = (leaps::bends(net), vec![]);
    for _ in 0..6 {
        numbers.extend([any(rng), small(rng), rounds.saturating_sub(small(rng))]);
    }
    let mut middles = vec![rounds.saturating_sub(4), any(rng), any(rng), 65_536];
    middles.extend((0..bends.len().min(4)).map(|_| rng.pick(&bends)));
    numbers.extend(middles.iter().flat_map(|middle| middle.saturating_sub(2)..=middle + 2));
    numbers.retain(|number| (1..=rounds).contains(number));
    numbers
}

// ---------------------------------------------------------------- The calls

/// For so many more numbers a run is asked at most, for fewer if they would take more rounds than these, and for none
/// where it has few rounds itself.
const MORE: u32 = 12;
const ROUNDS: u32 = 20_000;
const FEW: u32 = 8;

/// An answer, and the minutes that stand in the place of the table then.
struct Answered {
    most: u32,
    answer: u64,
    minutes: Vec<u16>,
}

/// A sheet of one seed: an ordinary one, one that takes more rounds, or one of the heaviest.
pub fn compare_one(library: &Library, seed: u64, counts: &mut Counts) -> Result<(), String> {
    let mut rng = Rng::new(!seed);
    let sheet = match rng.below(20) {
        0 => long::heaviest(rng.between(2, 16) as usize, rng.between(0, 60)),
        1..=9 => long::climb(&mut rng),
        _ => gen::sheet(&mut rng),
    };
    let (sheet, reading) = (lend_text(&mut rng, &sheet), model::read(&sheet));
    let kept = reading.as_ref().ok().map(Kept::new);
    let rounds = kept.as_ref().map_or(0, |kept| kept.run.count);
    let more = if rounds > FEW { (ROUNDS / rounds).min(MORE) } else { 0 };
    let asked = Asked { sheet: &sheet, reading: &reading, kept: kept.as_ref() };
    let numbers = numbers(&mut rng, &asked, more as usize);
    compare(library, &mut rng, &asked, &numbers, counts)
}

/// Asks at each of these numbers, in their order, with memory of any length that is enough, and at some of them with
/// each that is not.
pub fn compare(
    library: &Library, rng: &mut Rng, asked: &Asked, numbers: &[u32], counts: &mut Counts,
) -> Result<(), String> {
    let lengths = solver_lengths(rng, asked.reading);
    let (enough, short): (Vec<usize>, Vec<usize>) = lengths.into_iter().partition(|&it| it >= 2 * asked.cells());
    let mut answers = vec![];
    for &most in numbers {
        let length = rng.pick(&enough);
        answers.push(compare_call(library, asked, most, &lend_room(rng, length), counts)?);
    }
    for length in short {
        compare_call(library, asked, rng.pick(numbers), &lend_room(rng, length), counts)?;
    }
    asked.reading.as_ref().map_or(Ok(()), |net| related(library, asked, net, &answers))
}

/// One call.
fn compare_call(
    library: &Library, asked: &Asked, most: u32, room: &Lent, counts: &mut Counts,
) -> Result<Answered, String> {
    let outcome = asked.outcome(most, room.length);
    let (sheet, mut lent) = (asked.sheet.clone(), room.clone());
    let answer = (library.solve_within)(sheet.slice(), most, lent.slice_mut());
    let right = room.with(&gen::bytes_of(outcome.written()));
    count(counts, outcome.kind());
    let memory = [("table", &right, &lent), ("sheet", asked.sheet, &sheet)];
    check("early solver", (outcome.answer(), answer), &memory)
        .map_err(|words| words + &asked.scene(most, Some(room)))?;
    assert_eq!(Told::of(answer), outcome.told(), "an answer as it should be is not told as it should be");
    let minutes = minutes(lent.slice()).into_iter().take(asked.cells()).collect();
    Ok(Answered { most, answer, minutes })
}

// ---------------------------------------------------------------- What has to hold among answers

/// How the solver's run ends: its answer, the rounds that it says it took, and the table if there is one.
struct End {
    answer: u64,
    rounds: u32,
    least: Option<Vec<u16>>,
}

/// The answers of one sheet, in the order of N, and the solver's.
fn related(library: &Library, asked: &Asked, net: &Net, answers: &[Answered]) -> Result<(), String> {
    let mut table = vec![0; 2 * net.cells()];
    let answer = (library.solve)(asked.sheet.slice(), &mut table);
    let least = (answer & 0xff == 0).then(|| minutes(&table));
    let end = End { answer, rounds: Told::of(answer).rounds, least };
    let mut before: Option<&Answered> = None;
    for answered in answers.iter().filter(|answered| answered.most > 0) {
        let of_rise = || before.and_then(|before| breach_of_rise(before, answered));
        let words = match Told::of(answered.answer).finished {
            true => breach_of_end(&end, answered),
            false => breach_of_floor(net, &end, answered).or_else(of_rise),
        };
        if let Some(words) = words {
            return Err(format!("{words}\n{}", asked.scene(answered.most, None)));
        }
        before = Some(answered);
    }
    Ok(())
}

/// "A finished run answers as without N", and no run does that takes more rounds.
fn breach_of_end(end: &End, answered: &Answered) -> Option<&'static str> {
    let same_table = end.least.as_ref().is_none_or(|least| answered.minutes == *least);
    match answered.answer == end.answer && same_table {
        false => Some("a finished run answers otherwise than without N"),
        true => (answered.most < end.rounds).then_some("a run is finished before its last round"),
    }
}

/// "no good table has any event earlier than its floor", and "at most that many rounds and one more remain".
fn breach_of_floor(net: &Net, end: &End, answered: &Answered) -> Option<&'static str> {
    let (floor, left) = (&answered.minutes[..], Told::of(answered.answer).left);
    let happens = |cell: usize| net.happens(cell / net.events.len(), cell % net.events.len());
    let is_odd = |cell: usize| happens(cell) == (floor[cell] == BLANK);
    let most = u64::from(answered.most) + u64::from(left) + 1;
    let least = end.least.as_deref();
    let breaches = [
        (answered.most >= end.rounds, "a run is stopped behind its last round"),
        (u64::from(end.rounds) > most, "more rounds remain than the sum and one more"),
        ((0..net.cells()).any(is_odd), "a blank where an event happens, or a minute where none does"),
        (model::left(net, floor) != left, "the sum is not that of the floor"),
        (least.is_some_and(|least| is_above(floor, least)), "the floor is above the least good table"),
        (answered.most + 1 == end.rounds && least.is_some_and(|least| floor != least), "the last round raises a cell"),
    ];
    breaches.into_iter().find(|breach| breach.0).map(|breach| breach.1)
}

/// Each round raises a cell and lowers none.
fn breach_of_rise(before: &Answered, behind: &Answered) -> Option<&'static str> {
    let left = |answered: &Answered| i64::from(Told::of(answered.answer).left);
    let rounds = i64::from(behind.most - before.most);
    match is_above(&before.minutes, &behind.minutes) {
        true => Some("a floor after more rounds is lower"),
        false => (left(before) - left(behind) < rounds).then_some("a round is left out, or raises nothing"),
    }
}

/// Whether some minute is greater here than there.
fn is_above(here: &[u16], there: &[u16]) -> bool {
    here.iter().zip(there).any(|(here, there)| here > there)
}
