//! The libraries under test: the C functions of `libopening.a` and of `libtally.a`, or, in a build with `--cfg standalone`, the model itself
//! and a solver of our own that passes over rounds. Every build has those two: the wrong programs are made of them.

/// The C calls, "with byte slices and numbers".
#[derive(Clone, Copy)]
pub struct Library {
    pub solve: fn(sheet: &[u8], table: &mut [u8]) -> u64,
    pub solve_within: fn(sheet: &[u8], rounds: u32, table: &mut [u8]) -> u64,
    pub judge: fn(sheet: &[u8], table: &[u8]) -> u64,
    pub due: fn(question: Question) -> u64,
    pub listing: fn(sheet: &[u8], table: &[u8], out: &mut [u8]) -> u64,
    pub house: fn(sheet: &[u8], out: &mut [u8]) -> u64,
    pub read_listing: fn(sheet: &[u8], listing: &[u8], table: &mut [u8]) -> u64,
    pub convert: fn(sheet: &[u8], out: &mut [u8]) -> u64,
    pub ring: fn(line: &[u8], out: &mut [u8]) -> u64,
}

/// What the player of a table is asked; `heard` is the text of the signals heard before the minute.
#[derive(Clone, Copy)]
pub struct Question<'a> {
    pub sheet: &'a [u8],
    pub table: &'a [u8],
    pub minute: u16,
    pub heard: &'a [u8],
}

/// The three calls that count rounds. The first two answer with the count in the lower four bytes and the sum of the table in the upper
/// four (`rounds.rs`), by a run that passes over rounds and by one that does not; the third, how many rounds the first made one by one.
#[derive(Clone, Copy)]
pub struct Tally {
    pub leaping: fn(sheet: &[u8]) -> u64,
    pub plain: fn(sheet: &[u8]) -> u64,
    pub turns: fn(sheet: &[u8]) -> u64,
}

#[cfg(not(standalone))]
pub use linked::{LIBRARY, TALLY};
#[cfg(standalone)]
pub use own::TALLY;
/// The model, but that a run which may be stopped passes over rounds where it is long.
#[cfg(standalone)]
pub const LIBRARY: Library = Library { solve_within: own::solve_long_within, ..own::LIBRARY };

#[cfg(not(standalone))]
mod linked {
    use super::{Library, Question, Tally};

    pub const LIBRARY: Library =
        Library { solve, solve_within, judge, due, listing, house, read_listing, convert, ring };
    pub const TALLY: Tally = Tally { leaping, plain, turns };

    #[link(name = "opening", kind = "static")]
    extern "C" {
        fn opening_solve(sheet: *const u8, sheet_len: usize, table: *mut u8, table_len: usize) -> u64;
        fn opening_solve_within(
            sheet: *const u8, sheet_len: usize, rounds: u32, table: *mut u8, table_len: usize,
        ) -> u64;
        fn opening_judge(sheet: *const u8, sheet_len: usize, table: *const u8, table_len: usize) -> u64;
        fn opening_due(
            sheet: *const u8, sheet_len: usize, table: *const u8, table_len: usize, minute: u16, heard: *const u8, heard_len: usize,
        ) -> u64;
        fn opening_listing(
            sheet: *const u8, sheet_len: usize, table: *const u8, table_len: usize, out: *mut u8, out_len: usize,
        ) -> u64;
        fn opening_house(sheet: *const u8, sheet_len: usize, out: *mut u8, out_len: usize) -> u64;
        fn opening_read_listing(
            sheet: *const u8, sheet_len: usize, listing: *const u8, listing_len: usize, table: *mut u8,
            table_len: usize,
        ) -> u64;
        fn opening_convert(sheet: *const u8, sheet_len: usize, out: *mut u8, out_len: usize) -> u64;
        fn opening_ring(line: *const u8, line_len: usize, out: *mut u8, out_len: usize) -> u64;
    }

    #[link(name = "tally", kind = "static")]
    extern "C" {
        fn tally_leaping(sheet: *const u8, sheet_len: usize) -> u64;
        fn tally_plain(sheet: *const u8, sheet_len: usize) -> u64;
        fn tally_turns(sheet: *const u8, sheet_len: usize) -> u64;
    }

    fn solve(sheet: &[u8], table: &mut [u8]) -> u64 {
        unsafe { opening_solve(sheet.as_ptr(), sheet.len(), table.as_mut_ptr(), table.len()) }
    }

    fn solve_within(sheet: &[u8], rounds: u32, table: &mut [u8]) -> u64 {
        unsafe { opening_solve_within(sheet.as_ptr(), sheet.len(), rounds, table.as_mut_ptr(), table.len()) }
    }

    fn judge(sheet: &[u8], table: &[u8]) -> u64 {
        unsafe { opening_judge(sheet.as_ptr(), sheet.len(), table.as_ptr(), table.len()) }
    }

    fn due(Question { sheet, table, minute, heard }: Question) -> u64 {
        unsafe { opening_due(sheet.as_ptr(), sheet.len(), table.as_ptr(), table.len(), minute, heard.as_ptr(), heard.len()) }
    }

    fn listing(sheet: &[u8], table: &[u8], out: &mut [u8]) -> u64 {
        unsafe { opening_listing(sheet.as_ptr(), sheet.len(), table.as_ptr(), table.len(), out.as_mut_ptr(), out.len()) }
    }

    fn house(sheet: &[u8], out: &mut [u8]) -> u64 {
        unsafe { opening_house(sheet.as_ptr(), sheet.len(), out.as_mut_ptr(), out.len()) }
    }

    fn read_listing(sheet: &[u8], listing: &[u8], table: &mut [u8]) -> u64 {
        let (lent, length) = (table.as_mut_ptr(), table.len());
        unsafe { opening_read_listing(sheet.as_ptr(), sheet.len(), listing.as_ptr(), listing.len(), lent, length) }
    }

    fn convert(sheet: &[u8], out: &mut [u8]) -> u64 {
        unsafe { opening_convert(sheet.as_ptr(), sheet.len(), out.as_mut_ptr(), out.len()) }
    }

    fn ring(line: &[u8], out: &mut [u8]) -> u64 {
        unsafe { opening_ring(line.as_ptr(), line.len(), out.as_mut_ptr(), out.len()) }
    }

    fn leaping(sheet: &[u8]) -> u64 {
        unsafe { tally_leaping(sheet.as_ptr(), sheet.len()) }
    }

    fn plain(sheet: &[u8]) -> u64 {
        unsafe { tally_plain(sheet.as_ptr(), sheet.len()) }
    }

    fn turns(sheet: &[u8]) -> u64 {
        unsafe { tally_turns(sheet.as_ptr(), sheet.len()) }
    }
}

/// The same calls made of the model, packed as include/opening.h says, and of `leaps.rs`.
pub mod own {
    use super::{Library, Question, Tally};
    use crate::model::{self, Net, Refusal, Verdict};
    use crate::leaps;
    use crate::rounds::{self, Floor, Run};

    pub const LIBRARY: Library =
        Library { solve, solve_within, judge, due, listing, house, read_listing, convert, ring };
    pub const TALLY: Tally = Tally { leaping: leaps::leaping, plain, turns: leaps::turns };

    /// The bytes, lowest first: refusal number; line (two bytes); then five bytes that each call fills in its own way.
    pub fn pack(number: u8, line: usize, rest: [u8; 5]) -> u64 {
        let line = (line as u16).to_le_bytes();
        u64::from_le_bytes([number, line[0], line[1], rest[0], rest[1], rest[2], rest[3], rest[4]])
    }

    /// opening.h: on a refusal all bytes from 3 on are 0, but for the count beside 13.
    pub fn refused(refusal: Refusal) -> u64 {
        pack(refusal.number, refusal.line, [0; 5])
    }

    pub fn refused_call(number: u8) -> u64 {
        refused(Refusal { number, line: 0 })
    }

    pub fn verdict(verdict: Verdict) -> u64 {
        let rest = match verdict {
            Verdict::Pass => [0; 5],
            Verdict::Late { case, event } => [1, case as u8, event as u8, 0, 0],
            Verdict::Rule { case, rule } => [2, case as u8, rule as u8, 0, 0],
            Verdict::Unheard { s, r, u } => [3, s as u8, r as u8, u as u8, 0],
        };
        pack(0, 0, rest)
    }

    /// Minutes or bytes written, or the events due: two bytes behind the line.
    pub fn two_bytes(value: u16) -> u64 {
        let [low, high] = value.to_le_bytes();
        pack(0, 0, [low, high, 0, 0, 0])
    }

    /// Writes a table, "two bytes a minute, low byte first", and gives the solver's answer.
    pub fn write(minutes: &[u16], table: &mut [u8]) -> u64 {
        for (pair, minute) in table.chunks_exact_mut(2).zip(minutes) {
            pair.copy_from_slice(&minute.to_le_bytes());
        }
        two_bytes(minutes.len() as u16)
    }

    /// Writes a text into the first bytes of a lent buffer, or answers with its refusal, or with 12.
    pub fn write_text(text: Result<Vec<u8>, Refusal>, out: &mut [u8]) -> u64 {
        match text.and_then(|text| model::within(text, out.len())) {
            Err(refusal) => refused(refusal),
            Ok(text) => {
                out[..text.len()].copy_from_slice(&text);
                two_bytes(text.len() as u16)
            }
        }
    }

    pub fn minutes_of(table: &[u8]) -> Vec<u16> {
        table.chunks_exact(2).map(|pair| u16::from_le_bytes([pair[0], pair[1]])).collect()
    }

    /// A sheet and the table that is handed in with it: its own refusals, then 11; "an odd number of bytes is refusal
    /// 11".
    pub fn handed(sheet: &[u8], table: &[u8]) -> Result<(Net, Vec<u16>), Refusal> {
        let net = model::read(sheet)?;
        if table.len() == 2 * net.cells() { Ok((net, minutes_of(table))) } else { Err(Refusal { number: 11, line: 0 }) }
    }

    /// The sheet's own refusals, then 12, then 13; "the solver counts the whole pairs it is lent".
    pub fn solve(sheet: &[u8], table: &mut [u8]) -> u64 {
        solve_by(sheet, table, rounds::run)
    }

    /// The same with another run.
    pub fn solve_by(sheet: &[u8], table: &mut [u8], run: impl Fn(&Net) -> Run) -> u64 {
        roomy(sheet, table).map_or_else(refused, |net| ended(&run(&net), table))
    }

    /// The sheet's own refusals, then 12.
    pub fn roomy(sheet: &[u8], table: &[u8]) -> Result<Net, Refusal> {
        let net = model::read(sheet)?;
        if table.len() / 2 < net.cells() { Err(Refusal { number: 12, line: 0 }) } else { Ok(net) }
    }

    /// A table is written, or it is 13; either with the count of rounds.
    pub fn ended(run: &Run, table: &mut [u8]) -> u64 {
        let answer = run.table.as_ref().map_or_else(|| refused_call(13), |minutes| write(minutes, table));
        with_rounds(answer, run.count)
    }

    /// The sheet's own refusals, then 12, 23 and 13; or, where the run takes more rounds, the floor.
    pub fn solve_within(sheet: &[u8], rounds: u32, table: &mut [u8]) -> u64 {
        solve_within_by(sheet, rounds, table, rounds::stopped)
    }

    /// The same with another run.
    pub fn solve_within_by(
        sheet: &[u8], rounds: u32, table: &mut [u8], stopped: impl Fn(&Net, u32) -> Result<Run, Floor>,
    ) -> u64 {
        let net = match roomy(sheet, table) {
            Err(refusal) => return refused(refusal),
            Ok(_) if rounds == 0 => return refused_call(23),
            Ok(net) => net,
        };
        match stopped(&net, rounds) {
            Ok(run) => ended(&run, table),
            Err(floor) => halted(&floor, table),
        }
    }

    /// So many rounds are made one by one sooner than they are passed over.
    #[cfg(standalone)]
    const PLAIN: u32 = 300;

    /// The same by a run that passes over rounds behind the first.
    #[cfg(standalone)]
    pub fn solve_long_within(sheet: &[u8], rounds: u32, table: &mut [u8]) -> u64 {
        solve_within_by(sheet, rounds, table, |net, most| match rounds::stopped(net, most.min(PLAIN)) {
            Err(_) if most > PLAIN => leaps::stopped_with(net, most, leaps::Slip::None),
            stopped => stopped,
        })
    }

    /// A floor is written; the sum stands where the count of rounds would, below the highest bit, which is 1.
    pub fn halted(floor: &Floor, table: &mut [u8]) -> u64 {
        write(&floor.table, table) | u64::from(floor.left) << 40 | 1 << 63
    }

    /// The count of rounds "goes with a solver's table and with refusal 13": three bytes behind the minutes.
    pub fn with_rounds(answer: u64, count: u32) -> u64 {
        answer | u64::from(count) << 40
    }

    /// The sheet's own refusals, then 11, or the verdict.
    pub fn judge(sheet: &[u8], table: &[u8]) -> u64 {
        handed(sheet, table).map_or_else(refused, |(net, minutes)| verdict(model::judge(&net, &minutes)))
    }

    /// The sheet's own refusals, then 11, then 14, then what the player says.
    pub fn due(question: Question) -> u64 {
        match handed(question.sheet, question.table) {
            Ok((net, minutes)) if model::judge(&net, &minutes) != Verdict::Pass => refused_call(14),
            _ => play(question),
        }
    }

    /// The sheet's own refusals, then 11, then 15 for a text that is no list, then what the player says; the table is
    /// not judged.
    pub fn play(Question { sheet, table, minute, heard }: Question) -> u64 {
        match (handed(sheet, table), model::heard(heard)) {
            (Err(refusal), _) => refused(refusal),
            (_, None) => refused_call(15),
            (Ok((net, minutes)), Some(list)) => model::due(&net, &minutes, minute, &list).map_or_else(refused_call, two_bytes),
        }
    }

    /// The sheet's own refusals, then 11, then 12, whatever the judge says of the table.
    pub fn listing(sheet: &[u8], table: &[u8], out: &mut [u8]) -> u64 {
        write_text(handed(sheet, table).map(|(net, minutes)| model::listing(sheet, &net, &minutes)), out)
    }

    /// The sheet's own refusals, then 12.
    pub fn house(sheet: &[u8], out: &mut [u8]) -> u64 {
        write_text(model::house(sheet), out)
    }

    /// The sheet's own refusals by the former rules, then 17, then 12.
    pub fn convert(sheet: &[u8], out: &mut [u8]) -> u64 {
        write_text(model::convert(sheet), out)
    }

    /// The line's own refusals, then 12.
    pub fn ring(line: &[u8], out: &mut [u8]) -> u64 {
        write_text(model::ring(line), out)
    }

    /// The sheet's own refusals, then 18, 19 and 12; whole pairs are counted, as for the solver.
    pub fn read_listing(sheet: &[u8], listing: &[u8], table: &mut [u8]) -> u64 {
        returned(model::recover(sheet, listing, usize::MAX), table)
    }

    /// Writes a table that was recovered, or answers with its refusal, or with 12.
    pub fn returned(recovered: Result<Vec<u16>, Refusal>, table: &mut [u8]) -> u64 {
        match recovered.and_then(|minutes| model::fitting(minutes, table.len() / 2)) {
            Err(refusal) => refused(refusal),
            Ok(minutes) => write(&minutes, table),
        }
    }

    pub fn plain(sheet: &[u8]) -> u64 {
        rounds::answer_of(&model::read(sheet))
    }
}
