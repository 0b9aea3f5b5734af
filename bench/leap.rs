//! leap make DIR                        writes the made sheets to DIR, the ordinary ones to DIR/ordinary
//! leap compare SHEET..                 compares the answers, and prints a line for each sheet
//! leap run IMPLEMENTATION SHEET..      one call on each sheet, for callgrind
//!
//! The implementations, of which all but the last read the sheet themselves:
//!
//!     none       no call: what the program does besides
//!     read       opening_solve with no table lent, which ends with refusal 12 once the sheet is read
//!     plain      tally_plain: reading, compiling, then rounds one by one
//!     leaping    tally_leaping: the same by the solver's run, which passes over rounds
//!     library    opening_solve
//!     anchor     anchor.rs; it solves sheets that are read, and all of them are read by its reader whichever is run
//!
//! A line of `compare` has the rounds, the turns (rounds made one by one in the leaping run), `table` or `13`, and the sheet's path. The
//! exit status is 1 if two answers differ.
//!
//! Build: rustc --edition 2021 -C opt-level=3 -C codegen-units=1 -o leap leap.rs -L native=DIR   (DIR has libopening.a and libtally.a)

mod anchor;
mod made;

use std::hint::black_box;
use std::process::exit;

/// 16 events, 16 cases, two bytes a minute.
const TABLE_MOST: usize = 512;
/// In place of the sum where there is no table.
const NO_TABLE: u32 = u32::MAX;

mod linked {
    #[link(name = "opening", kind = "static")]
    extern "C" {
        fn opening_solve(sheet: *const u8, sheet_len: usize, table: *mut u8, table_len: usize) -> u64;
    }

    #[link(name = "tally", kind = "static")]
    extern "C" {
        fn tally_leaping(sheet: *const u8, sheet_len: usize) -> u64;
        fn tally_plain(sheet: *const u8, sheet_len: usize) -> u64;
        fn tally_turns(sheet: *const u8, sheet_len: usize) -> u64;
    }

    pub fn solve(sheet: &[u8], table: &mut [u8]) -> u64 {
        unsafe { opening_solve(sheet.as_ptr(), sheet.len(), table.as_mut_ptr(), table.len()) }
    }

    pub fn leaping(sheet: &[u8]) -> u64 {
        unsafe { tally_leaping(sheet.as_ptr(), sheet.len()) }
    }

    pub fn plain(sheet: &[u8]) -> u64 {
        unsafe { tally_plain(sheet.as_ptr(), sheet.len()) }
    }

    pub fn turns(sheet: &[u8]) -> u64 {
        unsafe { tally_turns(sheet.as_ptr(), sheet.len()) }
    }
}

fn fail(words: &str) -> ! {
    eprintln!("leap: {words}");
    exit(2)
}

struct Given<'a> {
    path: &'a str,
    bytes: Vec<u8>,
    sheet: anchor::Sheet,
}

fn given(path: &String) -> Given<'_> {
    let text = std::fs::read_to_string(path).unwrap_or_else(|error| fail(&format!("{path}: {error}")));
    Given { path, sheet: anchor::Sheet::parse(&text), bytes: text.into_bytes() }
}

// ---------------------------------------------------------------- make

fn make(dir: &str) -> std::io::Result<()> {
    std::fs::create_dir_all(format!("{dir}/ordinary"))?;
    for (name, sheet) in made::heavy_sheets() {
        std::fs::write(format!("{dir}/{name}.csv"), made::text_of(&sheet))?;
    }
    for (name, sheet) in made::ordinary_sheets() {
        std::fs::write(format!("{dir}/ordinary/{name}.csv"), made::text_of(&sheet))?;
    }
    Ok(())
}

// ---------------------------------------------------------------- run

/// Nothing is printed, for that would take instructions by the length of the answers.
fn run(implementation: &str, all: &[Given]) {
    let mut table = [0u8; TABLE_MOST];
    for one in all {
        let (bytes, sheet) = (black_box(&one.bytes[..]), black_box(&one.sheet));
        let answer = match implementation {
            "none" => 0,
            "read" => linked::solve(bytes, black_box(&mut table[..0])),
            "plain" => linked::plain(bytes),
            "leaping" => linked::leaping(bytes),
            "library" => linked::solve(bytes, black_box(&mut table)),
            "anchor" => black_box(anchor::compiled as fn(&anchor::Sheet) -> anchor::Answer)(sheet).rounds,
            _ => fail(&format!("no implementation {implementation}")),
        };
        black_box(answer);
    }
}

// ---------------------------------------------------------------- compare

/// What tally sums up: the times in rows of sixteen, and the sums on the way.
fn sum_of(minutes: impl Iterator<Item = u16>, events: usize) -> u32 {
    let mut cells = [0u32; 256];
    for (i, minute) in minutes.enumerate() {
        cells[i / events * 16 + i % events] = u32::from(minute);
    }
    let (mut one, mut two) = (0u32, 0u32);
    for cell in cells {
        one = one.wrapping_add(cell);
        two = two.wrapping_add(one);
    }
    two
}

/// The library's sum: of its table, or that of none for refusal 13.
fn library_sum(one: &Given) -> Option<u32> {
    let mut table = [0u8; TABLE_MOST];
    let answer = linked::solve(&one.bytes, &mut table);
    let minutes = (answer >> 24 & 0xffff) as usize;
    match answer & 0xff {
        0 => Some(sum_of(table.chunks(2).take(minutes).map(|pair| u16::from_le_bytes([pair[0], pair[1]])), one.sheet.events)),
        13 => Some(NO_TABLE),
        _ => None,
    }
}

/// Rounds and sum by leaps, by plain rounds and by the anchor are the same, and so is the library's table.
fn compare(one: &Given) -> bool {
    let leaping = linked::leaping(&one.bytes);
    let plain = linked::plain(&one.bytes);
    let answer = anchor::compiled(&one.sheet);
    let sum = if answer.found { sum_of(answer.table.into_iter(), one.sheet.events) } else { NO_TABLE };
    let anchor = answer.rounds | u64::from(sum) << 32;
    let library = library_sum(one);
    let same = leaping == plain && leaping == anchor && library == Some(sum);
    let end = if leaping >> 32 == u64::from(NO_TABLE) { "13" } else { "table" };
    println!("{} {} {end} {}", leaping & 0xffff_ffff, linked::turns(&one.bytes), one.path);
    if !same {
        eprintln!("answers differ on {}: leaping {leaping:x} plain {plain:x} anchor {anchor:x} library {library:x?}", one.path);
    }
    same
}

fn main() {
    let words: Vec<String> = std::env::args().skip(1).collect();
    let first: Vec<&str> = words.iter().take(2).map(String::as_str).collect();
    match first[..] {
        ["make", dir] if words.len() == 2 => make(dir).unwrap_or_else(|error| fail(&format!("{dir}: {error}"))),
        ["compare", _] => {
            let same = words[1..].iter().map(given).fold(true, |same, one| compare(&one) && same);
            exit(if same { 0 } else { 1 })
        }
        ["run", implementation] if words.len() > 2 => {
            let all: Vec<Given> = words[2..].iter().map(given).collect();
            run(implementation, &all)
        }
        _ => fail("usage: leap make DIR | compare SHEET.. | run none|read|plain|leaping|library|anchor SHEET.."),
    }
}
