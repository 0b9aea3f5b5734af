//! speed SHEET IMPLEMENTATION REPEATS [read]
//!
//! Solves a sheet REPEATS times by one implementation (library, equal, plain) and prints one line: the refusal's number, its line,
//! the count of minutes, a checksum of the table's bytes, and the count of rounds (0 where the implementation does not tell).
//! With `read` no table is lent, so each call ends with refusal 12, once the sheet is read.
//!
//! Build: rustc --edition 2021 -C opt-level=3 -C codegen-units=1 -o speed main.rs -L native=DIR   (DIR has libopening.a)
//!    or: with --cfg standalone in place of -L, without the implementation `library`.

mod equal;
mod plain;

use std::hint::black_box;
use std::process::exit;

/// 16 events, 16 cases, two bytes a minute.
const TABLE_MOST: usize = 512;

/// A solver by the C interface: number, line (two bytes), minutes (two bytes), rounds (three bytes), lowest first.
type Solver = fn(sheet: &[u8], table: &mut [u8]) -> u64;

#[cfg(not(standalone))]
mod linked {
    #[link(name = "opening", kind = "static")]
    extern "C" {
        fn opening_solve(sheet: *const u8, sheet_len: usize, table: *mut u8, table_len: usize) -> u64;
    }

    pub fn solve(sheet: &[u8], table: &mut [u8]) -> u64 {
        unsafe { opening_solve(sheet.as_ptr(), sheet.len(), table.as_mut_ptr(), table.len()) }
    }
}

fn solver_named(name: &str) -> Option<Solver> {
    match name {
        #[cfg(not(standalone))]
        "library" => Some(linked::solve),
        "equal" => Some(equal::solve_bytes),
        "plain" => Some(plain::solve_bytes),
        _ => None,
    }
}

/// FNV-1a.
fn checksum(bytes: &[u8]) -> u32 {
    bytes.iter().fold(0x811c_9dc5, |sum, &b| (sum ^ u32::from(b)).wrapping_mul(0x0100_0193))
}

fn fail(words: &str) -> ! {
    eprintln!("speed: {words}");
    exit(2)
}

fn main() {
    let words: Vec<String> = std::env::args().skip(1).collect();
    let (path, name, repeats, lent) = match &words.iter().map(String::as_str).collect::<Vec<_>>()[..] {
        [path, name, repeats] => (path.to_string(), name.to_string(), repeats.to_string(), TABLE_MOST),
        [path, name, repeats, "read"] => (path.to_string(), name.to_string(), repeats.to_string(), 0),
        _ => fail("usage: speed SHEET library|equal|plain REPEATS [read]"),
    };
    let sheet = std::fs::read(&path).unwrap_or_else(|error| fail(&format!("{path}: {error}")));
    let solver = solver_named(&name).unwrap_or_else(|| fail(&format!("no implementation {name}")));
    let repeats: u32 = repeats.parse().unwrap_or_else(|_| fail("REPEATS is a number"));
    let mut table = [0u8; TABLE_MOST];
    let mut answer = 0;
    for _ in 0..repeats {
        answer = black_box(solver)(black_box(&sheet), black_box(&mut table[..lent]));
    }
    let (number, line, minutes, rounds) = (answer & 0xff, answer >> 8 & 0xffff, answer >> 24 & 0xffff, answer >> 40);
    let sum = checksum(&table[..2 * minutes as usize]);
    println!("number {number} line {line} minutes {minutes} sum {sum:08x} rounds {rounds}");
}
