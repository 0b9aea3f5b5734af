//! The model as a `libopening.a`, and with `leaps.rs` as a `libtally.a`, to try `main.rs` (linked) and `../bench/bench.c` before the real
//! libraries exist:
//! rustc --edition 2021 -O -C panic=abort --cfg standalone --crate-type staticlib -o DIR/libopening.a standin.rs
//! cp DIR/libopening.a DIR/libtally.a
//!
//! With FAULT=name in the environment it is one of the wrong programs of `faults.rs`, `heavy.rs`, `early.rs` or
//! `leaps.rs` instead.
#![allow(dead_code)]

mod converters;
mod early;
mod faults;
mod heavy;
mod labels;
mod leaps;
mod library;
mod model;
mod readers;
mod retired;
mod ringers;
mod rounds;
mod sections;

use std::slice::{from_raw_parts, from_raw_parts_mut};

/// The fault of these that the environment names, if any.
fn fault<T>(faults: fn() -> Vec<(&'static str, T)>) -> Option<T> {
    let name = std::env::var("FAULT").ok()?;
    let known = libraries().iter().any(|fault| fault.0 == name) || counters().iter().any(|fault| fault.0 == name);
    assert!(known, "FAULT is no fault of ours");
    faults().into_iter().find(|fault| fault.0 == name).map(|fault| fault.1)
}

fn libraries() -> Vec<(&'static str, library::Library)> {
    [&faults::FAULTS[..], &heavy::faults(), &early::faults(), &early::LONG, &early::RINGS].concat()
}

fn counters() -> Vec<(&'static str, library::Tally)> {
    leaps::COUNT_FAULTS.to_vec()
}

fn chosen() -> library::Library {
    fault(libraries).unwrap_or(library::LIBRARY)
}

fn chosen_tally() -> library::Tally {
    fault(counters).unwrap_or(library::TALLY)
}

/// # Safety
/// The slices are valid, and the table does not overlap the sheet.
#[no_mangle]
pub unsafe extern "C" fn opening_solve(sheet: *const u8, sheet_len: usize, table: *mut u8, table_len: usize) -> u64 {
    (chosen().solve)(from_raw_parts(sheet, sheet_len), from_raw_parts_mut(table, table_len))
}

/// # Safety
/// The slices are valid, and the table does not overlap the sheet.
#[no_mangle]
pub unsafe extern "C" fn opening_solve_within(
    sheet: *const u8, sheet_len: usize, rounds: u32, table: *mut u8, table_len: usize,
) -> u64 {
    (chosen().solve_within)(from_raw_parts(sheet, sheet_len), rounds, from_raw_parts_mut(table, table_len))
}

/// # Safety
/// The slices are valid.
#[no_mangle]
pub unsafe extern "C" fn opening_judge(sheet: *const u8, sheet_len: usize, table: *const u8, table_len: usize) -> u64 {
    (chosen().judge)(from_raw_parts(sheet, sheet_len), from_raw_parts(table, table_len))
}

/// # Safety
/// The slices are valid.
#[no_mangle]
pub unsafe extern "C" fn opening_due(
    sheet: *const u8, sheet_len: usize, table: *const u8, table_len: usize, minute: u16, heard: *const u8, heard_len: usize,
) -> u64 {
    let (sheet, table, heard) = (from_raw_parts(sheet, sheet_len), from_raw_parts(table, table_len), from_raw_parts(heard, heard_len));
    (chosen().due)(library::Question { sheet, table, minute, heard })
}

/// # Safety
/// The slices are valid, and the last does not overlap the others.
#[no_mangle]
pub unsafe extern "C" fn opening_listing(
    sheet: *const u8, sheet_len: usize, table: *const u8, table_len: usize, out: *mut u8, out_len: usize,
) -> u64 {
    (chosen().listing)(from_raw_parts(sheet, sheet_len), from_raw_parts(table, table_len), from_raw_parts_mut(out, out_len))
}

/// # Safety
/// The slices are valid, and the last does not overlap the first.
#[no_mangle]
pub unsafe extern "C" fn opening_house(sheet: *const u8, sheet_len: usize, out: *mut u8, out_len: usize) -> u64 {
    (chosen().house)(from_raw_parts(sheet, sheet_len), from_raw_parts_mut(out, out_len))
}

/// # Safety
/// The slices are valid, and the last does not overlap the others.
#[no_mangle]
pub unsafe extern "C" fn opening_read_listing(
    sheet: *const u8, sheet_len: usize, listing: *const u8, listing_len: usize, table: *mut u8, table_len: usize,
) -> u64 {
    let (sheet, listing) = (from_raw_parts(sheet, sheet_len), from_raw_parts(listing, listing_len));
    (chosen().read_listing)(sheet, listing, from_raw_parts_mut(table, table_len))
}

/// # Safety
/// The slices are valid, and the last does not overlap the first.
#[no_mangle]
pub unsafe extern "C" fn opening_convert(sheet: *const u8, sheet_len: usize, out: *mut u8, out_len: usize) -> u64 {
    (chosen().convert)(from_raw_parts(sheet, sheet_len), from_raw_parts_mut(out, out_len))
}

/// # Safety
/// The slices are valid, and the last does not overlap the first.
#[no_mangle]
pub unsafe extern "C" fn opening_ring(line: *const u8, line_len: usize, out: *mut u8, out_len: usize) -> u64 {
    (chosen().ring)(from_raw_parts(line, line_len), from_raw_parts_mut(out, out_len))
}

/// # Safety
/// The slice is valid.
#[no_mangle]
pub unsafe extern "C" fn tally_leaping(sheet: *const u8, sheet_len: usize) -> u64 {
    (chosen_tally().leaping)(from_raw_parts(sheet, sheet_len))
}

/// # Safety
/// The slice is valid.
#[no_mangle]
pub unsafe extern "C" fn tally_plain(sheet: *const u8, sheet_len: usize) -> u64 {
    (chosen_tally().plain)(from_raw_parts(sheet, sheet_len))
}

/// # Safety
/// The slice is valid.
#[no_mangle]
pub unsafe extern "C" fn tally_turns(sheet: *const u8, sheet_len: usize) -> u64 {
    (chosen_tally().turns)(from_raw_parts(sheet, sheet_len))
}
