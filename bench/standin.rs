//! equal.rs under the C names, as a `libopening.a`: to try ratios.sh where the library is not built.
#![allow(dead_code)]

mod equal;

use std::slice::{from_raw_parts, from_raw_parts_mut};

/// # Safety
/// The slices are valid, and the table does not overlap the sheet.
#[no_mangle]
pub unsafe extern "C" fn opening_solve(sheet: *const u8, sheet_len: usize, table: *mut u8, table_len: usize) -> u64 {
    equal::solve_bytes(from_raw_parts(sheet, sheet_len), from_raw_parts_mut(table, table_len))
}
