//! The calls as the archive has them. A lent slice crosses as a pointer and a length; each function
//! here makes the two from one slice, so that they agree and borrows keep slices apart.
//!
//! Every number crosses as 64 bits, on every target, by [`wide`] and [`narrow`](crate::numbers::narrow).

use crate::numbers::wide;
use crate::Error;

/// How many numbers a settings record has: kind, k, L, n, m, s and w.
pub const RECORD: usize = 7;

/// A settings record as it crosses.
pub type Record = [u64; RECORD];

mod c {
    extern "C" {
        pub fn harpginger_version() -> u64;

        pub fn harpginger_settings(
            kind: u64,
            k: u64,
            top: u64,
            n: u64,
            numbers: *mut u64,
            numbers_length: u64,
            value: *mut u64,
        ) -> u64;

        pub fn harpginger_erase(
            numbers: *const u64,
            numbers_length: u64,
            sheet: *mut u8,
            sheet_length: u64,
            value: *mut u64,
        ) -> u64;

        pub fn harpginger_read(
            numbers: *const u64,
            numbers_length: u64,
            sheet: *const u8,
            sheet_length: u64,
            out: *mut u8,
            out_length: u64,
            value: *mut u64,
        ) -> u64;

        pub fn harpginger_change(
            numbers: *const u64,
            numbers_length: u64,
            sheet: *mut u8,
            sheet_length: u64,
            bit: u64,
            value: *mut u64,
        ) -> u64;
    }
}

/// The version of the interface that the archive has.
pub fn version() -> u64 {
    // SAFETY: the call takes nothing, and gives a number.
    unsafe { c::harpginger_version() }
}

/// The record of accepted settings, and their guarantee.
pub fn settings(kind: u64, k: usize, top: usize, n: usize) -> Result<(Record, u64), Error> {
    let (mut record, mut value) = ([0; RECORD], 0);
    // SAFETY: the record has RECORD places, and record and value are apart.
    let number = unsafe {
        c::harpginger_settings(
            kind,
            wide(k),
            wide(top),
            wide(n),
            record.as_mut_ptr(),
            wide(RECORD),
            &mut value,
        )
    };
    Ok((record, Error::outcome(number, value)?))
}

/// Sets all cells to 0; the guarantee.
pub fn erase(record: &Record, sheet: &mut [u8]) -> Result<u64, Error> {
    let mut value = 0;
    // SAFETY: each pointer and length are of one slice, and what is written is borrowed alone.
    let number = unsafe {
        c::harpginger_erase(
            record.as_ptr(),
            wide(RECORD),
            sheet.as_mut_ptr(),
            wide(sheet.len()),
            &mut value,
        )
    };
    Error::outcome(number, value)
}

/// Writes the bits to the first places; how many are 1.
pub fn read(record: &Record, sheet: &[u8], out: &mut [u8]) -> Result<u64, Error> {
    let mut value = 0;
    // SAFETY: each pointer and length are of one slice, and what is written is borrowed alone.
    let number = unsafe {
        c::harpginger_read(
            record.as_ptr(),
            wide(RECORD),
            sheet.as_ptr(),
            wide(sheet.len()),
            out.as_mut_ptr(),
            wide(out.len()),
            &mut value,
        )
    };
    Error::outcome(number, value)
}

/// Flips one bit; the levels raised.
pub fn change(record: &Record, sheet: &mut [u8], bit: usize) -> Result<u64, Error> {
    let mut value = 0;
    // SAFETY: each pointer and length are of one slice, and what is written is borrowed alone.
    let number = unsafe {
        c::harpginger_change(
            record.as_ptr(),
            wide(RECORD),
            sheet.as_mut_ptr(),
            wide(sheet.len()),
            wide(bit),
            &mut value,
        )
    };
    Error::outcome(number, value)
}
