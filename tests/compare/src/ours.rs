//! The proved library, called as a host in C calls it. The C declarations stand here and nowhere else. Each
//! wrapper has the signature of the same function in the second program.
//!
//! Numbers that a call gives through a pointer hold noise before it, so that one not written is seen. A part
//! of length 0 goes over with NULL, as the header allows.

use std::ops::Range;
use std::ptr;

extern "C" {
    fn replica_start(record: *mut u8, record_len: usize, table: *mut u8, table_len: usize, site: u32) -> u32;
    fn replica_insert(
        record: *mut u8,
        record_len: usize,
        table: *mut u8,
        table_len: usize,
        row: usize,
        text: *const u8,
        text_len: usize,
        draw: u32,
        patch: *mut u8,
        patch_len: usize,
        written: *mut usize,
    ) -> u32;
    fn replica_delete(
        record: *mut u8,
        record_len: usize,
        table: *mut u8,
        table_len: usize,
        row: usize,
        patch: *mut u8,
        patch_len: usize,
        written: *mut usize,
    ) -> u32;
    fn replica_receive(
        record: *mut u8,
        record_len: usize,
        table: *mut u8,
        table_len: usize,
        patch: *const u8,
        patch_len: usize,
    ) -> u32;
    fn replica_row_text(
        record: *const u8,
        record_len: usize,
        table: *const u8,
        table_len: usize,
        row: usize,
        start: *mut usize,
        len: *mut usize,
    ) -> u32;
    fn replica_compare(
        first: *const u8,
        first_len: usize,
        second: *const u8,
        second_len: usize,
        result: *mut u8,
        result_len: usize,
    ) -> u32;
    fn replica_patch_first(bytes: *const u8, bytes_len: usize, used: *mut usize) -> u32;
}

const NOISE: usize = 0x5A5A_5A5A;

fn read(part: &[u8]) -> *const u8 {
    if part.is_empty() {
        ptr::null()
    } else {
        part.as_ptr()
    }
}

fn write(part: &mut [u8]) -> *mut u8 {
    if part.is_empty() {
        ptr::null_mut()
    } else {
        part.as_mut_ptr()
    }
}

pub fn start(record: &mut [u8], table: &mut [u8], site: u32) -> u32 {
    // SAFETY: each pointer goes with the length of its slice, and no two slices overlap; so in all that follow.
    unsafe { replica_start(write(record), record.len(), write(table), table.len(), site) }
}

pub fn insert(
    record: &mut [u8],
    table: &mut [u8],
    row: usize,
    text: &[u8],
    draw: u32,
    patch: &mut [u8],
) -> (u32, usize) {
    let mut written = NOISE;
    // SAFETY: as in `start`; `written` is a usize of its own.
    let answer = unsafe {
        replica_insert(
            write(record),
            record.len(),
            write(table),
            table.len(),
            row,
            read(text),
            text.len(),
            draw,
            write(patch),
            patch.len(),
            &mut written,
        )
    };
    (answer, written)
}

pub fn delete(record: &mut [u8], table: &mut [u8], row: usize, patch: &mut [u8]) -> (u32, usize) {
    let mut written = NOISE;
    // SAFETY: as in `insert`.
    let answer = unsafe {
        replica_delete(
            write(record),
            record.len(),
            write(table),
            table.len(),
            row,
            write(patch),
            patch.len(),
            &mut written,
        )
    };
    (answer, written)
}

pub fn receive(record: &mut [u8], table: &mut [u8], patch: &[u8]) -> u32 {
    // SAFETY: as in `start`.
    unsafe {
        replica_receive(write(record), record.len(), write(table), table.len(), read(patch), patch.len())
    }
}

pub fn row_text(record: &[u8], table: &[u8], row: usize) -> (u32, Range<usize>) {
    let (mut start, mut len) = (NOISE, NOISE);
    // SAFETY: as in `start`; `start` and `len` are each a usize of their own.
    let answer = unsafe {
        replica_row_text(read(record), record.len(), read(table), table.len(), row, &mut start, &mut len)
    };
    (answer, start..start.wrapping_add(len))
}

pub fn compare(first: &[u8], second: &[u8], result: &mut [u8]) -> u32 {
    // SAFETY: as in `start`.
    unsafe {
        replica_compare(read(first), first.len(), read(second), second.len(), write(result), result.len())
    }
}

pub fn first_patch(bytes: &[u8]) -> (u32, usize) {
    let mut used = NOISE;
    // SAFETY: as in `start`; `used` is a usize of its own.
    let answer = unsafe { replica_patch_first(read(bytes), bytes.len(), &mut used) };
    (answer, used)
}
