//! The operations over bytes. Each decodes what it is lent, works on that, and
//! encodes only when done: so a refusal leaves every buffer as it was.

use crate::answer::{number, Done, Refusal};
use crate::bytes::{put_front, Reader};
use crate::compare::compare_counts;
use crate::limits::{COUNTS_BYTES, PATCH_BYTES, RECORD_BYTES, ROW_BYTES, TABLE_BYTES, TEXT_IN_ROW};
use crate::patch::Patch;
use crate::table::{Counts, Replica};
use std::ops::Range;

/// Per site: side (1), first number lacked (4), last (4).
const RESULT_BYTES: usize = 16 * (1 + 4 + 4);

/// Start. Checks 14, then 1 for the lengths only: what the bytes held before
/// does not matter.
pub fn start(record: &mut [u8], table: &mut [u8], site: u32) -> u32 {
    let fresh = Replica::start(site).and_then(|replica| {
        let fits = record.len() == RECORD_BYTES && table.len() == TABLE_BYTES;
        fits.then_some(replica).ok_or(Refusal::NotSound)
    });
    number(fresh.map(|replica| {
        replica.encode(record, table);
        Done::Done
    }))
}

/// Insert before a row. Checks 1, 10, 8, 9, 7, 11, 12, 13. Gives the answer and
/// the length of the patch written.
pub fn insert(
    record: &mut [u8],
    table: &mut [u8],
    row: usize,
    text: &[u8],
    draw: u32,
    patch: &mut [u8],
) -> (u32, usize) {
    local_edit(record, table, patch, |replica| {
        replica.insert(row, text, draw)
    })
}

/// Delete a row. Checks 1, 10, 8, 11. Gives the answer and the length of the
/// patch written.
pub fn delete(record: &mut [u8], table: &mut [u8], row: usize, patch: &mut [u8]) -> (u32, usize) {
    local_edit(record, table, patch, |replica| replica.delete(row))
}

/// What insert and delete have in common: checks 1 and 10 before the edit, and
/// the writing after it.
fn local_edit(
    record: &mut [u8],
    table: &mut [u8],
    buffer: &mut [u8],
    edit: impl FnOnce(&mut Replica) -> Result<Patch, Refusal>,
) -> (u32, usize) {
    let edited = decode(record, table).and_then(|mut replica| {
        if buffer.len() < PATCH_BYTES {
            return Err(Refusal::ShortBuffer);
        }
        let patch = edit(&mut replica)?;
        // The patch of an edit on a sound replica is always well formed.
        let bytes = patch.write().ok_or(Refusal::Malformed)?;
        Ok((replica, bytes))
    });
    match edited {
        Ok((replica, bytes)) => {
            replica.encode(record, table);
            put_front(buffer, &bytes);
            (number(Ok(Done::Done)), bytes.len())
        }
        Err(refusal) => (number(Err(refusal)), 0),
    }
}

/// Receive exactly one patch; a byte left over is malformed. Checks 1, 2, 3, 4,
/// 5, 6, 7.
pub fn receive(record: &mut [u8], table: &mut [u8], patch: &[u8]) -> u32 {
    let received = decode(record, table).and_then(|mut replica| {
        let read = Patch::read(patch).filter(|(_, used)| *used == patch.len());
        let (patch, _) = read.ok_or(Refusal::Malformed)?;
        let done = replica.receive(&patch)?;
        Ok((replica, done))
    });
    number(received.map(|(replica, done)| {
        replica.encode(record, table);
        done
    }))
}

/// Read a row's text. Checks 1, 8. Gives which bytes of the table it is; a
/// refused read hands back an empty part.
///
/// Reading of the document: a done read of an empty text is the empty part where
/// the text would begin; a refused one is the empty part at 0.
pub fn row_text(record: &[u8], table: &[u8], row: usize) -> (u32, Range<usize>) {
    let found = decode(record, table).and_then(|replica| {
        let line = replica.lines.get(row).ok_or(Refusal::NoRow)?;
        let from = row * ROW_BYTES + TEXT_IN_ROW;
        Ok(from..from + line.text.len())
    });
    match found {
        Ok(part) => (number(Ok(Done::Done)), part),
        Err(refusal) => (number(Err(refusal)), 0..0),
    }
}

/// Compare two sets of sixteen counts of 4 bytes. Refuses with 1 for a count
/// above 1,000,000 or a wrong length.
///
/// Reading of the document: it has a refused comparison give "zeros only"; where
/// a result buffer is lent, the rule for every refusal applies and the buffer
/// stays.
pub fn compare(first: &[u8], second: &[u8], result: &mut [u8]) -> u32 {
    let (one, two) = match (read_counts(first), read_counts(second)) {
        (Some(one), Some(two)) if result.len() == RESULT_BYTES => (one, two),
        _ => return number(Err(Refusal::NotSound)),
    };
    let mut bytes = Vec::with_capacity(RESULT_BYTES);
    for difference in compare_counts(&one, &two) {
        bytes.push(difference.side as u8);
        bytes.extend_from_slice(&difference.first.to_be_bytes());
        bytes.extend_from_slice(&difference.last.to_be_bytes());
    }
    put_front(result, &bytes);
    number(Ok(Done::Done))
}

/// Takes the first patch off a longer run of bytes: the answer and how many
/// bytes it used.
pub fn first_patch(bytes: &[u8]) -> (u32, usize) {
    match Patch::read(bytes) {
        Some((_, used)) => (number(Ok(Done::Done)), used),
        None => (number(Err(Refusal::Malformed)), 0),
    }
}

fn decode(record: &[u8], table: &[u8]) -> Result<Replica, Refusal> {
    Replica::decode(record, table).ok_or(Refusal::NotSound)
}

fn read_counts(bytes: &[u8]) -> Option<Counts> {
    if bytes.len() != COUNTS_BYTES {
        return None;
    }
    Counts::read(&mut Reader::new(bytes))
}
