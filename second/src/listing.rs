//! Section "Listing program".

use crate::answer::{number, Refusal};
use crate::limits::{LISTING_BYTES, SITES};
use crate::patch::Patch;
use crate::position::Position;
use crate::table::{Line, Replica};

/// What the listing program writes for an input of any length.
pub fn listing(input: &[u8]) -> Vec<u8> {
    if input.len() > LISTING_BYTES {
        return b"too long\n".to_vec();
    }
    let mut out = Vec::new();
    if let Ok(mut replica) = Replica::start(u32::from(SITES)) {
        feed(&mut replica, input, &mut out);
        list_rows(&replica, &mut out);
    }
    out
}

/// Feeds the patches and writes, for each, its place and its answer.
///
/// Reading of the document: answer 2 stops the feeding only, and what has been
/// received is still listed after it; a rest of the input that is no whole patch
/// is answered 2 as one more patch; an empty rest is none.
fn feed(replica: &mut Replica, input: &[u8], out: &mut Vec<u8>) {
    let mut rest = input;
    let mut place = 0u32;
    while !rest.is_empty() {
        place += 1;
        let (answer, used) = match Patch::read(rest) {
            Some((patch, used)) => (number(replica.receive(&patch)), used),
            // Without an end to this patch, nothing after it can be read.
            None => (number(Err(Refusal::Malformed)), rest.len()),
        };
        out.extend_from_slice(format!("{place} {answer}\n").as_bytes());
        rest = rest.get(used..).unwrap_or(&[]);
    }
}

fn list_rows(replica: &Replica, out: &mut Vec<u8>) {
    out.extend_from_slice(format!("rows {}\n", replica.lines.len()).as_bytes());
    for (place, line) in (1u32..).zip(&replica.lines) {
        list_row(place, line, out);
    }
}

/// One space parts the fields, also before an empty text. The text's bytes are
/// written as they are.
fn list_row(place: u32, line: &Line, out: &mut Vec<u8>) {
    let position = in_words(&line.position);
    let fields = format!("{place} {position} {} ", line.number);
    out.extend_from_slice(fields.as_bytes());
    out.extend_from_slice(&line.text);
    out.push(b'\n');
}

/// A position as integer.site joined by commas.
fn in_words(position: &Position) -> String {
    let identifiers = position.identifiers().iter();
    let words: Vec<String> = identifiers
        .map(|identifier| format!("{}.{}", identifier.integer, identifier.site))
        .collect();
    words.join(",")
}
