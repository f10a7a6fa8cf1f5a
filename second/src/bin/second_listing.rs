//! The listing program: patches on standard input, the listing on standard output.

#![forbid(unsafe_code)]

use second::{limits::LISTING_BYTES, listing};
use std::io::{self, Read, Write};

fn main() -> io::Result<()> {
    // One byte more than is accepted is enough to know that it is too long.
    let most = u64::try_from(LISTING_BYTES + 1).unwrap_or(u64::MAX);
    let mut input = Vec::new();
    io::stdin().lock().take(most).read_to_end(&mut input)?;
    let mut output = io::stdout().lock();
    output.write_all(&listing(&input))?;
    output.flush()
}
