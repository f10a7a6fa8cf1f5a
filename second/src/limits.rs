//! Section "Numbers that bound it", and the byte lengths that follow from it.

/// Sites are 1 to 16.
pub const SITES: u8 = 16;

/// Patch numbers are 1 to 1,000,000 per site; counts are 0 to the same.
pub const LARGEST_NUMBER: u32 = 1_000_000;

/// A line's text has 0 to 48 bytes.
pub const TEXT: usize = 48;

/// A table has room for 512 rows.
pub const ROWS: usize = 512;

/// Record: site (1), rows (2), sixteen counts (4 each).
pub const RECORD_BYTES: usize = 1 + 2 + COUNTS_BYTES;

/// Sixteen counts of four bytes.
pub const COUNTS_BYTES: usize = 16 * 4;

/// One row: identifiers used (1), eight identifiers (3 each), number (4),
/// text length (1), text (48).
pub const ROW_BYTES: usize = TEXT_IN_ROW + TEXT;

/// Where the text begins inside a row.
pub const TEXT_IN_ROW: usize = 1 + 8 * 3 + 4 + 1;

/// The whole table: 39,936 bytes.
pub const TABLE_BYTES: usize = ROWS * ROW_BYTES;

/// The longest patch, and so the shortest patch buffer that is accepted.
pub const PATCH_BYTES: usize = 161;

/// The longest input of the listing program.
pub const LISTING_BYTES: usize = 65_536;

/// Whether this is a site.
pub fn is_site(site: u8) -> bool {
    (1..=SITES).contains(&site)
}

/// Whether this is a patch number (a line's number is one, too).
pub fn is_number(number: u32) -> bool {
    (1..=LARGEST_NUMBER).contains(&number)
}
