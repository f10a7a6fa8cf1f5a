//! An independent second program for the script replica.
//!
//! It is written from the document "Description of the build and its rules"
//! alone, in the plainest way: bytes are decoded into lists and maps, the
//! operation is done on those, and the result is encoded back. The modules
//! follow the sections of the document.

#![forbid(unsafe_code)]
#![warn(missing_docs)]
#![warn(
    clippy::expect_used,
    clippy::indexing_slicing,
    clippy::panic,
    clippy::unwrap_used
)]

mod answer;
mod bytes;
mod compare;
mod interface;
mod listing;
mod operations;
mod patch;
mod place;
mod position;
mod table;

pub mod limits;

pub use answer::{Done, Refusal};
pub use compare::{compare_counts, Difference, Side};
pub use interface::{compare, delete, first_patch, insert, receive, row_text, start};
pub use listing::listing;
pub use patch::{Edit, Patch};
pub use place::{candidates, new_place, Candidates};
pub use position::{Identifier, Position};
pub use table::{Counts, Line, Replica};
