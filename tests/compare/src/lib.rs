//! Holds the proved library against the independent second program (`second/`), call by call. `pair` makes a call
//! by both and holds together what they leave; `layout` is this test's own reader and writer of the layouts;
//! the other modules are the checks, by what they try. The fuzz entry (`tests/fuzz`) uses `pair` too.

pub mod arrivals;
pub mod damage;
pub mod dice;
pub mod examples;
pub mod layout;
pub mod limits;
pub mod listings;
pub mod ours;
pub mod pair;
pub mod places;
pub mod play;
pub mod trial;
