//! Section "Positions (003, definitions 1 and 2)".

use crate::limits::is_site;

/// An identifier. The derived order is the document's: by integer, then by site.
#[derive(Clone, Copy, Debug, PartialEq, Eq, PartialOrd, Ord)]
pub struct Identifier {
    /// 0 to 65,535.
    pub integer: u16,
    /// 1 to 16, or 0 in the pad.
    pub site: u8,
}

impl Identifier {
    /// The pad (0,0).
    pub const PAD: Identifier = Identifier {
        integer: 0,
        site: 0,
    };

    /// Either the pad, or both parts at least 1. Reading of the document: its
    /// range of sites, 1 to 16, holds inside identifiers too.
    pub fn is_valid(self) -> bool {
        self == Identifier::PAD || (self.integer >= 1 && is_site(self.site))
    }
}

/// A line's position, or one of the two ends.
///
/// The order of lists is the document's order: it looks at the first
/// identifiers and, where these are equal, at the rest; the list that runs out
/// first is the smaller.
#[derive(Clone, Debug, PartialEq, Eq, PartialOrd, Ord)]
pub struct Position(Vec<Identifier>);

impl Position {
    /// A position has at most this many identifiers.
    pub const LIMIT: usize = 8;

    /// A line's first integer is at most this.
    const LARGEST_FIRST: u16 = 65_534;

    /// The end below every line: (0,0).
    pub fn begin() -> Position {
        Position(vec![Identifier::PAD])
    }

    /// The end above every line: (65535,0), which is no identifier of a line.
    pub fn end() -> Position {
        Position(vec![Identifier {
            integer: u16::MAX,
            site: 0,
        }])
    }

    /// The position of a line, if these identifiers can be one.
    pub fn of_line(identifiers: Vec<Identifier>) -> Option<Position> {
        let position = Position(identifiers);
        position.is_of_line().then_some(position)
    }

    /// 1 to 8 valid identifiers, the last no pad, the first integer at most
    /// 65,534. Neither end passes.
    pub fn is_of_line(&self) -> bool {
        match (self.0.first(), self.0.last()) {
            (Some(first), Some(last)) => {
                self.0.len() <= Position::LIMIT
                    && self.0.iter().all(|identifier| identifier.is_valid())
                    && *last != Identifier::PAD
                    && first.integer <= Position::LARGEST_FIRST
            }
            _ => false,
        }
    }

    /// The identifiers, first to last.
    pub fn identifiers(&self) -> &[Identifier] {
        &self.0
    }

    /// The last site, which is the author of the line (0 for the ends).
    pub fn author(&self) -> u8 {
        self.0.last().map_or(0, |last| last.site)
    }
}
