//! Section "A new place (003, definition 3, completed)".

use crate::position::{Identifier, Position};
use std::cmp::Ordering;
use std::iter::repeat;

/// The candidates of one length: `front` and then (x, site) for every x of an
/// unbroken run. There is at least one.
#[derive(Clone, Debug, PartialEq, Eq)]
pub struct Candidates {
    /// The first d-1 identifiers, common to all candidates.
    pub front: Vec<Identifier>,
    /// The site of the last identifier.
    pub site: u8,
    /// The smallest x.
    pub lowest: u32,
    /// The largest x.
    pub highest: u32,
}

impl Candidates {
    /// How many values of x there are.
    pub fn count(&self) -> u32 {
        let steps = self.highest.saturating_sub(self.lowest);
        steps.saturating_add(1)
    }

    /// The place that a draw takes: x = lo + (draw mod c).
    fn drawn(self, draw: u32) -> Option<Position> {
        let x = self.lowest + draw % self.count();
        let last = Identifier {
            integer: u16::try_from(x).ok()?,
            site: self.site,
        };
        let mut identifiers = self.front;
        identifiers.push(last);
        Position::of_line(identifiers)
    }
}

/// The place of a line that `site` inserts between `p` and `q`, or `None` where
/// no place of at most 8 identifiers exists (answer 12).
pub fn new_place(p: &Position, q: &Position, site: u8, draw: u32) -> Option<Position> {
    candidates(p, q, site)?.drawn(draw)
}

/// The candidates of the smallest length up to 8 that has any.
pub fn candidates(p: &Position, q: &Position, site: u8) -> Option<Candidates> {
    (1..=Position::LIMIT).find_map(|length| candidates_of_length(p, q, site, length))
}

fn candidates_of_length(p: &Position, q: &Position, site: u8, length: usize) -> Option<Candidates> {
    let of_p = p.identifiers().iter().copied();
    let front: Vec<Identifier> = of_p
        .chain(repeat(Identifier::PAD))
        .take(length - 1)
        .collect();
    let lowest = lowest_above(p.identifiers().get(length - 1), site);
    let highest = highest_below(&front, q.identifiers(), site)?;
    (lowest <= highest).then_some(Candidates {
        front,
        site,
        lowest,
        highest,
    })
}

/// The smallest x from 1 that puts front.(x, site) above P.
///
/// Where P has an identifier here, (x, site) has to be above it: at an equal
/// one the candidate would be P itself, or P's beginning. Where P has run out,
/// the candidate goes on after P and so lies above it with any x.
fn lowest_above(of_p: Option<&Identifier>, site: u8) -> u32 {
    match of_p {
        None => 1,
        Some(bound) if site > bound.site => u32::from(bound.integer).max(1),
        Some(bound) => u32::from(bound.integer) + 1,
    }
}

/// The largest x up to 65,535 that puts front.(x, site) below Q (0 or `None`:
/// there is none).
///
/// A front that differs from Q decides for every x. Otherwise (x, site) has to
/// be below Q's identifier here, or equal to it where Q goes on after it. A Q
/// that has run out by here is the front or its beginning, and lies below.
fn highest_below(front: &[Identifier], q: &[Identifier], site: u8) -> Option<u32> {
    let (q_front, q_rest) = q.split_at(front.len().min(q.len()));
    match front.cmp(q_front) {
        Ordering::Less => Some(u32::from(u16::MAX)),
        Ordering::Greater => None,
        Ordering::Equal => {
            let (bound, q_after) = q_rest.split_first()?;
            let reaches = site < bound.site || (site == bound.site && !q_after.is_empty());
            let integer = u32::from(bound.integer);
            Some(if reaches {
                integer
            } else {
                integer.saturating_sub(1)
            })
        }
    }
}
