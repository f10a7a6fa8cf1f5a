//! What every check is given, and small functions that several parts share.

use crate::dice::Dice;
use crate::layout::{Place, Row, State, PATCH, RECORD, SITES, TABLE};
use crate::pair::{Held, Pair};

/// Both programs, the dice of the check, and how many times as much the random checks do.
pub struct Trial {
    pub pair: Pair,
    pub dice: Dice,
    pub long: usize,
}

/// A named check. Done, it says in a few words how much it held.
pub struct Check {
    pub name: &'static str,
    pub run: fn(&mut Trial) -> Held<String>,
}

/// Fails unless the two are equal.
pub fn expect<T: PartialEq + std::fmt::Debug>(what: &str, seen: T, wanted: T) -> Held<()> {
    if seen == wanted {
        Ok(())
    } else {
        Err(format!("{what}: wanted {wanted:?}, seen {seen:?}"))
    }
}

/// Fails with these words unless the condition holds.
pub fn demand(holds: bool, words: impl FnOnce() -> String) -> Held<()> {
    if holds {
        Ok(())
    } else {
        Err(words())
    }
}

impl Trial {
    /// A record and a table of noise, in which both programs start a replica.
    pub fn started(&mut self, site: u8) -> Held<State> {
        let mut state = State { record: self.dice.bytes(RECORD), table: self.dice.bytes(TABLE) };
        let answer = self.pair.start(&mut state, u32::from(site))?;
        expect("answer of start", answer, 0)?;
        demand(state == State::of(site, &[0; SITES], &[]), || "start left more than the site".to_string())?;
        Ok(state)
    }

    /// Inserts and gives the answer and the patch, which is empty where it was refused.
    pub fn insert(&mut self, state: &mut State, row: usize, text: &[u8], draw: u32) -> Held<(u32, Vec<u8>)> {
        let length = PATCH + self.dice.below(20);
        let mut buffer = self.dice.bytes(length);
        let (answer, written) = self.pair.insert(state, row, text, draw, &mut buffer)?;
        buffer.truncate(written);
        Ok((answer, buffer))
    }

    /// Deletes and gives the answer and the patch, which is empty where it was refused.
    pub fn delete(&mut self, state: &mut State, row: usize) -> Held<(u32, Vec<u8>)> {
        let length = PATCH + self.dice.below(20);
        let mut buffer = self.dice.bytes(length);
        let (answer, written) = self.pair.delete(state, row, &mut buffer)?;
        buffer.truncate(written);
        Ok((answer, buffer))
    }

    /// Receives a patch on a copy of the state, and fails unless this answer comes.
    pub fn expect_receive(&mut self, what: &str, state: &State, patch: &[u8], wanted: u32) -> Held<State> {
        let mut after = state.clone();
        let answer = self.pair.receive(&mut after, patch)?;
        expect(&format!("{what}: answer of receive"), answer, wanted)?;
        Ok(after)
    }

    /// Inserts on a copy of the state, and fails unless this answer comes.
    pub fn expect_insert(&mut self, what: &str, state: &State, row: usize, wanted: u32) -> Held<State> {
        let mut after = state.clone();
        let draw = self.dice.word();
        let (answer, _) = self.insert(&mut after, row, b"line", draw)?;
        expect(&format!("{what}: answer of insert"), answer, wanted)?;
        Ok(after)
    }

    /// Fails unless both programs find the state sound, or unsound, in every operation that takes it.
    pub fn expect_sound(&mut self, what: &str, state: &State, sound: bool) -> Held<()> {
        let row = state.rows_in_use();
        let (answer, _) = self.pair.row_text(state, row)?;
        expect(&format!("{what}: answer of row_text"), answer, if sound { 8 } else { 1 })?;
        self.expect_receive(what, state, &[], if sound { 2 } else { 1 })?;
        self.expect_insert(what, state, row + 1, if sound { 8 } else { 1 })?;
        let (answer, _) = self.delete(&mut state.clone(), row)?;
        expect(&format!("{what}: answer of delete"), answer, if sound { 8 } else { 1 })
    }
}

/// So many rows of one author at rising places of one identifier, numbered from 1.
pub fn plain_rows(author: u8, rows: usize) -> Vec<Row> {
    (1..=rows)
        .map(|at| Row { place: vec![(at as u16, author)], number: at as u32, text: b"x".to_vec() })
        .collect()
}

/// Counts that are all the same.
pub fn all_counts(count: u32) -> [u32; SITES] {
    [count; SITES]
}

/// So many identifiers after a first one.
pub fn place_of(first: (u16, u8), rest: (u16, u8), more: usize) -> Place {
    let mut place = vec![first];
    place.resize(more + 1, rest);
    place
}
