//! A fuzz entry for libFuzzer: the input is a list of commands on three replicas. Both programs make each call,
//! and all that they leave is held together by `compare::pair`, as in the test of the gate; a difference ends
//! the process. The fuzzer sees which ways through the second program an input takes, and so looks for inputs
//! that take a new one.
//!
//! A command is a byte, whose high half says which replica and whose low half says what, and then the bytes of
//! its numbers; an input that ends early ends the list. Small bytes make the usual calls, large ones those at
//! and beyond the limits. Patches made on the way are kept, and later commands can receive them, whole or
//! damaged.

use compare::layout::{State, COMPARED, PATCH, RECORD, RECORD_COUNTS, ROW, ROWS, TABLE, TEXT};
use compare::pair::{Held, Pair};

const REPLICAS: usize = 3;
/// A number of one byte from here on stands for a larger number behind it.
const LARGE: u8 = 250;

/// The bytes of the input that are not used yet.
struct Input<'a> {
    rest: &'a [u8],
}

impl<'a> Input<'a> {
    fn byte(&mut self) -> Option<u8> {
        let (first, rest) = self.rest.split_first()?;
        self.rest = rest;
        Some(*first)
    }

    /// A number of one byte, or, behind a large byte, of so many more.
    fn number(&mut self, bytes: usize) -> Option<usize> {
        let first = self.byte()?;
        if first < LARGE {
            return Some(usize::from(first));
        }
        (0..bytes).try_fold(0, |sum, _| Some(sum << 8 | usize::from(self.byte()?)))
    }

    /// So many bytes, or as many as there are.
    fn bytes(&mut self, most: usize) -> &'a [u8] {
        let (taken, rest) = self.rest.split_at(most.min(self.rest.len()));
        self.rest = rest;
        taken
    }

    /// A buffer filled with noise; a few bytes make it shorter or longer than the call asks for.
    fn buffer(&mut self, asked: usize) -> Option<Vec<u8>> {
        let length = match self.byte()? {
            LARGE => 0,
            251 => asked - 1,
            252 => asked + 1,
            _ => asked,
        };
        Some(vec![0xA5; length])
    }
}

struct Play {
    pair: Pair,
    replicas: Vec<State>,
    /// What each replica was when it was last marked: after damage a command goes back to it.
    marked: Vec<State>,
    patches: Vec<Vec<u8>>,
}

impl Play {
    /// Three replicas, started as sites 1, 2 and 3.
    fn new() -> Held<Play> {
        let mut pair = Pair::default();
        let mut replicas = vec![State { record: vec![255; RECORD], table: vec![255; TABLE] }; REPLICAS];
        for (site, replica) in (1..).zip(&mut replicas) {
            pair.start(replica, site)?;
        }
        Ok(Play { pair, marked: replicas.clone(), replicas, patches: Vec::new() })
    }

    /// A row in use, the one behind them or one more; or any number.
    fn row(&self, at: usize, input: &mut Input) -> Option<usize> {
        let number = input.number(8)?;
        let rows = self.replicas[at]
            .record
            .get(1..3)
            .map_or(0, |rows| usize::from(rows[0]) << 8 | usize::from(rows[1]));
        Some(if number < usize::from(LARGE) { number % (rows + 2) } else { number })
    }

    fn keep(&mut self, buffer: &[u8], written: usize) {
        if written > 0 {
            self.patches.push(buffer[..written].to_vec());
        }
    }

    fn insert(&mut self, at: usize, input: &mut Input) -> Option<Held<()>> {
        let row = self.row(at, input)?;
        let draw = input.number(4)? as u32;
        let length = input.number(1)? % (TEXT + 3);
        let mut buffer = input.buffer(PATCH)?;
        let text = input.bytes(length);
        let call = self.pair.insert(&mut self.replicas[at], row, text, draw, &mut buffer);
        Some(call.map(|(_, written)| self.keep(&buffer, written)))
    }

    fn delete(&mut self, at: usize, input: &mut Input) -> Option<Held<()>> {
        let row = self.row(at, input)?;
        let mut buffer = input.buffer(PATCH)?;
        let call = self.pair.delete(&mut self.replicas[at], row, &mut buffer);
        Some(call.map(|(_, written)| self.keep(&buffer, written)))
    }

    /// One of the patches made so far, the first for 0; where none is made, no bytes.
    fn patch(&self, input: &mut Input) -> Option<Vec<u8>> {
        let index = input.number(1)? % self.patches.len().max(1);
        Some(self.patches.get(index).cloned().unwrap_or_default())
    }

    fn receive(&mut self, at: usize, patch: &[u8]) -> Held<()> {
        self.pair.first_patch(patch)?;
        self.pair.receive(&mut self.replicas[at], patch)?;
        Ok(())
    }

    /// Bytes with one changed; or, with a place behind them, with one more, or cut.
    fn damage(bytes: &mut Vec<u8>, place: usize, value: u8) {
        match bytes.get_mut(place) {
            Some(byte) => *byte = value,
            None if value % 2 == 0 => bytes.push(value),
            None => bytes.truncate(usize::from(value)),
        }
    }

    fn receive_damaged(&mut self, at: usize, input: &mut Input) -> Option<Held<()>> {
        let mut patch = self.patch(input)?;
        Play::damage(&mut patch, input.number(1)?, input.byte()?);
        Some(self.receive(at, &patch))
    }

    fn damage_record(&mut self, at: usize, input: &mut Input) -> Option<Held<()>> {
        Play::damage(&mut self.replicas[at].record, input.number(1)?, input.byte()?);
        Some(Ok(()))
    }

    fn damage_table(&mut self, at: usize, input: &mut Input) -> Option<Held<()>> {
        let (row, place) = (input.number(2)? % (ROWS + 1), input.number(1)? % ROW);
        Play::damage(&mut self.replicas[at].table, row * ROW + place, input.byte()?);
        Some(Ok(()))
    }

    fn compare(&mut self, at: usize, input: &mut Input) -> Option<Held<()>> {
        let other = input.number(1)? % REPLICAS;
        let mut result = input.buffer(COMPARED)?;
        let counts = |state: &State| state.record.get(RECORD_COUNTS..).unwrap_or(&[]).to_vec();
        let (first, second) = (counts(&self.replicas[at]), counts(&self.replicas[other]));
        Some(self.pair.compare(&first, &second, &mut result).map(|_| ()))
    }

    /// Marks what a replica holds, or goes back to what was marked.
    fn mark(&mut self, at: usize, input: &mut Input) -> Option<Held<()>> {
        match input.byte()? % 2 {
            0 => self.marked[at] = self.replicas[at].clone(),
            _ => self.replicas[at] = self.marked[at].clone(),
        }
        Some(Ok(()))
    }

    /// One command; `None` where the input has ended.
    fn step(&mut self, input: &mut Input) -> Option<Held<()>> {
        let command = input.byte()?;
        let at = usize::from(command >> 4) % REPLICAS;
        match command & 15 {
            0..=2 => self.insert(at, input),
            3 | 4 => self.delete(at, input),
            5..=7 => self.patch(input).map(|patch| self.receive(at, &patch)),
            8 => self.receive_damaged(at, input),
            9 => input.number(1).map(|length| self.receive(at, input.bytes(length))),
            10 => self.damage_record(at, input),
            11 => self.damage_table(at, input),
            12 => self.row(at, input).map(|row| self.pair.row_text(&self.replicas[at], row).map(|_| ())),
            13 => self.compare(at, input),
            14 => self.mark(at, input),
            _ => input.number(4).map(|site| self.pair.start(&mut self.replicas[at], site as u32).map(|_| ())),
        }
    }
}

fn play(input: &[u8]) -> Held<()> {
    let mut play = Play::new()?;
    let mut input = Input { rest: input };
    while let Some(held) = play.step(&mut input) {
        held?;
    }
    Ok(())
}

/// What libFuzzer calls for each input.
///
/// # Safety
///
/// `data` is to `size` bytes.
#[no_mangle]
pub unsafe extern "C" fn LLVMFuzzerTestOneInput(data: *const u8, size: usize) -> i32 {
    let input = if size == 0 { &[][..] } else { std::slice::from_raw_parts(data, size) };
    if let Err(difference) = play(input) {
        eprintln!("{difference}");
        std::process::abort();
    }
    0
}
