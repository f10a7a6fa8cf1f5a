//! The heart of the test: each call is made by both programs on equal inputs, and what they leave is held
//! together. Both must give the same answer, the same numbers and the same bytes in every lent part; the bytes
//! around each part, and those that the call only reads, must stay. A refusal must leave every part as it
//! was and give no number but 0, a done edit must leave the bytes behind its patch, and the answer must be one
//! that 01 lists for the operation.

use crate::layout::State;
use crate::ours;
use std::fmt::Write;
use std::ops::Range;
use std::panic::{catch_unwind, AssertUnwindSafe};

/// What held, or the first thing that did not, in plain words.
pub type Held<T> = Result<T, String>;

/// One of the two programs. The signatures are those of the second program, written out.
#[allow(clippy::type_complexity)]
struct Program {
    start: fn(&mut [u8], &mut [u8], u32) -> u32,
    insert: fn(&mut [u8], &mut [u8], usize, &[u8], u32, &mut [u8]) -> (u32, usize),
    delete: fn(&mut [u8], &mut [u8], usize, &mut [u8]) -> (u32, usize),
    receive: fn(&mut [u8], &mut [u8], &[u8]) -> u32,
    row_text: fn(&[u8], &[u8], usize) -> (u32, Range<usize>),
    compare: fn(&[u8], &[u8], &mut [u8]) -> u32,
    first_patch: fn(&[u8]) -> (u32, usize),
}

const OURS: Program = Program {
    start: ours::start,
    insert: ours::insert,
    delete: ours::delete,
    receive: ours::receive,
    row_text: ours::row_text,
    compare: ours::compare,
    first_patch: ours::first_patch,
};

const SECOND: Program = Program {
    start: second::start,
    insert: second::insert,
    delete: second::delete,
    receive: second::receive,
    row_text: second::row_text,
    compare: second::compare,
    first_patch: second::first_patch,
};

#[derive(Clone, Copy, PartialEq)]
enum Operation {
    Start,
    Receive,
    Insert,
    Delete,
    RowText,
    Compare,
    FirstPatch,
}

struct About {
    name: &'static str,
    /// The parts lent, those that the call may write to first.
    parts: &'static [&'static str],
    writable: usize,
    /// The answers that must come in the run. Answer 13 stands in insert's order of checks and not here: on a
    /// sound table the place made lies strictly between two neighbours, so no row has it. The project proves
    /// that 13 cannot come; should it come, this test fails.
    answers: &'static [u32],
}

const OPERATIONS: usize = 7;

const ABOUT: [About; OPERATIONS] = [
    About { name: "start", parts: &["record", "table"], writable: 2, answers: &[0, 1, 14] },
    About {
        name: "receive",
        parts: &["record", "table", "patch"],
        writable: 2,
        answers: &[0, 1, 2, 3, 4, 5, 6, 7, 15],
    },
    About {
        name: "insert",
        parts: &["record", "table", "patch buffer", "text"],
        writable: 3,
        answers: &[0, 1, 7, 8, 9, 10, 11, 12],
    },
    About {
        name: "delete",
        parts: &["record", "table", "patch buffer"],
        writable: 3,
        answers: &[0, 1, 8, 10, 11],
    },
    About { name: "row_text", parts: &["record", "table"], writable: 0, answers: &[0, 1, 8] },
    About {
        name: "compare",
        parts: &["result", "first counts", "second counts"],
        writable: 1,
        answers: &[0, 1],
    },
    About { name: "first_patch", parts: &["bytes"], writable: 0, answers: &[0, 2] },
];

const ANSWERS: usize = 16;
const PANICKED: u32 = u32::MAX;

/// What a program gave back: its answer, and the numbers beside it (0 where the operation has fewer).
#[derive(Clone, Copy, PartialEq)]
struct Given {
    answer: u32,
    numbers: [usize; 2],
}

impl Given {
    fn refused(&self) -> bool {
        self.answer != 0 && self.answer != 15
    }

    fn words(&self) -> String {
        match self.answer {
            PANICKED => "panicked".to_string(),
            answer => format!("answer {answer}, numbers {} and {}", self.numbers[0], self.numbers[1]),
        }
    }
}

const GUARD: [u8; 24] = [0xC3; 24];
const LENT: usize = 4;

/// A part lent to a program, with guard bytes before and behind that no program may touch.
#[derive(Default)]
struct Lent {
    bytes: Vec<u8>,
}

impl Lent {
    fn fill(&mut self, content: &[u8]) {
        self.bytes.clear();
        self.bytes.extend(GUARD);
        self.bytes.extend(content);
        self.bytes.extend(GUARD);
    }

    fn inner(&self) -> Range<usize> {
        GUARD.len()..self.bytes.len() - GUARD.len()
    }

    fn part(&self) -> &[u8] {
        &self.bytes[self.inner()]
    }

    fn part_mut(&mut self) -> &mut [u8] {
        let inner = self.inner();
        &mut self.bytes[inner]
    }

    fn guards_stand(&self) -> bool {
        self.bytes.starts_with(&GUARD) && self.bytes.ends_with(&GUARD)
    }
}

/// A call as it is told when something does not hold.
struct Call<'a> {
    operation: Operation,
    numbers: &'a [(&'a str, usize)],
    parts: [&'a [u8]; LENT],
}

impl Call<'_> {
    fn about(&self) -> &'static About {
        &ABOUT[self.operation as usize]
    }

    fn words(&self) -> String {
        let mut words = format!("{}:", self.about().name);
        for (name, number) in self.numbers {
            write!(words, " {name} {number}").unwrap();
        }
        for (name, part) in self.about().parts.iter().zip(self.parts) {
            write!(words, "\n    {name}, {} bytes: {}", part.len(), hex(part)).unwrap();
        }
        words
    }
}

/// A part of at most so many bytes is shown whole, a longer one up to the second number.
const SHORT: usize = 200;
const SHOWN: usize = 1_000;

/// Bytes in hexadecimal. A long part ends where only zeros follow, or where enough is shown: the same seed
/// makes it again.
pub fn hex(bytes: &[u8]) -> String {
    let used = bytes.iter().rposition(|byte| *byte != 0).map_or(0, |last| last + 1);
    let shown = if bytes.len() <= SHORT { bytes.len() } else { used.min(SHOWN) };
    let text: String = bytes[..shown].iter().map(|byte| format!("{byte:02x}")).collect();
    match bytes.len() - shown {
        0 => text,
        more if used > shown => format!("{text} and {more} more"),
        more => format!("{text} and {more} zeros"),
    }
}

/// The first byte in which two parts of equal length differ.
fn first_difference(one: &[u8], other: &[u8]) -> Option<usize> {
    if one == other {
        return None;
    }
    one.iter().zip(other).position(|(left, right)| left != right)
}

#[derive(Default)]
pub struct Pair {
    ours: [Lent; LENT],
    second: [Lent; LENT],
    /// How often each operation gave each answer.
    seen: [[u64; ANSWERS]; OPERATIONS],
    pub calls: u64,
}

impl Pair {
    /// Lets both programs make a call, and holds together what they leave.
    fn call(&mut self, call: &Call, run: impl Fn(&Program, &mut [Lent; LENT]) -> Given) -> Held<Given> {
        for (index, content) in call.parts.iter().enumerate() {
            self.ours[index].fill(content);
            self.second[index].fill(content);
        }
        self.calls += 1;
        let ours = run(&OURS, &mut self.ours);
        let lent = &mut self.second;
        let second = catch_unwind(AssertUnwindSafe(|| run(&SECOND, lent)))
            .unwrap_or(Given { answer: PANICKED, numbers: [0, 0] });
        let held = self.same(call, ours, second).and_then(|_| self.as_promised(call, ours));
        held.map_err(|what| {
            let call = call.words();
            format!(
                "{what}\n    {call}\n    library: {}\n    second program: {}",
                ours.words(),
                second.words()
            )
        })?;
        self.seen[call.operation as usize][ours.answer as usize] += 1;
        Ok(ours)
    }

    /// Both programs gave the same answer, numbers and bytes.
    fn same(&self, call: &Call, ours: Given, second: Given) -> Held<()> {
        if ours != second {
            return Err("the answers or the numbers differ".to_string());
        }
        for (index, name) in call.about().parts.iter().enumerate() {
            let (left, right) = (self.ours[index].part(), self.second[index].part());
            if let Some(at) = first_difference(left, right) {
                let (left, right) = (left[at], right[at]);
                return Err(format!(
                    "byte {at} of {name} is {left:02x} by the library, {right:02x} by the second"
                ));
            }
        }
        Ok(())
    }

    /// What the library left keeps the promises that 01 makes for every call.
    fn as_promised(&self, call: &Call, given: Given) -> Held<()> {
        let about = call.about();
        if !about.answers.contains(&given.answer) {
            return Err(format!("{} never gives answer {}", about.name, given.answer));
        }
        if given.refused() && given.numbers != [0, 0] {
            return Err("a refusal gave a number".to_string());
        }
        for (index, name) in about.parts.iter().enumerate() {
            if !self.ours[index].guards_stand() || !self.second[index].guards_stand() {
                return Err(format!("bytes outside {name} were written"));
            }
            let kept = kept_from(call, given, index);
            let (now, before) = (self.ours[index].part(), call.parts[index]);
            if let Some(at) = first_difference(&now[kept..], &before[kept..]) {
                return Err(format!("byte {} of {name} had to stay", kept + at));
            }
        }
        Ok(())
    }

    /// Takes what a done call left into the state.
    fn take(&self, state: &mut State) {
        state.record.copy_from_slice(self.ours[0].part());
        state.table.copy_from_slice(self.ours[1].part());
    }

    pub fn start(&mut self, state: &mut State, site: u32) -> Held<u32> {
        let call = Call {
            operation: Operation::Start,
            numbers: &[("site", site as usize)],
            parts: [&state.record, &state.table, &[], &[]],
        };
        let given = self.call(&call, |program, [record, table, ..]| {
            let answer = (program.start)(record.part_mut(), table.part_mut(), site);
            Given { answer, numbers: [0, 0] }
        })?;
        self.take(state);
        Ok(given.answer)
    }

    /// Inserts a text before a row; the buffer then holds what the call left in it.
    pub fn insert(
        &mut self,
        state: &mut State,
        row: usize,
        text: &[u8],
        draw: u32,
        buffer: &mut [u8],
    ) -> Held<(u32, usize)> {
        let call = Call {
            operation: Operation::Insert,
            numbers: &[("row", row), ("draw", draw as usize)],
            parts: [&state.record, &state.table, buffer, text],
        };
        let given = self.call(&call, |program, [record, table, patch, text]| {
            let (record, table, patch) = (record.part_mut(), table.part_mut(), patch.part_mut());
            let (answer, written) = (program.insert)(record, table, row, text.part(), draw, patch);
            Given { answer, numbers: [written, 0] }
        })?;
        self.take(state);
        buffer.copy_from_slice(self.ours[2].part());
        Ok((given.answer, given.numbers[0]))
    }

    pub fn delete(&mut self, state: &mut State, row: usize, buffer: &mut [u8]) -> Held<(u32, usize)> {
        let call = Call {
            operation: Operation::Delete,
            numbers: &[("row", row)],
            parts: [&state.record, &state.table, buffer, &[]],
        };
        let given = self.call(&call, |program, [record, table, patch, _]| {
            let (record, table, patch) = (record.part_mut(), table.part_mut(), patch.part_mut());
            let (answer, written) = (program.delete)(record, table, row, patch);
            Given { answer, numbers: [written, 0] }
        })?;
        self.take(state);
        buffer.copy_from_slice(self.ours[2].part());
        Ok((given.answer, given.numbers[0]))
    }

    pub fn receive(&mut self, state: &mut State, patch: &[u8]) -> Held<u32> {
        let call = Call {
            operation: Operation::Receive,
            numbers: &[],
            parts: [&state.record, &state.table, patch, &[]],
        };
        let given = self.call(&call, |program, [record, table, patch, _]| {
            let answer = (program.receive)(record.part_mut(), table.part_mut(), patch.part());
            Given { answer, numbers: [0, 0] }
        })?;
        self.take(state);
        Ok(given.answer)
    }

    pub fn row_text(&mut self, state: &State, row: usize) -> Held<(u32, Range<usize>)> {
        let call = Call {
            operation: Operation::RowText,
            numbers: &[("row", row)],
            parts: [&state.record, &state.table, &[], &[]],
        };
        let given = self.call(&call, |program, [record, table, ..]| {
            let (answer, part) = (program.row_text)(record.part(), table.part(), row);
            Given { answer, numbers: [part.start, part.end] }
        })?;
        Ok((given.answer, given.numbers[0]..given.numbers[1]))
    }

    pub fn compare(&mut self, first: &[u8], second: &[u8], result: &mut [u8]) -> Held<u32> {
        let call = Call { operation: Operation::Compare, numbers: &[], parts: [result, first, second, &[]] };
        let given = self.call(&call, |program, [result, first, second, _]| {
            let answer = (program.compare)(first.part(), second.part(), result.part_mut());
            Given { answer, numbers: [0, 0] }
        })?;
        result.copy_from_slice(self.ours[0].part());
        Ok(given.answer)
    }

    pub fn first_patch(&mut self, bytes: &[u8]) -> Held<(u32, usize)> {
        let call = Call { operation: Operation::FirstPatch, numbers: &[], parts: [bytes, &[], &[], &[]] };
        let given = self.call(&call, |program, [bytes, ..]| {
            let (answer, used) = (program.first_patch)(bytes.part());
            Given { answer, numbers: [used, 0] }
        })?;
        Ok((given.answer, given.numbers[0]))
    }

    /// How often each answer came, as a small table.
    pub fn table_of_answers(&self) -> String {
        let mut table = String::new();
        for (about, seen) in ABOUT.iter().zip(&self.seen) {
            write!(table, "{:<12}", about.name).unwrap();
            for answer in about.answers {
                write!(table, " {answer}: {}", seen[*answer as usize]).unwrap();
            }
            table.push('\n');
        }
        table
    }

    /// Each answer that 01 lists for an operation has come from it.
    pub fn all_answers_seen(&self) -> Held<()> {
        for (about, seen) in ABOUT.iter().zip(&self.seen) {
            if let Some(answer) = about.answers.iter().find(|answer| seen[**answer as usize] == 0) {
                return Err(format!("{} never gave answer {answer}", about.name));
            }
        }
        Ok(())
    }
}

/// From which byte on a part must be as it was before the call.
fn kept_from(call: &Call, given: Given, part: usize) -> usize {
    let about = call.about();
    if given.refused() || part >= about.writable {
        0
    } else if about.parts[part] == "patch buffer" {
        given.numbers[0]
    } else {
        call.parts[part].len()
    }
}
