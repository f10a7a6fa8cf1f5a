//! Sound states and well-formed patches, damaged: bytes changed, cut, lengthened, wrong lengths, and bytes that
//! mean nothing. Each goes through every operation that takes such an input. What the answer is follows from
//! the rules in ways too many to write down, so here the two programs are held against each other alone.

use crate::layout::{row, Edit, Patch, Row, State, COMPARED, PATCH, RECORD, ROW, ROWS, SITES, TABLE, TEXT};
use crate::pair::Held;
use crate::play::{Plan, Play, USUAL};
use crate::trial::{all_counts, expect, place_of, Check, Trial};

pub const CHECKS: &[Check] = &[
    Check { name: "damage: each byte of a patch", run: patch_bytes },
    Check { name: "damage: patches cut and lengthened", run: patch_lengths },
    Check { name: "damage: several bytes of a patch", run: patch_several },
    Check { name: "damage: any bytes as a patch", run: patch_noise },
    Check { name: "damage: each byte of a record", run: record_bytes },
    Check { name: "damage: several bytes of a record", run: record_several },
    Check { name: "damage: each byte of the rows in use", run: row_bytes },
    Check { name: "damage: each byte of an empty table", run: empty_table },
    Check { name: "damage: each byte of a table of few rows", run: few_rows },
    Check { name: "damage: each byte of a full table", run: full_table },
    Check { name: "damage: several bytes of a table", run: table_several },
    Check { name: "damage: rows exchanged, doubled and moved", run: rows_moved },
    Check { name: "damage: record and table of wrong length", run: state_lengths },
    Check { name: "damage: any bytes as record and table", run: state_noise },
    Check { name: "damage: lengths of text and patch buffer", run: text_and_buffer },
    Check { name: "damage: rows, draws and sites of any size", run: huge_numbers },
    Check { name: "damage: counts and result of compare", run: compare_damaged },
];

/// A sound state, and a patch that is well-formed and mostly one that the state would take.
struct Case {
    state: State,
    patch: Vec<u8>,
}

fn case(state: &State, patch: Patch) -> Case {
    Case { state: state.clone(), patch: patch.bytes() }
}

/// Three lines, one of them with eight identifiers and the longest text.
fn some_rows() -> Vec<Row> {
    vec![
        row(&[(3, 2)], 1, b"stand by"),
        row(&place_of((3, 2), (65_535, 16), 7), 2, &[b'w'; TEXT]),
        row(&[(9, 2)], 3, b""),
    ]
}

/// 512 rows of eight identifiers and texts of 48 bytes.
fn widest_table() -> State {
    let rows: Vec<Row> = (1..=ROWS as u16)
        .map(|at| {
            let mut place = place_of((at / 64 + 1, 16), (65_535, 15), 6);
            place.push((at, (at % 16 + 1) as u8));
            Row { place, number: u32::from(at), text: vec![at as u8; TEXT] }
        })
        .collect();
    State::of(4, &all_counts(700_000), &rows)
}

/// The shortest insert and the shortest strike, the longest of both, patches for a full table, and some from
/// a play.
fn cases(trial: &mut Trial) -> Held<Vec<Case>> {
    let empty = State::of(3, &[0; SITES], &[]);
    let mut counts = [0; SITES];
    counts[1] = 1;
    let one_row = State::of(3, &counts, &[row(&[(6, 2)], 1, b"go")]);
    let few = State::of(16, &all_counts(70_000), &some_rows());
    let full = widest_table();
    let (text, last) = (Edit::Insert(vec![b't'; TEXT]), full.rows()[ROWS - 1].clone());
    let longest = place_of((5, 7), (65_535, 8), 7);
    let mut cases = vec![
        case(&empty, Patch::next(&empty, 2, &[(5, 2)], Edit::Insert(Vec::new()))),
        case(&one_row, Patch::strike(&one_row, 4, &one_row.rows()[0])),
        case(&few, Patch::next(&few, 8, &longest, text.clone())),
        case(&few, Patch::strike(&few, 8, &few.rows()[1])),
        case(&full, Patch::next(&full, 8, &longest, text)),
        case(&full, Patch::strike(&full, 8, &last)),
    ];
    let lengths: Vec<usize> = cases.iter().map(|case| case.patch.len()).collect();
    expect("lengths of the shortest and the longest patches", &lengths[..4], &[12, 21, PATCH, 117])?;
    for _ in 0..2 {
        let mut play = Play::new(trial, Plan { replicas: (3, 6), ..USUAL })?;
        play.run()?;
        let (state, patches) = play.harvest();
        // The latest patches of a play have the fullest Before.
        cases.extend(
            patches.iter().rev().take(3).map(|patch| Case { state: state.clone(), patch: patch.clone() }),
        );
    }
    Ok(cases)
}

/// The states of the cases, each once.
fn states(trial: &mut Trial) -> Held<Vec<Case>> {
    let mut all = cases(trial)?;
    all.dedup_by(|later, earlier| later.state == earlier.state);
    Ok(all)
}

/// Values to put in the place of a byte: the ends of ranges, the values beside it, a flipped bit, any.
fn values(trial: &mut Trial, old: u8) -> Vec<u8> {
    let flipped = old ^ (1 << trial.dice.below(8));
    let mut values =
        vec![0, 1, 16, 17, 255, old.wrapping_add(1), old.wrapping_sub(1), flipped, trial.dice.byte()];
    values.sort_unstable();
    values.dedup();
    values.retain(|value| *value != old);
    values
}

/// A row that is there, the one behind the last, or one more.
fn some_row(trial: &mut Trial, state: &State) -> usize {
    trial.dice.below(state.rows_in_use().min(ROWS) + 2)
}

const OPERATIONS: usize = 4;

/// One of the operations that take record and table, on a copy of the state.
fn try_operation(trial: &mut Trial, operation: usize, state: &State, patch: &[u8]) -> Held<()> {
    let row = some_row(trial, state);
    let mut copy = state.clone();
    match operation {
        0 => trial.pair.receive(&mut copy, patch).map(|_| ()),
        1 => {
            let (length, draw) = (trial.dice.below(TEXT + 2), trial.dice.word());
            let text = trial.dice.bytes(length);
            trial.insert(&mut copy, row, &text, draw).map(|_| ())
        }
        2 => trial.delete(&mut copy, row).map(|_| ()),
        _ => trial.pair.row_text(state, row).map(|_| ()),
    }
}

fn try_all(trial: &mut Trial, state: &State, patch: &[u8]) -> Held<()> {
    (0..OPERATIONS).try_for_each(|operation| try_operation(trial, operation, state, patch))
}

/// What takes a patch: receive, and the reader of a run of patches.
fn try_patch(trial: &mut Trial, state: &State, patch: &[u8]) -> Held<()> {
    trial.pair.receive(&mut state.clone(), patch)?;
    trial.pair.first_patch(patch)?;
    Ok(())
}

fn patch_bytes(trial: &mut Trial) -> Held<String> {
    let mut tried = 0;
    for Case { state, patch } in cases(trial)? {
        for at in 0..patch.len() {
            for value in values(trial, patch[at]) {
                let mut damaged = patch.clone();
                damaged[at] = value;
                try_patch(trial, &state, &damaged)?;
                tried += 1;
            }
        }
    }
    Ok(format!("{tried} patches"))
}

/// A cut patch is malformed, and so is one with a byte left over; the reader of a run takes the latter.
fn patch_lengths(trial: &mut Trial) -> Held<String> {
    let mut tried = 0;
    for Case { state, patch } in cases(trial)? {
        for length in 0..patch.len() {
            trial.expect_receive("a cut patch", &state, &patch[..length], 2)?;
            expect("a cut patch in a run", trial.pair.first_patch(&patch[..length])?, (2, 0))?;
        }
        for more in (1..20).chain([100, 161, 1000, 60_000]) {
            let longer = [patch.clone(), trial.dice.bytes(more)].concat();
            trial.expect_receive("a lengthened patch", &state, &longer, 2)?;
            expect("a patch at the head of a run", trial.pair.first_patch(&longer)?, (0, patch.len()))?;
        }
        let twice = [patch.clone(), patch.clone()].concat();
        trial.expect_receive("a patch twice", &state, &twice, 2)?;
        expect("a patch twice in a run", trial.pair.first_patch(&twice)?, (0, patch.len()))?;
        tried += patch.len() + 24;
    }
    Ok(format!("{tried} patches"))
}

/// Changes so many bytes at random, often to a value beside the old one.
fn change_some(trial: &mut Trial, bytes: &mut [u8], number: usize) {
    for _ in 0..number {
        let at = trial.dice.below(bytes.len());
        let values = values(trial, bytes[at]);
        bytes[at] = *trial.dice.pick(&values);
    }
}

fn patch_several(trial: &mut Trial) -> Held<String> {
    let (cases, tries) = (cases(trial)?, 50_000 * trial.long);
    for _ in 0..tries {
        let Case { state, patch } = trial.dice.pick(&cases);
        let (mut damaged, number) = (patch.clone(), trial.dice.between(2, 4));
        change_some(trial, &mut damaged, number);
        try_patch(trial, state, &damaged)?;
    }
    Ok(format!("{tries} patches"))
}

fn patch_noise(trial: &mut Trial) -> Held<String> {
    let (cases, tries) = (cases(trial)?, 10_000 * trial.long);
    for _ in 0..tries {
        let length = trial.dice.below(200);
        let mut noise = trial.dice.bytes(length);
        // Half of them are small numbers, which come further through the reader.
        if trial.dice.percent(50) {
            noise.iter_mut().for_each(|byte| *byte %= 4);
        }
        let Case { state, .. } = trial.dice.pick(&cases);
        try_patch(trial, state, &noise)?;
    }
    Ok(format!("{tries} patches"))
}

fn record_bytes(trial: &mut Trial) -> Held<String> {
    let mut tried = 0;
    for Case { mut state, patch } in states(trial)? {
        for at in 0..RECORD {
            let old = state.record[at];
            for value in values(trial, old) {
                state.record[at] = value;
                try_all(trial, &state, &patch)?;
                tried += 1;
            }
            state.record[at] = old;
        }
    }
    Ok(format!("{tried} records"))
}

fn record_several(trial: &mut Trial) -> Held<String> {
    let (states, tries) = (states(trial)?, 5_000 * trial.long);
    for _ in 0..tries {
        let Case { state, patch } = trial.dice.pick(&states);
        let mut damaged = state.clone();
        change_some(trial, &mut damaged.record, 2);
        try_all(trial, &damaged, patch)?;
    }
    Ok(format!("{tries} records"))
}

/// Changes each byte of the first rows and of the row behind them to each of several values.
fn row_bytes(trial: &mut Trial) -> Held<String> {
    let mut tried = 0;
    for Case { mut state, patch } in states(trial)? {
        let rows = (state.rows_in_use() + 1).min(5);
        for at in 0..rows * ROW {
            let old = state.table[at];
            for value in values(trial, old) {
                state.table[at] = value;
                try_all(trial, &state, &patch)?;
                tried += 1;
            }
            state.table[at] = old;
        }
    }
    Ok(format!("{tried} tables"))
}

/// Changes each byte of the whole table once. The operations take turns.
fn every_byte(trial: &mut Trial, mut state: State, patch: &[u8]) -> Held<String> {
    let turn = trial.dice.below(OPERATIONS);
    for at in 0..TABLE {
        let old = state.table[at];
        let values = values(trial, old);
        state.table[at] = *trial.dice.pick(&values);
        try_operation(trial, (at + turn) % OPERATIONS, &state, patch)?;
        state.table[at] = old;
    }
    Ok(format!("{TABLE} tables"))
}

fn empty_table(trial: &mut Trial) -> Held<String> {
    let Case { state, patch } = cases(trial)?.swap_remove(0);
    every_byte(trial, state, &patch)
}

fn few_rows(trial: &mut Trial) -> Held<String> {
    let Case { state, patch } = cases(trial)?.swap_remove(2);
    every_byte(trial, state, &patch)
}

fn full_table(trial: &mut Trial) -> Held<String> {
    let Case { state, patch } = cases(trial)?.swap_remove(5);
    every_byte(trial, state, &patch)
}

fn table_several(trial: &mut Trial) -> Held<String> {
    let (states, tries) = (states(trial)?, 10_000 * trial.long);
    for _ in 0..tries {
        let Case { state, patch } = trial.dice.pick(&states);
        let mut damaged = state.clone();
        let near = (state.rows_in_use() + 1).min(ROWS) * ROW;
        change_some(trial, &mut damaged.table[..near], 2);
        try_all(trial, &damaged, patch)?;
    }
    Ok(format!("{tries} tables"))
}

/// Rows that are each sound, in an order or a number that is not.
fn rows_moved(trial: &mut Trial) -> Held<String> {
    let (states, tries) = (states(trial)?, 2_000 * trial.long);
    for _ in 0..tries {
        let Case { state, patch } = trial.dice.pick(&states);
        let mut rows = state.rows();
        let (from, to) = (trial.dice.below(rows.len().max(1)), trial.dice.below(rows.len().max(1)));
        match trial.dice.below(3) {
            _ if rows.is_empty() => {}
            0 => rows.swap(from, to),
            1 => rows[to] = rows[from].clone(),
            _ => rows[to].place.clone_from(&state.rows()[from].place),
        }
        let mut damaged = State::of(state.site(), &state.counts(), &rows);
        let in_use = state.rows_in_use() + trial.dice.below(3);
        damaged.set_rows_in_use(in_use.saturating_sub(1) as u16);
        try_all(trial, &damaged, patch)?;
    }
    Ok(format!("{tries} tables"))
}

/// The same bytes with this length: cut, or lengthened by zeros.
fn resized(bytes: &[u8], length: usize) -> Vec<u8> {
    let mut bytes = bytes.to_vec();
    bytes.resize(length, 0);
    bytes
}

fn state_lengths(trial: &mut Trial) -> Held<String> {
    let records = [0, 1, 3, 66, RECORD, 68, 134, 200];
    let tables = [0, 1, 78, 39_935, TABLE, 39_937, TABLE + ROW, 80_000];
    for Case { state, patch } in states(trial)? {
        for record in records {
            for table in tables {
                let wrong = (record, table) != (RECORD, TABLE);
                let other =
                    State { record: resized(&state.record, record), table: resized(&state.table, table) };
                for site in [0, 1, 16, 17] {
                    let wanted = if !(1..=16).contains(&site) { 14 } else { u32::from(wrong) };
                    expect("answer of start", trial.pair.start(&mut other.clone(), site)?, wanted)?;
                }
                try_lengths(trial, &other, &patch, wrong)?;
            }
        }
    }
    Ok("64 pairs of lengths on each state".to_string())
}

/// A wrong length is answered 1 by every operation that takes record and table.
fn try_lengths(trial: &mut Trial, state: &State, patch: &[u8], wrong: bool) -> Held<()> {
    let receive = trial.pair.receive(&mut state.clone(), patch)?;
    let (insert, _) = trial.insert(&mut state.clone(), 0, b"", 0)?;
    let (delete, _) = trial.delete(&mut state.clone(), 0)?;
    let (row_text, _) = trial.pair.row_text(state, 0)?;
    for answer in [receive, insert, delete, row_text] {
        expect("a wrong length and answer 1", answer == 1, wrong)?;
    }
    Ok(())
}

fn state_noise(trial: &mut Trial) -> Held<String> {
    let (states, tries) = (states(trial)?, 400 * trial.long);
    for _ in 0..tries {
        let Case { state, patch } = trial.dice.pick(&states);
        let noise = State { record: trial.dice.bytes(RECORD), table: trial.dice.bytes(TABLE) };
        let record_only = State { record: noise.record.clone(), table: state.table.clone() };
        let table_only = State { record: state.record.clone(), table: noise.table.clone() };
        for damaged in [&noise, &record_only, &table_only] {
            try_all(trial, damaged, patch)?;
        }
    }
    Ok(format!("{} states", 3 * tries))
}

fn text_and_buffer(trial: &mut Trial) -> Held<String> {
    let states = states(trial)?;
    for Case { state, .. } in &states {
        for length in (0..=60).chain([100, 255, 256, 304, 65_536, 65_584]) {
            let text = trial.dice.bytes(length);
            trial.insert(&mut state.clone(), 0, &text, 1)?;
        }
        for length in [0, 1, 12, 21, 100, 159, 160, 161, 162, 200, 1000] {
            let mut buffer = trial.dice.bytes(length);
            let (insert, _) = trial.pair.insert(&mut state.clone(), 0, b"t", 1, &mut buffer)?;
            expect("a short buffer and answer 10 of insert", insert == 10, length < PATCH)?;
            let (delete, _) = trial.pair.delete(&mut state.clone(), 0, &mut buffer)?;
            expect("a short buffer and answer 10 of delete", delete == 10, length < PATCH)?;
        }
    }
    Ok(format!("67 texts and 11 buffers on {} states", states.len()))
}

fn huge_numbers(trial: &mut Trial) -> Held<String> {
    let mut huge =
        vec![ROWS, ROWS + 1, 65_535, 65_536, 1 << 31, 1 << 32, (1 << 32) + 1, usize::MAX - 1, usize::MAX];
    // Rows that come back to a row in use where a number is cut to 8, 16 or 32 bits, or times 78.
    huge.extend([256, 65_536, 1 << 32, usize::MAX / ROW + 1, usize::MAX / ROW + 2]);
    let draws = [0, 1, 65_533, 65_534, 65_535, 65_536, i32::MAX as u32, 1 << 31, u32::MAX - 1, u32::MAX];
    for Case { state, .. } in states(trial)? {
        for row in &huge {
            trial.insert(&mut state.clone(), *row, b"line", 3)?;
            trial.delete(&mut state.clone(), *row)?;
            trial.pair.row_text(&state, *row)?;
        }
        for draw in draws {
            for row in 0..=state.rows_in_use().min(10) {
                trial.insert(&mut state.clone(), row, b"line", draw)?;
            }
        }
        for site in (0..20).chain([255, 256, 257, 272, 65_537, 1 << 31, u32::MAX]) {
            trial.pair.start(&mut state.clone(), site)?;
        }
    }
    Ok("14 rows, 10 draws and 27 sites on each state".to_string())
}

fn compare_damaged(trial: &mut Trial) -> Held<String> {
    let lengths = [0, 1, 63, 64, 65, 128];
    let good = State::of(1, &all_counts(5), &[]);
    for first in lengths {
        for second in lengths {
            for result in [0, 1, 143, COMPARED, 145, 288] {
                let (one, other) =
                    (resized(good.counts_bytes(), first), resized(good.counts_bytes(), second));
                let wanted = u32::from((first, second, result) != (64, 64, COMPARED));
                let mut result = trial.dice.bytes(result);
                expect("answer of compare", trial.pair.compare(&one, &other, &mut result)?, wanted)?;
            }
        }
    }
    let tries = 20_000 * trial.long;
    for _ in 0..tries {
        let (mut one, mut other) = (some_counts(trial), some_counts(trial));
        change_some(trial, &mut one, 2);
        change_some(trial, &mut other, 1);
        let mut result = trial.dice.bytes(COMPARED);
        trial.pair.compare(&one, &other, &mut result)?;
    }
    Ok(format!("216 lengths, {tries} pairs of counts"))
}

/// Counts up to 1,000,000, many of them small, so that some are equal.
fn some_counts(trial: &mut Trial) -> Vec<u8> {
    let mut counts = [0; SITES];
    for count in &mut counts {
        let limit = *trial.dice.pick(&[1, 3, 300, 70_000, 1_000_001]);
        *count = trial.dice.below(limit) as u32;
    }
    State::of(1, &counts, &[]).counts_bytes().to_vec()
}
