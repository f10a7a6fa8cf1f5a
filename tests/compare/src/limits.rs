//! States and patches built directly at the limits that 01 sets, each with the case beside it. The answer that
//! follows from 01 stands here for each; both programs must give it, and the same bytes.

use crate::layout::{row, Counts, Edit, Patch, Row, State};
use crate::layout::{COMPARED, NUMBERS, PATCH, RECORD, ROWS, SITES, TABLE, TEXT};
use crate::pair::Held;
use crate::play::compared;
use crate::trial::{all_counts, expect, place_of, plain_rows, Check, Trial};

pub const CHECKS: &[Check] = &[
    Check { name: "limits: counts and own numbers", run: counts },
    Check { name: "limits: 511, 512 and 513 rows", run: rows },
    Check { name: "limits: places of 8 identifiers", run: longest_places },
    Check { name: "limits: no place left, and the cases beside it", run: no_place },
    Check { name: "limits: first integers and pads", run: identifiers },
    Check { name: "limits: sites", run: sites },
    Check { name: "limits: line numbers", run: line_numbers },
    Check { name: "limits: patch numbers", run: patch_numbers },
    Check { name: "limits: Before", run: before },
    Check { name: "limits: strikes of lines that have gone", run: gone },
    Check { name: "limits: inserts of a position held, and on a full table", run: held_and_full },
    Check { name: "limits: own patches come back", run: own_patches },
    Check { name: "limits: compare", run: compare },
    Check { name: "limits: order of the checks of start", run: grounds_of_start },
    Check { name: "limits: order of the checks of receive", run: grounds_of_receive },
    Check { name: "limits: order of the checks of insert", run: grounds_of_insert },
    Check { name: "limits: order of the checks of delete", run: grounds_of_delete },
];

/// Counts that are zero but for one site.
fn count_of(site: u8, count: u32) -> Counts {
    let mut counts = [0; SITES];
    counts[usize::from(site) - 1] = count;
    counts
}

fn insert_of(text: &[u8]) -> Edit {
    Edit::Insert(text.to_vec())
}

fn counts(trial: &mut Trial) -> Held<String> {
    let line = [row(&[(7, 2)], 1, b"line")];
    for (count, wanted) in [(999_998, 0), (999_999, 0), (NUMBERS, 11)] {
        let mut own = count_of(3, count);
        own[1] = 1;
        let state = State::of(3, &own, &line);
        trial.expect_insert("own count near its limit", &state, 0, wanted)?;
        let (answer, _) = trial.delete(&mut state.clone(), 0)?;
        expect("delete with an own count near its limit", answer, wanted)?;
    }
    for site in 1..=SITES as u8 {
        let at_limit = State::of(3, &count_of(site, NUMBERS), &[]);
        trial.expect_sound("a count of 1,000,000", &at_limit, true)?;
        trial.expect_sound("one of 1,000,001", &State::of(3, &count_of(site, NUMBERS + 1), &[]), false)?;
        trial.expect_sound("one of 2^32 - 1", &State::of(3, &count_of(site, u32::MAX), &[]), false)?;
    }
    trial.expect_sound("all counts 1,000,000", &State::of(3, &all_counts(NUMBERS), &[]), true)?;
    Ok("3 own counts, 49 states".to_string())
}

fn rows(trial: &mut Trial) -> Held<String> {
    let full = State::of(1, &all_counts(NUMBERS - 5), &plain_rows(2, ROWS));
    let one_less = State::of(1, &all_counts(NUMBERS - 5), &plain_rows(2, ROWS - 1));
    for at in [0, 255, 510, 511] {
        trial.expect_insert("511 rows", &one_less, at, 0)?;
        trial.expect_insert("512 rows", &full, at, 7)?;
    }
    trial.expect_insert("511 rows, row 512", &one_less, 512, 8)?;
    trial.expect_insert("512 rows, row 513", &full, 513, 8)?;
    for (in_use, sound) in
        [(510, false), (511, false), (512, true), (513, false), (0, false), (65_535, false)]
    {
        let mut state = full.clone();
        state.set_rows_in_use(in_use);
        trial.expect_sound("512 rows in the table", &state, sound)?;
    }
    for (in_use, sound) in [(510, false), (511, true), (512, false), (513, false)] {
        let mut state = one_less.clone();
        state.set_rows_in_use(in_use);
        trial.expect_sound("511 rows in the table", &state, sound)?;
    }
    Ok("10 states".to_string())
}

fn longest_places(trial: &mut Trial) -> Held<String> {
    let mut place = place_of((65_534, 16), (65_535, 16), 7);
    let state = State::of(1, &all_counts(3), &[row(&place, 3, &[255; TEXT])]);
    trial.expect_sound("eight identifiers at their limits", &state, true)?;
    trial.expect_insert("before it", &state, 0, 0)?;
    trial.expect_insert("behind it", &state, 1, 12)?;
    let patch = Patch::next(&state, 16, &place, insert_of(b""));
    trial.expect_receive("the same place again", &state, &patch.bytes(), 6)?;
    trial.expect_receive("its strike", &state, &Patch::strike(&state, 16, &state.rows()[0]).bytes(), 0)?;
    let empty = State::of(1, &all_counts(3), &[]);
    trial.expect_receive(
        "eight identifiers",
        &empty,
        &Patch::next(&empty, 16, &place, insert_of(b"")).bytes(),
        0,
    )?;
    place.push((1, 16));
    trial.expect_receive(
        "nine identifiers",
        &empty,
        &Patch::next(&empty, 16, &place, insert_of(b"")).bytes(),
        2,
    )?;
    let none = Patch::next(&empty, 16, &[], insert_of(b""));
    trial.expect_receive("no identifier", &empty, &none.bytes(), 2)?;
    Ok("8 cases".to_string())
}

/// Inserts between two rows as this site, with many draws, and expects this answer and this length.
fn between(trial: &mut Trial, two: &[Row; 2], site: u8, wanted: u32, length: usize) -> Held<()> {
    for draw in [0, 1, 65_534, 65_535, u32::MAX, trial.dice.word()] {
        let mut state = State::of(site, &all_counts(1), two);
        let (answer, _) = trial.insert(&mut state, 1, b"", draw)?;
        expect("answer of insert", answer, wanted)?;
        if answer == 0 {
            expect("identifiers of the new place", state.rows()[1].place.len(), length)?;
        }
    }
    Ok(())
}

/// The neighbours of P11, below which no place of 8 identifiers is left for sites up to 9; and those near it.
fn no_place(trial: &mut Trial) -> Held<String> {
    let below = place_of((5, 3), (65_535, 9), 7);
    let two = [row(&below, 1, b""), row(&[(5, 4), (9, 3)], 1, b"")];
    for site in 1..=SITES as u8 {
        match site {
            4 => between(trial, &two, site, 0, 1)?,
            10..=16 => between(trial, &two, site, 0, 2)?,
            _ => between(trial, &two, site, 12, 0)?,
        }
    }
    // One lower in the last integer leaves one place in the last identifier.
    let mut lower = below.clone();
    lower[7].0 = 65_534;
    between(trial, &[row(&lower, 1, b""), two[1].clone()], 2, 0, 8)?;
    // One identifier shorter leaves all of the eighth.
    between(trial, &[row(&below[..7], 1, b""), two[1].clone()], 2, 0, 8)?;
    // Seven identifiers that the upper neighbour continues by (1,1): below (1,1) nothing is left.
    let mut upper = below[..7].to_vec();
    upper.push((1, 1));
    between(trial, &[row(&below[..7], 1, b""), row(&upper, 1, b"")], 2, 12, 0)?;
    upper[7] = (1, 3);
    between(trial, &[row(&below[..7], 1, b""), row(&upper, 1, b"")], 2, 0, 8)?;
    between(trial, &[row(&below[..7], 1, b""), row(&upper, 1, b"")], 3, 12, 0)?;
    Ok("21 pairs of neighbours".to_string())
}

/// A position in a table and in an insert: allowed in both or in neither.
fn position(trial: &mut Trial, place: &[(u16, u8)], allowed: bool) -> Held<()> {
    let author = place[place.len() - 1].1;
    let counts = all_counts(1);
    trial.expect_sound(
        &format!("row at {place:?}"),
        &State::of(1, &counts, &[row(place, 1, b"")]),
        allowed,
    )?;
    if !(2..=16).contains(&author) {
        return Ok(());
    }
    let empty = State::of(1, &counts, &[]);
    let (insert, strike) = (insert_of(b"text"), Edit::Delete(1));
    let (taken, struck) = if allowed { (0, 15) } else { (2, 2) };
    let patch = Patch::next(&empty, author, place, insert).bytes();
    trial.expect_receive(&format!("insert at {place:?}"), &empty, &patch, taken)?;
    let patch = Patch::next(&empty, author, place, strike).bytes();
    trial.expect_receive(&format!("strike at {place:?}"), &empty, &patch, struck)?;
    Ok(())
}

fn identifiers(trial: &mut Trial) -> Held<String> {
    let allowed: [&[(u16, u8)]; 8] = [
        &[(1, 2)],
        &[(65_534, 2)],
        &[(65_534, 16), (65_535, 16)],
        &[(0, 0), (1, 2)],
        &[(0, 0), (0, 0), (0, 0), (0, 0), (0, 0), (0, 0), (0, 0), (1, 2)],
        &[(3, 4), (0, 0), (65_535, 2)],
        &[(65_534, 1), (0, 0), (1, 2)],
        &[(1, 1), (1, 1), (1, 2)],
    ];
    let refused: [&[(u16, u8)]; 13] = [
        &[(65_535, 2)],
        &[(65_535, 0)],
        &[(65_535, 1), (1, 2)],
        &[(65_535, 0), (1, 2)],
        &[(0, 0)],
        &[(3, 2), (0, 0)],
        &[(0, 2)],
        &[(0, 3), (1, 2)],
        &[(1, 0), (1, 2)],
        &[(1, 17)],
        &[(1, 17), (1, 2)],
        &[(1, 2), (65_535, 0), (1, 2)],
        &[(1, 255), (1, 2)],
    ];
    for place in allowed {
        position(trial, place, true)?;
    }
    for place in refused {
        position(trial, place, false)?;
    }
    Ok("8 allowed and 13 refused positions".to_string())
}

fn sites(trial: &mut Trial) -> Held<String> {
    for (site, wanted) in
        [(0, 14), (1, 0), (16, 0), (17, 14), (255, 14), (256, 14), (257, 14), (u32::MAX, 14)]
    {
        let mut state = State::of(9, &all_counts(2), &plain_rows(9, 2));
        let answer = trial.pair.start(&mut state, site)?;
        expect("answer of start", answer, wanted)?;
    }
    for (site, sound) in [(0, false), (1, true), (16, true), (17, false), (255, false)] {
        trial.expect_sound("own site of a record", &State::of(site, &[0; SITES], &[]), sound)?;
    }
    let empty = State::of(2, &[0; SITES], &[]);
    for (author, wanted) in [(0, 2), (1, 0), (16, 0), (17, 2), (255, 2)] {
        let edit = insert_of(b"text");
        let patch = Patch { author, number: 1, before: Vec::new(), place: vec![(1, author)], edit };
        trial.expect_receive("author of a patch", &empty, &patch.bytes(), wanted)?;
        trial.pair.first_patch(&patch.bytes())?;
    }
    let edit = insert_of(b"text");
    let other = Patch { author: 3, number: 1, before: Vec::new(), place: vec![(1, 4)], edit };
    trial.expect_receive("an insert at the place of another site", &empty, &other.bytes(), 2)?;
    Ok("8 starts, 5 records, 6 patches".to_string())
}

fn line_numbers(trial: &mut Trial) -> Held<String> {
    for (number, count, sound) in
        [(5, 5, true), (6, 5, false), (1, 1, true), (1, 0, false), (0, 5, false), (NUMBERS, NUMBERS, true)]
    {
        let state = State::of(1, &count_of(4, count), &[row(&[(8, 4)], number, b"")]);
        trial.expect_sound(&format!("line number {number}, count {count}"), &state, sound)?;
    }
    // A strike names a line that its author had received: a number from 1 to the entry in Before.
    let state = State::of(1, &count_of(4, 5), &[row(&[(8, 4)], 5, b"")]);
    for (number, wanted) in [(0, 2), (4, 15), (5, 0), (6, 2), (NUMBERS, 2), (u32::MAX, 2)] {
        let strike = Patch::next(&state, 2, &[(8, 4)], Edit::Delete(number)).bytes();
        trial.expect_receive(&format!("strike of number {number}"), &state, &strike, wanted)?;
    }
    let unknown = Patch::next(&state, 2, &[(8, 3)], Edit::Delete(1)).bytes();
    trial.expect_receive("strike of a line whose author is not in Before", &state, &unknown, 2)?;
    Ok("6 tables, 7 strikes".to_string())
}

/// The patch of an author with this number who knows only its own patches.
fn numbered(author: u8, number: u32) -> Patch {
    let before = if number > 1 { vec![(author, number - 1)] } else { Vec::new() };
    Patch { author, number, before, place: vec![(40, author)], edit: insert_of(b"text") }
}

fn patch_numbers(trial: &mut Trial) -> Held<String> {
    for count in [0, 1, 2, 255, 256, 999_998, 999_999, NUMBERS] {
        let state = State::of(1, &count_of(6, count), &[]);
        for number in count.saturating_sub(2)..=count + 3 {
            let wanted = match number {
                0 | 1_000_001.. => 2,
                _ if number <= count => 4,
                _ if number == count + 1 => 0,
                _ => 5,
            };
            let what = format!("count {count}, patch {number}");
            let patch = numbered(6, number).bytes();
            let after = trial.expect_receive(&what, &state, &patch, wanted)?;
            expect(&what, after.count_of(6), count + u32::from(wanted == 0))?;
        }
    }
    let mut state = State::of(1, &count_of(6, 999_999), &[]);
    state = trial.expect_receive("the last number", &state, &numbered(6, NUMBERS).bytes(), 0)?;
    trial.expect_sound("a count of 1,000,000 after a receive", &state, true)?;
    Ok("8 counts".to_string())
}

fn before(trial: &mut Trial) -> Held<String> {
    let state = State::of(1, &all_counts(7), &[]);
    let full = Patch::next(&state, 5, &[(9, 5)], insert_of(b"text"));
    trial.expect_receive("all sixteen entries", &state, &full.bytes(), 0)?;
    for (site, at) in (1..=16u8).zip(0..) {
        for (count, otherwise) in [(0, 2), (1, 0), (6, 0), (7, 0), (8, 5), (NUMBERS, 5), (NUMBERS + 1, 2)] {
            let mut patch = full.clone();
            patch.before[at] = (site, count);
            // The author's own entry must be its number less 1.
            let wanted = if site == 5 && count != 7 { 2 } else { otherwise };
            trial.expect_receive(&format!("entry {site} {count}"), &state, &patch.bytes(), wanted)?;
        }
    }
    let mut patch = full.clone();
    patch.before.swap(8, 9);
    trial.expect_receive("entries not rising", &state, &patch.bytes(), 2)?;
    patch.before[8] = patch.before[9];
    trial.expect_receive("an entry twice", &state, &patch.bytes(), 2)?;
    patch.before = full.before[..4].to_vec();
    trial.expect_receive("own entry absent", &state, &patch.bytes(), 2)?;
    patch.number = 1;
    trial.expect_receive("own entry absent, number 1", &state, &patch.bytes(), 4)?;
    patch.before = full.before.clone();
    trial.expect_receive("own entry present, number 1", &state, &patch.bytes(), 2)?;
    for extra in [0, 16, 17, 255] {
        patch = full.clone();
        patch.before.push((extra, 7));
        trial.expect_receive("seventeen entries", &state, &patch.bytes(), 2)?;
        patch.before = vec![(5, 7), (extra, 7)];
        let wanted = if extra == 16 { 0 } else { 2 };
        trial.expect_receive("an entry of this site", &state, &patch.bytes(), wanted)?;
    }
    Ok("126 patches".to_string())
}

fn gone(trial: &mut Trial) -> Held<String> {
    let lines = [row(&[(3, 2)], 4, b"a"), row(&[(5, 2)], 6, b"b"), row(&[(5, 2), (1, 9)], 2, b"c")];
    let state = State::of(1, &all_counts(9), &lines);
    let there = [
        Row { number: 5, ..lines[1].clone() },
        row(&[(5, 3)], 1, b""),
        row(&[(5, 2), (1, 9), (1, 2)], 1, b""),
    ];
    for line in &there {
        let strike = Patch::strike(&state, 8, line).bytes();
        let after = trial.expect_receive("the strike of a line that is not there", &state, &strike, 15)?;
        expect("rows after it", after.rows(), state.rows())?;
        expect("count after it", after.count_of(8), 10)?;
    }
    for (at, line) in lines.iter().enumerate() {
        let strike = Patch::strike(&state, 8, line).bytes();
        let after = trial.expect_receive("the strike of a line that is there", &state, &strike, 0)?;
        let mut left = lines.to_vec();
        left.remove(at);
        expect("rows after it", after.rows(), left)?;
    }
    let empty = State::of(1, &all_counts(9), &[]);
    trial.expect_receive(
        "a strike on an empty table",
        &empty,
        &Patch::strike(&empty, 8, &lines[0]).bytes(),
        15,
    )?;
    Ok("7 strikes".to_string())
}

fn held_and_full(trial: &mut Trial) -> Held<String> {
    let full = State::of(1, &all_counts(600), &plain_rows(2, ROWS));
    let one_less = State::of(1, &all_counts(600), &plain_rows(2, ROWS - 1));
    for (integer, on_full, on_less) in [(1, 6, 6), (300, 6, 6), (511, 6, 6), (512, 6, 0), (513, 7, 0)] {
        let what = format!("integer {integer}");
        let patch = Patch::next(&full, 2, &[(integer, 2)], insert_of(b"text")).bytes();
        trial.expect_receive(&what, &full, &patch, on_full)?;
        trial.expect_receive(&what, &one_less, &patch, on_less)?;
        // A strike needs no room.
        let strike = Patch::next(&full, 3, &[(integer, 2)], Edit::Delete(u32::from(integer))).bytes();
        trial.expect_receive(&what, &full, &strike, if integer <= 512 { 0 } else { 15 })?;
    }
    Ok("15 patches".to_string())
}

fn own_patches(trial: &mut Trial) -> Held<String> {
    let state = State::of(6, &count_of(6, 10), &[]);
    for (number, wanted) in [(1, 4), (10, 4), (11, 3), (12, 3), (NUMBERS, 3), (NUMBERS + 1, 2)] {
        let patch = numbered(6, number).bytes();
        trial.expect_receive(&format!("own patch {number}"), &state, &patch, wanted)?;
    }
    let mut ahead = numbered(6, 11);
    ahead.before.push((9, 1));
    trial.expect_receive("own patch ahead and early", &state, &ahead.bytes(), 3)?;
    Ok("7 patches".to_string())
}

fn compare(trial: &mut Trial) -> Held<String> {
    let some = [0, 1, 2, 255, 256, 65_536, 999_999, NUMBERS];
    let mut pairs = 0;
    for left in some {
        for right in some {
            let mut first: Counts = all_counts(left);
            first[pairs % SITES] = right;
            let second = all_counts(right);
            let (one, other) = (State::of(1, &first, &[]), State::of(2, &second, &[]));
            let mut result = trial.dice.bytes(COMPARED);
            let answer = trial.pair.compare(one.counts_bytes(), other.counts_bytes(), &mut result)?;
            expect("answer of compare", answer, 0)?;
            expect("result of compare", result, compared(&first, &second))?;
            pairs += 1;
        }
    }
    for above in [NUMBERS + 1, u32::MAX] {
        for site in 1..=SITES as u8 {
            let (bad, good) = (State::of(1, &count_of(site, above), &[]), State::of(1, &all_counts(1), &[]));
            for (one, other) in [(&bad, &good), (&good, &bad), (&bad, &bad)] {
                let mut result = trial.dice.bytes(COMPARED);
                let answer = trial.pair.compare(one.counts_bytes(), other.counts_bytes(), &mut result)?;
                expect("answer of compare", answer, 1)?;
            }
        }
    }
    Ok(format!("{pairs} pairs of counts, 96 with one above its limit"))
}

/// The first of these answers whose ground holds, else 0.
fn first_ground(grounds: &[(u32, bool)]) -> u32 {
    grounds.iter().find(|ground| ground.1).map_or(0, |ground| ground.0)
}

/// A state of site 1 with so many rows. Behind the last no place is left; the own count may be spent, and a
/// wrong site makes the state unsound.
fn state_with(rows: usize, spent: bool, unsound: bool) -> State {
    let mut lines = plain_rows(2, rows - 1);
    lines.push(row(&place_of((65_534, 16), (65_535, 16), 7), 1, b""));
    let mut counts = all_counts(600);
    counts[0] = if spent { NUMBERS } else { 600 };
    State::of(if unsound { 0 } else { 1 }, &counts, &lines)
}

/// Every set of grounds on which insert may refuse: the one that 01 names first decides.
fn grounds_of_insert(trial: &mut Trial) -> Held<String> {
    for set in 0..128 {
        let holds = |ground: u32| set >> ground & 1 == 1;
        let [unsound, short, no_row, long, full, spent, no_place] = [0, 1, 2, 3, 4, 5, 6].map(holds);
        let rows = if full { ROWS } else { ROWS - 1 };
        let state = state_with(rows, spent, unsound);
        let mut buffer = trial.dice.bytes(if short { PATCH - 1 } else { PATCH });
        let at = if no_row {
            rows + 1
        } else if no_place {
            rows
        } else {
            0
        };
        let text = vec![b't'; if long { TEXT + 1 } else { TEXT }];
        let grounds =
            [(1, unsound), (10, short), (8, no_row), (9, long), (7, full), (11, spent), (12, no_place)];
        let (answer, _) = trial.pair.insert(&mut state.clone(), at, &text, 1, &mut buffer)?;
        expect(&format!("insert with the grounds {grounds:?}"), answer, first_ground(&grounds))?;
    }
    Ok("128 sets of grounds".to_string())
}

fn grounds_of_delete(trial: &mut Trial) -> Held<String> {
    for set in 0..16 {
        let holds = |ground: u32| set >> ground & 1 == 1;
        let [unsound, short, no_row, spent] = [0, 1, 2, 3].map(holds);
        let state = state_with(3, spent, unsound);
        let mut buffer = trial.dice.bytes(if short { PATCH - 1 } else { PATCH });
        let grounds = [(1, unsound), (10, short), (8, no_row), (11, spent)];
        let at = if no_row { 3 } else { 2 };
        let (answer, _) = trial.pair.delete(&mut state.clone(), at, &mut buffer)?;
        expect(&format!("delete with the grounds {grounds:?}"), answer, first_ground(&grounds))?;
    }
    Ok("16 sets of grounds".to_string())
}

/// Receive: an insert by site 1 or by site 2, on a table that is full or has room. Where the number is not
/// above the count, 3 has no ground and 4 has one.
fn grounds_of_receive(trial: &mut Trial) -> Held<String> {
    for set in 0..128 {
        let holds = |ground: u32| set >> ground & 1 == 1;
        let [unsound, malformed, own, again, early, taken, full] = [0, 1, 2, 3, 4, 5, 6].map(holds);
        let state = state_with(if full { ROWS } else { ROWS - 1 }, false, unsound);
        let author = if own { 1 } else { 2 };
        // Site 2 holds the integers from 1 on. Site 1 holds no place, so 6 has no ground for its patches.
        let place = [(if taken { 7 } else { 600 }, author)];
        let mut patch = Patch::next(&state, author, &place, insert_of(b"text"));
        patch.number -= u32::from(again);
        patch.before[usize::from(author) - 1].1 -= u32::from(again);
        patch.before[8].1 += u32::from(early);
        let mut bytes = patch.bytes();
        bytes.resize(bytes.len() + usize::from(malformed), 0);
        let ahead = own && !again;
        let grounds =
            [(1, unsound), (2, malformed), (3, ahead), (4, again), (5, early), (6, taken), (7, full)];
        let what = format!("the grounds {grounds:?}");
        trial.expect_receive(&what, &state, &bytes, first_ground(&grounds))?;
    }
    Ok("128 sets of grounds".to_string())
}

fn grounds_of_start(trial: &mut Trial) -> Held<String> {
    for (site, record, wanted) in [(17, RECORD - 1, 14), (17, RECORD, 14), (1, RECORD - 1, 1), (1, RECORD, 0)]
    {
        let mut state = State { record: trial.dice.bytes(record), table: trial.dice.bytes(TABLE) };
        let answer = trial.pair.start(&mut state, site)?;
        expect("answer of start", answer, wanted)?;
    }
    Ok("4 sets of grounds".to_string())
}
