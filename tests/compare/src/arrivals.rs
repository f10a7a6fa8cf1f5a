//! Any well-formed patch on any sound state, both built at random near the limits, whether or not a play could
//! come to them. The answer and the state after it are worked out here from the values, by 01's order of
//! checks, and both programs must give them.

use crate::layout::{Counts, Edit, Patch, Row, State, NUMBERS, ROWS, SITES};
use crate::pair::Held;
use crate::places::some_place;
use crate::trial::{demand, expect, Check, Trial};

pub const CHECKS: &[Check] = &[
    Check { name: "arrivals: any patch on any few rows", run: few_rows },
    Check { name: "arrivals: any patch on a full table, or one row less", run: full_table },
];

/// A sound state as values.
struct Values {
    site: u8,
    counts: Counts,
    rows: Vec<Row>,
}

fn some_count(trial: &mut Trial) -> u32 {
    let any = trial.dice.between(0, NUMBERS as usize) as u32;
    *trial.dice.pick(&[0, 1, 1, 2, 3, 255, 256, 999_999, NUMBERS, any])
}

fn some_site(trial: &mut Trial) -> u8 {
    trial.dice.between(1, SITES) as u8
}

fn author_of(place: &[(u16, u8)]) -> usize {
    usize::from(place[place.len() - 1].1)
}

/// A sound state with up to so many rows, by authors of whom something has been received.
fn some_values(trial: &mut Trial, rows: usize) -> Values {
    let site = some_site(trial);
    let counts: Counts = std::array::from_fn(|_| some_count(trial));
    let mut lines = Vec::new();
    for _ in 0..rows {
        let near = some_site(trial);
        let place = some_place(trial, near);
        let count = counts[author_of(&place) - 1] as usize;
        if count > 0 {
            let (number, length) = (trial.dice.between(1, count) as u32, trial.dice.below(49));
            lines.push(Row { place, number, text: trial.dice.bytes(length) });
        }
    }
    lines.sort_by(|one, other| one.place.cmp(&other.place));
    lines.dedup_by(|one, other| one.place == other.place);
    Values { site, counts, rows: lines }
}

/// A sound state with 512 rows. Where too few authors have counts for so many, it is drawn again.
fn full_values(trial: &mut Trial) -> Values {
    loop {
        let mut values = some_values(trial, 900);
        if values.rows.len() >= ROWS {
            values.rows.truncate(ROWS);
            return values;
        }
    }
}

/// What an author may have received: mostly not more than the state has.
fn some_before(trial: &mut Trial, values: &Values) -> Vec<(u8, u32)> {
    let mut before = Vec::new();
    for site in 1..=SITES as u8 {
        let count = values.counts[usize::from(site) - 1];
        let more = usize::from(trial.dice.percent(2));
        let entry = *trial.dice.pick(&[count, count.saturating_sub(1), 0]) + more as u32;
        if (1..=NUMBERS).contains(&entry) {
            before.push((site, entry));
        }
    }
    before
}

/// Puts an entry into Before, or takes it out if the count is 0.
fn set_entry(before: &mut Vec<(u8, u32)>, site: u8, count: u32) {
    before.retain(|entry| entry.0 != site);
    if count > 0 {
        before.push((site, count));
        before.sort_unstable();
    }
}

/// A line to strike or a place to insert at: mostly that of a row.
fn some_line(trial: &mut Trial, values: &Values) -> Row {
    if !values.rows.is_empty() && trial.dice.percent(70) {
        return trial.dice.pick(&values.rows).clone();
    }
    let near = some_site(trial);
    Row { place: some_place(trial, near), number: trial.dice.between(1, 4) as u32, text: Vec::new() }
}

/// The number of a patch near the author's count.
fn some_number(trial: &mut Trial, values: &Values, author: u8) -> u32 {
    let count = values.counts[usize::from(author) - 1];
    let near =
        *trial.dice.pick(&[count + 1, count + 1, count + 1, count + 2, count, count.saturating_sub(1)]);
    near.clamp(1, NUMBERS)
}

fn some_insert(trial: &mut Trial, values: &Values) -> Patch {
    let place = some_line(trial, values).place;
    let author = author_of(&place) as u8;
    let number = some_number(trial, values, author);
    let mut before = some_before(trial, values);
    set_entry(&mut before, author, number - 1);
    let length = trial.dice.below(49);
    Patch { author, number, before, place, edit: Edit::Insert(trial.dice.bytes(length)) }
}

/// A strike. It is well-formed only if Before reaches the line, so the entry is raised where it does not.
fn some_strike(trial: &mut Trial, values: &Values) -> Option<Patch> {
    let line = some_line(trial, values);
    let (author, of_line) = (some_site(trial), author_of(&line.place) as u8);
    let number = some_number(trial, values, author);
    let mut before = some_before(trial, values);
    let reaches = before.iter().any(|entry| entry.0 == of_line && entry.1 >= line.number);
    if !reaches {
        set_entry(&mut before, of_line, line.number);
    }
    set_entry(&mut before, author, number - 1);
    let well_formed = author != of_line || number > line.number;
    let edit = Edit::Delete(line.number);
    well_formed.then_some(Patch { author, number, before, place: line.place, edit })
}

/// The answer by 01's order of checks; a patch that is taken changes the values.
fn arrive(values: &mut Values, patch: &Patch) -> u32 {
    let count = values.counts[usize::from(patch.author) - 1];
    let early = |entry: &(u8, u32)| entry.1 > values.counts[usize::from(entry.0) - 1];
    let found = values.rows.binary_search_by(|row| row.place.cmp(&patch.place));
    let refused = match (&patch.edit, &found) {
        _ if patch.author == values.site && patch.number > count => 3,
        _ if patch.number <= count => 4,
        _ if patch.before.iter().any(early) => 5,
        (Edit::Insert(_), Ok(_)) => 6,
        (Edit::Insert(_), Err(_)) if values.rows.len() == ROWS => 7,
        _ => 0,
    };
    if refused != 0 {
        return refused;
    }
    values.counts[usize::from(patch.author) - 1] += 1;
    match (&patch.edit, found) {
        (Edit::Insert(text), Err(at)) => {
            let place = patch.place.clone();
            values.rows.insert(at, Row { place, number: patch.number, text: text.clone() });
            0
        }
        (Edit::Delete(number), Ok(at)) if values.rows[at].number == *number => {
            values.rows.remove(at);
            0
        }
        _ => 15,
    }
}

/// Offers one patch, and holds answer and state against the values.
fn one_arrival(trial: &mut Trial, values: &mut Values) -> Held<()> {
    let patch = if trial.dice.percent(50) {
        some_insert(trial, values)
    } else {
        match some_strike(trial, values) {
            Some(patch) => patch,
            None => return Ok(()),
        }
    };
    let bytes = patch.bytes();
    expect("a well-formed patch in a run", trial.pair.first_patch(&bytes)?, (0, bytes.len()))?;
    let mut state = State::of(values.site, &values.counts, &values.rows);
    let answer = trial.pair.receive(&mut state, &bytes)?;
    expect(&format!("answer to {patch:?}"), answer, arrive(values, &patch))?;
    let wanted = State::of(values.site, &values.counts, &values.rows);
    demand(state == wanted, || format!("record or table after {patch:?}"))
}

fn few_rows(trial: &mut Trial) -> Held<String> {
    let states = 3_000 * trial.long;
    for _ in 0..states {
        let rows = trial.dice.below(12);
        let mut values = some_values(trial, rows);
        for _ in 0..12 {
            one_arrival(trial, &mut values)?;
        }
    }
    Ok(format!("{states} states, up to 12 patches each"))
}

fn full_table(trial: &mut Trial) -> Held<String> {
    let states = 60 * trial.long;
    for _ in 0..states {
        let mut values = full_values(trial);
        for _ in 0..40 {
            one_arrival(trial, &mut values)?;
        }
    }
    Ok(format!("{states} states, up to 40 patches each"))
}
