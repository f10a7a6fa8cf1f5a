//! Every example that 01 prints, by both programs, held against the result that 01 prints.

use crate::layout::{row, Edit, Patch, Place, Row, State};
use crate::listings;
use crate::pair::Held;
use crate::trial::{all_counts, expect, place_of, plain_rows, Check, Trial};

pub const CHECKS: &[Check] = &[
    Check { name: "P1 and P2, the order of positions", run: order_of_positions },
    Check { name: "P3 to P11, new places", run: new_places },
    Check { name: "48 and 49 bytes of text", run: text_lengths },
    Check { name: "512 rows, insert; then delete, insert", run: full_table },
    Check { name: "the listing example", run: listing_example },
    Check { name: "error: striking by position alone", run: striking_by_position },
    Check { name: "error: a late delete not counted", run: late_delete_counts },
    Check { name: "error: integers first, sites last", run: integers_first },
    Check { name: "error: a repeated insert taken again", run: repeated_insert },
];

/// Both programs put the lower position first, whichever patch comes first; and find a table of the two sound
/// in this order and unsound in the other.
fn in_this_order(trial: &mut Trial, below: &[(u16, u8)], above: &[(u16, u8)]) -> Held<()> {
    let rows = [row(below, 1, b"below"), row(above, 1, b"above")];
    let other = [rows[1].clone(), rows[0].clone()];
    let counts = all_counts(1);
    trial.expect_sound("rows rising", &State::of(1, &counts, &rows), true)?;
    trial.expect_sound("rows falling", &State::of(1, &counts, &other), false)?;
    for arriving in [&rows, &other] {
        // Site 12 is the author of none of these rows.
        let mut state = trial.started(12)?;
        for line in arriving {
            let patch = first_insert(line);
            state = trial.expect_receive("an insert", &state, &patch, 0)?;
        }
        expect("rows after both inserts", state.rows(), rows.to_vec())?;
    }
    Ok(())
}

/// The patch that inserts a row as the first edit of its author.
fn first_insert(line: &Row) -> Vec<u8> {
    let author = line.place[line.place.len() - 1].1;
    let edit = Edit::Insert(line.text.clone());
    Patch { author, number: 1, before: Vec::new(), place: line.place.clone(), edit }.bytes()
}

fn order_of_positions(trial: &mut Trial) -> Held<String> {
    in_this_order(trial, &[(2, 4), (9, 9)], &[(2, 5)])?;
    in_this_order(trial, &[(2, 4)], &[(2, 4), (1, 1)])?;
    Ok("2 pairs".to_string())
}

/// A new place between two neighbours (none: an end): it begins with `front`, then comes x from `low` to
/// `high`. Without a front there is no place, answer 12.
struct NewPlace {
    name: &'static str,
    below: Place,
    above: Place,
    site: u8,
    front: Option<Place>,
    low: u32,
    high: u32,
}

fn place_examples() -> Vec<NewPlace> {
    let new = |name, below: &[_], above: &[_], site, front: Option<&[_]>, low, high| NewPlace {
        name,
        below: below.to_vec(),
        above: above.to_vec(),
        site,
        front: front.map(<[_]>::to_vec),
        low,
        high,
    };
    let (low6, high6) = ([(5, 1), (1, 6), (10, 2)], [(5, 1), (2, 1), (15, 2)]);
    let (low9, high9) = ([(2, 4)], [(2, 4), (1, 3)]);
    let low11 = place_of((5, 3), (65_535, 9), 7);
    vec![
        new("P3", &[], &[], 3, Some(&[]), 1, 65_534),
        new("P4", &[(2, 4)], &[(10, 5)], 4, Some(&[]), 3, 10),
        new("P5", &[(2, 4)], &[(10, 5)], 5, Some(&[]), 2, 9),
        new("P6", &low6, &high6, 7, Some(&[(5, 1)]), 1, 1),
        new("P7", &low6, &high6, 1, Some(&[(5, 1)]), 2, 2),
        new("P8", &low6, &high6, 6, Some(&[(5, 1), (1, 6)]), 10, 65_535),
        new("P9", &low9, &high9, 2, Some(&[(2, 4)]), 1, 1),
        new("P10", &low9, &high9, 5, Some(&[(2, 4), (0, 0)]), 1, 65_535),
        new("P11", &low11, &[(5, 4), (9, 3)], 2, None, 0, 0),
    ]
}

/// Inserts between the neighbours with this draw, and holds the place in the patch and in the table against
/// the example.
fn draw_place(trial: &mut Trial, example: &NewPlace, draw: u32) -> Held<()> {
    let neighbours: Vec<Row> = [&example.below, &example.above]
        .iter()
        .filter(|place| !place.is_empty())
        .map(|place| row(place, 1, b"neighbour"))
        .collect();
    let at = usize::from(!example.below.is_empty());
    let mut state = State::of(example.site, &all_counts(1), &neighbours);
    let (answer, patch) = trial.insert(&mut state, at, b"new", draw)?;
    match &example.front {
        None => expect(example.name, answer, 12),
        Some(front) => {
            let x = example.low + draw % (example.high - example.low + 1);
            let mut wanted = front.clone();
            wanted.push((x as u16, example.site));
            expect(example.name, answer, 0)?;
            expect(example.name, &Patch::read(&patch).place, &wanted)?;
            expect(example.name, &state.rows()[at].place, &wanted)
        }
    }
}

fn new_places(trial: &mut Trial) -> Held<String> {
    let examples = place_examples();
    let mut draws: Vec<u32> = (0..20).collect();
    draws.extend([65_525, 65_526, 65_533, 65_534, 65_535, 65_536, 131_068, u32::MAX - 1, u32::MAX]);
    draws.extend((0..200).map(|_| trial.dice.word()));
    for example in &examples {
        for draw in &draws {
            draw_place(trial, example, *draw)?;
        }
    }
    // P4 prints one draw with its result.
    let mut state = State::of(4, &all_counts(1), &[row(&[(2, 4)], 1, b""), row(&[(10, 5)], 1, b"")]);
    let (_, patch) = trial.insert(&mut state, 1, b"", 9)?;
    expect("P4 with draw 9", Patch::read(&patch).place, vec![(4, 4)])?;
    Ok(format!("{} examples with {} draws each", examples.len(), draws.len()))
}

fn text_lengths(trial: &mut Trial) -> Held<String> {
    for (length, wanted) in [(48, 0), (49, 9)] {
        let mut state = trial.started(2)?;
        let (answer, _) = trial.insert(&mut state, 0, &vec![b't'; length], 7)?;
        expect("answer of insert", answer, wanted)?;
    }
    Ok("both lengths".to_string())
}

fn full_table(trial: &mut Trial) -> Held<String> {
    let mut state = trial.started(5)?;
    for at in 0..512 {
        let (answer, _) = trial.insert(&mut state, at, b"line", 20)?;
        expect("answer while there is room", answer, 0)?;
    }
    for at in [0, 1, 300, 512] {
        trial.expect_insert("512 rows", &state, at, 7)?;
    }
    let (answer, _) = trial.delete(&mut state, 100)?;
    expect("answer of delete", answer, 0)?;
    trial.expect_insert("511 rows", &state, 100, 0)?;
    Ok("filled by 512 inserts".to_string())
}

fn listing_example(_: &mut Trial) -> Held<String> {
    let input = [
        "\x02\x03\0\0\0\x01\x01\x01\0\0\0\x01\x01\0\x01\x01\x04\0\0\0\x01",
        "\x01\x01\0\0\0\x01\0\x01\0\x01\x01\x02go",
        "\x01\x02\0\0\0\x01\0\x01\0\x01\x02\x04hold",
    ];
    let output = "1 5\n2 0\n3 0\nrows 2\n1 1.1 1 go\n2 1.2 1 hold\n";
    listings::expect_listing(input.concat().as_bytes(), output.as_bytes())?;
    Ok("whole output".to_string())
}

/// Site 1 has written (1,1) number 1, and sites 2 and 3 have both struck it. Gives site 1's replica, which
/// has written (1,1) again as number 2 after it heard site 2, then site 3's replica and its strike.
fn struck_twice(trial: &mut Trial) -> Held<(State, State, Vec<u8>)> {
    let (mut one, two, three) = (trial.started(1)?, trial.started(2)?, trial.started(3)?);
    let (_, line) = trial.insert(&mut one, 0, b"first", 0)?;
    let mut two = trial.expect_receive("site 2 hears the line", &two, &line, 0)?;
    let mut three = trial.expect_receive("site 3 hears the line", &three, &line, 0)?;
    let (_, strike_of_two) = trial.delete(&mut two, 0)?;
    let (_, strike_of_three) = trial.delete(&mut three, 0)?;
    let mut one = trial.expect_receive("site 1 hears site 2", &one, &strike_of_two, 0)?;
    // Its own patch 1 was the first line; the second line takes number 2 at the same place.
    trial.insert(&mut one, 0, b"second", 0)?;
    expect("the second line", one.rows(), vec![row(&[(1, 1)], 2, b"second")])?;
    Ok((one, three, strike_of_three))
}

fn striking_by_position(trial: &mut Trial) -> Held<String> {
    let (one, _, late_strike) = struck_twice(trial)?;
    let after = trial.expect_receive("the late strike", &one, &late_strike, 15)?;
    expect("rows after it", after.rows(), one.rows())?;
    Ok("number 2 stays".to_string())
}

fn late_delete_counts(trial: &mut Trial) -> Held<String> {
    let (one, mut three, late_strike) = struck_twice(trial)?;
    let (_, next) = trial.insert(&mut three, 0, b"next", 0)?;
    trial.expect_receive("the next patch without the strike", &one, &next, 5)?;
    let after = trial.expect_receive("the late strike", &one, &late_strike, 15)?;
    expect("count of site 3", after.count_of(3), 1)?;
    trial.expect_receive("the next patch after it", &after, &next, 0)?;
    Ok("the next patch is taken".to_string())
}

fn integers_first(trial: &mut Trial) -> Held<String> {
    in_this_order(trial, &[(2, 4), (9, 1)], &[(2, 5), (1, 2)])?;
    in_this_order(trial, &[(2, 4), (9, 9), (9, 7)], &[(2, 5), (9, 1)])?;
    in_this_order(trial, &[(1, 16), (65_535, 3)], &[(2, 1)])?;
    Ok("3 pairs".to_string())
}

fn repeated_insert(trial: &mut Trial) -> Held<String> {
    let (mut one, two) = (trial.started(1)?, trial.started(2)?);
    let (_, line) = trial.insert(&mut one, 0, b"line", 3)?;
    let (_, strike) = trial.delete(&mut one, 0)?;
    let state = trial.expect_receive("the insert", &two, &line, 0)?;
    let state = trial.expect_receive("the strike", &state, &strike, 0)?;
    let state = trial.expect_receive("the insert again", &state, &line, 4)?;
    expect("rows", state.rows_in_use(), 0)?;
    let full = State::of(1, &all_counts(512), &plain_rows(4, 512));
    let again = first_insert(&row(&[(9, 4)], 1, b"x"));
    trial.expect_receive("an insert again on a full table", &full, &again, 4)?;
    Ok("answer 4, also on a full table".to_string())
}
