//! New places between neighbours that stand close to each other, where the rule for a place has most to
//! decide. Many are held between the two programs; some also against the rule taken word for word: all values
//! of x are tried one after the other, and those that lie between the neighbours are listed.

use crate::layout::{row, Place, Row, State, SITES};
use crate::pair::Held;
use crate::trial::{all_counts, expect, Check, Trial};

pub const CHECKS: &[Check] = &[
    Check { name: "places: close neighbours", run: close_neighbours },
    Check { name: "places: each value of x tried", run: each_value },
];

const LIMIT: usize = 8;

/// A site near the one that inserts, or near an end.
fn near_site(trial: &mut Trial, site: u8) -> u8 {
    let near = [site, site, site.max(2) - 1, site.min(15) + 1, 1, 16];
    *trial.dice.pick(&near)
}

/// An identifier of a line; the last one is no pad.
fn identifier(trial: &mut Trial, site: u8, last: bool) -> (u16, u8) {
    if !last && trial.dice.percent(25) {
        return (0, 0);
    }
    let any = trial.dice.between(1, 65_535) as u16;
    let integer = *trial.dice.pick(&[1, 1, 2, 3, 65_534, 65_535, 65_535, any]);
    (integer, near_site(trial, site))
}

/// A position of 1 to 8 identifiers.
pub fn some_place(trial: &mut Trial, site: u8) -> Place {
    place_up_to(trial, site, &[], LIMIT)
}

/// A position that begins with `front`, as far as its ends allow, and has up to so many identifiers.
fn place_up_to(trial: &mut Trial, site: u8, front: &[(u16, u8)], most: usize) -> Place {
    let length = trial.dice.between(front.len().max(1), most);
    let mut place = front.to_vec();
    while place.len() < length {
        let last = place.len() + 1 == length;
        place.push(identifier(trial, site, last));
    }
    let last = place.len() - 1;
    if place[last] == (0, 0) {
        place[last] = identifier(trial, site, true);
    }
    place[0].0 = place[0].0.min(65_534);
    place
}

/// A position near another: it shares its front, and now and then is one higher in an integer.
fn near_place(trial: &mut Trial, site: u8, other: &Place) -> Place {
    let shared = trial.dice.below(other.len() + 1);
    let mut place = place_up_to(trial, site, &other[..shared], LIMIT);
    let at = trial.dice.below(place.len());
    let (integer, part) = place[at];
    if trial.dice.percent(40) && (1..65_534).contains(&integer) {
        place[at] = (integer + 1, part);
    }
    place
}

/// An insert by a site between two neighbours. An empty neighbour is an end.
struct Gap {
    site: u8,
    below: Place,
    above: Place,
    draw: u32,
}

/// Two positions with little or nothing between them: the upper one continues the lower one by pads and a
/// small integer, or the lower one runs on at the largest integer.
fn tight_places(trial: &mut Trial, site: u8) -> (Place, Place) {
    let mut front = place_up_to(trial, site, &[], LIMIT - 1);
    let mut other = front.clone();
    if trial.dice.percent(50) {
        other.resize(trial.dice.between(front.len(), LIMIT - 1), (0, 0));
        other.push((trial.dice.between(1, 2) as u16, near_site(trial, site)));
    } else {
        other.resize(trial.dice.between(LIMIT - 1, LIMIT), (65_535, near_site(trial, site)));
        let last = front.len() - 1;
        front[last].1 = front[last].1.min(15) + 1;
    }
    (front, other)
}

fn some_gap(trial: &mut Trial) -> Gap {
    let site = trial.dice.between(1, SITES) as u8;
    let one = some_place(trial, site);
    let other = near_place(trial, site, &one);
    let (one, other) = if trial.dice.percent(40) { tight_places(trial, site) } else { (one, other) };
    let (mut below, mut above) = (one.clone().min(other.clone()), one.max(other));
    // Equal places are no two neighbours; then, and now and then otherwise, one of them is an end.
    if below == above || trial.dice.percent(5) {
        below = Vec::new();
    } else if trial.dice.percent(5) {
        above = Vec::new();
    }
    let any = trial.dice.word();
    let draw = *trial.dice.pick(&[0, 1, 65_534, u32::MAX, any, any]);
    Gap { site, below, above, draw }
}

/// Inserts into the gap; gives the place made, or nothing for answer 12.
fn insert_into(trial: &mut Trial, gap: &Gap) -> Held<Option<Place>> {
    let lines = [&gap.below, &gap.above];
    let rows: Vec<Row> =
        lines.iter().filter(|place| !place.is_empty()).map(|place| row(place, 1, b"")).collect();
    let at = usize::from(!gap.below.is_empty());
    let mut state = State::of(gap.site, &all_counts(1), &rows);
    let (answer, _) = trial.insert(&mut state, at, b"new", gap.draw)?;
    match answer {
        0 => Ok(Some(state.rows()[at].place.clone())),
        12 => Ok(None),
        _ => Err(format!("answer {answer} to an insert between sound neighbours")),
    }
}

/// The place by 01's rule, word for word.
fn by_the_rule(gap: &Gap) -> Option<Place> {
    let end = |place: &Place, otherwise| if place.is_empty() { vec![otherwise] } else { place.clone() };
    let (below, above) = (end(&gap.below, (0, 0)), end(&gap.above, (65_535, 0)));
    for length in 1..=LIMIT {
        let mut front = below.clone();
        front.resize(length - 1, (0, 0));
        let candidate = |x: u16| [front.clone(), vec![(x, gap.site)]].concat();
        let between = |place: &Place| below < *place && *place < above;
        let candidates: Vec<Place> = (1..=65_535).map(candidate).filter(between).collect();
        if !candidates.is_empty() {
            return Some(candidates[gap.draw as usize % candidates.len()].clone());
        }
    }
    None
}

fn close_neighbours(trial: &mut Trial) -> Held<String> {
    let (tries, mut none) = (50_000 * trial.long, 0);
    for _ in 0..tries {
        let gap = some_gap(trial);
        none += usize::from(insert_into(trial, &gap)?.is_none());
    }
    Ok(format!("{tries} pairs of neighbours, {none} without a place"))
}

fn each_value(trial: &mut Trial) -> Held<String> {
    let (tries, mut none) = (200 * trial.long, 0);
    for _ in 0..tries {
        let gap = some_gap(trial);
        let made = insert_into(trial, &gap)?;
        let what =
            format!("site {} between {:?} and {:?}, draw {}", gap.site, gap.below, gap.above, gap.draw);
        none += usize::from(made.is_none());
        expect(&what, made, by_the_rule(&gap))?;
    }
    Ok(format!("{tries} pairs of neighbours, {none} without a place"))
}
