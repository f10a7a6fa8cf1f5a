//! The proved listing program, run as a process, against the second program's listing, and where the output is
//! known beforehand against that too.

use crate::layout::{Edit, Patch, Place, SITES, TEXT};
use crate::pair::{hex, Held};
use crate::play::{Plan, Play, USUAL};
use crate::trial::{expect, Check, Trial};
use std::io::Write;
use std::panic::catch_unwind;
use std::path::Path;
use std::process::{Command, Stdio};

pub const CHECKS: &[Check] = &[
    Check { name: "listing: no input", run: empty },
    Check { name: "listing: 65,536 and 65,537 bytes of zeros", run: zeros },
    Check { name: "listing: 65,536 and 65,537 bytes of patches", run: longest },
    Check { name: "listing: input cut at each length", run: cut },
    Check { name: "listing: line feeds and other bytes in texts", run: other_bytes },
    Check { name: "listing: each answer", run: each_answer },
    Check { name: "listing: 512 rows and one more", run: full },
    Check { name: "listing: rows of 8 identifiers and 48 bytes", run: widest },
    Check { name: "listing: patches of plays in any order", run: from_plays },
    Check { name: "listing: damaged input", run: damaged },
];

const LONGEST: usize = 65_536;

/// Runs the proved program. It may stop before it has read all, so the input goes in from a thread and a
/// closed pipe is no error.
fn proved_listing(input: &[u8]) -> Held<Vec<u8>> {
    let path = Path::new(env!("CARGO_MANIFEST_DIR")).join("../../target/bin/listing");
    let failed = |error| format!("the listing program at {} does not run: {error}", path.display());
    let mut process =
        Command::new(&path).stdin(Stdio::piped()).stdout(Stdio::piped()).spawn().map_err(failed)?;
    let mut pipe = process.stdin.take().expect("the pipe was asked for");
    let bytes = input.to_vec();
    let writer = std::thread::spawn(move || pipe.write_all(&bytes).is_ok());
    let output = process.wait_with_output().map_err(failed)?;
    writer.join().map_err(|_| "the writer of the input panicked".to_string())?;
    expect("exit status of the listing program", output.status.code(), Some(0))?;
    Ok(output.stdout)
}

/// Both listings of an input, which must be the same.
fn listing(input: &[u8]) -> Held<Vec<u8>> {
    let proved = proved_listing(input)?;
    let second = catch_unwind(|| second::listing(input))
        .map_err(|_| format!("the second program panicked\n    listing of {}", hex(input)))?;
    same_output("the second program", input, &proved, &second)?;
    Ok(proved)
}

fn same_output(of: &str, input: &[u8], proved: &[u8], other: &[u8]) -> Held<()> {
    if proved == other {
        return Ok(());
    }
    let at = proved.iter().zip(other).take_while(|(left, right)| left == right).count();
    Err(format!(
        "byte {at} of the output differs\n    listing of {}\n    library: {}\n    {of}: {}",
        hex(input),
        String::from_utf8_lossy(proved),
        String::from_utf8_lossy(other)
    ))
}

/// Both listings of an input are this output.
pub fn expect_listing(input: &[u8], output: &[u8]) -> Held<()> {
    same_output("known", input, &listing(input)?, output)
}

/// A first insert of an author: the shortest patch there is, with a text.
fn first_insert(author: u8, integer: u16, text: &[u8]) -> Patch {
    let edit = Edit::Insert(text.to_vec());
    Patch { author, number: 1, before: Vec::new(), place: vec![(integer, author)], edit }
}

/// The insert of an author with this number, who has heard of no other.
fn later_insert(author: u8, number: u32, place: Place, text: &[u8]) -> Patch {
    let before = if number == 1 { Vec::new() } else { vec![(author, number - 1)] };
    Patch { author, number, before, place, edit: Edit::Insert(text.to_vec()) }
}

/// What the listing says of patches with these answers, the inserts of these rows being taken.
fn known_output(answers: &[u32], rows: &[Patch]) -> Vec<u8> {
    let mut output = Vec::new();
    for (at, answer) in (1..).zip(answers) {
        output.extend(format!("{at} {answer}\n").bytes());
    }
    output.extend(format!("rows {}\n", rows.len()).bytes());
    for (at, patch) in (1..).zip(rows) {
        let place: Vec<String> = patch.place.iter().map(|part| format!("{}.{}", part.0, part.1)).collect();
        output.extend(format!("{at} {} {} ", place.join(","), patch.number).bytes());
        if let Edit::Insert(text) = &patch.edit {
            output.extend(text);
        }
        output.push(b'\n');
    }
    output
}

fn joined(patches: &[Patch]) -> Vec<u8> {
    patches.iter().flat_map(Patch::bytes).collect()
}

fn empty(_: &mut Trial) -> Held<String> {
    expect_listing(b"", b"rows 0\n")?;
    Ok("1 input".to_string())
}

fn zeros(_: &mut Trial) -> Held<String> {
    expect_listing(&[0; LONGEST], b"1 2\nrows 0\n")?;
    expect_listing(&[0; LONGEST + 1], b"too long\n")?;
    expect_listing(&[0; 3 * LONGEST], b"too long\n")?;
    Ok("3 inputs".to_string())
}

/// Well-formed patches that fill the longest input to its last byte; then one byte less, and one more. The
/// table is full after 512 of them: the next is answered 7, and those after it are early.
fn longest(trial: &mut Trial) -> Held<String> {
    let mut patches = Vec::new();
    let (mut number, mut left) = (0, LONGEST);
    // What is left goes to the first inserts of three other sites, of 12 bytes and a text each.
    while left > 3 * 12 + 2 * TEXT {
        number += 1;
        let patch = later_insert(3, number, vec![(number as u16, 3)], &trial.dice.bytes(TEXT / 2));
        left -= patch.bytes().len();
        patches.push(patch);
    }
    left -= 3 * 12;
    for site in [1, 2, 4] {
        let length = left.min(TEXT);
        left -= length;
        patches.push(first_insert(site, 1, &trial.dice.bytes(length)));
    }
    let mut input = joined(&patches);
    let mut answers = [vec![0; 512], vec![7], vec![5; patches.len() - 516], vec![7; 3]].concat();
    expect("length of the input", input.len(), LONGEST)?;
    expect_listing(&input, &known_output(&answers, &patches[..512]))?;
    answers[patches.len() - 1] = 2;
    expect_listing(&input[..LONGEST - 1], &known_output(&answers, &patches[..512]))?;
    input.push(1);
    expect_listing(&input, b"too long\n")?;
    Ok(format!("3 inputs, {} patches", patches.len()))
}

fn cut(_: &mut Trial) -> Held<String> {
    let strike =
        Patch { author: 4, number: 1, before: vec![(2, 1)], place: vec![(6, 2)], edit: Edit::Delete(1) };
    let input = joined(&[first_insert(2, 6, b"go"), strike, first_insert(7, 2, b"")]);
    for length in 0..=input.len() {
        listing(&input[..length])?;
    }
    Ok(format!("{} inputs", input.len() + 1))
}

fn other_bytes(_: &mut Trial) -> Held<String> {
    let texts: [&[u8]; 6] = [b"a\nb", b"\n", b"", b"\0\r\t ", b"\xff\xfe\x80", b" two  spaces "];
    let patches: Vec<Patch> = (1..).zip(texts).map(|(site, text)| first_insert(site, 9, text)).collect();
    expect_listing(&joined(&patches), &known_output(&[0; 6], &patches))?;
    Ok("6 texts".to_string())
}

/// Site 16 is the listing's own, so its patches are answered 3. A line struck twice is answered 15.
fn each_answer(_: &mut Trial) -> Held<String> {
    let line = first_insert(1, 5, b"line");
    let strike = |author| Patch {
        author,
        number: 1,
        before: vec![(1, 1)],
        place: vec![(5, 1)],
        edit: Edit::Delete(1),
    };
    let same_place = later_insert(1, 2, vec![(5, 1)], b"again");
    let patches =
        [first_insert(16, 1, b"own"), strike(2), line.clone(), same_place, line, strike(2), strike(3)];
    let mut input = joined(&patches);
    input.extend([1, 2, 3]);
    input.extend(first_insert(9, 1, b"never reached").bytes());
    expect_listing(&input, b"1 3\n2 5\n3 0\n4 6\n5 4\n6 0\n7 15\n8 2\nrows 0\n")?;
    Ok("1 input".to_string())
}

fn full(_: &mut Trial) -> Held<String> {
    let numbered = |number: u32| later_insert(7, number, vec![(number as u16, 7)], b"row");
    let mut patches: Vec<Patch> = (1..=512).map(numbered).collect();
    let mut answers = vec![0; 512];
    expect_listing(&joined(&patches), &known_output(&answers, &patches))?;
    patches.push(numbered(513));
    answers.push(7);
    expect_listing(&joined(&patches), &known_output(&answers, &patches[..512]))?;
    Ok("2 inputs".to_string())
}

fn widest(trial: &mut Trial) -> Held<String> {
    let place = |last: u16| {
        let mut place = vec![(65_534, 16), (65_535, 16), (65_535, 15), (0, 0), (0, 0), (1, 1), (256, 10)];
        place.push((last, 12));
        place
    };
    let text = trial.dice.bytes(TEXT);
    let patches: Vec<Patch> =
        (1..=480).map(|number| later_insert(12, number, place(65_000 + number as u16), &text)).collect();
    expect_listing(&joined(&patches), &known_output(&[0; 480], &patches))?;
    Ok("480 rows".to_string())
}

/// The patches of a play, some of them twice, in an order from none changed to all.
fn some_input(trial: &mut Trial) -> Held<Vec<u8>> {
    let steps = *trial.dice.pick(&[20, 60, 150, 400]);
    let mut play = Play::new(trial, Plan { replicas: (1, SITES), steps, edits: 45, ..USUAL })?;
    play.run()?;
    let (_, mut patches) = play.harvest();
    for _ in 0..trial.dice.below(10) {
        if !patches.is_empty() {
            let again = trial.dice.pick(&patches).clone();
            patches.push(again);
        }
    }
    let moved = trial.dice.below(patches.len() + 1);
    trial.dice.shuffle(&mut patches[..moved]);
    Ok(patches.concat())
}

fn from_plays(trial: &mut Trial) -> Held<String> {
    let inputs = 120 * trial.long;
    for _ in 0..inputs {
        listing(&some_input(trial)?)?;
    }
    Ok(format!("{inputs} inputs"))
}

fn damaged(trial: &mut Trial) -> Held<String> {
    let inputs = 160 * trial.long;
    for _ in 0..inputs {
        let mut input = some_input(trial)?;
        for _ in 0..trial.dice.between(1, 3) {
            if !input.is_empty() {
                let at = trial.dice.below(input.len());
                input[at] = trial.dice.byte();
            }
        }
        let noise = trial.dice.below(40);
        input.extend(trial.dice.bytes(noise));
        listing(&input)?;
    }
    Ok(format!("{inputs} inputs"))
}
