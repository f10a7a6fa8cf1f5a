//! Holds the proved library against the independent second program, which was written from 01 alone. Both make
//! the same calls on the same bytes, and all that they leave must be equal: answers, numbers, and every byte of
//! record, table and buffer. Run it as
//!
//! ```text
//! cargo run --release --offline -- [--long N] [--seed S]
//! ```
//!
//! `--long N` does N times as much in the random checks; `--seed S` begins elsewhere.

use compare::dice::Dice;
use compare::pair::{Held, Pair};
use compare::trial::{Check, Trial};
use compare::{arrivals, damage, examples, limits, listings, places, play};
use std::panic::{catch_unwind, AssertUnwindSafe};
use std::process::ExitCode;

/// What the run was asked for.
struct Wish {
    long: usize,
    seed: u64,
}

fn wish() -> Held<Wish> {
    let mut wish = Wish { long: 1, seed: 1 };
    let mut words = std::env::args().skip(1);
    while let Some(word) = words.next() {
        let number = words.next().and_then(|value| value.parse().ok());
        match (word.as_str(), number) {
            ("--long", Some(number)) if number > 0 => wish.long = number as usize,
            ("--seed", Some(number)) => wish.seed = number,
            _ => return Err("usage: compare [--long N] [--seed S]".to_string()),
        }
    }
    Ok(wish)
}

#[derive(Default)]
struct Score {
    passed: usize,
    failed: usize,
}

impl Score {
    fn note(&mut self, name: &str, held: Held<String>) {
        match held {
            Ok(words) => {
                self.passed += 1;
                println!("passed: {name} ({words})");
            }
            Err(words) => {
                self.failed += 1;
                println!("failed: {name}: {words}");
            }
        }
    }
}

/// Runs the checks of a part. A check that panics has failed, and the others go on.
fn run_part(name: &str, checks: &[Check], trial: &mut Trial, seed: u64, score: &mut Score) {
    let before = trial.pair.calls;
    for check in checks {
        trial.dice = Dice::new(seed, check.name);
        let held = catch_unwind(AssertUnwindSafe(|| (check.run)(trial)));
        score.note(check.name, held.unwrap_or_else(|_| Err("the check panicked".to_string())));
    }
    println!("{name}: {} checks, {} calls by each program\n", checks.len(), trial.pair.calls - before);
}

fn main() -> ExitCode {
    let wish = match wish() {
        Ok(wish) => wish,
        Err(usage) => {
            eprintln!("{usage}");
            return ExitCode::from(2);
        }
    };
    let mut score = Score::default();
    let mut trial = Trial { pair: Pair::default(), dice: Dice::new(wish.seed, ""), long: wish.long };
    let parts = [
        ("examples", examples::CHECKS),
        ("limits", limits::CHECKS),
        ("places", places::CHECKS),
        ("arrivals", arrivals::CHECKS),
        ("play", play::CHECKS),
        ("damage", damage::CHECKS),
        ("listings", listings::CHECKS),
    ];
    for (name, checks) in parts {
        run_part(name, checks, &mut trial, wish.seed, &mut score);
    }
    println!("answers seen, each with its number of calls:\n{}", trial.pair.table_of_answers());
    let seen = trial.pair.all_answers_seen().map(|_| format!("{} calls in all", trial.pair.calls));
    score.note("each answer of each operation came", seen);
    println!("{} passed, {} failed", score.passed, score.failed);
    ExitCode::from(u8::from(score.failed > 0))
}
