//! Seeded random plays of 1 to 16 replicas over a network that loses, repeats and reorders patches. Operators
//! insert and strike, and hosts send again what another lacks by `compare`. Both programs make every call.
//!
//! What 01 promises for such plays is checked on the data itself. The play keeps its own books: which patches
//! each replica answered 0 or 15, own edits included, and what they say by this test's own reader. From these
//! follow the rows, the counts and every answer, without a look at how the programs come by them.

use crate::layout::{before_of, Counts, Edit, Patch, Place, Row, State, COMPARED, ROWS, SITES, TEXT};
use crate::pair::Held;
use crate::trial::{demand, expect, Check, Trial};
use std::collections::{BTreeMap, BTreeSet};

pub const CHECKS: &[Check] = &[
    Check { name: "play: one replica alone", run: alone },
    Check { name: "play: two to four replicas", run: few },
    Check { name: "play: five to sixteen replicas", run: many },
    Check { name: "play: most patches lost", run: lossy },
    Check { name: "play: many strikes, places used again", run: striking },
    Check { name: "play: free draws until no place is left", run: free_draws },
    Check { name: "play: inserts at one spot", run: crowded },
    Check { name: "play: tables filled", run: filling },
];

/// How a play goes: from so many to so many replicas, so many steps, small draws below a limit. The rest are
/// parts of 100: edits among steps, strikes among edits, patches lost, patches repeated, draws that are not
/// small but over all 32 bits, inserts at the foot.
#[derive(Clone)]
pub struct Plan {
    pub replicas: (usize, usize),
    pub steps: usize,
    pub small: usize,
    pub edits: usize,
    pub strikes: usize,
    pub lost: usize,
    pub repeated: usize,
    pub free: usize,
    pub foot: usize,
}

pub const USUAL: Plan = Plan {
    replicas: (2, 4),
    steps: 240,
    small: 64,
    edits: 30,
    strikes: 25,
    lost: 10,
    repeated: 10,
    free: 20,
    foot: 70,
};

/// Names a patch: its author and its number.
type Name = (u8, u32);

/// Names a line: its position and the number of the patch that inserted it.
type Line = (Place, u32);

struct Replica {
    state: State,
    received: BTreeSet<Name>,
    inbox: Vec<Name>,
}

struct Sent {
    bytes: Vec<u8>,
    patch: Patch,
}

pub struct Play<'a> {
    trial: &'a mut Trial,
    plan: Plan,
    replicas: Vec<Replica>,
    sent: BTreeMap<Name, Sent>,
    /// The patches in the order in which they were made: an order in which none is early.
    made: Vec<Name>,
    /// Strikes answered 15 while another line stood at the place of the line struck.
    beside: usize,
}

/// A draw as a host makes it: small for a script that is mostly appended to, or free over all 32 bits.
fn draw(trial: &mut Trial, plan: &Plan) -> u32 {
    if trial.dice.percent(plan.free) {
        trial.dice.word()
    } else {
        trial.dice.below(plan.small) as u32
    }
}

/// A text of any length, often one of the ends.
fn text(trial: &mut Trial) -> Vec<u8> {
    let lengths = [0, 1, TEXT, trial.dice.below(TEXT + 1), trial.dice.below(TEXT + 1)];
    let length = *trial.dice.pick(&lengths);
    trial.dice.bytes(length)
}

impl<'a> Play<'a> {
    pub fn new(trial: &'a mut Trial, plan: Plan) -> Held<Play<'a>> {
        let mut sites: Vec<u8> = (1..=SITES as u8).collect();
        trial.dice.shuffle(&mut sites);
        let number = trial.dice.between(plan.replicas.0, plan.replicas.1);
        let mut replicas = Vec::new();
        for site in &sites[..number] {
            let state = trial.started(*site)?;
            replicas.push(Replica { state, received: BTreeSet::new(), inbox: Vec::new() });
        }
        Ok(Play { trial, plan, replicas, sent: BTreeMap::new(), made: Vec::new(), beside: 0 })
    }

    pub fn run(&mut self) -> Held<()> {
        for _ in 0..self.plan.steps {
            self.step()?;
        }
        self.check_all()
    }

    fn some_replica(&mut self) -> usize {
        self.trial.dice.below(self.replicas.len())
    }

    fn step(&mut self) -> Held<()> {
        let replica = self.some_replica();
        let dice = self.trial.dice.below(100);
        if dice < self.plan.edits {
            self.edit(replica)
        } else if dice < 88 {
            self.deliver(replica)
        } else if dice < 94 {
            self.send_again(replica)
        } else if dice < 98 {
            self.look(replica)
        } else if dice < 99 {
            self.check_progress(replica)
        } else {
            self.check_replica(replica)
        }
    }

    /// An operator inserts or strikes. A full table is told by answer 7, a crowded spot by 12.
    fn edit(&mut self, replica: usize) -> Held<()> {
        let mut state = self.replicas[replica].state.clone();
        let rows = state.rows_in_use();
        let (answer, bytes) = if rows > 0 && self.trial.dice.percent(self.plan.strikes) {
            let row = self.trial.dice.below(rows);
            self.trial.delete(&mut state, row)?
        } else {
            let at_foot = self.trial.dice.percent(self.plan.foot);
            let row = if at_foot { rows } else { self.trial.dice.below(rows + 1) };
            let (text, draw) = (text(self.trial), draw(self.trial, &self.plan));
            self.trial.insert(&mut state, row, &text, draw)?
        };
        match answer {
            0 => self.made_patch(replica, state, bytes),
            7 => expect("rows in use where an own insert is refused with 7", rows, ROWS),
            12 => Ok(()),
            _ => Err(format!("answer {answer} to an own edit in honest play")),
        }
    }

    /// Takes down an own edit and sends it to the others.
    fn made_patch(&mut self, replica: usize, state: State, bytes: Vec<u8>) -> Held<()> {
        let patch = Patch::read(&bytes);
        let before = std::mem::replace(&mut self.replicas[replica].state, state);
        expect("author of an own edit", patch.author, before.site())?;
        expect("number of an own edit", patch.number, before.count_of(before.site()) + 1)?;
        expect("Before of an own edit", &patch.before, &before_of(&before.counts()))?;
        self.same_on_arrival(replica, before, &bytes)?;
        let name = (patch.author, patch.number);
        self.replicas[replica].received.insert(name);
        self.made.push(name);
        self.sent.insert(name, Sent { bytes, patch });
        for other in 0..self.replicas.len() {
            if other != replica {
                self.send(other, name);
            }
        }
        Ok(())
    }

    /// A local edit leaves what its patch does on arrival: at a host of another site with the same rows.
    fn same_on_arrival(&mut self, replica: usize, mut before: State, patch: &[u8]) -> Held<()> {
        before.record[0] = before.site() % SITES as u8 + 1;
        let mut after = self.trial.expect_receive("an own edit at another site", &before, patch, 0)?;
        after.record[0] = self.replicas[replica].state.site();
        demand(after == self.replicas[replica].state, || "an own edit differs from its arrival".to_string())
    }

    /// Puts a patch into an inbox, unless it is lost; now and then twice.
    fn send(&mut self, to: usize, name: Name) {
        if self.trial.dice.percent(self.plan.lost) {
            return;
        }
        self.replicas[to].inbox.push(name);
        if self.trial.dice.percent(self.plan.repeated) {
            self.replicas[to].inbox.push(name);
        }
    }

    /// Delivers any patch of the inbox. An early one goes back into it, unless it is lost.
    fn deliver(&mut self, replica: usize) -> Held<()> {
        let waiting = self.replicas[replica].inbox.len();
        if waiting == 0 {
            return Ok(());
        }
        // Mostly an old one, so that plays move on; now and then any, so that patches come out of order.
        let range = if self.trial.dice.percent(70) { waiting.min(3) } else { waiting };
        let at = self.trial.dice.below(range);
        let name = self.replicas[replica].inbox.remove(at);
        let answer = self.offer(replica, name)?;
        if answer == 5 || answer == 7 {
            self.send(replica, name);
        }
        Ok(())
    }

    /// Offers a patch to a replica and takes down whether it was received.
    fn offer(&mut self, replica: usize, name: Name) -> Held<u32> {
        let wanted = self.foretold(&self.replicas[replica], name);
        let (to, sent) = (&mut self.replicas[replica], &self.sent[&name]);
        let answer = self.trial.pair.receive(&mut to.state, &sent.bytes)?;
        expect("answer that follows from the books of the play", answer, wanted)?;
        if answer == 0 || answer == 15 {
            to.received.insert(name);
        }
        if answer == 15 && to.state.rows().iter().any(|row| row.place == sent.patch.place) {
            self.beside += 1;
        }
        Ok(answer)
    }

    /// The answer of receive that follows from what the replica has received. Answers 1, 2, 3 and 6 never do.
    fn foretold(&self, replica: &Replica, name: Name) -> u32 {
        let patch = &self.sent[&name].patch;
        if replica.received.contains(&name) {
            return 4;
        }
        if !patch.before.iter().all(|entry| replica.received.contains(entry)) {
            return 5;
        }
        let struck = |number| self.struck(&replica.received).contains(&(patch.place.clone(), number));
        match patch.edit {
            Edit::Insert(_) if replica.state.rows_in_use() == ROWS => 7,
            Edit::Delete(number) if struck(number) => 15,
            _ => 0,
        }
    }

    /// The lines struck by these patches.
    fn struck(&self, received: &BTreeSet<Name>) -> BTreeSet<Line> {
        let patches = received.iter().map(|name| &self.sent[name].patch);
        patches
            .filter_map(|patch| match patch.edit {
                Edit::Delete(number) => Some((patch.place.clone(), number)),
                Edit::Insert(_) => None,
            })
            .collect()
    }

    /// The lines inserted by these patches, with their texts, rising by position.
    fn inserted(&self, received: &BTreeSet<Name>) -> BTreeMap<Line, Vec<u8>> {
        let patches = received.iter().map(|name| &self.sent[name].patch);
        patches
            .filter_map(|patch| match &patch.edit {
                Edit::Insert(text) => Some(((patch.place.clone(), patch.number), text.clone())),
                Edit::Delete(_) => None,
            })
            .collect()
    }

    /// A host asks what another lacks and sends it again.
    fn send_again(&mut self, to: usize) -> Held<()> {
        let from = self.some_replica();
        let (first, second) = (&self.replicas[from].state, &self.replicas[to].state);
        let (have, lack) = (first.counts(), second.counts());
        let mut result = self.trial.dice.bytes(COMPARED);
        let answer = self.trial.pair.compare(first.counts_bytes(), second.counts_bytes(), &mut result)?;
        expect("answer of compare", answer, 0)?;
        expect("result of compare", &result, &compared(&have, &lack))?;
        for site in 0..SITES {
            for number in lack[site] + 1..=have[site] {
                self.send(to, (site as u8 + 1, number));
            }
        }
        Ok(())
    }

    /// Reads the text of every row, and finds no row behind the last.
    fn look(&mut self, replica: usize) -> Held<()> {
        let state = &self.replicas[replica].state;
        let rows = state.rows();
        for (at, row) in rows.iter().enumerate() {
            let (answer, part) = self.trial.pair.row_text(state, at)?;
            expect("answer of row_text", answer, 0)?;
            expect("text of a row", &state.table[part], &row.text)?;
        }
        let (answer, _) = self.trial.pair.row_text(state, rows.len())?;
        expect("answer of row_text behind the last row", answer, 8)
    }

    /// Condition 3 and the tally, on the data of one replica.
    fn check_replica(&mut self, replica: usize) -> Held<()> {
        let Replica { state, received, .. } = &self.replicas[replica];
        let (inserted, struck) = (self.inserted(received), self.struck(received));
        let rows: Vec<Row> = inserted
            .iter()
            .filter(|(line, _)| !struck.contains(line))
            .map(|((place, number), text)| Row { place: place.clone(), number: *number, text: text.clone() })
            .collect();
        demand(rows.windows(2).all(|two| two[0].place < two[1].place), || {
            "two lines at one place".to_string()
        })?;
        let counts = counts_of(received)?;
        let wanted = State::of(state.site(), &counts, &rows);
        expect("counts against the patches received", state.counts(), counts)?;
        expect("rows against the patches received", &state.rows(), &rows)?;
        demand(*state == wanted, || "record or table hold more than their values".to_string())?;
        expect("rows held and different lines struck", state.rows_in_use() + struck.len(), inserted.len())
    }

    /// A replica that lacks what another holds takes at least one patch, if offered all of them once in any
    /// order, unless it answers 7. The offers are made to a copy.
    fn check_progress(&mut self, replica: usize) -> Held<()> {
        let holder = self.some_replica();
        let lacking = &self.replicas[holder].received - &self.replicas[replica].received;
        let mut lacking: Vec<Name> = lacking.into_iter().collect();
        self.trial.dice.shuffle(&mut lacking);
        let mut copy = self.replicas[replica].state.clone();
        let mut answers = BTreeSet::new();
        for name in &lacking {
            answers.insert(self.trial.pair.receive(&mut copy, &self.sent[name].bytes)?);
        }
        let goes_on = lacking.is_empty() || [0, 7, 15].iter().any(|answer| answers.contains(answer));
        demand(goes_on, || format!("nothing of {} patches was taken, answers {answers:?}", lacking.len()))
    }

    /// All replicas; and those that have received the same hold the same bytes.
    fn check_all(&mut self) -> Held<()> {
        let mut tables: BTreeMap<Counts, Vec<u8>> = BTreeMap::new();
        for replica in 0..self.replicas.len() {
            self.check_replica(replica)?;
            self.check_progress(replica)?;
            let state = &self.replicas[replica].state;
            let table = tables.entry(state.counts()).or_insert_with(|| state.table.clone());
            demand(*table == state.table, || "equal counts and different tables".to_string())?;
        }
        Ok(())
    }

    /// Delivers every patch everywhere, first once in any order, then in the order of making. Gives how many
    /// replicas answered 7 at the end; all others hold the same.
    pub fn finish(&mut self) -> Held<usize> {
        let mut shuffled = self.made.clone();
        self.trial.dice.shuffle(&mut shuffled);
        let mut full = 0;
        for replica in 0..self.replicas.len() {
            for name in &shuffled {
                self.offer(replica, *name)?;
            }
            let mut answers = BTreeSet::new();
            for name in self.made.clone() {
                answers.insert(self.offer(replica, name)?);
            }
            if answers.contains(&7) {
                full += 1;
            } else {
                expect(
                    "patches received at the end",
                    self.replicas[replica].received.len(),
                    self.made.len(),
                )?;
            }
        }
        self.check_all()?;
        Ok(full)
    }

    /// What other parts damage: the state of some replica, and the patches of the play.
    pub fn harvest(mut self) -> (State, Vec<Vec<u8>>) {
        let replica = self.some_replica();
        let patches = self.made.iter().map(|name| self.sent[name].bytes.clone()).collect();
        (self.replicas[replica].state.clone(), patches)
    }
}

/// The counts that these patches make, if those of each author are 1 to their number.
fn counts_of(received: &BTreeSet<Name>) -> Held<Counts> {
    let mut counts = [0; SITES];
    for (author, number) in received {
        let count = &mut counts[usize::from(*author) - 1];
        *count += 1;
        expect("numbers received of an author", *number, *count)?;
    }
    Ok(counts)
}

/// What 01 says that `compare` gives for two sets of counts.
pub fn compared(first: &Counts, second: &Counts) -> Vec<u8> {
    let mut result = Vec::new();
    for (left, right) in first.iter().zip(second) {
        let (low, high) = (left.min(right), left.max(right));
        let side = if left == right {
            0
        } else if left > right {
            1
        } else {
            2
        };
        let (first, last) = if side == 0 { (0, 0) } else { (low + 1, *high) };
        result.push(side);
        result.extend(first.to_be_bytes());
        result.extend(last.to_be_bytes());
    }
    result
}

/// What plays have held.
#[derive(Default)]
struct Sum {
    plays: usize,
    replicas: usize,
    patches: usize,
    full: usize,
    beside: usize,
}

impl Sum {
    fn words(&self) -> String {
        let Sum { plays, replicas, patches, full, beside } = self;
        format!(
            "{plays} plays, {replicas} replicas, {patches} patches, {full} full, {beside} late beside a line"
        )
    }
}

/// So many plays by a plan, all delivered at the end.
fn plays(trial: &mut Trial, number: usize, plan: &Plan) -> Held<Sum> {
    let mut sum = Sum { plays: number * trial.long, ..Sum::default() };
    for _ in 0..sum.plays {
        let mut play = Play::new(trial, plan.clone())?;
        play.run()?;
        sum.full += play.finish()?;
        sum.replicas += play.replicas.len();
        sum.patches += play.made.len();
        sum.beside += play.beside;
    }
    Ok(sum)
}

/// Plays in which no table is full at the end.
fn with_room(trial: &mut Trial, number: usize, plan: &Plan) -> Held<String> {
    let sum = plays(trial, number, plan)?;
    expect("full tables at the end", sum.full, 0)?;
    Ok(sum.words())
}

fn alone(trial: &mut Trial) -> Held<String> {
    with_room(trial, 100, &Plan { replicas: (1, 1), edits: 60, ..USUAL })
}

fn few(trial: &mut Trial) -> Held<String> {
    with_room(trial, 240, &USUAL)
}

fn many(trial: &mut Trial) -> Held<String> {
    with_room(trial, 60, &Plan { replicas: (5, 16), steps: 500, edits: 15, ..USUAL })
}

fn lossy(trial: &mut Trial) -> Held<String> {
    with_room(trial, 120, &Plan { replicas: (2, 6), lost: 70, repeated: 40, ..USUAL })
}

/// With draws of 0 and 1 a new line often takes the place of one struck, before all strikes of that have come.
fn striking(trial: &mut Trial) -> Held<String> {
    let plan = Plan { replicas: (2, 5), small: 2, strikes: 45, lost: 25, free: 0, ..USUAL };
    let sum = plays(trial, 160, &plan)?;
    demand(sum.beside > 0, || "no late strike found another line at its place".to_string())?;
    Ok(sum.words())
}

fn free_draws(trial: &mut Trial) -> Held<String> {
    with_room(trial, 20, &Plan { replicas: (1, 3), steps: 700, strikes: 2, free: 100, foot: 98, ..USUAL })
}

fn crowded(trial: &mut Trial) -> Held<String> {
    with_room(trial, 80, &Plan { replicas: (2, 8), foot: 0, free: 50, strikes: 40, ..USUAL })
}

fn filling(trial: &mut Trial) -> Held<String> {
    let plan = Plan { replicas: (2, 4), steps: 1700, edits: 55, strikes: 6, free: 0, foot: 90, ..USUAL };
    let sum = plays(trial, 8, &plan)?;
    demand(sum.full > 0, || "no table stayed full".to_string())?;
    Ok(sum.words())
}
