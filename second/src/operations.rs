//! Section "Answer numbers", from "Orders of checks" on: the operations on a
//! decoded replica. Soundness (1), the patch's form (2) and the buffer (10) are
//! checked where the bytes are, in `interface`.

use crate::answer::{Done, Refusal};
use crate::limits::{is_site, LARGEST_NUMBER, ROWS, TEXT};
use crate::patch::{Edit, Patch};
use crate::place::new_place;
use crate::position::Position;
use crate::table::{Counts, Line, Replica};

impl Replica {
    /// A fresh replica: no rows, all counts zero.
    pub fn start(site: u32) -> Result<Replica, Refusal> {
        let site = u8::try_from(site).ok().filter(|&site| is_site(site));
        Ok(Replica {
            site: site.ok_or(Refusal::NoSite)?,
            counts: Counts::new(),
            lines: Vec::new(),
        })
    }

    /// Receives a patch. Checks 3, 4, 5, 6, 7.
    pub fn receive(&mut self, patch: &Patch) -> Result<Done, Refusal> {
        let received = self.counts.of(patch.author);
        if patch.author == self.site && patch.number > received {
            return Err(Refusal::OwnUnknown);
        }
        if patch.number <= received {
            return Err(Refusal::Already);
        }
        let mut before = patch.before.iter();
        if before.any(|(&site, &count)| count > self.counts.of(site)) {
            return Err(Refusal::Early);
        }
        if let Edit::Insert(_) = patch.edit {
            if self.find(&patch.place).is_ok() {
                return Err(Refusal::PositionTaken);
            }
            if self.lines.len() >= ROWS {
                return Err(Refusal::Full);
            }
        }
        Ok(self.apply(patch))
    }

    /// Inserts before a row, or after the last one. Checks 8, 9, 7, 11, 12, 13.
    /// Gives the patch, already applied.
    pub fn insert(&mut self, row: usize, text: &[u8], draw: u32) -> Result<Patch, Refusal> {
        if row > self.lines.len() {
            return Err(Refusal::NoRow);
        }
        if text.len() > TEXT {
            return Err(Refusal::LongText);
        }
        if self.lines.len() >= ROWS {
            return Err(Refusal::Full);
        }
        let number = self.next_number()?;
        let (p, q) = self.neighbours(row);
        let place = new_place(&p, &q, self.site, draw).ok_or(Refusal::NoPlace)?;
        // Reading of the document: this never happens in a sound table, as the
        // place lies strictly between two rows that follow each other. The
        // check is listed, so it stands.
        if self.find(&place).is_ok() {
            return Err(Refusal::PlaceTaken);
        }
        Ok(self.edit(number, place, Edit::Insert(text.to_vec())))
    }

    /// Deletes a row. Checks 8, 11. Gives the patch, already applied.
    pub fn delete(&mut self, row: usize) -> Result<Patch, Refusal> {
        let line = self.lines.get(row).ok_or(Refusal::NoRow)?;
        let (place, struck) = (line.position.clone(), line.number);
        let number = self.next_number()?;
        Ok(self.edit(number, place, Edit::Delete(struck)))
    }

    fn next_number(&self) -> Result<u32, Refusal> {
        let count = self.counts.of(self.site);
        if count >= LARGEST_NUMBER {
            return Err(Refusal::NumbersUsedUp);
        }
        Ok(count + 1)
    }

    /// The positions between which a line before this row comes to stand.
    fn neighbours(&self, row: usize) -> (Position, Position) {
        let position_of = |row: usize| self.lines.get(row).map(|line| line.position.clone());
        let p = row.checked_sub(1).and_then(position_of);
        let q = position_of(row);
        (
            p.unwrap_or_else(Position::begin),
            q.unwrap_or_else(Position::end),
        )
    }

    /// A local edit leaves what its patch would do on arrival.
    fn edit(&mut self, number: u32, place: Position, edit: Edit) -> Patch {
        let patch = Patch {
            author: self.site,
            number,
            before: self.counts.not_zero(),
            place,
            edit,
        };
        self.apply(&patch);
        patch
    }

    /// The row of a position, or the row before which it would stand.
    fn find(&self, position: &Position) -> Result<usize, usize> {
        self.lines
            .binary_search_by(|line| line.position.cmp(position))
    }

    /// The effect of an accepted patch. Every one is counted, also a delete
    /// whose line had gone: otherwise the author's next patch is early for ever.
    fn apply(&mut self, patch: &Patch) -> Done {
        self.counts.rise(patch.author);
        match &patch.edit {
            Edit::Insert(text) => {
                if let Err(row) = self.find(&patch.place) {
                    let line = Line {
                        position: patch.place.clone(),
                        number: patch.number,
                        text: text.clone(),
                    };
                    self.lines.insert(row, line);
                }
                Done::Done
            }
            Edit::Delete(number) => self.strike(&patch.place, *number),
        }
    }

    /// Takes out the row with this position and this number, or none.
    fn strike(&mut self, position: &Position, number: u32) -> Done {
        let found = self.find(position).ok();
        let is_struck = |row: &usize| {
            let line = self.lines.get(*row);
            line.map_or(false, |line| line.number == number)
        };
        match found.filter(is_struck) {
            Some(row) => {
                self.lines.remove(row);
                Done::Done
            }
            None => Done::GoneBefore,
        }
    }
}
