//! Section "The record and the table".

use crate::bytes::{push_count, push_position, put_front, used_part, Reader};
use crate::limits::{
    is_number, is_site, LARGEST_NUMBER, RECORD_BYTES, ROWS, ROW_BYTES, TABLE_BYTES, TEXT,
};
use crate::position::{Identifier, Position};
use std::collections::BTreeMap;

/// For each of the 16 sites: patches 1 to its count have been received.
#[derive(Clone, Debug, PartialEq, Eq)]
pub struct Counts([u32; 16]);

impl Counts {
    /// All zero.
    pub fn new() -> Counts {
        Counts([0; 16])
    }

    /// Reads sixteen counts; `None` if one is above 1,000,000.
    pub(crate) fn read(reader: &mut Reader) -> Option<Counts> {
        let mut counts = Counts::new();
        for count in counts.0.iter_mut() {
            *count = reader.long()?;
        }
        let in_range = counts.0.iter().all(|&count| count <= LARGEST_NUMBER);
        in_range.then_some(counts)
    }

    /// The count of a site (0 for what is no site).
    pub fn of(&self, site: u8) -> u32 {
        let index = usize::from(site).checked_sub(1);
        let count = index.and_then(|index| self.0.get(index));
        count.copied().unwrap_or(0)
    }

    /// The counts of sites 1 to 16, in order.
    pub fn iter(&self) -> impl Iterator<Item = u32> + '_ {
        self.0.iter().copied()
    }

    /// The counts that are not zero, by site: what a patch carries as Before.
    pub fn not_zero(&self) -> BTreeMap<u8, u32> {
        let by_site = (1..).zip(self.iter());
        by_site.filter(|&(_, count)| count != 0).collect()
    }

    /// The author's count rises by 1.
    pub(crate) fn rise(&mut self, site: u8) {
        let index = usize::from(site).checked_sub(1);
        if let Some(count) = index.and_then(|index| self.0.get_mut(index)) {
            *count = count.saturating_add(1);
        }
    }
}

impl Default for Counts {
    fn default() -> Self {
        Counts::new()
    }
}

/// A line; position and number are its identity.
#[derive(Clone, Debug, PartialEq, Eq)]
pub struct Line {
    /// Where it stands.
    pub position: Position,
    /// The number of the patch that inserted it.
    pub number: u32,
    /// 0 to 48 bytes.
    pub text: Vec<u8>,
}

/// One replica: what the record and the table hold.
#[derive(Clone, Debug, PartialEq, Eq)]
pub struct Replica {
    /// The own site.
    pub site: u8,
    /// What has been received, own edits included.
    pub counts: Counts,
    /// The rows in use, rising by position.
    pub lines: Vec<Line>,
}

impl Replica {
    /// Decodes record and table; `None` if they are not sound or have a wrong
    /// length.
    pub fn decode(record: &[u8], table: &[u8]) -> Option<Replica> {
        if record.len() != RECORD_BYTES || table.len() != TABLE_BYTES {
            return None;
        }
        let mut reader = Reader::new(record);
        let site = reader.byte()?;
        let rows = usize::from(reader.short()?);
        let counts = Counts::read(&mut reader)?;
        if !is_site(site) || rows > ROWS {
            return None;
        }
        let mut lines = Vec::with_capacity(rows + 1);
        for row in used_part(table, rows * ROW_BYTES)?.chunks_exact(ROW_BYTES) {
            lines.push(read_row(row)?);
        }
        let replica = Replica {
            site,
            counts,
            lines,
        };
        replica.lines_are_sound().then_some(replica)
    }

    /// Rows rise strictly by position, and each line's number is at most the
    /// count of its author, the last site in its position.
    fn lines_are_sound(&self) -> bool {
        let rises = |pair: &[Line]| match pair {
            [lower, upper] => lower.position < upper.position,
            _ => true,
        };
        let is_counted = |line: &Line| line.number <= self.counts.of(line.position.author());
        self.lines.windows(2).all(rises) && self.lines.iter().all(is_counted)
    }

    /// Encodes into a record and a table of the right lengths.
    pub fn encode(&self, record: &mut [u8], table: &mut [u8]) {
        let rows = u16::try_from(self.lines.len()).unwrap_or(u16::MAX);
        let mut bytes = vec![self.site];
        bytes.extend_from_slice(&rows.to_be_bytes());
        for count in self.counts.iter() {
            bytes.extend_from_slice(&count.to_be_bytes());
        }
        put_front(record, &bytes);

        let mut bytes = Vec::with_capacity(TABLE_BYTES);
        for line in &self.lines {
            push_row(&mut bytes, line);
        }
        bytes.resize(TABLE_BYTES, 0);
        put_front(table, &bytes);
    }
}

/// A row: identifiers used (1), eight identifiers (3 each), number (4), text
/// length (1), text (48). What is unused is zero.
fn read_row(row: &[u8]) -> Option<Line> {
    let mut reader = Reader::new(row);
    let used = usize::from(reader.byte()?);
    let identifiers = used_part(reader.take(Position::LIMIT * 3)?, used * 3)?;
    let number = reader.long()?;
    let length = usize::from(reader.byte()?);
    let text = used_part(reader.take(TEXT)?, length)?;
    if !is_number(number) {
        return None;
    }
    Some(Line {
        position: Reader::new(identifiers).position(used)?,
        number,
        text: text.to_vec(),
    })
}

fn push_row(out: &mut Vec<u8>, line: &Line) {
    let row_end = out.len() + ROW_BYTES;
    let used = line.position.identifiers().len();
    push_count(out, used);
    push_position(out, &line.position);
    for _ in used..Position::LIMIT {
        let pad = Identifier::PAD;
        out.extend_from_slice(&pad.integer.to_be_bytes());
        out.push(pad.site);
    }
    out.extend_from_slice(&line.number.to_be_bytes());
    push_count(out, line.text.len());
    out.extend_from_slice(&line.text);
    out.resize(row_end, 0);
}
