//! The layouts of 01 as this test writes and reads them itself, with the help of neither program. States and
//! patches are built from values here, and the bytes that the programs leave are read back into values.

pub const SITES: usize = 16;
pub const ROWS: usize = 512;
pub const NUMBERS: u32 = 1_000_000;
pub const TEXT: usize = 48;
pub const RECORD: usize = 67;
pub const ROW: usize = 78;
pub const TABLE: usize = ROWS * ROW;
pub const PATCH: usize = 161;
pub const COMPARED: usize = 144;
/// Where the rows in use and the counts stand in a record, and number and text length in a row.
pub const RECORD_ROWS: usize = 1;
pub const RECORD_COUNTS: usize = 3;
pub const ROW_NUMBER: usize = 25;
pub const ROW_TEXT: usize = 30;

/// A position: integer and site of each identifier. Rust's own order of such lists is the order of 01: at the
/// first identifiers, then at the rest, and a list that runs out first is the smaller.
pub type Place = Vec<(u16, u8)>;

pub type Counts = [u32; SITES];

#[derive(Clone, PartialEq, Eq, Debug)]
pub struct Row {
    pub place: Place,
    pub number: u32,
    pub text: Vec<u8>,
}

#[derive(Clone, PartialEq, Eq, Debug)]
pub enum Edit {
    Insert(Vec<u8>),
    Delete(u32),
}

#[derive(Clone, PartialEq, Eq, Debug)]
pub struct Patch {
    pub author: u8,
    pub number: u32,
    pub before: Vec<(u8, u32)>,
    pub place: Place,
    pub edit: Edit,
}

/// What a host keeps of its replica: the bytes of record and table.
#[derive(Clone, PartialEq, Eq)]
pub struct State {
    pub record: Vec<u8>,
    pub table: Vec<u8>,
}

pub fn row(place: &[(u16, u8)], number: u32, text: &[u8]) -> Row {
    Row { place: place.to_vec(), number, text: text.to_vec() }
}

fn word(bytes: &[u8]) -> u32 {
    bytes[..4].iter().fold(0, |sum, byte| sum << 8 | u32::from(*byte))
}

fn identifiers(bytes: &[u8], used: usize) -> Place {
    let one = |three: &[u8]| (u16::from_be_bytes([three[0], three[1]]), three[2]);
    bytes.chunks(3).take(used).map(one).collect()
}

fn place_bytes(place: &[(u16, u8)]) -> Vec<u8> {
    let one = |part: &(u16, u8)| [(part.0 >> 8) as u8, part.0 as u8, part.1];
    place.iter().flat_map(one).collect()
}

/// The 78 bytes of a row.
fn row_bytes(row: &Row) -> [u8; ROW] {
    let mut bytes = [0; ROW];
    let place = place_bytes(&row.place);
    bytes[0] = row.place.len() as u8;
    bytes[1..1 + place.len()].copy_from_slice(&place);
    bytes[ROW_NUMBER..ROW_NUMBER + 4].copy_from_slice(&row.number.to_be_bytes());
    bytes[ROW_NUMBER + 4] = row.text.len() as u8;
    bytes[ROW_TEXT..ROW_TEXT + row.text.len()].copy_from_slice(&row.text);
    bytes
}

impl State {
    /// A record and a table of these values, sound or not.
    pub fn of(site: u8, counts: &Counts, rows: &[Row]) -> State {
        let mut state = State { record: vec![0; RECORD], table: vec![0; TABLE] };
        state.record[0] = site;
        state.set_rows_in_use(rows.len() as u16);
        for (bytes, count) in state.record[RECORD_COUNTS..].chunks_mut(4).zip(counts) {
            bytes.copy_from_slice(&count.to_be_bytes());
        }
        for (bytes, row) in state.table.chunks_mut(ROW).zip(rows) {
            bytes.copy_from_slice(&row_bytes(row));
        }
        state
    }

    pub fn set_rows_in_use(&mut self, rows: u16) {
        self.record[RECORD_ROWS..RECORD_COUNTS].copy_from_slice(&rows.to_be_bytes());
    }

    pub fn site(&self) -> u8 {
        self.record[0]
    }

    pub fn rows_in_use(&self) -> usize {
        usize::from(self.record[RECORD_ROWS]) * 256 + usize::from(self.record[RECORD_ROWS + 1])
    }

    pub fn counts_bytes(&self) -> &[u8] {
        &self.record[RECORD_COUNTS..]
    }

    pub fn counts(&self) -> Counts {
        let mut counts = [0; SITES];
        for (count, bytes) in counts.iter_mut().zip(self.counts_bytes().chunks(4)) {
            *count = word(bytes);
        }
        counts
    }

    pub fn count_of(&self, site: u8) -> u32 {
        self.counts()[usize::from(site) - 1]
    }

    pub fn rows(&self) -> Vec<Row> {
        self.table.chunks(ROW).take(self.rows_in_use()).map(row_of).collect()
    }
}

/// Reads the 78 bytes of a row in use.
fn row_of(bytes: &[u8]) -> Row {
    let length = usize::from(bytes[ROW_NUMBER + 4]);
    Row {
        place: identifiers(&bytes[1..ROW_NUMBER], usize::from(bytes[0])),
        number: word(&bytes[ROW_NUMBER..]),
        text: bytes[ROW_TEXT..ROW_TEXT + length].to_vec(),
    }
}

/// What an author with these counts writes as Before.
pub fn before_of(counts: &Counts) -> Vec<(u8, u32)> {
    (1u8..).zip(*counts).filter(|entry| entry.1 > 0).collect()
}

impl Patch {
    /// The next patch of an author who has received what the state has: it is well-formed if its place is.
    pub fn next(state: &State, author: u8, place: &[(u16, u8)], edit: Edit) -> Patch {
        let counts = state.counts();
        let number = state.count_of(author) + 1;
        Patch { author, number, before: before_of(&counts), place: place.to_vec(), edit }
    }

    /// The same for the strike of a row.
    pub fn strike(state: &State, author: u8, struck: &Row) -> Patch {
        Patch::next(state, author, &struck.place, Edit::Delete(struck.number))
    }

    pub fn bytes(&self) -> Vec<u8> {
        let (kind, line) = match &self.edit {
            Edit::Insert(text) => (1, text.clone()),
            Edit::Delete(number) => (2, number.to_be_bytes().to_vec()),
        };
        let mut bytes = vec![kind, self.author];
        bytes.extend(self.number.to_be_bytes());
        bytes.push(self.before.len() as u8);
        for (site, count) in &self.before {
            bytes.push(*site);
            bytes.extend(count.to_be_bytes());
        }
        bytes.push(self.place.len() as u8);
        bytes.extend(place_bytes(&self.place));
        bytes.push(line.len() as u8);
        bytes.extend(line);
        bytes
    }

    /// Reads a patch that a program has just written. It does not judge: that is the work of the programs.
    pub fn read(bytes: &[u8]) -> Patch {
        let entries = usize::from(bytes[6]);
        let before = bytes[7..].chunks(5).take(entries).map(|entry| (entry[0], word(&entry[1..]))).collect();
        let rest = &bytes[7 + 5 * entries..];
        let used = usize::from(rest[0]);
        let line = rest[1 + 3 * used + 1..].to_vec();
        Patch {
            author: bytes[1],
            number: word(&bytes[2..]),
            before,
            place: identifiers(&rest[1..], used),
            edit: if bytes[0] == 1 { Edit::Insert(line) } else { Edit::Delete(word(&line)) },
        }
    }
}
