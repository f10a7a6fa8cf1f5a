//! What the tests share: a replica as bytes, and short ways to write things.
#![allow(dead_code)]

use second::limits::{RECORD_BYTES, TABLE_BYTES};
use second::{Edit, Identifier, Line, Patch, Position, Replica};

#[derive(Clone, PartialEq, Eq)]
pub struct Held {
    pub record: Vec<u8>,
    pub table: Vec<u8>,
}

impl Held {
    pub fn start(site: u32) -> Held {
        let mut held = Held {
            record: vec![0xAA; RECORD_BYTES],
            table: vec![0xAA; TABLE_BYTES],
        };
        assert_eq!(second::start(&mut held.record, &mut held.table, site), 0);
        held
    }

    pub fn of(replica: &Replica) -> Held {
        let mut held = Held::start(1);
        replica.encode(&mut held.record, &mut held.table);
        held
    }

    /// Calls insert; checks that a refusal changes nothing, and that a done one
    /// leaves the bytes after the patch.
    pub fn insert(&mut self, row: usize, text: &[u8], draw: u32) -> (u32, Vec<u8>) {
        self.edit(|record, table, patch| second::insert(record, table, row, text, draw, patch))
    }

    pub fn delete(&mut self, row: usize) -> (u32, Vec<u8>) {
        self.edit(|record, table, patch| second::delete(record, table, row, patch))
    }

    fn edit(
        &mut self,
        call: impl FnOnce(&mut [u8], &mut [u8], &mut [u8]) -> (u32, usize),
    ) -> (u32, Vec<u8>) {
        let old = self.clone();
        let mut patch = vec![0xEE; 200];
        let (answer, length) = call(&mut self.record, &mut self.table, &mut patch);
        assert!(patch[length..].iter().all(|&byte| byte == 0xEE));
        if answer != 0 {
            assert!(length == 0 && *self == old);
        }
        patch.truncate(length);
        (answer, patch)
    }

    pub fn receive(&mut self, patch: &[u8]) -> u32 {
        let old = self.clone();
        let answer = second::receive(&mut self.record, &mut self.table, patch);
        assert!(matches!(answer, 0 | 15) || *self == old);
        answer
    }

    pub fn row_text(&self, row: usize) -> (u32, &[u8]) {
        let (answer, part) = second::row_text(&self.record, &self.table, row);
        (answer, &self.table[part])
    }

    pub fn replica(&self) -> Replica {
        Replica::decode(&self.record, &self.table).expect("sound")
    }

    pub fn is_sound(&self) -> bool {
        let (answer, _) = second::row_text(&self.record, &self.table, usize::MAX);
        assert!(answer == 1 || answer == 8);
        answer == 8
    }

    /// Sets a count in the record.
    pub fn set_count(&mut self, site: usize, count: u32) {
        let at = 3 + (site - 1) * 4;
        self.record[at..at + 4].copy_from_slice(&count.to_be_bytes());
    }
}

pub fn ids(list: &[(u16, u8)]) -> Vec<Identifier> {
    let identifier = |&(integer, site): &(u16, u8)| Identifier { integer, site };
    list.iter().map(identifier).collect()
}

pub fn at(list: &[(u16, u8)]) -> Position {
    Position::of_line(ids(list)).expect("a line's position")
}

pub fn line(list: &[(u16, u8)], number: u32, text: &[u8]) -> Line {
    Line {
        position: at(list),
        number,
        text: text.to_vec(),
    }
}

pub fn patch(
    author: u8,
    number: u32,
    before: &[(u8, u32)],
    place: &[(u16, u8)],
    edit: Edit,
) -> Patch {
    Patch {
        author,
        number,
        before: before.iter().copied().collect(),
        place: at(place),
        edit,
    }
}

pub fn bytes(patch: &Patch) -> Vec<u8> {
    patch.write().expect("well formed")
}

pub fn put(text: &[u8]) -> Edit {
    Edit::Insert(text.to_vec())
}

pub fn hex(text: &str) -> Vec<u8> {
    let digits: Vec<u8> = text.bytes().filter(|b| !b.is_ascii_whitespace()).collect();
    let byte = |pair: &[u8]| u8::from_str_radix(std::str::from_utf8(pair).unwrap(), 16).unwrap();
    digits.chunks(2).map(byte).collect()
}

/// 512 rows of site 1, at (1,1) to (512,1).
pub fn full() -> Held {
    let mut held = Held::start(1);
    let mut replica = held.replica();
    for number in 1..=512u16 {
        replica
            .lines
            .push(line(&[(number, 1)], u32::from(number), b""));
    }
    replica.encode(&mut held.record, &mut held.table);
    held.set_count(1, 512);
    held
}

pub fn counts_of(replica: &Replica) -> Vec<u32> {
    replica.counts.iter().collect()
}

/// A small generator of numbers, the same on each run.
pub struct Draws(pub u64);

impl Draws {
    pub fn next(&mut self) -> u32 {
        self.0 = self
            .0
            .wrapping_mul(6364136223846793005)
            .wrapping_add(1442695040888963407);
        (self.0 >> 32) as u32
    }

    pub fn below(&mut self, limit: usize) -> usize {
        self.next() as usize % limit
    }
}
