//! The second program: it keeps the same record, table and patches as the library does.

use crate::trace::{Edit, Text};
use crate::watch::Watch;
use crate::ScriptCopy;

const ROW: usize = 78;
const TABLE: usize = 512 * ROW;
const TEXT_IN_ROW: usize = 30;
const DONE: u32 = 0;

pub struct SecondReplica {
    record: [u8; 67],
    table: Vec<u8>,
}

impl ScriptCopy for SecondReplica {
    type Patch = Vec<u8>;

    fn start(site: u32) -> SecondReplica {
        let mut replica = SecondReplica { record: [0; 67], table: vec![0; TABLE] };
        assert!(second::start(&mut replica.record, &mut replica.table, site) == DONE);
        replica
    }

    fn edit(&mut self, edit: &Edit, watch: &mut Watch) -> Vec<u8> {
        let mut patch = [0; 161];
        let (record, table) = (&mut self.record, &mut self.table);
        let (answer, length) = watch.time(|| match edit {
            Edit::Add { row, draw, text } => second::insert(record, table, *row, text, *draw, &mut patch),
            Edit::Strike { row } => second::delete(record, table, *row, &mut patch),
        });
        assert!(answer == DONE, "a local edit is refused");
        patch[..length].to_vec()
    }

    fn receive(&mut self, patch: Vec<u8>, watch: &mut Watch) {
        let answer = watch.time(|| second::receive(&mut self.record, &mut self.table, &patch));
        assert!(answer == DONE, "a patch is refused");
    }

    fn texts(&self) -> Vec<Text> {
        let rows = usize::from(u16::from_be_bytes([self.record[1], self.record[2]]));
        let text = |row: &[u8]| row[TEXT_IN_ROW..].try_into().expect("a text of 48 bytes");
        self.table.chunks(ROW).take(rows).map(text).collect()
    }
}
