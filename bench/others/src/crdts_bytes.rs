//! The same `List`, with its patch as bytes: written and read by bincode, which is what hosts on a network have to
//! do and what ours and Yjs do. Each side does it on the watch.

use crate::trace::{Edit, Text};
use crate::watch::Watch;
use crate::ScriptCopy;
use crdts::list::{List, Op};
use crdts::CmRDT;

/// A text in two parts: serde reads and writes arrays of up to 32.
type Halves = ([u8; 24], [u8; 24]);

pub struct CrdtsBytes {
    site: u32,
    list: List<Halves, u32>,
}

fn halves(text: &Text) -> Halves {
    let (left, right) = text.split_at(24);
    (left.try_into().expect("24 bytes"), right.try_into().expect("24 bytes"))
}

impl ScriptCopy for CrdtsBytes {
    type Patch = Vec<u8>;

    fn start(site: u32) -> CrdtsBytes {
        CrdtsBytes { site, list: List::new() }
    }

    fn edit(&mut self, edit: &Edit, watch: &mut Watch) -> Vec<u8> {
        let (site, list) = (self.site, &mut self.list);
        watch.time(|| {
            let op = match edit {
                Edit::Add { row, text, .. } => list.insert_index(*row, halves(text), site),
                Edit::Strike { row } => list.delete_index(*row, site).expect("a local edit is refused"),
            };
            let patch = bincode::serialize(&op).expect("a patch cannot be written");
            list.apply(op);
            patch
        })
    }

    fn receive(&mut self, patch: Vec<u8>, watch: &mut Watch) {
        watch.time(|| {
            let op: Op<Halves, u32> = bincode::deserialize(&patch).expect("a patch cannot be read");
            self.list.apply(op);
        });
    }

    fn texts(&self) -> Vec<Text> {
        let whole = |(left, right): &Halves| [*left, *right].concat().try_into().expect("48 bytes");
        self.list.iter().map(whole).collect()
    }
}
