//! The `List` of the crdts crate, a sequence by places as ours is. Its patch is an operation in memory: no
//! bytes are written or read for it, and the copy of it that the remote side gets is made off the watch. Both
//! are in its favour.

use crate::trace::{Edit, Text};
use crate::watch::Watch;
use crate::ScriptCopy;
use crdts::list::{List, Op};
use crdts::CmRDT;

pub struct CrdtsList {
    site: u32,
    list: List<Text, u32>,
}

impl ScriptCopy for CrdtsList {
    type Patch = Op<Text, u32>;

    fn start(site: u32) -> CrdtsList {
        CrdtsList { site, list: List::new() }
    }

    fn edit(&mut self, edit: &Edit, watch: &mut Watch) -> Op<Text, u32> {
        let (site, list) = (self.site, &mut self.list);
        let op = watch.time(|| match edit {
            Edit::Add { row, text, .. } => list.insert_index(*row, *text, site),
            Edit::Strike { row } => list.delete_index(*row, site).expect("a local edit is refused"),
        });
        let sent = op.clone();
        watch.time(|| list.apply(op));
        sent
    }

    fn receive(&mut self, op: Op<Text, u32>, watch: &mut Watch) {
        watch.time(|| self.list.apply(op));
    }

    fn texts(&self) -> Vec<Text> {
        self.list.iter().copied().collect()
    }
}
