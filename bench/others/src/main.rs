//! Replays the trace of bench/trace.c by the second program and by the `List` of the crdts crate, and times
//! each call: on a copy that makes the patches (local), and on one that receives them (remote). Every round
//! has the same edits, so of each call the least time of the rounds counts, as in bench/ours.c. Prints lines of
//! system, kind, rows in use and nanoseconds, and the checksum of the script at the end. Panics where a call
//! is refused or the two copies end unlike.

#[cfg(feature = "bytes")]
mod crdts_bytes;
mod crdts_list;
mod second_replica;
mod trace;
mod watch;

use trace::{Edit, Text};
use watch::Watch;

const FILL: usize = 511;
const BIN: usize = 32;
/// A round of the second program takes some ten times as long as one of crdts.
const SECOND_ROUNDS: usize = 2;
const CRDTS_ROUNDS: usize = 12;

/// One copy of the script. What a call costs goes on the watch; getting ready for it does not.
pub trait ScriptCopy {
    type Patch;
    fn start(site: u32) -> Self;
    fn edit(&mut self, edit: &Edit, watch: &mut Watch) -> Self::Patch;
    fn receive(&mut self, patch: Self::Patch, watch: &mut Watch);
    fn texts(&self) -> Vec<Text>;
}

/// The least time of each call so far.
struct Least {
    local: Vec<f64>,
    remote: Vec<f64>,
}

/// One round: all edits on one copy, then all their patches on the other. Gives the final script.
fn round<C: ScriptCopy>(edits: &[Edit], watch: &mut Watch, least: &mut Least) -> Vec<Text> {
    let mut local = C::start(1);
    let mut remote = C::start(2);
    let mut patches = Vec::with_capacity(edits.len());
    for (edit, time) in edits.iter().zip(&mut least.local) {
        patches.push(local.edit(edit, watch));
        *time = time.min(watch.take());
    }
    for (patch, time) in patches.into_iter().zip(&mut least.remote) {
        remote.receive(patch, watch);
        *time = time.min(watch.take());
    }
    assert!(local.texts() == remote.texts(), "the two copies end unlike");
    local.texts()
}

fn mean(times: impl Iterator<Item = f64>) -> f64 {
    let times: Vec<f64> = times.collect();
    times.iter().sum::<f64>() / times.len() as f64
}

/// Call i of the fill meets i rows in use; after the fill, strikes and adds take turns.
fn print_times(system: &str, kind: &str, times: &[f64]) {
    let (fill, changes) = times.split_at(FILL);
    for (bin, calls) in fill.chunks(BIN).enumerate() {
        let rows = (2 * bin * BIN + calls.len()) / 2;
        println!("{} fill-{} {} {:.1}", system, kind, rows, mean(calls.iter().copied()));
    }
    let strikes = changes.iter().step_by(2).copied();
    let adds = changes.iter().skip(1).step_by(2).copied();
    println!("{} {}-strike {} {:.1}", system, kind, FILL, mean(strikes));
    println!("{} {}-add {} {:.1}", system, kind, FILL - 1, mean(adds));
}

/// FNV-1a of 32 bits over the texts in the order of the script.
fn checksum(texts: &[Text]) -> u32 {
    let add = |sum: u32, byte: &u8| (sum ^ u32::from(*byte)).wrapping_mul(16_777_619);
    texts.iter().flatten().fold(2_166_136_261, add)
}

fn measure<C: ScriptCopy>(system: &str, edits: &[Edit], rounds: usize) {
    let mut watch = Watch::new();
    let unmeasured = vec![f64::INFINITY; edits.len()];
    let mut least = Least { local: unmeasured.clone(), remote: unmeasured };
    let mut texts = Vec::new();
    for _ in 0..rounds {
        texts = round::<C>(edits, &mut watch, &mut least);
    }
    print_times(system, "local", &least.local);
    print_times(system, "remote", &least.remote);
    println!("{} checksum {} {}", system, texts.len(), checksum(&texts));
}

fn main() {
    let name = std::env::args().nth(1).expect("give the name of the trace");
    let edits = trace::read(&name);
    measure::<second_replica::SecondReplica>("second", &edits, SECOND_ROUNDS);
    measure::<crdts_list::CrdtsList>("crdts", &edits, CRDTS_ROUNDS);
    #[cfg(feature = "bytes")]
    measure::<crdts_bytes::CrdtsBytes>("crdts-bytes", &edits, CRDTS_ROUNDS);
}
