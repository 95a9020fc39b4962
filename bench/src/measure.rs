//! Timing the port and the Rust in turn on the same operations.

use bytes::Bytes;

use crate::answers::{self, DONE};
use crate::clock::timed;
use crate::linked::Linked;
use crate::operations::Operation;
use crate::port::{self, Drive};
use crate::rust::{Frames, Rust};
use crate::workloads::Workload;

/// Repetitions of a measurement. The port and the Rust take turns in each of them.
pub const REPETITIONS: usize = 21;

/// The port's time for what one script has beyond another.
pub struct Difference {
    pub more: Vec<u8>,
    pub less: Vec<u8>,
    /// How many units `more` has beyond `less`.
    pub units: u64,
    pub output: Vec<u8>,
}

impl Difference {
    /// Nanoseconds for a unit: the difference of the least times of so many runs, in turn.
    pub fn time(&mut self, runs: usize) -> f64 {
        let mut run = |script: &[u8]| timed(|| _ = port::run(script, &mut self.output));
        let (mut less, mut more) = (u64::MAX, u64::MAX);
        for _ in 0..runs {
            less = less.min(run(&self.less));
            more = more.min(run(&self.more));
        }
        (more as f64 - less as f64) / self.units as f64
    }
}

/// A script whose answers were seen to be right, with an output that it fits into.
pub struct Checked {
    pub script: Vec<u8>,
    pub output: Vec<u8>,
    /// What its takes wrote.
    pub payloads: Vec<u8>,
}

/// Takes have to be answered by the status `takes`, all else by 0.
pub fn checked(drive: Drive, store: &[u8], operations: &[Operation], takes: u8) -> Checked {
    let script = port::script(drive, store, operations);
    let mut output = vec![0; answers::room(operations)];
    let length = port::run(&script, &mut output);
    let payloads = answers::payloads(operations, &output[..length], takes);
    Checked {
        script,
        output,
        payloads,
    }
}

/// The port's scripts of a workload, once its answers were seen to be right.
pub fn port_side(workload: &Workload, drive: Drive) -> Difference {
    let blocks = workload.blocks(drive);
    let units = blocks.len() as u64 * workload.units;
    let mut operations = workload.before.clone();
    let less = port::script(drive, &workload.store, &operations);
    operations.extend(blocks.into_iter().flatten());
    let checked = checked(drive, &workload.store, &operations, DONE);
    assert!(
        checked.payloads == rust_payloads(&workload.store, &operations),
        "{}: the payloads of port and Rust",
        workload.name
    );
    Difference {
        more: checked.script,
        less,
        units,
        output: checked.output,
    }
}

fn rust_payloads(store: &Bytes, operations: &[Operation]) -> Vec<u8> {
    let mut rust = Rust::new(store.clone(), Frames::Payload, Vec::new());
    rust.run(operations);
    rust.output
}

/// The Rust's nanoseconds for a unit. The messages of a block are made before its time begins.
fn rust_time(workload: &Workload, frames: Frames, output: &mut Vec<u8>) -> f64 {
    let blocks = workload.blocks(Drive::InPlace);
    let units = blocks.len() as u64 * workload.units;
    output.clear();
    let mut rust = Rust::new(workload.store.clone(), frames, std::mem::take(output));
    rust.run(&workload.before);
    let time: u64 = blocks.iter().map(|block| rust.run(block)).sum();
    *output = rust.output;
    time as f64 / units as f64
}

/// The nanoseconds of the exported operations for a unit, measured as the Rust's.
pub fn linked_time(workload: &Workload) -> f64 {
    let blocks = workload.blocks(Drive::InPlace);
    let units = blocks.len() as u64 * workload.units;
    let mut linked = Linked::new(&workload.store, None);
    linked.run(&workload.before);
    let time: u64 = blocks.iter().map(|block| linked.run(block)).sum();
    time as f64 / units as f64
}

/// Their payloads are seen to be the Rust's.
fn check_linked(workload: &Workload) {
    let mut operations = workload.before.clone();
    operations.extend(workload.blocks(Drive::InPlace).into_iter().flatten());
    let mut linked = Linked::new(&workload.store, Some(Vec::new()));
    linked.run(&operations);
    assert!(
        linked.output.as_deref() == Some(&rust_payloads(&workload.store, &operations)),
        "{}: the payloads of the exported operations and Rust",
        workload.name
    );
}

/// Nanoseconds of an empty script: a new state.
pub fn empty_script(drive: Drive) -> f64 {
    const SCRIPTS: u32 = 1_000;
    let script = port::script(drive, &[], &[]);
    let mut output = vec![0; answers::room(&[])];
    let time = timed(|| {
        for _ in 0..SCRIPTS {
            port::run(&script, &mut output);
        }
    });
    time as f64 / f64::from(SCRIPTS)
}

/// Nanoseconds for a unit, in one repetition.
#[derive(Debug, Clone, Copy)]
pub struct Sample {
    pub linked: f64,
    pub in_place: f64,
    pub by_value: f64,
    pub handed_out: f64,
    pub written: f64,
}

pub fn measure(workload: &Workload) -> Vec<Sample> {
    let mut in_place = port_side(workload, Drive::InPlace);
    let mut by_value = port_side(workload, Drive::ByValue);
    check_linked(workload);
    let mut output = Vec::new();
    rust_time(workload, Frames::Written, &mut output);
    (0..REPETITIONS)
        .map(|_| Sample {
            linked: linked_time(workload),
            in_place: in_place.time(1),
            handed_out: rust_time(workload, Frames::HandedOut, &mut output),
            written: rust_time(workload, Frames::Written, &mut output),
            by_value: by_value.time(1),
        })
        .collect()
}
