//! Measures the port beside the Rust (docs/BENCH.md).

mod answers;
mod clock;
mod encode;
mod linked;
mod measure;
mod port;
mod report;
mod rust;
mod stack;
mod workloads;

// What a script can say, and how it is written, stands in `differential`.
#[allow(dead_code)]
#[path = "../../differential/src/operations.rs"]
mod operations;
#[allow(dead_code)]
#[path = "../../differential/src/script.rs"]
mod script;
#[path = "../../differential/src/writer.rs"]
mod writer;
// The header's structs and functions, and how they are made of operations.
#[allow(dead_code)]
#[path = "../../differential/src/port/given.rs"]
mod given;
#[allow(dead_code)]
#[path = "../../differential/src/port/layout.rs"]
mod layout;

use std::{env, thread};

use port::Drive;

/// The host of scripts keeps the port's state on the stack.
const STACK: usize = 64 << 20;

const USAGE: &str = "usage: bench
       bench port linked|in-place|by-value WORKLOAD TIMES   the port alone, for a profiler";

fn main() {
    let words: Vec<String> = env::args().skip(1).collect();
    on_stack(move || command(&words));
}

/// Does the work on a new stack, which is long enough for the port.
fn on_stack<T: Send + 'static>(work: impl FnOnce() -> T + Send + 'static) -> T {
    let builder = thread::Builder::new().stack_size(STACK);
    let thread = builder.spawn(work).expect("the system has a thread");
    thread.join().expect("the work is done")
}

fn command(words: &[String]) {
    let words: Vec<&str> = words.iter().map(String::as_str).collect();
    match words[..] {
        [] => everything(),
        ["port", "linked", name, times] => linked_alone(name, times),
        ["port", "in-place", name, times] => port_alone(name, Drive::InPlace, times),
        ["port", "by-value", name, times] => port_alone(name, Drive::ByValue, times),
        _ => eprintln!("{USAGE}"),
    }
}

fn everything() {
    report::heading();
    for workload in workloads::all() {
        report::workload(&workload, &measure::measure(&workload));
    }
    report::encode_heading();
    for encoding in encode::all() {
        report::encoding(&encoding, &encoding.measure());
    }
    for (drive, name) in [(Drive::InPlace, "in place"), (Drive::ByValue, "by value")] {
        let stack = on_stack(move || stack_of(drive));
        report::drive(name, measure::empty_script(drive), stack);
    }
}

/// The stack that the workloads use.
fn stack_of(drive: Drive) -> u64 {
    for workload in workloads::all() {
        measure::port_side(&workload, drive);
    }
    stack::touched()
}

fn port_alone(name: &str, drive: Drive, times: &str) {
    let all = workloads::all();
    let Some(workload) = all.iter().find(|one| one.name == name) else {
        all.iter().for_each(|one| println!("{}", one.name));
        return;
    };
    let mut scripts = measure::port_side(workload, drive);
    for _ in 0..times.parse().unwrap_or(1) {
        println!("{:.0} ns for a {}", scripts.time(1), workload.unit);
    }
}

fn linked_alone(name: &str, times: &str) {
    let all = workloads::all();
    let Some(workload) = all.iter().find(|one| one.name == name) else {
        all.iter().for_each(|one| println!("{}", one.name));
        return;
    };
    for _ in 0..times.parse().unwrap_or(1) {
        println!(
            "{:.0} ns for a {}",
            measure::linked_time(workload),
            workload.unit
        );
    }
}
