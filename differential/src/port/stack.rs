//! The stack that the port's exported functions need.

use std::ffi::{c_int, c_void};
use std::{ptr, thread};

use super::calls::{self, NAMES, Needs};
use super::states::{StateTally, States};
use super::{STACK, child, depth, linked, run};
use crate::drive::Drive;
use crate::generate::build::Case;
use crate::generate::{CLASSES, rounds};
use crate::run::UNTOUCHED;

/// Sizes are tried in steps of so many KiB, up to the largest.
const STEP: u64 = 4;
const LARGEST: u64 = 64 << 10;
/// So much below the stack may not be touched: a frame that passes the stack's end ends the process.
const GUARD: usize = 1 << 30;
/// Rounds of random scripts, and calls on states of any bytes, by which the operations are measured.
const ROUNDS: u64 = 1;
const CALLS: u64 = 20_000;
/// What an operation may need, those on lent tables aside.
const MOST: usize = 64 << 10;
const ASIDE: [&str; 4] = [
    "tevrulig_drain_pending_sends",
    "tevrulig_drain_timed_out_sends",
    "tevrulig_snapshot_pending_sends",
    "tevrulig_replay_snapshots",
];

/// Memory for glibc's thread attributes, which have 56 bytes.
#[repr(C, align(16))]
struct Attributes([u8; 64]);

unsafe extern "C" {
    fn pthread_attr_init(attributes: *mut Attributes) -> c_int;
    fn pthread_attr_setstacksize(attributes: *mut Attributes, size: usize) -> c_int;
    fn pthread_attr_setguardsize(attributes: *mut Attributes, size: usize) -> c_int;
    fn pthread_create(
        thread: *mut u64,
        attributes: *const Attributes,
        start: extern "C" fn(*mut c_void) -> *mut c_void,
        argument: *mut c_void,
    ) -> c_int;
    fn pthread_join(thread: u64, answer: *mut *mut c_void) -> c_int;
}

/// Prints what the operations need, and the host of scripts.
pub fn measure() -> Result<(), String> {
    operations()?;
    scripts()
}

/// Prints what each operation needed at most; fails if that is too much.
fn operations() -> Result<(), String> {
    let builder = thread::Builder::new().stack_size(STACK);
    let worker = builder.spawn(|| calls::needs_of(every_operation));
    let worker = worker.map_err(|error| error.to_string())?;
    let needs: Needs = worker.join().map_err(|_| "a thread was ended")??;
    let nearest = depth::NEAREST;
    say!("bytes of the stack, {nearest} also where fewer are needed:");
    let mut largest = 0;
    for name in NAMES {
        let need = *needs.get(name).ok_or(format!("{name} was not called"))?;
        say!("  {name:40} {need:6}");
        if !ASIDE.contains(name) {
            largest = largest.max(need);
        }
    }
    say!("the largest, lent tables aside: {largest}");
    if largest > MOST {
        return Err(format!("an operation needs more than {MOST} bytes"));
    }
    Ok(())
}

/// Operations at states from empty to full, and at states of any bytes.
fn every_operation() -> Result<(), String> {
    let mut cases = cases(Drive::Linked);
    for round in 0..ROUNDS {
        rounds::cases(1, round, &mut |case| cases.push(case));
    }
    for case in cases {
        linked::run(&case.script, &mut vec![UNTOUCHED; case.output]);
    }
    let mut states = States::new(1)?;
    let mut tally = StateTally::default();
    for number in 0..CALLS {
        states.call(number, &mut tally)?;
    }
    // SAFETY: it answers a number.
    unsafe { calls::tevrulig_producer_size() };
    Ok(())
}

/// Prints for each drive the smallest stack on which all the scripts go through.
fn scripts() -> Result<(), String> {
    for drive in [Drive::InPlace, Drive::ByValue] {
        let (mut fails, mut works) = (0, LARGEST);
        if !goes(drive, works)? {
            return Err(format!("{drive}: more than {LARGEST} KiB"));
        }
        while works - fails > STEP {
            let size = (fails + works) / 2 / STEP * STEP;
            if goes(drive, size)? {
                works = size;
            } else {
                fails = size;
            }
        }
        say!("{drive}: {works} KiB are enough, {fails} KiB are not");
    }
    Ok(())
}

/// Whether a process with such a stack comes to its end.
fn goes(drive: Drive, size: u64) -> Result<bool, String> {
    let drive = (drive as u8).to_string();
    let status = child(&["stack-here", &drive, &size.to_string()])?;
    Ok(status.success())
}

/// Every operation, at states from empty to full: all classes but the many and the random scripts.
fn cases(drive: Drive) -> Vec<Case> {
    let mut cases = Vec::new();
    for class in CLASSES.iter().filter(|class| class.name != "exhaustive") {
        (class.cases)(&rounds::FIXED, 0, &mut |mut case| {
            drive.set(&mut case.script);
            cases.push(case);
        });
    }
    cases
}

/// What the thread works on.
struct Work {
    cases: Vec<Case>,
    output: Vec<u8>,
}

extern "C" fn work(work: *mut c_void) -> *mut c_void {
    // SAFETY: `run_here` lends its work until the thread has ended.
    let work = unsafe { &mut *work.cast::<Work>() };
    for case in &work.cases {
        run(&case.script, &mut work.output[..case.output]);
    }
    ptr::null_mut()
}

/// Carries all scripts out on a thread with this stack, in KiB.
pub fn run_here(drive: u64, size: u64) -> Result<(), String> {
    let drive = if drive == 0 {
        Drive::ByValue
    } else {
        Drive::InPlace
    };
    let cases = cases(drive);
    let longest = cases.iter().map(|case| case.output).max().unwrap_or(0);
    let output = vec![UNTOUCHED; longest];
    let mut lent = Work { cases, output };
    let mut attributes = Attributes([0; 64]);
    let mut thread = 0;
    // SAFETY: the attributes have room for glibc's, and the thread ends before its work does.
    let failed = unsafe {
        pthread_attr_init(&mut attributes) != 0
            || pthread_attr_setstacksize(&mut attributes, size as usize * 1_024) != 0
            || pthread_attr_setguardsize(&mut attributes, GUARD) != 0
            || pthread_create(&mut thread, &attributes, work, (&raw mut lent).cast()) != 0
            || pthread_join(thread, ptr::null_mut()) != 0
    };
    if failed {
        return Err(format!("no thread with a stack of {size} KiB"));
    }
    Ok(())
}
