//! The port's exported function, and what the port is asked.

#[macro_use]
mod layout;

mod attack;
mod calls;
mod campaign;
mod client;
mod depth;
mod given;
mod linked;
mod stack;
mod states;

use std::env;
use std::process::{Command, ExitStatus};

use attack::Attack;
use campaign::{Campaign, Drives};

use crate::drive::Drive;
use crate::run::UNTOUCHED;

unsafe extern "C" {
    /// `tevrulig_run(script, output)`, exported by the crate `host_c`: each slice is a pointer and a length.
    fn tevrulig_run(
        script: *const u8,
        script_length: usize,
        output: *mut u8,
        output_length: usize,
    ) -> usize;
}

pub const USAGE: &str = "
  port [CALLS [SEED [DRIVE [THREADS]]]]  the port beside the Rust; DRIVE is all, in-place, linked, by-value
  attack [COUNT [SEED [THREADS]]]  random and damaged scripts through the port's function, and
                                   its exported operations on states of any bytes
  client                           the header's layout, and a C program
  stack                            the stack that the port's exported functions need";

/// The stack of a thread that calls the port: more than the command `stack` finds necessary.
const STACK: usize = 64 << 20;

/// Carries out a script; answers how many bytes the port says it wrote.
fn run(script: &[u8], output: &mut [u8]) -> usize {
    let (at, length) = (output.as_mut_ptr(), output.len());
    // SAFETY: both slices are whole and apart from each other, and the function keeps neither.
    unsafe { tevrulig_run(script.as_ptr(), script.len(), at, length) }
}

/// The port's answers to a script, with an output of this length.
fn answers(script: &[u8], output: usize, drive: Drive) -> Vec<u8> {
    let mut script = script.to_vec();
    drive.set(&mut script);
    let mut answers = vec![UNTOUCHED; output];
    let host = if drive == Drive::Linked {
        linked::run
    } else {
        run
    };
    let length = host(&script, &mut answers);
    answers.truncate(length);
    answers
}

/// Carries out a command that needs the port; `None` if it is none of them.
pub fn command(words: &[&str]) -> Option<Result<(), String>> {
    match *words {
        ["port", ref words @ ..] if words.len() <= 4 => Some(beside(words)),
        ["attack", ref words @ ..] if words.len() <= 3 => Some(attack(words, Attack::run)),
        ["attack-here", ref words @ ..] => Some(attack(words, Attack::run_here)),
        ["client"] => Some(client::run()),
        ["stack"] => Some(stack::measure()),
        ["stack-here", ref words @ ..] => Some(stack_here(words)),
        _ => None,
    }
}

/// This program again, as a process that may be ended.
fn child(words: &[&str]) -> Result<ExitStatus, String> {
    let status = env::current_exe().and_then(|program| Command::new(program).args(words).status());
    status.map_err(|error| error.to_string())
}

/// The number at this place, or the one that stands for it.
fn number(words: &[&str], place: usize, default: u64) -> Result<u64, String> {
    match words.get(place) {
        Some(word) => word.parse().map_err(|_| format!("{word} is no number")),
        None => Ok(default),
    }
}

fn beside(words: &[&str]) -> Result<(), String> {
    let drives = match words.get(2) {
        None | Some(&"all") => Drives::All,
        Some(&"in-place") => Drives::Only(Drive::InPlace),
        Some(&"linked") => Drives::Only(Drive::Linked),
        Some(&"by-value") => Drives::Only(Drive::ByValue),
        Some(word) => return Err(format!("{word} is no drive")),
    };
    let campaign = Campaign {
        calls: number(words, 0, 10_000_000)?,
        seed: number(words, 1, 1)?,
        drives,
        threads: number(words, 3, 2)?.max(1),
    };
    campaign.run()?.report(&campaign)
}

fn attack(words: &[&str], run: fn(Attack) -> Result<(), String>) -> Result<(), String> {
    run(Attack {
        count: number(words, 0, 10_000_000)?,
        seed: number(words, 1, 1)?,
        threads: number(words, 2, 2)?.max(1),
    })
}

fn stack_here(words: &[&str]) -> Result<(), String> {
    stack::run_here(number(words, 0, 0)?, number(words, 1, 0)?)
}
