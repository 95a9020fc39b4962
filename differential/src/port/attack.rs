//! The port's exported function under attack: any bytes as a script, any output.

use std::fs::{self, File};
use std::os::unix::fs::FileExt as _;
use std::os::unix::process::parent_id;
use std::time::Instant;
use std::{io, process, thread};

use super::states::{StateTally, States};
use super::{STACK, child, run};
use crate::answers::{ENDING, Ending};
use crate::drive::Drive;
use crate::generate::attacks::{self, KINDS, LONGEST};
use crate::generate::build::Case;
use crate::guard::{Edge, Guarded};
use crate::run::{UNTOUCHED, first_touched};

/// One script in so many is driven by value.
const BY_VALUE: u64 = 16;

/// What is asked for.
#[derive(Debug, Clone, Copy)]
pub struct Attack {
    pub count: u64,
    pub seed: u64,
    pub threads: u64,
}

/// How often what came.
#[derive(Debug, Default, Clone, Copy)]
struct Tally {
    kinds: [u64; KINDS.len()],
    in_place: u64,
    by_value: u64,
    states: StateTally,
    /// By the last record: end, malformed, no room; or nothing, in an output that is too short.
    endings: [u64; 4],
    /// The bytes of all answers, and a sum of them: so every one of them is looked at, and two runs
    /// can be compared.
    bytes: u64,
    sum: u64,
}

/// Marks the number of a call on a state of any bytes.
const STATE: u64 = 1 << 63;

const ENDINGS: [(Ending, &str); 3] = [
    (Ending::End, "end"),
    (Ending::Malformed, "malformed"),
    (Ending::NoRoom, "no room"),
];

impl Attack {
    /// Carries the attack out in a process of its own; if that is ended, shows the scripts at which
    /// its threads were.
    pub fn run(self) -> Result<(), String> {
        let Self {
            count,
            seed,
            threads,
        } = self;
        let words = [count, seed, threads].map(|number| number.to_string());
        let status = child(&["attack-here", &words[0], &words[1], &words[2]])?;
        if status.success() {
            return Ok(());
        }
        let numbers = fs::read(numbers_of(process::id())).unwrap_or_default();
        let mut text = format!("{status}; the last script of each thread:\n");
        for number in numbers
            .as_chunks()
            .0
            .iter()
            .map(|at| u64::from_le_bytes(*at))
        {
            if number & STATE != 0 {
                text += &format!("the call of number {} on a state\n", number & !STATE);
                continue;
            }
            let (case, drive, edge) = prepared(attacks::case(seed, number).0, number);
            text += &format!(
                "number {number}, {drive}, at the {edge} page: {}",
                shown(&case)
            );
        }
        Err(text)
    }

    /// Carries the attack out here.
    pub fn run_here(self) -> Result<(), String> {
        let begun = Instant::now();
        let file = numbers_of(parent_id());
        let numbers = File::create(&file).map_err(|error| format!("{file}: {error}"))?;
        let mut workers = Vec::new();
        for first in 0..self.threads {
            let numbers = numbers.try_clone().map_err(|error| error.to_string())?;
            let builder = thread::Builder::new().stack_size(STACK);
            let worker = builder.spawn(move || self.part(first, &numbers));
            workers.push(worker.map_err(|error| error.to_string())?);
        }
        let mut tally = Tally::default();
        for worker in workers {
            tally.add(&worker.join().map_err(|_| "a thread was ended")??);
        }
        fs::remove_file(&file).map_err(|error| format!("{file}: {error}"))?;
        tally.print();
        let (seed, seconds) = (self.seed, begun.elapsed().as_secs_f64());
        say!("seed {seed}, {seconds:.0} s, nothing wrong");
        Ok(())
    }

    /// The scripts of one thread.
    fn part(self, first: u64, numbers: &File) -> Result<Tally, String> {
        let guarded = || Guarded::new(LONGEST).map_err(|error| error.to_string());
        let (mut script_memory, mut output_memory) = (guarded()?, guarded()?);
        let mut tally = Tally::default();
        for number in (first..self.count).step_by(self.threads as usize) {
            note(numbers, first, number).map_err(|error| error.to_string())?;
            let (case, kind) = attacks::case(self.seed, number);
            let (case, drive, edge) = prepared(case, number);
            let script = script_memory.slice(edge, case.script.len());
            script.copy_from_slice(&case.script);
            let output = output_memory.slice(edge, case.output);
            output.fill(UNTOUCHED);
            let length = run(script, output);
            if *script != case.script {
                return Err(format!("number {number}: the script was written"));
            }
            let ending = checked(&case, output, length)
                .map_err(|fault| format!("number {number}: {fault}"))?;
            tally.kinds[kind] += 1;
            tally.endings[ending] += 1;
            tally.bytes += length as u64;
            tally.sum = tally.sum.wrapping_add(sum_of(&output[..length]));
            if drive == Drive::ByValue {
                tally.by_value += 1;
            } else {
                tally.in_place += 1;
            }
        }
        let mut states = States::new(self.seed ^ first << 32)?;
        for number in (first..self.count).step_by(self.threads as usize) {
            note(numbers, first, STATE | number).map_err(|error| error.to_string())?;
            let place = number / self.threads;
            states
                .call(place, &mut tally.states)
                .map_err(|fault| format!("state {number}: {fault}"))?;
        }
        Ok(tally)
    }
}

/// Where every thread notes the number of its script, for the case that the process ends there: a
/// file for each process that began an attack.
fn numbers_of(process: u32) -> String {
    format!("{}/target/attack-{process}", env!("CARGO_MANIFEST_DIR"))
}

fn note(numbers: &File, thread: u64, number: u64) -> io::Result<()> {
    numbers.write_all_at(&number.to_le_bytes(), 8 * thread)
}

/// The FNV-1a sum, which depends on every byte.
fn sum_of(bytes: &[u8]) -> u64 {
    bytes.iter().fold(0xCBF2_9CE4_8422_2325, |sum, byte| {
        (sum ^ u64::from(*byte)).wrapping_mul(0x100_0000_01B3)
    })
}

fn shown(case: &Case) -> String {
    let Case { script, output } = case;
    format!("an output of {output} bytes, and the script {script:02x?}\n")
}

/// How the script of this number is driven, and at which edge it and its output lie.
fn prepared(mut case: Case, number: u64) -> (Case, Drive, Edge) {
    let drive = if (number / 2).is_multiple_of(BY_VALUE) {
        Drive::ByValue
    } else {
        Drive::InPlace
    };
    drive.set(&mut case.script);
    let edge = if number.is_multiple_of(2) {
        Edge::First
    } else {
        Edge::Last
    };
    (case, drive, edge)
}

/// Looks at the output after a run; answers which ending stands there.
fn checked(case: &Case, output: &[u8], length: usize) -> Result<usize, String> {
    let Some((answers, behind)) = output.split_at_checked(length) else {
        return Err(format!("{length} bytes answered of {}", output.len()));
    };
    if let Some(place) = first_touched(behind) {
        return Err(format!("byte {} was written", length + place));
    }
    if (output.len() as u64) < ENDING {
        return match length {
            0 => Ok(ENDINGS.len()),
            _ => Err(format!("{length} bytes in an output that is too short")),
        };
    }
    let Some((_, [kind, offset @ ..])) = answers.split_last_chunk::<{ ENDING as usize }>() else {
        return Err(format!("{length} bytes and no ending record"));
    };
    let offset = u64::from_le_bytes(*offset);
    let known = ENDINGS
        .iter()
        .position(|(ending, _)| *ending as u8 == *kind);
    let Some(place) = known.filter(|_| offset <= case.script.len() as u64) else {
        return Err(format!("ending {kind:#04x} at {offset}"));
    };
    let whole = offset == case.script.len() as u64;
    match ENDINGS[place].0 {
        Ending::End if !whole => Err(format!("an end at {offset}")),
        _ => Ok(place),
    }
}

impl Tally {
    fn add(&mut self, other: &Self) {
        let sums = self.kinds.iter_mut().zip(other.kinds);
        sums.for_each(|(sum, count)| *sum += count);
        let sums = self.endings.iter_mut().zip(other.endings);
        sums.for_each(|(sum, count)| *sum += count);
        self.in_place += other.in_place;
        self.by_value += other.by_value;
        self.states.add(other.states);
        self.bytes += other.bytes;
        self.sum = self.sum.wrapping_add(other.sum);
    }

    fn print(&self) {
        let (in_place, by_value) = (self.in_place, self.by_value);
        let scripts = in_place + by_value;
        say!("{scripts} scripts: {in_place} in place, {by_value} by value");
        for (kind, count) in KINDS.iter().zip(self.kinds) {
            say!("  {kind:31} {count}");
        }
        let names = ENDINGS.iter().map(|(_, name)| *name).chain(["nothing"]);
        let endings = names.zip(self.endings);
        let endings: Vec<String> = endings.map(|(name, n)| format!("{name} {n}")).collect();
        say!("  endings   {}", endings.join(", "));
        say!("  answers   {} bytes, sum {:016x}", self.bytes, self.sum);
        let StateTally { calls, refused } = self.states;
        say!("{calls} calls on states of any bytes, {refused} refused");
    }
}
