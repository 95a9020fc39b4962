//! A run of the port beside the Rust: all classes of scripts once, then rounds of random scripts.

use std::thread;
use std::time::Instant;

use super::STACK;
use crate::beside::Beside;
use crate::counts::Counts;
use crate::drive::Drive;
use crate::generate::build::Case;
use crate::generate::twice::Pair;
use crate::generate::{CLASSES, rounds, twice_pairs};
use crate::reconnects::Reconnects;
use crate::run::{Observer, answers_of};
use crate::shrink::describe;

/// If all drives are asked for, one of so many scripts is also carried out by value.
const SHARE: u64 = 32;
/// A thread that has met so many differences stops.
const ENOUGH: usize = 3;

/// What a run is asked for.
#[derive(Debug, Clone, Copy)]
pub struct Campaign {
    /// The least calls, by value if that alone is asked for and otherwise in place.
    pub calls: u64,
    pub seed: u64,
    pub drives: Drives,
    pub threads: u64,
}

#[derive(Debug, Clone, Copy, PartialEq, Eq)]
pub enum Drives {
    /// All scripts in place and linked, and a share of them by value.
    All,
    Only(Drive),
}

/// What a run found.
#[derive(Default)]
pub struct Found {
    in_place: Counts,
    linked: Counts,
    by_value: Counts,
    reconnects: Reconnects,
    differences: Vec<String>,
    seconds: f64,
}

impl Campaign {
    /// Carries all scripts out. Which ones these are does not depend on the number of threads.
    pub fn run(self) -> Result<Found, String> {
        let begun = Instant::now();
        let mut workers = Vec::new();
        for number in 0..self.threads {
            let builder = thread::Builder::new().stack_size(STACK);
            let worker = builder.spawn(move || Worker::new(self, number).run());
            workers.push(worker.map_err(|error| error.to_string())?);
        }
        let mut found = Found::default();
        for worker in workers {
            let part = worker.join().map_err(|_| "a thread was ended")?;
            found.in_place.add(&part.in_place);
            found.linked.add(&part.linked);
            found.by_value.add(&part.by_value);
            found.reconnects.add(&part.reconnects);
            found.differences.extend(part.differences);
        }
        found.seconds = begun.elapsed().as_secs_f64();
        Ok(found)
    }
}

impl Found {
    /// Prints the counts and the differences; an error if there is a difference, or if something
    /// was never met.
    pub fn report(&self, campaign: &Campaign) -> Result<(), String> {
        let mut wrong = Vec::new();
        let sides = [
            (Drive::InPlace, &self.in_place),
            (Drive::Linked, &self.linked),
            (Drive::ByValue, &self.by_value),
        ];
        for (drive, counts) in sides {
            if campaign.drives == Drives::All || campaign.drives == Drives::Only(drive) {
                say!("{drive}: {counts}\n");
                let faults = counts.missing().into_iter().chain(counts.unknown());
                wrong.extend(faults.map(|fault| format!("{drive}: {fault}")));
            }
        }
        say!("{}\n", self.reconnects);
        wrong.extend(self.reconnects.missing());
        for text in &self.differences {
            say!("{text}");
        }
        let (count, seconds) = (self.differences.len(), self.seconds);
        let calls = self.in_place.calls + self.linked.calls + self.by_value.calls;
        let rate = calls as f64 / seconds;
        let seed = campaign.seed;
        say!("seed {seed}, {seconds:.0} s, {rate:.0} calls a second, {count} differences");
        if count > 0 {
            wrong.push("the port and the Rust differ".to_owned());
        }
        if wrong.is_empty() {
            Ok(())
        } else {
            Err(wrong.join("\n"))
        }
    }
}

/// The scripts of one thread.
struct Worker {
    campaign: Campaign,
    number: u64,
    in_place: Beside,
    linked: Beside,
    by_value: Beside,
    reconnects: Reconnects,
    differences: Vec<String>,
}

impl Worker {
    fn new(campaign: Campaign, number: u64) -> Self {
        Self {
            campaign,
            number,
            in_place: Beside::new(super::run, Drive::InPlace),
            linked: Beside::new(super::linked::run, Drive::Linked),
            by_value: Beside::new(super::run, Drive::ByValue),
            reconnects: Reconnects::default(),
            differences: Vec::new(),
        }
    }

    fn run(mut self) -> Found {
        self.classes();
        self.rounds();
        Found {
            in_place: self.in_place.observer.counts,
            linked: self.linked.observer.counts,
            by_value: self.by_value.observer.counts,
            reconnects: self.reconnects,
            differences: self.differences,
            seconds: 0.0,
        }
    }

    fn classes(&mut self) {
        let threads = self.campaign.threads;
        let mut place = 0;
        for class in CLASSES {
            // All classes but this one are small enough to be carried out by value too.
            let large = class.name == "exhaustive";
            (class.cases)(&rounds::FIXED, 0, &mut |case| {
                if place % threads == self.number {
                    self.compare(case, !large || place % SHARE == 0);
                }
                place += 1;
            });
        }
        twice_pairs(&rounds::FIXED, 0, &mut |pair| {
            if place % threads == self.number {
                self.reconnects(&pair, true);
            }
            place += 1;
        });
    }

    fn rounds(&mut self) {
        let Campaign {
            calls,
            seed,
            threads,
            ..
        } = self.campaign;
        let rounds = calls.div_ceil(rounds::CALLS);
        for round in (self.number..rounds).step_by(threads as usize) {
            let mut place = round;
            rounds::cases(seed, round, &mut |case| {
                self.compare(case, place % SHARE == 0);
                place += 1;
            });
            rounds::pairs(seed, round, &mut |pair| {
                let shared = place % SHARE == 0;
                self.reconnects(&pair, shared);
                self.compare(pair.once.case, shared);
                self.compare(pair.twice.case, shared);
                place += 1;
            });
            if self.has_enough() {
                break;
            }
        }
    }

    fn has_enough(&self) -> bool {
        self.differences.len() >= ENOUGH
    }

    /// Whether a script is carried out in this way; `shared` is whether it is one of those that go by value too.
    fn wants(&self, drive: Drive, shared: bool) -> bool {
        match self.campaign.drives {
            Drives::All => shared || drive != Drive::ByValue,
            Drives::Only(only) => drive == only,
        }
    }

    /// Compares what follows two reconnects with what follows one, in the Rust and in the ways
    /// that are asked for.
    fn reconnects(&mut self, pair: &Pair, shared: bool) {
        let mut observer = Observer::default();
        let mut rust = |script: &[u8], output| answers_of(script, output, &mut observer);
        let found = self.reconnects.difference(pair, &mut rust);
        self.differences
            .extend(found.map(|text| format!("the Rust: {text}")));
        for drive in [Drive::InPlace, Drive::Linked, Drive::ByValue] {
            if self.wants(drive, shared) {
                let mut port = |script: &[u8], output| super::answers(script, output, drive);
                let found = self.reconnects.difference(pair, &mut port);
                self.differences
                    .extend(found.map(|text| format!("{drive}: {text}")));
            }
        }
    }

    /// Compares a script in the ways that are asked for.
    fn compare(&mut self, mut case: Case, shared: bool) {
        if self.has_enough() {
            return;
        }
        let wanted =
            [Drive::InPlace, Drive::Linked, Drive::ByValue].map(|drive| self.wants(drive, shared));
        let besides = [&mut self.in_place, &mut self.linked, &mut self.by_value];
        for (beside, wanted) in besides.into_iter().zip(wanted) {
            if wanted && beside.difference(&mut case).is_some() {
                let text = describe(&case, beside.host, beside.drive);
                self.differences.push(text);
            }
        }
    }
}
