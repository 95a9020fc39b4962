//! How often each operation, answer and refusal occurred.

use std::collections::BTreeMap;
use std::fmt;

use crate::answers::{Answer, Ending};
use crate::operations::CODES;

#[derive(Debug, Default)]
pub struct Counts {
    pub scripts: u64,
    pub calls: u64,
    answers: BTreeMap<(u8, &'static str), u64>,
    refusals: BTreeMap<(u8, u8), u64>,
    endings: BTreeMap<&'static str, u64>,
}

impl Counts {
    pub fn answer(&mut self, code: u8, answer: &Answer) {
        self.calls += 1;
        match answer {
            Answer::Refused(number) => *self.refusals.entry((code, *number)).or_default() += 1,
            Answer::TooLarge { .. } => *self.refusals.entry((code, 6)).or_default() += 1,
            _ => *self.answers.entry((code, kind(answer))).or_default() += 1,
        }
    }

    pub fn ending(&mut self, ending: Ending) {
        let name = match ending {
            Ending::End => "end",
            Ending::Malformed => "malformed",
            Ending::NoRoom => "no room",
            Ending::NotComparable => "not comparable",
        };
        *self.endings.entry(name).or_default() += 1;
    }

    pub fn add(&mut self, other: &Self) {
        self.scripts += other.scripts;
        self.calls += other.calls;
        for (key, count) in &other.answers {
            *self.answers.entry(*key).or_default() += count;
        }
        for (key, count) in &other.refusals {
            *self.refusals.entry(*key).or_default() += count;
        }
        for (key, count) in &other.endings {
            *self.endings.entry(key).or_default() += count;
        }
    }

    /// What a run must have met and has not: an operation carried out, a refusal that
    /// document 01 gives to an operation, or a send in chunks at a headroom that the Rust has not.
    pub fn missing(&self) -> Vec<String> {
        let mut missing = Vec::new();
        for (code, name) in CODES {
            if !self.answers.keys().any(|(done, _)| *done == code) {
                missing.push(format!("{name} was never carried out"));
            }
            for number in refusals_of(code) {
                if !self.refusals.contains_key(&(code, *number)) {
                    missing.push(format!("{name} was never refused by {number}"));
                }
            }
            if matches!(code, 0x01 | 0x02) && !self.answers.contains_key(&(code, CUT)) {
                missing.push(format!("{name} never cut a message at another headroom"));
            }
        }
        missing
    }

    /// A refusal that document 01 does not give to its operation.
    pub fn unknown(&self) -> Vec<String> {
        let unknown = |key: &&(u8, u8)| !refusals_of(key.0).contains(&key.1);
        let keys = self.refusals.keys().filter(unknown);
        keys.map(|(code, number)| format!("{code:#04x} was refused by {number}"))
            .collect()
    }
}

/// What a send answers that the Rust cannot judge.
const CUT: &str = "Emit at another headroom";

/// Document 01, "Who can cause a refusal": the numbers that can refuse an operation.
fn refusals_of(code: u8) -> &'static [u8] {
    match code {
        0x01 => &[1, 2, 3, 4, 5, 6, 7],
        0x02 => &[1, 2, 3, 4, 5, 6, 7],
        0x03 | 0x0C => &[4],
        0x04 => &[2, 9, 10],
        0x05 | 0x06 => &[11],
        0x07..=0x09 => &[9],
        0x0A => &[4, 7, 12],
        0x0B => &[4, 7],
        0x10..=0x13 | 0x1A => &[8],
        _ => &[],
    }
}

/// The answer's kind, in words.
fn kind(answer: &Answer) -> &'static str {
    match answer {
        Answer::Refused(_) | Answer::TooLarge { .. } => "refused",
        Answer::Done => "done",
        Answer::Batched => "Batched",
        Answer::Emit(1) => "Emit 1",
        Answer::Emit(_) => "Emit more",
        Answer::Cut(_) => CUT,
        Answer::Count(0) => "0",
        Answer::Count(_) => "more than 0",
        Answer::Yes(true) => "yes",
        Answer::Yes(false) => "no",
        Answer::Deadline(None) => "none",
        Answer::Deadline(Some(_)) => "a deadline",
        Answer::Frame(frame) if frame.metadata.num_messages_in_batch.is_some() => "batch frame",
        Answer::Frame(frame) if frame.metadata.chunk_id.is_some() => "chunk frame",
        Answer::Frame(_) => "single frame",
        Answer::Receipt(_, entry) | Answer::SendError(_, entry) => match &entry.replays {
            None => "batched entry",
            Some(sent) if sent.chunks.is_some() => "chunked entry",
            Some(_) => "single entry",
        },
        Answer::Entries(entries) if entries.is_empty() => "no entry",
        Answer::Entries(_) => "entries",
        Answer::Snapshot { dropped, replay } => match (dropped.is_empty(), replay.is_empty()) {
            (true, true) => "no entry",
            (false, true) => "dropped only",
            (true, false) => "replay only",
            (false, false) => "both tables",
        },
        Answer::Stats(_) | Answer::Dump(_) => "values",
    }
}

impl fmt::Display for Counts {
    fn fmt(&self, f: &mut fmt::Formatter<'_>) -> fmt::Result {
        writeln!(f, "{} scripts, {} calls", self.scripts, self.calls)?;
        for (code, name) in CODES {
            let answers = self.answers.iter().filter(|((of, _), _)| *of == code);
            let refusals = self.refusals.iter().filter(|((of, _), _)| *of == code);
            let counts = answers.clone().map(|(_, count)| count);
            let calls: u64 = counts.chain(refusals.clone().map(|(_, count)| count)).sum();
            let answers = answers.map(|((_, kind), count)| format!("{kind} {count}"));
            let refusals = refusals.map(|((_, by), count)| format!("refused by {by}: {count}"));
            let all: Vec<String> = answers.chain(refusals).collect();
            if !all.is_empty() {
                writeln!(f, "  {name:31} {calls:9}: {}", all.join(", "))?;
            }
        }
        let by_number = (1..=12).map(|number| {
            let of = self.refusals.iter().filter(|((_, by), _)| *by == number);
            format!("{number}: {}", of.map(|(_, count)| count).sum::<u64>())
        });
        writeln!(
            f,
            "  refusals  {}",
            by_number.collect::<Vec<_>>().join(", ")
        )?;
        let endings = self
            .endings
            .iter()
            .map(|(name, count)| format!("{name} {count}"));
        write!(f, "  endings   {}", endings.collect::<Vec<_>>().join(", "))
    }
}
