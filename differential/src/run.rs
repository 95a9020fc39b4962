//! From a script to its answers.

use std::fs;
use std::panic::{AssertUnwindSafe, catch_unwind, resume_unwind};

use prost::Message as _;

use crate::answers::{Answer, Answers, Ending, room};
use crate::counts::Counts;
use crate::operations::Operation;
use crate::oracle::{Checks, Oracle, Step};
use crate::script::{Head, read_head, read_operation};

/// Where a script is kept on which the Rust and document 01 disagree.
const FAILING: &str = concat!(env!("CARGO_MANIFEST_DIR"), "/target/failing.script");
/// What the output holds before a run.
pub const UNTOUCHED: u8 = 0xA5;

/// What is kept of a run besides its answers.
#[derive(Default)]
pub struct Observer {
    pub counts: Counts,
    /// Command and metadata of every frame taken, encoded by prost.
    pub frames: Option<Vec<(Vec<u8>, Vec<u8>)>>,
    pub checks: Checks,
}

/// What carries out the operations of a script.
pub trait Producer {
    fn execute(&mut self, operation: &Operation) -> Step;
}

/// Carries out a script and writes its answers to the start of `out`; answers their length.
fn run(script: &[u8], out: &mut [u8], observer: &mut Observer) -> usize {
    let mut answers = Answers::new(out);
    observer.counts.scripts += 1;
    if !answers.has_room(0) {
        return 0;
    }
    let checks = observer.checks;
    let (ending, offset) = operations(
        script,
        &mut answers,
        |head| Oracle::new(head.handle, head.store, checks),
        |operation, answer| {
            observer.counts.answer(operation.code(), answer);
            if let (Some(frames), Answer::Frame(frame)) = (&mut observer.frames, answer) {
                let metadata = frame.metadata.encode_to_vec();
                frames.push((frame.command.encode_to_vec(), metadata));
            }
        },
    );
    observer.counts.ending(ending);
    answers.ending(ending, offset);
    answers.length()
}

/// Carries out the operations of a script by a new producer; `seen` is shown each answer. Answers how the run ended, and where.
pub fn operations<'a, P: Producer>(
    script: &'a [u8],
    answers: &mut Answers<'_>,
    new: impl FnOnce(&Head<'a>) -> P,
    mut seen: impl FnMut(&Operation, &Answer),
) -> (Ending, usize) {
    let Some(head) = read_head(script) else {
        return (Ending::Malformed, 0);
    };
    let mut producer = new(&head);
    let mut at = head.end;
    while at < script.len() {
        let Some((operation, next)) = read_operation(script, at) else {
            return (Ending::Malformed, at);
        };
        if !answers.has_room(room(&operation)) {
            return (Ending::NoRoom, at);
        }
        let Ok(answer) = producer.execute(&operation) else {
            return (Ending::NotComparable, at);
        };
        let before = answers.length() as u64;
        answers.answer(operation.code(), &answer);
        let written = answers.length() as u64 - before;
        assert!(written <= room(&operation), "an answer's room");
        seen(&operation, &answer);
        at = next;
    }
    (Ending::End, at)
}

/// Carries out a script. If the Rust and document 01 disagree, the script is kept in `FAILING` and
/// the run ends.
pub fn run_or_keep(script: &[u8], out: &mut [u8], observer: &mut Observer) -> usize {
    let length = catch_unwind(AssertUnwindSafe(|| run(script, out, observer)));
    length.unwrap_or_else(|disagreement| {
        eprintln!("{}", keep(FAILING, script));
        resume_unwind(disagreement)
    })
}

/// Keeps a script in a file, and says so.
pub fn keep(file: &str, script: &[u8]) -> String {
    match fs::write(file, script) {
        Ok(()) => format!("the script is in {file}"),
        Err(error) => format!("the script could not be kept: {error}"),
    }
}

/// Carries out a script with an output of this length.
pub fn answers_of(script: &[u8], output: usize, observer: &mut Observer) -> Vec<u8> {
    let mut out = vec![UNTOUCHED; output];
    let length = run_or_keep(script, &mut out, observer);
    assert_eq!(
        first_touched(&out[length..]),
        None,
        "bytes after the answers"
    );
    out.truncate(length);
    out
}

/// The first byte that does not hold what an output holds before a run.
pub fn first_touched(bytes: &[u8]) -> Option<usize> {
    bytes.iter().position(|byte| *byte != UNTOUCHED)
}
