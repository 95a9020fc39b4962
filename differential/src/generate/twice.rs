//! Scripts with a reconnect, and the same ones with two in a row.

use super::LONG_OUTPUT;
use super::build::{
    Builder, Case, LONG, binary, flush, message, receipt, replay_last, send_at, send_error,
    snapshot, take, time_out,
};
use super::long::{self, Mood};
use super::random::Random;
use crate::answers::ENDING;
use crate::operations::Operation;
use crate::run::{Observer, answers_of};

pub const COVERS: &str = "a snapshot and the replay of its whole table, once and twice in a row \
     (document 02, K14), after batches that are open or wait, half-taken chunks, repeated ids, \
     receipts, errors and timeouts, and after random calls; then a dump, and takes until no frame \
     waits";

/// A script, and where what follows its reconnects begins.
pub struct Side {
    pub case: Case,
    pub follows: usize,
}

/// The same calls, with one reconnect and with two, and the same calls behind them.
pub struct Pair {
    pub once: Side,
    pub twice: Side,
}

impl Pair {
    fn after(mut before: Builder) -> Self {
        reconnect(&mut before);
        let takes = 1 + waiting(before.clone());
        let once = side(before.clone(), takes);
        let twice = side(reconnect(&mut before).clone(), takes);
        Self { once, twice }
    }
}

fn reconnect(builder: &mut Builder) -> &mut Builder {
    builder.op(snapshot()).op(replay_last())
}

/// How many frames wait after these calls, by the Rust.
fn waiting(mut builder: Builder) -> usize {
    let case = builder.op(Operation::OutboundLen).end_with(LONG_OUTPUT);
    let mut answers = answers_of(&case.script, case.output, &mut Observer::default());
    answers.truncate(answers.len() - ENDING as usize);
    let count = answers.last_chunk().expect("the count of frames");
    u64::from_le_bytes(*count) as usize
}

fn side(mut builder: Builder, takes: usize) -> Side {
    let follows = builder.length();
    builder.dump().times(takes, &take(LONG));
    Side {
        case: builder.end_with(LONG_OUTPUT),
        follows,
    }
}

/// The pairs that need no chance.
pub fn pairs(each: &mut dyn FnMut(Pair)) {
    half_taken(each);
    too_many(each);
}

/// Every number of frames taken of a single one, two messages in three chunks with one id, and a
/// batch, with another batch open or not, and an entry settled or not.
fn half_taken(each: &mut dyn FnMut(Pair)) {
    let settles: [&[Operation]; 5] = [
        &[],
        &[receipt(1)],
        &[send_error(0)],
        &[time_out(13)],
        &[Operation::Close],
    ];
    for taken in 0..=8 {
        for open in [false, true] {
            for settle in settles {
                let mut before = Builder::new(&binary(9));
                before
                    .op(Operation::SetBrokerReady(true))
                    .op(Operation::SetSendTimeout(Some(10)))
                    .chunking(3)
                    .op(send_at(message(2), 3))
                    .op(send_at(message(9), 4))
                    .op(Operation::SetInitialSequenceId(1))
                    .op(send_at(message(7), 5))
                    .batching(4, 20)
                    .op(send_at(message(1), 6))
                    .op(send_at(message(2), 7))
                    .op(flush())
                    .times(usize::from(open), &send_at(message(3), 8))
                    .times(taken, &take(LONG))
                    .all(settle);
                each(Pair::after(before));
            }
        }
    }
}

/// With what was sent since some of 1,024 chunks were taken, all of them are as many as can wait,
/// or one more: then 4 refuses the first replay.
fn too_many(each: &mut dyn FnMut(Pair)) {
    for taken in [0, 1] {
        let mut before = Builder::new(&binary(1_023));
        before
            .chunking(1)
            .op(send_at(message(1_023), 3))
            .op(send_at(message(1), 4))
            .times(taken, &take(LONG))
            .op(send_at(message(1), 5));
        each(Pair::after(before));
    }
}

/// After random calls.
pub fn random_pair(random: &mut Random) -> Pair {
    let mood = random.pick(&[Mood::Even, Mood::Crowded]);
    let length = 1 + random.below(120) as usize;
    Pair::after(long::walk(random, mood, length))
}
