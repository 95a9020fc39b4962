//! Every script up to a length over small alphabets of operations.

use super::build::{
    Builder, Case, chunked_entry, drain, flush, in_transaction, message, plain_send, receipt,
    replay_last, send, send_at, send_error, single_entry, snapshot, take, text, time_out,
};
use crate::operations::{Message, Operation, SourceId};

pub const COVERS: &str = "every sequence of operations up to a length, over two alphabets of \
     sixteen operations: one of batches, chunks and single frames with what can happen to them, \
     with chunking on and off; one of repeated ids, receipts, tables and replays; and longer ones \
     over seven of them";

/// Sends that join, that join with another transaction, that are chunked, that stand alone; and
/// what can happen to them.
fn batches() -> Vec<Operation> {
    let alone = Message {
        source_id: Some(SourceId {
            ledger: 1,
            entry: 2,
            partition: -1,
            batch_index: -1,
            batch_size: 0,
        }),
        ..message(3)
    };
    vec![
        send(message(3)),
        send_at(in_transaction(2, 9), 3),
        plain_send(message(9)),
        send(message(12)),
        send_at(alone, 8),
        flush(),
        take(64),
        receipt(0),
        send_error(1),
        snapshot(),
        replay_last(),
        Operation::ReplayPendingOutbound,
        time_out(12),
        Operation::SetInitialSequenceId(0),
        Operation::SetBatchingEnabled(false),
        drain(),
    ]
}

/// Entries with the same few ids, and every way in and out of the queue.
fn ids() -> Vec<Operation> {
    vec![
        send_at(message(3), 6),
        send_at(message(12), 1),
        Operation::SetInitialSequenceId(0),
        Operation::SetInitialSequenceId(u64::MAX),
        receipt(0),
        receipt(u64::MAX),
        send_error(0),
        take(64),
        time_out(7),
        Operation::SnapshotPendingSends {
            dropped: 1,
            replay: 2,
        },
        Operation::ReplayLastSnapshot { entries: 1 },
        Operation::ReplaySnapshots(Vec::new()),
        Operation::ReplaySnapshots(vec![
            chunked_entry(0, message(4), 2, 2),
            single_entry(1, message(1)),
        ]),
        Operation::ReplayPendingOutbound,
        Operation::SetBatchingEnabled(true),
        Operation::Close,
    ]
}

/// Few enough for longer scripts.
fn few() -> Vec<Operation> {
    vec![
        send(message(3)),
        send(message(12)),
        flush(),
        take(64),
        receipt(0),
        snapshot(),
        replay_last(),
    ]
}

fn begin(batching: bool, chunking: bool) -> Builder {
    let mut builder = Builder::new(&text(12));
    builder
        .batching(3, 10)
        .op(Operation::SetBatchingEnabled(batching))
        .op(Operation::SetMaxMessageSize(8))
        .op(Operation::SetChunkingEnabled(chunking))
        .op(Operation::SetSendTimeout(Some(5)));
    builder
}

/// Hands over every script of at most `length` operations after the settings, or of at most
/// `few_length` over few operations.
pub fn cases(length: usize, few_length: usize, each: &mut dyn FnMut(Case)) {
    over(&batches(), length, &|| begin(true, true), each);
    over(&batches(), length, &|| begin(true, false), each);
    over(&ids(), length, &|| begin(false, true), each);
    over(&few(), few_length, &|| begin(true, true), each);
}

fn over(
    alphabet: &[Operation],
    length: usize,
    begin: &dyn Fn() -> Builder,
    each: &mut dyn FnMut(Case),
) {
    for length in 0..=length {
        for number in 0..alphabet.len().pow(length as u32) {
            let mut builder = begin();
            let mut rest = number;
            for _ in 0..length {
                builder.op(alphabet[rest % alphabet.len()].clone());
                rest /= alphabet.len();
            }
            each(builder.dump().end());
        }
    }
}
