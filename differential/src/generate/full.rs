//! Scripts that fill the queue.

use super::build::{
    Builder, Case, LONG, OUTPUT, TABLE, binary, chunked_entry, drain, flush, in_transaction,
    message, part, plain_send, receipt, replay_last, send, single_entry, snapshot, take, text,
    time_out,
};
use crate::operations::{Message, Operation, TableEntry};

pub const COVERS: &str = "1,024 frames, C4's 1,024 and 1,025 chunks, 512 held messages, 256 \
     pending entries, one by one and all at once; places that are free again; the longest payload";

/// The ones short enough to be recorded.
pub fn cases(each: &mut dyn FnMut(Case)) {
    frames(each);
    pending(each, &batched_entries(256), OUTPUT);
    crammed(each);
}

/// The ones with large stores.
pub fn large_cases(each: &mut dyn FnMut(Case)) {
    for over in [0, 1] {
        let length = 16_777_216 + over;
        let mut builder = Builder::new(&binary(length as usize));
        builder
            .op(Operation::SetMaxMessageSize(16_777_216))
            .send(message(length))
            .op(take(16_777_216));
        builder.batching(2, 16_777_216).send(message(length));
        builder.chunking(4_194_304).send(message(length));
        builder.op(Operation::SetBatchingEnabled(false));
        builder.send(message(length)).op(take(16_777_400));
        each(builder.times(5, &take(1 << 22)).dump().end_with(1 << 26));
    }
    pending(each, &batched_entries(257), OUTPUT);
    let sends = vec![send(message(2)); 256];
    pending(each, &sends, 2 * OUTPUT);
    let batching = [Operation::SetBatchingEnabled(true)];
    pending(each, &[&batching, &sends[..]].concat(), 2 * OUTPUT);
}

/// 1,024 waiting frames, a message in the open batch and an entry whose frame is gone: what still
/// goes then, and what goes after one take.
fn frames(each: &mut dyn FnMut(Case)) {
    let attempts: [&[Operation]; 9] = [
        &[send(message(5))],
        &[plain_send(message(5))],
        &[send(message(6))],
        &[flush()],
        &[Operation::ReplayPendingOutbound],
        &[Operation::ReplaySnapshots(vec![single_entry(
            9,
            message(1),
        )])],
        &[Operation::ReplaySnapshots(vec![TableEntry::default()])],
        &[snapshot(), send(message(5)), replay_last(), replay_last()],
        &[
            Operation::SetChunkingEnabled(false),
            send(message(6)),
            send(in_transaction(6, 1)),
        ],
    ];
    let thousand = chunked_entry(70, message(5_120), 5, 1_024);
    for free in [0, 1] {
        for attempt in attempts {
            let mut builder = Builder::new(&text(5_121));
            builder
                .chunking(5)
                .send(message(2))
                .take()
                .batching(10, 20)
                .send(message(3))
                .op(Operation::ReplaySnapshots(vec![thousand]))
                .times(free, &take(LONG))
                .all(attempt)
                .op(Operation::OutboundLen)
                .take()
                .all(attempt);
            each(builder.op(Operation::Stats).end());
        }
    }
    c4(each);
}

/// C4: 1,024 chunks go, 1,025 do not; with a frame waiting 1,024 do not either.
fn c4(each: &mut dyn FnMut(Case)) {
    for length in [5_115, 5_116, 5_120, 5_121] {
        for before in [0, 1] {
            let mut builder = Builder::new(&text(5_121));
            builder.chunking(5).sent_in_chunks(length, before);
            each(builder.op(Operation::Stats).dump().end());
        }
    }
}

/// 256 pending entries, batched or single, replayed or sent; freed places serve again.
fn pending(each: &mut dyn FnMut(Case), fill: &[Operation], output: usize) {
    let one_more = Operation::ReplaySnapshots(vec![single_entry(9, message(1))]);
    let mut builder = Builder::new(&text(4));
    builder
        .op(Operation::SetSendTimeout(Some(3)))
        .send(message(2))
        .op(snapshot())
        .op(Operation::SetInitialSequenceId(0))
        .all(fill)
        .send(message(1))
        .op(plain_send(message(4)))
        .op(Operation::SetMaxMessageSize(0))
        .send(message(1))
        .op(Operation::SetMaxMessageSize(9))
        .op(one_more.clone())
        .op(replay_last())
        .op(receipt(100))
        .send(message(3))
        .send(message(3))
        .op(receipt(0))
        .op(one_more)
        .op(replay_last())
        .op(Operation::SnapshotPendingSends {
            dropped: TABLE,
            replay: 0,
        })
        .op(snapshot())
        .send(message(1))
        .op(replay_last())
        .op(replay_last());
    each(builder.op(drain()).end_with(output));
}

fn batched_entries(count: u64) -> Vec<Operation> {
    let entry = |sequence_id| TableEntry {
        sequence_id,
        ..TableEntry::default()
    };
    vec![Operation::ReplaySnapshots((0..count).map(entry).collect())]
}

/// 1,024 waiting frames, 512 held messages, one of them in the open batch, and 256 pending entries
/// at once: every refusal of a send in its order, and what goes again after a take or a receipt.
fn crammed(each: &mut dyn FnMut(Case)) {
    let long_key = Message {
        partition_key: Some(part(0, 1_025)),
        ..message(0)
    };
    let attempts = [
        send(message(1_026)),
        send(long_key),
        send(in_transaction(0, 1)),
        send(message(0)),
        plain_send(message(0)),
        Operation::SetMaxMessageSize(0),
        send(message(1)),
        send(in_transaction(1, 1)),
        Operation::SetMaxMessageSize(513),
        Operation::SetBatchingEnabled(false),
        plain_send(message(1)),
        Operation::SetBatchingEnabled(true),
        Operation::ReplaySnapshots(vec![chunked_entry(9, message(1), 1, 2)]),
        Operation::ReplaySnapshots(vec![single_entry(9, message(1))]),
        Operation::ReplayPendingOutbound,
    ];
    let mut builder = Builder::new(&text(1_025));
    builder
        .op(Operation::SetSendTimeout(Some(0)))
        .batching(1, 100)
        .times(256, &plain_send(message(0)))
        .send(message(0))
        .op(time_out(9))
        .chunking(1)
        .op(Operation::SetMaxBatchSizeBytes(512))
        .send(message(513))
        .op(receipt(256))
        .op(Operation::SetChunkingEnabled(false))
        .times(255, &plain_send(message(0)))
        .op(Operation::SetMaxMessagesInBatch(10))
        .op(plain_send(message(0)))
        .dump()
        .all(&attempts)
        .op(flush())
        .take()
        .all(&attempts)
        .op(flush())
        .take()
        .all(&attempts)
        .op(receipt(400))
        .all(&attempts)
        .op(Operation::SnapshotPendingSends {
            dropped: 255,
            replay: 0,
        })
        .op(Operation::Stats)
        .take()
        .op(drain())
        .send(message(0));
    each(builder.dump().end());
}
