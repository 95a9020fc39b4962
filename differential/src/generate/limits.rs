//! Scripts that crowd the limits of sizes, batches, ids and clocks.

use super::build::{
    Builder, Case, LONG, binary, drain, flush, in_transaction, message, part, plain_send, receipt,
    replay_last, send, send_at, send_error, snapshot, take, text, time_out,
};
use crate::operations::{Message, Operation, ReceiptId, SourceId};

pub const COVERS: &str = "message limits 0, 1, 4,096, 4,097 with payloads at, below and above; \
     batch counts and sizes at, below and above; ids around 2^63 and 2^64; repeated ids; clocks \
     that go back; settings changed while a batch is open; alternating transactions; half-taken \
     chunked messages before replays";

pub fn cases(each: &mut dyn FnMut(Case)) {
    message_limits(each);
    batch_limits(each);
    ids(each);
    repeated_ids(each);
    clocks(each);
    changed_settings(each);
    transactions(each);
    half_taken(each);
    fields(each);
    receipts(each);
    closed(each);
}

/// C1, C2, C3 and their neighbours, with batching and chunking on and off.
fn message_limits(each: &mut dyn FnMut(Case)) {
    for limit in [0_u64, 1, 5, 4_096, 4_097] {
        for over in [-1_i64, 0, 1, 3] {
            let length = limit.saturating_add_signed(over);
            for switches in 0..4 {
                let mut builder = Builder::new(&binary(length as usize + 1));
                builder
                    .op(Operation::SetMaxMessageSize(limit))
                    .op(Operation::SetChunkingEnabled(switches & 1 == 1))
                    .op(Operation::SetBatchingEnabled(switches & 2 == 2))
                    .send(message(length))
                    .send(message(0))
                    .op(flush());
                for _ in 0..3 {
                    builder.take();
                }
                each(builder.take().take().dump().end());
            }
        }
    }
}

/// Counts and sums at, below and above their limits, B3 among them.
fn batch_limits(each: &mut dyn FnMut(Case)) {
    for count in [0, 1, 2, 3] {
        for bytes in [0, 1, 5, 6, 7] {
            for num_messages in [-1, 0, 1, 2, 3] {
                let mut builder = Builder::new(&text(8));
                builder.batching(count, bytes);
                for length in [0, 3, 3, 1] {
                    let can = Operation::CanAddToBatch {
                        payload_size: length,
                        num_messages,
                    };
                    let joins = Message {
                        num_messages,
                        ..message(length)
                    };
                    builder.op(can).send(joins);
                }
                each(builder.op(flush()).take().take().dump().end());
            }
        }
    }
}

/// S1, S2, S3, B2, and receipts for such ids.
fn ids(each: &mut dyn FnMut(Case)) {
    for next in [
        0,
        1,
        2,
        (1 << 63) - 1,
        1 << 63,
        (1 << 63) + 1,
        u64::MAX - 1,
        u64::MAX,
    ] {
        for batching in [false, true] {
            let mut builder = Builder::new(&text(5));
            builder
                .op(Operation::SetBatchingEnabled(batching))
                .op(Operation::SetInitialSequenceId(next))
                .dump()
                .send(message(5))
                .send(message(2))
                .dump()
                .op(flush())
                .take()
                .op(receipt(next.wrapping_add(1)))
                .dump()
                .op(receipt(next))
                .op(Operation::SetInitialSequenceId(0));
            each(builder.dump().end());
        }
    }
}

/// Two entries with one id: settled, failed, timed out, replayed, sent again.
fn repeated_ids(each: &mut dyn FnMut(Case)) {
    let first = [receipt(3), send_error(3), time_out(13)];
    let repairs = [
        Operation::ReplaySnapshots(Vec::new()),
        Operation::ReplayPendingOutbound,
        send_at(message(1), 4),
        Operation::SetInitialSequenceId(3),
    ];
    for settle in &first {
        for repair in &repairs {
            let mut builder = Builder::new(&text(6));
            builder
                .op(Operation::SetSendTimeout(Some(10)))
                .op(Operation::SetInitialSequenceId(3))
                .op(send_at(message(2), 3))
                .op(Operation::SetInitialSequenceId(3))
                .op(send_at(message(4), 8))
                .op(Operation::SetInitialSequenceId(3))
                .op(send_at(message(6), 9))
                .op(settle.clone())
                .dump()
                .op(receipt(3))
                .op(repair.clone())
                .dump()
                .op(receipt(3))
                .op(send_error(3))
                .take()
                .take();
            each(builder.dump().end());
        }
    }
}

/// The search for due entries stops at the first that has time left.
fn clocks(each: &mut dyn FnMut(Case)) {
    for times in [[10, 5, 20], [20, 5, 10], [5, 5, 5], [30, 20, 10]] {
        for timeout in [None, Some(0), Some(7)] {
            for batching in [false, true] {
                let mut builder = Builder::new(&text(4));
                builder
                    .op(Operation::SetBatchingEnabled(batching))
                    .op(Operation::SetSendTimeout(timeout))
                    .op(Operation::SetBatchingMaxPublishDelay(timeout))
                    .op(Operation::NextSendDeadline);
                for now in times {
                    builder.op(send_at(message(4), now));
                }
                builder
                    .op(Operation::NextSendDeadline)
                    .op(Operation::NextBatchDeadline);
                for now in [4, 5, 12, 16, 17, 18, 27] {
                    builder
                        .op(Operation::BatchDeadlineElapsed { now })
                        .op(time_out(now));
                }
                builder
                    .op(receipt(1))
                    .take()
                    .op(Operation::NextSendDeadline);
                each(builder.dump().end());
            }
        }
    }
}

/// The batch stays open while what made it changes.
fn changed_settings(each: &mut dyn FnMut(Case)) {
    let changes = [
        Operation::SetBatchingEnabled(false),
        Operation::SetMaxMessagesInBatch(1),
        Operation::SetMaxMessagesInBatch(0),
        Operation::SetMaxBatchSizeBytes(2),
        Operation::SetMaxMessageSize(1),
        Operation::SetChunkingEnabled(true),
        Operation::SetName(b"other".to_vec()),
        Operation::SetInitialSequenceId(100),
        Operation::Close,
    ];
    for first in &changes {
        for second in &changes {
            let mut builder = Builder::new(&text(9));
            builder
                .op(Operation::SetName(b"one".to_vec()))
                .batching(10, 50)
                .send(message(3))
                .op(first.clone())
                .send(message(2))
                .op(second.clone())
                .op(plain_send(message(9)))
                .op(flush())
                .take()
                .take();
            each(builder.take().take().dump().end());
        }
    }
}

/// Another transaction flushes; none differs from one.
fn transactions(each: &mut dyn FnMut(Case)) {
    for pattern in 0_u64..27 {
        for limit in [0, 2, 100] {
            let mut builder = Builder::new(&text(4));
            builder
                .batching(4, 30)
                .op(Operation::SetMaxMessageSize(limit));
            for place in 0..3 {
                let transaction = (pattern / 3_u64.pow(place)) % 3;
                builder.send(match transaction {
                    0 => message(2),
                    least => in_transaction(2, least),
                });
            }
            builder.op(flush()).take().take().take();
            each(builder.dump().end());
        }
    }
}

/// Some chunks of a message are taken, then frames are replayed.
fn half_taken(each: &mut dyn FnMut(Case)) {
    let replays: [&[Operation]; 6] = [
        &[Operation::ReplayPendingOutbound],
        &[snapshot(), replay_last()],
        &[snapshot(), send(message(2)), replay_last()],
        &[drain(), replay_last()],
        &[snapshot(), replay_last(), replay_last()],
        &[receipt(1), Operation::ReplayPendingOutbound],
    ];
    for taken in 0..6 {
        for replay in replays {
            let mut builder = Builder::new(&binary(9));
            builder
                .chunking(3)
                .send(message(2))
                .send(message(9))
                .send(message(1))
                .times(taken, &take(LONG))
                .all(replay)
                .dump()
                .times(7, &take(LONG));
            each(builder.op(receipt(1)).dump().end());
        }
    }
}

/// Each field of a message alone, present, empty or false; single, batched and chunked.
fn fields(each: &mut dyn FnMut(Case)) {
    let source = SourceId {
        ledger: u64::MAX,
        entry: 1 << 63,
        partition: i32::MIN,
        batch_index: 0,
        batch_size: i32::MAX,
    };
    let base = message(4);
    #[rustfmt::skip]
    let messages = [
        base,
        Message { partition_key: Some(part(4, 4)), ..base },
        Message { partition_key: Some(part(4, 0)), ..base },
        Message { ordering_key: Some(part(1, 6)), ..base },
        Message { ordering_key: Some(part(7, 0)), ..base },
        Message { schema_version: Some(part(2, 2)), ..base },
        Message { schema_version: Some(part(0, 0)), ..base },
        Message { name: part(2, 4), ..base },
        Message { event_time: Some(0), ..base },
        Message { event_time: Some(u64::MAX), ..base },
        Message { null_value: Some(false), ..base },
        Message { null_value: Some(true), ..base },
        Message { null_partition_key: Some(false), ..base },
        Message { null_partition_key: Some(true), ..base },
        Message { deliver_at_time: Some(-1), ..base },
        Message { compression: Some(0), ..base },
        Message { compression: Some(4), ..base },
        Message { compression: Some(-9), ..base },
        Message { uncompressed_size: u32::MAX, ..base },
        Message { num_messages: 5, ..base },
        Message { num_messages: i32::MIN, ..base },
        Message { source_id: Some(source), ..base },
        in_transaction(4, u64::MAX),
    ];
    for message in messages {
        for (batching, limit) in [(false, 9), (false, 3), (true, 9)] {
            let mut builder = Builder::new("abcdéß".as_bytes());
            builder
                .op(Operation::SetName(b"producer".to_vec()))
                .op(Operation::SetBatchingEnabled(batching))
                .chunking(limit)
                .send(message)
                .op(flush())
                .dump()
                .take()
                .take()
                .op(Operation::ReplayPendingOutbound);
            each(builder.take().op(receipt(0)).end());
        }
    }
}

/// I1, I2 and the other ways to leave parts of a message id out.
fn receipts(each: &mut dyn FnMut(Case)) {
    for present in 0..8 {
        let id = ReceiptId {
            ledger: 7,
            entry: 9,
            partition: (present & 1 == 1).then_some(4),
            batch_index: (present & 2 == 2).then_some(-5),
            batch_size: (present & 4 == 4).then_some(6),
        };
        let with_id = |producer_id, id| Operation::ApplyReceipt {
            producer_id,
            sequence_id: 0,
            id,
        };
        let mut builder = Builder::new(&text(3));
        builder.send(message(3)).op(with_id(1, Some(id)));
        builder.op(with_id(7, None)).dump();
        builder.op(Operation::SetInitialSequenceId(0));
        builder.send(message(2)).op(with_id(u64::MAX, None));
        each(builder.dump().end());
    }
}

/// A closed producer refuses sends and goes on with everything else.
fn closed(each: &mut dyn FnMut(Case)) {
    for batching in [false, true] {
        let mut builder = Builder::new(&text(9));
        builder
            .op(Operation::SetBatchingEnabled(batching))
            .op(Operation::SetSendTimeout(Some(1)))
            .op(Operation::SetBrokerReady(true))
            .send(message(9))
            .send(message(1))
            .send(message(2))
            .op(Operation::Close)
            .dump()
            .send(message(10))
            .op(plain_send(message(1)))
            .op(flush())
            .op(Operation::CanAddToBatch {
                payload_size: 0,
                num_messages: 1,
            })
            .take()
            .op(receipt(0))
            .op(snapshot())
            .op(replay_last())
            .op(Operation::ReplayPendingOutbound)
            .op(Operation::OutboundLen)
            .op(Operation::Stats)
            .op(time_out(6))
            .op(Operation::Close);
        each(builder.op(drain()).dump().end());
    }
}
