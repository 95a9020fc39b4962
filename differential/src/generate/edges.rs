//! Scripts at the ends of lent tables, buffers and stores, and at the bounds of 3, 8 and 12.

use super::build::{
    Builder, Case, LONG, WHOLE, chunked_entry, flush, message, part, plain_send, receipt,
    replay_last, send_at, sending, single_entry, snapshot, take, text,
};
use crate::operations::{Kind, Message, Operation, Send, TableEntry};

pub const COVERS: &str = "tables and buffers at their length and one short; parts outside the \
     store, at a send and at a take; bounds of 3, 8 and 12 at their value and one over";

pub fn cases(each: &mut dyn FnMut(Case)) {
    tables(each);
    buffers(each);
    parts_at_a_send(each);
    parts_at_a_take(each);
    bounds_of_a_send(each);
    bounds_of_settings(each);
    replay_tables(each);
}

/// Tables with exactly enough places, and one short.
fn tables(each: &mut dyn FnMut(Case)) {
    for short in [0, 1] {
        let three = 3 - short;
        let attempts = [
            Operation::DrainPendingSends { table: 5 - short },
            Operation::DrainTimedOutSends {
                now: 99,
                table: 5 - short,
            },
            Operation::DrainTimedOutSends {
                now: 12,
                table: 2 - short,
            },
            Operation::SnapshotPendingSends {
                dropped: 2,
                replay: three,
            },
            Operation::SnapshotPendingSends {
                dropped: 2 - short,
                replay: 3,
            },
            Operation::SnapshotPendingSends {
                dropped: 2 - short,
                replay: three,
            },
        ];
        for attempt in attempts {
            let mut builder = Builder::new(&text(9));
            builder
                .op(Operation::SetSendTimeout(Some(2)))
                .chunking(5)
                .op(send_at(message(3), 4))
                .op(send_at(message(9), 10))
                .op(Operation::SetBatchingEnabled(true))
                .op(send_at(message(2), 11))
                .op(send_at(message(1), 11))
                .op(Operation::SetBatchingEnabled(false))
                .op(send_at(message(4), 12))
                .op(attempt.clone())
                .dump()
                .op(attempt)
                .op(replay_last());
            each(builder.dump().end());
        }
    }
}

/// Buffers with exactly enough room, and one short: single, chunks, batch.
fn buffers(each: &mut dyn FnMut(Case)) {
    let short_takes = |builder: &mut Builder, length: u64| {
        for buffer in [0, length.saturating_sub(1), length] {
            builder.op(take(buffer));
        }
    };
    let key = Message {
        partition_key: Some(part(0, 4)),
        event_time: Some(300),
        ..message(5)
    };
    let mut builder = Builder::new(&text(9));
    builder.chunking(5).send(message(5)).send(message(9));
    builder
        .batching(10, 100)
        .send(key)
        .send(message(0))
        .op(flush());
    for length in [5, 5, 4, 4 + 2 + 6 + 3 + 5 + 4 + 2] {
        short_takes(&mut builder, length);
    }
    each(builder.op(take(0)).dump().end());
    let mut empty = Builder::new(b"");
    empty.send(message(0)).op(take(0)).op(take(0));
    each(empty.chunking(0).send(message(0)).op(take(0)).end());
}

/// Each part of a message one past the end, far past it, and past the range of numbers.
fn parts_at_a_send(each: &mut dyn FnMut(Case)) {
    let base = message(4);
    for at in [
        part(5, 4),
        part(8, 0),
        part(9, 0),
        part(u64::MAX, 0),
        part(2, u64::MAX),
    ] {
        #[rustfmt::skip]
        let messages = [
            Message { payload: at, ..base },
            Message { partition_key: Some(at), ..base },
            Message { ordering_key: Some(at), ..base },
            Message { schema_version: Some(at), ..base },
            Message { name: at, ..base },
        ];
        for message in messages {
            let mut builder = Builder::new(&text(8));
            builder.send(message).op(plain_send(message));
            builder.op(Operation::Close).send(message);
            each(builder.op(Operation::OutboundLen).end());
        }
    }
    for lent in [0, 3, 4, 8, WHOLE] {
        let lent_part = Send {
            lent_store: lent,
            ..sending(base)
        };
        let mut builder = Builder::new(&text(8));
        builder.op(Operation::QueueSendReserved(lent_part));
        each(builder.op(Operation::QueueSend(lent_part)).dump().end());
    }
}

/// A store that is too short for the front frame: each part, single, chunk and batch frames.
fn parts_at_a_take(each: &mut dyn FnMut(Case)) {
    let messages = [
        message(6),
        Message {
            payload: part(2, 4),
            partition_key: Some(part(6, 2)),
            ..message(0)
        },
        Message {
            payload: part(2, 4),
            ordering_key: Some(part(7, 0)),
            ..message(0)
        },
        Message {
            payload: part(2, 4),
            schema_version: Some(part(1, 6)),
            ..message(0)
        },
        Message {
            payload: part(2, 4),
            name: part(6, 1),
            ..message(0)
        },
        Message {
            payload: part(2, 4),
            name: part(8, 0),
            ..message(0)
        },
    ];
    for message in messages {
        for way in 0..3 {
            let mut builder = Builder::new(&text(8));
            builder.op(Operation::SetBatchingEnabled(way == 2));
            builder.chunking(if way == 1 { 3 } else { 6 }).send(message);
            builder.op(flush());
            for lent_store in [0, 2, 4, 5, 6, 7, 8, 8] {
                for buffer in [LONG, 0] {
                    builder.op(Operation::NextOutboundFrame { buffer, lent_store });
                }
            }
            each(builder.op(Operation::OutboundLen).end());
        }
    }
    outside_entries(each);
}

/// Replay entries with parts outside the store are taken and refused at the take; of a chunked
/// one the chunks before are not.
fn outside_entries(each: &mut dyn FnMut(Case)) {
    for at in [
        part(3, 6),
        part(9, 3),
        part(u64::MAX - 1, 6),
        part(0, 16_777_216),
    ] {
        let outside = Message {
            payload: at,
            ..message(0)
        };
        let key = Message {
            partition_key: Some(part(6, 3)),
            ..message(2)
        };
        let size = at.length.div_ceil(3) as u32;
        let mut builder = Builder::new(&text(8));
        builder
            .op(Operation::ReplaySnapshots(vec![
                chunked_entry(1, outside, size, 3),
                single_entry(2, key),
                single_entry(3, outside),
                TableEntry {
                    sequence_id: 4,
                    message: outside,
                    ..TableEntry::default()
                },
            ]))
            .times(4, &take(LONG))
            .dump()
            .op(receipt(2))
            .op(snapshot());
        each(builder.op(replay_last()).take().end());
    }
}

/// The bounds of 3 at their value and one over; the payload's stands in `large_cases`.
fn bounds_of_a_send(each: &mut dyn FnMut(Case)) {
    let base = message(4);
    for over in [0, 1] {
        let key = Some(part(0, 1_024 + over));
        #[rustfmt::skip]
        let messages = [
            base,
            Message { partition_key: key, ..base },
            Message { ordering_key: key, ..base },
            Message { schema_version: key, ..base },
            Message { name: part(0, 64 + over), ..base },
        ];
        for (place, message) in messages.into_iter().enumerate() {
            for batching in [false, true] {
                let reserved = (1 << 40) - 1 + if place == 0 { over } else { 0 };
                let whole = Send {
                    reserved,
                    ..sending(message)
                };
                let mut builder = Builder::new(&text(1_025));
                builder
                    .op(Operation::SetBatchingEnabled(batching))
                    .op(Operation::QueueSendReserved(whole))
                    .op(plain_send(message))
                    .op(flush())
                    .take();
                each(builder.op(receipt(0)).end());
            }
        }
    }
}

fn bounds_of_settings(each: &mut dyn FnMut(Case)) {
    let mut builder = Builder::new(b"");
    for value in [
        0,
        1,
        127,
        128,
        129,
        16_777_215,
        16_777_216,
        16_777_217,
        u64::MAX,
    ] {
        builder
            .op(Operation::SetMaxMessageSize(value))
            .op(Operation::SetMaxBatchSizeBytes(value))
            .op(Operation::SetMaxMessagesInBatch(value))
            .dump();
    }
    for length in [63, 64, 65, 300] {
        builder.op(Operation::SetName(text(length))).dump();
    }
    builder.op(Operation::SetName(Vec::new())).dump();
    builder
        .op(Operation::SetName("Ölbörse".as_bytes().to_vec()))
        .dump();
    let far = (1 << 62) - 1;
    builder.op(Operation::SetSendTimeout(Some(far))).dump();
    each(
        builder
            .op(Operation::SetBatchingMaxPublishDelay(Some(0)))
            .dump()
            .end(),
    );
}

/// 12, each bound at its value and one over, and chunk counts that do not belong.
fn replay_tables(each: &mut dyn FnMut(Case)) {
    let base = message(4);
    for over in [0, 1] {
        let key = Some(part(0, 1_024 + over));
        #[rustfmt::skip]
        let messages = [
            Message { payload: part(0, 16_777_216 + over), ..base },
            Message { partition_key: key, ..base },
            Message { ordering_key: key, ..base },
            Message { schema_version: key, ..base },
            Message { name: part(0, 64 + over), ..base },
        ];
        for message in messages {
            for kind in [Kind::Batched, Kind::Single, Kind::Chunked] {
                let size = message.payload.length as u32;
                let entry = TableEntry {
                    kind,
                    ..chunked_entry(5, message, size, 1)
                };
                let mut builder = Builder::new(&text(1_025));
                builder.op(Operation::ReplaySnapshots(vec![
                    single_entry(1, base),
                    entry,
                ]));
                each(builder.take().take().dump().end());
            }
        }
        for kind in [Kind::Batched, Kind::Single, Kind::Chunked] {
            let reserved = (1 << 40) - 1 + over;
            let entry = TableEntry {
                kind,
                reserved,
                ..chunked_entry(5, base, 4, 1)
            };
            let mut builder = Builder::new(&text(8));
            builder.op(Operation::ReplaySnapshots(vec![entry]));
            each(builder.take().dump().op(receipt(5)).dump().end());
        }
    }
    for (size, count) in [
        (0, 1),
        (0, 0),
        (0, 2),
        (1, 9),
        (1, 8),
        (4, 3),
        (4, 2),
        (9, 1),
        (10, 1),
        (u32::MAX, 1),
    ] {
        for length in [9, 0] {
            let entry = chunked_entry(5, message(length), size, count);
            let mut builder = Builder::new(&text(9));
            builder.op(Operation::ReplaySnapshots(vec![entry]));
            builder.op(Operation::OutboundLen);
            each(builder.take().take().dump().end());
        }
    }
    let far = chunked_entry(5, message(16_777_216), 1, 16_777_216);
    let mut builder = Builder::new(b"");
    builder.op(Operation::ReplaySnapshots(vec![far]));
    each(builder.dump().end());
}
