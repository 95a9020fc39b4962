//! Scripts at headrooms other than 1,024 (document 02, K6).

use std::collections::BTreeSet;

use super::build::{
    Builder, Case, LONG, OUTPUT, WHOLE, binary, chunked_entry, drain, flush, message, plain_send,
    receipt, replay_last, send, snapshot, take, text,
};
use super::random::Random;
use crate::operations::Operation;

pub const COVERS: &str = "headrooms 0, 1, 1,024, 65,536 and between with limits on both sides of \
     four times the headroom; its bound of 8; chunks counted by 4; changes between the chunks of a \
     message and before its replay (document 02, K6)";

/// The ones short enough to be recorded.
pub fn cases(each: &mut dyn FnMut(Case)) {
    for headroom in [0, 1, 2] {
        for limit in around(headroom) {
            cuts(headroom, limit, OUTPUT, each);
        }
    }
    for headroom in [1_023, 1_024, 1_025] {
        for limit in 4 * headroom - 1..4 * headroom + 2 {
            let mut builder = Builder::new(&binary(limit as usize + 1));
            builder.op(set(headroom)).chunking(limit);
            builder.send(message(limit + 1)).take().take();
            each(builder.dump().end());
        }
    }
    bounds(each);
    chunks_counted(each);
    changed_between_chunks(each);
    tables_of_any_cut(each);
}

/// The ones with large stores.
pub fn large_cases(each: &mut dyn FnMut(Case)) {
    for headroom in [10, 1_023, 1_024, 1_025, 65_535, 65_536] {
        for limit in around(headroom) {
            cuts(headroom, limit, 1 << 22, each);
        }
    }
    longest_payload(each);
}

fn set(headroom: u64) -> Operation {
    Operation::SetMetadataReservation(headroom)
}

/// Limits next to four times the headroom, and small ones.
fn around(headroom: u64) -> BTreeSet<u64> {
    let four = 4 * headroom;
    [0, 1, 5, four.saturating_sub(1), four, four + 1].into()
}

/// Payloads at and above the limit, and with one byte in the last chunk; switches on and off; taken and replayed.
fn cuts(headroom: u64, limit: u64, output: usize, each: &mut dyn FnMut(Case)) {
    for over in [0, 1, headroom.min(limit), limit + 1] {
        let length = limit + over;
        for switches in 0..4 {
            let mut builder = Builder::new(&binary(length as usize + 1));
            builder
                .op(set(headroom))
                .op(Operation::SetMaxMessageSize(limit))
                .op(Operation::SetChunkingEnabled(switches & 1 == 1))
                .op(Operation::SetBatchingEnabled(switches & 2 == 2))
                .op(Operation::SetMaxBatchSizeBytes(limit))
                .send(message(0))
                .send(message(length))
                .op(Operation::MetadataReservation);
            let takes = take(LONG.max(limit + 64));
            builder
                .times(2, &takes)
                .op(flush())
                .dump()
                .op(snapshot())
                .op(replay_last())
                .times(5, &takes);
            each(builder.op(receipt(1)).dump().end_with(output));
        }
    }
}

/// 8 at the bound and one over, also on a closed producer.
fn bounds(each: &mut dyn FnMut(Case)) {
    for close in [false, true] {
        let mut builder = Builder::new(&text(9));
        builder.op(Operation::MetadataReservation).dump();
        if close {
            builder.op(Operation::Close);
        }
        for headroom in [
            0,
            1,
            65_535,
            65_536,
            65_537,
            1 << 32,
            u64::MAX / 4 + 1,
            u64::MAX,
        ] {
            builder
                .op(set(headroom))
                .op(Operation::MetadataReservation)
                .dump();
        }
        builder.chunking(5).send(message(9)).take().take();
        each(builder.dump().end());
    }
}

/// 4 goes by the headroom that is set: at 1 the limit of 5 makes chunks of 4, at 2 of 5.
fn chunks_counted(each: &mut dyn FnMut(Case)) {
    for headroom in [1, 2] {
        for length in [4_092, 4_093, 4_096, 4_097, 5_120, 5_121] {
            for before in [0, 1] {
                let mut builder = Builder::new(&text(5_121));
                builder.op(set(headroom)).chunking(5);
                builder.sent_in_chunks(length, before);
                each(builder.op(Operation::Stats).dump().end());
            }
        }
    }
}

/// A message keeps the size that it was cut with: at its takes, when it is put in front again, and at a replay.
fn changed_between_chunks(each: &mut dyn FnMut(Case)) {
    let changes: [&[Operation]; 4] = [
        &[set(0)],
        &[set(3)],
        &[Operation::SetMaxMessageSize(21), set(5)],
        &[Operation::SetChunkingEnabled(false), set(65_536)],
    ];
    for change in changes {
        for taken in 0..4 {
            for again in [
                Operation::ReplayPendingOutbound,
                replay_last(),
                drain(),
                Operation::OutboundLen,
            ] {
                let mut builder = Builder::new(&text(60));
                builder
                    .op(set(2))
                    .chunking(9)
                    .send(message(20))
                    .times(taken, &take(LONG))
                    .all(change)
                    .send(message(25))
                    .op(plain_send(message(60)))
                    .take();
                if again == replay_last() {
                    builder.op(snapshot());
                }
                builder.op(again).dump().times(12, &take(LONG));
                each(builder.op(receipt(0)).dump().end());
            }
        }
    }
}

/// 12 goes by the size in the entry, whatever is set.
fn tables_of_any_cut(each: &mut dyn FnMut(Case)) {
    for headroom in [0, 1, 65_536] {
        for (size, count) in [(4, 3), (4, 2), (5, 2), (5, 3), (9, 1), (1, 9), (0, 1)] {
            let entry = chunked_entry(5, message(9), size, count);
            let mut builder = Builder::new(&text(9));
            builder
                .op(set(headroom))
                .chunking(5)
                .op(Operation::ReplaySnapshots(vec![entry]))
                .times(4, &take(LONG));
            each(builder.dump().end());
        }
    }
}

/// A limit of 262,145 cuts the longest payload into 86 chunks at 65,536, and into 65 at 1,024.
fn longest_payload(each: &mut dyn FnMut(Case)) {
    let whole = message(16_777_216);
    for (headroom, chunks) in [(65_536, 86), (1_024, 65)] {
        for over in [0, 1] {
            let mut builder = Builder::new(&binary(16_777_216));
            builder
                .chunking(5)
                .op(set(2))
                .send(message(5 * (1_024 - chunks + over)))
                .op(set(headroom))
                .op(Operation::SetMaxMessageSize(262_145))
                .send(whole)
                .op(Operation::OutboundLen)
                .op(plain_send(whole));
            each(builder.times(2, &take(1 << 18)).dump().end_with(1 << 20));
        }
    }
}

/// A few calls around chunked messages, under limits and headrooms that change.
pub fn random_case(random: &mut Random) -> Case {
    let mut builder = Builder::with_handle(random.below(2) as u8, random.next(), &text(200));
    builder.op(Operation::SetChunkingEnabled(true));
    let mut sent = 0;
    for _ in 0..8 + random.below(24) {
        let operation = match random.below(12) {
            0 | 1 => set(random.pick(&[0, 1, 2, 5, 10, 24, 25, 1_024, 65_536])),
            2 | 3 => Operation::SetMaxMessageSize(random.pick(&[0, 1, 5, 9, 20, 21, 40, 41, 100])),
            4..8 => {
                sent += 1;
                let part = message(random.pick(&[0, 1, 5, 6, 20, 41, 99, 200]));
                if random.one_in(2) {
                    send(part)
                } else {
                    plain_send(part)
                }
            }
            8 => Operation::SetBatchingEnabled(random.one_in(2)),
            9 => receipt(random.below(sent + 1)),
            10 => match random.below(3) {
                0 => Operation::ReplayPendingOutbound,
                1 => Operation::MetadataReservation,
                _ => flush(),
            },
            _ => Operation::NextOutboundFrame {
                buffer: random.pick(&[LONG, LONG, LONG, 4]),
                lent_store: random.pick(&[WHOLE, WHOLE, WHOLE, 30]),
            },
        };
        builder.op(operation);
        if random.one_in(12) {
            builder.op(snapshot()).op(replay_last());
        }
    }
    builder.times(4, &take(LONG)).dump().end()
}
