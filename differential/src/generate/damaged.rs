//! Scripts that are cut, lie or were hit, and outputs that are too short.

use super::build::{
    Builder, Case, OUTPUT, chunked_entry, flush, message, receipt, send, single_entry, snapshot,
    take, text,
};
use super::long;
use super::random::Random;
use crate::operations::{Message, Operation, Part};

pub const COVERS: &str = "scripts cut at every byte, unknown operations, presence and switch \
     bytes over 1, lengths that lie, flipped bytes; outputs of every length up to a whole answer; \
     what the Rust cannot stand for";

/// One of each form of argument, in as few operations as possible.
fn every_form() -> Builder {
    let full = Message {
        partition_key: Some(Part::default()),
        null_value: Some(true),
        ..message(2)
    };
    let mut builder = Builder::new(&text(3));
    builder
        .op(Operation::SetName(b"nm".to_vec()))
        .op(Operation::SetBatchingEnabled(false))
        .op(Operation::SetSendTimeout(Some(4)))
        .send(full)
        .op(take(2))
        .op(receipt(0))
        .op(Operation::ReplaySnapshots(vec![chunked_entry(
            1, full, 1, 2,
        )]))
        .op(snapshot())
        .op(flush())
        .op(Operation::CanAddToBatch {
            payload_size: 1,
            num_messages: 1,
        });
    builder
}

/// The damage that needs no chance.
pub fn fixed_cases(step: usize, each: &mut dyn FnMut(Case)) {
    let whole = every_form().end();
    for length in (0..whole.script.len()).step_by(step) {
        let script = whole.script[..length].to_vec();
        each(Case { script, ..whole });
    }
    for at in (0..whole.script.len()).step_by(step) {
        for value in [2, 0xFF] {
            let mut script = whole.script.clone();
            script[at] = value;
            each(Case { script, ..whole });
        }
    }
    for code in 0..=0xFF {
        let mut script = Builder::new(&text(3)).send(message(1)).end().script;
        script.push(code);
        each(Case { script, ..whole });
    }
    lies(each);
    short_outputs(step, each);
    not_comparable(each);
}

/// A store, a name and a table that end outside the script, or are longer than a table may be.
fn lies(each: &mut dyn FnMut(Case)) {
    let head = Builder::new(&text(3)).end();
    let entry = Operation::ReplaySnapshots(vec![single_entry(1, message(1))]);
    let named = Builder::new(&text(3))
        .op(Operation::SetName(b"ab".to_vec()))
        .end();
    let table = Builder::new(&text(3)).op(entry).end();
    let first = head.script.len() + 1;
    for (whole, at) in [(&head, 14), (&named, first), (&table, first)] {
        for length in [1, 2, 3, 4, 257, 258, 1 << 31, u32::MAX] {
            let mut script = whole.script.clone();
            script[at..at + 4].copy_from_slice(&length.to_le_bytes());
            each(Case { script, ..*whole });
        }
    }
}

/// Outputs of every length for short answers, and around the room that a dump needs.
fn short_outputs(step: usize, each: &mut dyn FnMut(Case)) {
    let mut builder = Builder::new(&text(3));
    builder
        .send(message(3))
        .op(Operation::Stats)
        .op(Operation::NextSendDeadline)
        .op(receipt(0));
    for output in (0..=420).step_by(step) {
        each(builder.end_with(output));
    }
    let mut take_last = Builder::new(&text(3));
    take_last.send(message(3)).op(take(3));
    let mut drain_last = Builder::new(&text(3));
    drain_last.send(message(3));
    drain_last.op(Operation::DrainPendingSends { table: 2 });
    let mut dump_last = Builder::new(&text(3));
    dump_last.op(Operation::OutboundLen).dump();
    let lasts = [
        (take_last, 11 + 2 + 8 + 3 + 82 + 3_291 + 9),
        (drain_last, 11 + 2 + 4 + 2 * 293 + 9),
        (dump_last, 10 + 2 + 276 + 256 * 294 + 9),
    ];
    for (builder, enough) in lasts {
        for output in [enough - 9, enough - 1, enough, enough + 1] {
            each(builder.end_with(output));
        }
    }
    let mut endless = Builder::new(&text(3));
    each(endless.send(message(3)).op(take(u64::MAX)).end());
}

/// Clocks of 2^62 and text that is no UTF-8.
fn not_comparable(each: &mut dyn FnMut(Case)) {
    let store = [0x61, 0xC3, 0x62];
    let bad = Some(Part {
        start: 1,
        length: 1,
    });
    let key = Message {
        partition_key: bad,
        ..message(1)
    };
    let entry = single_entry(1, key);
    let operations = [
        Operation::SetSendTimeout(Some(1 << 62)),
        Operation::SetName(vec![0xFF]),
        Operation::BatchDeadlineElapsed { now: u64::MAX },
        send(key),
        Operation::ReplaySnapshots(vec![entry]),
    ];
    for operation in operations {
        let mut builder = Builder::new(&store);
        each(
            builder
                .op(Operation::OutboundLen)
                .op(operation)
                .dump()
                .end(),
        );
    }
}

/// A random script, hit a few times.
pub fn random_case(random: &mut Random, length: usize) -> Case {
    let whole = long::case(random, long::Mood::Even, length, OUTPUT);
    let mut script = whole.script;
    for _ in 0..=random.below(3) {
        let at = random.below(script.len() as u64) as usize;
        match random.below(4) {
            0 => script.truncate(at),
            1 => script[at] ^= 1 << random.below(8),
            2 => script[at] = random.next() as u8,
            _ => {
                script.remove(at);
            }
        }
        if script.is_empty() {
            break;
        }
    }
    Case { script, ..whole }
}
