//! What is measured: operations in blocks, the same for the port and for the Rust.

use bytes::Bytes;

use crate::operations::{Message, Operation, Part, Send};
use crate::port::{Drive, HANDLE};

const PAYLOAD: u64 = 100;
const BATCH: u64 = 128;
const PENDING: u64 = 255;
/// As many entries as can be pending.
const TABLE: u32 = 256;
const CHUNKED: u64 = 16 << 20;
/// What the Rust keeps free of a limit for the metadata of a chunk.
const CHUNK_RESERVATION: u64 = 1_024;
/// Longer than the payload of a batch of any workload.
pub const BATCH_BUFFER: u64 = 1 << 15;

/// The order in which the sends of a round are answered.
#[derive(Debug, Clone, Copy)]
pub enum Receipts {
    InOrder,
    Reverse,
    /// Always the second oldest, and the oldest at last.
    Second,
}

/// A kind of work that is repeated in blocks.
pub struct Workload {
    pub name: String,
    /// What the times are divided by.
    pub unit: &'static str,
    /// The bytes that messages are parts of.
    pub store: Bytes,
    /// Settings and sends in front of the first block. They are not timed.
    pub before: Vec<Operation>,
    /// Units in a block.
    pub units: u64,
    /// Blocks of a repetition: enough for some milliseconds.
    blocks_in_place: u64,
    blocks_by_value: u64,
    /// Sequence ids that a block uses up.
    ids: u64,
    block: Box<dyn Fn(u64) -> Vec<Operation>>,
}

impl Workload {
    /// The blocks of a repetition, each with its own sequence ids. The Rust has those in place.
    pub fn blocks(&self, drive: Drive) -> Vec<Vec<Operation>> {
        let count = match drive {
            Drive::InPlace => self.blocks_in_place,
            Drive::ByValue => self.blocks_by_value,
        };
        let block = |i| (self.block)(i * self.ids);
        (0..count).map(block).collect()
    }
}

/// All of them.
pub fn all() -> Vec<Workload> {
    vec![
        single(1, Receipts::InOrder),
        single(PENDING, Receipts::InOrder),
        single(PENDING, Receipts::Reverse),
        single(PENDING, Receipts::Second),
        batched(),
        chunked("64 KiB", 64 << 10),
        chunked("5 MiB", 5 << 20),
        snapshot(),
    ]
}

/// Letters, so that parts of it can be keys.
pub fn store(length: u64) -> Bytes {
    const LETTERS: &[u8] = b"abcdefghijklmnopqrstuvwxyz";
    let length = length as usize;
    let mut bytes = LETTERS.repeat(length.div_ceil(LETTERS.len()));
    bytes.truncate(length);
    bytes.into()
}

/// A message whose payload is the store's first bytes.
pub fn message(length: u64) -> Message {
    Message {
        payload: Part { start: 0, length },
        uncompressed_size: length as u32,
        num_messages: 1,
        ..Message::default()
    }
}

pub fn send(message: Message) -> Operation {
    Operation::QueueSend(Send {
        message,
        publish_time: 1_700_000_000_000,
        now: 5,
        lent_store: u64::MAX,
        ..Send::default()
    })
}

pub fn take(buffer: u64) -> Operation {
    Operation::NextOutboundFrame {
        buffer,
        lent_store: u64::MAX,
    }
}

pub fn receipt(sequence_id: u64) -> Operation {
    Operation::ApplyReceipt {
        producer_id: HANDLE,
        sequence_id,
        id: None,
    }
}

/// Rounds of `pending` sends, each taken at once, and then their receipts.
fn single(pending: u64, receipts: Receipts) -> Workload {
    let rounds = 256 / pending;
    Workload {
        name: format!("single, {pending} pending, {}", receipts.name()),
        unit: "message",
        store: store(PAYLOAD),
        before: Vec::new(),
        units: rounds * pending,
        blocks_in_place: 16,
        blocks_by_value: 1,
        ids: rounds * pending,
        block: Box::new(move |first| {
            let round = |i| round(first + i * pending, pending, receipts);
            (0..rounds).flat_map(round).collect()
        }),
    }
}

fn round(first: u64, pending: u64, receipts: Receipts) -> Vec<Operation> {
    let mut operations = Vec::new();
    for _ in 0..pending {
        operations.push(send(message(PAYLOAD)));
        operations.push(take(PAYLOAD));
    }
    operations.extend((0..pending).map(|i| receipt(first + receipts.place(i, pending))));
    operations
}

impl Receipts {
    fn name(self) -> &'static str {
        match self {
            Self::InOrder => "receipts in order",
            Self::Reverse => "receipts in reverse",
            Self::Second => "receipts of the second oldest",
        }
    }

    /// Which of `count` sends the receipt number `i` answers.
    fn place(self, i: u64, count: u64) -> u64 {
        match self {
            Self::InOrder => i,
            Self::Reverse => count - 1 - i,
            Self::Second => (i + 1) % count,
        }
    }
}

/// The operations of one batch: the last send fills it and so flushes it.
pub fn batch(first: u64, of: Message) -> Vec<Operation> {
    let mut operations = vec![send(of); BATCH as usize];
    operations.extend((first..first + BATCH).map(receipt));
    operations
}

fn batched() -> Workload {
    Workload {
        name: "batches of 128".to_owned(),
        unit: "message",
        store: store(PAYLOAD),
        before: vec![Operation::SetBatchingEnabled(true)],
        units: BATCH,
        blocks_in_place: 32,
        blocks_by_value: 1,
        ids: BATCH,
        block: Box::new(|first| {
            let mut operations = batch(first, message(PAYLOAD));
            operations.insert(BATCH as usize, take(BATCH_BUFFER));
            operations
        }),
    }
}

fn chunked(limit_name: &str, limit: u64) -> Workload {
    let chunks = CHUNKED.div_ceil(limit - CHUNK_RESERVATION);
    Workload {
        name: format!("16 MiB in {chunks} chunks, limit {limit_name}"),
        unit: "message",
        store: store(CHUNKED),
        before: vec![
            Operation::SetChunkingEnabled(true),
            Operation::SetMaxMessageSize(limit),
        ],
        units: 1,
        blocks_in_place: 1,
        blocks_by_value: 1,
        ids: 1,
        block: Box::new(move |first| {
            let mut operations = vec![send(message(CHUNKED))];
            operations.extend((0..chunks).map(|_| take(limit)));
            operations.push(receipt(first));
            operations
        }),
    }
}

fn snapshot() -> Workload {
    Workload {
        name: "snapshot and replay of 256".to_owned(),
        unit: "pair",
        store: store(PAYLOAD),
        before: vec![send(message(PAYLOAD)); TABLE as usize],
        units: 1,
        blocks_in_place: 64,
        blocks_by_value: 64,
        ids: 0,
        block: Box::new(|_| {
            vec![
                Operation::SnapshotPendingSends {
                    dropped: TABLE,
                    replay: TABLE,
                },
                Operation::ReplayLastSnapshot { entries: TABLE },
            ]
        }),
    }
}
