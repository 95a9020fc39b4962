//! Short ways to say what the scripts of all classes say often.

use crate::operations::{Message, Operation, Part, Send, TableEntry, Transaction};
use crate::writer::Script;

/// Enough for the answers of a short script with a dump.
pub const OUTPUT: usize = 1 << 17;
/// A store lent whole, a buffer or table long enough.
pub const WHOLE: u64 = u64::MAX;
pub const LONG: u64 = 1 << 14;
pub const TABLE: u32 = 256;

/// A script and the length of the output that its answers are written to.
#[derive(Debug, Clone)]
pub struct Case {
    pub script: Vec<u8>,
    pub output: usize,
}

/// The script of one case, with the operations that tests need most.
#[derive(Clone)]
pub struct Builder(Script);

impl Builder {
    pub fn new(store: &[u8]) -> Self {
        // Both ways to drive a host are used in turn; the answers are the same.
        let drive = (store.len() % 2) as u8;
        Self(Script::new(drive, 7, store))
    }

    pub fn with_handle(drive: u8, handle: u64, store: &[u8]) -> Self {
        Self(Script::new(drive, handle, store))
    }

    pub fn op(&mut self, operation: Operation) -> &mut Self {
        self.0.push(&operation);
        self
    }

    pub fn all(&mut self, operations: &[Operation]) -> &mut Self {
        operations.iter().for_each(|one| self.0.push(one));
        self
    }

    pub fn times(&mut self, count: usize, operation: &Operation) -> &mut Self {
        (0..count).for_each(|_| self.0.push(operation));
        self
    }

    pub fn send(&mut self, message: Message) -> &mut Self {
        self.op(send(message))
    }

    pub fn take(&mut self) -> &mut Self {
        self.op(take(LONG))
    }

    pub fn dump(&mut self) -> &mut Self {
        self.op(Operation::Dump)
    }

    /// Batching and its two limits.
    pub fn batching(&mut self, count: u64, bytes: u64) -> &mut Self {
        self.op(Operation::SetBatchingEnabled(true))
            .op(Operation::SetMaxMessagesInBatch(count))
            .op(Operation::SetMaxBatchSizeBytes(bytes))
    }

    pub fn chunking(&mut self, limit: u64) -> &mut Self {
        self.op(Operation::SetChunkingEnabled(true))
            .op(Operation::SetMaxMessageSize(limit))
    }

    /// A message in chunks behind so many others, sent twice, and put in front again before and after two takes.
    pub fn sent_in_chunks(&mut self, length: u64, behind: usize) -> &mut Self {
        self.times(behind, &send(message(1)))
            .send(message(length))
            .op(plain_send(message(length)))
            .op(Operation::ReplayPendingOutbound)
            .times(2, &take(5))
            .op(Operation::ReplayPendingOutbound)
    }

    pub fn length(&self) -> usize {
        self.0.bytes.len()
    }

    pub fn end(&self) -> Case {
        self.end_with(OUTPUT)
    }

    pub fn end_with(&self, output: usize) -> Case {
        Case {
            script: self.0.bytes.clone(),
            output,
        }
    }
}

pub fn part(start: u64, length: u64) -> Part {
    Part { start, length }
}

/// A message whose payload is the store's first bytes.
pub fn message(length: u64) -> Message {
    Message {
        payload: part(0, length),
        num_messages: 1,
        ..Message::default()
    }
}

pub fn in_transaction(length: u64, least: u64) -> Message {
    let transaction = Some(Transaction { most: 1, least });
    Message {
        transaction,
        ..message(length)
    }
}

/// The arguments of a send of this message.
pub fn sending(message: Message) -> Send {
    Send {
        message,
        reserved: message.payload.length,
        uuid: std::array::from_fn(|i| (i * 17) as u8),
        publish_time: 1_005,
        now: 5,
        lent_store: WHOLE,
    }
}

pub fn send(message: Message) -> Operation {
    Operation::QueueSendReserved(sending(message))
}

pub fn send_at(message: Message, now: u64) -> Operation {
    let publish_time = 1_000 + now;
    Operation::QueueSendReserved(Send {
        publish_time,
        now,
        ..sending(message)
    })
}

/// A send without a reservation.
pub fn plain_send(message: Message) -> Operation {
    let reserved = 0;
    Operation::QueueSend(Send {
        reserved,
        ..sending(message)
    })
}

pub fn take(buffer: u64) -> Operation {
    Operation::NextOutboundFrame {
        buffer,
        lent_store: WHOLE,
    }
}

pub fn flush() -> Operation {
    Operation::FlushBatch {
        publish_time: 2_000,
        now: 9,
    }
}

pub fn receipt(sequence_id: u64) -> Operation {
    Operation::ApplyReceipt {
        producer_id: 7,
        sequence_id,
        id: None,
    }
}

pub fn send_error(sequence_id: u64) -> Operation {
    Operation::ApplySendError {
        producer_id: 7,
        sequence_id,
        code: -3,
    }
}

pub fn time_out(now: u64) -> Operation {
    Operation::DrainTimedOutSends { now, table: TABLE }
}

pub fn drain() -> Operation {
    Operation::DrainPendingSends { table: TABLE }
}

pub fn snapshot() -> Operation {
    Operation::SnapshotPendingSends {
        dropped: TABLE,
        replay: TABLE,
    }
}

pub fn replay_last() -> Operation {
    Operation::ReplayLastSnapshot { entries: TABLE }
}

/// An entry that replays a single frame.
pub fn single_entry(sequence_id: u64, message: Message) -> TableEntry {
    TableEntry {
        sequence_id,
        kind: crate::operations::Kind::Single,
        message,
        ..TableEntry::default()
    }
}

/// An entry that replays chunks.
pub fn chunked_entry(sequence_id: u64, message: Message, size: u32, count: u32) -> TableEntry {
    TableEntry {
        kind: crate::operations::Kind::Chunked,
        chunk_size: size,
        chunk_count: count,
        ..single_entry(sequence_id, message)
    }
}

/// `count` bytes, all values in turn.
pub fn binary(count: usize) -> Vec<u8> {
    (0..count).map(|i| (i % 256) as u8).collect()
}

/// `count` letters.
pub fn text(count: usize) -> Vec<u8> {
    (0..count).map(|i| b'a' + (i % 26) as u8).collect()
}
