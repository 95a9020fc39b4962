//! The answers of docs/SCRIPT.md and their bytes.

use magnetar_proto::pb;
use magnetar_proto::producer::OutboundFrame;
use magnetar_proto::types::MessageId;

use crate::operations::{Message, Operation, Part, Transaction};
use crate::shadow::{Entry, Sent};

/// The records that end a run of answers, each followed by an offset in the script.
#[derive(Debug, Clone, Copy, PartialEq, Eq)]
pub enum Ending {
    End = 0xFF,
    Malformed = 0xFE,
    NoRoom = 0xFD,
    NotComparable = 0xFC,
}

/// Length of an ending record; every answer leaves this much room behind it.
pub const ENDING: u64 = 9;

/// Whether answers end where the Rust cannot stand for the port: from there on a host need not
/// answer what the Rust does.
pub fn ends_not_comparable(answers: &[u8]) -> bool {
    let ending = answers.len().checked_sub(ENDING as usize);
    ending.is_some_and(|at| answers[at] == Ending::NotComparable as u8)
}

/// No table has more entries than can be pending.
const PENDING: u64 = 256;
const ENTRY: u64 = 293;

/// The answer to one operation.
#[derive(Debug)]
pub enum Answer {
    Refused(u8),
    TooLarge {
        size: u64,
        limit: u64,
    },
    Done,
    Batched,
    Emit(u64),
    /// `Emit` of a message that was cut as document 02 says, at a headroom that the Rust has not.
    Cut(u64),
    Count(u64),
    Yes(bool),
    Deadline(Option<u64>),
    Frame(Box<OutboundFrame>),
    Receipt(MessageId, Entry),
    SendError(i32, Entry),
    Entries(Vec<Entry>),
    Snapshot {
        dropped: Vec<Entry>,
        replay: Vec<Entry>,
    },
    Stats([u64; 5]),
    Dump(Box<Dump>),
}

/// Everything that can be compared at once.
#[derive(Debug)]
pub struct Dump {
    pub handle: u64,
    pub name: Vec<u8>,
    pub limits: [u64; 3],
    pub batching_enabled: bool,
    pub chunking_enabled: bool,
    pub send_timeout: Option<u64>,
    pub publish_delay: Option<u64>,
    pub broker_ready: bool,
    pub closed: bool,
    pub next_id: u64,
    pub pushed: i64,
    pub published: i64,
    pub totals: [u64; 4],
    pub waiting: u64,
    pub held: u64,
    pub batch_count: u64,
    pub batch_size: u64,
    pub batch_lowest: Option<u64>,
    pub batch_highest: Option<u64>,
    pub batch_first_added: Option<u64>,
    pub batch_transaction: Option<Transaction>,
    pub next_send_deadline: Option<u64>,
    pub next_batch_deadline: Option<u64>,
    pub pending: Vec<(bool, Entry)>,
}

/// The room that an operation may need for its answer, from the operation alone.
pub fn room(operation: &Operation) -> u64 {
    let values = match operation {
        Operation::QueueSendReserved(_) | Operation::QueueSend(_) => 16,
        Operation::FlushBatch { .. }
        | Operation::ReplayPendingOutbound
        | Operation::OutboundLen
        | Operation::MetadataReservation => 8,
        Operation::NextOutboundFrame { buffer, .. } => buffer.saturating_add(8 + 82 + 3291),
        Operation::ApplyReceipt { .. } => 28 + ENTRY,
        Operation::ApplySendError { .. } => 4 + ENTRY,
        Operation::DrainTimedOutSends { table, .. } | Operation::DrainPendingSends { table } => {
            4 + ENTRY * u64::from(*table).min(PENDING)
        }
        Operation::SnapshotPendingSends { dropped, replay } => {
            8 + ENTRY * (u64::from(*dropped) + u64::from(*replay)).min(PENDING)
        }
        Operation::NextSendDeadline | Operation::NextBatchDeadline => 9,
        Operation::BatchDeadlineElapsed { .. } | Operation::CanAddToBatch { .. } => 1,
        Operation::Stats => 40,
        Operation::Dump => 276 + (1 + ENTRY) * PENDING,
        Operation::ReplaySnapshots(_)
        | Operation::ReplayLastSnapshot { .. }
        | Operation::SetInitialSequenceId(_)
        | Operation::SetName(_)
        | Operation::SetMaxMessageSize(_)
        | Operation::SetMaxBatchSizeBytes(_)
        | Operation::SetMaxMessagesInBatch(_)
        | Operation::SetMetadataReservation(_)
        | Operation::SetBatchingEnabled(_)
        | Operation::SetChunkingEnabled(_)
        | Operation::SetSendTimeout(_)
        | Operation::SetBatchingMaxPublishDelay(_)
        | Operation::SetBrokerReady(_)
        | Operation::Close => 0,
    };
    values.saturating_add(2)
}

/// Writes answers into the lent output, from its start on.
pub struct Answers<'a> {
    out: &'a mut [u8],
    at: usize,
}

impl<'a> Answers<'a> {
    pub fn new(out: &'a mut [u8]) -> Self {
        Self { out, at: 0 }
    }

    pub fn length(&self) -> usize {
        self.at
    }

    /// Whether an answer of this length and an ending record fit.
    pub fn has_room(&self, length: u64) -> bool {
        let left = (self.out.len() - self.at) as u64;
        length.saturating_add(ENDING) <= left
    }

    pub fn ending(&mut self, ending: Ending, offset: usize) {
        self.u8(ending as u8);
        self.u64(offset as u64);
    }

    pub fn answer(&mut self, code: u8, answer: &Answer) {
        self.u8(code);
        match answer {
            Answer::Refused(number) => self.u8(*number),
            Answer::TooLarge { size, limit } => {
                self.u8(6);
                self.u64(*size);
                self.u64(*limit);
            }
            _ => {
                self.u8(0);
                self.values(answer);
            }
        }
    }

    fn values(&mut self, answer: &Answer) {
        match answer {
            Answer::Refused(_) | Answer::TooLarge { .. } | Answer::Done => {}
            Answer::Batched => self.u8(0),
            Answer::Emit(count) | Answer::Cut(count) => {
                self.u8(1);
                self.u64(*count);
            }
            Answer::Count(count) => self.u64(*count),
            Answer::Yes(yes) => self.bool(*yes),
            Answer::Deadline(deadline) => self.optional(*deadline, Self::u64),
            Answer::Frame(frame) => {
                self.u64(frame.payload.len() as u64);
                self.raw(&frame.payload);
                self.command(&frame.command);
                self.metadata(&frame.metadata);
            }
            Answer::Receipt(id, entry) => {
                self.message_id(*id);
                self.entry(entry);
            }
            Answer::SendError(code, entry) => {
                self.i32(*code);
                self.entry(entry);
            }
            Answer::Entries(entries) => {
                self.u32(entries.len() as u32);
                entries.iter().for_each(|entry| self.entry(entry));
            }
            Answer::Snapshot { dropped, replay } => {
                self.u32(dropped.len() as u32);
                self.u32(replay.len() as u32);
                dropped.iter().for_each(|entry| self.entry(entry));
                replay.iter().for_each(|entry| self.entry(entry));
            }
            Answer::Stats(totals) => totals.iter().for_each(|total| self.u64(*total)),
            Answer::Dump(dump) => self.dump(dump),
        }
    }

    fn raw(&mut self, bytes: &[u8]) {
        let end = self.at + bytes.len();
        self.out[self.at..end].copy_from_slice(bytes);
        self.at = end;
    }

    fn u8(&mut self, value: u8) {
        self.raw(&[value]);
    }

    fn bool(&mut self, value: bool) {
        self.u8(u8::from(value));
    }

    fn u32(&mut self, value: u32) {
        self.raw(&value.to_le_bytes());
    }

    fn i32(&mut self, value: i32) {
        self.raw(&value.to_le_bytes());
    }

    fn u64(&mut self, value: u64) {
        self.raw(&value.to_le_bytes());
    }

    fn i64(&mut self, value: i64) {
        self.raw(&value.to_le_bytes());
    }

    fn bytes(&mut self, bytes: &[u8]) {
        self.u32(bytes.len() as u32);
        self.raw(bytes);
    }

    fn optional<T>(&mut self, value: Option<T>, write: impl FnOnce(&mut Self, T)) {
        self.bool(value.is_some());
        if let Some(value) = value {
            write(self, value);
        }
    }

    fn part(&mut self, part: Part) {
        self.u64(part.start);
        self.u64(part.length);
    }

    fn transaction(&mut self, transaction: Transaction) {
        self.u64(transaction.most);
        self.u64(transaction.least);
    }

    fn message_id(&mut self, id: MessageId) {
        self.u64(id.ledger_id);
        self.u64(id.entry_id);
        self.i32(id.partition);
        self.i32(id.batch_index);
        self.i32(id.batch_size);
    }

    fn command(&mut self, command: &pb::BaseCommand) {
        let Some(send) = &command.send else {
            panic!("the Rust made a command that is no SEND");
        };
        self.u64(send.producer_id);
        self.u64(send.sequence_id);
        self.optional(send.num_messages, Self::i32);
        self.optional(send.txnid_least_bits, Self::u64);
        self.optional(send.txnid_most_bits, Self::u64);
        self.optional(send.highest_sequence_id, Self::u64);
        self.optional(send.is_chunk, Self::bool);
        self.optional(send.message_id.as_ref(), |answers, id| {
            answers.u64(id.ledger_id);
            answers.u64(id.entry_id);
            answers.optional(id.partition, Self::i32);
            answers.optional(id.batch_index, Self::i32);
            answers.optional(id.batch_size, Self::i32);
        });
    }

    /// The fields that document 01 names, in tag order. `shadow` asserts that no other is there.
    fn metadata(&mut self, metadata: &pb::MessageMetadata) {
        self.bytes(metadata.producer_name.as_bytes());
        self.u64(metadata.sequence_id);
        self.u64(metadata.publish_time);
        let key = metadata.partition_key.as_deref();
        self.optional(key.map(str::as_bytes), Self::bytes);
        self.optional(metadata.compression, Self::i32);
        self.optional(metadata.uncompressed_size, Self::u32);
        self.optional(metadata.num_messages_in_batch, Self::i32);
        self.optional(metadata.event_time, Self::u64);
        self.optional(metadata.schema_version.as_deref(), Self::bytes);
        self.optional(metadata.ordering_key.as_deref(), Self::bytes);
        self.optional(metadata.deliver_at_time, Self::i64);
        self.optional(metadata.txnid_least_bits, Self::u64);
        self.optional(metadata.txnid_most_bits, Self::u64);
        self.optional(metadata.highest_sequence_id, Self::u64);
        self.optional(metadata.null_value, Self::bool);
        self.optional(metadata.uuid.as_deref().map(str::as_bytes), Self::bytes);
        self.optional(metadata.num_chunks_from_msg, Self::i32);
        self.optional(metadata.total_chunk_msg_size, Self::i32);
        self.optional(metadata.chunk_id, Self::i32);
        self.optional(metadata.null_partition_key, Self::bool);
    }

    fn message(&mut self, message: &Message) {
        self.part(message.payload);
        self.optional(message.partition_key, Self::part);
        self.optional(message.ordering_key, Self::part);
        self.optional(message.schema_version, Self::part);
        self.part(message.name);
        self.optional(message.event_time, Self::u64);
        self.optional(message.null_value, Self::bool);
        self.optional(message.null_partition_key, Self::bool);
        self.optional(message.deliver_at_time, Self::i64);
        self.optional(message.compression, Self::i32);
        self.u32(message.uncompressed_size);
        self.i32(message.num_messages);
        self.optional(message.transaction, Self::transaction);
        self.optional(message.source_id, |answers, id| {
            answers.u64(id.ledger);
            answers.u64(id.entry);
            answers.i32(id.partition);
            answers.i32(id.batch_index);
            answers.i32(id.batch_size);
        });
    }

    fn entry(&mut self, entry: &Entry) {
        self.u64(entry.sequence_id);
        self.i32(entry.num_messages);
        self.u64(entry.enqueued_at);
        self.u64(entry.reserved);
        match entry.replays.as_deref() {
            None => self.u8(0),
            Some(sent) => self.sent(sent),
        }
    }

    fn sent(&mut self, sent: &Sent) {
        match sent.chunks {
            None => self.u8(1),
            Some(chunks) => {
                self.u8(2);
                self.u32(chunks.size);
                self.u32(chunks.count);
            }
        }
        self.message(&sent.message);
        self.u64(sent.publish_time);
        self.bytes(sent.name.as_bytes());
        self.raw(&sent.uuid);
    }

    fn dump(&mut self, dump: &Dump) {
        self.u64(dump.handle);
        self.bytes(&dump.name);
        dump.limits.iter().for_each(|limit| self.u64(*limit));
        self.bool(dump.batching_enabled);
        self.bool(dump.chunking_enabled);
        self.optional(dump.send_timeout, Self::u64);
        self.optional(dump.publish_delay, Self::u64);
        self.bool(dump.broker_ready);
        self.bool(dump.closed);
        self.u64(dump.next_id);
        self.i64(dump.pushed);
        self.i64(dump.published);
        dump.totals.iter().for_each(|total| self.u64(*total));
        self.u64(dump.waiting);
        self.u64(dump.held);
        self.u64(dump.batch_count);
        self.u64(dump.batch_size);
        self.optional(dump.batch_lowest, Self::u64);
        self.optional(dump.batch_highest, Self::u64);
        self.optional(dump.batch_first_added, Self::u64);
        self.optional(dump.batch_transaction, Self::transaction);
        self.optional(dump.next_send_deadline, Self::u64);
        self.optional(dump.next_batch_deadline, Self::u64);
        self.u32(dump.pending.len() as u32);
        for (answerable, entry) in &dump.pending {
            self.bool(*answerable);
            self.entry(entry);
        }
    }
}
