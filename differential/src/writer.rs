//! Writing scripts, the other half of `script`: for the generator.

use crate::operations::{
    Kind, Message, Operation, Part, ReceiptId, Send, SourceId, TableEntry, Transaction,
};
use crate::script::{MAGIC, VERSION};

/// A script being written.
#[derive(Debug, Clone)]
pub struct Script {
    pub bytes: Vec<u8>,
}

impl Script {
    pub fn new(drive: u8, handle: u64, store: &[u8]) -> Self {
        let mut bytes = Vec::new();
        bytes.extend_from_slice(&MAGIC);
        bytes.extend_from_slice(&[VERSION, drive]);
        bytes.extend_from_slice(&handle.to_le_bytes());
        bytes.extend_from_slice(&(store.len() as u32).to_le_bytes());
        bytes.extend_from_slice(store);
        Self { bytes }
    }

    pub fn push(&mut self, operation: &Operation) {
        self.u8(operation.code());
        match operation {
            Operation::QueueSendReserved(send) => {
                self.message(&send.message);
                self.u64(send.reserved);
                self.rest_of_send(send);
            }
            Operation::QueueSend(send) => {
                self.message(&send.message);
                self.rest_of_send(send);
            }
            Operation::FlushBatch { publish_time, now } => self.u64s(&[*publish_time, *now]),
            Operation::NextOutboundFrame { buffer, lent_store } => {
                self.u64s(&[*buffer, *lent_store]);
            }
            Operation::ApplyReceipt {
                producer_id,
                sequence_id,
                id,
            } => {
                self.u64s(&[*producer_id, *sequence_id]);
                self.optional(*id, 31, Self::receipt_id);
            }
            Operation::ApplySendError {
                producer_id,
                sequence_id,
                code,
            } => {
                self.u64s(&[*producer_id, *sequence_id]);
                self.i32(*code);
            }
            Operation::DrainTimedOutSends { now, table } => {
                self.u64(*now);
                self.u32(*table);
            }
            Operation::DrainPendingSends { table } => self.u32(*table),
            Operation::SnapshotPendingSends { dropped, replay } => {
                self.u32(*dropped);
                self.u32(*replay);
            }
            Operation::ReplaySnapshots(table) => {
                self.u32(table.len() as u32);
                table.iter().for_each(|entry| self.table_entry(entry));
            }
            Operation::ReplayLastSnapshot { entries } => self.u32(*entries),
            Operation::SetName(name) => {
                self.u32(name.len() as u32);
                self.bytes.extend_from_slice(name);
            }
            Operation::SetInitialSequenceId(number)
            | Operation::SetMaxMessageSize(number)
            | Operation::SetMaxBatchSizeBytes(number)
            | Operation::SetMaxMessagesInBatch(number)
            | Operation::SetMetadataReservation(number)
            | Operation::BatchDeadlineElapsed { now: number } => self.u64(*number),
            Operation::SetBatchingEnabled(on)
            | Operation::SetChunkingEnabled(on)
            | Operation::SetBrokerReady(on) => self.u8(u8::from(*on)),
            Operation::SetSendTimeout(delay) | Operation::SetBatchingMaxPublishDelay(delay) => {
                self.optional(*delay, 8, Self::u64);
            }
            Operation::CanAddToBatch {
                payload_size,
                num_messages,
            } => {
                self.u64(*payload_size);
                self.i32(*num_messages);
            }
            Operation::ReplayPendingOutbound
            | Operation::Close
            | Operation::NextSendDeadline
            | Operation::NextBatchDeadline
            | Operation::OutboundLen
            | Operation::Stats
            | Operation::Dump
            | Operation::MetadataReservation => {}
        }
    }

    fn u8(&mut self, value: u8) {
        self.bytes.push(value);
    }

    fn u32(&mut self, value: u32) {
        self.bytes.extend_from_slice(&value.to_le_bytes());
    }

    fn i32(&mut self, value: i32) {
        self.bytes.extend_from_slice(&value.to_le_bytes());
    }

    fn u64(&mut self, value: u64) {
        self.bytes.extend_from_slice(&value.to_le_bytes());
    }

    fn u64s(&mut self, values: &[u64]) {
        values.iter().for_each(|value| self.u64(*value));
    }

    fn optional<T>(&mut self, value: Option<T>, size: usize, write: impl FnOnce(&mut Self, T)) {
        self.u8(u8::from(value.is_some()));
        match value {
            Some(value) => write(self, value),
            None => self.bytes.resize(self.bytes.len() + size, 0),
        }
    }

    fn part(&mut self, part: Part) {
        self.u64s(&[part.start, part.length]);
    }

    fn transaction(&mut self, transaction: Transaction) {
        self.u64s(&[transaction.most, transaction.least]);
    }

    fn source_id(&mut self, id: SourceId) {
        self.u64s(&[id.ledger, id.entry]);
        self.i32(id.partition);
        self.i32(id.batch_index);
        self.i32(id.batch_size);
    }

    fn receipt_id(&mut self, id: ReceiptId) {
        self.u64s(&[id.ledger, id.entry]);
        self.optional(id.partition, 4, Self::i32);
        self.optional(id.batch_index, 4, Self::i32);
        self.optional(id.batch_size, 4, Self::i32);
    }

    fn message(&mut self, message: &Message) {
        self.part(message.payload);
        self.optional(message.partition_key, 16, Self::part);
        self.optional(message.ordering_key, 16, Self::part);
        self.optional(message.schema_version, 16, Self::part);
        self.part(message.name);
        self.optional(message.event_time, 8, Self::u64);
        self.optional(message.null_value.map(u8::from), 1, Self::u8);
        self.optional(message.null_partition_key.map(u8::from), 1, Self::u8);
        self.optional(
            message.deliver_at_time.map(i64::cast_unsigned),
            8,
            Self::u64,
        );
        self.optional(message.compression, 4, Self::i32);
        self.u32(message.uncompressed_size);
        self.i32(message.num_messages);
        self.optional(message.transaction, 16, Self::transaction);
        self.optional(message.source_id, 28, Self::source_id);
    }

    fn rest_of_send(&mut self, send: &Send) {
        self.bytes.extend_from_slice(&send.uuid);
        self.u64s(&[send.publish_time, send.now, send.lent_store]);
    }

    fn table_entry(&mut self, entry: &TableEntry) {
        self.u64(entry.sequence_id);
        self.i32(entry.num_messages);
        self.u64s(&[entry.enqueued_at, entry.reserved]);
        self.u8(match entry.kind {
            Kind::Batched => 0,
            Kind::Single => 1,
            Kind::Chunked => 2,
        });
        self.u32(entry.chunk_size);
        self.u32(entry.chunk_count);
        self.message(&entry.message);
        self.u64(entry.publish_time);
        self.u8(entry.name_length);
        self.bytes.extend_from_slice(&entry.name);
        self.bytes.extend_from_slice(&entry.uuid);
    }
}
