//! Reading scripts, byte for byte as docs/SCRIPT.md lays them out.

use crate::operations::{
    Kind, Message, Operation, Part, ReceiptId, Send, SourceId, TableEntry, Transaction,
};

pub const MAGIC: [u8; 4] = *b"PSQS";
pub const VERSION: u8 = 1;
/// An explicit replay table has room for one entry more than can be pending.
pub const MAX_TABLE: u32 = 257;

/// What stands before the operations.
#[derive(Debug, Clone, Copy, PartialEq, Eq)]
pub struct Head<'a> {
    pub handle: u64,
    pub store: &'a [u8],
    /// Where the first operation starts.
    pub end: usize,
}

/// Reads the head; `None` if it is malformed.
pub fn read_head(script: &[u8]) -> Option<Head<'_>> {
    let mut reader = Reader::at(script, 0);
    if reader.array::<4>()? != MAGIC || reader.u8()? != VERSION || reader.u8()? > 1 {
        return None;
    }
    let handle = reader.u64()?;
    let store = reader.counted()?;
    Some(Head {
        handle,
        store,
        end: reader.at,
    })
}

/// Reads the operation that starts at `at` and where the next one starts; `None` if it is
/// malformed.
pub fn read_operation(script: &[u8], at: usize) -> Option<(Operation, usize)> {
    let mut reader = Reader::at(script, at);
    let operation = reader.operation()?;
    Some((operation, reader.at))
}

/// Reads forward and never past the end.
pub struct Reader<'a> {
    script: &'a [u8],
    at: usize,
}

impl<'a> Reader<'a> {
    pub fn at(script: &'a [u8], at: usize) -> Self {
        Self { script, at }
    }

    fn bytes(&mut self, length: u64) -> Option<&'a [u8]> {
        let rest = self.script.get(self.at..)?;
        let bytes = rest.get(..usize::try_from(length).ok()?)?;
        self.at += bytes.len();
        Some(bytes)
    }

    /// A length and that many bytes.
    pub fn counted(&mut self) -> Option<&'a [u8]> {
        let length = self.u32()?;
        self.bytes(u64::from(length))
    }

    pub fn is_at_end(&self) -> bool {
        self.at == self.script.len()
    }

    pub fn array<const N: usize>(&mut self) -> Option<[u8; N]> {
        self.bytes(N as u64)?.try_into().ok()
    }

    pub fn u8(&mut self) -> Option<u8> {
        self.array().map(u8::from_le_bytes)
    }

    pub fn u32(&mut self) -> Option<u32> {
        self.array().map(u32::from_le_bytes)
    }

    fn i32(&mut self) -> Option<i32> {
        self.array().map(i32::from_le_bytes)
    }

    fn u64(&mut self) -> Option<u64> {
        self.array().map(u64::from_le_bytes)
    }

    fn i64(&mut self) -> Option<i64> {
        self.array().map(i64::from_le_bytes)
    }

    fn bool(&mut self) -> Option<bool> {
        match self.u8()? {
            0 => Some(false),
            1 => Some(true),
            _ => None,
        }
    }

    /// A presence byte and `size` bytes, which are skipped unread when the value is absent.
    fn optional<T>(
        &mut self,
        size: u64,
        read: impl FnOnce(&mut Self) -> Option<T>,
    ) -> Option<Option<T>> {
        if self.bool()? {
            Some(Some(read(self)?))
        } else {
            self.bytes(size)?;
            Some(None)
        }
    }

    fn part(&mut self) -> Option<Part> {
        Some(Part {
            start: self.u64()?,
            length: self.u64()?,
        })
    }

    fn transaction(&mut self) -> Option<Transaction> {
        Some(Transaction {
            most: self.u64()?,
            least: self.u64()?,
        })
    }

    fn source_id(&mut self) -> Option<SourceId> {
        Some(SourceId {
            ledger: self.u64()?,
            entry: self.u64()?,
            partition: self.i32()?,
            batch_index: self.i32()?,
            batch_size: self.i32()?,
        })
    }

    fn receipt_id(&mut self) -> Option<ReceiptId> {
        Some(ReceiptId {
            ledger: self.u64()?,
            entry: self.u64()?,
            partition: self.optional(4, Self::i32)?,
            batch_index: self.optional(4, Self::i32)?,
            batch_size: self.optional(4, Self::i32)?,
        })
    }

    fn message(&mut self) -> Option<Message> {
        Some(Message {
            payload: self.part()?,
            partition_key: self.optional(16, Self::part)?,
            ordering_key: self.optional(16, Self::part)?,
            schema_version: self.optional(16, Self::part)?,
            name: self.part()?,
            event_time: self.optional(8, Self::u64)?,
            null_value: self.optional(1, Self::bool)?,
            null_partition_key: self.optional(1, Self::bool)?,
            deliver_at_time: self.optional(8, Self::i64)?,
            compression: self.optional(4, Self::i32)?,
            uncompressed_size: self.u32()?,
            num_messages: self.i32()?,
            transaction: self.optional(16, Self::transaction)?,
            source_id: self.optional(28, Self::source_id)?,
        })
    }

    fn send(&mut self, with_reservation: bool) -> Option<Send> {
        Some(Send {
            message: self.message()?,
            reserved: if with_reservation { self.u64()? } else { 0 },
            uuid: self.array()?,
            publish_time: self.u64()?,
            now: self.u64()?,
            lent_store: self.u64()?,
        })
    }

    fn kind(&mut self) -> Option<Kind> {
        match self.u8()? {
            0 => Some(Kind::Batched),
            1 => Some(Kind::Single),
            2 => Some(Kind::Chunked),
            _ => None,
        }
    }

    fn table_entry(&mut self) -> Option<TableEntry> {
        Some(TableEntry {
            sequence_id: self.u64()?,
            num_messages: self.i32()?,
            enqueued_at: self.u64()?,
            reserved: self.u64()?,
            kind: self.kind()?,
            chunk_size: self.u32()?,
            chunk_count: self.u32()?,
            message: self.message()?,
            publish_time: self.u64()?,
            name_length: self.u8()?,
            name: self.array()?,
            uuid: self.array()?,
        })
    }

    fn table(&mut self) -> Option<Vec<TableEntry>> {
        let count = self.u32()?;
        if count > MAX_TABLE {
            return None;
        }
        (0..count).map(|_| self.table_entry()).collect()
    }

    fn operation(&mut self) -> Option<Operation> {
        Some(match self.u8()? {
            0x01 => Operation::QueueSendReserved(self.send(true)?),
            0x02 => Operation::QueueSend(self.send(false)?),
            0x03 => Operation::FlushBatch {
                publish_time: self.u64()?,
                now: self.u64()?,
            },
            0x04 => Operation::NextOutboundFrame {
                buffer: self.u64()?,
                lent_store: self.u64()?,
            },
            0x05 => Operation::ApplyReceipt {
                producer_id: self.u64()?,
                sequence_id: self.u64()?,
                id: self.optional(31, Self::receipt_id)?,
            },
            0x06 => Operation::ApplySendError {
                producer_id: self.u64()?,
                sequence_id: self.u64()?,
                code: self.i32()?,
            },
            0x07 => Operation::DrainTimedOutSends {
                now: self.u64()?,
                table: self.u32()?,
            },
            0x08 => Operation::DrainPendingSends { table: self.u32()? },
            0x09 => Operation::SnapshotPendingSends {
                dropped: self.u32()?,
                replay: self.u32()?,
            },
            0x0A => Operation::ReplaySnapshots(self.table()?),
            0x0B => Operation::ReplayLastSnapshot {
                entries: self.u32()?,
            },
            0x0C => Operation::ReplayPendingOutbound,
            0x0D => Operation::SetInitialSequenceId(self.u64()?),
            0x10 => Operation::SetName(self.counted()?.to_vec()),
            0x11 => Operation::SetMaxMessageSize(self.u64()?),
            0x12 => Operation::SetMaxBatchSizeBytes(self.u64()?),
            0x13 => Operation::SetMaxMessagesInBatch(self.u64()?),
            0x14 => Operation::SetBatchingEnabled(self.bool()?),
            0x15 => Operation::SetChunkingEnabled(self.bool()?),
            0x16 => Operation::SetSendTimeout(self.optional(8, Self::u64)?),
            0x17 => Operation::SetBatchingMaxPublishDelay(self.optional(8, Self::u64)?),
            0x18 => Operation::SetBrokerReady(self.bool()?),
            0x19 => Operation::Close,
            0x1A => Operation::SetMetadataReservation(self.u64()?),
            0x20 => Operation::NextSendDeadline,
            0x21 => Operation::NextBatchDeadline,
            0x22 => Operation::BatchDeadlineElapsed { now: self.u64()? },
            0x23 => Operation::CanAddToBatch {
                payload_size: self.u64()?,
                num_messages: self.i32()?,
            },
            0x24 => Operation::OutboundLen,
            0x25 => Operation::Stats,
            0x26 => Operation::Dump,
            0x27 => Operation::MetadataReservation,
            _ => return None,
        })
    }
}
