//! What a script can say: the messages, table entries and operations of docs/SCRIPT.md.

/// A start and a length in the store.
#[derive(Debug, Clone, Copy, Default, PartialEq, Eq)]
pub struct Part {
    pub start: u64,
    pub length: u64,
}

impl Part {
    /// Whether the part ends inside a store of this length (refusal 2).
    pub fn ends_inside(self, store: u64) -> bool {
        self.start
            .checked_add(self.length)
            .is_some_and(|end| end <= store)
    }
}

#[derive(Debug, Clone, Copy, PartialEq, Eq)]
pub struct Transaction {
    pub most: u64,
    pub least: u64,
}

#[derive(Debug, Clone, Copy, PartialEq, Eq)]
pub struct SourceId {
    pub ledger: u64,
    pub entry: u64,
    pub partition: i32,
    pub batch_index: i32,
    pub batch_size: i32,
}

/// A message as document 01 lists its fields.
#[derive(Debug, Clone, Copy, Default, PartialEq, Eq)]
pub struct Message {
    pub payload: Part,
    pub partition_key: Option<Part>,
    pub ordering_key: Option<Part>,
    pub schema_version: Option<Part>,
    pub name: Part,
    pub event_time: Option<u64>,
    pub null_value: Option<bool>,
    pub null_partition_key: Option<bool>,
    pub deliver_at_time: Option<i64>,
    pub compression: Option<i32>,
    pub uncompressed_size: u32,
    pub num_messages: i32,
    pub transaction: Option<Transaction>,
    pub source_id: Option<SourceId>,
}

impl Message {
    /// The keys and the schema version that are present.
    pub fn keys(&self) -> impl Iterator<Item = Part> {
        [self.partition_key, self.ordering_key, self.schema_version]
            .into_iter()
            .flatten()
    }
}

/// The arguments of a send. `queue_send` reserves nothing.
#[derive(Debug, Clone, Copy, Default, PartialEq, Eq)]
pub struct Send {
    pub message: Message,
    pub reserved: u64,
    pub uuid: [u8; 16],
    pub publish_time: u64,
    pub now: u64,
    pub lent_store: u64,
}

#[derive(Debug, Clone, Copy, PartialEq, Eq)]
pub struct ReceiptId {
    pub ledger: u64,
    pub entry: u64,
    pub partition: Option<i32>,
    pub batch_index: Option<i32>,
    pub batch_size: Option<i32>,
}

/// What a table entry replays.
#[derive(Debug, Clone, Copy, Default, PartialEq, Eq)]
pub enum Kind {
    #[default]
    Batched,
    Single,
    Chunked,
}

/// One entry of an explicit replay table.
#[derive(Debug, Clone, Copy, PartialEq, Eq)]
pub struct TableEntry {
    pub sequence_id: u64,
    pub num_messages: i32,
    pub enqueued_at: u64,
    pub reserved: u64,
    pub kind: Kind,
    pub chunk_size: u32,
    pub chunk_count: u32,
    pub message: Message,
    pub publish_time: u64,
    pub name_length: u8,
    pub name: [u8; 64],
    pub uuid: [u8; 16],
}

impl TableEntry {
    /// The producer's name in the entry: its first 64 bytes at most.
    pub fn name(&self) -> &[u8] {
        &self.name[..usize::from(self.name_length).min(64)]
    }
}

impl Default for TableEntry {
    fn default() -> Self {
        Self {
            sequence_id: 0,
            num_messages: 1,
            enqueued_at: 0,
            reserved: 0,
            kind: Kind::Batched,
            chunk_size: 0,
            chunk_count: 0,
            message: Message::default(),
            publish_time: 0,
            name_length: 0,
            name: [0; 64],
            uuid: [0; 16],
        }
    }
}

#[derive(Debug, Clone, PartialEq, Eq)]
pub enum Operation {
    QueueSendReserved(Send),
    QueueSend(Send),
    FlushBatch {
        publish_time: u64,
        now: u64,
    },
    NextOutboundFrame {
        buffer: u64,
        lent_store: u64,
    },
    ApplyReceipt {
        producer_id: u64,
        sequence_id: u64,
        id: Option<ReceiptId>,
    },
    ApplySendError {
        producer_id: u64,
        sequence_id: u64,
        code: i32,
    },
    DrainTimedOutSends {
        now: u64,
        table: u32,
    },
    DrainPendingSends {
        table: u32,
    },
    SnapshotPendingSends {
        dropped: u32,
        replay: u32,
    },
    ReplaySnapshots(Vec<TableEntry>),
    ReplayLastSnapshot {
        entries: u32,
    },
    ReplayPendingOutbound,
    SetInitialSequenceId(u64),
    SetName(Vec<u8>),
    SetMaxMessageSize(u64),
    SetMaxBatchSizeBytes(u64),
    SetMaxMessagesInBatch(u64),
    SetBatchingEnabled(bool),
    SetChunkingEnabled(bool),
    SetSendTimeout(Option<u64>),
    SetBatchingMaxPublishDelay(Option<u64>),
    SetBrokerReady(bool),
    Close,
    SetMetadataReservation(u64),
    NextSendDeadline,
    NextBatchDeadline,
    BatchDeadlineElapsed {
        now: u64,
    },
    CanAddToBatch {
        payload_size: u64,
        num_messages: i32,
    },
    OutboundLen,
    Stats,
    Dump,
    MetadataReservation,
}

/// Every operation code of docs/SCRIPT.md with its name.
pub const CODES: [(u8, &str); 32] = [
    (0x01, "queue_send_reserved"),
    (0x02, "queue_send"),
    (0x03, "flush_batch"),
    (0x04, "next_outbound_frame"),
    (0x05, "apply_receipt"),
    (0x06, "apply_send_error"),
    (0x07, "drain_timed_out_sends"),
    (0x08, "drain_pending_sends"),
    (0x09, "snapshot_pending_sends"),
    (0x0A, "replay_snapshots"),
    (0x0B, "replay_snapshots, last table"),
    (0x0C, "replay_pending_outbound"),
    (0x0D, "set_initial_sequence_id"),
    (0x10, "set name"),
    (0x11, "set max_message_size"),
    (0x12, "set max_batch_size_bytes"),
    (0x13, "set max_messages_in_batch"),
    (0x14, "set batching_enabled"),
    (0x15, "set chunking_enabled"),
    (0x16, "set send_timeout"),
    (0x17, "set batching_max_publish_delay"),
    (0x18, "set broker_ready"),
    (0x19, "close"),
    (0x1A, "set metadata_reservation"),
    (0x20, "next_send_deadline"),
    (0x21, "next_batch_deadline"),
    (0x22, "batch_deadline_elapsed"),
    (0x23, "can_add_to_batch"),
    (0x24, "outbound_len"),
    (0x25, "stats"),
    (0x26, "dump"),
    (0x27, "metadata_reservation"),
];

impl Operation {
    pub fn code(&self) -> u8 {
        match self {
            Self::QueueSendReserved(_) => 0x01,
            Self::QueueSend(_) => 0x02,
            Self::FlushBatch { .. } => 0x03,
            Self::NextOutboundFrame { .. } => 0x04,
            Self::ApplyReceipt { .. } => 0x05,
            Self::ApplySendError { .. } => 0x06,
            Self::DrainTimedOutSends { .. } => 0x07,
            Self::DrainPendingSends { .. } => 0x08,
            Self::SnapshotPendingSends { .. } => 0x09,
            Self::ReplaySnapshots(_) => 0x0A,
            Self::ReplayLastSnapshot { .. } => 0x0B,
            Self::ReplayPendingOutbound => 0x0C,
            Self::SetInitialSequenceId(_) => 0x0D,
            Self::SetName(_) => 0x10,
            Self::SetMaxMessageSize(_) => 0x11,
            Self::SetMaxBatchSizeBytes(_) => 0x12,
            Self::SetMaxMessagesInBatch(_) => 0x13,
            Self::SetBatchingEnabled(_) => 0x14,
            Self::SetChunkingEnabled(_) => 0x15,
            Self::SetSendTimeout(_) => 0x16,
            Self::SetBatchingMaxPublishDelay(_) => 0x17,
            Self::SetBrokerReady(_) => 0x18,
            Self::Close => 0x19,
            Self::SetMetadataReservation(_) => 0x1A,
            Self::NextSendDeadline => 0x20,
            Self::NextBatchDeadline => 0x21,
            Self::BatchDeadlineElapsed { .. } => 0x22,
            Self::CanAddToBatch { .. } => 0x23,
            Self::OutboundLen => 0x24,
            Self::Stats => 0x25,
            Self::Dump => 0x26,
            Self::MetadataReservation => 0x27,
        }
    }
}
