//! The frames that document 01 wants for a message or a batch, to compare with the Rust's own,
//! and to hand to the Rust where a script gives a replay table.

use bytes::Bytes;
use magnetar_proto::TxnId;
use magnetar_proto::pb;
use magnetar_proto::producer::{OutboundFrame, OutgoingMessage};
use magnetar_proto::types::{MessageId, SequenceId};

use crate::operations::{Message, Part, SourceId, Transaction};
use crate::shadow::{Batch, Sent};
use crate::wire;

/// A partition key or name that is no UTF-8: the Rust cannot hold it (document 01,
/// "memory_limit.rs, error.rs, txn.rs").
#[derive(Debug)]
pub struct NotUtf8;

/// Bytes for a part that lies outside the store. No frame with them is ever handed out.
static FILLER: [u8; 16_777_216] = [0; 16_777_216];

/// The script's store.
pub struct Store(Bytes);

impl Store {
    pub fn new(bytes: &[u8]) -> Self {
        Self(Bytes::copy_from_slice(bytes))
    }

    /// The length of what is lent when a script asks for this much.
    pub fn lent(&self, asked: u64) -> u64 {
        asked.min(self.0.len() as u64)
    }

    pub fn bytes(&self, part: Part) -> Bytes {
        if part.ends_inside(self.0.len() as u64) {
            let start = part.start as usize;
            self.0.slice(start..start + part.length as usize)
        } else {
            let length = part.length.min(FILLER.len() as u64);
            Bytes::from_static(&FILLER[..length as usize])
        }
    }

    pub fn text(&self, part: Part) -> Result<String, NotUtf8> {
        String::from_utf8(self.bytes(part).to_vec()).map_err(|_| NotUtf8)
    }
}

fn transaction(transaction: Transaction) -> TxnId {
    TxnId::new(transaction.most, transaction.least)
}

fn source_id(id: SourceId) -> MessageId {
    MessageId {
        ledger_id: id.ledger,
        entry_id: id.entry,
        partition: id.partition,
        batch_index: id.batch_index,
        batch_size: id.batch_size,
    }
}

/// The metadata that comes in with a message.
fn given_metadata(store: &Store, message: &Message) -> Result<pb::MessageMetadata, NotUtf8> {
    let text = |part| store.text(part);
    Ok(pb::MessageMetadata {
        producer_name: text(message.name)?,
        partition_key: message.partition_key.map(text).transpose()?,
        ordering_key: message.ordering_key.map(|key| store.bytes(key)),
        schema_version: message.schema_version.map(|version| store.bytes(version)),
        event_time: message.event_time,
        null_value: message.null_value,
        null_partition_key: message.null_partition_key,
        deliver_at_time: message.deliver_at_time,
        compression: message.compression,
        ..Default::default()
    })
}

/// The message as a caller of the Rust hands it over.
pub fn outgoing(store: &Store, message: &Message) -> Result<OutgoingMessage, NotUtf8> {
    Ok(OutgoingMessage {
        payload: store.bytes(message.payload),
        metadata: given_metadata(store, message)?,
        uncompressed_size: message.uncompressed_size,
        num_messages: message.num_messages,
        txn_id: message.transaction.map(transaction),
        source_message_id: message.source_id.map(source_id),
    })
}

/// The 36 lowercase characters of a uuid.
fn uuid_text(uuid: [u8; 16]) -> String {
    let hex: String = uuid.iter().map(|byte| format!("{byte:02x}")).collect();
    let groups = [
        &hex[..8],
        &hex[8..12],
        &hex[12..16],
        &hex[16..20],
        &hex[20..],
    ];
    groups.join("-")
}

/// A frame as the Rust hands it out.
pub fn frame_of(
    send: pb::CommandSend,
    metadata: pb::MessageMetadata,
    payload: Bytes,
) -> OutboundFrame {
    let sequence_id = SequenceId(send.sequence_id);
    OutboundFrame {
        command: pb::BaseCommand {
            r#type: 6,
            send: Some(send),
            ..Default::default()
        },
        metadata,
        payload,
        sequence_id,
    }
}

/// Section "sends": a single frame, or one chunk.
fn own_frame(
    store: &Store,
    handle: u64,
    sent: &Sent,
    given: &pb::MessageMetadata,
    index: u32,
) -> OutboundFrame {
    let message = &sent.message;
    let mut metadata = given.clone();
    metadata.sequence_id = sent.sequence_id;
    metadata.publish_time = sent.publish_time;
    if message.name.length == 0 {
        metadata.producer_name = sent.name.clone();
    }
    metadata.txnid_most_bits = message.transaction.map(|txn| txn.most);
    metadata.txnid_least_bits = message.transaction.map(|txn| txn.least);
    metadata.uncompressed_size = Some(message.uncompressed_size);
    if sent.chunks.is_some() {
        metadata.uuid = Some(uuid_text(sent.uuid));
        metadata.num_chunks_from_msg = Some(sent.frames().cast_signed());
        metadata.total_chunk_msg_size = Some(message.payload.length as i32);
        metadata.chunk_id = Some(index.cast_signed());
    } else if message.uncompressed_size == 0 {
        metadata.uncompressed_size = None;
    }
    let chunked = sent.chunks.is_some();
    let send = pb::CommandSend {
        producer_id: handle,
        sequence_id: sent.sequence_id,
        num_messages: Some(if chunked {
            1
        } else {
            message.num_messages.max(1)
        }),
        txnid_least_bits: metadata.txnid_least_bits,
        txnid_most_bits: metadata.txnid_most_bits,
        is_chunk: chunked.then_some(true),
        message_id: message.source_id.map(|id| source_id(id).to_pb()),
        ..Default::default()
    };
    frame_of(send, metadata, store.bytes(sent.payload(index)))
}

/// The frame of a message that has frames of its own.
pub fn one(store: &Store, handle: u64, sent: &Sent, index: u32) -> Result<OutboundFrame, NotUtf8> {
    let given = given_metadata(store, &sent.message)?;
    Ok(own_frame(store, handle, sent, &given, index))
}

/// All frames of a message, in order.
pub fn all(store: &Store, handle: u64, sent: &Sent) -> Result<Vec<OutboundFrame>, NotUtf8> {
    let given = given_metadata(store, &sent.message)?;
    let frames = 0..sent.frames();
    Ok(frames
        .map(|index| own_frame(store, handle, sent, &given, index))
        .collect())
}

/// Section "batch": the frame of a flushed batch.
pub fn batch<'a>(
    store: &Store,
    handle: u64,
    batch: &Batch,
    publish_time: u64,
    name: &str,
    messages: impl Iterator<Item = &'a Message>,
) -> OutboundFrame {
    let lowest = batch.lowest.unwrap_or_default();
    let highest = batch.highest.filter(|highest| *highest > lowest);
    let count = batch.count as i32;
    let metadata = pb::MessageMetadata {
        producer_name: name.to_owned(),
        sequence_id: lowest,
        publish_time,
        highest_sequence_id: highest,
        num_messages_in_batch: Some(count),
        txnid_most_bits: batch.transaction.map(|txn| txn.most),
        txnid_least_bits: batch.transaction.map(|txn| txn.least),
        uncompressed_size: Some(batch.size as u32),
        ..Default::default()
    };
    let send = pb::CommandSend {
        producer_id: handle,
        sequence_id: lowest,
        num_messages: Some(count),
        txnid_least_bits: metadata.txnid_least_bits,
        txnid_most_bits: metadata.txnid_most_bits,
        highest_sequence_id: highest,
        ..Default::default()
    };
    let mut payload = Vec::new();
    messages.for_each(|message| wire::item(store, message, &mut payload));
    frame_of(send, metadata, Bytes::from(payload))
}
