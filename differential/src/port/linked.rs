//! The exported operations, called one by one on a producer that lives across calls, as a client of the library calls them.

use std::cell::RefCell;
use std::rc::Rc;

use magnetar_proto::pb;
use magnetar_proto::types::MessageId;

use super::calls::{
    tevrulig_apply_receipt, tevrulig_apply_send_error, tevrulig_batch_deadline_elapsed,
    tevrulig_can_add_to_batch, tevrulig_close, tevrulig_drain_pending_sends,
    tevrulig_drain_timed_out_sends, tevrulig_flush_batch, tevrulig_metadata_reservation,
    tevrulig_new, tevrulig_next_batch_deadline, tevrulig_next_outbound_frame,
    tevrulig_next_send_deadline, tevrulig_outbound_len, tevrulig_queue_send,
    tevrulig_queue_send_reserved, tevrulig_replay_pending_outbound, tevrulig_replay_snapshots,
    tevrulig_set_batching_enabled, tevrulig_set_batching_max_publish_delay,
    tevrulig_set_broker_ready, tevrulig_set_chunking_enabled, tevrulig_set_initial_sequence_id,
    tevrulig_set_max_batch_size_bytes, tevrulig_set_max_message_size,
    tevrulig_set_max_messages_in_batch, tevrulig_set_metadata_reservation, tevrulig_set_name,
    tevrulig_set_send_timeout, tevrulig_snapshot_pending_sends, tevrulig_stats,
};
use super::given::{given_message, optional_i32, optional_u64, zeros};
use super::layout as c;
use crate::answers::{Answer, Answers, Dump};
use crate::frames::{Store, frame_of};
use crate::operations::{self as op, Kind, Operation, SourceId, TableEntry, Transaction};
use crate::oracle::{NotComparable, Step};
use crate::run::operations;
use crate::script::Head;
use crate::shadow::{Chunks, Entry, Sent};

const PENDING: usize = 256;
/// No more places are lent.
const TABLE: usize = 1_024;

thread_local! {
    /// One producer for all scripts of a thread: what the last one left is there when the next one begins.
    static MEMORY: RefCell<Memory> = RefCell::new(Memory::new());
}

/// What a client lends.
struct Memory {
    producer: Box<c::Producer>,
    buffer: Vec<u8>,
    dropped: Vec<c::Entry>,
    replay: Vec<c::Entry>,
    /// How many entries of `replay` the last snapshot wrote.
    kept: usize,
    scripts: u64,
}

impl Memory {
    fn new() -> Self {
        // SAFETY: a producer is numbers alone; this one is on the heap from the start, being half a megabyte.
        let producer = unsafe { Box::<c::Producer>::new_zeroed().assume_init() };
        Self {
            producer,
            buffer: Vec::new(),
            dropped: vec![zeros(); TABLE],
            replay: vec![zeros(); TABLE],
            kept: 0,
            scripts: 0,
        }
    }

    /// What the producer's memory holds before it is made new: mostly what the last script left; at times bytes of no meaning.
    fn spoil(&mut self) {
        self.scripts += 1;
        self.kept = 0;
        if self.scripts % 64 == 1 {
            let at: *mut c::Producer = &raw mut *self.producer;
            let byte = (self.scripts / 64) as u8 ^ 0xA5;
            // SAFETY: the whole of the producer, of which any bytes are one.
            unsafe { at.write_bytes(byte, 1) };
        }
    }
}

/// Carries out a script; answers how many bytes it wrote.
pub fn run(script: &[u8], output: &mut [u8]) -> usize {
    let mut answers = Answers::new(output);
    if !answers.has_room(0) {
        return 0;
    }
    let (ending, offset) = MEMORY.with_borrow_mut(|memory| {
        operations(
            script,
            &mut answers,
            |head| Linked::new(memory, head),
            |_, _| {},
        )
    });
    answers.ending(ending, offset);
    answers.length()
}

/// A client with one producer.
struct Linked<'a> {
    memory: &'a mut Memory,
    store: &'a [u8],
    texts: Store,
}

impl<'a> Linked<'a> {
    fn new(memory: &'a mut Memory, head: &Head<'a>) -> Self {
        memory.spoil();
        // SAFETY: here and below: the memory is whole, and no two pieces that a call is lent overlap.
        unsafe { tevrulig_new(&raw mut *memory.producer, head.handle) };
        Self {
            memory,
            store: head.store,
            texts: Store::new(head.store),
        }
    }

    fn producer(&mut self) -> *mut c::Producer {
        &raw mut *self.memory.producer
    }

    fn lent(&self, asked: u64) -> &'a [u8] {
        &self.store[..self.texts.lent(asked) as usize]
    }
}

impl crate::run::Producer for Linked<'_> {
    fn execute(&mut self, operation: &Operation) -> Step {
        Ok(match operation {
            Operation::QueueSendReserved(send) => self.send(send, true),
            Operation::QueueSend(send) => self.send(send, false),
            Operation::FlushBatch { publish_time, now } => {
                let mut count = 0;
                let producer = self.producer();
                let status =
                    unsafe { tevrulig_flush_batch(producer, *publish_time, *now, &mut count) };
                answer(status, || Answer::Count(count as u64))
            }
            Operation::NextOutboundFrame { buffer, lent_store } => {
                return self.take(*buffer, *lent_store);
            }
            Operation::ApplyReceipt {
                producer_id,
                sequence_id,
                id,
            } => return self.receipt(*producer_id, *sequence_id, *id),
            Operation::ApplySendError {
                producer_id,
                sequence_id,
                code,
            } => return self.send_error(*producer_id, *sequence_id, *code),
            Operation::DrainTimedOutSends { now, table } => {
                return self.drain(Some(*now), *table);
            }
            Operation::DrainPendingSends { table } => return self.drain(None, *table),
            Operation::SnapshotPendingSends { dropped, replay } => {
                return self.snapshot(*dropped, *replay);
            }
            Operation::ReplaySnapshots(table) => {
                let table: Vec<c::Entry> = table.iter().map(given_entry).collect();
                self.replay(&table)
            }
            Operation::ReplayLastSnapshot { entries } => {
                let count = self.memory.kept.min(*entries as usize);
                let table = self.memory.replay[..count].to_vec();
                self.replay(&table)
            }
            Operation::ReplayPendingOutbound => {
                let mut count = 0;
                let producer = self.producer();
                let status = unsafe { tevrulig_replay_pending_outbound(producer, &mut count) };
                answer(status, || Answer::Count(count as u64))
            }
            Operation::SetInitialSequenceId(next) => {
                unsafe { tevrulig_set_initial_sequence_id(self.producer(), *next) };
                Answer::Done
            }
            Operation::SetName(name) => {
                done(unsafe { tevrulig_set_name(self.producer(), name.as_ptr(), name.len()) })
            }
            Operation::SetMaxMessageSize(limit) => {
                done(unsafe { tevrulig_set_max_message_size(self.producer(), *limit as usize) })
            }
            Operation::SetMaxBatchSizeBytes(limit) => {
                done(unsafe { tevrulig_set_max_batch_size_bytes(self.producer(), *limit as usize) })
            }
            Operation::SetMaxMessagesInBatch(limit) => done(unsafe {
                tevrulig_set_max_messages_in_batch(self.producer(), *limit as usize)
            }),
            Operation::SetMetadataReservation(bytes) => {
                done(unsafe { tevrulig_set_metadata_reservation(self.producer(), *bytes as usize) })
            }
            Operation::SetBatchingEnabled(on) => {
                done(unsafe { tevrulig_set_batching_enabled(self.producer(), u8::from(*on)) })
            }
            Operation::SetChunkingEnabled(on) => {
                done(unsafe { tevrulig_set_chunking_enabled(self.producer(), u8::from(*on)) })
            }
            Operation::SetBrokerReady(on) => {
                done(unsafe { tevrulig_set_broker_ready(self.producer(), u8::from(*on)) })
            }
            Operation::SetSendTimeout(delay) => {
                done(unsafe { tevrulig_set_send_timeout(self.producer(), optional_u64(*delay)) })
            }
            Operation::SetBatchingMaxPublishDelay(delay) => done(unsafe {
                tevrulig_set_batching_max_publish_delay(self.producer(), optional_u64(*delay))
            }),
            Operation::Close => {
                unsafe { tevrulig_close(self.producer()) };
                Answer::Done
            }
            Operation::NextSendDeadline => {
                let deadline = unsafe { tevrulig_next_send_deadline(self.producer()) };
                Answer::Deadline(some(deadline.present, deadline.value))
            }
            Operation::NextBatchDeadline => {
                let deadline = unsafe { tevrulig_next_batch_deadline(self.producer()) };
                Answer::Deadline(some(deadline.present, deadline.value))
            }
            Operation::BatchDeadlineElapsed { now } => {
                Answer::Yes(unsafe { tevrulig_batch_deadline_elapsed(self.producer(), *now) } != 0)
            }
            Operation::CanAddToBatch {
                payload_size,
                num_messages,
            } => Answer::Yes(
                unsafe {
                    tevrulig_can_add_to_batch(
                        self.producer(),
                        *payload_size as usize,
                        *num_messages,
                    )
                } != 0,
            ),
            Operation::OutboundLen => {
                Answer::Count(unsafe { tevrulig_outbound_len(self.producer()) } as u64)
            }
            Operation::Stats => {
                let stats = unsafe { tevrulig_stats(self.producer()) };
                Answer::Stats([
                    stats.total_msgs_sent,
                    stats.total_bytes_sent,
                    stats.total_send_failed,
                    stats.total_acks_received,
                    stats.pending_queue_size,
                ])
            }
            Operation::Dump => Answer::Dump(Box::new(self.dump()?)),
            Operation::MetadataReservation => {
                Answer::Count(unsafe { tevrulig_metadata_reservation(self.producer()) } as u64)
            }
        })
    }
}

impl Linked<'_> {
    fn send(&mut self, send: &op::Send, with_reservation: bool) -> Answer {
        let store = self.lent(send.lent_store);
        let message = given_message(&send.message);
        let mut sent: c::Sent = zeros();
        let producer = self.producer();
        let status = unsafe {
            if with_reservation {
                tevrulig_queue_send_reserved(
                    producer,
                    store.as_ptr(),
                    store.len(),
                    &message,
                    send.reserved,
                    &send.uuid,
                    send.publish_time,
                    send.now,
                    &mut sent,
                )
            } else {
                tevrulig_queue_send(
                    producer,
                    store.as_ptr(),
                    store.len(),
                    &message,
                    &send.uuid,
                    send.publish_time,
                    send.now,
                    &mut sent,
                )
            }
        };
        match status {
            0 if sent.batched != 0 => Answer::Batched,
            0 => Answer::Emit(sent.count as u64),
            6 => Answer::TooLarge {
                size: sent.size as u64,
                limit: sent.max_message_size as u64,
            },
            number => Answer::Refused(number as u8),
        }
    }

    fn take(&mut self, buffer: u64, lent_store: u64) -> Step {
        let store = self.lent(lent_store);
        let length = buffer.min(1 << 25) as usize;
        if self.memory.buffer.len() < length {
            self.memory.buffer.resize(length, 0);
        }
        let mut frame: c::Frame = zeros();
        let producer = self.producer();
        let status = unsafe {
            tevrulig_next_outbound_frame(
                producer,
                store.as_ptr(),
                store.len(),
                self.memory.buffer.as_mut_ptr(),
                length,
                &mut frame,
            )
        };
        if status != 0 {
            return Ok(Answer::Refused(status as u8));
        }
        let payload = self.memory.buffer[..frame.payload_len].to_vec();
        let metadata = self.metadata(&frame.metadata)?;
        Ok(Answer::Frame(Box::new(frame_of(
            command(&frame.command),
            metadata,
            payload.into(),
        ))))
    }

    fn receipt(&mut self, producer_id: u64, sequence_id: u64, id: Option<op::ReceiptId>) -> Step {
        let receipt = c::Receipt {
            producer_id,
            sequence_id,
            message_id: id.map_or(zeros(), |id| c::MessageIdData {
                ledger_id: id.ledger,
                entry_id: id.entry,
                partition: optional_i32(id.partition),
                batch_index: optional_i32(id.batch_index),
                batch_size: optional_i32(id.batch_size),
                present: 1,
            }),
        };
        let (mut entry, mut stored): (c::Entry, c::MessageId) = (zeros(), zeros());
        let producer = self.producer();
        let status = unsafe { tevrulig_apply_receipt(producer, &receipt, &mut entry, &mut stored) };
        if status != 0 {
            return Ok(Answer::Refused(status as u8));
        }
        let id = MessageId {
            ledger_id: stored.ledger_id,
            entry_id: stored.entry_id,
            partition: stored.partition,
            batch_index: stored.batch_index,
            batch_size: stored.batch_size,
        };
        Ok(Answer::Receipt(id, answered_entry(&entry)?))
    }

    fn send_error(&mut self, producer_id: u64, sequence_id: u64, error: i32) -> Step {
        let refusal = c::SendError {
            producer_id,
            sequence_id,
            error,
        };
        let (mut entry, mut code): (c::Entry, i32) = (zeros(), 0);
        let producer = self.producer();
        let status =
            unsafe { tevrulig_apply_send_error(producer, &refusal, &mut entry, &mut code) };
        if status != 0 {
            return Ok(Answer::Refused(status as u8));
        }
        Ok(Answer::SendError(code, answered_entry(&entry)?))
    }

    fn drain(&mut self, due: Option<u64>, table: u32) -> Step {
        let (mut count, length) = (0, (table as usize).min(TABLE));
        let producer = self.producer();
        let at = self.memory.dropped.as_mut_ptr();
        let status = unsafe {
            match due {
                Some(now) => tevrulig_drain_timed_out_sends(producer, now, at, length, &mut count),
                None => tevrulig_drain_pending_sends(producer, at, length, &mut count),
            }
        };
        if status != 0 {
            return Ok(Answer::Refused(status as u8));
        }
        Ok(Answer::Entries(entries(&self.memory.dropped[..count])?))
    }

    fn snapshot(&mut self, dropped: u32, replay: u32) -> Step {
        let mut counts: c::Counts = zeros();
        let lengths = [dropped, replay].map(|length| (length as usize).min(TABLE));
        // The last table stays where it is if this snapshot is refused.
        let producer = self.producer();
        let status = unsafe {
            tevrulig_snapshot_pending_sends(
                producer,
                self.memory.dropped.as_mut_ptr(),
                lengths[0],
                self.memory.replay.as_mut_ptr(),
                lengths[1],
                &mut counts,
            )
        };
        if status != 0 {
            return Ok(Answer::Refused(status as u8));
        }
        self.memory.kept = counts.replay;
        Ok(Answer::Snapshot {
            dropped: entries(&self.memory.dropped[..counts.dropped])?,
            replay: entries(&self.memory.replay[..counts.replay])?,
        })
    }

    fn replay(&mut self, table: &[c::Entry]) -> Answer {
        done(unsafe { tevrulig_replay_snapshots(self.producer(), table.as_ptr(), table.len()) })
    }

    fn text(&self, part: c::Part) -> Result<String, NotComparable> {
        Ok(self.texts.text(part_of(part))?)
    }

    fn metadata(&self, m: &c::Metadata) -> Result<pb::MessageMetadata, NotComparable> {
        let own = some(m.producer_name.own.present, m.producer_name.own.value);
        let bytes = |part: c::OptionalPart| {
            some(part.present, part.value).map(|part| self.texts.bytes(part_of(part)))
        };
        let key = some(m.partition_key.present, m.partition_key.value);
        let uuid = some(m.uuid.present, m.uuid.value);
        let txn = some(m.txn_id.present, m.txn_id.value);
        Ok(pb::MessageMetadata {
            producer_name: match own {
                Some(part) => self.text(part)?,
                None => text_of(&m.producer_name.producer)?,
            },
            sequence_id: m.sequence_id,
            publish_time: m.publish_time,
            partition_key: key.map(|part| self.text(part)).transpose()?,
            ordering_key: bytes(m.ordering_key),
            schema_version: bytes(m.schema_version),
            event_time: some(m.event_time.present, m.event_time.value),
            null_value: yes(m.null_value),
            null_partition_key: yes(m.null_partition_key),
            deliver_at_time: some(m.deliver_at_time.present, m.deliver_at_time.value),
            compression: some(m.compression.present, m.compression.value),
            uncompressed_size: number(m.uncompressed_size).map(|size| size as u32),
            txnid_least_bits: txn.map(|txn| txn.least_sig_bits),
            txnid_most_bits: txn.map(|txn| txn.most_sig_bits),
            highest_sequence_id: number(m.highest_sequence_id),
            num_messages_in_batch: number(m.num_messages_in_batch).map(|count| count as i32),
            chunk_id: number(m.chunk_id).map(|id| id as i32),
            num_chunks_from_msg: number(m.num_chunks_from_msg).map(|count| count as i32),
            total_chunk_msg_size: number(m.total_chunk_msg_size).map(|size| size as i32),
            uuid: uuid.map(|uuid| uuid.iter().map(|byte| char::from(*byte)).collect()),
            ..Default::default()
        })
    }

    fn dump(&mut self) -> Result<Dump, NotComparable> {
        let send = unsafe { tevrulig_next_send_deadline(self.producer()) };
        let batch_due = unsafe { tevrulig_next_batch_deadline(self.producer()) };
        let producer = &self.memory.producer;
        let core = &producer.core;
        let (settings, batch, ring) = (&core.settings, &core.batch, core.rings.pending);
        let open = (batch.len > 0).then_some(batch);
        let mut pending = Vec::new();
        for place in 0..ring.len {
            let at = (ring.head + place) % PENDING;
            let id = producer.pending_ids[at];
            let marked = (0..ring.len).any(|other| {
                let at = (ring.head + other) % PENDING;
                producer.pending_ids[at] == id && producer.pending_marks[at] != 0
            });
            let entry = c::Entry {
                sequence_id: id,
                answerable: producer.pending_marks[at],
                publish: producer.pending[at],
            };
            pending.push((marked, answered_entry(&entry)?));
        }
        Ok(Dump {
            handle: core.handle,
            name: settings.name.bytes[..settings.name.len].to_vec(),
            limits: [
                settings.limits.max_message_size as u64,
                settings.limits.max_batch_size_bytes as u64,
                settings.limits.max_messages_in_batch as u64,
            ],
            batching_enabled: settings.switches.batching_enabled != 0,
            chunking_enabled: settings.switches.chunking_enabled != 0,
            send_timeout: number(settings.delays.send_timeout),
            publish_delay: number(settings.delays.batching_max_publish_delay),
            broker_ready: settings.switches.broker_ready != 0,
            closed: settings.switches.closed != 0,
            next_id: core.ids.next_sequence_id,
            pushed: core.ids.last_sequence_id_pushed,
            published: core.ids.last_sequence_id_published,
            totals: [
                core.counters.total_msgs_sent,
                core.counters.total_bytes_sent,
                core.counters.total_send_failed,
                core.counters.total_acks_received,
            ],
            waiting: core.rings.waiting as u64,
            held: core.rings.held.len as u64,
            batch_count: batch.len as u64,
            batch_size: open.map_or(0, |batch| batch.current_size_bytes as u64),
            batch_lowest: open.map(|batch| batch.lowest_sequence_id),
            batch_highest: open.map(|batch| batch.highest_sequence_id),
            batch_first_added: open.map(|batch| batch.first_added_at),
            batch_transaction: open
                .and_then(|batch| some(batch.txn_id.present, batch.txn_id.value))
                .map(transaction_of),
            next_send_deadline: number(send),
            next_batch_deadline: number(batch_due),
            pending,
        })
    }
}

// ---- from the header's structs ----

fn answer(status: u32, given: impl FnOnce() -> Answer) -> Answer {
    match status {
        0 => given(),
        number => Answer::Refused(number as u8),
    }
}

fn done(status: u32) -> Answer {
    answer(status, || Answer::Done)
}

fn some<T>(present: u8, value: T) -> Option<T> {
    (present != 0).then_some(value)
}

fn number(value: c::OptionalU64) -> Option<u64> {
    some(value.present, value.value)
}

fn yes(value: c::OptionalBool) -> Option<bool> {
    some(value.present, value.value != 0)
}

fn part_of(part: c::Part) -> op::Part {
    op::Part {
        start: part.start as u64,
        length: part.len as u64,
    }
}

fn optional_part_of(part: c::OptionalPart) -> Option<op::Part> {
    some(part.present, part_of(part.value))
}

fn transaction_of(txn: c::TxnId) -> Transaction {
    Transaction {
        most: txn.most_sig_bits,
        least: txn.least_sig_bits,
    }
}

fn text_of(name: &c::Name) -> Result<String, NotComparable> {
    let bytes = &name.bytes[..name.len.min(64)];
    String::from_utf8(bytes.to_vec()).map_err(|_| NotComparable)
}

fn command(command: &c::Command) -> pb::CommandSend {
    let txn = some(command.txn_id.present, command.txn_id.value);
    let id = some(command.message_id.present, command.message_id.value);
    pb::CommandSend {
        producer_id: command.producer_id,
        sequence_id: command.sequence_id,
        num_messages: Some(command.num_messages as i32),
        txnid_least_bits: txn.map(|txn| txn.least_sig_bits),
        txnid_most_bits: txn.map(|txn| txn.most_sig_bits),
        highest_sequence_id: number(command.highest_sequence_id),
        is_chunk: yes(command.is_chunk),
        message_id: id.map(|id| pb::MessageIdData {
            ledger_id: id.ledger_id,
            entry_id: id.entry_id,
            partition: Some(id.partition),
            batch_index: Some(id.batch_index),
            batch_size: Some(id.batch_size),
            ..Default::default()
        }),
        ..Default::default()
    }
}

fn message_of(m: &c::Message) -> op::Message {
    let id = some(m.source_message_id.present, m.source_message_id.value);
    op::Message {
        payload: part_of(m.payload),
        partition_key: optional_part_of(m.partition_key),
        ordering_key: optional_part_of(m.ordering_key),
        schema_version: optional_part_of(m.schema_version),
        name: part_of(m.producer_name),
        event_time: number(m.event_time),
        null_value: yes(m.null_value),
        null_partition_key: yes(m.null_partition_key),
        deliver_at_time: some(m.deliver_at_time.present, m.deliver_at_time.value),
        compression: some(m.compression.present, m.compression.value),
        uncompressed_size: m.uncompressed_size,
        num_messages: m.num_messages,
        transaction: some(m.txn_id.present, m.txn_id.value).map(transaction_of),
        source_id: id.map(|id| SourceId {
            ledger: id.ledger_id,
            entry: id.entry_id,
            partition: id.partition,
            batch_index: id.batch_index,
            batch_size: id.batch_size,
        }),
    }
}

fn answered_entry(entry: &c::Entry) -> Result<Entry, NotComparable> {
    let publish = &entry.publish;
    let chunks = (publish.replay.kind > 1).then_some(Chunks {
        size: publish.replay.max_chunk_size,
        count: publish.replay.total_chunks,
    });
    let replays = match publish.replay.kind {
        0 => None,
        _ => Some(Rc::new(Sent {
            sequence_id: entry.sequence_id,
            message: message_of(&publish.message),
            publish_time: publish.publish_time,
            name: text_of(&publish.producer_name)?,
            uuid: publish.uuid,
            chunks,
        })),
    };
    Ok(Entry {
        sequence_id: entry.sequence_id,
        num_messages: publish.num_messages,
        enqueued_at: publish.enqueued_at,
        reserved: publish.reserved,
        replays,
    })
}

fn entries(table: &[c::Entry]) -> Result<Vec<Entry>, NotComparable> {
    table.iter().map(answered_entry).collect()
}

// ---- to the header's structs ----

fn given_entry(table: &TableEntry) -> c::Entry {
    c::Entry {
        sequence_id: table.sequence_id,
        answerable: 0,
        publish: c::Publish {
            enqueued_at: table.enqueued_at,
            reserved: table.reserved,
            publish_time: table.publish_time,
            producer_name: c::Name {
                bytes: table.name,
                len: usize::from(table.name_length),
            },
            uuid: table.uuid,
            message: given_message(&table.message),
            num_messages: table.num_messages,
            replay: c::Replay {
                kind: match table.kind {
                    Kind::Batched => 0,
                    Kind::Single => 1,
                    Kind::Chunked => 2,
                },
                total_chunks: table.chunk_count,
                max_chunk_size: table.chunk_size,
            },
        },
    }
}
