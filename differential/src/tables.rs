//! Settling entries, and handing them out and in by tables.

use std::rc::Rc;

use magnetar_proto::access::op_send;
use magnetar_proto::pb;
use magnetar_proto::producer::{ChunkedMessageContext, OpSend, OutboundFrame};

use crate::answers::Answer;
use crate::bounds;
use crate::frames;
use crate::operations::{Kind, ReceiptId, TableEntry};
use crate::oracle::{NotComparable, Oracle, Step};
use crate::shadow::{Chunks, Entry, Sent};

impl Oracle {
    pub(crate) fn receipt(
        &mut self,
        producer_id: u64,
        sequence_id: u64,
        id: Option<ReceiptId>,
    ) -> Answer {
        let receipt = pb::CommandSendReceipt {
            producer_id,
            sequence_id,
            message_id: id.map(|id| pb::MessageIdData {
                ledger_id: id.ledger,
                entry_id: id.entry,
                partition: id.partition,
                batch_index: id.batch_index,
                batch_size: id.batch_size,
                ..Default::default()
            }),
            highest_sequence_id: None,
        };
        match self.rust.apply_receipt(&receipt, self.start) {
            None => Answer::Refused(11),
            Some((op, id)) => Answer::Receipt(id, self.settle(&op)),
        }
    }

    pub(crate) fn send_error(&mut self, producer_id: u64, sequence_id: u64, code: i32) -> Answer {
        let error = pb::CommandSendError {
            producer_id,
            sequence_id,
            error: code,
            message: String::new(),
        };
        match self.rust.apply_send_error(&error) {
            None => Answer::Refused(11),
            Some((op, code, _)) => Answer::SendError(code, self.settle(&op)),
        }
    }

    fn settle(&mut self, op: &OpSend) -> Entry {
        let entry = self.shadow.settle(op.sequence_id.0);
        let entry = entry.expect("the Rust settled an entry that document 01 does not know");
        self.assert_same_entry(op, &entry);
        entry
    }

    pub(crate) fn time_out(&mut self, now: u64, table: u32) -> Answer {
        let timeout = self.rust.send_timeout.map(|delay| delay.as_millis() as u64);
        let enqueued = self.shadow.pending.iter().map(|entry| entry.enqueued_at);
        let due = bounds::due(enqueued, timeout, now);
        if let Some(number) = bounds::table(table, due) {
            return Answer::Refused(number);
        }
        let now = self.instant(now);
        let ops = self.rust.drain_timed_out_sends(now);
        let entries = self.shadow.time_out(due);
        self.assert_same_entries(&ops, &entries);
        Answer::Entries(entries)
    }

    pub(crate) fn drain(&mut self, table: u32) -> Answer {
        if let Some(number) = bounds::table(table, self.shadow.pending.len()) {
            return Answer::Refused(number);
        }
        let ops = self.rust.drain_pending_sends();
        let entries = self.shadow.drain();
        self.assert_same_entries(&ops, &entries);
        Answer::Entries(entries)
    }

    pub(crate) fn snapshot_pending(&mut self, dropped_table: u32, replay_table: u32) -> Answer {
        let batched = |entry: &Entry| entry.replays.is_none();
        let pending = &self.shadow.pending;
        let dropped = pending.iter().filter(|entry| batched(entry)).count();
        let dropped_short = bounds::table(dropped_table, dropped);
        let replay_short = bounds::table(replay_table, pending.len() - dropped);
        if let Some(number) = dropped_short.or(replay_short) {
            return Answer::Refused(number);
        }
        let (_, dropped_ops, replay_ops) = self.rust.snapshot_pending_sends();
        let entries = self.shadow.drain().into_iter();
        let (dropped, replay): (Vec<Entry>, Vec<Entry>) = entries.partition(batched);
        self.assert_same_entries(&dropped_ops, &dropped);
        self.assert_same_entries(&replay_ops, &replay);
        let frames = replay_ops.into_iter().map(|op| op.replay_frames);
        self.snapshot = replay.iter().cloned().zip(frames).collect();
        Answer::Snapshot { dropped, replay }
    }

    pub(crate) fn replay_table(&mut self, table: &[TableEntry]) -> Step {
        table.iter().for_each(assert_same_chunk_count);
        let waiting = self.rust.outbound_len() as u64;
        let pending = self.rust.pending.len() as u64;
        if let Some(number) = bounds::replay(table, pending, waiting) {
            return Ok(Answer::Refused(number));
        }
        let entries = table.iter().map(entry).collect::<Result<Vec<_>, _>>()?;
        let mut given = Vec::new();
        for entry in entries {
            let frames = match &entry.replays {
                None => Vec::new(),
                Some(sent) => frames::all(&self.store, self.rust.handle.0, sent)?,
            };
            given.push((entry, frames));
        }
        self.replay(given);
        Ok(Answer::Done)
    }

    /// 12 cannot refuse what a snapshot wrote.
    pub(crate) fn replay_last(&mut self, entries: u32) -> Answer {
        let count = self.snapshot.len().min(entries as usize);
        let given = self.snapshot[..count].to_vec();
        let frames = given.iter().map(|(_, frames)| frames.len() as u64).sum();
        let waiting = self.rust.outbound_len() as u64;
        let full = bounds::no_place(count as u64, self.rust.pending.len() as u64);
        if let Some(number) = full.or(bounds::replay_frames(frames, waiting)) {
            return Answer::Refused(number);
        }
        self.replay(given);
        Answer::Done
    }

    fn replay(&mut self, given: Vec<(Entry, Vec<OutboundFrame>)>) {
        let mut ops = Vec::new();
        let mut entries = Vec::new();
        for (entry, frames) in given {
            ops.push(op_send(
                entry.sequence_id,
                entry.num_messages,
                self.instant(entry.enqueued_at),
                frames,
                self.reserve(entry.reserved),
            ));
            entries.push(entry);
        }
        self.rust.replay_snapshots(ops);
        self.shadow.replay(entries);
    }

    pub(crate) fn replay_pending(&mut self) -> Answer {
        let entries = self.shadow.unstaged();
        let frames = entries.iter().map(|entry| u64::from(entry.frames())).sum();
        let before = self.rust.outbound_len() as u64;
        if let Some(number) = bounds::replay_frames(frames, before) {
            return Answer::Refused(number);
        }
        self.rust.replay_pending_outbound();
        self.shadow.replay_pending(&entries);
        Answer::Count(self.rust.outbound_len() as u64 - before)
    }
}

/// A table entry as a pending one.
fn entry(table: &TableEntry) -> Result<Entry, NotComparable> {
    let chunks = (table.kind == Kind::Chunked).then_some(Chunks {
        size: table.chunk_size,
        count: table.chunk_count,
    });
    let replays = match table.kind {
        Kind::Batched => None,
        Kind::Single | Kind::Chunked => Some(Rc::new(Sent {
            sequence_id: table.sequence_id,
            message: table.message,
            publish_time: table.publish_time,
            name: String::from_utf8(table.name().to_vec()).map_err(|_| NotComparable)?,
            uuid: table.uuid,
            chunks,
        })),
    };
    Ok(Entry {
        sequence_id: table.sequence_id,
        num_messages: table.num_messages,
        enqueued_at: table.enqueued_at,
        reserved: table.reserved,
        replays,
    })
}

/// 12 goes by the chunk count that the Rust itself works out.
fn assert_same_chunk_count(entry: &TableEntry) {
    let (length, size) = (entry.message.payload.length, entry.chunk_size);
    let rust = ChunkedMessageContext::compute_total_chunks(length as usize, size as usize);
    let wanted = bounds::chunk_count(length, size.into());
    assert_eq!(u64::from(rust.unsigned_abs()), wanted, "a chunk count");
}
