//! Reading the whole Rust state, and comparing it with the shadow.

use std::collections::HashSet;

use magnetar_proto::producer::{OpSend, OutboundFrame};

use crate::answers::Dump;
use crate::frames;
use crate::operations::Transaction;
use crate::oracle::{Checks, Oracle};
use crate::shadow::Entry;

/// The derived `Debug` text is long: it is read for small states only.
const SMALL_STATE: u64 = 48;

impl Oracle {
    /// After every operation.
    pub(crate) fn assert_same_counts(&self) {
        let (rust, shadow) = (&self.rust, &self.shadow);
        let batch = &rust.batch;
        let waiting = shadow.waiting_frames();
        assert_eq!(rust.outbound_len() as u64, waiting, "waiting frames");
        assert_eq!(rust.pending.len(), shadow.pending.len(), "pending entries");
        assert_eq!(batch.len(), shadow.batch.count, "messages in the batch");
        assert_eq!(batch.current_size_bytes as u64, shadow.batch.size, "bytes");
        assert_eq!(batch.lowest_sequence_id, shadow.batch.lowest, "lowest id");
        assert_eq!(
            batch.highest_sequence_id, shadow.batch.highest,
            "highest id"
        );
        let first_added = batch.first_added_at.map(|at| self.clock(at));
        assert_eq!(first_added, shadow.batch.first_added, "first added");
    }

    pub(crate) fn dump(&self) -> Dump {
        let (rust, shadow) = (&self.rust, &self.shadow);
        let batch = &rust.batch;
        let reserved: u64 = shadow.pending.iter().map(|entry| entry.reserved).sum();
        assert_eq!(self.budget.used_bytes(), reserved, "reserved bytes");
        for (op, entry) in rust.pending.iter().zip(&shadow.pending) {
            self.assert_same_entry(op, entry);
        }
        let replayed: u64 = shadow
            .pending
            .iter()
            .map(|entry| u64::from(entry.frames()))
            .sum();
        let small = replayed + shadow.waiting_frames() <= SMALL_STATE;
        if small && self.checks == Checks::Whole {
            self.assert_same_private_fields();
        }
        let milliseconds = |delay: std::time::Duration| delay.as_millis() as u64;
        Dump {
            handle: rust.handle.0,
            name: rust.name.clone().unwrap_or_default().into_bytes(),
            limits: [
                rust.max_message_size as u64,
                rust.max_batch_size_bytes as u64,
                rust.max_messages_in_batch as u64,
            ],
            batching_enabled: rust.batching_enabled,
            chunking_enabled: rust.chunking_enabled,
            send_timeout: rust.send_timeout.map(milliseconds),
            publish_delay: rust.batching_max_publish_delay.map(milliseconds),
            broker_ready: rust.broker_ready,
            closed: rust.closed,
            next_id: shadow.next_id,
            pushed: rust.last_sequence_id_pushed,
            published: rust.last_sequence_id_published,
            totals: [
                rust.total_msgs_sent,
                rust.total_bytes_sent,
                rust.total_send_failed,
                rust.total_acks_received,
            ],
            waiting: rust.outbound_len() as u64,
            held: shadow.held.len() as u64,
            batch_count: batch.len() as u64,
            batch_size: batch.current_size_bytes as u64,
            batch_lowest: batch.lowest_sequence_id,
            batch_highest: batch.highest_sequence_id,
            batch_first_added: batch.first_added_at.map(|at| self.clock(at)),
            batch_transaction: batch.txn_id.map(|txn| Transaction {
                most: txn.most_sig_bits,
                least: txn.least_sig_bits,
            }),
            next_send_deadline: rust.next_send_deadline().map(|at| self.clock(at)),
            next_batch_deadline: rust.next_batch_deadline().map(|at| self.clock(at)),
            pending: shadow
                .pending
                .iter()
                .map(|entry| {
                    let answerable = shadow.answerable.contains(&entry.sequence_id);
                    (answerable, entry.clone())
                })
                .collect(),
        }
    }

    pub(crate) fn assert_same_entries(&self, ops: &[OpSend], entries: &[Entry]) {
        assert_eq!(ops.len(), entries.len(), "entries handed out");
        for (op, entry) in ops.iter().zip(entries) {
            self.assert_same_entry(op, entry);
        }
    }

    pub(crate) fn assert_same_entry(&self, op: &OpSend, entry: &Entry) {
        let (id, count) = (op.sequence_id.0, op.num_messages);
        assert_eq!(
            (id, count),
            (entry.sequence_id, entry.num_messages),
            "an entry"
        );
        assert_eq!(
            self.clock(op.enqueued_at),
            entry.enqueued_at,
            "an entry's time"
        );
        assert_eq!(
            op.reserved_bytes(),
            entry.reserved,
            "an entry's reservation"
        );
        assert_eq!(
            op.replay_frames.len(),
            entry.frames() as usize,
            "an entry's frames"
        );
        if self.checks == Checks::Light {
            return;
        }
        if let Some(sent) = &entry.replays {
            let wanted = frames::all(&self.store, self.rust.handle.0, sent);
            let wanted = wanted.expect("tested when the message came in");
            for (frame, wanted) in op.replay_frames.iter().zip(&wanted) {
                assert_same_frame(frame, wanted);
            }
        }
    }

    /// The next id and `pending_index` are private: they are read from the derived `Debug`.
    fn assert_same_private_fields(&self) {
        let text = format!("{:?}", self.rust);
        let next_id = after(&text, ", next_sequence_id: ").split(',').next();
        assert_eq!(
            next_id,
            Some(self.shadow.next_id.to_string().as_str()),
            "next id"
        );
        let index = after(&text, ", pending_index: {").split('}').next();
        let ids: HashSet<u64> = index
            .into_iter()
            .flat_map(|index| index.split("SequenceId(").skip(1))
            .filter_map(|item| item.split(')').next()?.parse().ok())
            .collect();
        assert_eq!(ids, self.shadow.answerable, "answerable ids");
    }
}

fn after<'a>(text: &'a str, mark: &str) -> &'a str {
    text.split_once(mark).map_or("", |(_, rest)| rest)
}

pub(crate) fn assert_same_frame(frame: &OutboundFrame, wanted: &OutboundFrame) {
    assert_eq!(frame.sequence_id, wanted.sequence_id, "a frame's id");
    assert_eq!(frame.command, wanted.command, "a frame's command");
    assert_eq!(frame.metadata, wanted.metadata, "a frame's metadata");
    assert!(frame.payload == wanted.payload, "a frame's payload");
}
