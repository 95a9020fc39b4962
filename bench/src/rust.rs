//! The Rust, unchanged: the same operations as calls on its own types, made ready outside the time.

use std::hint::black_box;
use std::time::{Duration, Instant};
use std::vec::IntoIter;

use bytes::Bytes;
use magnetar_proto::pb;
use magnetar_proto::producer::{OpSend, OutboundFrame, OutgoingMessage, ProducerState};
use magnetar_proto::types::{CompressionKind, ProducerHandle};
use prost::Message as _;

use crate::clock::timed;
use crate::operations::{Message, Operation, Part};
use crate::port::HANDLE;

/// As the port starts (docs/DECISIONS.md, 6, and the batch count of document 01).
const MAX_MESSAGE_SIZE: usize = 5_242_880;
const MAX_MESSAGES_IN_BATCH: usize = 128;

/// What becomes of a frame that was taken.
#[derive(Debug, Clone, Copy, PartialEq, Eq)]
pub enum Frames {
    /// Handed out as the Rust hands it out, a struct that shares the payload, and dropped.
    HandedOut,
    /// Written to the output, as the port writes it: command and metadata by prost, and the payload.
    Written,
    /// Its payload alone written to the output, for comparing.
    Payload,
}

/// A call with its arguments. The messages of sends stand apart, since they are many times as long.
enum Call {
    Send { publish_time: u64, now: Instant },
    Take,
    Receipt(pb::CommandSendReceipt),
    Snapshot,
    Replay,
}

/// One producer of the Rust.
pub struct Rust {
    state: ProducerState,
    store: Bytes,
    /// The Rust's instant for clock 0.
    start: Instant,
    snapshot: Vec<OpSend>,
    frames: Frames,
    /// The bytes of the frames, if they are written.
    pub output: Vec<u8>,
}

impl Rust {
    pub fn new(store: Bytes, frames: Frames, output: Vec<u8>) -> Self {
        let mut state = ProducerState::new(
            ProducerHandle(HANDLE),
            String::new(),
            CompressionKind::None,
            MAX_MESSAGE_SIZE,
        );
        state.max_messages_in_batch = MAX_MESSAGES_IN_BATCH;
        Self {
            state,
            store,
            start: Instant::now(),
            snapshot: Vec::new(),
            frames,
            output,
        }
    }

    /// Carries out the operations and answers the time of the calls alone.
    pub fn run(&mut self, operations: &[Operation]) -> u64 {
        let calls: Vec<Call> = operations.iter().filter_map(|one| self.call(one)).collect();
        let messages = operations.iter().filter_map(|one| self.message(one));
        let mut messages = messages.collect::<Vec<_>>().into_iter();
        let mut calls = calls.into_iter();
        timed(|| {
            for call in calls.by_ref() {
                self.carry_out(call, &mut messages);
            }
        })
    }

    fn message(&self, operation: &Operation) -> Option<OutgoingMessage> {
        match operation {
            Operation::QueueSend(send) => Some(outgoing(&self.store, &send.message)),
            _ => None,
        }
    }

    /// Makes a call ready. Settings are fields of the Rust, and set at once.
    fn call(&mut self, operation: &Operation) -> Option<Call> {
        match operation {
            Operation::QueueSend(send) => Some(Call::Send {
                publish_time: send.publish_time,
                now: self.instant(send.now),
            }),
            Operation::NextOutboundFrame { .. } => Some(Call::Take),
            Operation::ApplyReceipt {
                producer_id,
                sequence_id,
                id: None,
            } => Some(Call::Receipt(pb::CommandSendReceipt {
                producer_id: *producer_id,
                sequence_id: *sequence_id,
                message_id: None,
                highest_sequence_id: None,
            })),
            Operation::SnapshotPendingSends { .. } => Some(Call::Snapshot),
            Operation::ReplayLastSnapshot { .. } => Some(Call::Replay),
            Operation::SetBatchingEnabled(on) => {
                self.state.batching_enabled = *on;
                None
            }
            Operation::SetChunkingEnabled(on) => {
                self.state.chunking_enabled = *on;
                None
            }
            Operation::SetMaxMessageSize(limit) => {
                self.state.max_message_size = *limit as usize;
                None
            }
            other => panic!("no workload has the operation {other:?}"),
        }
    }

    fn instant(&self, clock: u64) -> Instant {
        self.start + Duration::from_millis(clock)
    }

    fn carry_out(&mut self, call: Call, messages: &mut IntoIter<OutgoingMessage>) {
        match call {
            Call::Send { publish_time, now } => {
                let message = messages.next().expect("every send has a message");
                let decision = self.state.queue_send(message, publish_time, now);
                assert!(decision.is_ok(), "no send of a workload is refused");
            }
            Call::Take => {
                let frame = self.state.next_outbound_frame();
                self.frame(frame.as_ref().expect("no take of a workload is refused"));
            }
            Call::Receipt(receipt) => {
                let settled = self.state.apply_receipt(&receipt, self.start);
                black_box(
                    settled
                        .as_ref()
                        .expect("no receipt of a workload is refused"),
                );
            }
            Call::Snapshot => {
                let (_, _, replay) = self.state.snapshot_pending_sends();
                self.snapshot = replay;
            }
            Call::Replay => {
                let replay = std::mem::take(&mut self.snapshot);
                self.state.replay_snapshots(replay);
            }
        }
    }

    fn frame(&mut self, frame: &OutboundFrame) {
        if self.frames == Frames::Written {
            let room = "a vector grows";
            frame.command.encode(&mut self.output).expect(room);
            frame.metadata.encode(&mut self.output).expect(room);
        }
        if self.frames != Frames::HandedOut {
            self.output.extend_from_slice(&frame.payload);
        }
        black_box(frame);
    }
}

fn bytes(store: &Bytes, part: Part) -> Bytes {
    let start = part.start as usize;
    store.slice(start..start + part.length as usize)
}

fn outgoing(store: &Bytes, message: &Message) -> OutgoingMessage {
    let text = |part| String::from_utf8(bytes(store, part).to_vec()).expect("keys are letters");
    OutgoingMessage {
        payload: bytes(store, message.payload),
        metadata: pb::MessageMetadata {
            partition_key: message.partition_key.map(text),
            event_time: message.event_time,
            ..Default::default()
        },
        uncompressed_size: message.uncompressed_size,
        num_messages: message.num_messages,
        txn_id: None,
        source_message_id: None,
    }
}
