//! The exported operations (include/tevrulig.h), called as the Rust is: arguments made ready outside the time.

use std::hint::black_box;
use std::vec::IntoIter;

use crate::clock::timed;
use crate::given::{given_message, zeros};
use crate::layout as c;
use crate::operations::Operation;
use crate::port::HANDLE;

const PENDING: usize = 256;

/// A call with its arguments. The messages of sends stand apart, as for the Rust.
enum Call {
    Send {
        publish_time: u64,
        now: u64,
        uuid: [u8; 16],
    },
    Take {
        buffer: usize,
    },
    Receipt(c::Receipt),
    Snapshot,
    Replay,
}

/// One producer that lives from call to call.
pub struct Linked<'a> {
    producer: Box<c::Producer>,
    store: &'a [u8],
    dropped: Vec<c::Entry>,
    replay: Vec<c::Entry>,
    kept: usize,
    buffer: Vec<u8>,
    /// The payloads, if they are kept.
    pub output: Option<Vec<u8>>,
}

impl<'a> Linked<'a> {
    pub fn new(store: &'a [u8], output: Option<Vec<u8>>) -> Self {
        // SAFETY: a producer is numbers alone, of which any bytes are one. What is written is there before the time begins, as the
        // memory of a client that has run for a while.
        let producer = unsafe {
            let mut producer = Box::<c::Producer>::new_zeroed().assume_init();
            let at = &raw mut *producer;
            at.write_bytes(0xA5, 1);
            c::tevrulig_new(at, HANDLE);
            producer
        };
        Self {
            producer,
            store,
            dropped: vec![zeros(); PENDING],
            replay: vec![zeros(); PENDING],
            kept: 0,
            buffer: vec![1; 1 << 25],
            output,
        }
    }

    /// Carries out the operations and answers the time of the calls alone.
    pub fn run(&mut self, operations: &[Operation]) -> u64 {
        let calls: Vec<Call> = operations.iter().filter_map(|one| self.call(one)).collect();
        let messages = operations.iter().filter_map(|one| match one {
            Operation::QueueSend(send) => Some(given_message(&send.message)),
            _ => None,
        });
        let mut messages = messages.collect::<Vec<_>>().into_iter();
        timed(|| {
            for call in calls {
                self.carry_out(call, &mut messages);
            }
        })
    }

    /// Makes a call ready. Settings are set at once, as for the Rust.
    fn call(&mut self, operation: &Operation) -> Option<Call> {
        let producer = &raw mut *self.producer;
        match operation {
            Operation::QueueSend(send) => Some(Call::Send {
                publish_time: send.publish_time,
                now: send.now,
                uuid: send.uuid,
            }),
            Operation::NextOutboundFrame { buffer, .. } => Some(Call::Take {
                buffer: *buffer as usize,
            }),
            Operation::ApplyReceipt {
                producer_id,
                sequence_id,
                id: None,
            } => Some(Call::Receipt(c::Receipt {
                producer_id: *producer_id,
                sequence_id: *sequence_id,
                message_id: zeros(),
            })),
            Operation::SnapshotPendingSends { .. } => Some(Call::Snapshot),
            Operation::ReplayLastSnapshot { .. } => Some(Call::Replay),
            // SAFETY: the producer is whole.
            Operation::SetBatchingEnabled(on) => {
                unsafe { c::tevrulig_set_batching_enabled(producer, u8::from(*on)) };
                None
            }
            Operation::SetChunkingEnabled(on) => {
                unsafe { c::tevrulig_set_chunking_enabled(producer, u8::from(*on)) };
                None
            }
            Operation::SetMaxMessageSize(limit) => {
                unsafe { c::tevrulig_set_max_message_size(producer, *limit as usize) };
                None
            }
            other => panic!("no workload has the operation {other:?}"),
        }
    }

    fn carry_out(&mut self, call: Call, messages: &mut IntoIter<c::Message>) {
        let producer = &raw mut *self.producer;
        let (store, store_len) = (self.store.as_ptr(), self.store.len());
        // SAFETY: what is lent is whole, and no two pieces overlap.
        let status = unsafe {
            match call {
                Call::Send {
                    publish_time,
                    now,
                    uuid,
                } => {
                    let message = messages.next().expect("every send has a message");
                    let mut sent: c::Sent = zeros();
                    let status = c::tevrulig_queue_send(
                        producer,
                        store,
                        store_len,
                        &message,
                        &uuid,
                        publish_time,
                        now,
                        &mut sent,
                    );
                    black_box(&sent);
                    status
                }
                Call::Take { buffer } => {
                    let mut frame: c::Frame = zeros();
                    let room = buffer.min(self.buffer.len());
                    let at = self.buffer.as_mut_ptr();
                    let status = c::tevrulig_next_outbound_frame(
                        producer, store, store_len, at, room, &mut frame,
                    );
                    if let Some(output) = &mut self.output {
                        output.extend_from_slice(&self.buffer[..frame.payload_len]);
                    }
                    black_box(&frame);
                    status
                }
                Call::Receipt(receipt) => {
                    let (mut entry, mut id): (c::Entry, c::MessageId) = (zeros(), zeros());
                    let status = c::tevrulig_apply_receipt(producer, &receipt, &mut entry, &mut id);
                    black_box((&entry, &id));
                    status
                }
                Call::Snapshot => {
                    let mut counts: c::Counts = zeros();
                    let (dropped, replay) = (self.dropped.as_mut_ptr(), self.replay.as_mut_ptr());
                    let status = c::tevrulig_snapshot_pending_sends(
                        producer,
                        dropped,
                        PENDING,
                        replay,
                        PENDING,
                        &mut counts,
                    );
                    self.kept = counts.replay;
                    status
                }
                Call::Replay => {
                    c::tevrulig_replay_snapshots(producer, self.replay.as_ptr(), self.kept)
                }
            }
        };
        assert_eq!(status, 0, "no call of a workload is refused");
    }
}
