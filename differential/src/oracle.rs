//! The judge: the unchanged Rust, with the port's own bounds in front of it.

use std::rc::Rc;
use std::sync::Arc;
use std::time::{Duration, Instant};

use magnetar_proto::conn::MemoryLimitPolicy;
use magnetar_proto::error::ProducerError;
use magnetar_proto::memory_limit::{MemoryLimitController, MemoryReservation};
use magnetar_proto::producer::{OutboundFrame, ProducerState, SendDecision};
use magnetar_proto::types::{CompressionKind, ProducerHandle};

use crate::answers::Answer;
use crate::bounds::{self, Plan, Standing, Way};
use crate::compare::assert_same_frame;
use crate::frames::{self, NotUtf8, Store};
use crate::operations::{Operation, Send, Transaction};
use crate::run::Producer;
use crate::shadow::{Chunks, Entry, Sent, Shadow, Waiting};

/// The Rust's documented default (docs/DECISIONS.md, 6).
const MAX_MESSAGE_SIZE: usize = 5_242_880;
/// A listed difference: the Rust's default is 1,000.
const MAX_MESSAGES_IN_BATCH: usize = 128;
/// Clocks and delays from here on are not compared (document 01, T3).
const CLOCK_END: u64 = 1 << 62;

/// The Rust cannot stand for the port here: a clock or delay of 2^62 or more, or a partition key
/// or name that is no UTF-8.
#[derive(Debug)]
pub struct NotComparable;

impl From<NotUtf8> for NotComparable {
    fn from(_: NotUtf8) -> Self {
        Self
    }
}

pub type Step = Result<Answer, NotComparable>;

/// One producer, driven by the operations of one script.
pub struct Oracle {
    pub(crate) rust: ProducerState,
    pub(crate) shadow: Shadow,
    pub(crate) store: Store,
    /// The Rust's instant for clock 0.
    pub(crate) start: Instant,
    pub(crate) budget: Arc<MemoryLimitController>,
    /// What a chunk leaves of the limit (document 02, K6).
    pub(crate) headroom: u64,
    /// The replay table of the last snapshot, with the Rust's own frames.
    pub(crate) snapshot: Vec<(Entry, Vec<OutboundFrame>)>,
    pub(crate) checks: Checks,
}

/// How much the oracle compares the Rust with document 01 while it drives it.
#[derive(Debug, Clone, Copy, Default, PartialEq, Eq)]
pub enum Checks {
    /// Also every frame, and what is private.
    #[default]
    Whole,
    /// What an entry is beside its frames, and the counts.
    Light,
}

impl Oracle {
    pub fn new(handle: u64, store: &[u8], checks: Checks) -> Self {
        let mut rust = ProducerState::new(
            ProducerHandle(handle),
            String::new(),
            CompressionKind::None,
            MAX_MESSAGE_SIZE,
        );
        rust.max_messages_in_batch = MAX_MESSAGES_IN_BATCH;
        Self {
            rust,
            shadow: Shadow::default(),
            store: Store::new(store),
            start: Instant::now(),
            budget: MemoryLimitController::new(u64::MAX, MemoryLimitPolicy::FailImmediately),
            headroom: bounds::HEADROOM,
            snapshot: Vec::new(),
            checks,
        }
    }
}

impl Producer for Oracle {
    /// Carries out one operation: the bounds first, and the Rust if none of them refuses.
    fn execute(&mut self, operation: &Operation) -> Step {
        if clocks(operation).iter().any(|clock| *clock >= CLOCK_END) {
            return Err(NotComparable);
        }
        let answer = match operation {
            Operation::QueueSendReserved(send) => self.send(send, true)?,
            Operation::QueueSend(send) => self.send(send, false)?,
            Operation::FlushBatch { publish_time, now } => self.flush(*publish_time, *now),
            Operation::NextOutboundFrame { buffer, lent_store } => self.take(*buffer, *lent_store),
            Operation::ApplyReceipt {
                producer_id,
                sequence_id,
                id,
            } => self.receipt(*producer_id, *sequence_id, *id),
            Operation::ApplySendError {
                producer_id,
                sequence_id,
                code,
            } => self.send_error(*producer_id, *sequence_id, *code),
            Operation::DrainTimedOutSends { now, table } => self.time_out(*now, *table),
            Operation::DrainPendingSends { table } => self.drain(*table),
            Operation::SnapshotPendingSends { dropped, replay } => {
                self.snapshot_pending(*dropped, *replay)
            }
            Operation::ReplaySnapshots(table) => self.replay_table(table)?,
            Operation::ReplayLastSnapshot { entries } => self.replay_last(*entries),
            Operation::ReplayPendingOutbound => self.replay_pending(),
            Operation::SetInitialSequenceId(next) => {
                self.rust.set_initial_sequence_id(*next);
                self.shadow.next_id = *next;
                Answer::Done
            }
            Operation::SetName(name) => self.set_name(name)?,
            Operation::SetMaxMessageSize(limit) => unless(bounds::byte_limit(*limit), || {
                self.rust.max_message_size = *limit as usize;
            }),
            Operation::SetMaxBatchSizeBytes(limit) => unless(bounds::byte_limit(*limit), || {
                self.rust.max_batch_size_bytes = *limit as usize;
            }),
            Operation::SetMaxMessagesInBatch(limit) => unless(bounds::batch_count(*limit), || {
                self.rust.max_messages_in_batch = *limit as usize;
            }),
            Operation::SetMetadataReservation(bytes) => unless(bounds::headroom(*bytes), || {
                self.headroom = *bytes;
            }),
            Operation::SetBatchingEnabled(on) => set(&mut self.rust.batching_enabled, *on),
            Operation::SetChunkingEnabled(on) => set(&mut self.rust.chunking_enabled, *on),
            Operation::SetSendTimeout(delay) => set(
                &mut self.rust.send_timeout,
                delay.map(Duration::from_millis),
            ),
            Operation::SetBatchingMaxPublishDelay(delay) => set(
                &mut self.rust.batching_max_publish_delay,
                delay.map(Duration::from_millis),
            ),
            Operation::SetBrokerReady(ready) => set(&mut self.rust.broker_ready, *ready),
            Operation::Close => {
                self.rust.close();
                Answer::Done
            }
            Operation::NextSendDeadline => {
                Answer::Deadline(self.rust.next_send_deadline().map(|at| self.clock(at)))
            }
            Operation::NextBatchDeadline => {
                Answer::Deadline(self.rust.next_batch_deadline().map(|at| self.clock(at)))
            }
            Operation::BatchDeadlineElapsed { now } => {
                Answer::Yes(self.rust.batch_deadline_elapsed(self.instant(*now)))
            }
            Operation::CanAddToBatch {
                payload_size,
                num_messages,
            } => Answer::Yes(
                self.rust
                    .can_add_to_batch(*payload_size as usize, *num_messages),
            ),
            Operation::OutboundLen => Answer::Count(self.rust.outbound_len() as u64),
            Operation::Stats => self.stats(),
            Operation::Dump => Answer::Dump(Box::new(self.dump())),
            Operation::MetadataReservation => Answer::Count(self.headroom),
        };
        self.assert_same_counts();
        Ok(answer)
    }
}

impl Oracle {
    pub(crate) fn instant(&self, clock: u64) -> Instant {
        self.start + Duration::from_millis(clock)
    }

    pub(crate) fn clock(&self, instant: Instant) -> u64 {
        let since = instant.duration_since(self.start).as_millis();
        u64::try_from(since).expect("clocks and delays are below 2^62")
    }

    pub(crate) fn reserve(&self, bytes: u64) -> MemoryReservation {
        let reservation = self.budget.try_reserve(bytes);
        reservation.expect("256 reservations below 2^40 fit into the budget")
    }

    pub(crate) fn producer_name(&self) -> String {
        self.rust.name.clone().unwrap_or_default()
    }

    fn standing(&self) -> Standing {
        let batch = &self.rust.batch;
        Standing {
            closed: self.rust.closed,
            batching: self.rust.batching_enabled,
            chunking: self.rust.chunking_enabled,
            max_message_size: self.rust.max_message_size as u64,
            headroom: self.headroom,
            max_batch_size: self.rust.max_batch_size_bytes as u64,
            max_batch_count: self.rust.max_messages_in_batch as u64,
            batch_count: batch.len() as u64,
            batch_size: batch.current_size_bytes as u64,
            batch_transaction: batch.txn_id.map(|txn| Transaction {
                most: txn.most_sig_bits,
                least: txn.least_sig_bits,
            }),
            waiting: self.rust.outbound_len() as u64,
            held: self.shadow.held.len() as u64,
            pending: self.rust.pending.len() as u64,
        }
    }

    fn send(&mut self, send: &Send, with_reservation: bool) -> Step {
        let standing = self.standing();
        let lent = self.store.lent(send.lent_store);
        if let Some(number) = bounds::send(&standing, send, lent) {
            return Ok(Answer::Refused(number));
        }
        // A closed producer does not look at what it is handed, and no bound was tested.
        let nothing = Send::default();
        let send = if standing.closed { &nothing } else { send };
        let plan = bounds::plan(&standing, &send.message);
        let message = frames::outgoing(&self.store, &send.message)?;
        let now = self.instant(send.now);
        if self.headroom != bounds::HEADROOM && matches!(plan.way, Way::Chunks { .. }) {
            let mut reservation = self.reserve(send.reserved);
            let answer = self.send_cut(send, plan, message, &mut reservation)?;
            assert_eq!(reservation.bytes(), 0, "the reservation of a send");
            self.follow(send, plan, &answer);
            return Ok(answer);
        }
        uuid::set_next(send.uuid);
        let decision = if with_reservation {
            let mut reservation = self.reserve(send.reserved);
            let decision =
                self.rust
                    .queue_send_reserved(message, &mut reservation, send.publish_time, now);
            let left = if decision.is_ok() { 0 } else { send.reserved };
            assert_eq!(reservation.bytes(), left, "the reservation of a send");
            decision
        } else {
            self.rust.queue_send(message, send.publish_time, now)
        };
        let answer = match decision {
            Err(ProducerError::Closed) => return Ok(Answer::Refused(1)),
            Err(ProducerError::MessageTooLarge {
                size,
                max_message_size,
            }) => Answer::TooLarge {
                size: size as u64,
                limit: max_message_size as u64,
            },
            Err(error) => panic!("the Rust refused a send in an unknown way: {error}"),
            Ok(SendDecision::Batched) => Answer::Batched,
            Ok(SendDecision::Emit { count }) => Answer::Emit(count as u64),
        };
        self.follow(send, plan, &answer);
        Ok(answer)
    }

    /// Moves the shadow as the plan says, and compares the new entry with the Rust's.
    fn follow(&mut self, send: &Send, plan: Plan, answer: &Answer) {
        let name = self.producer_name();
        if plan.flush_before {
            self.shadow.flush(send.publish_time, &name);
        }
        let chunks = match (plan.way, answer) {
            (Way::TooLarge, Answer::TooLarge { .. }) => return,
            (Way::Join { .. }, Answer::Batched) | (Way::Single, Answer::Emit(1)) => None,
            (Way::Chunks { size, count }, Answer::Emit(emitted) | Answer::Cut(emitted))
                if count == *emitted =>
            {
                Some(Chunks {
                    size: size as u32,
                    count: count as u32,
                })
            }
            _ => panic!("document 01 wants {plan:?} of {send:?}, the Rust answers {answer:?}"),
        };
        let sequence_id = self.shadow.next_id;
        let joins = matches!(plan.way, Way::Join { .. });
        let sent = || Sent {
            sequence_id,
            message: send.message,
            publish_time: send.publish_time,
            name: name.clone(),
            uuid: send.uuid,
            chunks,
        };
        let replays = (!joins).then(|| Rc::new(sent()));
        if joins {
            self.shadow.join(&send.message, send.now);
        }
        if let Some(sent) = &replays {
            self.shadow.waiting.push_back(Waiting::Own {
                sent: Rc::clone(sent),
                next: 0,
            });
        }
        let alone = plan.way == Way::Single;
        self.shadow.accept(Entry {
            sequence_id,
            num_messages: if alone {
                send.message.num_messages.max(1)
            } else {
                1
            },
            enqueued_at: send.now,
            reserved: send.reserved,
            replays,
        });
        if plan.way == (Way::Join { flush_after: true }) {
            self.shadow.flush(send.publish_time, &name);
        }
        let (rust, entry) = (self.rust.pending.back(), self.shadow.pending.back());
        self.assert_same_entry(rust.expect("an entry"), entry.expect("an entry"));
    }

    fn flush(&mut self, publish_time: u64, now: u64) -> Answer {
        if let Some(number) = bounds::flush(&self.standing()) {
            return Answer::Refused(number);
        }
        let now = self.instant(now);
        let count = self.rust.flush_batch(publish_time, now);
        if count == 1 {
            let name = self.producer_name();
            self.shadow.flush(publish_time, &name);
        }
        Answer::Count(count as u64)
    }

    fn take(&mut self, buffer: u64, lent_store: u64) -> Answer {
        let lent = self.store.lent(lent_store);
        if let Some(number) = bounds::take(self.shadow.front(), buffer, lent) {
            return Answer::Refused(number);
        }
        let Some(frame) = self.rust.next_outbound_frame() else {
            return Answer::Refused(10);
        };
        if self.checks == Checks::Whole {
            assert_same_frame(&frame, &self.expected_front());
        }
        self.shadow.take();
        Answer::Frame(Box::new(frame))
    }

    fn expected_front(&self) -> OutboundFrame {
        let handle = self.rust.handle.0;
        match self.shadow.waiting.front() {
            None => panic!("the Rust has a frame that document 01 does not know"),
            Some(Waiting::Own { sent, next }) => {
                let frame = frames::one(&self.store, handle, sent, *next);
                frame.expect("tested when the message came in")
            }
            Some(Waiting::Batch {
                batch,
                publish_time,
                name,
            }) => {
                let messages = self.shadow.held.iter().take(batch.count);
                frames::batch(&self.store, handle, batch, *publish_time, name, messages)
            }
        }
    }

    fn set_name(&mut self, name: &[u8]) -> Step {
        if let Some(number) = bounds::name(name.len()) {
            return Ok(Answer::Refused(number));
        }
        let name = String::from_utf8(name.to_vec()).map_err(|_| NotComparable)?;
        self.rust.name = Some(name);
        Ok(Answer::Done)
    }

    fn stats(&self) -> Answer {
        let stats = self.rust.stats();
        Answer::Stats([
            stats.total_msgs_sent,
            stats.total_bytes_sent,
            stats.total_send_failed,
            stats.total_acks_received,
            stats.pending_queue_size,
        ])
    }
}

fn set<T>(setting: &mut T, value: T) -> Answer {
    *setting = value;
    Answer::Done
}

fn unless(refusal: Option<u8>, otherwise: impl FnOnce()) -> Answer {
    if let Some(number) = refusal {
        return Answer::Refused(number);
    }
    otherwise();
    Answer::Done
}

/// The clocks and delays of an operation.
fn clocks(operation: &Operation) -> Vec<u64> {
    match operation {
        Operation::QueueSendReserved(send) | Operation::QueueSend(send) => vec![send.now],
        Operation::FlushBatch { now, .. }
        | Operation::DrainTimedOutSends { now, .. }
        | Operation::BatchDeadlineElapsed { now } => vec![*now],
        Operation::SetSendTimeout(Some(delay))
        | Operation::SetBatchingMaxPublishDelay(Some(delay)) => vec![*delay],
        Operation::ReplaySnapshots(table) => table.iter().map(|entry| entry.enqueued_at).collect(),
        _ => Vec::new(),
    }
}
