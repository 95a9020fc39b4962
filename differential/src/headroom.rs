//! Chunked sends at a headroom that is not the Rust's (document 02, K6).
//!
//! The Rust cuts at 1,024 alone. At another headroom the second reading of document 02 (`bounds::plan`) says into what size a
//! message is cut, and the Rust is made to cut it so: by a limit of its own that gives this size, or, if the message is not over that
//! limit, by chunks (`frames::all`) that take the place of a single frame. Everything after goes on beside the Rust.

use magnetar_proto::access::op_send;
use magnetar_proto::memory_limit::MemoryReservation;
use magnetar_proto::producer::{OutboundFrame, OutgoingMessage, SendDecision};

use crate::answers::Answer;
use crate::bounds::{HEADROOM, Plan, Way, chunk_size};
use crate::frames;
use crate::operations::Send;
use crate::oracle::{Oracle, Step};
use crate::shadow::{Chunks, Sent};

impl Oracle {
    pub(crate) fn send_cut(
        &mut self,
        send: &Send,
        plan: Plan,
        message: OutgoingMessage,
        reservation: &mut MemoryReservation,
    ) -> Step {
        let Way::Chunks { size, count } = plan.way else {
            panic!("{plan:?} makes no chunks");
        };
        let limit = [size, size + HEADROOM]
            .into_iter()
            .find(|limit| chunk_size(*limit, HEADROOM) == size)
            .expect("a limit for every size");
        if send.message.payload.length <= limit {
            self.send_replaced(
                send,
                plan,
                message,
                reservation,
                Chunks {
                    size: size as u32,
                    count: count as u32,
                },
            )?;
            return Ok(Answer::Cut(count));
        }
        let set = std::mem::replace(&mut self.rust.max_message_size, limit as usize);
        let now = self.instant(send.now);
        uuid::set_next(send.uuid);
        let decision = self
            .rust
            .queue_send_reserved(message, reservation, send.publish_time, now);
        self.rust.max_message_size = set;
        let decision = decision.expect("an open producer that cuts refuses no message");
        match decision {
            SendDecision::Emit { count } => Ok(Answer::Cut(count as u64)),
            SendDecision::Batched => panic!("{plan:?} joins no batch"),
        }
    }

    /// The Rust flushes what is in the way and sends the message whole; then the chunks take the place of its one frame.
    fn send_replaced(
        &mut self,
        send: &Send,
        plan: Plan,
        message: OutgoingMessage,
        reservation: &mut MemoryReservation,
        chunks: Chunks,
    ) -> Result<(), frames::NotUtf8> {
        let sent = Sent {
            sequence_id: self.shadow.next_id,
            message: send.message,
            publish_time: send.publish_time,
            name: self.producer_name(),
            uuid: send.uuid,
            chunks: Some(chunks),
        };
        let frames = frames::all(&self.store, self.rust.handle.0, &sent)?;
        let now = self.instant(send.now);
        let rust = &mut self.rust;
        if plan.flush_before {
            rust.flush_batch(send.publish_time, now);
        }
        let totals = (rust.total_msgs_sent, rust.total_bytes_sent);
        let settings = (rust.max_message_size, rust.batching_enabled);
        (rust.max_message_size, rust.batching_enabled) = (usize::MAX, false);
        let decision = rust.queue_send_reserved(message, reservation, send.publish_time, now);
        decision.expect("an open producer refuses no message that is not too large");
        (rust.max_message_size, rust.batching_enabled) = settings;
        let bytes: u64 = frames.iter().map(|frame| frame.payload.len() as u64).sum();
        rust.total_msgs_sent = totals.0.saturating_add(chunks.count.into());
        rust.total_bytes_sent = totals.1.saturating_add(bytes);
        let entry = rust.pending.back_mut().expect("the entry of the send");
        entry.num_messages = 1;
        entry.replay_frames.clone_from(&frames);
        self.replace_last_frame(frames);
        Ok(())
    }

    /// The waiting frames are private, but `replay_pending_outbound` puts those of the pending entries there: with no frame waiting,
    /// all of them in order.
    fn replace_last_frame(&mut self, with: Vec<OutboundFrame>) {
        let rust = &mut self.rust;
        let mut waiting = Vec::new();
        while let Some(frame) = rust.next_outbound_frame() {
            waiting.push(frame);
        }
        waiting.pop();
        waiting.extend(with);
        let bearer = op_send(0, 1, self.start, waiting, MemoryReservation::default());
        let pending = std::mem::take(&mut rust.pending);
        rust.pending.push_back(bearer);
        rust.replay_pending_outbound();
        rust.pending = pending;
    }
}
