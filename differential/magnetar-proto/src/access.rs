//! What only a module of the same crate can do: an `OpSend` with a given reservation.

use std::time::Instant;

use crate::memory_limit::MemoryReservation;
use crate::producer::{OpSend, OutboundFrame};
use crate::types::SequenceId;

/// A pending entry as the Rust makes one: no waker, no receipt, no error.
pub fn op_send(
    sequence_id: u64,
    num_messages: i32,
    enqueued_at: Instant,
    replay_frames: Vec<OutboundFrame>,
    reservation: MemoryReservation,
) -> OpSend {
    OpSend {
        sequence_id: SequenceId(sequence_id),
        num_messages,
        waker: None,
        receipt: None,
        error: None,
        enqueued_at,
        replay_frames,
        reservation,
    }
}
