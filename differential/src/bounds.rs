//! The bounds that the port has and the Rust lacks: refusals 2, 3, 4, 5, 7, 8, 9 and 12.
//!
//! A second reading of document 01, written beside its section "Who can cause a refusal" and
//! independent of any port. Each function answers the number that refuses the call, or `None`:
//! then the Rust is called, and 1, 6, 10 and 11 are its own answers. Decisions are those of
//! docs/DECISIONS.md.

use crate::operations::{Kind, Message, Part, Send, TableEntry, Transaction};

/// 3: the longest payload; 8: the highest message limit and batch size.
const BYTES: u64 = 16_777_216;
/// 3: the longest key or schema version.
const KEY: u64 = 1_024;
/// 3 and 8: the longest name.
const NAME: u64 = 64;
/// 3: the largest reservation.
const RESERVATION: u64 = (1 << 40) - 1;
/// 4: frames that may wait.
const FRAMES: u64 = 1_024;
/// 5: batched messages that may be held.
const HELD: u64 = 512;
/// 7: entries that may be pending.
const PENDING: u64 = 256;
/// 8: the highest batch count.
const BATCH_COUNT: u64 = 128;
/// 8: the largest headroom (document 02, K6).
const LARGEST_HEADROOM: u64 = 65_536;
/// A new producer's headroom; the Rust has no other.
pub const HEADROOM: u64 = 1_024;

/// What a send depends on.
#[derive(Debug, Clone, Copy)]
pub struct Standing {
    pub closed: bool,
    pub batching: bool,
    pub chunking: bool,
    pub max_message_size: u64,
    pub headroom: u64,
    pub max_batch_size: u64,
    pub max_batch_count: u64,
    pub batch_count: u64,
    pub batch_size: u64,
    pub batch_transaction: Option<Transaction>,
    pub waiting: u64,
    pub held: u64,
    pub pending: u64,
}

/// What becomes of a message.
#[derive(Debug, Clone, Copy, PartialEq, Eq)]
pub enum Way {
    TooLarge,
    Join { flush_after: bool },
    Single,
    Chunks { size: u64, count: u64 },
}

/// What a send does when no bound stops it.
#[derive(Debug, Clone, Copy, PartialEq, Eq)]
pub struct Plan {
    pub flush_before: bool,
    pub way: Way,
}

impl Plan {
    /// The frames that the call pushes.
    pub fn frames(self) -> u64 {
        let own = match self.way {
            Way::TooLarge => 0,
            Way::Join { flush_after } => u64::from(flush_after),
            Way::Single => 1,
            Way::Chunks { count, .. } => count,
        };
        u64::from(self.flush_before) + own
    }
}

/// Section "sends": the order of `queue_send_reserved`.
pub fn plan(standing: &Standing, message: &Message) -> Plan {
    let length = message.payload.length;
    let batchable = message.source_id.is_none() && message.compression.unwrap_or(0) == 0;
    let joins = |count: u64, size: u64| {
        let taken = count + u64::from(message.num_messages.max(1).unsigned_abs());
        batchable
            && standing.batching
            && !standing.closed
            && taken <= standing.max_batch_count
            && size.saturating_add(length) <= standing.max_batch_size
    };
    let batch_waits = standing.batch_count > 0;
    let other_transaction = standing.batching && standing.batch_transaction != message.transaction;
    let flush_before =
        batch_waits && (other_transaction || !joins(standing.batch_count, standing.batch_size));
    let (count, size) = if flush_before {
        (0, 0)
    } else {
        (standing.batch_count, standing.batch_size)
    };
    let over = length > standing.max_message_size;
    let way = if over && !standing.chunking {
        Way::TooLarge
    } else if joins(count, size) {
        Way::Join {
            flush_after: count + 1 >= standing.max_batch_count
                || size + length >= standing.max_batch_size,
        }
    } else if over {
        let size = chunk_size(standing.max_message_size, standing.headroom);
        Way::Chunks {
            size,
            count: chunk_count(length, size),
        }
    } else {
        Way::Single
    };
    Plan { flush_before, way }
}

/// Document 02, K6: chunk payload size, the limit less the headroom if the limit exceeds four times the headroom, else the limit.
pub fn chunk_size(limit: u64, headroom: u64) -> u64 {
    if limit > 4 * headroom {
        limit - headroom
    } else {
        limit
    }
}

/// Section "sends": chunk count (`compute_total_chunks`, decision 17).
pub fn chunk_count(length: u64, size: u64) -> u64 {
    match size {
        0 => 1,
        _ => length
            .div_ceil(size)
            .clamp(1, i32::MAX.unsigned_abs().into()),
    }
}

/// A send, 1 to 7.
pub fn send(standing: &Standing, send: &Send, store: u64) -> Option<u8> {
    let message = &send.message;
    if standing.closed {
        return None;
    }
    if !parts(message).all(|part| part.ends_inside(store)) {
        return Some(2);
    }
    if passes_bounds(message, send.reserved) {
        return Some(3);
    }
    let plan = plan(standing, message);
    if standing.waiting + plan.frames() > FRAMES {
        return Some(4);
    }
    if matches!(plan.way, Way::Join { .. }) && standing.held >= HELD {
        return Some(5);
    }
    if plan.way == Way::TooLarge {
        return None;
    }
    (standing.pending >= PENDING).then_some(7)
}

/// Decision 1: a send tests payload, both keys, schema version and name.
fn parts(message: &Message) -> impl Iterator<Item = Part> {
    [message.payload, message.name]
        .into_iter()
        .chain(message.keys())
}

/// The bounds of 3, the reservation's included.
fn passes_bounds(message: &Message, reserved: u64) -> bool {
    message.payload.length > BYTES
        || message.keys().any(|key| key.length > KEY)
        || message.name.length > NAME
        || reserved > RESERVATION
}

/// `flush_batch`: 4 only, and only if it makes a frame.
pub fn flush(standing: &Standing) -> Option<u8> {
    let makes_frame = standing.batch_count > 0 && !standing.closed;
    (makes_frame && standing.waiting >= FRAMES).then_some(4)
}

/// A take, 10, 2, 9: the front frame's parts and payload length.
pub fn take(front: Option<(Vec<Part>, u64)>, buffer: u64, store: u64) -> Option<u8> {
    let (parts, payload) = front?;
    if !parts.into_iter().all(|part| part.ends_inside(store)) {
        return Some(2);
    }
    (buffer < payload).then_some(9)
}

/// 9: a table shorter than what this call would write to it.
pub fn table(lent: u32, written: usize) -> Option<u8> {
    ((lent as usize) < written).then_some(9)
}

/// 12 for one entry: a chunked one's count, and the bounds of 3 for all kinds.
fn malformed(entry: &TableEntry) -> bool {
    let count = chunk_count(entry.message.payload.length, entry.chunk_size.into());
    let wrong_count = entry.kind == Kind::Chunked && u64::from(entry.chunk_count) != count;
    wrong_count || passes_bounds(&entry.message, entry.reserved)
}

/// The frames that replaying an entry pushes.
fn frames(entry: &TableEntry) -> u64 {
    match entry.kind {
        Kind::Batched => 0,
        Kind::Single => 1,
        Kind::Chunked => u64::from(entry.chunk_count),
    }
}

/// `replay_snapshots`: 12, 7, 4.
pub fn replay(table: &[TableEntry], pending: u64, waiting: u64) -> Option<u8> {
    if table.iter().any(malformed) {
        return Some(12);
    }
    let frames = table.iter().map(frames).sum();
    no_place(table.len() as u64, pending).or(replay_frames(frames, waiting))
}

/// `replay_snapshots`: 7, pending would pass 256.
pub fn no_place(entries: u64, pending: u64) -> Option<u8> {
    (pending + entries > PENDING).then_some(7)
}

/// 4 for frames that a replay fronts; `replay_pending_outbound` has no other.
pub fn replay_frames(frames: u64, waiting: u64) -> Option<u8> {
    (waiting + frames > FRAMES).then_some(4)
}

/// 8 for the two byte limits.
pub fn byte_limit(bytes: u64) -> Option<u8> {
    (bytes > BYTES).then_some(8)
}

/// 8 for the batch count.
pub fn batch_count(count: u64) -> Option<u8> {
    (count > BATCH_COUNT).then_some(8)
}

/// 8 for the headroom.
pub fn headroom(bytes: u64) -> Option<u8> {
    (bytes > LARGEST_HEADROOM).then_some(8)
}

/// 8 for the producer's name.
pub fn name(length: usize) -> Option<u8> {
    (length as u64 > NAME).then_some(8)
}

/// Section "ids and clocks": how many entries are due, from the front on.
pub fn due(enqueued: impl Iterator<Item = u64>, timeout: Option<u64>, now: u64) -> usize {
    timeout.map_or(0, |timeout| {
        enqueued
            .take_while(|enqueued| enqueued + timeout <= now)
            .count()
    })
}
