//! What the Rust cannot tell: which parts of the store its bytes came from.
//!
//! The oracle moves this beside the Rust state and compares both. A difference is an error of
//! this program or of its reading of document 01, and ends the run.

use std::collections::{HashSet, VecDeque};
use std::rc::Rc;

use crate::operations::{Message, Part, Transaction};
use crate::wire;

#[derive(Debug, Clone, Copy, PartialEq, Eq)]
pub struct Chunks {
    pub size: u32,
    pub count: u32,
}

/// A message that went out in frames of its own, with what these frames need.
#[derive(Debug, Clone, PartialEq, Eq)]
pub struct Sent {
    pub sequence_id: u64,
    pub message: Message,
    pub publish_time: u64,
    /// The producer's name at the send.
    pub name: String,
    pub uuid: [u8; 16],
    pub chunks: Option<Chunks>,
}

impl Sent {
    pub fn frames(&self) -> u32 {
        self.chunks.map_or(1, |chunks| chunks.count)
    }

    /// The part of the payload that a frame bears; of length 0 if the chunk size is 0 (C3).
    pub fn payload(&self, frame: u32) -> Part {
        let whole = self.message.payload;
        let Some(chunks) = self.chunks else {
            return whole;
        };
        let size = u64::from(chunks.size);
        let from = (size * u64::from(frame)).min(whole.length);
        Part {
            start: whole.start.saturating_add(from),
            length: (whole.length - from).min(size),
        }
    }

    /// What a frame bears of the store. With an empty name in the message it bears the producer's
    /// by value, and no part (docs/DECISIONS.md, 4 and 5).
    fn parts(&self, frame: u32) -> Vec<Part> {
        let message = &self.message;
        let own_name = (message.name.length > 0).then_some(message.name);
        let parts = [Some(self.payload(frame)), own_name];
        parts.into_iter().flatten().chain(message.keys()).collect()
    }
}

/// A pending entry; a batched message replays nothing.
#[derive(Debug, Clone)]
pub struct Entry {
    pub sequence_id: u64,
    pub num_messages: i32,
    pub enqueued_at: u64,
    pub reserved: u64,
    pub replays: Option<Rc<Sent>>,
}

impl Entry {
    pub fn frames(&self) -> u32 {
        self.replays.as_ref().map_or(0, |sent| sent.frames())
    }
}

/// A batch, open or flushed; its messages stand in `Shadow::held`.
#[derive(Debug, Clone, Default, PartialEq, Eq)]
pub struct Batch {
    pub count: usize,
    pub size: u64,
    pub lowest: Option<u64>,
    pub highest: Option<u64>,
    pub first_added: Option<u64>,
    pub transaction: Option<Transaction>,
}

/// Waiting frames, in order. The chunks of one message that still wait share one record.
#[derive(Debug, Clone)]
pub enum Waiting {
    Batch {
        batch: Batch,
        publish_time: u64,
        name: String,
    },
    Own {
        sent: Rc<Sent>,
        next: u32,
    },
}

impl Waiting {
    fn frames(&self) -> u64 {
        match self {
            Self::Batch { .. } => 1,
            Self::Own { sent, next } => u64::from(sent.frames() - next),
        }
    }

    /// The id that the frames bear; of a batch the lowest only (docs/DECISIONS.md, 11).
    fn sequence_id(&self) -> Option<u64> {
        match self {
            Self::Batch { batch, .. } => batch.lowest,
            Self::Own { sent, .. } => Some(sent.sequence_id),
        }
    }
}

#[derive(Debug, Default)]
pub struct Shadow {
    pub pending: VecDeque<Entry>,
    pub waiting: VecDeque<Waiting>,
    /// Messages of the waiting batch frames in order, then those of the open batch.
    pub held: VecDeque<Message>,
    pub batch: Batch,
    /// The ids in the Rust's `pending_index`.
    pub answerable: HashSet<u64>,
    pub next_id: u64,
}

impl Shadow {
    pub fn waiting_frames(&self) -> u64 {
        self.waiting.iter().map(Waiting::frames).sum()
    }

    pub fn flush(&mut self, publish_time: u64, name: &str) {
        self.waiting.push_back(Waiting::Batch {
            batch: std::mem::take(&mut self.batch),
            publish_time,
            name: name.to_owned(),
        });
    }

    pub fn join(&mut self, message: &Message, now: u64) {
        if self.batch.count == 0 {
            self.batch.lowest = Some(self.next_id);
            self.batch.first_added = Some(now);
            self.batch.transaction = message.transaction;
        }
        self.batch.highest = Some(self.next_id);
        self.batch.count += 1;
        self.batch.size += message.payload.length;
        self.held.push_back(*message);
    }

    /// An accepted send: its entry goes to the back, its id is taken.
    pub fn accept(&mut self, entry: Entry) {
        self.next_id = entry.sequence_id.wrapping_add(1);
        self.answerable.insert(entry.sequence_id);
        self.pending.push_back(entry);
    }

    /// The parts and the payload length of the front frame.
    pub fn front(&self) -> Option<(Vec<Part>, u64)> {
        Some(match self.waiting.front()? {
            Waiting::Batch { batch, .. } => {
                let messages = self.held.iter().take(batch.count);
                let parts = messages.clone().flat_map(|message| {
                    let keys = [message.partition_key, message.ordering_key];
                    [Some(message.payload)].into_iter().chain(keys).flatten()
                });
                (parts.collect(), messages.map(wire::item_length).sum())
            }
            Waiting::Own { sent, next } => (sent.parts(*next), sent.payload(*next).length),
        })
    }

    /// Takes the front frame off.
    pub fn take(&mut self) {
        match self.waiting.front_mut() {
            Some(Waiting::Batch { batch, .. }) => {
                self.held.drain(..batch.count);
                self.waiting.pop_front();
            }
            Some(Waiting::Own { sent, next }) => {
                *next += 1;
                if *next == sent.frames() {
                    self.waiting.pop_front();
                }
            }
            None => {}
        }
    }

    /// Takes out the first entry that bears the id.
    pub fn settle(&mut self, sequence_id: u64) -> Option<Entry> {
        let bears = |entry: &Entry| entry.sequence_id == sequence_id;
        let place = self.pending.iter().position(bears)?;
        self.answerable.remove(&sequence_id);
        self.pending.remove(place)
    }

    pub fn time_out(&mut self, count: usize) -> Vec<Entry> {
        let entries: Vec<Entry> = self.pending.drain(..count).collect();
        for entry in &entries {
            self.answerable.remove(&entry.sequence_id);
        }
        entries
    }

    /// Takes out all entries and empties batch and frames.
    pub fn drain(&mut self) -> Vec<Entry> {
        self.batch = Batch::default();
        self.waiting.clear();
        self.held.clear();
        self.answerable.clear();
        self.pending.drain(..).collect()
    }

    pub fn replay(&mut self, entries: Vec<Entry>) {
        for entry in entries.into_iter().rev() {
            self.front_frames(entry.replays.as_ref());
            self.pending.push_front(entry);
        }
        self.answerable = self.pending.iter().map(|entry| entry.sequence_id).collect();
    }

    /// The entries whose id no waiting frame bears.
    pub fn unstaged(&self) -> Vec<Entry> {
        let staged: HashSet<u64> = self
            .waiting
            .iter()
            .filter_map(Waiting::sequence_id)
            .collect();
        let missing = |entry: &&Entry| !staged.contains(&entry.sequence_id);
        self.pending.iter().filter(missing).cloned().collect()
    }

    pub fn replay_pending(&mut self, entries: &[Entry]) {
        for entry in entries.iter().rev() {
            self.front_frames(entry.replays.as_ref());
        }
    }

    fn front_frames(&mut self, sent: Option<&Rc<Sent>>) {
        if let Some(sent) = sent {
            self.waiting.push_front(Waiting::Own {
                sent: Rc::clone(sent),
                next: 0,
            });
        }
    }
}
