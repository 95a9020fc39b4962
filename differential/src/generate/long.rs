//! Long random scripts.

use super::build::{Builder, Case};
use super::random::Random;
use super::wide;
use crate::operations::{
    Kind, Message, Operation, Part, ReceiptId, Send, SourceId, TableEntry, Transaction,
};

pub const COVERS: &str = "random sequences of all operations with random arguments: every field \
     present and absent, small limits that change on the way, clocks that go forward and back, \
     ids near 0, 2^63 and 2^64, explicit tables, lent stores and buffers that are sometimes short";

/// Letters, in which any part is UTF-8, and then all byte values.
const LETTERS: u64 = 100;

/// What a random script makes of the queue.
#[derive(Clone, Copy, PartialEq, Eq)]
#[cfg_attr(not(feature = "port"), expect(dead_code))]
pub enum Mood {
    /// About as much comes in as goes out.
    Even,
    /// Frames are taken and entries settled so seldom that the queue fills up.
    Crowded,
    /// Entries time out and no frame is taken, so that batched messages pile up.
    Hoarding,
    /// Sends, takes and receipts, as of a client that is well; tables are lent seldom.
    Flowing,
    /// Large payloads, tables, clocks and delays (`wide`).
    Wide,
}

/// What a random script remembers while it is written.
struct Walk<'a> {
    random: &'a mut Random,
    clock: u64,
    id: u64,
    mood: Mood,
    /// The store's length.
    store: u64,
}

/// A script of `length` operations, and a dump.
pub fn case(random: &mut Random, mood: Mood, length: usize, output: usize) -> Case {
    walk(random, mood, length).dump().end_with(output)
}

/// Settings and `length` operations.
pub fn walk(random: &mut Random, mood: Mood, length: usize) -> Builder {
    let mut store = super::build::text(LETTERS as usize);
    store.extend(super::build::binary(match mood {
        Mood::Wide => wide::BINARY,
        _ => 256,
    }));
    let drive = random.below(2) as u8;
    let handle = random.next();
    let mut builder = Builder::with_handle(drive, handle, &store);
    let mut walk = Walk {
        random,
        clock: 1_000,
        id: 0,
        mood,
        store: store.len() as u64,
    };
    let batching = walk.random.one_in(2);
    builder.op(Operation::SetBatchingEnabled(batching));
    builder.op(Operation::SetChunkingEnabled(
        !batching || walk.random.one_in(2),
    ));
    builder.op(Operation::SetMaxMessageSize(walk.size()));
    if mood == Mood::Hoarding {
        builder.op(Operation::SetSendTimeout(Some(0)));
        builder.op(Operation::SetMaxMessageSize(64));
        builder.op(Operation::SetBatchingEnabled(true));
    }
    for _ in 0..length {
        builder.op(walk.operation());
    }
    builder
}

impl Walk<'_> {
    fn operation(&mut self) -> Operation {
        let mut choice = self.random.below(100);
        let goes_out = match self.mood {
            Mood::Even => false,
            Mood::Flowing => return self.flowing(choice, 32),
            Mood::Wide => return self.flowing(choice, 4),
            Mood::Crowded => (40..82).contains(&choice),
            Mood::Hoarding => matches!(choice, 40..62 | 78..96),
        };
        if goes_out && !self.random.one_in(40) {
            choice = self.random.below(34);
        }
        self.chosen(choice)
    }

    /// Most operations that are lent a table give way to those that go out: one in so many stays.
    fn flowing(&mut self, choice: u64, stays: u64) -> Operation {
        let lent = (75..86).contains(&choice);
        if lent && !self.random.one_in(stays) {
            let choice = 34 + self.random.below(41);
            return self.chosen(choice);
        }
        self.chosen(choice)
    }

    fn chosen(&mut self, choice: u64) -> Operation {
        match choice {
            0..34 => self.send(),
            34..40 => Operation::FlushBatch {
                publish_time: self.random.next(),
                now: self.now(),
            },
            40..62 => Operation::NextOutboundFrame {
                buffer: match self.mood {
                    Mood::Wide => self.random.pick(&wide::BUFFERS),
                    _ => self
                        .random
                        .pick(&[0, 1, 8, 4_096, 4_096, 4_096, 4_096, 4_096]),
                },
                lent_store: self.lent(),
            },
            62..71 => Operation::ApplyReceipt {
                producer_id: self.random.next(),
                sequence_id: self.known_id(),
                id: self.random.maybe(receipt_id),
            },
            71..75 => Operation::ApplySendError {
                producer_id: self.random.next(),
                sequence_id: self.known_id(),
                code: self.random.next() as i32,
            },
            75..78 => Operation::DrainTimedOutSends {
                now: self.now(),
                table: self.table(),
            },
            78 => Operation::DrainPendingSends {
                table: self.table(),
            },
            79..81 => Operation::SnapshotPendingSends {
                dropped: self.table(),
                replay: self.table(),
            },
            81 => Operation::ReplaySnapshots(self.entries()),
            82..84 => Operation::ReplayLastSnapshot {
                entries: self.table(),
            },
            84..86 => Operation::ReplayPendingOutbound,
            86..96 => self.setting(),
            _ => self.question(),
        }
    }

    fn setting(&mut self) -> Operation {
        if self.sets_headrooms() && self.random.one_in(30) {
            return Operation::SetMetadataReservation(self.random.pick(&wide::HEADROOMS));
        }
        match self.random.below(14) {
            0 => {
                let ends = [0, 1, 1 << 63, u64::MAX];
                self.id = self.random.pick(&ends).wrapping_sub(self.random.below(4));
                Operation::SetInitialSequenceId(self.id)
            }
            1 => {
                self.id = self.id.saturating_sub(self.random.below(6));
                Operation::SetInitialSequenceId(self.id)
            }
            2 if self.mood == Mood::Wide => Operation::SetName(wide::name(self.random)),
            2 => {
                let length = self.random.pick(&[0, 1, 9, 63, 64, 65]);
                Operation::SetName(super::build::text(length))
            }
            3 | 4 => Operation::SetMaxMessageSize(self.size()),
            5 => Operation::SetMaxBatchSizeBytes(self.size()),
            6 => Operation::SetMaxMessagesInBatch(self.random.pick(&[0, 1, 2, 3, 7, 128, 129])),
            7 | 8 => Operation::SetBatchingEnabled(!self.random.one_in(3)),
            9 => Operation::SetChunkingEnabled(!self.random.one_in(3)),
            10 => Operation::SetSendTimeout(self.delay()),
            11 => Operation::SetBatchingMaxPublishDelay(self.delay()),
            12 => Operation::SetBrokerReady(self.random.one_in(2)),
            _ if self.random.one_in(40) => Operation::Close,
            _ => Operation::SetBatchingEnabled(true),
        }
    }

    fn question(&mut self) -> Operation {
        if self.sets_headrooms() && self.random.one_in(15) {
            return Operation::MetadataReservation;
        }
        match self.random.below(14) {
            0 | 1 => Operation::NextSendDeadline,
            2 | 3 => Operation::NextBatchDeadline,
            4 | 5 => Operation::BatchDeadlineElapsed { now: self.now() },
            6..9 => Operation::CanAddToBatch {
                payload_size: self.random.pick(&[0, 1, 20, 21, 100, u64::MAX]),
                num_messages: self.count(),
            },
            9 | 10 => Operation::OutboundLen,
            11 | 12 => Operation::Stats,
            _ => Operation::Dump,
        }
    }

    /// Of the scripts that no class has, and that are not recorded.
    fn sets_headrooms(&self) -> bool {
        matches!(self.mood, Mood::Flowing | Mood::Wide)
    }

    fn send(&mut self) -> Operation {
        let with_reservation = self.random.one_in(2);
        let over = u64::from(self.random.one_in(20));
        let reserved = self.random.pick(&[0, 1, 500, (1 << 40) - 1 + over]);
        let send = Send {
            message: self.message(),
            reserved: if with_reservation { reserved } else { 0 },
            uuid: self.random.bytes(),
            publish_time: self.random.next(),
            now: self.now(),
            lent_store: self.lent(),
        };
        self.id = self.id.wrapping_add(1);
        if with_reservation {
            Operation::QueueSendReserved(send)
        } else {
            Operation::QueueSend(send)
        }
    }

    pub fn message(&mut self) -> Message {
        let length = match self.mood {
            Mood::Wide => self.random.pick(&wide::PAYLOADS),
            _ => self.random.pick(&[0, 1, 5, 19, 20, 21, 40, 64, 130]),
        };
        let start = self.random.below(self.store - length + 1);
        let plain = self.random.one_in(3);
        let mut message = Message {
            payload: Part { start, length },
            num_messages: self.count(),
            ..Message::default()
        };
        if plain {
            return message;
        }
        let bytes_part = match self.mood {
            Mood::Wide => wide::part,
            _ => text_part,
        };
        message.partition_key = self.random.maybe(text_part);
        message.ordering_key = self.random.maybe(bytes_part);
        message.schema_version = self.random.maybe(bytes_part);
        message.name = self.random.maybe(text_part).unwrap_or_default();
        message.event_time = self.random.maybe(Random::next);
        message.null_value = self.random.maybe(|random| random.one_in(2));
        message.null_partition_key = self.random.maybe(|random| random.one_in(2));
        message.deliver_at_time = self.random.maybe(|random| random.next().cast_signed());
        message.uncompressed_size = self.random.pick(&[0, 1, 70_000, u32::MAX]);
        let other_code = self.random.one_in(4);
        let code = if other_code {
            self.random.next() as i32
        } else {
            0
        };
        message.compression = self.random.maybe(|_| code);
        message.transaction = self.random.maybe(|random| Transaction {
            most: random.below(2),
            least: random.below(2),
        });
        if self.random.one_in(8) {
            message.source_id = Some(source_id(self.random));
        }
        message
    }

    fn entries(&mut self) -> Vec<TableEntry> {
        let count = match self.mood {
            Mood::Wide => self.random.pick(&wide::TABLES),
            _ => self.random.below(4),
        };
        (0..count).map(|_| self.entry()).collect()
    }

    /// Seldom with another chunk count, or over a bound of 3.
    fn entry(&mut self) -> TableEntry {
        let message = self.message();
        let (chunk_size, wrong_every) = match self.mood {
            Mood::Wide => (self.random.pick(&wide::CHUNKS), wide::WRONG_CHUNKS),
            _ => (self.random.pick(&[0, 1, 20, 64, 200]), 8),
        };
        let count = match chunk_size {
            0 => 1,
            size => message.payload.length.div_ceil(size.into()).max(1) as u32,
        };
        let mut entry = TableEntry {
            sequence_id: self.known_id(),
            num_messages: self.count(),
            enqueued_at: self.now(),
            reserved: self.random.below(1_000),
            kind: self
                .random
                .pick(&[Kind::Batched, Kind::Single, Kind::Chunked]),
            chunk_size,
            chunk_count: if self.random.one_in(wrong_every) {
                count + 1
            } else {
                count
            },
            message,
            publish_time: self.random.next(),
            name_length: self.random.pick(&[0, 1, 64, 65, 255]),
            name: [b'n'; 64],
            uuid: self.random.bytes(),
        };
        if self.random.one_in(4 * wrong_every) {
            pass_a_bound(self.random, &mut entry);
        }
        entry
    }

    /// Forward mostly, sometimes back.
    fn now(&mut self) -> u64 {
        if self.mood == Mood::Wide && self.random.one_in(12) {
            self.clock = self.random.pick(&wide::CLOCKS);
        }
        let step = self.random.below(20);
        self.clock = if self.random.one_in(6) {
            self.clock.saturating_sub(3 * step)
        } else {
            self.clock + step
        };
        self.clock
    }

    fn known_id(&mut self) -> u64 {
        self.id.wrapping_sub(self.random.below(12))
    }

    fn delay(&mut self) -> Option<u64> {
        match self.mood {
            Mood::Wide => self.random.maybe(|random| random.pick(&wide::DELAYS)),
            _ => self.random.maybe(|random| random.below(60)),
        }
    }

    fn size(&mut self) -> u64 {
        if self.mood == Mood::Wide {
            return self.random.pick(&wide::SIZES);
        }
        self.random.pick(&[0, 1, 20, 21, 60, 100, 5_242_880])
    }

    fn count(&mut self) -> i32 {
        self.random
            .pick(&[1, 1, 1, 1, 0, 2, 3, -1, i32::MIN, i32::MAX])
    }

    fn table(&mut self) -> u32 {
        self.random.pick(&[0, 1, 2, 256, 256, 256, 256, u32::MAX])
    }

    fn lent(&mut self) -> u64 {
        if self.random.one_in(12) {
            self.random.below(self.store + 2)
        } else {
            self.store
        }
    }
}

/// Makes one length of the entry, or its reservation, one too many.
fn pass_a_bound(random: &mut Random, entry: &mut TableEntry) {
    let message = &mut entry.message;
    let of_length = |length| Part { start: 0, length };
    let key = Some(of_length(1_025));
    match random.below(6) {
        0 => message.payload = of_length(16_777_217),
        1 => message.partition_key = key,
        2 => message.ordering_key = key,
        3 => message.schema_version = key,
        4 => message.name = of_length(65),
        _ => entry.reserved = 1 << 40,
    }
}

fn text_part(random: &mut Random) -> Part {
    let length = random.pick(&[0, 1, 7, 30, 64]);
    let start = random.below(LETTERS - length + 1);
    Part { start, length }
}

fn source_id(random: &mut Random) -> SourceId {
    SourceId {
        ledger: random.next(),
        entry: random.next(),
        partition: random.next() as i32,
        batch_index: random.next() as i32,
        batch_size: random.next() as i32,
    }
}

fn receipt_id(random: &mut Random) -> ReceiptId {
    ReceiptId {
        ledger: random.next(),
        entry: random.next(),
        partition: random.maybe(|random| random.next() as i32),
        batch_index: random.maybe(|random| random.next() as i32),
        batch_size: random.maybe(|random| random.next() as i32),
    }
}
