//! The bytes of a batch alone: the port's take against prost.
//!
//! The port encodes a batch when its frame is taken. Two scripts hold four batches and take four
//! times; in one the buffers are long enough, in the other the takes are refused by 9. A refused
//! take has walked the messages and planned the frame, so the difference is the encoding, the
//! values of the frame in the answer and the store of the new scalars.

use std::hint::black_box;

use bytes::{Bytes, BytesMut};
use magnetar_proto::pb::SingleMessageMetadata;
use prost::Message as _;

use crate::answers::{DONE, TOO_SHORT};
use crate::clock::timed;
use crate::measure::{Difference, REPETITIONS, checked};
use crate::operations::{Message, Operation, Part};
use crate::port::Drive;
use crate::workloads::{BATCH_BUFFER, batch, message, store, take};

const BATCHES: u64 = 4;
/// Runs of a repetition, of which the fastest counts: the encoding is a small part of a script.
const RUNS: usize = 256;
const BATCH: u64 = 128;

/// What prost is given of a message.
type Item = (SingleMessageMetadata, Bytes);

/// Messages of one kind.
pub struct Encoding {
    pub name: &'static str,
    message: Message,
}

/// Nanoseconds for a batch, in one repetition.
#[derive(Debug, Clone, Copy)]
pub struct Sample {
    pub port: f64,
    pub prost: f64,
}

pub fn all() -> [Encoding; 2] {
    let key = Part {
        start: 0,
        length: 16,
    };
    [
        Encoding {
            name: "100 bytes",
            message: message(100),
        },
        Encoding {
            name: "100 bytes, a key of 16 and an event time",
            message: Message {
                partition_key: Some(key),
                event_time: Some(1_700_000_000_000),
                ..message(100)
            },
        },
    ]
}

impl Encoding {
    /// Four batches whose messages are all answered, and four takes.
    fn operations(&self, buffer: u64) -> Vec<Operation> {
        let mut operations = vec![Operation::SetBatchingEnabled(true)];
        operations.extend((0..BATCHES).flat_map(|i| batch(i * BATCH, self.message)));
        operations.extend((0..BATCHES).map(|_| take(buffer)));
        operations
    }

    /// The port's scripts, and the bytes that it wrote for a batch.
    fn port_side(&self) -> (Difference, Vec<u8>) {
        let store = store(self.message.payload.length);
        let long = self.operations(BATCH_BUFFER);
        let taken = checked(Drive::InPlace, &store, &long, DONE);
        let refused = checked(Drive::InPlace, &store, &self.operations(0), TOO_SHORT);
        let difference = Difference {
            more: taken.script,
            less: refused.script,
            units: BATCHES,
            output: taken.output,
        };
        (difference, taken.payloads)
    }

    fn items(&self) -> Vec<Item> {
        let bytes = store(self.message.payload.length);
        let key = |part: Part| bytes[..part.length as usize].to_vec();
        let text = |part| String::from_utf8(key(part)).expect("keys are letters");
        let single = SingleMessageMetadata {
            partition_key: self.message.partition_key.map(text),
            event_time: self.message.event_time,
            payload_size: self.message.payload.length as i32,
            ..Default::default()
        };
        vec![(single, bytes); BATCH as usize]
    }

    pub fn measure(&self) -> Vec<Sample> {
        let (mut port, payloads) = self.port_side();
        let items = self.items();
        let mut buffer = BytesMut::new();
        concatenate(&items, &mut buffer);
        assert!(
            payloads == buffer.repeat(BATCHES as usize),
            "the bytes of port and prost"
        );
        (0..REPETITIONS)
            .map(|_| Sample {
                port: port.time(RUNS),
                prost: prost_time(&items, &mut buffer),
            })
            .collect()
    }
}

/// The least time of so many runs, as for the port.
fn prost_time(items: &[Item], buffer: &mut BytesMut) -> f64 {
    let run = |_| {
        timed(|| {
            for _ in 0..BATCHES {
                concatenate(black_box(items), buffer);
            }
        })
    };
    let least = (0..RUNS).map(run).min().unwrap_or_default();
    least as f64 / BATCHES as f64
}

/// As `flush_batch` of producer.rs, into a buffer that is used again.
fn concatenate(items: &[Item], buffer: &mut BytesMut) {
    let total = items
        .iter()
        .map(|(single, payload)| 4 + single.encoded_len() + payload.len())
        .sum();
    buffer.clear();
    buffer.reserve(total);
    for (single, payload) in items {
        let length = single.encoded_len() as u32;
        buffer.extend_from_slice(&length.to_be_bytes());
        single.encode(buffer).expect("a buffer grows");
        buffer.extend_from_slice(payload);
    }
}
