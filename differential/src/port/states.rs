//! The exported operations under attack: states of any bytes, and any arguments.

use std::mem::size_of;
use std::slice;

use super::calls;
use super::given::zeros;
use super::layout as c;
use crate::generate::random::Random;
use crate::guard::{Edge, Guarded};

/// A state of new bytes for so many calls; between them what the calls left, with other scalars.
const CALLS_PER_STATE: u64 = 32;
const STORE: usize = 4_096;
const BUFFER: usize = 8_192;
const TABLE: usize = 260;
/// No refusal has a greater number.
const LAST_REFUSAL: u32 = 12;

/// How often a call was carried out, refused, or could not be refused.
#[derive(Debug, Default, Clone, Copy)]
pub struct StateTally {
    pub calls: u64,
    pub refused: u64,
}

impl StateTally {
    pub fn add(&mut self, other: Self) {
        self.calls += other.calls;
        self.refused += other.refused;
    }
}

/// All that calls are lent, each piece up against a forbidden page.
pub struct States {
    random: Random,
    producer: Guarded,
    store: Guarded,
    buffer: Guarded,
    tables: [Guarded; 2],
    message: Guarded,
    out: Guarded,
    before: Vec<u8>,
}

impl States {
    pub fn new(seed: u64) -> Result<Self, String> {
        let memory = |length| Guarded::new(length).map_err(|error| error.to_string());
        let table = TABLE * size_of::<c::Entry>();
        Ok(Self {
            random: Random::new(seed),
            producer: memory(size_of::<c::Producer>())?,
            store: memory(STORE)?,
            buffer: memory(BUFFER)?,
            tables: [memory(table)?, memory(table)?],
            message: memory(size_of::<c::Message>())?,
            out: memory(size_of::<c::Frame>())?,
            before: vec![0; size_of::<c::Producer>()],
        })
    }

    /// Hands one call a state and arguments; says what is wrong with what it left.
    pub fn call(&mut self, number: u64, tally: &mut StateTally) -> Result<(), String> {
        let edge = if self.random.one_in(2) {
            Edge::First
        } else {
            Edge::Last
        };
        let fresh = number.is_multiple_of(CALLS_PER_STATE);
        let producer = self.producer.slice(edge, size_of::<c::Producer>());
        if fresh {
            fill(&mut self.random, producer);
        }
        fill(&mut self.random, &mut producer[..size_of::<c::Core>()]);
        let producer: *mut c::Producer = producer.as_mut_ptr().cast();
        // SAFETY: whole and aligned; any bytes are a producer.
        settle(&mut self.random, unsafe { &mut (*producer).core });

        let store_len = self.random.below(STORE as u64 + 1) as usize;
        let store = self.store.slice(edge, store_len);
        fill(&mut self.random, store);
        let store_sum = sum(store);
        let store = store.as_ptr();
        let buffer_len = self.random.below(BUFFER as u64 + 1) as usize;
        let buffer = self.buffer.slice(edge, buffer_len).as_mut_ptr();
        let lens = [(); 2].map(|()| self.random.below(TABLE as u64 + 1) as usize);
        let [first, second] = &mut self.tables;
        let tables = [(first, lens[0]), (second, lens[1])].map(|(table, len)| {
            let bytes = table.slice(edge, len * size_of::<c::Entry>());
            if self.random.one_in(8) {
                fill(&mut self.random, bytes);
            }
            bytes.as_mut_ptr().cast::<c::Entry>()
        });
        let message = self.message.slice(edge, size_of::<c::Message>());
        fill(&mut self.random, message);
        let message: *mut c::Message = message.as_mut_ptr().cast();
        // SAFETY: as above.
        plausible(&mut self.random, unsafe { &mut *message }, store_len as u64);
        let out = self.out.slice(edge, size_of::<c::Frame>()).as_mut_ptr();

        let random = &mut self.random;
        let (a, b) = (random.next(), random.next());
        let uuid: [u8; 16] = random.bytes();
        let which = random.below(31);
        // SAFETY: the whole of the producer.
        let bytes = unsafe { slice::from_raw_parts(producer.cast::<u8>(), self.before.len()) };
        self.before.copy_from_slice(bytes);
        let mut entry: c::Entry = zeros();
        let mut id: c::MessageId = zeros();
        let (mut count, mut code) = (0_usize, 0_i32);
        let mut counts: c::Counts = zeros();
        let delay = c::OptionalU64 {
            value: a,
            present: b as u8,
        };
        // SAFETY: every piece is whole, and no two overlap.
        let status = unsafe {
            let sequence_id = some_id(random, &*producer);
            match which {
                0 => calls::tevrulig_queue_send(
                    producer,
                    store,
                    store_len,
                    message,
                    &uuid,
                    a,
                    b,
                    out.cast(),
                ),
                1 => calls::tevrulig_queue_send_reserved(
                    producer,
                    store,
                    store_len,
                    message,
                    a >> random.below(64),
                    &uuid,
                    a,
                    b,
                    out.cast(),
                ),
                2 => calls::tevrulig_flush_batch(producer, a, b, &mut count),
                3..=6 => calls::tevrulig_next_outbound_frame(
                    producer,
                    store,
                    store_len,
                    buffer,
                    buffer_len,
                    out.cast(),
                ),
                7 | 8 => {
                    let receipt = c::Receipt {
                        producer_id: a,
                        sequence_id,
                        message_id: zeros(),
                    };
                    calls::tevrulig_apply_receipt(producer, &receipt, &mut entry, &mut id)
                }
                9 | 10 => {
                    let error = c::SendError {
                        producer_id: a,
                        sequence_id,
                        error: b as i32,
                    };
                    calls::tevrulig_apply_send_error(producer, &error, &mut entry, &mut code)
                }
                11 => calls::tevrulig_drain_pending_sends(producer, tables[0], lens[0], &mut count),
                12 => calls::tevrulig_drain_timed_out_sends(
                    producer, a, tables[0], lens[0], &mut count,
                ),
                13 => calls::tevrulig_snapshot_pending_sends(
                    producer,
                    tables[0],
                    lens[0],
                    tables[1],
                    lens[1],
                    &mut counts,
                ),
                14 => calls::tevrulig_replay_snapshots(producer, tables[0], lens[0]),
                15 => calls::tevrulig_replay_pending_outbound(producer, &mut count),
                16 => calls::tevrulig_set_max_message_size(producer, a as usize),
                17 => calls::tevrulig_set_max_batch_size_bytes(producer, a as usize),
                18 => calls::tevrulig_set_max_messages_in_batch(producer, a as usize),
                19 => calls::tevrulig_set_name(producer, store, store_len.min(a as usize % 100)),
                20 => calls::tevrulig_set_batching_enabled(producer, a as u8),
                21 => calls::tevrulig_set_chunking_enabled(producer, a as u8),
                22 => calls::tevrulig_set_broker_ready(producer, a as u8),
                23 => calls::tevrulig_set_send_timeout(producer, delay),
                24 => calls::tevrulig_set_batching_max_publish_delay(producer, delay),
                25 => {
                    calls::tevrulig_close(producer);
                    0
                }
                26 => {
                    calls::tevrulig_set_initial_sequence_id(producer, a);
                    0
                }
                27 => {
                    calls::tevrulig_new(producer, a);
                    0
                }
                28 => calls::tevrulig_set_metadata_reservation(producer, a as usize),
                29 => {
                    let _ = calls::tevrulig_next_send_deadline(producer);
                    let _ = calls::tevrulig_next_batch_deadline(producer);
                    0
                }
                _ => {
                    let _ = calls::tevrulig_batch_deadline_elapsed(producer, a);
                    let _ = calls::tevrulig_can_add_to_batch(producer, a as usize, b as i32);
                    let _ = calls::tevrulig_outbound_len(producer);
                    let _ = calls::tevrulig_metadata_reservation(producer);
                    let _ = calls::tevrulig_stats(producer);
                    0
                }
            }
        };
        tally.calls += 1;
        tally.refused += u64::from(status != 0);
        if status > LAST_REFUSAL {
            return Err(format!("operation {which} answered {status}"));
        }
        // SAFETY: as above.
        let after = unsafe { slice::from_raw_parts(producer.cast::<u8>(), self.before.len()) };
        // 6 alone may first flush an earlier batch.
        let keeps = status != 0 && status != 6;
        if (keeps || which >= 29) && after != self.before {
            return Err(format!(
                "operation {which}, refused by {status}, changed the state"
            ));
        }
        // SAFETY: as above.
        if sum(unsafe { slice::from_raw_parts(store, store_len) }) != store_sum {
            return Err(format!("operation {which} wrote the store"));
        }
        Ok(())
    }
}

fn fill(random: &mut Random, bytes: &mut [u8]) {
    let (words, rest) = bytes.as_chunks_mut();
    for word in words {
        *word = random.next().to_le_bytes();
    }
    rest.fill(random.next() as u8);
}

fn sum(bytes: &[u8]) -> u64 {
    bytes
        .iter()
        .fold(0, |sum: u64, byte| sum.rotate_left(5) ^ u64::from(*byte))
}

/// Of scalars of any bytes, now and then some that let a call come far.
fn settle(random: &mut Random, core: &mut c::Core) {
    let near = [
        0,
        1,
        2,
        127,
        128,
        255,
        256,
        257,
        511,
        512,
        1023,
        1024,
        1025,
        u64::MAX,
    ];
    let rings = &mut core.rings;
    for number in [
        &mut rings.outbound.len,
        &mut rings.held.len,
        &mut rings.pending.len,
        &mut rings.waiting,
        &mut core.batch.len,
    ] {
        if random.one_in(2) {
            *number = random.pick(&near) as usize;
        }
    }
    if !random.one_in(8) {
        core.settings.switches.closed = 0;
    }
    if random.one_in(2) {
        core.settings.limits.max_message_size = random.below(3000) as usize;
    }
    if random.one_in(2) {
        let headrooms = [0, 1, 100, 700, 1024, u64::MAX / 4, u64::MAX / 4 + 1];
        core.settings.limits.metadata_reservation = random.pick(&headrooms) as usize;
    }
}

/// Of a message of any bytes, mostly one whose parts lie in the store.
fn plausible(random: &mut Random, m: &mut c::Message, store: u64) {
    if random.one_in(8) {
        return;
    }
    let mut part = || {
        let start = random.below(store + 1);
        let len = random.below(store - start + 1).min(1024);
        c::Part {
            start: start as usize,
            len: len as usize,
        }
    };
    m.payload = part();
    m.producer_name = part();
    m.producer_name.len = m.producer_name.len.min(64);
    for key in [
        &mut m.partition_key,
        &mut m.ordering_key,
        &mut m.schema_version,
    ] {
        key.value = part();
    }
}

/// An id that stands in the state, or any.
fn some_id(random: &mut Random, producer: &c::Producer) -> u64 {
    if random.one_in(4) {
        random.next()
    } else {
        random.pick(&producer.pending_ids)
    }
}
