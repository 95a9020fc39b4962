//! The header's structs from what a script can say.

use std::mem::MaybeUninit;

use super::layout as c;
use crate::operations as op;

/// A value of zeros. All structs of the header are numbers, of which any bytes are one.
pub fn zeros<T: Copy>() -> T {
    // SAFETY: it is called for structs of the header alone, in which every bit pattern is a value.
    unsafe { MaybeUninit::zeroed().assume_init() }
}

pub fn given_part(part: op::Part) -> c::Part {
    c::Part {
        start: part.start as usize,
        len: part.length as usize,
    }
}

pub fn optional_part(part: Option<op::Part>) -> c::OptionalPart {
    part.map_or(zeros(), |part| c::OptionalPart {
        value: given_part(part),
        present: 1,
    })
}

pub fn optional_u64(value: Option<u64>) -> c::OptionalU64 {
    value.map_or(zeros(), |value| c::OptionalU64 { value, present: 1 })
}

pub fn optional_i32(value: Option<i32>) -> c::OptionalI32 {
    value.map_or(zeros(), |value| c::OptionalI32 { value, present: 1 })
}

pub fn optional_bool(value: Option<bool>) -> c::OptionalBool {
    value.map_or(zeros(), |value| c::OptionalBool {
        value: u8::from(value),
        present: 1,
    })
}

pub fn given_message(m: &op::Message) -> c::Message {
    c::Message {
        payload: given_part(m.payload),
        partition_key: optional_part(m.partition_key),
        ordering_key: optional_part(m.ordering_key),
        schema_version: optional_part(m.schema_version),
        producer_name: given_part(m.name),
        event_time: optional_u64(m.event_time),
        deliver_at_time: m
            .deliver_at_time
            .map_or(zeros(), |value| c::OptionalI64 { value, present: 1 }),
        txn_id: m.transaction.map_or(zeros(), |txn| c::OptionalTxnId {
            value: c::TxnId {
                most_sig_bits: txn.most,
                least_sig_bits: txn.least,
            },
            present: 1,
        }),
        source_message_id: m.source_id.map_or(zeros(), |id| c::OptionalMessageId {
            value: c::MessageId {
                ledger_id: id.ledger,
                entry_id: id.entry,
                partition: id.partition,
                batch_index: id.batch_index,
                batch_size: id.batch_size,
            },
            present: 1,
        }),
        compression: optional_i32(m.compression),
        uncompressed_size: m.uncompressed_size,
        num_messages: m.num_messages,
        null_value: optional_bool(m.null_value),
        null_partition_key: optional_bool(m.null_partition_key),
    }
}
