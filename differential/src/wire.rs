//! The bytes of a batch payload by hand, from document 01 and the Protocol Buffers encoding.
//!
//! Used to know a batch frame's length before it is taken, and as a check on prost.

use crate::frames::Store;
use crate::operations::Message;

fn varint(mut value: u64, out: &mut Vec<u8>) {
    while value >= 0x80 {
        out.push((value & 0x7F) as u8 | 0x80);
        value >>= 7;
    }
    out.push(value as u8);
}

fn varint_length(value: u64) -> u64 {
    u64::from((64 - value.leading_zeros()).max(1).div_ceil(7))
}

fn bytes_field(tag: u8, bytes: &[u8], out: &mut Vec<u8>) {
    out.push(tag << 3 | 2);
    varint(bytes.len() as u64, out);
    out.extend_from_slice(bytes);
}

fn number_field(tag: u8, value: u64, out: &mut Vec<u8>) {
    out.push(tag << 3);
    varint(value, out);
}

/// Section "batch": the single metadata's fields in tag order, absent ones left out.
fn single_metadata(store: &Store, message: &Message) -> Vec<u8> {
    let mut out = Vec::new();
    if let Some(key) = message.partition_key {
        bytes_field(2, &store.bytes(key), &mut out);
    }
    number_field(3, message.payload.length, &mut out);
    if let Some(time) = message.event_time {
        number_field(5, time, &mut out);
    }
    if let Some(key) = message.ordering_key {
        bytes_field(7, &store.bytes(key), &mut out);
    }
    if let Some(mark) = message.null_value {
        number_field(9, u64::from(mark), &mut out);
    }
    if let Some(mark) = message.null_partition_key {
        number_field(10, u64::from(mark), &mut out);
    }
    out
}

/// One message of a batch payload: 4 bytes big-endian length, single metadata, payload.
pub fn item(store: &Store, message: &Message, out: &mut Vec<u8>) {
    let metadata = single_metadata(store, message);
    out.extend_from_slice(&(metadata.len() as u32).to_be_bytes());
    out.extend_from_slice(&metadata);
    out.extend_from_slice(&store.bytes(message.payload));
}

/// The length of an item, from its fields alone.
pub fn item_length(message: &Message) -> u64 {
    let keys = [message.partition_key, message.ordering_key];
    let keys = keys.into_iter().flatten().map(|key| key.length);
    let marks = [message.null_value, message.null_partition_key];
    4 + keys
        .map(|length| 1 + varint_length(length) + length)
        .sum::<u64>()
        + 1
        + varint_length(message.payload.length)
        + message.event_time.map_or(0, |time| 1 + varint_length(time))
        + 2 * marks.into_iter().flatten().count() as u64
        + message.payload.length
}
