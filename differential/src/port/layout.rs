//! The structs of include/tevrulig.h, and the functions that it declares.

use std::mem::{offset_of, size_of};

/// Structs as Rust has them, each with its name in the header, and where all their fields stand.
macro_rules! structs {
    ($(struct $name:ident = $c:ident { $($field:ident: $type:ty,)* })*) => {
        $(
            #[derive(Debug, Clone, Copy)]
            #[repr(C)]
            pub struct $name {
                $(pub $field: $type,)*
            }
        )*

        /// The header's name of each struct, its size, and its fields with their offsets.
        pub fn layout() -> Vec<(&'static str, usize, Vec<(&'static str, usize)>)> {
            vec![$((
                stringify!($c),
                size_of::<$name>(),
                vec![$((stringify!($field), offset_of!($name, $field)),)*],
            ),)*]
        }
    };
}

structs! {
    struct Part = tevrulig_part { start: usize, len: usize, }
    struct TxnId = tevrulig_txn_id { most_sig_bits: u64, least_sig_bits: u64, }
    struct MessageId = tevrulig_message_id {
        ledger_id: u64, entry_id: u64, partition: i32, batch_index: i32, batch_size: i32,
    }
    struct Name = tevrulig_name { bytes: [u8; 64], len: usize, }
    struct OptionalPart = tevrulig_optional_part { value: Part, present: u8, }
    struct OptionalU64 = tevrulig_optional_u64 { value: u64, present: u8, }
    struct OptionalI64 = tevrulig_optional_i64 { value: i64, present: u8, }
    struct OptionalI32 = tevrulig_optional_i32 { value: i32, present: u8, }
    struct OptionalBool = tevrulig_optional_bool { value: u8, present: u8, }
    struct OptionalTxnId = tevrulig_optional_txn_id { value: TxnId, present: u8, }
    struct OptionalMessageId = tevrulig_optional_message_id { value: MessageId, present: u8, }
    struct OptionalUuid = tevrulig_optional_uuid { value: [u8; 36], present: u8, }
    struct Message = tevrulig_message {
        payload: Part,
        partition_key: OptionalPart,
        ordering_key: OptionalPart,
        schema_version: OptionalPart,
        producer_name: Part,
        event_time: OptionalU64,
        deliver_at_time: OptionalI64,
        txn_id: OptionalTxnId,
        source_message_id: OptionalMessageId,
        compression: OptionalI32,
        uncompressed_size: u32,
        num_messages: i32,
        null_value: OptionalBool,
        null_partition_key: OptionalBool,
    }
    struct Sent = tevrulig_sent { count: usize, size: usize, max_message_size: usize, batched: u8, }
    struct Command = tevrulig_command {
        producer_id: u64,
        sequence_id: u64,
        num_messages: u64,
        txn_id: OptionalTxnId,
        highest_sequence_id: OptionalU64,
        message_id: OptionalMessageId,
        is_chunk: OptionalBool,
    }
    struct FrameName = tevrulig_frame_name { own: OptionalPart, producer: Name, }
    struct Metadata = tevrulig_metadata {
        producer_name: FrameName,
        sequence_id: u64,
        publish_time: u64,
        partition_key: OptionalPart,
        ordering_key: OptionalPart,
        schema_version: OptionalPart,
        event_time: OptionalU64,
        deliver_at_time: OptionalI64,
        uncompressed_size: OptionalU64,
        txn_id: OptionalTxnId,
        highest_sequence_id: OptionalU64,
        num_messages_in_batch: OptionalU64,
        chunk_id: OptionalU64,
        num_chunks_from_msg: OptionalU64,
        total_chunk_msg_size: OptionalU64,
        compression: OptionalI32,
        null_value: OptionalBool,
        null_partition_key: OptionalBool,
        uuid: OptionalUuid,
    }
    struct Frame = tevrulig_frame { command: Command, metadata: Metadata, payload_len: usize, }
    struct MessageIdData = tevrulig_message_id_data {
        ledger_id: u64,
        entry_id: u64,
        partition: OptionalI32,
        batch_index: OptionalI32,
        batch_size: OptionalI32,
        present: u8,
    }
    struct Receipt = tevrulig_receipt {
        producer_id: u64, sequence_id: u64, message_id: MessageIdData,
    }
    struct SendError = tevrulig_send_error { producer_id: u64, sequence_id: u64, error: i32, }
    struct Replay = tevrulig_replay { kind: u32, total_chunks: u32, max_chunk_size: u32, }
    struct Publish = tevrulig_publish {
        enqueued_at: u64,
        reserved: u64,
        publish_time: u64,
        producer_name: Name,
        uuid: [u8; 16],
        message: Message,
        num_messages: i32,
        replay: Replay,
    }
    struct Entry = tevrulig_entry { sequence_id: u64, answerable: u8, publish: Publish, }
    struct Counts = tevrulig_counts { dropped: usize, replay: usize, }
    struct Stats = tevrulig_stats {
        total_msgs_sent: u64,
        total_bytes_sent: u64,
        total_send_failed: u64,
        total_acks_received: u64,
        pending_queue_size: u64,
    }
    struct Limits = tevrulig_limits {
        max_message_size: usize,
        max_batch_size_bytes: usize,
        max_messages_in_batch: usize,
        metadata_reservation: usize,
    }
    struct Switches = tevrulig_switches {
        batching_enabled: u8, chunking_enabled: u8, broker_ready: u8, closed: u8,
    }
    struct Delays = tevrulig_delays {
        send_timeout: OptionalU64, batching_max_publish_delay: OptionalU64,
    }
    struct Settings = tevrulig_settings {
        name: Name, limits: Limits, switches: Switches, delays: Delays,
    }
    struct Ids = tevrulig_ids {
        next_sequence_id: u64, last_sequence_id_pushed: i64, last_sequence_id_published: i64,
    }
    struct Counters = tevrulig_counters {
        total_msgs_sent: u64,
        total_bytes_sent: u64,
        total_send_failed: u64,
        total_acks_received: u64,
    }
    struct Batch = tevrulig_batch {
        len: usize,
        current_size_bytes: usize,
        encoded_len: usize,
        lowest_sequence_id: u64,
        highest_sequence_id: u64,
        first_added_at: u64,
        txn_id: OptionalTxnId,
    }
    struct Ring = tevrulig_ring { head: usize, len: usize, }
    struct Rings = tevrulig_rings { outbound: Ring, waiting: usize, held: Ring, pending: Ring, }
    struct Core = tevrulig_core {
        handle: u64,
        settings: Settings,
        ids: Ids,
        counters: Counters,
        batch: Batch,
        rings: Rings,
    }
    struct FrameKind = tevrulig_frame_kind {
        kind: u32,
        total_chunks: u32,
        next_chunk: u32,
        max_chunk_size: u32,
        num_messages: usize,
        current_size_bytes: usize,
        highest_sequence_id: u64,
        txn_id: OptionalTxnId,
    }
    struct WaitingFrame = tevrulig_waiting_frame {
        sequence_id: u64,
        publish_time: u64,
        producer_name: Name,
        uuid: [u8; 16],
        message: Message,
        kind: FrameKind,
    }
    struct HeldMessage = tevrulig_held_message {
        payload: Part,
        partition_key: OptionalPart,
        ordering_key: OptionalPart,
        event_time: OptionalU64,
        null_value: OptionalBool,
        null_partition_key: OptionalBool,
    }
    struct Producer = tevrulig_producer {
        core: Core,
        outbound: [WaitingFrame; 1024],
        held: [HeldMessage; 512],
        pending: [Publish; 256],
        pending_ids: [u64; 256],
        pending_marks: [u8; 256],
    }
}

/// Gives a macro the functions that the header declares. A slice is a pointer and a length; the library keeps no pointer past a call.
macro_rules! functions {
    ($macro:ident) => {
        $macro! {
            fn tevrulig_new(producer: *mut Producer, handle: u64);
            fn tevrulig_producer_size() -> usize;
            fn tevrulig_set_max_message_size(producer: *mut Producer, limit: usize) -> u32;
            fn tevrulig_set_max_batch_size_bytes(producer: *mut Producer, limit: usize) -> u32;
            fn tevrulig_set_max_messages_in_batch(producer: *mut Producer, limit: usize) -> u32;
            fn tevrulig_set_metadata_reservation(producer: *mut Producer, bytes: usize) -> u32;
            fn tevrulig_set_name(producer: *mut Producer, name: *const u8, len: usize) -> u32;
            fn tevrulig_set_batching_enabled(producer: *mut Producer, on: u8) -> u32;
            fn tevrulig_set_chunking_enabled(producer: *mut Producer, on: u8) -> u32;
            fn tevrulig_set_broker_ready(producer: *mut Producer, on: u8) -> u32;
            fn tevrulig_set_send_timeout(producer: *mut Producer, delay: OptionalU64) -> u32;
            fn tevrulig_set_batching_max_publish_delay(
                producer: *mut Producer,
                delay: OptionalU64,
            ) -> u32;
            fn tevrulig_close(producer: *mut Producer);
            fn tevrulig_set_initial_sequence_id(producer: *mut Producer, next: u64);
            fn tevrulig_queue_send_reserved(
                producer: *mut Producer,
                store: *const u8,
                store_len: usize,
                message: *const Message,
                reserved: u64,
                uuid: *const [u8; 16],
                publish_time: u64,
                now: u64,
                sent: *mut Sent,
            ) -> u32;
            fn tevrulig_queue_send(
                producer: *mut Producer,
                store: *const u8,
                store_len: usize,
                message: *const Message,
                uuid: *const [u8; 16],
                publish_time: u64,
                now: u64,
                sent: *mut Sent,
            ) -> u32;
            fn tevrulig_flush_batch(
                producer: *mut Producer,
                publish_time: u64,
                now: u64,
                count: *mut usize,
            ) -> u32;
            fn tevrulig_next_outbound_frame(
                producer: *mut Producer,
                store: *const u8,
                store_len: usize,
                buffer: *mut u8,
                buffer_len: usize,
                frame: *mut Frame,
            ) -> u32;
            fn tevrulig_apply_receipt(
                producer: *mut Producer,
                receipt: *const Receipt,
                entry: *mut Entry,
                message_id: *mut MessageId,
            ) -> u32;
            fn tevrulig_apply_send_error(
                producer: *mut Producer,
                error: *const SendError,
                entry: *mut Entry,
                code: *mut i32,
            ) -> u32;
            fn tevrulig_drain_pending_sends(
                producer: *mut Producer,
                table: *mut Entry,
                table_len: usize,
                count: *mut usize,
            ) -> u32;
            fn tevrulig_drain_timed_out_sends(
                producer: *mut Producer,
                now: u64,
                table: *mut Entry,
                table_len: usize,
                count: *mut usize,
            ) -> u32;
            fn tevrulig_snapshot_pending_sends(
                producer: *mut Producer,
                dropped: *mut Entry,
                dropped_len: usize,
                replay: *mut Entry,
                replay_len: usize,
                counts: *mut Counts,
            ) -> u32;
            fn tevrulig_replay_snapshots(
                producer: *mut Producer,
                table: *const Entry,
                table_len: usize,
            ) -> u32;
            fn tevrulig_replay_pending_outbound(producer: *mut Producer, count: *mut usize) -> u32;
            fn tevrulig_next_send_deadline(producer: *const Producer) -> OptionalU64;
            fn tevrulig_next_batch_deadline(producer: *const Producer) -> OptionalU64;
            fn tevrulig_batch_deadline_elapsed(producer: *const Producer, now: u64) -> u8;
            fn tevrulig_can_add_to_batch(
                producer: *const Producer,
                payload_size: usize,
                num_messages: i32,
            ) -> u8;
            fn tevrulig_outbound_len(producer: *const Producer) -> usize;
            fn tevrulig_metadata_reservation(producer: *const Producer) -> usize;
            fn tevrulig_stats(producer: *const Producer) -> Stats;
        }
    };
}

macro_rules! declare {
    ($(fn $name:ident($($argument:ident: $type:ty),* $(,)?) $(-> $answer:ty)?;)*) => {
        unsafe extern "C" {
            $(pub fn $name($($argument: $type),*) $(-> $answer)?;)*
        }
    };
}

functions!(declare);
