/* The send queue of a Pulsar producer: a producer that the caller keeps, and each operation of document 01 on it.
 *
 * A producer is one struct of numbers. It may stand anywhere, and any bytes are one; tevrulig_new makes it a new one. Nothing is
 * allocated, no pointer is kept past a call, and a producer may be copied as bytes. A call must have the producer and the memory that
 * it writes for itself: they may not overlap each other or anything that it reads.
 *
 * A call that can be refused answers a status: 0, or the number of the refusal. A refused call has changed nothing, neither the producer
 * nor the memory that it was lent, but for a send refused by 6: it may have flushed the waiting batch, and answers two numbers.
 *
 * Bytes stand in a store that the caller lends with a send and with the take of its frame: messages name parts of it. Optional
 * values are there where `present` is not 0, switches are on where they are not 0, and a tag that no comment names counts as the
 * last that one does. Times are in milliseconds. A call needs at most 32 KiB of stack, but for the drains and the snapshot, which
 * gather entries there and need up to 600 KB. Every function is proved to answer and leave what its definition says; see
 * docs/ORDER.md. */
#ifndef TEVRULIG_H
#define TEVRULIG_H

#include <stddef.h>
#include <stdint.h>

#ifdef __cplusplus
extern "C" {
#endif

/* ---- refusals ---- */

enum {
    TEVRULIG_CLOSED = 1,             /* the producer is closed */
    TEVRULIG_PART_OUTSIDE = 2,       /* a part ends outside the store */
    TEVRULIG_OVER_BOUND = 3,         /* a payload, key, schema version, name or reservation over its bound */
    TEVRULIG_OUTBOUND_FULL = 4,      /* more than 1,024 frames would wait */
    TEVRULIG_HELD_FULL = 5,          /* 512 batched messages are held */
    TEVRULIG_MESSAGE_TOO_LARGE = 6,  /* over max_message_size with chunking off */
    TEVRULIG_PENDING_FULL = 7,       /* 256 entries are pending */
    TEVRULIG_SETTING_OVER_BOUND = 8, /* a setting over its bound */
    TEVRULIG_TOO_SHORT = 9,          /* the buffer or a table is shorter than what would be written */
    TEVRULIG_NO_FRAME = 10,          /* no frame waits */
    TEVRULIG_NOT_ANSWERABLE = 11,    /* the id is not answerable */
    TEVRULIG_MALFORMED_ENTRY = 12    /* an entry of a replay table is malformed */
};

/* ---- values ---- */

/* A start and a length in the store. */
struct tevrulig_part {
    size_t start, len;
};

struct tevrulig_txn_id {
    uint64_t most_sig_bits, least_sig_bits;
};

struct tevrulig_message_id {
    uint64_t ledger_id, entry_id;
    int32_t partition, batch_index, batch_size;
};

/* The first `len` of the bytes, 64 at most. */
struct tevrulig_name {
    uint8_t bytes[64];
    size_t len;
};

struct tevrulig_optional_part {
    struct tevrulig_part value;
    uint8_t present;
};

struct tevrulig_optional_u64 {
    uint64_t value;
    uint8_t present;
};

struct tevrulig_optional_i64 {
    int64_t value;
    uint8_t present;
};

struct tevrulig_optional_i32 {
    int32_t value;
    uint8_t present;
};

struct tevrulig_optional_bool {
    uint8_t value;
    uint8_t present;
};

struct tevrulig_optional_txn_id {
    struct tevrulig_txn_id value;
    uint8_t present;
};

struct tevrulig_optional_message_id {
    struct tevrulig_message_id value;
    uint8_t present;
};

struct tevrulig_optional_uuid {
    uint8_t value[36];
    uint8_t present;
};

/* ---- a message ---- */

/* A struct of zeros is a message without a payload, of which each optional value is absent. */
struct tevrulig_message {
    struct tevrulig_part payload;
    struct tevrulig_optional_part partition_key;
    struct tevrulig_optional_part ordering_key;
    struct tevrulig_optional_part schema_version;
    struct tevrulig_part producer_name; /* the producer's own where this is empty */
    struct tevrulig_optional_u64 event_time;
    struct tevrulig_optional_i64 deliver_at_time;
    struct tevrulig_optional_txn_id txn_id;
    struct tevrulig_optional_message_id source_message_id; /* where it was first stored, of a replicated one */
    struct tevrulig_optional_i32 compression;              /* the codec that the caller has compressed with */
    uint32_t uncompressed_size;
    int32_t num_messages; /* the messages that this one stands for */
    struct tevrulig_optional_bool null_value;
    struct tevrulig_optional_bool null_partition_key;
};

/* What a send answers. */
struct tevrulig_sent {
    size_t count;            /* the frames of the message itself; 0 where it joined the open batch */
    size_t size;             /* of 6: the payload's length */
    size_t max_message_size; /* of 6: the limit */
    uint8_t batched;         /* whether it joined the open batch */
};

/* ---- a frame as it is handed out ---- */

struct tevrulig_command {
    uint64_t producer_id;
    uint64_t sequence_id;
    uint64_t num_messages;
    struct tevrulig_optional_txn_id txn_id;
    struct tevrulig_optional_u64 highest_sequence_id;
    struct tevrulig_optional_message_id message_id;
    struct tevrulig_optional_bool is_chunk;
};

/* The message's own name, a part of the store, where it is present; else the producer's. */
struct tevrulig_frame_name {
    struct tevrulig_optional_part own;
    struct tevrulig_name producer;
};

struct tevrulig_metadata {
    struct tevrulig_frame_name producer_name;
    uint64_t sequence_id;
    uint64_t publish_time;
    struct tevrulig_optional_part partition_key;
    struct tevrulig_optional_part ordering_key;
    struct tevrulig_optional_part schema_version;
    struct tevrulig_optional_u64 event_time;
    struct tevrulig_optional_i64 deliver_at_time;
    struct tevrulig_optional_u64 uncompressed_size;
    struct tevrulig_optional_txn_id txn_id;
    struct tevrulig_optional_u64 highest_sequence_id;
    struct tevrulig_optional_u64 num_messages_in_batch;
    struct tevrulig_optional_u64 chunk_id;
    struct tevrulig_optional_u64 num_chunks_from_msg;
    struct tevrulig_optional_u64 total_chunk_msg_size;
    struct tevrulig_optional_i32 compression;
    struct tevrulig_optional_bool null_value;
    struct tevrulig_optional_bool null_partition_key;
    struct tevrulig_optional_uuid uuid; /* of a chunk */
};

/* The payload is the first `payload_len` bytes of the buffer. */
struct tevrulig_frame {
    struct tevrulig_command command;
    struct tevrulig_metadata metadata;
    size_t payload_len;
};

/* ---- what the broker sends back ---- */

struct tevrulig_message_id_data {
    uint64_t ledger_id, entry_id;
    struct tevrulig_optional_i32 partition, batch_index, batch_size;
    uint8_t present;
};

struct tevrulig_receipt {
    uint64_t producer_id;
    uint64_t sequence_id;
    struct tevrulig_message_id_data message_id;
};

struct tevrulig_send_error {
    uint64_t producer_id;
    uint64_t sequence_id;
    int32_t error;
};

/* ---- pending entries, as tables have them ---- */

struct tevrulig_replay {
    uint32_t kind; /* 0 batched, 1 single, else chunked */
    uint32_t total_chunks;
    uint32_t max_chunk_size;
};

struct tevrulig_publish {
    uint64_t enqueued_at;
    uint64_t reserved;
    uint64_t publish_time;
    struct tevrulig_name producer_name;
    uint8_t uuid[16];
    struct tevrulig_message message;
    int32_t num_messages;
    struct tevrulig_replay replay;
};

struct tevrulig_entry {
    uint64_t sequence_id;
    uint8_t answerable;
    struct tevrulig_publish publish;
};

/* How many entries a snapshot has written to its two tables. */
struct tevrulig_counts {
    size_t dropped, replay;
};

struct tevrulig_stats {
    uint64_t total_msgs_sent, total_bytes_sent, total_send_failed, total_acks_received;
    uint64_t pending_queue_size;
};

/* ---- the producer; what is in it is the library's ---- */

struct tevrulig_limits {
    size_t max_message_size, max_batch_size_bytes, max_messages_in_batch;
    size_t metadata_reservation;
};

struct tevrulig_switches {
    uint8_t batching_enabled, chunking_enabled, broker_ready, closed;
};

struct tevrulig_delays {
    struct tevrulig_optional_u64 send_timeout, batching_max_publish_delay;
};

struct tevrulig_settings {
    struct tevrulig_name name;
    struct tevrulig_limits limits;
    struct tevrulig_switches switches;
    struct tevrulig_delays delays;
};

struct tevrulig_ids {
    uint64_t next_sequence_id;
    int64_t last_sequence_id_pushed, last_sequence_id_published;
};

struct tevrulig_counters {
    uint64_t total_msgs_sent, total_bytes_sent, total_send_failed, total_acks_received;
};

struct tevrulig_batch {
    size_t len, current_size_bytes, encoded_len;
    uint64_t lowest_sequence_id, highest_sequence_id, first_added_at;
    struct tevrulig_optional_txn_id txn_id;
};

struct tevrulig_ring {
    size_t head, len;
};

struct tevrulig_rings {
    struct tevrulig_ring outbound;
    size_t waiting;
    struct tevrulig_ring held;
    struct tevrulig_ring pending;
};

struct tevrulig_core {
    uint64_t handle;
    struct tevrulig_settings settings;
    struct tevrulig_ids ids;
    struct tevrulig_counters counters;
    struct tevrulig_batch batch;
    struct tevrulig_rings rings;
};

struct tevrulig_frame_kind {
    uint32_t kind; /* 0 single, 1 batch, else chunks */
    uint32_t total_chunks, next_chunk, max_chunk_size;
    size_t num_messages, current_size_bytes;
    uint64_t highest_sequence_id;
    struct tevrulig_optional_txn_id txn_id;
};

struct tevrulig_waiting_frame {
    uint64_t sequence_id;
    uint64_t publish_time;
    struct tevrulig_name producer_name;
    uint8_t uuid[16];
    struct tevrulig_message message;
    struct tevrulig_frame_kind kind;
};

struct tevrulig_held_message {
    struct tevrulig_part payload;
    struct tevrulig_optional_part partition_key;
    struct tevrulig_optional_part ordering_key;
    struct tevrulig_optional_u64 event_time;
    struct tevrulig_optional_bool null_value;
    struct tevrulig_optional_bool null_partition_key;
};

struct tevrulig_producer {
    struct tevrulig_core core;
    struct tevrulig_waiting_frame outbound[1024];
    struct tevrulig_held_message held[512];
    struct tevrulig_publish pending[256];
    uint64_t pending_ids[256];
    uint8_t pending_marks[256];
};

/* ---- calls ---- */

/* A new producer with the id that the connection gives. Whatever the memory held is gone. */
void tevrulig_new(struct tevrulig_producer *producer, uint64_t handle);

/* sizeof(struct tevrulig_producer), as the library has it. */
size_t tevrulig_producer_size(void);

/* Settings. Refused by 8: a limit over 16,777,216, a count over 128, a headroom over 65,536, a name over 64 bytes. */
uint32_t tevrulig_set_max_message_size(struct tevrulig_producer *producer, size_t limit);
uint32_t tevrulig_set_max_batch_size_bytes(struct tevrulig_producer *producer, size_t limit);
uint32_t tevrulig_set_max_messages_in_batch(struct tevrulig_producer *producer, size_t limit);
/* The headroom: what a chunk leaves of the message limit for its command and metadata, if the limit exceeds four times that. 1,024 at first. */
uint32_t tevrulig_set_metadata_reservation(struct tevrulig_producer *producer, size_t bytes);
uint32_t tevrulig_set_name(struct tevrulig_producer *producer, const uint8_t *name, size_t name_len);

/* Settings that are never refused: they answer 0. */
uint32_t tevrulig_set_batching_enabled(struct tevrulig_producer *producer, uint8_t on);
uint32_t tevrulig_set_chunking_enabled(struct tevrulig_producer *producer, uint8_t on);
uint32_t tevrulig_set_broker_ready(struct tevrulig_producer *producer, uint8_t on);
uint32_t tevrulig_set_send_timeout(struct tevrulig_producer *producer, struct tevrulig_optional_u64 delay);
uint32_t tevrulig_set_batching_max_publish_delay(struct tevrulig_producer *producer, struct tevrulig_optional_u64 delay);

/* For good: no call opens it again. */
void tevrulig_close(struct tevrulig_producer *producer);

void tevrulig_set_initial_sequence_id(struct tevrulig_producer *producer, uint64_t next);

/* A send, with `reserved` bytes of the client's memory or with none. `uuid` has 16 bytes, for chunks. Refused by 1, 2, 3, 4, 5, 6, 7.
 * A send that is refused leaves `sent`, but for 6, which answers its two numbers there. */
uint32_t tevrulig_queue_send_reserved(
    struct tevrulig_producer *producer, const uint8_t *store, size_t store_len, const struct tevrulig_message *message,
    uint64_t reserved, const uint8_t *uuid, uint64_t publish_time, uint64_t now, struct tevrulig_sent *sent);
uint32_t tevrulig_queue_send(
    struct tevrulig_producer *producer, const uint8_t *store, size_t store_len, const struct tevrulig_message *message,
    const uint8_t *uuid, uint64_t publish_time, uint64_t now, struct tevrulig_sent *sent);

/* The open batch becomes a frame: `count` is 1, or 0 where there is none or the producer is closed. Refused by 4. */
uint32_t tevrulig_flush_batch(struct tevrulig_producer *producer, uint64_t publish_time, uint64_t now, size_t *count);

/* The front frame, its payload at the start of the buffer. The store is that of the sends. Refused by 10, 2, 9. */
uint32_t tevrulig_next_outbound_frame(
    struct tevrulig_producer *producer, const uint8_t *store, size_t store_len, uint8_t *buffer, size_t buffer_len,
    struct tevrulig_frame *frame);

/* The entry that the broker's answer settles leaves, and comes back with the id that the message has now, or with the error's code.
 * Refused by 11. */
uint32_t tevrulig_apply_receipt(
    struct tevrulig_producer *producer, const struct tevrulig_receipt *receipt, struct tevrulig_entry *entry,
    struct tevrulig_message_id *message_id);
uint32_t tevrulig_apply_send_error(
    struct tevrulig_producer *producer, const struct tevrulig_send_error *error, struct tevrulig_entry *entry, int32_t *code);

/* Pending entries into a table of `table_len`: all, and batch and frames are emptied; or those from the front that are due, and frames
 * stay. What the table has beyond `count` stays. Refused by 9. */
uint32_t tevrulig_drain_pending_sends(struct tevrulig_producer *producer, struct tevrulig_entry *table, size_t table_len, size_t *count);
uint32_t tevrulig_drain_timed_out_sends(
    struct tevrulig_producer *producer, uint64_t now, struct tevrulig_entry *table, size_t table_len, size_t *count);

/* All entries, when the connection is gone: the batched ones are dropped, the others are there for a replay. Refused by 9. */
uint32_t tevrulig_snapshot_pending_sends(
    struct tevrulig_producer *producer, struct tevrulig_entry *dropped, size_t dropped_len, struct tevrulig_entry *replay,
    size_t replay_len, struct tevrulig_counts *counts);

/* Puts the entries of a table and their frames at the front. Refused by 12, 7, 4. */
uint32_t tevrulig_replay_snapshots(struct tevrulig_producer *producer, const struct tevrulig_entry *table, size_t table_len);

/* Fronts the frames of the entries whose id no waiting frame bears, `count` of them. Refused by 4. */
uint32_t tevrulig_replay_pending_outbound(struct tevrulig_producer *producer, size_t *count);

/* What can be asked; nothing changes. */
struct tevrulig_optional_u64 tevrulig_next_send_deadline(const struct tevrulig_producer *producer);
struct tevrulig_optional_u64 tevrulig_next_batch_deadline(const struct tevrulig_producer *producer);
uint8_t tevrulig_batch_deadline_elapsed(const struct tevrulig_producer *producer, uint64_t now);
uint8_t tevrulig_can_add_to_batch(const struct tevrulig_producer *producer, size_t payload_size, int32_t num_messages);
size_t tevrulig_outbound_len(const struct tevrulig_producer *producer);
/* The headroom that is set. */
size_t tevrulig_metadata_reservation(const struct tevrulig_producer *producer);
struct tevrulig_stats tevrulig_stats(const struct tevrulig_producer *producer);

/* ---- values that a caller makes often ---- */

static inline struct tevrulig_optional_u64 tevrulig_some_u64(uint64_t value)
{
    struct tevrulig_optional_u64 some = {value, 1};
    return some;
}

static inline struct tevrulig_optional_u64 tevrulig_none_u64(void)
{
    struct tevrulig_optional_u64 none = {0, 0};
    return none;
}

/* A message of which only the payload is set, a part of the store. */
static inline struct tevrulig_message tevrulig_message_of(size_t start, size_t len)
{
    struct tevrulig_message message = {0};
    message.payload.start = start;
    message.payload.len = len;
    return message;
}

#ifdef __cplusplus
}
#endif

#endif
