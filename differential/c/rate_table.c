/* A tariff engine's rate table, sent in chunks: set up, send, take every frame, settle, and print what a worker would see. */
#include "../../include/tevrulig.h"

#include <stdio.h>
#include <stdlib.h>
#include <string.h>

static struct tevrulig_producer producer;
static uint8_t store[200000], buffer[65536];

static void check(const char *call, uint32_t status)
{
    if (status != 0) {
        printf("%s: refused by %u\n", call, (unsigned)status);
        exit(1);
    }
}

int main(void)
{
    static const uint8_t uuid[16] = {0x5e, 0x9d, 0, 0, 0, 0, 0x40, 0, 0x80, 0, 0, 0, 0, 0, 0, 1};
    struct tevrulig_message message = tevrulig_message_of(0, sizeof store);
    struct tevrulig_sent sent;
    struct tevrulig_frame frame;
    struct tevrulig_receipt receipt;
    struct tevrulig_entry entry;
    struct tevrulig_message_id stored;
    uint32_t status;
    size_t at = 0;

    if (sizeof producer != tevrulig_producer_size()) {
        puts("the header is not that of the library");
        return 1;
    }
    memset(&producer, 0xa5, sizeof producer); /* what the memory held does not matter */
    tevrulig_new(&producer, 7);
    check("set_name", tevrulig_set_name(&producer, (const uint8_t *)"tariffs", 7));
    check("set_max_message_size", tevrulig_set_max_message_size(&producer, sizeof buffer));
    for (size_t i = 0; i < sizeof store; i++)
        store[i] = (uint8_t)(i * 31 >> 3);

    status = tevrulig_queue_send(&producer, store, sizeof store, &message, uuid, 1000, 1000, &sent);
    printf("chunking off: refused by %u, %zu bytes over %zu\n", (unsigned)status, sent.size, sent.max_message_size);
    check("set_chunking_enabled", tevrulig_set_chunking_enabled(&producer, 1));
    check("queue_send", tevrulig_queue_send(&producer, store, sizeof store, &message, uuid, 1000, 1000, &sent));
    printf("sent in %zu chunks, %zu frames wait\n", sent.count, tevrulig_outbound_len(&producer));

    while ((status = tevrulig_next_outbound_frame(&producer, store, sizeof store, buffer, sizeof buffer, &frame)) == 0) {
        printf("id %llu of %.*s, chunk %llu of %llu, %zu bytes %s\n", (unsigned long long)frame.command.sequence_id,
               (int)frame.metadata.producer_name.producer.len, (const char *)frame.metadata.producer_name.producer.bytes,
               (unsigned long long)frame.metadata.chunk_id.value, (unsigned long long)frame.metadata.num_chunks_from_msg.value,
               frame.payload_len, memcmp(buffer, store + at, frame.payload_len) == 0 ? "as stored" : "damaged");
        at += frame.payload_len;
    }
    printf("then refused by %u\n", (unsigned)status);

    memset(&receipt, 0, sizeof receipt);
    receipt.sequence_id = frame.command.sequence_id;
    receipt.message_id.ledger_id = 3;
    receipt.message_id.entry_id = 41;
    receipt.message_id.present = 1;
    check("apply_receipt", tevrulig_apply_receipt(&producer, &receipt, &entry, &stored));
    printf("settled id %llu, %u chunks, stored as %llu:%llu\n", (unsigned long long)entry.sequence_id,
           (unsigned)entry.publish.replay.total_chunks, (unsigned long long)stored.ledger_id, (unsigned long long)stored.entry_id);
    printf("a second receipt: refused by %u\n", (unsigned)tevrulig_apply_receipt(&producer, &receipt, &entry, &stored));
    return 0;
}
