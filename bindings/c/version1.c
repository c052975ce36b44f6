/* A caller as version 1 of the header made it, with one drain position in the record: it must not link. */
#include <stdbool.h>
#include <stddef.h>
#include <stdint.h>

typedef struct {
    uint64_t consumer_id, incarnation, epoch_floor;
    size_t queue_count, drain_position;
    bool has_floor, registered, invalidated;
} record;

typedef struct {
    record state;
    uint8_t answer, number, count;
    uint64_t values[4];
} session_reply;

session_reply cuddrewyn_invalidate(record r);
session_reply cuddrewyn_drain(record r, const uint8_t *store, size_t store_len, uint8_t *out, size_t out_len);

int main(void) {
    static uint8_t store[6144], out[3210];
    return cuddrewyn_drain(cuddrewyn_invalidate((record){0}).state, store, sizeof store, out, sizeof out).answer;
}
