/* A short session with an unpacked release: open, the response, a push that gives a delta. session.rs prints the same. */
#include <cuddrewyn_read.h>
#include <inttypes.h>
#include <stdio.h>
#include <string.h>

#define BYTES(text) (const uint8_t *)text, sizeof text - 1
#define TOPIC "topic://a/b/c"
/* Request 1, an empty list at epoch 2. */
#define RESPONSE "\x08\x01\x22\x02\x08\x02"
/* Consumer 7, epoch 3, segment 0 from 0000 to 7fff. */
#define PUSH "\x08\x07\x12\x29\x08\x03\x12\x25\x08\x00\x10\x00\x18\xff\xff\x01\x22\x1bsegment://a/b/c/0000-7fff-0"

static uint8_t store[CUDDREWYN_MIN_STORE], out[CUDDREWYN_MIN_OUTPUT];

/* Prints a delta; false where it is none. */
static bool show(const uint8_t *bytes, size_t length) {
    uint8_t name[CUDDREWYN_SEGMENT_TOPIC_ROOM(sizeof TOPIC - 1)];
    cuddrewyn_delta delta;
    cuddrewyn_segment segment;
    if (!cuddrewyn_read_delta(bytes, length, &delta)) {
        return false;
    }
    printf("update: epoch %" PRIu64 ", %zu lost, %zu gained\n", delta.epoch, delta.lost.count, delta.gained.count);
    while (cuddrewyn_next_segment(&delta.gained, &segment)) {
        cuddrewyn_reply named = cuddrewyn_segment_topic(BYTES(TOPIC), segment.start, segment.end, segment.id, name, sizeof name);
        printf("  attach %.*s\n", (int)named.first, (const char *)name);
    }
    return true;
}

int main(void) {
    if (cuddrewyn_abi() != CUDDREWYN_ABI || strcmp(cuddrewyn_version(), CUDDREWYN_VERSION) != 0) {
        return 1;
    }
    printf("cuddrewyn %s, calls of version %" PRIu32 "\n", cuddrewyn_version(), cuddrewyn_abi());
    cuddrewyn_session_reply opened = cuddrewyn_open(7, 1, BYTES(TOPIC), BYTES("uplink"), BYTES("station-1"), 0, store, sizeof store);
    cuddrewyn_record r = opened.state;
    cuddrewyn_reply got = opened.reply;
    if (got.answer == CUDDREWYN_ACCEPTED) {
        printf("open: accepted\n");
        got = cuddrewyn_response(&r, store, sizeof store, BYTES(RESPONSE), 1);
    }
    cuddrewyn_list list;
    if (got.answer == CUDDREWYN_ACCEPTED && cuddrewyn_read_list(store + CUDDREWYN_BASELINE, CUDDREWYN_SLOT, &list)) {
        printf("response: a list at epoch %" PRIu64 "\n", list.epoch);
        got = cuddrewyn_update(&r, store, sizeof store, BYTES(PUSH), 1, out, sizeof out);
    }
    if (got.answer != CUDDREWYN_DELTA) {
        printf("%s: %s\n", cuddrewyn_answer_name(got.answer), cuddrewyn_refusal_name(got.number));
        return 1;
    }
    return show(out, (size_t)got.first) ? 0 : 1;
}
