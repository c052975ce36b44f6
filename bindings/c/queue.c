/* The queue of a station with a store of 64 KiB: how many pushes of 90 bytes it takes, what the next one is answered, and where the lists lie.
 * Every value is checked; the exit status is 0 only where all are as expected. */
#include <stdlib.h>

#include "check.h"
#include "messages.h"

enum { STORE = 65536, LIST_SIZE = 90, ENTRY = CUDDREWYN_QUEUE_LENGTH + LIST_SIZE, ROOM = (STORE - CUDDREWYN_QUEUE) / ENTRY };

static const char TOPIC[] = "topic://a/b/c";
static uint8_t out[CUDDREWYN_MIN_OUTPUT];

/* An update of two segments with 13 buckets together, which is a list of 90 bytes. */
static message of_ninety(uint64_t epoch) {
    message first = segment_of(1, 0, 99, "segment://a/b/c/0000-0063-1");
    message second = segment_of(2, 100, 199, "segment://a/b/c/0064-00c7-2");
    for (int32_t value = 0; value < 13; value++) {
        put_bucket(&first, 2 * value, 2 * value);
    }
    message assignment = assignment_of(epoch, &first), m = {.length = 0};
    put_message(&assignment, 2, &second);
    put_number(&m, 1, 7);
    put_message(&m, 2, &assignment);
    return m;
}

static cuddrewyn_record opened(uint8_t *store, size_t length) {
    return cuddrewyn_open(7, 1, (const uint8_t *)TOPIC, strlen(TOPIC), (const uint8_t *)"", 0, (const uint8_t *)"", 0, 0, store, length).state;
}

/* Pushes until one is refused; gives how many were taken. */
static size_t fill(cuddrewyn_record *r, uint8_t *store, size_t length, const message *push, cuddrewyn_reply *refusal) {
    size_t count = 0;
    for (;; count++) {
        cuddrewyn_reply got = cuddrewyn_update(r, store, length, push->bytes, push->length, r->incarnation, out, sizeof out);
        if (got.answer != CUDDREWYN_UNCHANGED) {
            *refusal = got;
            return count;
        }
    }
}

/* 64 KiB take 645 pushes of 90 bytes; freed by begin, they take as many again. */
static void of_64_kib(void) {
    uint8_t *store = malloc(STORE);
    message push = of_ninety(5);
    cuddrewyn_record r = opened(store, STORE);
    cuddrewyn_reply full = {.answer = CUDDREWYN_REFUSED, .number = 28, .count = 1, .first = 645}, refusal;
    for (uint64_t incarnation = 2; incarnation < 4; incarnation++) {
        size_t count = fill(&r, store, STORE, &push, &refusal);
        printf("64 KiB: %zu pushes of %d bytes, then %d\n", count, LIST_SIZE, refusal.number);
        check_number(count, 645, "pushes of 90 bytes");
        check_number(ROOM, 645, "room for entries of 92 bytes");
        check_reply(refusal, full);
        check_bytes(store + CUDDREWYN_QUEUE, "\0\x5a\0\0\0\0\0\0\0\5\0\2", 12, "the first entry: its length, its epoch, its segments");
        check_bytes(store + CUDDREWYN_QUEUE + 644 * ENTRY, store + CUDDREWYN_QUEUE, ENTRY, "the last entry");
        cuddrewyn_begin(&r, incarnation);
    }
    message old = of_ninety(4);
    check_number(fill(&r, store, STORE, &old, &refusal), 645, "pushes of another epoch");
    message response = response_of(1, 4, NULL);
    cuddrewyn_response(&r, store, STORE, response.bytes, response.length, r.incarnation);
    check_reply(cuddrewyn_drain_for(&r, store, STORE, 0, out, sizeof out),
                (cuddrewyn_reply){.answer = CUDDREWYN_REPLAY, .count = 2, .first = 6146, .second = 92});
    check_reply(cuddrewyn_drain_for(&r, store, STORE, 0, out, sizeof out), (cuddrewyn_reply){.answer = CUDDREWYN_UNCHANGED});
    free(store);
}

/* A push that just fits is taken, and with a byte less it is not. */
static void just_fits(void) {
    message push = of_ninety(5);
    for (size_t room = ENTRY - 1; room <= ENTRY + 1; room++) {
        uint8_t *store = malloc(CUDDREWYN_QUEUE + room);
        cuddrewyn_record r = opened(store, CUDDREWYN_QUEUE + room);
        cuddrewyn_reply refusal;
        size_t count = fill(&r, store, CUDDREWYN_QUEUE + room, &push, &refusal);
        check_number(count, room >= ENTRY, "pushes that fit");
        check_reply(refusal, (cuddrewyn_reply){.answer = CUDDREWYN_REFUSED, .number = 28, .count = 1, .first = count});
        free(store);
    }
}

/* No more than 1,024, whatever the room. */
static void at_most_1024(void) {
    uint8_t *store = malloc(CUDDREWYN_MAX_STORE);
    message push = of_ninety(5);
    cuddrewyn_record r = opened(store, CUDDREWYN_MAX_STORE);
    cuddrewyn_reply refusal;
    check_number(fill(&r, store, CUDDREWYN_MAX_STORE, &push, &refusal), 1024, "pushes in all");
    check_reply(refusal, (cuddrewyn_reply){.answer = CUDDREWYN_REFUSED, .number = 28, .count = 1, .first = 1024});
    free(store);
}

int main(void) {
    of_64_kib();
    just_fits();
    at_most_1024();
    return close_checks("queue");
}
