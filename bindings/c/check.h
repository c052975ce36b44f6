/* Checks that count what is not as expected. */
#ifndef CHECK_H
#define CHECK_H

#include <inttypes.h>
#include <stdio.h>
#include <string.h>

#include "cuddrewyn.h"

static int checks = 0;
static int faults = 0;

static inline void check(bool holds, const char *what) {
    checks++;
    if (!holds) {
        faults++;
        printf("WRONG: %s\n", what);
    }
}

static inline void check_number(uint64_t got, uint64_t expected, const char *what) {
    checks++;
    if (got != expected) {
        faults++;
        printf("WRONG: %s is %" PRIu64 ", expected %" PRIu64 "\n", what, got, expected);
    }
}

/* All fields of a reply. */
static inline void check_reply(cuddrewyn_reply got, cuddrewyn_reply expected) {
    check_number(got.answer, expected.answer, "answer");
    check_number(got.number, expected.number, "number");
    check_number(got.count, expected.count, "count");
    check_number(got.first, expected.first, "first");
    check_number(got.second, expected.second, "second");
    check_number(got.third, expected.third, "third");
    check_number(got.fourth, expected.fourth, "fourth");
}

/* All fields of a record. */
static inline void check_record(cuddrewyn_record got, cuddrewyn_record expected) {
    check_number(got.consumer_id, expected.consumer_id, "consumer_id");
    check_number(got.incarnation, expected.incarnation, "incarnation");
    check_number(got.epoch_floor, expected.epoch_floor, "epoch_floor");
    check_number(got.queue_count, expected.queue_count, "queue_count");
    for (size_t reader = 0; reader < CUDDREWYN_READERS; reader++)
        check_number(got.drain_positions[reader], expected.drain_positions[reader], "drain_positions");
    check_number(got.has_floor, expected.has_floor, "has_floor");
    check_number(got.registered, expected.registered, "registered");
    check_number(got.invalidated, expected.invalidated, "invalidated");
}

static inline void check_bytes(const void *got, const void *expected, size_t length, const char *what) {
    check(memcmp(got, expected, length) == 0, what);
}

/* Says how many checks were made; the exit status of main. */
static inline int close_checks(const char *name) {
    printf("%s: %d checks, %d wrong\n", name, checks, faults);
    return faults == 0 ? 0 : 1;
}

#endif
