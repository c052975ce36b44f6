// A session, the memory that it is lent, and its calls. The header's session calls are made here and nowhere else in bench/: how a record is lent, and what is
// kept of an answer, is known to this file alone.
#ifndef BENCH_CALLS_H
#define BENCH_CALLS_H
#include <string.h>

#include "../bindings/c/cuddrewyn.h"

static uint8_t store[CUDDREWYN_MAX_STORE];
static cuddrewyn_record record;
static int refused;

static cuddrewyn_reply told(cuddrewyn_reply reply) {
    refused += reply.answer == CUDDREWYN_REFUSED;
    return reply;
}

static cuddrewyn_reply call_open(const char *topic) {
    const uint8_t *s = (const uint8_t *)"s", *n = (const uint8_t *)"n";
    cuddrewyn_session_reply opened = cuddrewyn_open(7, 1, (const uint8_t *)topic, strlen(topic), s, 1, n, 1, 0, store, sizeof store);
    record = opened.state;
    return told(opened.reply);
}

static cuddrewyn_reply call_begin(uint64_t link) { return told(cuddrewyn_begin(&record, link)); }

static cuddrewyn_reply call_update(const uint8_t *message, size_t length, uint64_t link, uint8_t *out) {
    return told(cuddrewyn_update(&record, store, sizeof store, message, length, link, out, CUDDREWYN_MIN_OUTPUT));
}

static cuddrewyn_reply call_response(const uint8_t *message, size_t length) {
    return told(cuddrewyn_response(&record, store, sizeof store, message, length, record.incarnation));
}

static cuddrewyn_reply call_drain(size_t reader, uint8_t *out) {
    return told(cuddrewyn_drain_for(&record, store, sizeof store, reader, out, CUDDREWYN_MIN_OUTPUT));
}

#endif
