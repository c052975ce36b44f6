/* A session saved and restored. Every bit of the form is turned, and the form is cut at every length: each is refused with 64. With an argument only
 * some of the bits are turned, for a run that is slower. Every value is checked; the exit status is 0 only where all are as expected. */
#include <stdlib.h>

#include "check.h"
#include "messages.h"

enum { STORE = 8192, SHORT = 6144 };

static const char TOPIC[] = "topic://a/b/c";
static uint8_t store[STORE], form[CUDDREWYN_SAVED_HEAD + STORE], out[CUDDREWYN_MIN_OUTPUT];

/* CRC-32 as RFC 1952 has it, bit by bit. */
static uint32_t crc_of(const uint8_t *bytes, size_t length) {
    uint32_t c = 0xffffffffu;
    for (size_t i = 0; i < length; i++) {
        c ^= bytes[i];
        for (int bit = 0; bit < 8; bit++) {
            c = c & 1 ? 0xedb88320u ^ (c >> 1) : c >> 1;
        }
    }
    return c ^ 0xffffffffu;
}

static uint64_t number_at(const uint8_t *bytes, size_t width) {
    uint64_t value = 0;
    for (size_t i = 0; i < width; i++) {
        value = value << 8 | bytes[i];
    }
    return value;
}

static void put_sum(uint8_t *bytes, size_t length) {
    uint32_t sum = crc_of(bytes, length - 4);
    for (size_t i = 0; i < 4; i++) {
        bytes[length - 4 + i] = (uint8_t)(sum >> (24 - 8 * i));
    }
}

static cuddrewyn_reply refusal(uint8_t number) {
    return (cuddrewyn_reply){.answer = CUDDREWYN_REFUSED, .number = number};
}

/* A session with three pushes that wait, of which reader 2 has drained one; link 4, floor 3. */
static cuddrewyn_record session_of(uint8_t *into, size_t length) {
    message segment = segment_of(1, 0, 99, "segment://a/b/c/0000-0063-1");
    cuddrewyn_record r =
        cuddrewyn_open(7, 4, (const uint8_t *)TOPIC, strlen(TOPIC), (const uint8_t *)"sub", 3, (const uint8_t *)"n", 1, 0, into, length).state;
    for (uint64_t epoch = 1; epoch <= 3; epoch++) {
        message push = update_of(7, epoch, epoch == 2 ? NULL : &segment);
        cuddrewyn_update(&r, into, length, push.bytes, push.length, 4, out, sizeof out);
    }
    message response = response_of(1, 1, NULL);
    check_number(cuddrewyn_response(&r, into, length, response.bytes, response.length, 4).answer, CUDDREWYN_ACCEPTED, "the response");
    check_number(cuddrewyn_drain_for(&r, into, length, 2, out, sizeof out).answer, CUDDREWYN_REPLAY, "a replay");
    return r;
}

/* The form as docs/SAVING.md has it. */
static void laid_out(cuddrewyn_record r, size_t length) {
    check_bytes(form, "CUD1", 4, "the mark");
    check_number(number_at(form + 4, 4), length, "the length");
    check_number(number_at(form + 8, 8), r.consumer_id, "the consumer");
    check_number(number_at(form + 16, 8), r.incarnation, "the link");
    check_number(number_at(form + 24, 8), r.epoch_floor, "the floor");
    check_number(number_at(form + 32, 8), r.queue_count, "the queue's count");
    for (size_t reader = 0; reader < CUDDREWYN_READERS; reader++) {
        check_number(number_at(form + 40 + 8 * reader, 8), r.drain_positions[reader], "a position");
    }
    check_number(form[104], r.has_floor, "whether there is a floor");
    check_number(form[105], r.registered, "registered");
    check_number(form[106], r.invalidated, "invalidated");
    check_bytes(form + 107, store, length - CUDDREWYN_SAVED_HEAD, "the store's front");
    check_number(number_at(form + length - 4, 4), crc_of(form, length - 4), "the checksum");
}

/* Restored into a store of any length that holds it: the same session, which saves to the same bytes, and goes on. */
static void restored(cuddrewyn_record r, size_t length) {
    size_t part = length - CUDDREWYN_SAVED_HEAD, lengths[] = {part, part + 1, STORE};
    for (size_t i = 0; i < 3; i++) {
        uint8_t *into = malloc(lengths[i]), *again = malloc(length);
        memset(into, 0xa5, lengths[i]);
        cuddrewyn_session_reply got = cuddrewyn_restore(form, length, into, lengths[i]);
        check_reply(got.reply, (cuddrewyn_reply){.answer = CUDDREWYN_ACCEPTED});
        check_record(got.state, r);
        check_bytes(into, store, part, "the part");
        for (size_t at = part; at < lengths[i]; at++) {
            check_number(into[at], 0xa5, "a byte behind the part");
        }
        check_reply(cuddrewyn_save(got.state, into, lengths[i], again, length),
                    (cuddrewyn_reply){.answer = CUDDREWYN_WRITTEN, .count = 1, .first = length});
        check_bytes(again, form, length, "the form again");
        check_number(cuddrewyn_drain_for(&got.state, into, lengths[i], 2, out, sizeof out).answer, CUDDREWYN_REPLAY, "the next replay");
        free(into);
        free(again);
    }
}

/* A refusal leaves the store. */
static void refused(const uint8_t *bytes, size_t length, uint8_t *into, size_t into_length, uint8_t number) {
    static const uint8_t zeros[STORE];
    memset(into, 0, into_length);
    check_reply(cuddrewyn_restore(bytes, length, into, into_length).reply, refusal(number));
    check_bytes(into, zeros, into_length, "the store behind a refusal");
}

/* Each byte is tested at once, by a count: as many as there are would fill the screen. */
static void every_bit(size_t length, size_t step) {
    uint8_t *into = malloc(STORE);
    size_t wrong = 0;
    for (size_t bit = 0; bit < 8 * length; bit += step) {
        form[bit / 8] ^= (uint8_t)(1u << bit % 8);
        cuddrewyn_reply got = cuddrewyn_restore(form, length, into, STORE).reply;
        wrong += got.answer != CUDDREWYN_REFUSED || got.number != CUDDREWYN_MALFORMED_SAVE;
        form[bit / 8] ^= (uint8_t)(1u << bit % 8);
    }
    check_number(wrong, 0, "bits turned that were not refused with 64");
    wrong = 0;
    for (size_t cut = 0; cut < length; cut++) {
        cuddrewyn_reply got = cuddrewyn_restore(form, cut, into, STORE).reply;
        wrong += got.answer != CUDDREWYN_REFUSED || got.number != CUDDREWYN_MALFORMED_SAVE;
    }
    check_number(wrong, 0, "cuts that were not refused with 64");
    refused(form, length + 1, into, STORE, CUDDREWYN_MALFORMED_SAVE);
    free(into);
}

/* What is refused besides. */
static void refusals(cuddrewyn_record r, size_t length) {
    size_t part = length - CUDDREWYN_SAVED_HEAD;
    uint8_t *into = malloc(STORE), *copy = malloc(length);
    memset(copy, 0xa5, length);
    check_reply(cuddrewyn_save(r, store, STORE, copy, length - 1), refusal(CUDDREWYN_RESULT_TOO_LONG));
    check_number(copy[0], 0xa5, "the output behind a refusal");
    check_reply(cuddrewyn_save(r, store, SHORT - 1, copy, length), refusal(CUDDREWYN_STORE_TOO_SHORT));
    check_reply(cuddrewyn_save(r, store, SHORT, copy, length), refusal(CUDDREWYN_MALFORMED_STORE));
    refused(form, length, into, part - 1, CUDDREWYN_STORE_TOO_SHORT);
    /* a form whose checksum holds, of a session that is damaged */
    memcpy(copy, form, length);
    copy[39] = 4;
    put_sum(copy, length);
    refused(copy, length, into, STORE, CUDDREWYN_MALFORMED_STORE);
    free(into);
    free(copy);
}

int main(int argc, char **argv) {
    (void)argv;
    cuddrewyn_record r = session_of(store, STORE);
    cuddrewyn_reply written = cuddrewyn_save(r, store, STORE, form, sizeof form);
    size_t length = (size_t)written.first;
    check_number(written.answer, CUDDREWYN_WRITTEN, "the save");
    laid_out(r, length);
    restored(r, length);
    every_bit(length, argc > 1 ? 331 : 1);
    refusals(r, length);
    printf("a session of %zu bytes\n", length);
    return close_checks("save");
}
