/* The topics watch: a snapshot, a diff, events that come again, and what is refused. Every value is checked. */
#include "check.h"
#include "messages.h"

static uint8_t buffer[16];
static uint8_t out[32];

static cuddrewyn_reply watch(size_t used, const message *m) {
    return cuddrewyn_watch(5, buffer, sizeof buffer, used, m->bytes, m->length, out, sizeof out);
}

static void put_topic(message *event, uint64_t field, const char *topic) {
    put_part(event, field, topic, strlen(topic));
}

/* Checks set and output, and gives the set's length. */
static size_t written(cuddrewyn_reply got, const void *set, size_t set_len, const void *output, size_t output_len) {
    check_reply(got, (cuddrewyn_reply){.answer = CUDDREWYN_WRITTEN, .count = 2, .first = set_len, .second = output_len});
    check_bytes(buffer, set, set_len, "the set");
    check_bytes(out, output, output_len, "the output");
    check(buffer[set_len] == 0xaa && out[output_len] == 0xaa, "the bytes behind");
    return set_len;
}

/* The set "a", "b"; then "b" goes and "c" comes. */
static size_t taken(void) {
    message snapshot = {.length = 0}, diff = {.length = 0};
    put_topic(&snapshot, 1, "b");
    put_topic(&snapshot, 1, "a");
    put_topic(&diff, 1, "c");
    put_topic(&diff, 2, "b");
    message first = watch_update_of(5, 2, &snapshot), second = watch_update_of(5, 3, &diff);
    size_t used = written(watch(0, &first), "\0\1a\0\1b", 6, "\0\0\1a\0\1b", 7);
    memset(out, 0xaa, sizeof out);
    return written(watch(used, &second), "\0\1a\0\1c", 6, "\1\0\0\0\3\0\1c\0\1b", 11);
}

/* A diff that a snapshot replaces, and a second snapshot, which is merged with the first: "a" and "c" again. */
static size_t again(size_t used) {
    message diff = {.length = 0}, first = {.length = 0}, second = {.length = 0};
    put_topic(&diff, 2, "a");
    put_topic(&first, 1, "c");
    put_topic(&second, 1, "a");
    message events = watch_update_of(5, 3, &diff);
    put_message(&events, 2, &first);
    put_message(&events, 2, &second);
    memset(out, 0xaa, sizeof out);
    return written(watch(used, &events), "\0\1a\0\1c", 6, "\0\0\1a\0\1c", 7);
}

static void check_refused(size_t used, const message *m, uint8_t number, uint8_t count, uint64_t first, uint64_t second) {
    check_reply(watch(used, m),
                (cuddrewyn_reply){.answer = CUDDREWYN_REFUSED, .number = number, .count = count, .first = first, .second = second});
}

static void refused(size_t used) {
    message event = {.length = 0}, no = {.length = 0}, empty = {.length = 0};
    message other = watch_update_of(6, 2, &event);
    put_topic(&event, 1, "123456789012345");
    message longer = watch_update_of(5, 2, &event);
    put_number(&empty, 1, 5);
    put_number(&no, 1, 5);
    put_number(&no, 4, (uint64_t)-3);
    put_part(&no, 5, "moved", 5);
    memset(out, 0xaa, sizeof out);
    check_refused(used - 1, &empty, CUDDREWYN_MALFORMED_SET, 0, 0, 0);
    check_refused(sizeof buffer + 1, &empty, CUDDREWYN_MALFORMED_SET, 0, 0, 0);
    check_refused(used, &other, CUDDREWYN_WATCH_MISMATCH, 2, 6, 5);
    check_refused(used, &empty, CUDDREWYN_EMPTY, 1, 5, 0);
    check_refused(used, &longer, CUDDREWYN_SET_TOO_LONG, 0, 0, 0);
    check_refused(used, &no, CUDDREWYN_BROKER, 1, (uint64_t)-3, 0);
    check_bytes(buffer, "\0\1a\0\1c\xaa", 7, "the set after refusals");
    check(out[0] == 0xaa, "the output after refusals");

    cuddrewyn_part text = cuddrewyn_watch_text(no.bytes, no.length);
    check_number(text.length, 5, "the text's length");
    check(text.start <= no.length && text.length <= no.length - text.start, "the text inside the message");
    check_bytes(no.bytes + text.start, "moved", 5, "the broker's text");
    check_number(cuddrewyn_watch_text(empty.bytes, empty.length).length, 0, "the length of no text");
}

int main(void) {
    memset(buffer, 0xaa, sizeof buffer);
    memset(out, 0xaa, sizeof out);
    refused(again(taken()));
    return close_checks("watch");
}
