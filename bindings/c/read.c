/* The readers of cuddrewyn_read.h against what the library writes: lists in a store, deltas, the watch's output and
 * set; then the same bytes cut short, and others. Every value is checked. fuzz.c holds the readers to the library over
 * hostile bytes. */
#include <stdlib.h>

#include "check.h"
#include "cuddrewyn_read.h"
#include "messages.h"

static const char TOPIC[] = "topic://a/b/c";
static uint8_t store[CUDDREWYN_STORE_ROOM(4, 256)], out[CUDDREWYN_MIN_OUTPUT];
static cuddrewyn_record r;

/* Segment 1, with two buckets, and segment 2^64 - 1. */
static message of_two(uint64_t epoch) {
    message first = segment_of(1, 0x1000, 0x1fff, "segment://a/b/c/1000-1fff-1");
    message second = segment_of(UINT64_MAX, 0, 0xffff, "segment://a/b/c/0000-ffff-18446744073709551615");
    put_bucket(&first, 0x1800, 0x1fff);
    put_bucket(&first, 0x1000, 0x1001);
    message assignment = assignment_of(epoch, &first), m = {.length = 0};
    put_message(&assignment, 2, &second);
    put_number(&m, 1, 7);
    put_message(&m, 2, &assignment);
    return m;
}

static cuddrewyn_reply push(const message *m) {
    return cuddrewyn_update(&r, store, sizeof store, m->bytes, m->length, r.incarnation, out, sizeof out);
}

static void check_segment(cuddrewyn_items *segments, uint64_t id, uint16_t start, uint16_t end, size_t buckets,
                          cuddrewyn_segment *segment) {
    check(cuddrewyn_next_segment(segments, segment), "a segment");
    check_number(segment->id, id, "its id");
    check_number(segment->start, start, "its start");
    check_number(segment->end, end, "its end");
    check_number(segment->buckets.count, buckets, "its buckets");
    check_number(segment->record_len, CUDDREWYN_LIST_SIZE(1, buckets) - CUDDREWYN_LIST_SIZE(0, 0), "its record");
}

static void check_bucket(cuddrewyn_items *buckets, uint16_t start, uint16_t end) {
    cuddrewyn_range bucket;
    check(cuddrewyn_next_bucket(buckets, &bucket), "a bucket");
    check_number(bucket.start, start, "its start");
    check_number(bucket.end, end, "its end");
}

/* Both segments, and nothing behind them. */
static void check_two(cuddrewyn_items segments) {
    cuddrewyn_segment segment;
    cuddrewyn_range bucket;
    check_number(segments.count, 2, "segments");
    check_segment(&segments, 1, 0x1000, 0x1fff, 2, &segment);
    check_reply(cuddrewyn_charge(segment.record, segment.record_len, 1, CUDDREWYN_DIVISOR, 0),
                (cuddrewyn_reply){.answer = CUDDREWYN_FOUND, .count = 2, .first = 0x802});
    check_bucket(&segment.buckets, 0x1800, 0x1fff);
    check_bucket(&segment.buckets, 0x1000, 0x1001);
    check(!cuddrewyn_next_bucket(&segment.buckets, &bucket), "the end of the buckets");
    check_segment(&segments, UINT64_MAX, 0, 0xffff, 0, &segment);
    check(!cuddrewyn_next_bucket(&segment.buckets, &bucket), "no buckets");
    check(!cuddrewyn_next_segment(&segments, &segment) && segments.count == 0 && segments.length == 0,
          "the end of the segments");
}

/* Copies of just their length, so that a byte read behind them is found: each shorter one is no list and no delta. */
static void cut_short(const uint8_t *bytes, size_t length, size_t (*length_of)(const uint8_t *, size_t),
                      const char *what) {
    for (size_t shorter = 0; shorter <= length; shorter++) {
        uint8_t *copy = malloc(shorter + 1);
        uint8_t *exact = copy ? realloc(copy, shorter > 0 ? shorter : 1) : NULL;
        if (!exact) {
            exit(2);
        }
        memcpy(exact, bytes, shorter);
        check_number(length_of(exact, shorter), shorter < length ? 0 : length, what);
        free(exact);
    }
    check_number(length_of(NULL, 0), 0, what);
}

/* The list held, after a response without segments and a push of two; then the push that loses one and alters the
 * other. */
static void lists(void) {
    message empty = response_of(1, 2, NULL), two = of_two(3);
    message altered = segment_of(1, 0x1000, 0x1fff, "segment://a/b/c/1000-1fff-1"), less = update_of(7, 4, &altered);
    cuddrewyn_list list;
    cuddrewyn_delta delta;
    cuddrewyn_segment segment;
    uint64_t id;
    r = cuddrewyn_open(7, 1, cuddrewyn_bytes(TOPIC, strlen(TOPIC)), strlen(TOPIC), cuddrewyn_bytes(NULL, 0), 0,
                       cuddrewyn_bytes(NULL, 0), 0, 0, store, sizeof store)
            .state;
    cuddrewyn_response(&r, store, sizeof store, empty.bytes, empty.length, 1);
    check(cuddrewyn_read_list(store + CUDDREWYN_LIST, CUDDREWYN_SLOT, &list), "the empty list");
    check_number(list.epoch, 2, "its epoch");
    check_number(list.length, CUDDREWYN_LIST_SIZE(0, 0), "its length");
    check(!cuddrewyn_next_segment(&list.segments, &segment), "no segments");

    cuddrewyn_reply got = push(&two);
    check(got.answer == CUDDREWYN_DELTA && cuddrewyn_read_delta(out, (size_t)got.first, &delta), "the delta");
    check_number(delta.epoch, 3, "its epoch");
    check_number(delta.length, got.first, "its length");
    check_number(delta.length, CUDDREWYN_DELTA_SIZE(0, 2, 2), "its size");
    check(!cuddrewyn_next_id(&delta.lost, &id), "no lost ids");
    check_two(delta.gained);
    check(cuddrewyn_read_list(store + CUDDREWYN_LIST, CUDDREWYN_SLOT, &list), "the list");
    check_number(list.length, CUDDREWYN_LIST_SIZE(2, 2), "its length");
    check_number(list.epoch, 3, "its epoch");
    check_two(list.segments);
    cut_short(store + CUDDREWYN_LIST, list.length, cuddrewyn_list_length, "a list cut short");
    cut_short(out, (size_t)got.first, cuddrewyn_delta_length, "a delta cut short");

    got = push(&less);
    check(got.answer == CUDDREWYN_DELTA && cuddrewyn_read_delta(out, (size_t)got.first, &delta), "the next delta");
    check_number(delta.lost.count, 2, "lost ids");
    check(cuddrewyn_next_id(&delta.lost, &id) && id == 1, "the altered id");
    check(cuddrewyn_next_id(&delta.lost, &id) && id == UINT64_MAX, "the lost id");
    check(!cuddrewyn_next_id(&delta.lost, &id), "the end of the lost ids");
    check_segment(&delta.gained, 1, 0x1000, 0x1fff, 0, &segment);
    cut_short(out, (size_t)got.first, cuddrewyn_delta_length, "a delta with lost ids cut short");
}

/* The list that a push before the response left in the queue. */
static void replay(void) {
    message two = of_two(9), empty = response_of(1, 5, NULL);
    cuddrewyn_list list;
    cuddrewyn_begin(&r, 2);
    push(&two);
    cuddrewyn_response(&r, store, sizeof store, empty.bytes, empty.length, 2);
    cuddrewyn_reply got = cuddrewyn_drain_for(&r, store, sizeof store, 0, out, sizeof out);
    check(got.answer == CUDDREWYN_REPLAY &&
              cuddrewyn_read_list(store + got.first, sizeof store - (size_t)got.first, &list),
          "the list replayed");
    check_number(list.epoch, 9, "its epoch");
    check_two(list.segments);
}

/* Apply and join, by their results' readers; a list of more than a slot is none. */
static void results(void) {
    static uint8_t longer[CUDDREWYN_LIST_SIZE(146, 0)];
    static const uint8_t gain[] = {[7] = 4, [11] = 1, [19] = 8, [23] = 9}, lose[] = {[7] = 5, [9] = 1, [19] = 8};
    cuddrewyn_list list;
    cuddrewyn_delta delta;
    uint64_t id;
    size_t held = cuddrewyn_list_length(store + CUDDREWYN_LIST, CUDDREWYN_SLOT);
    cuddrewyn_reply got = cuddrewyn_apply(store + CUDDREWYN_LIST, held, gain, 26, out, sizeof out);
    check(got.answer == CUDDREWYN_WRITTEN && cuddrewyn_read_list(out, (size_t)got.first, &list), "the list applied");
    check_number(list.segments.count, 3, "segments applied");
    got = cuddrewyn_join(gain, 26, lose, sizeof lose, out, sizeof out);
    check(got.answer == CUDDREWYN_WRITTEN && cuddrewyn_read_delta(out, (size_t)got.first, &delta), "the delta joined");
    check_number(delta.length, got.first, "its length");
    check(cuddrewyn_next_id(&delta.lost, &id) && id == 8 && delta.gained.count == 0, "the id lost");

    for (size_t i = 0; i < 146; i++) {
        longer[10 + 14 * i + 7] = (uint8_t)i;
    }
    longer[9] = 145;
    check_number(cuddrewyn_list_length(longer, sizeof longer), CUDDREWYN_LIST_SIZE(145, 0), "the longest list");
    check_reply(cuddrewyn_key_in_segment(longer, CUDDREWYN_LIST_SIZE(145, 0), 146),
                (cuddrewyn_reply){.answer = CUDDREWYN_NO});
    longer[9] = 146;
    check_number(cuddrewyn_list_length(longer, sizeof longer), 0, "a list above a slot");
    check_number(cuddrewyn_key_in_segment(longer, sizeof longer, 0).number, CUDDREWYN_MALFORMED_INPUT,
                 "a list above a slot, lent");
}

static void check_topic(cuddrewyn_items *topics, const char *text) {
    cuddrewyn_topic topic;
    check(cuddrewyn_next_topic(topics, &topic), "a topic");
    check_number(topic.length, strlen(text), "its length");
    check(topic.length == strlen(text) && memcmp(topic.bytes, text, topic.length) == 0, text);
}

static size_t topics_length(const uint8_t *bytes, size_t length) {
    cuddrewyn_topics topics;
    return cuddrewyn_read_topics(bytes, length, &topics) ? length : 0;
}

static void topics(void) {
    static uint8_t buffer[64];
    message snapshot = {.length = 0}, diff = {.length = 0};
    cuddrewyn_topics read;
    cuddrewyn_items set;
    cuddrewyn_topic topic;
    put_part(&snapshot, 1, "b", 1);
    put_part(&snapshot, 1, "", 0);
    put_part(&diff, 1, "long", 4);
    put_part(&diff, 2, "b", 1);
    message first = watch_update_of(5, 2, &snapshot), second = watch_update_of(5, 3, &diff);
    cuddrewyn_reply got = cuddrewyn_watch(5, buffer, sizeof buffer, 0, first.bytes, first.length, out, sizeof out);
    check(cuddrewyn_read_topics(out, (size_t)got.second, &read) && !read.is_diff, "a snapshot");
    check_number(read.added.count, 2, "its topics");
    check_topic(&read.added, "");
    check_topic(&read.added, "b");
    check(!cuddrewyn_next_topic(&read.added, &topic) && !cuddrewyn_next_topic(&read.removed, &topic),
          "the snapshot's end");
    check(cuddrewyn_read_set(buffer, (size_t)got.first, &set) && set.count == 2, "the set");
    check(!cuddrewyn_read_set(buffer, (size_t)got.first - 1, &set), "the set cut short");

    got = cuddrewyn_watch(5, buffer, sizeof buffer, (size_t)got.first, second.bytes, second.length, out, sizeof out);
    check(cuddrewyn_read_topics(out, (size_t)got.second, &read) && read.is_diff, "a diff");
    check_topic(&read.added, "long");
    check_topic(&read.removed, "b");
    check(!cuddrewyn_next_topic(&read.added, &topic) && !cuddrewyn_next_topic(&read.removed, &topic), "the diff's end");
    check_number(topics_length(out, 5), 0, "a diff without its added list");
    check_number(topics_length(out, 11), 11, "a diff without its removed list");
    check_number(topics_length(out, (size_t)got.second - 1), 0, "a diff cut short");
    check_number(topics_length(NULL, 0), 0, "no output");
    out[0] = 2;
    check_number(topics_length(out, (size_t)got.second), 0, "neither a snapshot nor a diff");
}

int main(void) {
    lists();
    replay();
    results();
    topics();
    return close_checks("read");
}
