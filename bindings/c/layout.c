/* The header's structs and calls against the archive: sizes and offsets, that every field of every struct arrives where it belongs, and a call
 * at least of each function that example.c and watch.c do not call. */
#include <stdlib.h>

#include "check.h"
#include "messages.h"

#define PLACE(type, field, at) _Static_assert(offsetof(type, field) == (at), #type "." #field)

_Static_assert(sizeof(cuddrewyn_record) == 104 && CUDDREWYN_RECORD_SIZE == 104, "size of a record");
PLACE(cuddrewyn_record, consumer_id, 0);
PLACE(cuddrewyn_record, incarnation, 8);
PLACE(cuddrewyn_record, epoch_floor, 16);
PLACE(cuddrewyn_record, queue_count, 24);
PLACE(cuddrewyn_record, drain_positions, 32);
PLACE(cuddrewyn_record, drain_positions[7], 88);
PLACE(cuddrewyn_record, has_floor, 96);
PLACE(cuddrewyn_record, registered, 97);
PLACE(cuddrewyn_record, invalidated, 98);
_Static_assert(sizeof(cuddrewyn_reply) == 40 && CUDDREWYN_REPLY_SIZE == 40, "size of a reply");
PLACE(cuddrewyn_reply, answer, 0);
PLACE(cuddrewyn_reply, number, 1);
PLACE(cuddrewyn_reply, count, 2);
PLACE(cuddrewyn_reply, first, 8);
PLACE(cuddrewyn_reply, second, 16);
PLACE(cuddrewyn_reply, third, 24);
PLACE(cuddrewyn_reply, fourth, 32);
_Static_assert(sizeof(cuddrewyn_session_reply) == 144 && CUDDREWYN_SESSION_REPLY_SIZE == 144, "size of a session's reply");
PLACE(cuddrewyn_session_reply, state, 0);
PLACE(cuddrewyn_session_reply, reply, 104);
_Static_assert(sizeof(cuddrewyn_part) == 16 && CUDDREWYN_PART_SIZE == 16, "size of a part");
PLACE(cuddrewyn_part, start, 0);
PLACE(cuddrewyn_part, length, 8);
_Static_assert(CUDDREWYN_FULL_STORE == CUDDREWYN_QUEUE + 1024 * (CUDDREWYN_QUEUE_LENGTH + 2046), "the full store");
_Static_assert(CUDDREWYN_MAX_STORE == CUDDREWYN_QUEUE + 1024 * (CUDDREWYN_QUEUE_LENGTH + CUDDREWYN_SLOT), "the longest store");

static const uint8_t TOPIC[] = "topic://a/b/c";
enum { TOPIC_LEN = sizeof TOPIC - 1, STORE = CUDDREWYN_MIN_STORE, OUT = CUDDREWYN_MIN_OUTPUT };

/* From the heap, each just as long as it is said to be, so that valgrind sees a byte read or written beside them. */
static uint8_t *store, *out;

static uint8_t *lend(size_t length) {
    uint8_t *bytes = calloc(length, 1);
    if (!bytes) {
        puts("no memory");
        exit(2);
    }
    return bytes;
}

static cuddrewyn_reply refused(uint8_t number, uint8_t count, uint64_t first, uint64_t second, uint64_t third, uint64_t fourth) {
    return (cuddrewyn_reply){.answer = CUDDREWYN_REFUSED,
                             .number = number,
                             .count = count,
                             .first = first,
                             .second = second,
                             .third = third,
                             .fourth = fourth};
}

static cuddrewyn_reply plain(uint8_t answer) {
    return (cuddrewyn_reply){.answer = answer};
}

static cuddrewyn_reply one(uint8_t answer, uint64_t first) {
    return (cuddrewyn_reply){.answer = answer, .count = 1, .first = first};
}

static cuddrewyn_reply two(uint8_t answer, uint64_t first, uint64_t second) {
    return (cuddrewyn_reply){.answer = answer, .count = 2, .first = first, .second = second};
}

static cuddrewyn_reply four(uint8_t answer, const uint8_t *bytes) {
    return (cuddrewyn_reply){.answer = answer,
                             .count = 4,
                             .first = bytes[0],
                             .second = bytes[1],
                             .third = bytes[2],
                             .fourth = bytes[3]};
}

/* A refused begin leaves the record, whatever the bytes of its flags; an invalidation writes it: each number of its own, each flag by itself, as 1 or 0. */
static void records(void) {
    for (int flags = 0; flags < 8; flags++) {
        cuddrewyn_record given = {.consumer_id = 0x0102030405060708,
                                  .incarnation = 0x1112131415161718,
                                  .epoch_floor = 0x2122232425262728,
                                  .queue_count = 0x3132333435363738,
                                  .has_floor = flags & 1 ? 0x80 : 0,
                                  .registered = flags & 2,
                                  .invalidated = flags & 4 ? 0xff : 0};
        for (size_t reader = 0; reader < CUDDREWYN_READERS; reader++)
            given.drain_positions[reader] = 0x4142434445464748 + reader;
        cuddrewyn_record r = given;
        check_reply(cuddrewyn_begin(&r, 5), refused(25, 2, 5, given.incarnation, 0, 0));
        check_record(r, given);

        check_reply(cuddrewyn_invalidate(&r), plain(CUDDREWYN_ACCEPTED));
        given.has_floor = flags & 1;
        given.epoch_floor = flags & 1 ? given.epoch_floor : 0;
        given.queue_count = 0;
        memset(given.drain_positions, 0, sizeof given.drain_positions);
        given.registered = 0;
        given.invalidated = 1;
        check_record(r, given);
    }
}

static cuddrewyn_record open(void) {
    return cuddrewyn_open(7, 1, TOPIC, TOPIC_LEN, TOPIC, 0, TOPIC, 0, 1, store, STORE).state;
}

/* An update whose message has memory of just its length. */
static cuddrewyn_reply update(cuddrewyn_record *r, const message *m, uint64_t incarnation) {
    uint8_t *bytes = lend(m->length);
    memcpy(bytes, m->bytes, m->length);
    cuddrewyn_reply got = cuddrewyn_update(r, store, STORE, bytes, m->length, incarnation, out, OUT);
    free(bytes);
    return got;
}

/* A bad bucket attaches four values, two of them negative; one outside its segment's range, two; a push without room, how many are queued. */
static void replies(void) {
    message segment = segment_of(0x0102030405060708, 0, 9, "x");
    put_bucket(&segment, 0, 1);
    put_bucket(&segment, -2, INT32_MIN);
    message outside = segment_of(0x0102030405060708, 2, 9, "x");
    put_bucket(&outside, 2, 9);
    put_bucket(&outside, 0, 1);
    message bad = update_of(7, 1, &segment), wide = update_of(7, 1, &outside), full = update_of(7, 1, NULL);
    cuddrewyn_record r = open(), opened = r;
    check_reply(update(&r, &bad, 1), refused(10, 4, 0x0102030405060708, 1, (uint64_t)-2, (uint64_t)(int64_t)INT32_MIN));
    check_reply(update(&r, &wide, 1), refused(34, 2, 0x0102030405060708, 1, 0, 0));
    check_reply(update(&r, &full, 1), refused(28, 1, 0, 0, 0, 0));
    check_reply(update(&r, &full, 8), refused(23, 2, 8, 1, 0, 0));
    check_record(r, opened);
    cuddrewyn_session_reply got = cuddrewyn_open(7, 1, TOPIC, TOPIC_LEN, TOPIC, 0, TOPIC, 0, 1, store, STORE - 1);
    check_reply(got.reply, refused(1, 0, 0, 0, 0, 0));
    check_record(got.state, (cuddrewyn_record){.consumer_id = 7, .incarnation = 1});
    check_reply(cuddrewyn_drain_for(&r, store, STORE, CUDDREWYN_READERS, out, OUT - 1), refused(2, 0, 0, 0, 0, 0));
    check_reply(cuddrewyn_drain_for(&r, store, STORE, CUDDREWYN_READERS - 1, out, OUT), plain(CUDDREWYN_UNCHANGED));
    check_reply(cuddrewyn_check(r, store, STORE), plain(CUDDREWYN_ACCEPTED));
    check_reply(cuddrewyn_check(r, store, STORE - 1), refused(1, 0, 0, 0, 0, 0));
    opened.drain_positions[7] = r.drain_positions[7] = 1;
    check_reply(cuddrewyn_drain_for(&r, store, STORE, CUDDREWYN_READERS, out, OUT), refused(33, 0, 0, 0, 0, 0));
    check_reply(cuddrewyn_drain_for(&r, store, STORE, SIZE_MAX, out, OUT), refused(33, 0, 0, 0, 0, 0));
    check_reply(cuddrewyn_drain_for(&r, store, STORE, 0, out, OUT), refused(22, 0, 0, 0, 0, 0));
    check_reply(cuddrewyn_check(r, store, STORE), refused(22, 0, 0, 0, 0, 0));
    check_record(r, opened);
    r.drain_positions[7] = 0;
    check_reply(cuddrewyn_response(&r, store, STORE, (const uint8_t *)"\x08\x2a", 2, 1), refused(17, 1, 42, 0, 0, 0));
}

static void registrations(void) {
    open();
    check_reply(cuddrewyn_matches_registration(store, STORE, TOPIC, TOPIC_LEN, TOPIC, 0, TOPIC, 0, 1), plain(CUDDREWYN_YES));
    check_reply(cuddrewyn_matches_registration(store, STORE, TOPIC, TOPIC_LEN, TOPIC, 0, TOPIC, 0, 0), plain(CUDDREWYN_NO));
    check_reply(cuddrewyn_matches_registration(store, STORE, TOPIC, TOPIC_LEN, TOPIC, 1, TOPIC, 0, 1), plain(CUDDREWYN_NO));
    store[6] = 2;
    check_reply(cuddrewyn_matches_registration(store, STORE, TOPIC, TOPIC_LEN, TOPIC, 0, TOPIC, 0, 1), refused(22, 0, 0, 0, 0, 0));
    check_number((uint64_t)cuddrewyn_consumer_type(1), 1, "kind 1");
    check_number((uint64_t)cuddrewyn_consumer_type(-1), 0, "kind -1");
}

/* Segment 5 gained, then lost, over an empty list. */
static void lists(void) {
    static const uint8_t empty[10] = {0};
    static const uint8_t gains[26] = {[7] = 1, [11] = 1, [19] = 5, [23] = 9};
    static const uint8_t loses[20] = {[7] = 2, [9] = 1, [19] = 5};
    static const uint8_t list[24] = {[7] = 1, [9] = 1, [17] = 5, [21] = 9};
    check_reply(cuddrewyn_apply(empty, 10, gains, 26, out, OUT), one(CUDDREWYN_WRITTEN, 24));
    check_bytes(out, list, 24, "the list applied");
    check_reply(cuddrewyn_apply(empty, 10, gains, 25, out, OUT), refused(CUDDREWYN_MALFORMED_INPUT, 0, 0, 0, 0, 0));
    check_reply(cuddrewyn_join(gains, 26, loses, 20, out, OUT), one(CUDDREWYN_WRITTEN, 20));
    check_bytes(out, loses, 20, "the deltas joined");
    check_reply(cuddrewyn_join(gains, 26, loses, 20, out, 19), refused(CUDDREWYN_RESULT_TOO_LONG, 0, 0, 0, 0, 0));

    message segment = segment_of(5, 0, 9, "segment://a/b/c/0000-0009-5");
    message expected = assignment_of(1, &segment);
    check_reply(cuddrewyn_to_pb(list, 24, TOPIC, TOPIC_LEN, out, OUT), one(CUDDREWYN_WRITTEN, expected.length));
    check_bytes(out, expected.bytes, expected.length, "the list written");
    check_reply(cuddrewyn_to_pb(list, 24, TOPIC, 3, out, OUT), refused(CUDDREWYN_INVALID_PARENT, 0, 0, 0, 0, 0));
    static const uint8_t outside[28] = {[7] = 1, [9] = 1, [17] = 5, [21] = 9, [23] = 1, [25] = 9, [27] = 10};
    check_reply(cuddrewyn_to_pb(outside, 28, TOPIC, 3, out, OUT), refused(CUDDREWYN_BUCKET_OUTSIDE_SEGMENT, 2, 5, 0, 0, 0));
}

/* The hash of "test" is d213: it lies in the range of segment 3, and in its bucket or just before it; segment 5 has all. */
static void keys(void) {
    static const uint8_t test[] = "test";
    uint8_t list[42] = {[7] = 1,     [9] = 2,     [17] = 3,    [18] = 0xd0, [20] = 0xdf, [21] = 0xff, [23] = 1,
                        [24] = 0xd2, [25] = 0x13, [26] = 0xd2, [27] = 0x13, [35] = 5,    [38] = 0xff, [39] = 0xff};
    check_reply(cuddrewyn_segment_for_key(test, 4, list, 42), one(CUDDREWYN_FOUND, 3));
    check_reply(cuddrewyn_segment_for_key(test, 3, list, 42), one(CUDDREWYN_FOUND, 5));
    list[25] = list[27] = 0x14;
    check_reply(cuddrewyn_segment_for_key(test, 4, list, 42), one(CUDDREWYN_FOUND, 5));
    list[38] = 0xd2;
    list[39] = 0x12;
    check_reply(cuddrewyn_segment_for_key(test, 4, list, 42), plain(CUDDREWYN_NO));
    uint8_t *key = lend(CUDDREWYN_LONGEST_KEY + 1);
    check_reply(cuddrewyn_segment_for_key(key, CUDDREWYN_LONGEST_KEY, list, 41), refused(20, 0, 0, 0, 0, 0));
    check_reply(cuddrewyn_segment_for_key(key, CUDDREWYN_LONGEST_KEY + 1, list, 41), refused(32, 0, 0, 0, 0, 0));
    free(key);
}

/* The key of the hash of "test", which is ba6bd213; the keys of two segments, looked up again. */
static void test_keys(void) {
    static const uint8_t test[] = "test", d213[] = {0x2a, 0x64, 0x1b, 0x46}, d000[] = {0x24, 0xf7, 0xc9, 0x70};
    check_reply(cuddrewyn_key_for_hash(0xba6bd213), four(CUDDREWYN_FOUND, test));
    uint8_t list[42] = {[7] = 1,     [9] = 2,     [17] = 3,    [18] = 0xd0, [20] = 0xdf, [21] = 0xff, [23] = 1,
                        [24] = 0xd2, [25] = 0x13, [26] = 0xe0, [27] = 0x13, [35] = 5,    [36] = 0xd0, [38] = 0xff,
                        [39] = 0xff};
    check_reply(cuddrewyn_key_in_segment(list, 42, 3), four(CUDDREWYN_FOUND, d213));
    check_reply(cuddrewyn_segment_for_key(d213, 4, list, 42), one(CUDDREWYN_FOUND, 3));
    check_reply(cuddrewyn_key_in_segment(list, 42, 5), four(CUDDREWYN_FOUND, d000));
    check_reply(cuddrewyn_segment_for_key(d000, 4, list, 42), one(CUDDREWYN_FOUND, 5));
    list[23] = 0, list[9] = 1;
    check_reply(cuddrewyn_key_in_segment(list, 24, 3), four(CUDDREWYN_FOUND, d000));
    check_reply(cuddrewyn_key_in_segment(list, 24, 4), plain(CUDDREWYN_NO));
    check_reply(cuddrewyn_key_in_segment(list, 23, 3), refused(20, 0, 0, 0, 0, 0));
    list[23] = 1, list[24] = list[26] = 0xe0;
    check_reply(cuddrewyn_key_in_segment(list, 28, 3), plain(CUDDREWYN_NO));
}

/* Segment 5 with the whole key space costs the rate for each hour; with buckets of 1 and of 16 values, these alone. */
static void charges(void) {
    enum { BARE = 14, BUCKETS = 22 };
    const uint64_t divisor = CUDDREWYN_DIVISOR, most = UINT64_MAX;
    uint8_t *segment = lend(BUCKETS);
    segment[7] = 5;
    segment[10] = segment[11] = 0xff;
    check_reply(cuddrewyn_charge(segment, BARE, 3600, 1000000, 0), two(CUDDREWYN_FOUND, 1000000, 0));
    check_reply(cuddrewyn_charge(segment, BARE, 1, 1, divisor - 65536), two(CUDDREWYN_FOUND, 1, 0));
    check_reply(cuddrewyn_charge(segment, BARE, 1, 1, divisor - 65537), two(CUDDREWYN_FOUND, 0, divisor - 1));
    check_reply(cuddrewyn_charge(segment, BARE, most, 0, 7), two(CUDDREWYN_FOUND, 0, 7));
    check_reply(cuddrewyn_charge(segment, BARE, 0, most, divisor), refused(36, 0, 0, 0, 0, 0));
    check_reply(cuddrewyn_charge(segment, BARE, most, most, 0), refused(36, 0, 0, 0, 0, 0));
    check_reply(cuddrewyn_charge(segment, BARE - 1, most, most, divisor), refused(20, 0, 0, 0, 0, 0));
    check_reply(cuddrewyn_charge(segment, BARE + 1, 1, 1, 0), refused(20, 0, 0, 0, 0, 0));
    segment[13] = 2;
    segment[15] = segment[17] = 20;
    segment[21] = 15;
    check_reply(cuddrewyn_charge(segment, BUCKETS, most / 17, 1, 0), two(CUDDREWYN_FOUND, most / divisor, most % divisor));
    check_reply(cuddrewyn_charge(segment, BUCKETS, most / 17, 1, 1), refused(36, 0, 0, 0, 0, 0));
    free(segment);
}

/* 300 counts rising, of which the latest 256 are 44 to 299; a clearing; what is refused, and leaves the window. */
static void churn(void) {
    uint8_t *window = lend(CUDDREWYN_CHURN_WINDOW), *before = lend(CUDDREWYN_CHURN_WINDOW);
    check_reply(cuddrewyn_churn_current(window, CUDDREWYN_CHURN_WINDOW), two(CUDDREWYN_FOUND, 0, 0));
    for (uint64_t count = 0; count < 299; count++)
        cuddrewyn_churn_push(window, CUDDREWYN_CHURN_WINDOW, count);
    check_reply(cuddrewyn_churn_push(window, CUDDREWYN_CHURN_WINDOW, 299), two(CUDDREWYN_FOUND, 128 * (44 + 299), 299));
    check_reply(cuddrewyn_churn_current(window, CUDDREWYN_CHURN_WINDOW), two(CUDDREWYN_FOUND, 128 * (44 + 299), 299));
    memcpy(before, window, CUDDREWYN_CHURN_WINDOW);
    check_reply(cuddrewyn_churn_push(window, CUDDREWYN_CHURN_WINDOW, 65536), refused(38, 0, 0, 0, 0, 0));
    check_reply(cuddrewyn_churn_push(window, CUDDREWYN_CHURN_WINDOW - 1, 1), refused(38, 0, 0, 0, 0, 0));
    check_bytes(window, before, CUDDREWYN_CHURN_WINDOW, "the window refused");
    check_reply(cuddrewyn_churn_clear(window, CUDDREWYN_CHURN_WINDOW), two(CUDDREWYN_FOUND, 0, 0));
    check_reply(cuddrewyn_churn_push(window, CUDDREWYN_CHURN_WINDOW, 65535), two(CUDDREWYN_FOUND, 65535, 65535));
    window[0] = 2;
    check_reply(cuddrewyn_churn_push(window, CUDDREWYN_CHURN_WINDOW, 1), refused(38, 0, 0, 0, 0, 0));
    check_reply(cuddrewyn_churn_current(window, CUDDREWYN_CHURN_WINDOW), refused(38, 0, 0, 0, 0, 0));
    check_reply(cuddrewyn_churn_clear(window, 1), two(CUDDREWYN_FOUND, 0, 0));
    check_number(window[0], 2, "a byte that is no window");
    free(window);
    free(before);
}

static void put_span(uint8_t *at, uint64_t start, uint64_t end) {
    for (int byte = 0; byte < 8; byte++) {
        at[byte] = (uint8_t)(start >> (56 - 8 * byte));
        at[8 + byte] = (uint8_t)(end >> (56 - 8 * byte));
    }
}

/* A term from Thursday 2024-02-29 00:00 on, Fridays from 22:00 to the week's end, Saturdays until 01:00. */
static void hours(void) {
    enum { CONTRACT = 4 + 3 * 16 };
    const uint64_t leap = 762480000, turn = leap + 172800, last = UINT64_MAX;
    uint8_t *contract = lend(CONTRACT);
    contract[1] = 1, contract[3] = 2;
    put_span(contract + 4, leap, last);
    put_span(contract + 20, 597600, CUDDREWYN_WEEK);
    put_span(contract + 36, 0, 3600);
    check_reply(cuddrewyn_is_open(contract, CONTRACT, turn - 7201), plain(CUDDREWYN_NO));
    check_reply(cuddrewyn_is_open(contract, CONTRACT, turn - 7200), plain(CUDDREWYN_YES));
    check_reply(cuddrewyn_is_open(contract, CONTRACT, turn), plain(CUDDREWYN_YES));
    check_reply(cuddrewyn_is_open(contract, CONTRACT, turn + 3600), plain(CUDDREWYN_NO));
    check_reply(cuddrewyn_is_open(contract, CONTRACT, turn - CUDDREWYN_WEEK), plain(CUDDREWYN_NO));
    check_reply(cuddrewyn_earliest_open(contract, CONTRACT, 0), one(CUDDREWYN_FOUND, turn - 7200));
    check_reply(cuddrewyn_earliest_open(contract, CONTRACT, turn - 1), one(CUDDREWYN_FOUND, turn - 1));
    check_reply(cuddrewyn_earliest_open(contract, CONTRACT, turn + 3600),
                one(CUDDREWYN_FOUND, turn + CUDDREWYN_WEEK - 7200));
    check_reply(cuddrewyn_earliest_open(contract, CONTRACT, last), plain(CUDDREWYN_NO));
    check_reply(cuddrewyn_is_open(contract, CONTRACT - 1, turn), refused(35, 0, 0, 0, 0, 0));
    put_span(contract + 20, 597600, CUDDREWYN_WEEK + 1);
    check_reply(cuddrewyn_is_open(contract, CONTRACT, turn), refused(35, 0, 0, 0, 0, 0));
    check_reply(cuddrewyn_earliest_open(contract, CONTRACT, turn), refused(35, 0, 0, 0, 0, 0));
    free(contract);
}

/* One entry of an uploader's log: 1 attach or 0 detach, and an id. */
static void put_entry(uint8_t *entry, unsigned attach, uint64_t id) {
    entry[0] = (uint8_t)(attach << 7 | id >> 57);
    for (int byte = 1; byte < 8; byte++) entry[byte] = (uint8_t)(id >> (57 - 8 * byte));
    entry[8] = (uint8_t)(id << 7);
}

/* Segment 5 gained, no change, 5 lost and the highest id gained: a log of three entries. */
static void logs(void) {
    static const uint8_t deltas[72] = {[7] = 1,     [11] = 1,    [19] = 5,    [23] = 9,    [33] = 2,    [45] = 3,
                                       [47] = 1,    [49] = 1,    [57] = 5,    [58] = 0xff, [59] = 0xff, [60] = 0xff,
                                       [61] = 0xff, [62] = 0xff, [63] = 0xff, [64] = 0xff, [65] = 0xff, [69] = 9};
    uint8_t log[4 * CUDDREWYN_LOG_ENTRY];
    put_entry(log, 1, 5);
    put_entry(log + 9, 0, 5);
    put_entry(log + 18, 1, UINT64_MAX);
    put_entry(log + 27, 1, UINT64_MAX);
    check_reply(cuddrewyn_check_log(deltas, 72, log, 27), plain(CUDDREWYN_YES));
    check_reply(cuddrewyn_check_log(deltas, 38, log, 9), plain(CUDDREWYN_YES));
    check_reply(cuddrewyn_check_log(deltas, 0, log, 0), plain(CUDDREWYN_YES));
    check_reply(cuddrewyn_check_log(deltas, 72, log, 18), plain(CUDDREWYN_NO));
    check_reply(cuddrewyn_check_log(deltas, 72, log, 36), plain(CUDDREWYN_NO));
    check_reply(cuddrewyn_check_log(deltas, 72, log, 26), refused(37, 0, 0, 0, 0, 0));
    check_reply(cuddrewyn_check_log(deltas, 71, log, 26), refused(20, 0, 0, 0, 0, 0));
    put_entry(log + 9, 1, UINT64_MAX);
    put_entry(log + 18, 0, 5);
    check_reply(cuddrewyn_check_log(deltas, 72, log, 27), plain(CUDDREWYN_NO));
    log[26] |= 0x40;
    check_reply(cuddrewyn_check_log(deltas, 72, log, 27), refused(37, 0, 0, 0, 0, 0));
}

static void commands(void) {
    uint8_t *bytes = lend(14);
    static const uint8_t update[] = {0x08, 75, 0xda, 0x04, 0x02, 0x08, 0x07, 0xda, 0x04, 0x00};
    memcpy(bytes, update, 10);
    cuddrewyn_reply found = {.answer = CUDDREWYN_FOUND, .count = 4, .first = CUDDREWYN_ASSIGNMENT_UPDATE, .second = 5, .third = 2, .fourth = 7};
    check_reply(cuddrewyn_command(bytes, 7), found);
    check_reply(cuddrewyn_command(bytes, 10), two(CUDDREWYN_NO, CUDDREWYN_ASSIGNMENT_UPDATE, 2));
    check_reply(cuddrewyn_command(bytes, 2), two(CUDDREWYN_NO, CUDDREWYN_ASSIGNMENT_UPDATE, 0));
    check_reply(cuddrewyn_command(bytes, 9), refused(CUDDREWYN_INVALID_WIRE_FORMAT, 0, 0, 0, 0, 0));
    check_reply(cuddrewyn_command(bytes + 2, 5), refused(CUDDREWYN_MISSING_FIELD, 0, 0, 0, 0, 0));
    bytes[1] = 74;
    bytes[2] = 0xd2;
    found.first = CUDDREWYN_SUBSCRIBE_RESPONSE;
    check_reply(cuddrewyn_command(bytes, 7), found);
    bytes[1] = 77;
    bytes[2] = 0xea;
    found.first = CUDDREWYN_TOPICS_UPDATE;
    check_reply(cuddrewyn_command(bytes, 7), found);
    bytes[2] = 0xe8;
    check_reply(cuddrewyn_command(bytes, 7), refused(CUDDREWYN_WRONG_WIRE_TYPE, 0, 0, 0, 0, 0));
    memset(bytes + 1, 0xff, 9);
    bytes[10] = 0x01;
    check_reply(cuddrewyn_command(bytes, 11), one(CUDDREWYN_NO, (uint64_t)-1));
    free(bytes);
}

static void names(void) {
    static const uint8_t name[] = "segment://a/b/c/0010-00ff-12";
    size_t length = sizeof name - 1;
    check_reply(cuddrewyn_segment_topic(TOPIC, TOPIC_LEN, 0x10, 0xff, 12, out, OUT), one(CUDDREWYN_WRITTEN, length));
    check_bytes(out, name, length, "the segment's name");
    check_reply(cuddrewyn_segment_topic(TOPIC, TOPIC_LEN, 70000, 0xff, 12, out, OUT), refused(9, 2, 1, 70000, 0, 0));
    check_reply(cuddrewyn_segment_source(12, name, length),
                two(CUDDREWYN_FOUND, 0x10, 0xff));
    check_reply(cuddrewyn_segment_source(13, name, length), refused(CUDDREWYN_SEGMENT_ID_MISMATCH, 2, 13, 12, 0, 0));
    check_reply(cuddrewyn_parent_topic(name, length, out, OUT), one(CUDDREWYN_WRITTEN, TOPIC_LEN));
    check_bytes(out, TOPIC, TOPIC_LEN, "the parent");
    check_reply(cuddrewyn_parent_topic(name, 3, out, OUT), refused(CUDDREWYN_INVALID_SEGMENT, 0, 0, 0, 0, 0));
    static const uint8_t marked[] = "topic://t?/n/m", marked_name[] = "segment://t/n#/m/0010-00ff-12", marked_id[] = "segment://t/n/m/0010-00ff-?";
    check_reply(cuddrewyn_segment_topic(marked, sizeof marked - 1, 0x10, 0xff, 12, out, OUT), refused(12, 0, 0, 0, 0, 0));
    check_reply(cuddrewyn_segment_source(12, marked_name, sizeof marked_name - 1), refused(12, 0, 0, 0, 0, 0));
    check_reply(cuddrewyn_segment_source(12, marked_id, sizeof marked_id - 1), refused(18, 0, 0, 0, 0, 0));
}

static void ranges(void) {
    check_reply(cuddrewyn_range_len(4, 9), one(CUDDREWYN_FOUND, 6));
    check_reply(cuddrewyn_range_len(9, 4), refused(9, 3, 3, 9, 4, 0));
    check_reply(cuddrewyn_range_len(9, 65536), refused(CUDDREWYN_INVALID_RANGE, 2, 2, 65536, 0, 0));
    check_reply(cuddrewyn_range_contains(4, 9, 9), plain(CUDDREWYN_YES));
    check_reply(cuddrewyn_range_contains(4, 9, 10), plain(CUDDREWYN_NO));
    check_reply(cuddrewyn_range_contains_range(4, 9, 5, 9), plain(CUDDREWYN_YES));
    check_reply(cuddrewyn_range_contains_range(4, 9, 3, 9), plain(CUDDREWYN_NO));
    check_reply(cuddrewyn_range_is_adjacent_to(4, 9, 10, 12), plain(CUDDREWYN_YES));
    check_reply(cuddrewyn_range_is_adjacent_to(4, 9, 11, 12), plain(CUDDREWYN_NO));
    check_reply(cuddrewyn_range_is_adjacent_to(4, 9, 12, 11), refused(9, 3, 3, 12, 11, 0));
}

int main(void) {
    check_number(cuddrewyn_abi(), CUDDREWYN_ABI, "the library's version");
    store = lend(STORE);
    out = lend(OUT);
    records();
    replies();
    registrations();
    lists();
    keys();
    test_keys();
    charges();
    churn();
    hours();
    logs();
    commands();
    names();
    ranges();
    free(store);
    free(out);
    return close_checks("layout");
}
