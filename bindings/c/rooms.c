/* The macros of rooms to lend: each suffices, and where it is the exact size one byte less does not. Then names, and
 * slices without a pointer. */
#include <stdlib.h>

#include "check.h"
#include "messages.h"

static const char PARENT[] = "topic://a/b/c";
enum { PARENT_LEN = sizeof PARENT - 1, MOST = 145 };
static uint8_t list[CUDDREWYN_SLOT], written[1 << 16], text[1 << 15];

static uint8_t *put_packed(uint8_t *at, uint64_t value, size_t width) {
    for (size_t i = 0; i < width; i++) {
        at[i] = (uint8_t)(value >> 8 * (width - 1 - i));
    }
    return at + width;
}

/* A list of so many segments with the highest ids and ranges, whose last has so many buckets of one value each; gives
 * its length. */
static size_t pack_list(uint64_t epoch, size_t segments, size_t buckets) {
    uint8_t *at = put_packed(put_packed(list, epoch, 8), segments, 2);
    for (size_t i = 0; i < segments; i++) {
        size_t here = i + 1 < segments ? 0 : buckets;
        at = put_packed(at, UINT64_MAX - segments + 1 + i, 8);
        at = put_packed(put_packed(put_packed(at, 0x8000, 2), 0xffff, 2), here, 2);
        for (size_t j = 0; j < here; j++) {
            at = put_packed(put_packed(at, 0xffff - j, 2), 0xffff - j, 2);
        }
    }
    return (size_t)(at - list);
}

/* The answer of a call with a room that suffices, and with a byte less. */
static void check_exact(cuddrewyn_reply enough, cuddrewyn_reply less, size_t room, const char *what) {
    check_number(enough.answer, CUDDREWYN_WRITTEN, what);
    check_number(enough.first, room, what);
    check_number(less.number, CUDDREWYN_RESULT_TOO_LONG, what);
}

static void sizes(void) {
    static uint8_t delta[CUDDREWYN_DELTA_SIZE(2, 1, 3)] = {[9] = 2, [11] = 1, [27] = 1};
    size_t length = pack_list(1, 2, 3);
    check_number(length, CUDDREWYN_LIST_SIZE(2, 3), "the size of a list");
    check_number(cuddrewyn_key_in_segment(list, length, 0).answer, CUDDREWYN_NO, "the list");
    check_number(cuddrewyn_key_in_segment(list, length - 1, 0).number, CUDDREWYN_MALFORMED_INPUT, "a byte less");
    memcpy(delta + 28, list + 24, sizeof delta - 28);
    check_number(cuddrewyn_check_log(delta, sizeof delta, list, 0).answer, CUDDREWYN_NO, "the delta");
    check_number(cuddrewyn_check_log(delta, sizeof delta - 1, list, 0).number, CUDDREWYN_MALFORMED_INPUT,
                 "a byte less");
}

/* A list as an update of consumer 7; gives its length. */
static size_t update_from(size_t length, uint8_t *message) {
    cuddrewyn_reply pb = cuddrewyn_to_pb(list, length, (const uint8_t *)PARENT, PARENT_LEN, written, sizeof written);
    uint8_t *at = message;
    *at++ = 0x08, *at++ = 7, *at++ = 0x12;
    *at++ = (uint8_t)(0x80 | (pb.first & 0x7f)), *at++ = (uint8_t)(0x80 | (pb.first >> 7 & 0x7f)),
    *at++ = (uint8_t)(pb.first >> 14);
    memcpy(at, written, (size_t)pb.first);
    return 6 + (size_t)pb.first;
}

/* So many pushes wait in a store of just their room, and one less in a store of a byte less. */
static void stores(void) {
    enum { PUSHES = 3 };
    static uint8_t message[1 << 15], out[CUDDREWYN_MIN_OUTPUT];
    size_t length = pack_list(1, 4, 5), message_len = update_from(length, message);
    for (size_t less = 0; less < 2; less++) {
        size_t room = CUDDREWYN_STORE_ROOM(PUSHES, length) - less;
        uint8_t *store = malloc(room);
        cuddrewyn_record r =
            cuddrewyn_open(7, 1, (const uint8_t *)PARENT, PARENT_LEN, list, 0, list, 0, 0, store, room).state;
        for (size_t i = 0; i < PUSHES + 1; i++) {
            cuddrewyn_update(&r, store, room, message, message_len, 1, out, sizeof out);
        }
        check_number(r.queue_count, PUSHES - less, "pushes that wait");
        free(store);
    }
}

/* The longest delta: of the most segments to as many others. */
static void deltas(void) {
    static uint8_t update[1 << 15], store[CUDDREWYN_MIN_STORE], out[CUDDREWYN_MIN_OUTPUT];
    message empty = response_of(1, 1, NULL);
    cuddrewyn_record r =
        cuddrewyn_open(7, 1, (const uint8_t *)PARENT, PARENT_LEN, list, 0, list, 0, 0, store, sizeof store).state;
    cuddrewyn_response(&r, store, sizeof store, empty.bytes, empty.length, 1);
    size_t length = pack_list(2, MOST, 2);
    check_number(length, CUDDREWYN_SLOT, "the longest list");
    size_t update_len = update_from(length, update);
    check_number(cuddrewyn_update(&r, store, sizeof store, update, update_len, 1, out, sizeof out - 1).number,
                 CUDDREWYN_OUTPUT_TOO_SHORT, "an output of a byte less");
    check_number(cuddrewyn_update(&r, store, sizeof store, update, update_len, 1, out, sizeof out).first,
                 CUDDREWYN_DELTA_SIZE(0, MOST, 2), "the first delta");
    for (size_t i = 0; i < MOST; i++) {
        put_packed(list + 10 + 14 * i, i, 8);
    }
    update_len = update_from(length, update);
    check_number(cuddrewyn_update(&r, store, sizeof store, update, update_len, 1, out, sizeof out).first,
                 CUDDREWYN_MIN_OUTPUT, "the longest delta");
}

static void lists(void) {
    static const uint8_t gain[] = {[7] = 4, [11] = 1, [19] = 8, [23] = 9, [25] = 0},
                         lose[] = {[7] = 5, [9] = 1, [19] = 9}, none[12] = {0};
    size_t length = pack_list(1, MOST, 2);
    check_exact(cuddrewyn_apply(list, length, none, sizeof none, written, CUDDREWYN_APPLY_ROOM),
                cuddrewyn_apply(list, length, none, sizeof none, written, CUDDREWYN_APPLY_ROOM - 1),
                CUDDREWYN_APPLY_ROOM, "apply");
    cuddrewyn_reply got =
        cuddrewyn_join(gain, sizeof gain, lose, sizeof lose, written, CUDDREWYN_JOIN_ROOM(sizeof gain, sizeof lose));
    check_number(got.answer, CUDDREWYN_WRITTEN, "join");
    check_number(got.first, CUDDREWYN_JOIN_ROOM(sizeof gain, sizeof lose) - sizeof none, "join: both without one head");
}

/* to_pb: exact for a list without segments; for longer ones it suffices. */
static void messages(void) {
    size_t length = pack_list(UINT64_MAX, 0, 0);
    check_exact(cuddrewyn_to_pb(list, length, text, 0, written, CUDDREWYN_TO_PB_ROOM(0, 0, 0)),
                cuddrewyn_to_pb(list, length, text, 0, written, CUDDREWYN_TO_PB_ROOM(0, 0, 0) - 1), 11,
                "to_pb without segments");
    for (size_t parent_len = PARENT_LEN; parent_len <= sizeof text; parent_len += sizeof text - PARENT_LEN) {
        memset(text, 'x', sizeof text);
        memcpy(text, PARENT, PARENT_LEN);
        const size_t shapes[3][2] = {{1, 1}, {1, 506}, {MOST, 2}};
        for (int i = 0; i < 3; i++) {
            size_t segments = shapes[i][0], buckets = shapes[i][1],
                   room = CUDDREWYN_TO_PB_ROOM(parent_len, segments, buckets);
            uint8_t *out = malloc(room);
            length = pack_list(UINT64_MAX, segments, buckets);
            cuddrewyn_reply got = cuddrewyn_to_pb(list, length, text, parent_len, out, room);
            check_number(got.answer, CUDDREWYN_WRITTEN, "to_pb");
            check(got.first <= room && got.first + 10 * segments >= room,
                  "to_pb: at most 10 bytes too many for each segment");
            check(room <= CUDDREWYN_TO_PB_MAX_ROOM(parent_len), "to_pb: the room of any list");
            free(out);
        }
    }
}

static void names(void) {
    const uint8_t *parent = (const uint8_t *)PARENT;
    size_t room = CUDDREWYN_SEGMENT_TOPIC_ROOM(PARENT_LEN);
    check_exact(cuddrewyn_segment_topic(parent, PARENT_LEN, 0, 0xffff, UINT64_MAX, written, room),
                cuddrewyn_segment_topic(parent, PARENT_LEN, 0, 0xffff, UINT64_MAX, written, room - 1), room,
                "segment_topic");
    cuddrewyn_reply got = cuddrewyn_parent_topic(written, room, text, CUDDREWYN_PARENT_TOPIC_ROOM(room));
    check_number(got.answer, CUDDREWYN_WRITTEN, "parent_topic");
    check_number(got.first, PARENT_LEN, "parent_topic");
}

static cuddrewyn_reply watched(size_t set, size_t used, const message *m, size_t output) {
    uint8_t *buffer = malloc(set), *out = malloc(output);
    memcpy(buffer, "\0\1a\0\1b", used);
    cuddrewyn_reply got = cuddrewyn_watch(5, buffer, set, used, m->bytes, m->length, out, output);
    free(buffer);
    free(out);
    return got;
}

/* The watch: one topic comes and one goes. */
static void watches(void) {
    message snapshot = {.length = 0}, diff = {.length = 0};
    put_part(&snapshot, 1, "long", 4);
    put_part(&snapshot, 1, "d", 1);
    put_part(&diff, 1, "long", 4);
    put_part(&diff, 2, "b", 1);
    message first = watch_update_of(5, 2, &snapshot), second = watch_update_of(5, 3, &diff);
    size_t set = CUDDREWYN_TOPIC_SIZE(4) + CUDDREWYN_TOPIC_SIZE(1), room = CUDDREWYN_SNAPSHOT_SIZE(set);
    check_reply(watched(set, 6, &first, room),
                (cuddrewyn_reply){.answer = CUDDREWYN_WRITTEN, .count = 2, .first = set, .second = room});
    check_number(watched(set, 6, &first, room - 1).number, CUDDREWYN_RESULT_TOO_LONG, "the output of a snapshot");
    check_number(watched(set - 1, 6, &first, room).number, CUDDREWYN_SET_TOO_LONG, "the set of a snapshot");
    room = CUDDREWYN_DIFF_SIZE(CUDDREWYN_TOPIC_SIZE(4), CUDDREWYN_TOPIC_SIZE(1));
    check_number(room, CUDDREWYN_WATCH_ROOM(second.length), "the most for a message of this length");
    check_reply(watched(set, 6, &second, room),
                (cuddrewyn_reply){.answer = CUDDREWYN_WRITTEN, .count = 2, .first = set, .second = room});
    check_number(watched(set, 6, &second, room - 1).number, CUDDREWYN_RESULT_TOO_LONG, "the output of a diff");
    check(set <= CUDDREWYN_WATCH_BUFFER_ROOM(6, second.length), "the set of a diff");
    check_number(
        watched(CUDDREWYN_WATCH_BUFFER_ROOM(0, first.length), 0, &first, CUDDREWYN_WATCH_ROOM(first.length)).first, set,
        "rooms by the message's length");
}

static void texts(void) {
    check(strcmp(cuddrewyn_refusal_name(CUDDREWYN_STALE_EPOCH), "StaleEpoch") == 0, "the name of 27");
    check(strcmp(cuddrewyn_refusal_name(9), "InvalidRange") == 0, "the name of 9");
    check(strcmp(cuddrewyn_refusal_name(0), "none") == 0, "the name of no refusal");
    check(strcmp(cuddrewyn_refusal_name(5), "unknown") == 0 && strcmp(cuddrewyn_refusal_name(-1u), "unknown") == 0,
          "numbers of no refusal");
    check(strcmp(cuddrewyn_answer_name(CUDDREWYN_REFUSED), "REFUSED") == 0, "the name of answer 0");
    check(strcmp(cuddrewyn_answer_name(CUDDREWYN_FOUND), "FOUND") == 0, "the name of answer 8");
    check(strcmp(cuddrewyn_answer_name(9), "unknown") == 0, "a number of no answer");
}

/* NULL with length 0 becomes a pointer that is not; all others stay. */
static void pointers(void) {
    check(cuddrewyn_bytes(text, 0) == text && cuddrewyn_room(text, 5) == text, "a pointer");
    check(cuddrewyn_bytes(NULL, 0) && cuddrewyn_room(NULL, 0), "none");
    check(!cuddrewyn_bytes(NULL, 1) && !cuddrewyn_room(NULL, 1), "none, of a length");
    size_t length = pack_list(1, 1, 0);
    check_number(cuddrewyn_segment_for_key(cuddrewyn_bytes(NULL, 0), 0, list, length).number, 0, "a key of no bytes");
    check_number(cuddrewyn_apply(list, length, cuddrewyn_bytes(NULL, 0), 0, cuddrewyn_room(NULL, 0), 0).number,
                 CUDDREWYN_MALFORMED_INPUT, "a delta of no bytes");
}

int main(void) {
    sizes();
    stores();
    deltas();
    lists();
    messages();
    names();
    watches();
    texts();
    pointers();
    return close_checks("rooms");
}
