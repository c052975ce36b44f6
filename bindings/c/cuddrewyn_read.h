/* Readers of what the calls write: a packed list, a delta, the output and the set of the watch. Tested, not proved.
 *
 * A reader takes any bytes, also NULL with length 0, and reads none beyond their length. cuddrewyn_read_.. walks over
 * all of them once and answers false where the counts and lengths in them do not fit. What it fills in is walked by
 * cuddrewyn_next_.., which answers false at the end. Counts and lengths are all that is tested: that ids rise, that no
 * range is reversed and no two buckets share a value is known of what the calls write; of other bytes the call that
 * they are lent to says it (20, 30).
 *
 *     cuddrewyn_delta delta;
 *     cuddrewyn_segment segment;
 *     if (cuddrewyn_read_delta(out, got.first, &delta))
 *         while (cuddrewyn_next_segment(&delta.gained, &segment))
 *             attach(segment.id, segment.start, segment.end);
 *
 * Nothing is copied: a reader points into the bytes, so finish it before a call writes them again. Where they did
 * change, it still stays inside, but may end with a count that is not 0. */
#ifndef CUDDREWYN_READ_H
#define CUDDREWYN_READ_H

#include "cuddrewyn.h"

#ifdef __cplusplus
extern "C" {
#endif

/* What is still to be read: how many items, and the bytes that they stand in. */
typedef struct {
    size_t count;
    const uint8_t *bytes;
    size_t length;
} cuddrewyn_items;

/* A range of hashes; both ends are inside. */
typedef struct {
    uint16_t start;
    uint16_t end;
} cuddrewyn_range;

typedef struct {
    uint64_t id;
    uint16_t start;
    uint16_t end;
    /* cuddrewyn_next_bucket */
    cuddrewyn_items buckets;
    /* the record itself, as cuddrewyn_charge takes it */
    const uint8_t *record;
    size_t record_len;
} cuddrewyn_segment;

typedef struct {
    uint64_t epoch;
    /* cuddrewyn_next_segment */
    cuddrewyn_items segments;
    /* the bytes of the whole list */
    size_t length;
} cuddrewyn_list;

typedef struct {
    uint64_t epoch;
    /* cuddrewyn_next_id */
    cuddrewyn_items lost;
    /* cuddrewyn_next_segment */
    cuddrewyn_items gained;
    /* the bytes of the whole delta */
    size_t length;
} cuddrewyn_delta;

/* The output of the watch. Of a snapshot `added` has all topics, and `removed` none. */
typedef struct {
    bool is_diff;
    /* cuddrewyn_next_topic */
    cuddrewyn_items added;
    cuddrewyn_items removed;
} cuddrewyn_topics;

/* A topic: UTF-8 without a 0 behind it. */
typedef struct {
    const uint8_t *bytes;
    size_t length;
} cuddrewyn_topic;

/* A number of so many bytes, most significant first. */
static inline uint64_t cuddrewyn_read_number(const uint8_t *bytes, size_t width) {
    uint64_t number = 0;
    for (size_t i = 0; i < width; i++) {
        number = number << 8 | bytes[i];
    }
    return number;
}

/* Takes so many bytes off the front, as one item; NULL where there are none left, or too few. */
static inline const uint8_t *cuddrewyn_take(cuddrewyn_items *items, size_t size) {
    const uint8_t *front = items->bytes;
    if (items->count == 0 || items->length < size) {
        return NULL;
    }
    items->count--;
    items->bytes += size;
    items->length -= size;
    return front;
}

static inline bool cuddrewyn_next_bucket(cuddrewyn_items *buckets, cuddrewyn_range *bucket) {
    const uint8_t *front = cuddrewyn_take(buckets, 4);
    if (!front) {
        return false;
    }
    bucket->start = (uint16_t)cuddrewyn_read_number(front, 2);
    bucket->end = (uint16_t)cuddrewyn_read_number(front + 2, 2);
    return true;
}

static inline bool cuddrewyn_next_id(cuddrewyn_items *ids, uint64_t *id) {
    const uint8_t *front = cuddrewyn_take(ids, 8);
    if (!front) {
        return false;
    }
    *id = cuddrewyn_read_number(front, 8);
    return true;
}

static inline bool cuddrewyn_next_segment(cuddrewyn_items *segments, cuddrewyn_segment *segment) {
    size_t buckets = segments->length < 14 ? 0 : (size_t)cuddrewyn_read_number(segments->bytes + 12, 2);
    const uint8_t *front = cuddrewyn_take(segments, 14 + 4 * buckets);
    if (!front) {
        return false;
    }
    segment->id = cuddrewyn_read_number(front, 8);
    segment->start = (uint16_t)cuddrewyn_read_number(front + 8, 2);
    segment->end = (uint16_t)cuddrewyn_read_number(front + 10, 2);
    segment->buckets.count = buckets;
    segment->buckets.bytes = front + 14;
    segment->buckets.length = 4 * buckets;
    segment->record = front;
    segment->record_len = 14 + 4 * buckets;
    return true;
}

static inline bool cuddrewyn_next_topic(cuddrewyn_items *topics, cuddrewyn_topic *topic) {
    size_t length = topics->length < 2 ? 0 : (size_t)cuddrewyn_read_number(topics->bytes, 2);
    const uint8_t *front = cuddrewyn_take(topics, 2 + length);
    if (!front) {
        return false;
    }
    topic->bytes = front + 2;
    topic->length = length;
    return true;
}

/* So many segments at the front of a room: the bytes behind them are left off. False where they do not fit. */
static inline bool cuddrewyn_read_segments(const uint8_t *bytes, size_t room, size_t count, cuddrewyn_items *segments) {
    cuddrewyn_items rest = {count, bytes, room};
    cuddrewyn_segment segment;
    while (cuddrewyn_next_segment(&rest, &segment)) {
    }
    segments->count = count;
    segments->bytes = bytes;
    segments->length = room - rest.length;
    return rest.count == 0;
}

/* The list at the front of a room, as of the store at CUDDREWYN_LIST with a room of CUDDREWYN_SLOT, or of a replay with
 * the rest of the store. False where none stands there: one has at most CUDDREWYN_SLOT bytes. */
static inline bool cuddrewyn_read_list(const uint8_t *bytes, size_t room, cuddrewyn_list *list) {
    size_t most = room < CUDDREWYN_SLOT ? room : CUDDREWYN_SLOT;
    if (most < 10 ||
        !cuddrewyn_read_segments(bytes + 10, most - 10, (size_t)cuddrewyn_read_number(bytes + 8, 2), &list->segments)) {
        return false;
    }
    list->epoch = cuddrewyn_read_number(bytes, 8);
    list->length = 10 + list->segments.length;
    return true;
}

/* The delta at the front of a room. False where none stands there. */
static inline bool cuddrewyn_read_delta(const uint8_t *bytes, size_t room, cuddrewyn_delta *delta) {
    size_t lost = room < 12 ? 0 : 8 * (size_t)cuddrewyn_read_number(bytes + 8, 2);
    if (room < 12 || room - 12 < lost ||
        !cuddrewyn_read_segments(bytes + 12 + lost, room - 12 - lost, (size_t)cuddrewyn_read_number(bytes + 10, 2),
                                 &delta->gained)) {
        return false;
    }
    delta->epoch = cuddrewyn_read_number(bytes, 8);
    delta->lost.count = lost / 8;
    delta->lost.bytes = bytes + 12;
    delta->lost.length = lost;
    delta->length = 12 + lost + delta->gained.length;
    return true;
}

/* The topics that fill the bytes, as the set at the front of the watch's buffer. False where the last one ends late. */
static inline bool cuddrewyn_read_set(const uint8_t *bytes, size_t length, cuddrewyn_items *topics) {
    cuddrewyn_items rest = {SIZE_MAX, bytes, length};
    cuddrewyn_topic topic;
    while (cuddrewyn_next_topic(&rest, &topic)) {
    }
    topics->count = SIZE_MAX - rest.count;
    topics->bytes = bytes;
    topics->length = length;
    return rest.length == 0;
}

/* The output of the watch, of just its length. False where it is none. */
static inline bool cuddrewyn_read_topics(const uint8_t *bytes, size_t length, cuddrewyn_topics *topics) {
    if (length < 1 || bytes[0] > 1) {
        return false;
    }
    topics->is_diff = bytes[0] == 1;
    if (!topics->is_diff) {
        cuddrewyn_read_set(bytes, 0, &topics->removed);
        return cuddrewyn_read_set(bytes + 1, length - 1, &topics->added);
    }
    size_t added = length < 5 ? 0 : (size_t)cuddrewyn_read_number(bytes + 1, 4);
    return length >= 5 && length - 5 >= added && cuddrewyn_read_set(bytes + 5, added, &topics->added) &&
           cuddrewyn_read_set(bytes + 5 + added, length - 5 - added, &topics->removed);
}

/* The bytes of the list, or of the delta, at the front of a room; 0 where none stands there. */
static inline size_t cuddrewyn_list_length(const uint8_t *bytes, size_t room) {
    cuddrewyn_list list;
    return cuddrewyn_read_list(bytes, room, &list) ? list.length : 0;
}

static inline size_t cuddrewyn_delta_length(const uint8_t *bytes, size_t room) {
    cuddrewyn_delta delta;
    return cuddrewyn_read_delta(bytes, room, &delta) ? delta.length : 0;
}

#ifdef __cplusplus
}
#endif

#endif
