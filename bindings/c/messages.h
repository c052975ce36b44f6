/* Messages written by hand, field by field (Protocol Buffers, "Encoding"). A real station reads them from its connection. */
#ifndef MESSAGES_H
#define MESSAGES_H

#include <stddef.h>
#include <stdint.h>
#include <string.h>

/* A message, or a part of one, that is being written. */
typedef struct {
    uint8_t bytes[4096];
    size_t length;
} message;

static inline void put_byte(message *m, uint8_t byte) {
    if (m->length < sizeof m->bytes) {
        m->bytes[m->length++] = byte;
    }
}

static inline void put_varint(message *m, uint64_t value) {
    for (; value >= 0x80; value >>= 7) {
        put_byte(m, (uint8_t)(value | 0x80));
    }
    put_byte(m, (uint8_t)value);
}

/* A field of wire type 0. */
static inline void put_number(message *m, uint64_t field, uint64_t value) {
    put_varint(m, field << 3);
    put_varint(m, value);
}

/* A field of wire type 2: bytes of a text or of a message. */
static inline void put_part(message *m, uint64_t field, const void *bytes, size_t length) {
    put_varint(m, field << 3 | 2);
    put_varint(m, length);
    for (size_t i = 0; i < length; i++) {
        put_byte(m, ((const uint8_t *)bytes)[i]);
    }
}

static inline void put_message(message *m, uint64_t field, const message *part) {
    put_part(m, field, part->bytes, part->length);
}

/* IntRange, as field 5 of a segment. A negative number is sent as 64 bits. */
static inline void put_bucket(message *segment, int32_t start, int32_t end) {
    message range = {.length = 0};
    put_number(&range, 1, (uint64_t)(int64_t)start);
    put_number(&range, 2, (uint64_t)(int64_t)end);
    put_message(segment, 5, &range);
}

/* ScalableAssignedSegment. */
static inline message segment_of(uint64_t id, uint32_t start, uint32_t end, const char *topic) {
    message m = {.length = 0};
    put_number(&m, 1, id);
    put_number(&m, 2, start);
    put_number(&m, 3, end);
    put_part(&m, 4, topic, strlen(topic));
    return m;
}

/* ScalableConsumerAssignment with one segment, or with none. */
static inline message assignment_of(uint64_t epoch, const message *segment) {
    message m = {.length = 0};
    put_number(&m, 1, epoch);
    if (segment) {
        put_message(&m, 2, segment);
    }
    return m;
}

/* CommandScalableTopicAssignmentUpdate. */
static inline message update_of(uint64_t consumer_id, uint64_t epoch, const message *segment) {
    message m = {.length = 0};
    message assignment = assignment_of(epoch, segment);
    put_number(&m, 1, consumer_id);
    put_message(&m, 2, &assignment);
    return m;
}

/* CommandScalableTopicSubscribeResponse with an assignment. */
static inline message response_of(uint64_t request_id, uint64_t epoch, const message *segment) {
    message m = {.length = 0};
    message assignment = assignment_of(epoch, segment);
    put_number(&m, 1, request_id);
    put_message(&m, 4, &assignment);
    return m;
}

/* CommandScalableTopicSubscribeResponse with an error code and a text. */
static inline message rejection_of(uint64_t request_id, int32_t code, const char *text) {
    message m = {.length = 0};
    put_number(&m, 1, request_id);
    put_number(&m, 2, (uint64_t)(int64_t)code);
    put_part(&m, 3, text, strlen(text));
    return m;
}

/* CommandWatchScalableTopicsUpdate with a snapshot (field 2) or a diff (field 3). */
static inline message watch_update_of(uint64_t watch_id, uint64_t field, const message *event) {
    message m = {.length = 0};
    put_number(&m, 1, watch_id);
    put_message(&m, field, event);
    return m;
}

#endif
