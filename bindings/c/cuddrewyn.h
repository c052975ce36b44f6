/* The exported calls of the port, for C on x86-64 Linux. Link crates/export/out/libexport.a, or a release's libcuddrewyn
 * (docs/RELEASE.md). cuddrewyn_read.h, beside this header, reads what they write: lists, deltas, the watch's output.
 *
 * Every call takes any bytes and any numbers. A refusal changes nothing: record, store and output stay, byte by byte.
 * docs/EXPORTS.md has the tables of answers, refusals and sizes.
 *
 * Memory. A record is lent by a pointer that is not NULL; the call writes it back. A slice is a pointer and a length in
 * bytes. Its pointer is not NULL, also where the length is 0: where p may be NULL with n 0, lend cuddrewyn_bytes(p, n),
 * or cuddrewyn_room(p, n) to be written. What a call may write is CUDDREWYN_RESTRICT: it overlaps nothing else that is
 * lent to that call. Slices that are only read may overlap.
 *
 * Threads. A call keeps nothing for the next one, allocates nothing and has no globals: calls over different memory may
 * run at once. A record and its store are one caller's at a time; calls that only read them may run beside each other.
 *
 * Order. Behind a response that is ACCEPTED each reader drains until UNCHANGED before it is handed the delta of a later
 * update: the drains lead from the baseline to the list held then, and the next update's delta goes on from that list.
 *
 * Keeping. Record and store are kept together, both as they are between the same two calls. Before a kept session goes
 * on, cuddrewyn_check finds damage that shows by itself; docs/EXPORTS.md has what it cannot find.
 */
#ifndef CUDDREWYN_H
#define CUDDREWYN_H

#include <stdbool.h>
#include <stddef.h>
#include <stdint.h>

#ifdef __cplusplus
extern "C" {
#endif

/* C's restrict, which C++ knows only so: on what a call may write. */
#define CUDDREWYN_RESTRICT __restrict__

/* The version of this header: the layout of its structs and the parameters of its calls. Version 1 had one drain position in the record, version 2
 * took the record by value. The library's function answers it, and the function's own name has it: header and library of two versions do not link. */
#define CUDDREWYN_ABI 3
#define cuddrewyn_abi cuddrewyn_abi_3
uint32_t cuddrewyn_abi(void);
/* Asks for that function in every file that includes this header. */
__attribute__((used)) static uint32_t (*const cuddrewyn_abi_needed)(void) = cuddrewyn_abi;

/* The release that this header is of. It is the header's word, not the library's: what has to fit is CUDDREWYN_ABI. */
#define CUDDREWYN_VERSION "0.2.0"
#define CUDDREWYN_VERSION_MAJOR 0
#define CUDDREWYN_VERSION_MINOR 2
#define CUDDREWYN_VERSION_PATCH 0
static inline const char *cuddrewyn_version(void) { return CUDDREWYN_VERSION; }

/* The sizes of the structs below. */
#define CUDDREWYN_RECORD_SIZE 104
#define CUDDREWYN_REPLY_SIZE 40
#define CUDDREWYN_SESSION_REPLY_SIZE 144
#define CUDDREWYN_PART_SIZE 16

/* The bytes of a packed list and of a delta: so many segments, lost ids, gained segments, and buckets in all of these. */
#define CUDDREWYN_LIST_SIZE(segments, buckets) (10 + 14 * (size_t)(segments) + 4 * (size_t)(buckets))
#define CUDDREWYN_DELTA_SIZE(lost, gained, buckets) (12 + 8 * (size_t)(lost) + CUDDREWYN_LIST_SIZE(gained, buckets) - 10)

/* Sizes to lend; those of CUDDREWYN_..._ROOM suffice always. */
#define CUDDREWYN_SLOT 2048
#define CUDDREWYN_MIN_STORE 6144
/* The full size of 01: 1,024 pushes of up to 2,046 bytes fit. */
#define CUDDREWYN_FULL_STORE 2103296
/* 1,024 pushes fit, whatever their lists; more is never used. */
#define CUDDREWYN_MAX_STORE 2105344
/* A store in which so many pushes can wait, of lists of so many bytes. One byte less holds one push less. */
#define CUDDREWYN_STORE_ROOM(pushes, list_len) \
    (CUDDREWYN_MIN_STORE + (size_t)(pushes) * (CUDDREWYN_QUEUE_LENGTH + (size_t)(list_len)))
/* The output of an update or a drain: the longest delta. */
#define CUDDREWYN_MIN_OUTPUT 3210
/* The output of apply, and of join for two deltas of these lengths. */
#define CUDDREWYN_APPLY_ROOM CUDDREWYN_SLOT
#define CUDDREWYN_JOIN_ROOM(d_len, e_len) ((size_t)(d_len) + (size_t)(e_len))
/* The output of to_pb for a parent's length and a list of so many segments and, in all of these, buckets; for any list. */
#define CUDDREWYN_TO_PB_ROOM(parent_len, segments, buckets) \
    (11 + (size_t)(segments) * (64 + (size_t)(parent_len)) + 10 * (size_t)(buckets))
#define CUDDREWYN_TO_PB_MAX_ROOM(parent_len) (9311 + 145 * (size_t)(parent_len))
/* The output of segment_topic for a parent's length, reached by ids of 20 digits; of parent_topic for that of a name. */
#define CUDDREWYN_SEGMENT_TOPIC_ROOM(parent_len) ((size_t)(parent_len) + 33)
#define CUDDREWYN_PARENT_TOPIC_ROOM(topic_len) ((size_t)(topic_len))
/* The watch: the bytes of a topic in the set, of the output for a snapshot of a set and of that for a diff of two lists;
 * then the output for any message of a length, and the buffer for it and the bytes of the set before it. */
#define CUDDREWYN_TOPIC_SIZE(topic_len) (2 + (size_t)(topic_len))
#define CUDDREWYN_SNAPSHOT_SIZE(set_len) (1 + (size_t)(set_len))
#define CUDDREWYN_DIFF_SIZE(added_len, removed_len) (5 + (size_t)(added_len) + (size_t)(removed_len))
#define CUDDREWYN_WATCH_ROOM(message_len) ((size_t)(message_len) + 1)
#define CUDDREWYN_WATCH_BUFFER_ROOM(used, message_len) ((size_t)(used) + (size_t)(message_len))
/* The most bytes of a key. */
#define CUDDREWYN_LONGEST_KEY 65535
/* The divisor of charges: 65,536 values times 3,600 seconds. */
#define CUDDREWYN_DIVISOR 235929600
/* A window of lost counts. */
#define CUDDREWYN_CHURN_WINDOW 514
/* The most terms and weekly windows of a contract, and the seconds of a week. */
#define CUDDREWYN_MAX_TERMS 64
#define CUDDREWYN_MAX_WINDOWS 28
#define CUDDREWYN_WEEK 604800
/* The types of the commands whose messages are taken (BaseCommand.Type). */
#define CUDDREWYN_SUBSCRIBE_RESPONSE 74
#define CUDDREWYN_ASSIGNMENT_UPDATE 75
#define CUDDREWYN_TOPICS_UPDATE 77
/* The bytes of an entry of an uploader's log. */
#define CUDDREWYN_LOG_ENTRY 9
/* What a saved session is longer than its part of the store, and the longest: 1,024 pushes of the longest list. */
#define CUDDREWYN_SAVED_HEAD 111
#define CUDDREWYN_MAX_SAVED 2105455
/* The readers of the replays, from 0 on. */
#define CUDDREWYN_READERS 8
/* Where the baseline and the list held stand in the store, and where the queue begins: up to the store's end the pushes that wait, each a length of
 * 2 bytes, most significant first, and its packed list. */
#define CUDDREWYN_BASELINE 2048
#define CUDDREWYN_LIST 4096
#define CUDDREWYN_QUEUE 6144
#define CUDDREWYN_QUEUE_LENGTH 2

/* Which answer a reply is. */
enum cuddrewyn_answer {
    CUDDREWYN_REFUSED = 0,
    CUDDREWYN_ACCEPTED = 1,
    CUDDREWYN_UNCHANGED = 2,
    CUDDREWYN_DELTA = 3,
    CUDDREWYN_REPLAY = 4,
    CUDDREWYN_WRITTEN = 5,
    CUDDREWYN_YES = 6,
    CUDDREWYN_NO = 7,
    CUDDREWYN_FOUND = 8
};

/* An answer's name in docs/EXPORTS.md; "unknown" for any other number. */
static inline const char *cuddrewyn_answer_name(unsigned answer) {
    switch (answer) {
    /* tools/refusals.py writes: answer names */
    case CUDDREWYN_REFUSED: return "REFUSED";
    case CUDDREWYN_ACCEPTED: return "ACCEPTED";
    case CUDDREWYN_UNCHANGED: return "UNCHANGED";
    case CUDDREWYN_DELTA: return "DELTA";
    case CUDDREWYN_REPLAY: return "REPLAY";
    case CUDDREWYN_WRITTEN: return "WRITTEN";
    case CUDDREWYN_YES: return "YES";
    case CUDDREWYN_NO: return "NO";
    case CUDDREWYN_FOUND: return "FOUND";
    /* tools/refusals.py: end */
    }
    return "unknown";
}

/* A session's own numbers. drain_positions says of each reader how many pushes of the queue it has drained. A flag is any byte: 0 says no, all others yes;
 * a call writes 1 or 0, and an epoch_floor of 0 where has_floor is 0. The five bytes behind the flags hold nothing: a call may change them. */
typedef struct {
    uint64_t consumer_id;
    uint64_t incarnation;
    uint64_t epoch_floor;
    size_t queue_count;
    size_t drain_positions[CUDDREWYN_READERS];
    uint8_t has_floor;
    uint8_t registered;
    uint8_t invalidated;
} cuddrewyn_record;

/* An answer: which it is, the number of a refusal (0: none), how many values come with it, and these. A value that can be negative is a two's complement. */
typedef struct {
    uint8_t answer;
    uint8_t number;
    uint8_t count;
    uint64_t first;
    uint64_t second;
    uint64_t third;
    uint64_t fourth;
} cuddrewyn_reply;

/* The number of a refusal, and what is attached to it, first to fourth in this order. docs/refusals.txt has what an operator does. */
enum cuddrewyn_refusal {
    /* tools/refusals.py writes: refusals */
    /* the store has fewer than three slots */
    CUDDREWYN_STORE_TOO_SHORT = 1,
    /* the output of an update or a drain cannot hold every delta */
    CUDDREWYN_OUTPUT_TOO_SHORT = 2,
    /* the message is no row of Protocol Buffers fields */
    CUDDREWYN_INVALID_WIRE_FORMAT = 3,
    /* a known field has another wire type than its own */
    CUDDREWYN_WRONG_WIRE_TYPE = 4,
    /* a required field is missing */
    CUDDREWYN_MISSING_FIELD = 6,
    /* a text is not UTF-8 */
    CUDDREWYN_INVALID_UTF8 = 7,
    /* the three texts of an identity do not fit its slot */
    CUDDREWYN_IDENTITY_TOO_LONG = 8,
    /* of a segment in a message: its range is none; of a range outside a message: in a name, or lent to a call. Attached: of a segment in a
     * message: its id, the kind, the kind's numbers; else the kind and its numbers (kind 1: start too high, start; 2: end too high, end; 3:
     * reversed, start and end) */
    CUDDREWYN_INVALID_RANGE = 9,
    /* a bucket range is none; its place among the segment's buckets, and its ends as they came. Attached: segment id, place of the bucket
     * from 0, start, end (may be negative) */
    CUDDREWYN_INVALID_BUCKET_RANGE = 10,
    /* two bucket ranges of a segment share a value. Attached: segment id */
    CUDDREWYN_OVERLAPPING_BUCKET_RANGES = 11,
    /* the parent is no `topic://` with tenant, namespace and rest, or has `?` or `#` in one of them */
    CUDDREWYN_INVALID_PARENT = 12,
    /* the segment's topic is not the name of its parent, range and id. Attached: segment id */
    CUDDREWYN_ATTACHMENT_MISMATCH = 13,
    /* the segment's id came before. Attached: segment id */
    CUDDREWYN_DUPLICATE_SEGMENT = 14,
    /* the packed assignment is longer than a slot */
    CUDDREWYN_ASSIGNMENT_TOO_LONG = 15,
    /* the broker answered with an error code. Its text is handed back beside the refusal. Attached: the broker's code (may be negative) */
    CUDDREWYN_BROKER = 16,
    /* of a response: neither an assignment nor an error code; of a watch update: neither an event nor an error code. Attached: request id;
     * of the watch, watch id */
    CUDDREWYN_EMPTY = 17,
    /* the text is no name of a segment */
    CUDDREWYN_INVALID_SEGMENT = 18,
    /* the name is another segment's. Attached: id given, id in the name */
    CUDDREWYN_SEGMENT_ID_MISMATCH = 19,
    /* an assignment, a delta or a segment's record that was lent is malformed */
    CUDDREWYN_MALFORMED_INPUT = 20,
    /* the result does not fit the output, or has no packed form */
    CUDDREWYN_RESULT_TOO_LONG = 21,
    /* a slot or a queued list in use is malformed, or a count of the record is beyond what it counts */
    CUDDREWYN_MALFORMED_STORE = 22,
    /* the call is for another link to the controller. Attached: got, expected */
    CUDDREWYN_INCARNATION_MISMATCH = 23,
    /* the update is for another consumer. Attached: got, expected */
    CUDDREWYN_CONSUMER_MISMATCH = 24,
    /* the new link's number is not above the old one's. Attached: got, the one before */
    CUDDREWYN_NON_ADVANCING_INCARNATION = 25,
    /* the epoch lies below the highest one that was accepted. Attached: got, floor */
    CUDDREWYN_CROSS_INCARNATION_EPOCH_REGRESSION = 26,
    /* the epoch lies below that of the list before it. Attached: got, the one before */
    CUDDREWYN_STALE_EPOCH = 27,
    /* the queue is full, or the push does not fit the store's free end. Attached: how many are queued: 1,024 where no more can be, fewer
     * where this push does not fit the free end */
    CUDDREWYN_PRE_BASELINE_BUFFER_FULL = 28,
    /* the update is for another watch. Attached: got, expected */
    CUDDREWYN_WATCH_MISMATCH = 29,
    /* the topic set that was lent is malformed */
    CUDDREWYN_MALFORMED_SET = 30,
    /* the new topic set is longer than its buffer, or one of the event's topics longer than a topic can be */
    CUDDREWYN_SET_TOO_LONG = 31,
    /* a key is longer than 65,535 bytes */
    CUDDREWYN_KEY_TOO_LONG = 32,
    /* a reader's number is above 7 */
    CUDDREWYN_UNKNOWN_READER = 33,
    /* a bucket range lies not wholly inside its segment's range; its place among the segment's buckets. Attached: segment id, place of the
     * bucket from 0 */
    CUDDREWYN_BUCKET_OUTSIDE_SEGMENT = 34,
    /* a contract has an end not after its start, a window beyond the week or a count too large */
    CUDDREWYN_INVALID_CONTRACT = 35,
    /* the holding's product and remainder reach 2^64 together, or the remainder lent in is not below the divisor */
    CUDDREWYN_CHARGE_TOO_LARGE = 36,
    /* the log's length is no multiple of 9, or one of its filling bits is set */
    CUDDREWYN_INVALID_LOG = 37,
    /* a lost count is above 65,535, or the window's own numbers point beyond its 256 places */
    CUDDREWYN_INVALID_WINDOW = 38,
    /* a saved session has not the form, the length or the checksum of one */
    CUDDREWYN_MALFORMED_SAVE = 64,
    /* tools/refusals.py: end */
};

/* A refusal's name in docs/REFUSALS.md, the first where two have the number; "none" for 0, "unknown" for all others. */
static inline const char *cuddrewyn_refusal_name(unsigned number) {
    switch (number) {
    case 0: return "none";
    /* tools/refusals.py writes: refusal names */
    case CUDDREWYN_STORE_TOO_SHORT: return "StoreTooShort";
    case CUDDREWYN_OUTPUT_TOO_SHORT: return "OutputTooShort";
    case CUDDREWYN_INVALID_WIRE_FORMAT: return "InvalidWireFormat";
    case CUDDREWYN_WRONG_WIRE_TYPE: return "WrongWireType";
    case CUDDREWYN_MISSING_FIELD: return "MissingField";
    case CUDDREWYN_INVALID_UTF8: return "InvalidUtf8";
    case CUDDREWYN_IDENTITY_TOO_LONG: return "IdentityTooLong";
    case CUDDREWYN_INVALID_RANGE: return "InvalidRange";
    case CUDDREWYN_INVALID_BUCKET_RANGE: return "InvalidBucketRange";
    case CUDDREWYN_OVERLAPPING_BUCKET_RANGES: return "OverlappingBucketRanges";
    case CUDDREWYN_INVALID_PARENT: return "InvalidParent";
    case CUDDREWYN_ATTACHMENT_MISMATCH: return "AttachmentMismatch";
    case CUDDREWYN_DUPLICATE_SEGMENT: return "DuplicateSegment";
    case CUDDREWYN_ASSIGNMENT_TOO_LONG: return "AssignmentTooLong";
    case CUDDREWYN_BROKER: return "Broker";
    case CUDDREWYN_EMPTY: return "Empty";
    case CUDDREWYN_INVALID_SEGMENT: return "InvalidSegment";
    case CUDDREWYN_SEGMENT_ID_MISMATCH: return "SegmentIdMismatch";
    case CUDDREWYN_MALFORMED_INPUT: return "MalformedInput";
    case CUDDREWYN_RESULT_TOO_LONG: return "ResultTooLong";
    case CUDDREWYN_MALFORMED_STORE: return "MalformedStore";
    case CUDDREWYN_INCARNATION_MISMATCH: return "IncarnationMismatch";
    case CUDDREWYN_CONSUMER_MISMATCH: return "ConsumerMismatch";
    case CUDDREWYN_NON_ADVANCING_INCARNATION: return "NonAdvancingIncarnation";
    case CUDDREWYN_CROSS_INCARNATION_EPOCH_REGRESSION: return "CrossIncarnationEpochRegression";
    case CUDDREWYN_STALE_EPOCH: return "StaleEpoch";
    case CUDDREWYN_PRE_BASELINE_BUFFER_FULL: return "PreBaselineBufferFull";
    case CUDDREWYN_WATCH_MISMATCH: return "WatchMismatch";
    case CUDDREWYN_MALFORMED_SET: return "MalformedSet";
    case CUDDREWYN_SET_TOO_LONG: return "SetTooLong";
    case CUDDREWYN_KEY_TOO_LONG: return "KeyTooLong";
    case CUDDREWYN_UNKNOWN_READER: return "UnknownReader";
    case CUDDREWYN_BUCKET_OUTSIDE_SEGMENT: return "BucketOutsideSegment";
    case CUDDREWYN_INVALID_CONTRACT: return "InvalidContract";
    case CUDDREWYN_CHARGE_TOO_LARGE: return "ChargeTooLarge";
    case CUDDREWYN_INVALID_LOG: return "InvalidLog";
    case CUDDREWYN_INVALID_WINDOW: return "InvalidWindow";
    case CUDDREWYN_MALFORMED_SAVE: return "MalformedSave";
    /* tools/refusals.py: end */
    }
    return "unknown";
}

/* The record of a session that is opened, and the answer. */
typedef struct {
    cuddrewyn_record state;
    cuddrewyn_reply reply;
} cuddrewyn_session_reply;

/* A part of a message. */
typedef struct {
    size_t start;
    size_t length;
} cuddrewyn_part;

/* What to lend for p: p, but where it is NULL and n is 0 a pointer that is not NULL. To be read, and to be written. */
static inline const uint8_t *cuddrewyn_bytes(const void *p, size_t n) {
    static const uint8_t none = 0;
    return p || n ? (const uint8_t *)p : &none;
}
static inline uint8_t *cuddrewyn_room(void *p, size_t n) {
    static uint8_t none = 0;
    return p || n ? (uint8_t *)p : &none;
}

/* Opens a session over the store: writes the identity to its first slot. kind is the wire's integer: 1 checkpoint, all else stream.
 * ACCEPTED; refuses 1 (store below 6,144 bytes), 7 (a text is not UTF-8), 8 (texts above 2,041 bytes together). Where it is refused, do not use state. */
cuddrewyn_session_reply cuddrewyn_open(uint64_t consumer_id, uint64_t incarnation, const uint8_t *topic,
                                       size_t topic_len, const uint8_t *subscription, size_t subscription_len,
                                       const uint8_t *consumer_name, size_t consumer_name_len, int32_t kind,
                                       uint8_t *CUDDREWYN_RESTRICT store, size_t store_len);

/* A new link to the controller. Touches no store. ACCEPTED; refuses 25 (not above the old incarnation). */
cuddrewyn_reply cuddrewyn_begin(cuddrewyn_record *CUDDREWYN_RESTRICT r, uint64_t incarnation);

/* The controller is not to be trusted any more. Touches no store. ACCEPTED. */
cuddrewyn_reply cuddrewyn_invalidate(cuddrewyn_record *CUDDREWYN_RESTRICT r);

/* A push of the controller (CommandScalableTopicAssignmentUpdate). Lend an output of at least 3,210 bytes.
 * DELTA: first is the delta's length in out; the list held stands in the store at CUDDREWYN_LIST. UNCHANGED: it was queued, or is the list held.
 * Refuses 1, 2, 22, 3, 4, 7, 6, 23, 24, 9 to 11, 34, 12 to 15, then 26, 28 or 27. */
cuddrewyn_reply cuddrewyn_update(cuddrewyn_record *CUDDREWYN_RESTRICT r, uint8_t *CUDDREWYN_RESTRICT store,
                                 size_t store_len, const uint8_t *message, size_t message_len, uint64_t incarnation,
                                 uint8_t *CUDDREWYN_RESTRICT out, size_t out_len);

/* The answer to a registration (CommandScalableTopicSubscribeResponse).
 * ACCEPTED: the baseline stands in the store at CUDDREWYN_BASELINE; each reader drains until UNCHANGED. Refuses 1, 22, 3, 4, 7, 6, 23, 16 or 17,
 * 9 to 11, 34, 12 to 15, 26, 27. */
cuddrewyn_reply cuddrewyn_response(cuddrewyn_record *CUDDREWYN_RESTRICT r, uint8_t *CUDDREWYN_RESTRICT store,
                                   size_t store_len, const uint8_t *message, size_t message_len, uint64_t incarnation);

/* The next push of the queue, for one of the readers, that differs from the one before. Lend an output of at least 3,210 bytes. Only that reader's
 * position moves: each is handed every replay.
 * REPLAY: first is the byte place of the list in the store, second the delta's length in out. UNCHANGED: none is left for it. Refuses 1, 2, 33 (reader
 * not below CUDDREWYN_READERS), 22. */
cuddrewyn_reply cuddrewyn_drain_for(cuddrewyn_record *CUDDREWYN_RESTRICT r, const uint8_t *store, size_t store_len,
                                    size_t reader, uint8_t *CUDDREWYN_RESTRICT out, size_t out_len);

/* Whether record and store are a session's, as update, response and drain_for ask first: for those that were kept. Changes nothing. ACCEPTED; refuses
 * 1, 22. */
cuddrewyn_reply cuddrewyn_check(cuddrewyn_record r, const uint8_t *store, size_t store_len);

/* A session as bytes, to be kept where power is lost: the record, and the store's front up to the queue's end, with a length and a checksum. Lend an
 * output of CUDDREWYN_SAVED_HEAD + store_len bytes, or of CUDDREWYN_MAX_SAVED. docs/SAVING.md says when to save.
 * WRITTEN: first is the length. Refuses 1, 22, 21. */
cuddrewyn_reply cuddrewyn_save(cuddrewyn_record r, const uint8_t *store, size_t store_len, uint8_t *CUDDREWYN_RESTRICT out, size_t out_len);

/* Takes a session back from the bytes that a save wrote, all of them and no more: writes their part to the store's front, and gives the record. The
 * store may have another length than the one that was saved.
 * ACCEPTED: the record is the one that was saved. Refuses 64, 22, 1; the store is then as it was, and the record is no session's. */
cuddrewyn_session_reply cuddrewyn_restore(const uint8_t *bytes, size_t bytes_len, uint8_t *CUDDREWYN_RESTRICT store, size_t store_len);

/* Whether the store was opened with these texts and this kind. YES or NO; refuses 1, 22 (the identity slot is malformed). */
cuddrewyn_reply cuddrewyn_matches_registration(const uint8_t *store, size_t store_len, const uint8_t *topic, size_t topic_len,
                                               const uint8_t *subscription, size_t subscription_len, const uint8_t *consumer_name,
                                               size_t consumer_name_len, int32_t kind);

/* Where the broker's text stands in a response that was refused with 16; length 0 where there is none. */
cuddrewyn_part cuddrewyn_response_text(const uint8_t *message, size_t message_len);

/* The outer message of a connection, BaseCommand: which of the three messages it carries, and where. FOUND: first is its type (one of
 * CUDDREWYN_SUBSCRIBE_RESPONSE, CUDDREWYN_ASSIGNMENT_UPDATE and CUDDREWYN_TOPICS_UPDATE), second the message's start in bytes, third its length,
 * fourth the number by which it is routed: request id, consumer id or watch id, 0 where it is absent. NO: first is the type; with two values it is
 * one of the three, whose message stands in so many parts: in none, or in more than one. The message itself is not tested: the call that it is handed
 * to does that. Refuses 3, 4, 6, of the outer message alone. */
cuddrewyn_reply cuddrewyn_command(const uint8_t *bytes, size_t bytes_len);

/* The list that a delta makes of a list. WRITTEN: first is its length in out. Refuses 20 (list or delta malformed), 15 (above 2,048 bytes), 21 (out too short). */
cuddrewyn_reply cuddrewyn_apply(const uint8_t *assignment, size_t assignment_len, const uint8_t *delta,
                                size_t delta_len, uint8_t *CUDDREWYN_RESTRICT out, size_t out_len);

/* The delta with the effect of d, then e. WRITTEN: first is its length in out. Refuses 20, 21. */
cuddrewyn_reply cuddrewyn_join(const uint8_t *d, size_t d_len, const uint8_t *e, size_t e_len,
                               uint8_t *CUDDREWYN_RESTRICT out, size_t out_len);

/* A list as the message ScalableConsumerAssignment. WRITTEN: first is its length in out. Refuses 20; 34 (a bucket outside its segment's range); with a segment 7 and 12
 * (parent); 21. */
cuddrewyn_reply cuddrewyn_to_pb(const uint8_t *assignment, size_t assignment_len, const uint8_t *parent,
                                size_t parent_len, uint8_t *CUDDREWYN_RESTRICT out, size_t out_len);

/* The segment of a list that takes a key, by the low 16 bits of the key's MurmurHash3_x86_32 with seed 0: the lowest id
 * whose range has the hash and which has no buckets or a bucket that has it. FOUND: first is its id. NO: no segment takes it.
 * Refuses 32 (key above 65,535 bytes), 20 (list malformed). */
cuddrewyn_reply cuddrewyn_segment_for_key(const uint8_t *key, size_t key_len, const uint8_t *assignment,
                                          size_t assignment_len);

/* The four-byte key that has a hash, all 32 bits of its MurmurHash3_x86_32 with seed 0: there is always one, and no
 * other. FOUND: first to fourth are its bytes, in their order. Refuses nothing. */
cuddrewyn_reply cuddrewyn_key_for_hash(uint32_t hash);

/* A four-byte key that falls in the segment of a list: of the hashes that the segment takes it has the smallest, with
 * upper 16 bits 0. FOUND: first to fourth are its bytes, in their order. NO: the id is not in the list, or the segment
 * has buckets and none meets its range. Refuses 20 (list malformed). */
cuddrewyn_reply cuddrewyn_key_in_segment(const uint8_t *assignment, size_t assignment_len, uint64_t segment_id);

/* What a holding of a segment costs: the values that it holds, times whole seconds, times the rate in millionths of a
 * euro per full key space and hour, plus the remainder of the segment's last charge (0 before the first), divided by
 * CUDDREWYN_DIVISOR. segment is one record, packed as in a list, of any bucket count; with buckets it holds the values
 * of these. FOUND: first is the charge, rounded down, second the remainder for the segment's next holding. Refused, the
 * old remainder stays. Refuses 20 (record malformed), 36 (remainder not below the divisor, or 2^64 reached). */
cuddrewyn_reply cuddrewyn_charge(const uint8_t *segment, size_t segment_len, uint64_t seconds, uint64_t rate,
                                 uint64_t remainder);

/* The lost count of one delta goes into a window of CUDDREWYN_CHURN_WINDOW bytes, which holds those of the latest 256; bytes of
 * zero are an empty one. FOUND: first is the sum of the counts, second the largest of them. Refuses 38 (a count above
 * 65,535; fewer bytes, or bytes whose own numbers point beyond the 256 places). */
cuddrewyn_reply cuddrewyn_churn_push(uint8_t *CUDDREWYN_RESTRICT window, size_t window_len, uint64_t count);

/* No counts any more, whatever the bytes were. FOUND: first and second are 0. Refuses nothing. */
cuddrewyn_reply cuddrewyn_churn_clear(uint8_t *CUDDREWYN_RESTRICT window, size_t window_len);

/* Sum and largest as they stand: FOUND as in cuddrewyn_churn_push; both are 0 when there are none. Refuses 38 for the window. */
cuddrewyn_reply cuddrewyn_churn_current(const uint8_t *window, size_t window_len);

/* A contract: the number of terms and that of weekly windows, 16 bits each, then start and end of each term and of each
 * window, 64 bits each, most significant bit first. A term is in seconds since 2000-01-01 00:00 UTC, a Saturday, a
 * window in seconds of a week that starts on Saturday. A start is inside, an end is outside; they may overlap. A second
 * is open if some term and some window hold it.
 * 35 is a contract with more than CUDDREWYN_MAX_TERMS or CUDDREWYN_MAX_WINDOWS, an end not after its start, a window's
 * end above CUDDREWYN_WEEK, or another length than the counts give. */

/* Whether a second is open. YES or NO; refuses 35. */
cuddrewyn_reply cuddrewyn_is_open(const uint8_t *contract, size_t contract_len, uint64_t second);

/* The earliest open second not before the one given. FOUND: first is that second. NO: none from there on is open.
 * Refuses 35. */
cuddrewyn_reply cuddrewyn_earliest_open(const uint8_t *contract, size_t contract_len, uint64_t second);

/* Whether an uploader's log is what deltas, packed one behind another, ask for: delta after delta each lost id detached
 * once in any order, then each gained id attached once in any order, and nothing more. An entry of the log has 9 bytes:
 * one bit (0 detach, 1 attach), a 64-bit id, seven zero bits. YES or NO; refuses 20 (deltas malformed), 37 (the log's
 * length is no multiple of 9, or a filling bit is set). */
cuddrewyn_reply cuddrewyn_check_log(const uint8_t *deltas, size_t deltas_len, const uint8_t *log, size_t log_len);

/* The name of a segment. WRITTEN: first is its length in out. Refuses 7, 9, 12 (the parent is no topic://tenant/namespace/name, or has ? or # in
 * a part), 21. */
cuddrewyn_reply cuddrewyn_segment_topic(const uint8_t *parent, size_t parent_len, uint32_t start, uint32_t end,
                                        uint64_t segment_id, uint8_t *CUDDREWYN_RESTRICT out, size_t out_len);

/* The range in a segment's name. FOUND: first is the start, second the end. Refuses 7, 18, 12, 18, 9, 19. */
cuddrewyn_reply cuddrewyn_segment_source(uint64_t segment_id, const uint8_t *topic, size_t topic_len);

/* The parent of a segment's name. WRITTEN: first is its length in out. Refuses 7, 18, 12, 18, 9, 21. */
cuddrewyn_reply cuddrewyn_parent_topic(const uint8_t *topic, size_t topic_len, uint8_t *CUDDREWYN_RESTRICT out,
                                       size_t out_len);

/* How many values a range has. FOUND: first is their number. Refuses 9. */
cuddrewyn_reply cuddrewyn_range_len(uint32_t start, uint32_t end);

/* Whether a range has a value. YES or NO; refuses 9. */
cuddrewyn_reply cuddrewyn_range_contains(uint32_t start, uint32_t end, uint32_t hash);

/* Whether a range has every value of another. YES or NO; refuses 9, the first range before the second. */
cuddrewyn_reply cuddrewyn_range_contains_range(uint32_t start, uint32_t end, uint32_t other_start, uint32_t other_end);

/* Whether one range ends right before the other starts. YES or NO; refuses 9, the first range before the second. */
cuddrewyn_reply cuddrewyn_range_is_adjacent_to(uint32_t start, uint32_t end, uint32_t other_start, uint32_t other_end);

/* The kind that a wire integer is read as: 1 checkpoint, 0 stream. */
int32_t cuddrewyn_consumer_type(int32_t value);

/* An update of the topics watch (CommandWatchScalableTopicsUpdate): the set stands in the first `used` bytes of buffer.
 * WRITTEN: first is the length of the new set, second that of the output. Refuses 30,
 * 3, 4, 7, 6, 29, 16, 17, 31, 21. */
cuddrewyn_reply cuddrewyn_watch(uint64_t watch_id, uint8_t *CUDDREWYN_RESTRICT buffer, size_t buffer_len, size_t used,
                                const uint8_t *message, size_t message_len, uint8_t *CUDDREWYN_RESTRICT out,
                                size_t out_len);

/* Where the broker's text stands in a watch update that was refused with 16; length 0 where there is none. */
cuddrewyn_part cuddrewyn_watch_text(const uint8_t *message, size_t message_len);

#ifdef __cplusplus
}
#endif

#endif
