/* A fuzz target: the input is a script of calls over one session, hostile messages and damaged memory among them. An
 * invariant that does not hold ends the run by abort.
 *
 *   clang -g -O1 -fsanitize=fuzzer,address,undefined fuzz.c ARCHIVE      libFuzzer
 *   cc -g -O1 -fsanitize=address,undefined fuzz.c fuzz_main.c ARCHIVE    a driver of its own
 *   afl-clang-fast -g -O1 fuzz.c fuzz_main.c ARCHIVE                     AFL++, which hands it a file (@@)
 *
 * A script is a row of steps: a byte that chooses one of STEPS, then what that step reads. A number has the bytes that
 * its reader asks for, most significant first; a piece is a length of two bytes and so many bytes. Behind the end all
 * bytes are 0, and a piece is cut short. */
#include <stdio.h>
#include <stdlib.h>
#include <string.h>

#include "cuddrewyn_read.h"

#define HOLDS(condition) ((condition) ? (void)0 : broken(#condition, __LINE__))

/* How often each answer was given, and each refusal: fuzz_main.c demands that a run reaches all. */
size_t fuzz_answers[256], fuzz_refusals[256];

int LLVMFuzzerTestOneInput(const uint8_t *data, size_t size);

static void broken(const char *condition, int line) {
    fprintf(stderr, "fuzz.c:%d: does not hold: %s\n", line, condition);
    abort();
}

/* ---- the script */

typedef struct {
    const uint8_t *bytes;
    size_t left;
} script;

static uint64_t number(script *in, size_t width) {
    uint64_t value = 0;
    for (size_t i = 0; i < width; i++) {
        uint8_t byte = in->left > 0 ? *in->bytes : 0;
        in->bytes += in->left > 0;
        in->left -= in->left > 0;
        value = value << 8 | byte;
    }
    return value;
}

/* Bytes to be read: on the heap and just as long as they say, so that a byte read beside them shows; NULL where there
 * are none. */
typedef struct {
    uint8_t *bytes;
    size_t length;
} piece;

static piece copied(const uint8_t *bytes, size_t length) {
    piece p = {length > 0 ? malloc(length) : NULL, length};
    HOLDS(length == 0 || p.bytes);
    if (length > 0) {
        memcpy(p.bytes, bytes, length);
    }
    return p;
}

static piece take_piece(script *in) {
    size_t length = (size_t)number(in, 2);
    piece p = copied(in->bytes, length < in->left ? length : in->left);
    in->bytes += p.length;
    in->left -= p.length;
    return p;
}

#define LENT(p) cuddrewyn_bytes((p).bytes, (p).length), (p).length

/* ---- memory to be written, with bytes on both sides that no call may touch */

enum { GUARD = 32, GUARD_BYTE = 0xa5, FRESH_BYTE = 0xc3 };

typedef struct {
    uint8_t *all, *before, *bytes;
    size_t length;
} room;

static room lend(size_t length) {
    room m = {malloc(length + 2 * GUARD), malloc(length + 2 * GUARD), NULL, length};
    HOLDS(m.all && m.before);
    m.bytes = m.all + GUARD;
    memset(m.all, GUARD_BYTE, length + 2 * GUARD);
    memset(m.bytes, FRESH_BYTE, length);
    return m;
}

static void give_back(room *m) {
    free(m->all);
    free(m->before);
}

static void remember(room *m) {
    memcpy(m->before, m->all, m->length + 2 * GUARD);
}

/* From a place on every byte is as it was, those behind the end included; and those before the front. */
static bool same_from(const room *m, size_t place) {
    return memcmp(m->all, m->before, GUARD) == 0 &&
           memcmp(m->bytes + place, m->before + GUARD + place, m->length - place + GUARD) == 0;
}

/* ---- a session, and what holds behind every call */

typedef struct {
    cuddrewyn_record r, before;
    room store, out, set;
    /* the bytes of the watch's set */
    size_t used;
    /* a session was opened, and record and store were written by calls alone; likewise the set */
    bool sound, sound_set;
} session;

/* The bytes behind the record's flags hold nothing, and a call that is taken may leave any there: they are given a value
 * before each call, since a refusal leaves them too. */
static void remember_all(session *s) {
    size_t flags = offsetof(cuddrewyn_record, invalidated) + 1;
    memset((uint8_t *)&s->r + flags, FRESH_BYTE, sizeof s->r - flags);
    memcpy(&s->before, &s->r, sizeof s->r);
    remember(&s->store);
    remember(&s->out);
    remember(&s->set);
}

static cuddrewyn_reply tallied(cuddrewyn_reply got) {
    fuzz_answers[got.answer]++;
    fuzz_refusals[got.number]++;
    HOLDS(got.answer <= CUDDREWYN_FOUND && got.count <= 4);
    HOLDS((got.answer == CUDDREWYN_REFUSED) == (got.number != 0));
    HOLDS(strcmp(cuddrewyn_answer_name(got.answer), "unknown") != 0);
    HOLDS(strcmp(cuddrewyn_refusal_name(got.number), "unknown") != 0);
    return got;
}

static bool refused_with(cuddrewyn_reply got, int refusal) {
    return got.answer == CUDDREWYN_REFUSED && got.number == refusal;
}

/* Behind a call that wrote so many bytes of the output: a refusal changed nothing, and no call wrote beside what it
 * answers. */
static cuddrewyn_reply settled(session *s, cuddrewyn_reply got, size_t written) {
    tallied(got);
    HOLDS(written <= s->out.length && same_from(&s->out, written));
    HOLDS(same_from(&s->store, s->store.length) && same_from(&s->set, s->set.length));
    if (got.answer == CUDDREWYN_REFUSED) {
        HOLDS(memcmp(&s->r, &s->before, sizeof s->r) == 0);
        HOLDS(same_from(&s->store, 0) && same_from(&s->out, 0) && same_from(&s->set, 0));
    }
    HOLDS(!s->sound || cuddrewyn_check(s->r, s->store.bytes, s->store.length).answer == CUDDREWYN_ACCEPTED);
    HOLDS(!s->sound || !refused_with(got, CUDDREWYN_MALFORMED_STORE));
    return got;
}

/* ---- what is well formed, by the readers of cuddrewyn_read.h and the rules of a list */

static bool good_buckets(cuddrewyn_items buckets) {
    cuddrewyn_range bucket, other;
    while (cuddrewyn_next_bucket(&buckets, &bucket)) {
        if (bucket.start > bucket.end) {
            return false;
        }
        for (cuddrewyn_items rest = buckets; cuddrewyn_next_bucket(&rest, &other);) {
            if (bucket.start <= other.end && other.start <= bucket.end) {
                return false;
            }
        }
    }
    return true;
}

static bool good_segments(cuddrewyn_items segments) {
    cuddrewyn_segment segment;
    bool first = true;
    for (uint64_t last = 0; cuddrewyn_next_segment(&segments, &segment); last = segment.id, first = false) {
        if ((!first && segment.id <= last) || segment.start > segment.end || !good_buckets(segment.buckets)) {
            return false;
        }
    }
    HOLDS(segments.count == 0 && segments.length == 0);
    return true;
}

static bool good_ids(cuddrewyn_items ids) {
    bool first = true;
    for (uint64_t last = 0, id; cuddrewyn_next_id(&ids, &id); last = id, first = false) {
        if (!first && id <= last) {
            return false;
        }
    }
    HOLDS(ids.count == 0 && ids.length == 0);
    return true;
}

static bool good_list(const uint8_t *bytes, size_t length) {
    cuddrewyn_list list;
    bool good = cuddrewyn_read_list(bytes, length, &list) && list.length == length && good_segments(list.segments);
    HOLDS(cuddrewyn_list_length(bytes, length) <= length);
    return good;
}

/* Deltas one behind another; none is good too. Gives how many, or -1. */
static int good_deltas(const uint8_t *bytes, size_t length) {
    cuddrewyn_delta delta;
    int count = 0;
    for (; length > 0; bytes += delta.length, length -= delta.length, count++) {
        if (!cuddrewyn_read_delta(bytes, length, &delta) || !good_ids(delta.lost) || !good_segments(delta.gained)) {
            return -1;
        }
        HOLDS(delta.length >= 12 && delta.length <= length && delta.length == cuddrewyn_delta_length(bytes, length));
    }
    return count;
}

/* ---- lists and deltas */

/* The values that a segment takes: of its buckets, or else of its range. */
static uint64_t values_of(const cuddrewyn_segment *segment) {
    cuddrewyn_items buckets = segment->buckets;
    cuddrewyn_range bucket;
    uint64_t values = 0;
    while (cuddrewyn_next_bucket(&buckets, &bucket)) {
        values += bucket.end - bucket.start + 1u;
    }
    return segment->buckets.count > 0 ? values : segment->end - segment->start + 1u;
}

/* A segment of a list by the library: what it charges for a second at a rate that makes it the values, and the key that
 * it has. */
static void agree_on_segment(piece list, const cuddrewyn_segment *segment) {
    cuddrewyn_reply charged = tallied(cuddrewyn_charge(segment->record, segment->record_len, 1, CUDDREWYN_DIVISOR, 0));
    HOLDS(charged.answer == CUDDREWYN_FOUND && charged.first == values_of(segment) && charged.second == 0);
    cuddrewyn_reply key = tallied(cuddrewyn_key_in_segment(LENT(list), segment->id));
    HOLDS(key.answer == CUDDREWYN_FOUND || (key.answer == CUDDREWYN_NO && segment->buckets.count > 0));
    if (key.answer == CUDDREWYN_FOUND) {
        const uint8_t bytes[4] = {(uint8_t)key.first, (uint8_t)key.second, (uint8_t)key.third, (uint8_t)key.fourth};
        cuddrewyn_reply found = tallied(cuddrewyn_segment_for_key(bytes, 4, LENT(list)));
        HOLDS(found.answer == CUDDREWYN_FOUND && found.first <= segment->id);
    }
}

/* The readers and the library take the same lists, and read them alike. Gives how many buckets there are. */
static size_t agree_on_list(piece list) {
    bool good = good_list(list.bytes, list.length);
    cuddrewyn_reply asked = tallied(cuddrewyn_key_in_segment(LENT(list), 0));
    HOLDS(refused_with(asked, CUDDREWYN_MALFORMED_INPUT) == !good);
    cuddrewyn_list read;
    cuddrewyn_segment segment;
    size_t buckets = 0;
    if (good && cuddrewyn_read_list(list.bytes, list.length, &read)) {
        size_t segments = read.segments.count;
        while (cuddrewyn_next_segment(&read.segments, &segment)) {
            buckets += segment.buckets.count;
            agree_on_segment(list, &segment);
        }
        HOLDS(list.length == CUDDREWYN_LIST_SIZE(segments, buckets));
    }
    return buckets;
}

/* apply with just the room that always suffices; gives the list, of length 0 where it is refused. */
static piece applied(piece list, piece delta) {
    room out = lend(CUDDREWYN_APPLY_ROOM);
    remember(&out);
    cuddrewyn_reply got = tallied(cuddrewyn_apply(LENT(list), LENT(delta), out.bytes, out.length));
    bool written = got.answer == CUDDREWYN_WRITTEN;
    bool good = good_list(list.bytes, list.length) && good_deltas(delta.bytes, delta.length) == 1;
    HOLDS(same_from(&out, written ? (size_t)got.first : 0));
    HOLDS(refused_with(got, CUDDREWYN_MALFORMED_INPUT) == !good && !refused_with(got, CUDDREWYN_RESULT_TOO_LONG));
    piece result = copied(out.bytes, written ? (size_t)got.first : 0);
    HOLDS(!written || good_list(result.bytes, result.length));
    give_back(&out);
    return result;
}

static piece joined(piece d, piece e) {
    room out = lend(CUDDREWYN_JOIN_ROOM(d.length, e.length));
    remember(&out);
    cuddrewyn_reply got = tallied(cuddrewyn_join(LENT(d), LENT(e), out.bytes, out.length));
    bool written = got.answer == CUDDREWYN_WRITTEN;
    bool good = good_deltas(d.bytes, d.length) == 1 && good_deltas(e.bytes, e.length) == 1;
    HOLDS(same_from(&out, written ? (size_t)got.first : 0));
    HOLDS(written == good && (written || refused_with(got, CUDDREWYN_MALFORMED_INPUT)));
    piece result = copied(out.bytes, written ? (size_t)got.first : 0);
    HOLDS(!written || good_deltas(result.bytes, result.length) == 1);
    give_back(&out);
    return result;
}

static bool equal(piece p, piece q) {
    return p.length == q.length && (p.length == 0 || memcmp(p.bytes, q.bytes, p.length) == 0);
}

/* One delta behind the other is their join. */
static void agree_on_join(piece list, piece d, piece e) {
    piece x = applied(list, d), y = applied(x, e), both = joined(d, e), z = applied(list, both);
    HOLDS(x.length == 0 || y.length == 0 || equal(y, z));
    free(x.bytes), free(y.bytes), free(both.bytes), free(z.bytes);
}

/* The writer, with just the room that always suffices. */
static void agree_on_message(piece list, size_t buckets, piece parent) {
    cuddrewyn_list read;
    size_t segments = cuddrewyn_read_list(list.bytes, list.length, &read) ? read.segments.count : 0;
    room out = lend(CUDDREWYN_TO_PB_ROOM(parent.length, segments, buckets));
    remember(&out);
    cuddrewyn_reply got = tallied(cuddrewyn_to_pb(LENT(list), LENT(parent), out.bytes, out.length));
    HOLDS(same_from(&out, got.answer == CUDDREWYN_WRITTEN ? (size_t)got.first : 0));
    HOLDS(!refused_with(got, CUDDREWYN_RESULT_TOO_LONG));
    HOLDS(refused_with(got, CUDDREWYN_MALFORMED_INPUT) == !good_list(list.bytes, list.length));
    give_back(&out);
}

/* ---- the steps: calls of a session */

static void step_open(session *s, script *in) {
    piece topic = take_piece(in), subscription = take_piece(in), name = take_piece(in);
    uint64_t id = number(in, 1), incarnation = number(in, 1);
    int32_t kind = (int32_t)number(in, 1) - 1;
    s->sound = false;
    cuddrewyn_session_reply got = cuddrewyn_open(id, incarnation, LENT(topic), LENT(subscription), LENT(name), kind,
                                                 s->store.bytes, s->store.length);
    if (got.reply.answer == CUDDREWYN_ACCEPTED) {
        s->r = got.state;
        s->sound = true;
        HOLDS(s->r.consumer_id == id && s->r.incarnation == incarnation && !s->r.registered && s->r.queue_count == 0);
        cuddrewyn_reply matches = cuddrewyn_matches_registration(s->store.bytes, s->store.length, LENT(topic),
                                                                 LENT(subscription), LENT(name), kind);
        HOLDS(matches.answer == CUDDREWYN_YES);
    }
    settled(s, got.reply, 0);
    free(topic.bytes), free(subscription.bytes), free(name.bytes);
}

static void step_begin(session *s, script *in) {
    uint64_t incarnation = s->r.incarnation + number(in, 1) - 1;
    bool advances = incarnation > s->r.incarnation;
    cuddrewyn_reply got = settled(s, cuddrewyn_begin(&s->r, incarnation), 0);
    HOLDS(got.answer == (advances ? CUDDREWYN_ACCEPTED : CUDDREWYN_REFUSED));
    HOLDS(!advances || (s->r.incarnation == incarnation && !s->r.registered));
}

static void step_invalidate(session *s, script *in) {
    (void)in;
    HOLDS(settled(s, cuddrewyn_invalidate(&s->r), 0).answer == CUDDREWYN_ACCEPTED);
    HOLDS(s->r.invalidated == 1 && s->r.registered == 0);
}

/* The link's own incarnation, or now and then another one. */
static uint64_t incarnation_of(session *s, script *in) {
    uint64_t other = number(in, 1);
    return other < 0xf0 ? s->r.incarnation : other;
}

static piece list_at(const uint8_t *store, size_t length, size_t place) {
    HOLDS(place <= length);
    return copied(store + place, cuddrewyn_list_length(store + place, length - place));
}

/* The delta is good, and makes of the list before it the one behind it. */
static void leads(piece old, piece new, const uint8_t *delta, size_t length) {
    piece d = copied(delta, length), made = applied(old, d);
    HOLDS(good_deltas(d.bytes, d.length) == 1 && new.length > 0 && equal(made, new));
    free(d.bytes), free(made.bytes);
}

static void update(session *s, piece message, uint64_t incarnation) {
    cuddrewyn_reply got = cuddrewyn_update(&s->r, s->store.bytes, s->store.length, LENT(message), incarnation,
                                           s->out.bytes, s->out.length);
    settled(s, got, got.answer == CUDDREWYN_DELTA ? (size_t)got.first : 0);
    if (got.answer == CUDDREWYN_REFUSED) {
        return;
    }
    HOLDS(cuddrewyn_check(s->r, s->store.bytes, s->store.length).answer == CUDDREWYN_ACCEPTED);
    if (got.answer == CUDDREWYN_DELTA) {
        piece old = list_at(s->store.before + GUARD, s->store.length, CUDDREWYN_LIST);
        piece new = list_at(s->store.bytes, s->store.length, CUDDREWYN_LIST);
        HOLDS(s->before.registered && s->out.length >= CUDDREWYN_MIN_OUTPUT);
        leads(old, new, s->out.bytes, (size_t)got.first);
        free(old.bytes), free(new.bytes);
    } else {
        HOLDS(got.answer == CUDDREWYN_UNCHANGED);
        HOLDS(s->r.queue_count == s->before.queue_count + !s->before.registered);
        HOLDS(memcmp(s->store.bytes, s->store.before + GUARD,
                     s->before.registered ? s->store.length : CUDDREWYN_QUEUE) == 0);
    }
}

static void step_update(session *s, script *in) {
    uint64_t incarnation = incarnation_of(s, in);
    piece message = take_piece(in);
    update(s, message, incarnation);
    free(message.bytes);
}

/* A reader's drains lead from the baseline to the list held; of a copy of the record. */
static void drains_lead(session *s, size_t reader) {
    cuddrewyn_record r = s->r;
    room out = lend(CUDDREWYN_MIN_OUTPUT);
    piece held = list_at(s->store.bytes, s->store.length, CUDDREWYN_LIST),
          list = list_at(s->store.bytes, s->store.length, CUDDREWYN_BASELINE);
    for (;;) {
        cuddrewyn_reply got = cuddrewyn_drain_for(&r, s->store.bytes, s->store.length, reader, out.bytes, out.length);
        if (got.answer != CUDDREWYN_REPLAY) {
            HOLDS(got.answer == CUDDREWYN_UNCHANGED);
            break;
        }
        piece next = list_at(s->store.bytes, s->store.length, (size_t)got.first);
        leads(list, next, out.bytes, (size_t)got.second);
        free(list.bytes);
        list = next;
    }
    HOLDS(equal(list, held));
    free(held.bytes), free(list.bytes);
    give_back(&out);
}

static void response(session *s, piece message, uint64_t incarnation) {
    cuddrewyn_reply got =
        settled(s, cuddrewyn_response(&s->r, s->store.bytes, s->store.length, LENT(message), incarnation), 0);
    cuddrewyn_part text = cuddrewyn_response_text(LENT(message));
    HOLDS(text.length == 0 || (text.start <= message.length && text.length <= message.length - text.start));
    if (got.answer == CUDDREWYN_ACCEPTED) {
        HOLDS(s->r.registered && cuddrewyn_check(s->r, s->store.bytes, s->store.length).answer == CUDDREWYN_ACCEPTED);
        HOLDS(!s->sound || s->r.drain_positions[7] == 0);
        if (s->r.drain_positions[7] == 0) {
            drains_lead(s, 7);
        }
    }
}

static void step_response(session *s, script *in) {
    uint64_t incarnation = incarnation_of(s, in);
    piece message = take_piece(in);
    response(s, message, incarnation);
    free(message.bytes);
}

static void step_drain(session *s, script *in) {
    size_t reader = (size_t)number(in, 1) % (CUDDREWYN_READERS + 1);
    cuddrewyn_reply got =
        cuddrewyn_drain_for(&s->r, s->store.bytes, s->store.length, reader, s->out.bytes, s->out.length);
    bool replay = settled(s, got, got.answer == CUDDREWYN_REPLAY ? (size_t)got.second : 0).answer == CUDDREWYN_REPLAY;
    HOLDS(same_from(&s->store, 0));
    HOLDS(got.answer == CUDDREWYN_REFUSED || reader < CUDDREWYN_READERS);
    if (replay) {
        piece list = list_at(s->store.bytes, s->store.length, (size_t)got.first);
        HOLDS(good_list(list.bytes, list.length) && good_deltas(s->out.bytes, (size_t)got.second) == 1);
        HOLDS(s->r.drain_positions[reader] > s->before.drain_positions[reader]);
        free(list.bytes);
    }
}

/* Bytes of the record or of the store are changed, as by a bad disk. */
static void step_damage(session *s, script *in) {
    size_t place = (size_t)number(in, 2);
    uint8_t byte = (uint8_t)number(in, 1);
    if (place < sizeof s->r) {
        memcpy((uint8_t *)&s->r + place, &byte, 1);
    } else if (place - sizeof s->r < s->store.length) {
        s->store.bytes[place - sizeof s->r] = byte;
    }
    s->sound = false;
    tallied(cuddrewyn_check(s->r, s->store.bytes, s->store.length));
}

/* The session saved, with just the room that always suffices, and taken back into another store; and the same form with
 * one byte changed, or cut. */
static void step_save(session *s, script *in) {
    size_t place = (size_t)number(in, 2);
    uint8_t change = (uint8_t)number(in, 1);
    room form = lend(s->store.length + CUDDREWYN_SAVED_HEAD), store = lend(s->store.length);
    remember(&form), remember(&store);
    cuddrewyn_reply got = tallied(cuddrewyn_save(s->r, s->store.bytes, s->store.length, form.bytes, form.length));
    size_t length = got.answer == CUDDREWYN_WRITTEN ? (size_t)got.first : 0;
    HOLDS(same_from(&form, length) && same_from(&s->store, 0) && (!s->sound || length > 0));
    form.bytes[length > 0 ? place % length : 0] ^= change;
    cuddrewyn_session_reply wrong = cuddrewyn_restore(form.bytes, length, store.bytes, store.length);
    bool changed = length == 0 || change != 0;
    HOLDS(refused_with(tallied(wrong.reply), CUDDREWYN_MALFORMED_SAVE) == changed && (!changed || same_from(&store, 0)));
    form.bytes[length > 0 ? place % length : 0] ^= change;
    cuddrewyn_session_reply back = cuddrewyn_restore(form.bytes, length, store.bytes, store.length);
    HOLDS((tallied(back.reply).answer == CUDDREWYN_ACCEPTED) == (length > 0));
    if (length > 0) {
        HOLDS(cuddrewyn_check(back.state, store.bytes, store.length).answer == CUDDREWYN_ACCEPTED);
        HOLDS(memcmp(store.bytes, s->store.bytes, length - CUDDREWYN_SAVED_HEAD) == 0);
        HOLDS(back.state.incarnation == s->r.incarnation && back.state.queue_count == s->r.queue_count);
    }
    give_back(&form), give_back(&store);
}

/* Another store and another output, filled anew. */
static void step_lend(session *s, script *in) {
    size_t pushes = (size_t)number(in, 1) % 8, less = (size_t)number(in, 1), output = (size_t)number(in, 1);
    give_back(&s->store);
    give_back(&s->out);
    s->store = lend(CUDDREWYN_STORE_ROOM(pushes, 64) - (less < 0xf0 ? 0 : less));
    s->out = lend(output < 0xe0 ? CUDDREWYN_MIN_OUTPUT : output & 31);
    s->sound = false;
}

/* ---- the steps: calls without a session */

static void step_lists(session *s, script *in) {
    (void)s;
    piece list = take_piece(in), d = take_piece(in), e = take_piece(in), parent = take_piece(in);
    agree_on_message(list, agree_on_list(list), parent);
    agree_on_join(list, d, e);
    free(list.bytes), free(d.bytes), free(e.bytes), free(parent.bytes);
}

/* An output of any length: what is refused leaves it. */
static void step_short(session *s, script *in) {
    (void)s;
    room out = lend((size_t)number(in, 1));
    piece list = take_piece(in), d = take_piece(in), parent = take_piece(in);
    remember(&out);
    for (int call = 0; call < 4; call++) {
        cuddrewyn_reply got = call == 0   ? cuddrewyn_apply(LENT(list), LENT(d), out.bytes, out.length)
                              : call == 1 ? cuddrewyn_join(LENT(d), LENT(d), out.bytes, out.length)
                              : call == 2 ? cuddrewyn_to_pb(LENT(list), LENT(parent), out.bytes, out.length)
                                          : cuddrewyn_segment_topic(LENT(parent), 0, 1, 2, out.bytes, out.length);
        HOLDS(same_from(&out, tallied(got).answer == CUDDREWYN_WRITTEN ? (size_t)got.first : 0));
        remember(&out);
    }
    give_back(&out);
    free(list.bytes), free(d.bytes), free(parent.bytes);
}

/* Records and keys. */
static void step_keys(session *s, script *in) {
    static const uint8_t longest[CUDDREWYN_LONGEST_KEY + 1];
    (void)s;
    piece record = take_piece(in), key = take_piece(in), list = take_piece(in);
    uint64_t seconds = number(in, 4), rate = number(in, 6), remainder = number(in, 4);
    cuddrewyn_reply charged = tallied(cuddrewyn_charge(LENT(record), seconds, rate, remainder));
    HOLDS(charged.answer == CUDDREWYN_REFUSED || charged.second < CUDDREWYN_DIVISOR);
    HOLDS(remainder < CUDDREWYN_DIVISOR || charged.answer == CUDDREWYN_REFUSED);
    cuddrewyn_reply found = tallied(cuddrewyn_segment_for_key(LENT(key), LENT(list)));
    HOLDS(refused_with(found, CUDDREWYN_MALFORMED_INPUT) == !good_list(list.bytes, list.length));
    HOLDS(
        refused_with(tallied(cuddrewyn_segment_for_key(longest, sizeof longest, LENT(list))), CUDDREWYN_KEY_TOO_LONG));
    free(record.bytes), free(key.bytes), free(list.bytes);
}

/* The list held, and a delta of the script. */
static void step_held(session *s, script *in) {
    piece d = take_piece(in), parent = take_piece(in);
    if (s->store.length >= CUDDREWYN_MIN_STORE) {
        piece list = list_at(s->store.bytes, s->store.length, CUDDREWYN_LIST);
        agree_on_message(list, agree_on_list(list), parent);
        agree_on_join(list, d, d);
        free(list.bytes);
    }
    free(d.bytes), free(parent.bytes);
}

static void step_log(session *s, script *in) {
    (void)s;
    piece deltas = take_piece(in), log = take_piece(in);
    cuddrewyn_reply got = tallied(cuddrewyn_check_log(LENT(deltas), LENT(log)));
    bool good = good_deltas(deltas.bytes, deltas.length) >= 0;
    HOLDS(refused_with(got, CUDDREWYN_MALFORMED_INPUT) == !good);
    HOLDS(!good || log.length % CUDDREWYN_LOG_ENTRY == 0 || refused_with(got, CUDDREWYN_INVALID_LOG));
    free(deltas.bytes), free(log.bytes);
}

static void step_names(session *s, script *in) {
    (void)s;
    piece parent = take_piece(in), topic = take_piece(in);
    uint32_t start = (uint32_t)number(in, 3), end = (uint32_t)number(in, 3);
    uint64_t id = number(in, 8);
    room out = lend(CUDDREWYN_SEGMENT_TOPIC_ROOM(parent.length)),
         back = lend(CUDDREWYN_PARENT_TOPIC_ROOM(topic.length));
    cuddrewyn_reply named = tallied(cuddrewyn_segment_topic(LENT(parent), start, end, id, out.bytes, out.length));
    HOLDS(!refused_with(named, CUDDREWYN_RESULT_TOO_LONG));
    if (named.answer == CUDDREWYN_WRITTEN) {
        cuddrewyn_reply source = cuddrewyn_segment_source(id, out.bytes, (size_t)named.first);
        HOLDS(source.answer == CUDDREWYN_FOUND && source.first == start && source.second == end);
        room again = lend((size_t)named.first);
        cuddrewyn_reply of = cuddrewyn_parent_topic(out.bytes, (size_t)named.first, again.bytes, again.length);
        HOLDS(of.answer == CUDDREWYN_WRITTEN && of.first == parent.length &&
              memcmp(again.bytes, parent.bytes, parent.length) == 0);
        give_back(&again);
    }
    tallied(cuddrewyn_segment_source(id, LENT(topic)));
    cuddrewyn_reply of =
        tallied(cuddrewyn_parent_topic(LENT(topic), cuddrewyn_room(back.bytes, back.length), back.length));
    HOLDS(!refused_with(of, CUDDREWYN_RESULT_TOO_LONG));
    give_back(&out);
    give_back(&back);
    free(parent.bytes), free(topic.bytes);
}

static void step_ranges(session *s, script *in) {
    (void)s;
    uint32_t start = (uint32_t)number(in, 3), end = (uint32_t)number(in, 3), hash = (uint32_t)number(in, 4);
    bool good = start <= end && end <= 65535;
    cuddrewyn_reply length = tallied(cuddrewyn_range_len(start, end)),
                    has = tallied(cuddrewyn_range_contains(start, end, hash));
    HOLDS(length.answer == (good ? CUDDREWYN_FOUND : CUDDREWYN_REFUSED) && (!good || length.first == end - start + 1u));
    HOLDS(!good || has.answer == (start <= hash && hash <= end ? CUDDREWYN_YES : CUDDREWYN_NO));
    tallied(cuddrewyn_range_contains_range(start, end, hash >> 16, hash & 0xffff));
    tallied(cuddrewyn_range_is_adjacent_to(start, end, hash >> 16, hash & 0xffff));
    cuddrewyn_reply key = tallied(cuddrewyn_key_for_hash(hash));
    HOLDS(key.answer == CUDDREWYN_FOUND && (key.first | key.second | key.third | key.fourth) <= 0xff);
    HOLDS(cuddrewyn_consumer_type((int32_t)hash) == (hash == 1));
}

static void step_hours(session *s, script *in) {
    (void)s;
    piece contract = take_piece(in);
    uint64_t second = number(in, 8);
    cuddrewyn_reply open = tallied(cuddrewyn_is_open(LENT(contract), second)),
                    next = tallied(cuddrewyn_earliest_open(LENT(contract), second));
    HOLDS((open.answer == CUDDREWYN_REFUSED) == (next.answer == CUDDREWYN_REFUSED));
    HOLDS(open.answer != CUDDREWYN_YES || (next.answer == CUDDREWYN_FOUND && next.first == second));
    HOLDS(open.answer != CUDDREWYN_NO || next.answer == CUDDREWYN_NO || next.first > second);
    HOLDS(next.answer != CUDDREWYN_FOUND || cuddrewyn_is_open(LENT(contract), next.first).answer == CUDDREWYN_YES);
    free(contract.bytes);
}

/* A window of counts: of bytes of zero, with the two of its mark and one more from the script. */
static void step_churn(session *s, script *in) {
    (void)s;
    uint64_t mark = number(in, 2), length = number(in, 1);
    room window = lend(length < 0xf0 ? CUDDREWYN_CHURN_WINDOW : (size_t)length);
    memset(window.bytes, 0, window.length);
    window.bytes[0] = (uint8_t)(mark >> 8), window.bytes[1] = (uint8_t)mark, window.bytes[2] = (uint8_t)number(in, 1);
    remember(&window);
    cuddrewyn_reply got = tallied(cuddrewyn_churn_push(window.bytes, window.length, number(in, 3)));
    HOLDS(same_from(&window, got.answer == CUDDREWYN_REFUSED ? 0 : window.length));
    cuddrewyn_reply current = tallied(cuddrewyn_churn_current(window.bytes, window.length));
    HOLDS(got.answer != CUDDREWYN_FOUND ||
          (current.first == got.first && current.second == got.second && got.second <= got.first));
    HOLDS(cuddrewyn_churn_clear(window.bytes, window.length).first == 0);
    give_back(&window);
}

/* ---- the steps: the watch */

static size_t count_topics(const uint8_t *bytes, size_t length) {
    cuddrewyn_items topics;
    HOLDS(cuddrewyn_read_set(bytes, length, &topics));
    return topics.count;
}

static bool has_topic(cuddrewyn_items set, cuddrewyn_topic topic) {
    cuddrewyn_topic other;
    while (cuddrewyn_next_topic(&set, &other)) {
        if (other.length == topic.length && memcmp(other.bytes, topic.bytes, topic.length) == 0) {
            return true;
        }
    }
    return false;
}

/* Whether the set has all the topics. */
static bool has_all(const uint8_t *bytes, size_t length, cuddrewyn_items topics) {
    cuddrewyn_items set;
    cuddrewyn_topic topic;
    HOLDS(cuddrewyn_read_set(bytes, length, &set));
    while (cuddrewyn_next_topic(&topics, &topic)) {
        if (!has_topic(set, topic)) {
            return false;
        }
    }
    HOLDS(topics.count == 0 && topics.length == 0);
    return true;
}

/* The output, read, is what became of the set. */
static void agree_on_topics(session *s, size_t set_len, size_t output) {
    cuddrewyn_topics topics;
    const uint8_t *old = s->set.before + GUARD;
    HOLDS(cuddrewyn_read_topics(s->out.bytes, output, &topics));
    HOLDS(has_all(s->set.bytes, set_len, topics.added));
    if (topics.is_diff) {
        HOLDS(output == CUDDREWYN_DIFF_SIZE(topics.added.length, topics.removed.length));
        HOLDS(has_all(old, s->used, topics.removed));
        HOLDS(count_topics(s->set.bytes, set_len) + topics.removed.count ==
              count_topics(old, s->used) + topics.added.count);
    } else {
        HOLDS(output == CUDDREWYN_SNAPSHOT_SIZE(set_len) && topics.removed.count == 0);
        HOLDS(memcmp(s->out.bytes + 1, s->set.bytes, set_len) == 0);
    }
}

static void watch(session *s, piece message, uint64_t watch_id) {
    cuddrewyn_items set;
    bool whole = s->used <= s->set.length && cuddrewyn_read_set(s->set.bytes, s->used, &set);
    cuddrewyn_reply got =
        cuddrewyn_watch(watch_id, s->set.bytes, s->set.length, s->used, LENT(message), s->out.bytes, s->out.length);
    bool written = got.answer == CUDDREWYN_WRITTEN;
    settled(s, got, written ? (size_t)got.second : 0);
    HOLDS(same_from(&s->store, 0));
    HOLDS(whole || refused_with(got, CUDDREWYN_MALFORMED_SET));
    HOLDS(!s->sound_set || !refused_with(got, CUDDREWYN_MALFORMED_SET));
    HOLDS(!refused_with(got, CUDDREWYN_RESULT_TOO_LONG) || s->out.length < CUDDREWYN_WATCH_ROOM(message.length));
    HOLDS(!refused_with(got, CUDDREWYN_SET_TOO_LONG) ||
          s->set.length < CUDDREWYN_WATCH_BUFFER_ROOM(s->used, message.length));
    cuddrewyn_part text = cuddrewyn_watch_text(LENT(message));
    HOLDS(text.length == 0 || (text.start <= message.length && text.length <= message.length - text.start));
    if (written) {
        HOLDS(got.first <= s->set.length && same_from(&s->set, (size_t)got.first));
        agree_on_topics(s, (size_t)got.first, (size_t)got.second);
        s->used = (size_t)got.first;
    }
}

static void step_watch(session *s, script *in) {
    uint64_t watch_id = number(in, 1);
    piece message = take_piece(in);
    watch(s, message, watch_id);
    free(message.bytes);
}

/* Another buffer, whose set is a piece of the script. */
static void step_set(session *s, script *in) {
    size_t length = (size_t)number(in, 1);
    piece set = take_piece(in);
    give_back(&s->set);
    s->set = lend(length + set.length);
    memcpy(s->set.bytes, LENT(set));
    s->used = set.length;
    s->sound_set = set.length == 0;
    free(set.bytes);
}

/* Every topic is handed out, and they fill their bytes. */
static void walk_topics(cuddrewyn_items topics) {
    cuddrewyn_topic topic;
    while (cuddrewyn_next_topic(&topics, &topic)) {
        piece read = copied(topic.bytes, topic.length);
        free(read.bytes);
    }
    HOLDS(topics.count == 0 && topics.length == 0);
}

/* Any bytes as the output of the watch, and as a set. */
static void step_read(session *s, script *in) {
    (void)s;
    piece bytes = take_piece(in);
    cuddrewyn_topics topics;
    cuddrewyn_items set;
    if (cuddrewyn_read_topics(bytes.bytes, bytes.length, &topics)) {
        size_t snapshot = CUDDREWYN_SNAPSHOT_SIZE(topics.added.length),
               diff = CUDDREWYN_DIFF_SIZE(topics.added.length, topics.removed.length);
        HOLDS(bytes.length == (topics.is_diff ? diff : snapshot));
        walk_topics(topics.added);
        walk_topics(topics.removed);
    }
    if (cuddrewyn_read_set(bytes.bytes, bytes.length, &set)) {
        walk_topics(set);
    }
    free(bytes.bytes);
}

/* The outer message: what it carries is handed to its call. */
static void step_command(session *s, script *in) {
    piece bytes = take_piece(in);
    cuddrewyn_reply got = tallied(cuddrewyn_command(LENT(bytes)));
    if (got.answer == CUDDREWYN_FOUND) {
        HOLDS(got.second <= bytes.length && got.third <= bytes.length - got.second);
        piece message = copied(bytes.bytes + got.second, (size_t)got.third);
        if (got.first == CUDDREWYN_SUBSCRIBE_RESPONSE) {
            response(s, message, s->r.incarnation);
        } else if (got.first == CUDDREWYN_ASSIGNMENT_UPDATE) {
            update(s, message, s->r.incarnation);
        } else {
            HOLDS(got.first == CUDDREWYN_TOPICS_UPDATE);
            watch(s, message, got.fourth);
        }
        free(message.bytes);
    }
    free(bytes.bytes);
}

/* ---- the run */

static void (*const STEPS[])(session *, script *) = {
    step_open,  step_begin, step_invalidate, step_update,  step_response, step_drain,  step_damage,
    step_lend,  step_lists, step_held,       step_log,     step_names,    step_ranges, step_hours,
    step_churn, step_watch, step_set,        step_command, step_short,    step_keys,   step_read,
    step_save,
};

int LLVMFuzzerTestOneInput(const uint8_t *data, size_t size) {
    script in = {data, size};
    session s = {.store = lend(CUDDREWYN_STORE_ROOM(4, 64)),
                 .out = lend(CUDDREWYN_MIN_OUTPUT),
                 .set = lend(64),
                 .sound_set = true};
    for (int steps = 0; in.left > 0 && steps < 64; steps++) {
        remember_all(&s);
        STEPS[number(&in, 1) % (sizeof STEPS / sizeof *STEPS)](&s, &in);
    }
    give_back(&s.store);
    give_back(&s.out);
    give_back(&s.set);
    return 0;
}
