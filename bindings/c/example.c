/* A short pass of a station: a push before the response waits, the response is taken, two readers drain what waited, an old push is refused.
 * Every value is checked; the exit status is 0 only where all are as expected. */
#include "check.h"
#include "messages.h"

static const char TOPIC[] = "topic://a/b/c";
static const char NAME[] = "segment://a/b/c/0000-7fff-0";

/* The packed list of segment 0 at epoch 3, and the delta to it from an empty list. */
static const uint8_t LIST[] = {0, 0, 0, 0, 0, 0, 0, 3, 0, 1, 0, 0, 0, 0, 0, 0, 0, 0, 0, 0, 0x7f, 0xff, 0, 0};
static const uint8_t DELTA[] = {0, 0, 0, 0, 0, 0, 0, 3, 0, 0, 0, 1, 0, 0, 0, 0, 0, 0, 0, 0, 0, 0, 0x7f, 0xff, 0, 0};
static const uint8_t EMPTY_BASELINE[] = {0, 0, 0, 0, 0, 0, 0, 2, 0, 0};

/* Where the list of the first push that waits lies. */
enum { PLACE = CUDDREWYN_QUEUE + CUDDREWYN_QUEUE_LENGTH };

/* The station's memory, lent to every call: a store with room for two pushes that wait, whatever their lists, and an output. */
static uint8_t store[CUDDREWYN_MIN_STORE + 2 * (CUDDREWYN_QUEUE_LENGTH + CUDDREWYN_SLOT)];
static uint8_t out[CUDDREWYN_MIN_OUTPUT];

/* The station's session. */
static cuddrewyn_record r;

/* Prints the answer of a call, and checks reply and record. */
static void answered(const char *call, cuddrewyn_reply got, cuddrewyn_reply reply, cuddrewyn_record record) {
    printf("%-10s %s, refusal %s, floor %" PRIu64 ", queued %zu\n", call, cuddrewyn_answer_name(got.answer),
           cuddrewyn_refusal_name(got.number), r.epoch_floor, r.queue_count);
    check_reply(got, reply);
    check_record(r, record);
}

static cuddrewyn_reply push(const message *m) {
    return cuddrewyn_update(&r, store, sizeof store, m->bytes, m->length, r.incarnation, out, sizeof out);
}

/* A registered session that holds segment 0 at epoch 3. */
static void attach(void) {
    message segment = segment_of(0, 0, 0x7fff, NAME);
    message update = update_of(7, 3, &segment);
    message response = response_of(1, 2, NULL);
    cuddrewyn_record expected = {.consumer_id = 7, .incarnation = 1};
    cuddrewyn_session_reply opened = cuddrewyn_open(7, 1, (const uint8_t *)TOPIC, strlen(TOPIC), (const uint8_t *)"uplink", 6,
                                                    (const uint8_t *)"station-1", 9, 0, store, sizeof store);
    r = opened.state;
    answered("open", opened.reply, (cuddrewyn_reply){.answer = CUDDREWYN_ACCEPTED}, expected);

    expected.queue_count = 1;
    answered("update", push(&update), (cuddrewyn_reply){.answer = CUDDREWYN_UNCHANGED}, expected);

    expected.registered = expected.has_floor = 1;
    expected.epoch_floor = 3;
    answered("response", cuddrewyn_response(&r, store, sizeof store, response.bytes, response.length, 1),
             (cuddrewyn_reply){.answer = CUDDREWYN_ACCEPTED}, expected);
    check_bytes(store + CUDDREWYN_BASELINE, EMPTY_BASELINE, sizeof EMPTY_BASELINE, "the baseline");
    check_bytes(store + CUDDREWYN_LIST, LIST, sizeof LIST, "the list held");

    for (size_t reader = 0; reader < 2; reader++) {
        expected.drain_positions[reader] = 1;
        memset(out, 0, sizeof out);
        answered("drain", cuddrewyn_drain_for(&r, store, sizeof store, reader, out, sizeof out),
                 (cuddrewyn_reply){.answer = CUDDREWYN_REPLAY, .count = 2, .first = PLACE, .second = sizeof DELTA}, expected);
        check_bytes(out, DELTA, sizeof DELTA, "the delta replayed");
        answered("drain", cuddrewyn_drain_for(&r, store, sizeof store, reader, out, sizeof out),
                 (cuddrewyn_reply){.answer = CUDDREWYN_UNCHANGED}, expected);
    }
    check_bytes(store + PLACE, LIST, sizeof LIST, "the list replayed");
}

/* A push of the list held, one of a newer epoch, and an old one, which changes nothing. */
static void follow(void) {
    static uint8_t before[sizeof store];
    message segment = segment_of(0, 0, 0x7fff, NAME);
    message same = update_of(7, 3, &segment), newer = update_of(7, 4, &segment), old = update_of(7, 2, &segment);
    cuddrewyn_record expected = r;
    answered("update", push(&same), (cuddrewyn_reply){.answer = CUDDREWYN_UNCHANGED}, expected);
    expected.epoch_floor = 4;
    answered("update", push(&newer), (cuddrewyn_reply){.answer = CUDDREWYN_DELTA, .count = 1, .first = 12}, expected);
    check_bytes(out, "\0\0\0\0\0\0\0\4\0\0\0\0", 12, "the delta of a newer epoch");

    memcpy(before, store, sizeof store);
    memset(out, 0xaa, sizeof out);
    answered("update", push(&old),
             (cuddrewyn_reply){.answer = CUDDREWYN_REFUSED, .number = CUDDREWYN_STALE_EPOCH, .count = 2, .first = 2, .second = 4}, expected);
    check_bytes(store, before, sizeof store, "the store after a refusal");
    bool same_output = true;
    for (size_t i = 0; i < sizeof out; i++) {
        same_output = same_output && out[i] == 0xaa;
    }
    check(same_output, "the output after a refusal");
}

/* A new connection, whose broker says no: its text is a part of the message. */
static void reconnect(void) {
    message no = rejection_of(9, -22, "topic is being moved");
    cuddrewyn_record expected = {.consumer_id = 7, .incarnation = 2, .has_floor = 1, .epoch_floor = 4};
    answered("begin", cuddrewyn_begin(&r, 2), (cuddrewyn_reply){.answer = CUDDREWYN_ACCEPTED}, expected);
    answered("response", cuddrewyn_response(&r, store, sizeof store, no.bytes, no.length, 2),
             (cuddrewyn_reply){.answer = CUDDREWYN_REFUSED, .number = CUDDREWYN_BROKER, .count = 1, .first = (uint64_t)-22}, expected);
    cuddrewyn_part text = cuddrewyn_response_text(no.bytes, no.length);
    check_number(text.length, 20, "the text's length");
    check(text.start <= no.length && text.length <= no.length - text.start, "the text inside the message");
    check_bytes(no.bytes + text.start, "topic is being moved", 20, "the broker's text");
    printf("           broker: %.*s\n", (int)text.length, (const char *)no.bytes + text.start);

    expected.invalidated = 1;
    answered("invalidate", cuddrewyn_invalidate(&r), (cuddrewyn_reply){.answer = CUDDREWYN_ACCEPTED}, expected);
}

int main(void) {
    attach();
    follow();
    reconnect();
    return close_checks("example");
}
