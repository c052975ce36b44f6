// Runs calls of the archive as a station makes them, as often as asked, and prints what came of them:
//
//   port PARENT update FIRST SECOND REGISTERED QUEUED TIMES    updates by two messages in turn
//   port PARENT stray FIRST SECOND REGISTERED QUEUED TIMES     the same, addressed to another link
//   port PARENT reconnect FIRST SECOND RESPONSE QUEUED TIMES   a new link, QUEUED updates that wait, the response, drains until none is left
//   port PARENT watch SET FIRST SECOND TIMES                   updates of a watch by two messages in turn
//   port PARENT tight SET FIRST SECOND TIMES                   the same, with an output that has no byte more than what is written
//   port PARENT queue push|response|first|last FIRST SECOND RESPONSE QUEUED TIMES   one call over QUEUED updates that wait: an update more, the
//                                                       response, the first drain or the last
//   port PARENT stack update|response|drain|watch ..    the deepest stack of one such call; the words are those of update, reconnect or watch
//
// The session's topic is PARENT. An update's session is registered (1) with no segments, or not (0), and QUEUED pushes of FIRST stand in its queue, all
// drained: one is made, the others are copies of it. A watch's set is made by the snapshot SET. An update by SECOND comes before those that are counted.
// Prints how many calls were refused, of those that are counted alone, then how many segments, or topics, the last change lost and gained, or added and
// removed.
#include <stdio.h>
#include <stdlib.h>
#include <string.h>

#include "calls.h"
#include "stack.h"

enum { ROOM = 1 << 24 };

typedef struct {
    uint8_t bytes[ROOM];
    size_t length;
} message;

static message messages[3];
static uint8_t set[ROOM], out[ROOM];
static size_t used, written, room = ROOM;
static const char *parent;

static void read_message(message *m, const char *path) {
    FILE *file = fopen(path, "rb");
    if (!file) exit(2);
    m->length = fread(m->bytes, 1, sizeof m->bytes, file);
    fclose(file);
}

static void open_session(void) { call_open(parent); }

static void update_on(const message *m, uint64_t link) { call_update(m->bytes, m->length, link, out); }

static void update(const message *m) { update_on(m, record.incarnation); }

static void respond(const message *m) { call_response(m->bytes, m->length); }

static bool drain(void) { return call_drain(0, out).answer == CUDDREWYN_REPLAY; }

static void watch(const message *m) {
    cuddrewyn_reply told = cuddrewyn_watch(7, set, sizeof set, used, m->bytes, m->length, out, room);
    refused += told.answer == CUDDREWYN_REFUSED;
    used = told.answer == CUDDREWYN_REFUSED ? used : told.first;
    written = told.second;
}

// Request 1 answered by a list with no segments at epoch 0.
static const message *empty(void) {
    static const uint8_t bytes[] = {0x08, 0x01, 0x22, 0x02, 0x08, 0x00};
    static message made;
    memcpy(made.bytes, bytes, made.length = sizeof bytes);
    return &made;
}

// A session with so many pushes in its queue, drained where it is registered.
static void prepare_updates(bool registered, size_t queued) {
    open_session();
    if (queued) update(&messages[0]);
    uint8_t *queue = store + CUDDREWYN_QUEUE;
    size_t entry = CUDDREWYN_QUEUE_LENGTH + ((size_t)queue[0] << 8 | queue[1]);
    for (size_t push = 1; push < queued; push++) memcpy(queue + entry * push, queue, entry);
    record.queue_count = queued;
    if (registered) {
        respond(empty());
        record.drain_positions[0] = queued;
    }
    update(&messages[1]);
    memset(out, 0, CUDDREWYN_MIN_OUTPUT);
    refused = 0;
}

// An unregistered session is lent the same record each time, so that its queue does not grow.
static void updates(bool registered, bool stray, int times) {
    cuddrewyn_record before = record;
    for (int turn = 0; turn < times; turn++) {
        if (!registered) record = before;
        update_on(&messages[turn % 2], record.incarnation + stray);
    }
}

static void queue_updates(size_t queued) {
    call_begin(record.incarnation + 1);
    for (size_t push = 0; push < queued; push++) update(&messages[push % 2]);
}

static void reconnects(size_t queued, int times) {
    for (int turn = 0; turn < times; turn++) {
        queue_updates(queued);
        respond(&messages[2]);
        while (drain()) {
        }
    }
}

// One call, from the same record each time.
static void queue_calls(const char *call, size_t queued, int times) {
    bool push = !strcmp(call, "push"), response = !strcmp(call, "response");
    open_session();
    queue_updates(queued);
    if (!push && !response) respond(&messages[2]);
    if (!strcmp(call, "last")) record.drain_positions[0] = queued - 1;
    cuddrewyn_record before = record;
    for (int turn = 0; turn < times; turn++) {
        record = before;
        if (push) update(&messages[queued % 2]);
        else if (response) respond(&messages[2]);
        else drain();
    }
}

// What a set costs but once, as a heap that is tidied, comes before the turns that are counted: so each message has a turn before them.
static void prepare_watch(void) {
    watch(&messages[0]);
    watch(&messages[2]);
    watch(&messages[1]);
    watch(&messages[2]);
}

// How many topics stand packed between two places of the output.
static int topics(size_t at, size_t end) {
    int count = 0;
    for (; at < end; count++) at += 2 + (out[at] << 8 | out[at + 1]);
    return count;
}

static void print_delta(void) { printf("%d %d %d\n", refused, out[8] << 8 | out[9], out[10] << 8 | out[11]); }

static void print_topics(void) {
    size_t added = (size_t)out[1] << 24 | out[2] << 16 | out[3] << 8 | out[4];
    if (out[0]) printf("%d %d %d\n", refused, topics(5, 5 + added), topics(5 + added, written));
    else printf("%d %d 0\n", refused, topics(1, written));
}

static void *update_once(void *m) { return update(m), NULL; }
static void *respond_once(void *m) { return respond(m), NULL; }
static void *drain_once(void *m) { return (void)m, (void)drain(), NULL; }
static void *watch_once(void *m) { return watch(m), NULL; }
static size_t deepest(const char *call, size_t queued) {
    if (!strcmp(call, "watch")) return prepare_watch(), stack_of(watch_once, &messages[1]);
    open_session();
    if (!strcmp(call, "update")) return respond(empty()), stack_of(update_once, &messages[0]);
    queue_updates(queued);
    if (!strcmp(call, "response")) return stack_of(respond_once, &messages[2]);
    respond(&messages[2]);
    return stack_of(drain_once, NULL);
}

// The three kinds of runs: updates, a watch, reconnects.
static void run_updates(char **word, size_t queued, int times) {
    bool registered = atoi(word[3]) != 0;
    prepare_updates(registered, queued);
    updates(registered, !strcmp(word[0], "stray"), times);
    print_delta();
}

static void run_watch(bool tight, int times) {
    prepare_watch();
    room = tight ? written : ROOM;
    for (int turn = 0; turn < times; turn++) watch(&messages[1 + turn % 2]);
    print_topics();
}

static void run_reconnects(size_t queued, int times) {
    open_session();
    reconnects(queued, times);
    print_delta();
}

static void run_stack(const char *call, size_t queued) {
    size_t bytes = deepest(call, queued);
    printf("%d %zu\n", refused, bytes);
}

int main(int count, char **words) {
    if (count < 7) return 2;
    parent = words[1];
    bool stack = !strcmp(words[2], "stack"), queue = !strcmp(words[2], "queue");
    char **word = words + 2 + (stack || queue);
    if (count < 7 + (stack || queue)) return 2;
    bool is_update = !strcmp(word[0], "update") || !strcmp(word[0], "stray"), tight = !strcmp(word[0], "tight");
    for (int which = 0; which < (is_update ? 2 : 3); which++) read_message(&messages[which], word[1 + which]);
    int times = atoi(words[count - 1]);
    size_t queued = (size_t)atoi(words[count - 2]);
    if (stack) run_stack(word[0], queued);
    else if (queue) queue_calls(word[0], queued, times), print_delta();
    else if (tight || !strcmp(word[0], "watch")) run_watch(tight, times);
    else if (is_update) run_updates(word, queued, times);
    else run_reconnects(queued, times);
    return 0;
}
