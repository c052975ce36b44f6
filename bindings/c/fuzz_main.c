/* Drives fuzz.c without a fuzzer: scripts made of the messages of messages.h, changed by numbers that are the same in
 * every run.
 *
 *   fuzz [COUNT]           so many scripts, 50,000 where none is named; every answer and every refusal has to come up,
 *                          as they do in 2,000
 *   fuzz --seeds FOLDER    writes the scripts that are not changed, for a fuzzer to begin with
 *   fuzz FILE...           runs the scripts of the files, as that of a fault that a fuzzer found */
#include <stdio.h>
#include <stdlib.h>
#include <string.h>

#include "cuddrewyn.h"
#include "messages.h"

extern size_t fuzz_answers[256], fuzz_refusals[256];
int LLVMFuzzerTestOneInput(const uint8_t *data, size_t size);

/* The steps of fuzz.c, in its order. */
enum {
    OPEN,
    BEGIN,
    INVALIDATE,
    UPDATE,
    RESPONSE,
    DRAIN,
    DAMAGE,
    LEND,
    LISTS,
    HELD,
    LOG,
    NAMES,
    RANGES,
    HOURS,
    CHURN,
    WATCH,
    SET,
    COMMAND,
    SHORT,
    KEYS,
    READ,
    SAVE
};
enum { SCRIPT = 8192, SEEDS = 10 };

typedef struct {
    uint8_t bytes[SCRIPT];
    size_t length;
} row;

static row seeds[SEEDS];

/* ---- the scripts */

static void put(row *s, const void *bytes, size_t length) {
    if (length <= SCRIPT - s->length) {
        memcpy(s->bytes + s->length, bytes, length);
        s->length += length;
    }
}

static void put_step(row *s, int step, const char *bytes, size_t length) {
    uint8_t byte = (uint8_t)step;
    put(s, &byte, 1);
    put(s, bytes, length);
}

static void put_piece(row *s, const void *bytes, size_t length) {
    uint8_t size[2] = {(uint8_t)(length >> 8), (uint8_t)length};
    put(s, size, 2);
    put(s, bytes, length);
}

static void put_text(row *s, const char *text) {
    put_piece(s, text, strlen(text));
}

/* A step whose first byte is that of an incarnation or a watch, and then a message. */
static void put_call(row *s, int step, uint8_t byte, const message *m) {
    put_step(s, step, (const char *)&byte, 1);
    put_piece(s, m->bytes, m->length);
}

/* Consumer 7 at incarnation 1, with a store for so many pushes. */
static void put_open(row *s, uint8_t pushes) {
    put_step(s, LEND, (const char[]){(char)pushes, 0, 0}, 3);
    put_step(s, OPEN, "", 0);
    put_text(s, "topic://a/b/c");
    put_text(s, "uplink");
    put_text(s, "station-1");
    put(s, "\7\1\1", 3);
}

/* Segments 0 to 2, chosen by the bits; the last one has two buckets. */
static message update_with(uint64_t epoch, unsigned chosen) {
    message assignment = assignment_of(epoch, NULL), m = {.length = 0};
    message first = segment_of(0, 0, 0x7fff, "segment://a/b/c/0000-7fff-0");
    message second = segment_of(1, 0x8000, 0x8fff, "segment://a/b/c/8000-8fff-1");
    message third = segment_of(2, 0x9000, 0xffff, "segment://a/b/c/9000-ffff-2");
    put_bucket(&third, 0x9000, 0x9fff);
    put_bucket(&third, 0xf000, 0xffff);
    const message *all[] = {&first, &second, &third};
    for (unsigned i = 0; i < 3; i++) {
        if (chosen >> i & 1) {
            put_message(&assignment, 2, all[i]);
        }
    }
    put_number(&m, 1, 7);
    put_message(&m, 2, &assignment);
    return m;
}

/* Pushes that wait, the response, drains, then updates, and an old one. */
static void seed_session(row *s) {
    message segment = segment_of(0, 0, 0x7fff, "segment://a/b/c/0000-7fff-0"), response = response_of(1, 2, &segment);
    put_open(s, 6);
    for (unsigned i = 0; i < 3; i++) {
        message push = update_with(3 + i, 1 + 2 * i);
        put_call(s, UPDATE, 0, &push);
    }
    put_call(s, RESPONSE, 0, &response);
    for (int i = 0; i < 4; i++) {
        put_step(s, DRAIN, "\1", 1);
    }
    for (unsigned i = 0; i < 6; i++) {
        message push = update_with(7 + i / 2, 7 - i);
        put_call(s, UPDATE, 0, &push);
    }
    message old = update_with(3, 1);
    put_call(s, UPDATE, 0, &old);
    put_step(s, HELD, "", 0);
    put_piece(s, "\0\0\0\0\0\0\0\x9\0\1\0\1\0\0\0\0\0\0\0\1\0\0\0\0\0\0\0\4\0\1\0\2\0\0", 34);
    put_text(s, "topic://a/b/c");
}

/* A new link, other incarnations, damage, a rejection. */
static void seed_links(row *s) {
    message no = rejection_of(9, -22, "topic is being moved"), empty = response_of(1, 2, NULL),
            push = update_with(3, 3);
    put_open(s, 2);
    put_call(s, UPDATE, 0, &push);
    put_call(s, RESPONSE, 0, &empty);
    put_step(s, BEGIN, "\2", 1);
    put_call(s, RESPONSE, 0, &no);
    put_call(s, UPDATE, 0, &push);
    put_call(s, RESPONSE, 0xff, &empty);
    put_step(s, BEGIN, "\1", 1);
    put_call(s, RESPONSE, 0, &empty);
    put_call(s, UPDATE, 0, &push);
    put_step(s, INVALIDATE, "", 0);
    put_step(s, DAMAGE, "\0\x18\5", 3);
    put_call(s, UPDATE, 0, &push);
    put_step(s, DRAIN, "\10", 1);
}

/* Lists, deltas and logs. */
static void seed_lists(row *s) {
    static const char list[] = "\0\0\0\0\0\0\0\3\0\2\0\0\0\0\0\0\0\0\0\0\x7f\xff\0\0\0\0\0\0\0\0\0\1\x80\0\xff\xff\0\2"
                               "\x80\0\x8f\xff\xf0\0\xff\xff";
    static const char delta[] = "\0\0\0\0\0\0\0\4\0\1\0\1\0\0\0\0\0\0\0\0\0\0\0\0\0\0\0\2\0\1\0\7\0\1\0\2\0\3";
    static const char other[] = "\0\0\0\0\0\0\0\5\0\1\0\0\0\0\0\0\0\0\0\1";
    put_step(s, LISTS, "", 0);
    put_piece(s, list, sizeof list - 1);
    put_piece(s, delta, sizeof delta - 1);
    put_piece(s, other, sizeof other - 1);
    put_text(s, "topic://a/b/c");
    put_step(s, LOG, "", 0);
    put_piece(s, delta, sizeof delta - 1);
    put_piece(s, "\0\0\0\0\0\0\0\0\0\x80\0\0\0\0\0\0\1\0", 18);
    put_step(s, LISTS, "", 0);
    put_piece(s, list, 10 + 14);
    put_piece(s, other, sizeof other - 1);
    put_piece(s, delta, sizeof delta - 1);
    put_text(s, "topic://a/b?/c");
    put_step(s, SHORT, "\10", 1);
    put_piece(s, list, sizeof list - 1);
    put_piece(s, delta, sizeof delta - 1);
    put_text(s, "topic://a/b/c");
    put_step(s, KEYS, "", 0);
    put_piece(s, list + 24, sizeof list - 25);
    put_text(s, "key");
    put_piece(s, list, sizeof list - 1);
    put(s, "\0\0\0\1\0\0\0\0\0\1\0\0\0\0", 14);
    put_step(s, KEYS, "", 0);
    put_piece(s, list + 24, sizeof list - 25);
    put_text(s, "");
    put_piece(s, list, sizeof list - 2);
    put(s, "\xff\xff\xff\xff\xff\xff\xff\xff\xff\xff\0\0\0\0", 14);
}

/* Messages whose segments are wrong: an empty update, buckets that share a value, an id twice, a list that does not
 * fit. */
static void seed_wrong(row *s) {
    static const char name[] = "segment://a/b/c/0000-7fff-0";
    static uint8_t longest[2042];
    message shared = segment_of(0, 0, 0x7fff, name), plain = segment_of(0, 0, 0x7fff, name), many = plain,
            empty = {.length = 0}, twice = empty;
    message baseline = response_of(1, 2, NULL), both = assignment_of(5, &plain);
    put_bucket(&shared, 1, 3);
    put_bucket(&shared, 2, 4);
    for (int32_t value = 0; value < 510; value++) {
        put_bucket(&many, value, value);
    }
    put_number(&empty, 1, 9);
    put_message(&both, 2, &plain);
    put_number(&twice, 1, 7);
    put_message(&twice, 2, &both);
    message overlap = update_of(7, 5, &shared), too_long = update_of(7, 5, &many);
    put_open(s, 2);
    put_call(s, RESPONSE, 0, &empty);
    put_call(s, RESPONSE, 0, &baseline);
    put_call(s, UPDATE, 0, &overlap);
    put_call(s, UPDATE, 0, &twice);
    put_call(s, UPDATE, 0, &too_long);
    put_step(s, OPEN, "", 0);
    memset(longest, 'x', sizeof longest);
    put_piece(s, longest, sizeof longest);
}

/* The watch: a snapshot, a diff, a set that was lent, an error. */
static void seed_watch(row *s) {
    message snapshot = {.length = 0}, diff = {.length = 0}, no = {.length = 0};
    put_part(&snapshot, 1, "topic://a/b/d", 13);
    put_part(&snapshot, 1, "topic://a/b/c", 13);
    put_part(&diff, 1, "topic://a/b/e", 13);
    put_part(&diff, 2, "topic://a/b/c", 13);
    put_number(&no, 1, 5);
    put_number(&no, 4, 3);
    put_part(&no, 5, "moved", 5);
    message first = watch_update_of(5, 2, &snapshot), second = watch_update_of(5, 3, &diff);
    put_call(s, WATCH, 5, &first);
    put_call(s, WATCH, 5, &second);
    put_call(s, WATCH, 5, &no);
    put_step(s, SET, "\x40", 1);
    put_piece(s, "\0\1a\0\1b", 6);
    put_call(s, WATCH, 5, &second);
    put_call(s, WATCH, 5, &first);
    put_call(s, WATCH, 5, &second);
    put_step(s, READ, "", 0);
    put_piece(s, "\1\0\0\0\3\0\1c\0\1b", 11);
    put_step(s, READ, "", 0);
    put_piece(s, "\1\0\0\0\6\0\1c\0\1b", 11);
    put_step(s, READ, "", 0);
    put_piece(s, "\0\0\1a\0\1b", 7);
    put_step(s, LEND, "\0\0\xe8", 3);
    put_call(s, WATCH, 5, &first);
    put_step(s, SET, "\1", 1);
    put_piece(s, "\0\1a\0\1b", 6);
    put_call(s, WATCH, 5, &first);
}

/* The outer messages of the three kinds. */
static void seed_commands(row *s) {
    message event = {.length = 0}, push = update_with(4, 5), answer = response_of(1, 2, NULL), outer;
    put_part(&event, 1, "a", 1);
    message seen = watch_update_of(5, 2, &event);
    const message *carried[] = {&push, &answer, &push, &seen};
    static const uint64_t kinds[] = {CUDDREWYN_ASSIGNMENT_UPDATE, CUDDREWYN_SUBSCRIBE_RESPONSE,
                                     CUDDREWYN_ASSIGNMENT_UPDATE, CUDDREWYN_TOPICS_UPDATE};
    put_open(s, 3);
    for (int i = 0; i < 4; i++) {
        outer.length = 0;
        put_number(&outer, 1, kinds[i]);
        put_message(&outer, kinds[i], carried[i]);
        put_step(s, COMMAND, "", 0);
        put_piece(s, outer.bytes, outer.length);
    }
}

/* Names and ranges. */
static void seed_names(row *s) {
    put_step(s, NAMES, "", 0);
    put_text(s, "topic://a/b/c");
    put_text(s, "segment://a/b/c/0010-00ff-12");
    put(s, "\0\0\x10\0\0\xff\0\0\0\0\0\0\0\xc", 14);
    put_step(s, RANGES, "\0\0\4\0\0\x9\0\0\0\5", 10);
    put_step(s, NAMES, "", 0);
    put_text(s, "topic://a/b");
    put_text(s, "segment://a/b/c/00ff-0010-12");
    put(s, "\0\1\0\0\1\0\xff\xff\xff\xff\xff\xff\xff\xff", 14);
    put_step(s, RANGES, "\0\0\x9\0\0\4\0\0\0\5", 10);
}

/* Pass hours and lost counts. */
static void seed_hours(row *s) {
    put_step(s, HOURS, "", 0);
    put_piece(s, "\0\1\0\1\0\0\0\0\0\0\0\4\0\0\0\0\0\xf\0\0\0\0\0\0\0\0\0\1\0\0\0\0\0\0\1\0", 36);
    put(s, "\0\0\0\0\0\0\0\2", 8);
    put_step(s, CHURN, "\0\1\0\7\0\0\x9", 7);
    put_step(s, CHURN, "\2\0\0\7\0\0\x9", 7);
    put_step(s, CHURN, "\1\xff\0\7\1\0\x9", 7);
}

/* A store that is too short, an output that is, and one that takes no push. */
static void seed_short(row *s) {
    message push = update_with(4, 5), empty = response_of(1, 2, NULL);
    put_open(s, 0);
    put_call(s, UPDATE, 0, &push);
    put_call(s, RESPONSE, 0, &empty);
    put_step(s, LEND, "\0\xff\0", 3);
    put_call(s, UPDATE, 0, &push);
    put_step(s, LEND, "\0\0\xff", 3);
    put_call(s, UPDATE, 0, &push);
    put_step(s, DRAIN, "\0", 1);
}

/* A session saved before and behind its response, one byte of the form changed. */
static void seed_saved(row *s) {
    message push = update_with(4, 5), empty = response_of(1, 2, NULL);
    put_step(s, SAVE, "\0\0\0", 3);
    put_open(s, 3);
    put_step(s, SAVE, "\0\0\1", 3);
    put_call(s, UPDATE, 0, &push);
    put_step(s, SAVE, "\1\0\x80", 3);
    put_call(s, RESPONSE, 0, &empty);
    put_step(s, SAVE, "\0\0\0", 3);
}

static void make_seeds(void) {
    static void (*const makers[SEEDS])(row *) = {seed_session, seed_links, seed_lists, seed_watch, seed_commands,
                                                 seed_names,   seed_hours, seed_short, seed_wrong, seed_saved};
    for (int i = 0; i < SEEDS; i++) {
        makers[i](&seeds[i]);
    }
}

/* ---- changes */

static uint64_t state = 88172645463325252u;

/* Marsaglia's xorshift. */
static size_t below(size_t bound) {
    state ^= state << 13;
    state ^= state >> 7;
    state ^= state << 17;
    return (size_t)(state % bound);
}

static void erase(row *s, size_t place, size_t length) {
    memmove(s->bytes + place, s->bytes + place + length, s->length - place - length);
    s->length -= length;
}

/* Puts a copy of bytes of another row in between. */
static void insert(row *s, size_t place, const uint8_t *bytes, size_t length) {
    uint8_t copy[SCRIPT];
    if (length <= SCRIPT - s->length) {
        memcpy(copy, bytes, length);
        memmove(s->bytes + place + length, s->bytes + place, s->length - place);
        memcpy(s->bytes + place, copy, length);
        s->length += length;
    }
}

static void change(row *s) {
    static const uint8_t edges[] = {0, 1, 0x7f, 0x80, 0xff};
    const row *other = &seeds[below(SEEDS)];
    size_t place = below(s->length), from = below(other->length);
    switch (below(7)) {
    case 0: s->bytes[place] ^= (uint8_t)(1u << below(8)); break;
    case 1: s->bytes[place] = edges[below(sizeof edges)]; break;
    case 2: s->bytes[place] = (uint8_t)(s->bytes[place] + below(5) - 2); break;
    case 3: s->bytes[place] = (uint8_t)below(256); break;
    case 4: insert(s, place, other->bytes + from, 1 + below(other->length - from)); break;
    case 5: insert(s, place, s->bytes + place, 1 + below(s->length - place)); break;
    default:
        if (s->length > 8) {
            erase(s, place, 1 + below(s->length - place < 8 ? s->length - place : 8));
        }
    }
}

static void run_changed(size_t count) {
    static row s;
    for (size_t i = 0; i < count; i++) {
        s = seeds[i < SEEDS ? i : below(SEEDS)];
        for (size_t changes = i < SEEDS ? 0 : below(6); changes > 0; changes--) {
            change(&s);
        }
        uint8_t *exact = malloc(s.length);
        memcpy(exact, s.bytes, s.length);
        LLVMFuzzerTestOneInput(exact, s.length);
        free(exact);
    }
}

/* ---- the run */

/* Prints what was reached; the run counts only where it reached every answer and every refusal. */
static int tally(size_t count) {
    int answers = 0, refusals = 0, all = 0;
    for (int i = 0; i <= CUDDREWYN_FOUND; i++) {
        printf("  %-10s %zu\n", cuddrewyn_answer_name((unsigned)i), fuzz_answers[i]);
        answers += fuzz_answers[i] > 0;
    }
    for (int i = 1; i < 256; i++) {
        bool known = strcmp(cuddrewyn_refusal_name((unsigned)i), "unknown") != 0;
        all += known;
        refusals += fuzz_refusals[i] > 0;
        if (known && fuzz_refusals[i] == 0) {
            printf("  not reached: %d %s\n", i, cuddrewyn_refusal_name((unsigned)i));
        }
    }
    printf("fuzz: %zu scripts, %d answers of 9, %d refusals of %d\n", count, answers, refusals, all);
    return answers == 9 && refusals == all ? 0 : 1;
}

static int write_seeds(const char *folder) {
    char path[4096];
    for (int i = 0; i < SEEDS; i++) {
        snprintf(path, sizeof path, "%s/seed-%d", folder, i);
        FILE *file = fopen(path, "wb");
        if (!file || fwrite(seeds[i].bytes, 1, seeds[i].length, file) != seeds[i].length || fclose(file) != 0) {
            perror(path);
            return 2;
        }
    }
    return 0;
}

static int run_file(const char *path) {
    static uint8_t bytes[1 << 20];
    FILE *file = fopen(path, "rb");
    if (!file) {
        perror(path);
        return 2;
    }
    size_t length = fread(bytes, 1, sizeof bytes, file);
    fclose(file);
    LLVMFuzzerTestOneInput(bytes, length);
    printf("%s: %zu bytes, all invariants hold\n", path, length);
    return 0;
}

int main(int argc, char **argv) {
    char *end = NULL;
    size_t count = argc == 2 ? (size_t)strtoull(argv[1], &end, 10) : 50000;
    make_seeds();
    if (argc == 3 && strcmp(argv[1], "--seeds") == 0) {
        return write_seeds(argv[2]);
    }
    if (argc == 1 || (argc == 2 && *argv[1] && !*end)) {
        run_changed(count);
        return tally(count);
    }
    for (int i = 1; i < argc; i++) {
        if (run_file(argv[i]) != 0) {
            return 2;
        }
    }
    return 0;
}
