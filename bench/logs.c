// Checks an uploader's log as often as asked: logs rising|falling|shuffled|halves IDS TIMES, of one delta that loses and
// gains so many segments without buckets. The entries of each part stand in the order of the ids, against it, in a random
// order, or the upper half before the lower. Prints the answer, and where TIMES is `stack` the bytes of the deepest stack of
// one call.
#include <stdint.h>
#include <stdio.h>
#include <stdlib.h>

#include "../bindings/c/cuddrewyn.h"
#include "stack.h"

enum { HEAD = 12, RECORD = 14 };

static void put(uint8_t *s, size_t bytes, uint64_t value) {
    while (bytes > 0) {
        s[--bytes] = (uint8_t)value;
        value >>= 8;
    }
}

// The id of the nth segment: ids are far apart.
static uint64_t id(size_t n) { return (uint64_t)n << 40; }

static size_t put_delta(uint8_t *delta, size_t ids) {
    put(delta, 8, 1);
    put(delta + 8, 2, ids);
    put(delta + 10, 2, ids);
    for (size_t n = 0; n < ids; n++) {
        put(delta + HEAD + 8 * n, 8, id(n));
        put(delta + HEAD + 8 * ids + RECORD * n, 8, id(n));
    }
    return HEAD + (8 + RECORD) * ids;
}

static void put_entry(uint8_t *entry, unsigned attach, uint64_t number) {
    put(entry, 8, (uint64_t)attach << 63 | number >> 1);
    entry[8] = (uint8_t)(number << 7);
}

// Where the entry of the nth id stands.
static size_t places[65536];

static void fill_places(char order, size_t ids) {
    uint64_t state = 1;
    for (size_t n = 0; n < ids; n++) places[n] = order == 'f' ? ids - 1 - n : order == 'h' ? (n + ids / 2) % ids : n;
    for (size_t n = ids; order == 's' && n > 1; n--) {
        state = state * 6364136223846793005u + 1442695040888963407u;
        size_t other = (size_t)(state >> 33) % n, place = places[n - 1];
        places[n - 1] = places[other];
        places[other] = place;
    }
}

static uint8_t delta[HEAD + (8 + RECORD) * 65535], log_bytes[2 * 65535 * CUDDREWYN_LOG_ENTRY];
static size_t delta_length, log_length;

static void make_log(char order, size_t ids) {
    delta_length = put_delta(delta, ids);
    log_length = 2 * ids * CUDDREWYN_LOG_ENTRY;
    fill_places(order, ids);
    for (size_t n = 0; n < ids; n++) {
        put_entry(log_bytes + CUDDREWYN_LOG_ENTRY * places[n], 0, id(n));
        put_entry(log_bytes + CUDDREWYN_LOG_ENTRY * (ids + places[n]), 1, id(n));
    }
}

static int answer = -1;

static void *check_once(void *given) {
    answer = cuddrewyn_check_log(delta, delta_length, log_bytes, log_length).answer;
    return given;
}

int main(int count, char **words) {
    if (count != 4) return 2;
    size_t ids = strtoul(words[2], 0, 10);
    if (ids > 65535) return 2;
    make_log(words[1][0], ids);
    if (!strcmp(words[3], "stack")) {
        size_t bytes = stack_of(check_once, NULL);
        printf("%d %zu\n", answer, bytes);
        return 0;
    }
    for (int left = atoi(words[3]); left > 0; left--) check_once(NULL);
    printf("%d\n", answer);
    return 0;
}
