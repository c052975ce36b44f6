// Runs one call of the archive over an input of the size N as often as asked: growth CALL N TIMES. The calls are the rows of CALLS below. Prints the answer of
// the last one, by its number in the header.
#include <stdint.h>
#include <stdio.h>
#include <stdlib.h>
#include <string.h>

#include "../bindings/c/cuddrewyn.h"

enum { ROOM = 1 << 22, RECORD = 14, LIST = 10, DELTA = 12 };

static uint8_t first[ROOM], second[ROOM], out[ROOM];
static size_t first_length, second_length;

static size_t put(uint8_t *s, size_t bytes, uint64_t value) {
    for (size_t at = bytes; at > 0; value >>= 8) s[--at] = (uint8_t)value;
    return bytes;
}

// The nth segment of n: it takes its share of the hashes, and its id is the nth even number, or the odd one behind it.
static size_t put_segment(uint8_t *s, size_t n, size_t segments, size_t odd) {
    put(s, 8, 2 * n + odd);
    put(s + 8, 2, n * 65536 / segments);
    put(s + 10, 2, (n + 1) * 65536 / segments - 1);
    return RECORD + put(s + 12, 2, 0) - 2;
}

static size_t put_list(uint8_t *s, size_t segments) {
    size_t at = put(s, 8, 1) + put(s + 8, 2, segments);
    for (size_t n = 0; n < segments; n++) at += put_segment(s + at, n, segments, 0);
    return at;
}

// A segment with so many buckets of one value each, falling or rising.
static size_t put_buckets(uint8_t *s, size_t buckets, bool falling) {
    put(s, 8, 1);
    put(s + 8, 2, 0);
    put(s + 10, 2, 65535);
    put(s + 12, 2, buckets);
    for (size_t n = 0; n < buckets; n++) {
        size_t value = falling ? buckets - 1 - n : n;
        put(s + RECORD + 4 * n, 2, value);
        put(s + RECORD + 4 * n + 2, 2, value);
    }
    return RECORD + 4 * buckets;
}

// A delta that loses as many ids as it gains.
static size_t put_delta(uint8_t *s, size_t ids) {
    size_t at = put(s, 8, 2) + put(s + 8, 2, ids) + put(s + 10, 2, ids);
    for (size_t n = 0; n < ids; n++) at += put(s + at, 8, 2 * n);
    for (size_t n = 0; n < ids; n++) at += put_segment(s + at, n, ids, 1);
    return at;
}

// scheme://tenant/namespace/nnnn.. with a name of so many bytes, and for a segment its range and id behind it.
static size_t put_name(uint8_t *s, const char *scheme, size_t bytes, const char *behind) {
    size_t at = (size_t)sprintf((char *)s, "%s://tenant/namespace/", scheme);
    memset(s + at, 'n', bytes);
    return at + bytes + (size_t)sprintf((char *)s + at + bytes, "%s", behind);
}

// Terms and windows, so many of each as far as a contract can have them; the second that is asked for is in none but the last.
static size_t put_contract(uint8_t *s, size_t n) {
    size_t terms = n < CUDDREWYN_MAX_TERMS ? n : CUDDREWYN_MAX_TERMS, windows = n < CUDDREWYN_MAX_WINDOWS ? n : CUDDREWYN_MAX_WINDOWS;
    size_t at = put(s, 2, terms) + put(s + 2, 2, windows);
    for (size_t i = 0; i < terms; i++) at += put(s + at, 8, 10000000 * i) + put(s + at + 8, 8, 10000000 * i + 1000000);
    for (size_t i = 0; i < windows; i++) at += put(s + at, 8, 1000 * i) + put(s + at + 8, 8, 1000 * i + 10);
    return at;
}

static void make_key(size_t n) {
    memset(first, 'k', n);
    first_length = n;
    second_length = put_list(second, 4);
}
static void make_key_list(size_t n) {
    first_length = put(first, 8, 7);
    second_length = put_list(second, n);
}
static void make_key_buckets(size_t n) {
    first_length = put(first, 8, 7);
    second_length = put(second, 8, 1) + put(second + 8, 2, 1) + put_buckets(second + LIST, n, true);
}
static void make_list(size_t n) {
    first_length = put_list(first, n);
    second_length = put_delta(second, n);
}
static void make_buckets(size_t n) { first_length = put_buckets(first, n, false); }
static void make_window(size_t n) {
    memset(first, 0, CUDDREWYN_CHURN_WINDOW);
    first_length = CUDDREWYN_CHURN_WINDOW;
    while (n-- > 0) cuddrewyn_churn_push(first, first_length, n % 100);
}
static void make_contract(size_t n) { first_length = put_contract(first, n); }
static void make_deltas(size_t n) {
    first_length = put_delta(first, n);
    second_length = put_delta(second, n);
}
static void make_delta_buckets(size_t n) {
    first_length = put(first, 8, 2) + put(first + 8, 2, 0) + put(first + 10, 2, 1);
    first_length += put_buckets(first + DELTA, n, true);
    second_length = 0;
}
static void make_parent(size_t n) { first_length = put_name(first, "topic", n, ""); }
static void make_name(size_t n) { first_length = put_name(first, "segment", n, "/0000-ffff-7"); }
static void make_nothing(size_t n) { first_length = n; }

static cuddrewyn_reply segment_for_key(void) { return cuddrewyn_segment_for_key(first, first_length, second, second_length); }
static cuddrewyn_reply key_in_segment(void) { return cuddrewyn_key_in_segment(first, first_length, 0); }
static cuddrewyn_reply key_for_hash(void) { return cuddrewyn_key_for_hash((uint32_t)first_length); }
static cuddrewyn_reply charge(void) { return cuddrewyn_charge(first, first_length, 3600, 1000000, 0); }
static cuddrewyn_reply churn_push(void) { return cuddrewyn_churn_push(first, first_length, 3); }
static cuddrewyn_reply churn_current(void) { return cuddrewyn_churn_current(first, first_length); }
static cuddrewyn_reply is_open(void) { return cuddrewyn_is_open(first, first_length, UINT64_MAX); }
static cuddrewyn_reply earliest_open(void) { return cuddrewyn_earliest_open(first, first_length, 500); }
static cuddrewyn_reply apply(void) { return cuddrewyn_apply(first, first_length, second, second_length, out, sizeof out); }
static cuddrewyn_reply join(void) { return cuddrewyn_join(first, first_length, second, second_length, out, sizeof out); }
static cuddrewyn_reply check_log(void) { return cuddrewyn_check_log(first, first_length, second, second_length); }
static cuddrewyn_reply to_pb(void) { return cuddrewyn_to_pb(first, first_length, (const uint8_t *)"topic://a/b/c", 13, out, sizeof out); }
static cuddrewyn_reply segment_topic(void) { return cuddrewyn_segment_topic(first, first_length, 0, 65535, 7, out, sizeof out); }
static cuddrewyn_reply segment_source(void) { return cuddrewyn_segment_source(7, first, first_length); }
static cuddrewyn_reply parent_topic(void) { return cuddrewyn_parent_topic(first, first_length, out, sizeof out); }

static const struct {
    const char *name;
    void (*make)(size_t n);
    cuddrewyn_reply (*call)(void);
} CALLS[] = {
    {"key", make_key, segment_for_key},
    {"key-list", make_key_list, segment_for_key},
    {"key-buckets", make_key_buckets, segment_for_key},
    {"key-in-segment", make_list, key_in_segment},
    {"key-for-hash", make_nothing, key_for_hash},
    {"charge", make_buckets, charge},
    {"churn-push", make_window, churn_push},
    {"churn-current", make_window, churn_current},
    {"is-open", make_contract, is_open},
    {"earliest-open", make_contract, earliest_open},
    {"apply", make_list, apply},
    {"join", make_deltas, join},
    {"delta-buckets", make_delta_buckets, check_log},
    {"to-pb", make_list, to_pb},
    {"segment-topic", make_parent, segment_topic},
    {"segment-source", make_name, segment_source},
    {"parent-topic", make_name, parent_topic},
};

int main(int count, char **words) {
    if (count != 4) return 2;
    size_t which = 0, calls = sizeof CALLS / sizeof *CALLS;
    while (which < calls && strcmp(CALLS[which].name, words[1])) which++;
    if (which == calls) return 2;
    CALLS[which].make(strtoul(words[2], 0, 10));
    int answer = -1;
    for (int left = atoi(words[3]); left > 0; left--) {
        __asm__ volatile("" : : : "memory");
        answer = CALLS[which].call().answer;
    }
    printf("%d\n", answer);
    return 0;
}
