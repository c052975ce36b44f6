// Runs the lookup of a key as often as asked: keys port|c BYTES SEGMENTS TIMES, over a key of so many bytes and a list of
// so many segments that share the hashes evenly. `port` is the archive's call; `c` is a plain MurmurHash3 and a walk over
// the list, which it trusts. Prints the id that takes the key.
#include <stdint.h>
#include <stdio.h>
#include <stdlib.h>
#include <string.h>

#include "../bindings/c/cuddrewyn.h"

static uint32_t rotl(uint32_t x, int r) { return x << r | x >> (32 - r); }

static uint32_t scramble(uint32_t k) { return rotl(k * 0xcc9e2d51, 15) * 0x1b873593; }

static uint32_t murmur3(const uint8_t *key, size_t length) {
    uint32_t h = 0, k;
    size_t at = 0;
    for (; length - at >= 4; at += 4) {
        memcpy(&k, key + at, 4);
        h = rotl(h ^ scramble(k), 13) * 5 + 0xe6546b64;
    }
    k = 0;
    for (size_t left = length; left > at; left--) k = k << 8 | key[left - 1];
    h ^= scramble(k) ^ (uint32_t)length;
    h = (h ^ h >> 16) * 0x85ebca6b;
    h = (h ^ h >> 13) * 0xc2b2ae35;
    return h ^ h >> 16;
}

static uint32_t number(const uint8_t *s) { return (uint32_t)(s[0] << 8 | s[1]); }

static void put(uint8_t *s, size_t value) {
    s[0] = (uint8_t)(value >> 8);
    s[1] = (uint8_t)value;
}

static int has(const uint8_t *range, uint32_t hash) { return number(range) <= hash && hash <= number(range + 2); }

// The low 8 bits of the id, or -1.
static int plain(const uint8_t *key, size_t length, const uint8_t *list) {
    uint32_t hash = murmur3(key, length) & 0xffff;
    const uint8_t *at = list + 10;
    for (uint32_t left = number(list + 8); left > 0; left--) {
        uint32_t buckets = number(at + 12), taken = buckets == 0;
        if (has(at + 8, hash)) {
            for (uint32_t n = 0; n < buckets; n++) taken |= has(at + 14 + 4 * n, hash);
            if (taken) return at[7];
        }
        at += 14 + 4 * buckets;
    }
    return -1;
}

static int proved(const uint8_t *key, size_t length, const uint8_t *list, size_t size) {
    cuddrewyn_reply reply = cuddrewyn_segment_for_key(key, length, list, size);
    return reply.answer == CUDDREWYN_FOUND ? (int)reply.first : -1;
}

int main(int count, char **words) {
    static uint8_t key[CUDDREWYN_LONGEST_KEY], list[CUDDREWYN_SLOT];
    if (count != 5) return 2;
    size_t length = strtoul(words[2], 0, 10), segments = strtoul(words[3], 0, 10);
    if (length > sizeof key || segments == 0 || segments > 145) return 2;
    memset(key, 'k', length);
    list[9] = (uint8_t)segments;
    for (size_t n = 0; n < segments; n++) {
        uint8_t *record = list + 10 + 14 * n;
        size_t start = n * 65536 / segments, end = (n + 1) * 65536 / segments - 1;
        record[7] = (uint8_t)n;
        put(record + 8, start);
        put(record + 10, end);
    }
    int taken = -1;
    for (int left = atoi(words[4]); left > 0; left--) {
        __asm__ volatile("" : : : "memory");
        taken = words[1][0] == 'c' ? plain(key, length, list) : proved(key, length, list, 10 + 14 * segments);
    }
    printf("%d\n", taken);
    return 0;
}
