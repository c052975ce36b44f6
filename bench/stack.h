// The deepest stack of a call.
#ifndef BENCH_STACK_H
#define BENCH_STACK_H
#include <pthread.h>
#include <stdint.h>
#include <stdlib.h>
#include <string.h>

enum { STACK = 1 << 20, PAINT = 0xa5 };

static void *nothing(void *given) { return given; }

// How many bytes of a painted stack a thread changes.
static size_t changed_by(void *(*run)(void *), void *given) {
    static uint8_t stack[STACK] __attribute__((aligned(4096)));
    pthread_attr_t attributes;
    pthread_t thread;
    memset(stack, PAINT, sizeof stack);
    if (pthread_attr_init(&attributes) || pthread_attr_setstack(&attributes, stack, sizeof stack)) exit(2);
    if (pthread_create(&thread, &attributes, run, given) || pthread_join(thread, NULL)) exit(2);
    size_t free = 0;
    while (free < sizeof stack && stack[free] == PAINT) free++;
    return sizeof stack - free;
}

// What a call changes besides what a thread that does nothing does.
static size_t stack_of(void *(*run)(void *), void *given) {
    size_t idle = changed_by(nothing, NULL);
    return changed_by(run, given) - idle;
}

#endif
