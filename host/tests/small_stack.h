/*
 * Runs a call on a stack of its own, which is as small as that of the small box (document 02, R-8).
 * What lies below it cannot be touched: a call that goes past its end is caught and told.
 */
#ifndef SMALL_STACK_H
#define SMALL_STACK_H

#include <stdbool.h>
#include <stddef.h>
#include <stdint.h>

enum { SMALL_STACK = 8192 };

/* A call of the archive. */
typedef uint64_t archive_call(const uint8_t *bytes, size_t length);

/* What became of a call. */
struct small_run {
    /* It went past the end of the stack; nothing else is known of it. */
    bool overflowed;
    uint64_t answer;
    /* The bytes from the top of the stack to the deepest one written, those of the way to the call
     * included. */
    size_t used;
};

struct small_run run_on_small_stack(archive_call *call, const uint8_t *bytes, size_t length);

/* The bytes of the way to a call and back: all that a call which does nothing uses. */
size_t small_stack_overhead(void);

#endif
