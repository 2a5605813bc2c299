/* The small stack itself, by calls whose use of it is known: it must tell what is too much. */
#include "check.h"
#include "small_stack.h"
#include "tests.h"

/* What frames may have beside their arrays. */
enum { FRAMES_MORE = 512 };

static uint64_t use_nothing(const uint8_t *bytes, size_t length)
{
    return bytes[0] + length;
}

static uint64_t use_7_kib(const uint8_t *bytes, size_t length)
{
    volatile uint8_t scratch[7 * 1024];
    scratch[0] = bytes[0];
    return scratch[0] + length;
}

static uint64_t use_9_kib(const uint8_t *bytes, size_t length)
{
    volatile uint8_t scratch[9 * 1024];
    scratch[0] = bytes[0];
    return scratch[0] + length;
}

/* Steps over many pages at once. */
static uint64_t use_64_kib(const uint8_t *bytes, size_t length)
{
    volatile uint8_t scratch[64 * 1024];
    scratch[0] = bytes[0];
    return scratch[0] + length;
}

/* A frame of 1 KiB and one more for each of `length`; the deepest byte is written as 0xA5, which is
 * one of the patterns that a stack is filled with. */
__attribute__((noinline)) static uint64_t use_frames(const uint8_t *bytes, size_t length)
{
    volatile uint8_t scratch[1024];
    scratch[0] = 0xA5;
    uint64_t below = length > 0 ? use_frames(bytes, length - 1) : bytes[0];
    return below + scratch[0] - 0xA5;
}

static const uint8_t three[] = {3};

/* Whether a call stays on the stack, answers what it should, and uses so much. */
static bool uses(archive_call *call, size_t length, uint64_t answer, size_t used)
{
    struct small_run run = run_on_small_stack(call, three, length);
    return !run.overflowed && run.answer == answer && run.used >= used &&
           run.used < used + FRAMES_MORE;
}

static bool goes_past(archive_call *call, size_t length)
{
    return run_on_small_stack(call, three, length).overflowed;
}

void test_measuring(void)
{
    check_own("a call that uses nothing", uses(use_nothing, 4, 7, small_stack_overhead()));
    check_own("a call that uses 7 KiB", uses(use_7_kib, 4, 7, 7 * 1024));
    check_own("a call that uses 9 KiB", goes_past(use_9_kib, 4));
    check_own("a call that steps over 64 KiB", goes_past(use_64_kib, 4));
    check_own("a call of 5 frames of 1 KiB", uses(use_frames, 4, 3, 5 * 1024));
    check_own("a call of 9 frames of 1 KiB", goes_past(use_frames, 8));
    check_own("the stack after that", uses(use_nothing, 5, 8, small_stack_overhead()));
}
