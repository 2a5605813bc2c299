#include "check.h"

#include "../altuvrin.h"
#include "stack.h"

#include <stdio.h>
#include <stdlib.h>
#include <string.h>

static const char *current;
static bool current_failed;
static unsigned passed;
static unsigned failed;
static unsigned own_held;

void check_begin(const char *what)
{
    current = what;
    current_failed = false;
}

void check_end(void)
{
    if (current_failed)
        failed++;
    else
        passed++;
}

void check_that(const char *what, bool holds)
{
    check_begin(what);
    if (!holds) {
        printf("FAILED: %s\n", what);
        current_failed = true;
    }
    check_end();
}

void check_own(const char *what, bool holds)
{
    if (!holds)
        printf("FAILED: the tests' own: %s\n", what);
    own_held += holds;
    failed += !holds;
}

/* What became of the same call on the small stack. */
static const char *on_small_stack(struct small_run run, uint64_t answer)
{
    if (run.overflowed)
        return "went past the end of 8 KiB";
    return run.answer == answer ? "the same" : "another answer";
}

/* A call of the library, with its name. */
struct call {
    const char *name;
    archive_call *function;
};

static const struct call DATAGRAM = {"altuvrin_datagram", altuvrin_datagram};
static const struct call ARCHIVE = {"altuvrin_archive", altuvrin_archive};
static const struct call RECORD = {"altuvrin_record", altuvrin_record};

static void print_failure(struct call call, const uint8_t *bytes, size_t length, uint32_t number,
                          uint32_t size)
{
    uint64_t answer = call.function(bytes, length);
    printf("FAILED: %s\n", current);
    printf("  call:     %s\n", call.name);
    printf("  expected: number %u, size %u\n", number, size);
    printf("  got:      number %u, size %u\n", altuvrin_number(answer), altuvrin_size(answer));
    printf("  reason:   %s\n", altuvrin_reason(altuvrin_number(answer)));
    printf("  input:    %zu bytes ", length);
    for (size_t i = 0; i < length; i++)
        printf("%02x", bytes[i]);
    printf("\n");
}

/* Whether altuvrin_reason knows the number. */
static bool has_reason(uint32_t number)
{
    return strcmp(altuvrin_reason(number), altuvrin_reason(UINT32_MAX)) != 0;
}

static void compare(struct call call, const uint8_t *bytes, size_t length, uint32_t number,
                    uint32_t size)
{
    uint64_t answer = call.function(bytes, length);
    struct small_run run = try_small_stack(call.function, bytes, length);
    bool same = altuvrin_number(answer) == number && altuvrin_size(answer) == size;
    if (same && has_reason(number) && !run.overflowed && run.answer == answer)
        return;
    if (!current_failed) {
        print_failure(call, bytes, length, number, size);
        printf("  on the small stack: %s\n", on_small_stack(run, answer));
    }
    current_failed = true;
}

/* Where it is taken, so many bytes are used. */
static void compare_used(struct call call, const struct datagram *datagram, size_t used,
                         uint32_t number)
{
    uint32_t size = number == ALTUVRIN_TAKEN ? (uint32_t)used : 0;
    compare(call, datagram->bytes, datagram->length, number, size);
}

void sample_first(const struct datagram *datagram, size_t used, uint32_t live, uint32_t archive)
{
    compare_used(DATAGRAM, datagram, used, live);
    compare_used(ARCHIVE, datagram, used, archive);
}

void sample_readings(const struct datagram *datagram, uint32_t live, uint32_t archive)
{
    sample_first(datagram, datagram->length, live, archive);
}

void sample(const struct datagram *datagram, uint32_t number)
{
    sample_readings(datagram, number, number);
}

void sample_record(const struct datagram *record, uint32_t number)
{
    compare_used(RECORD, record, record->length, number);
}

void check(const char *what, const struct datagram *datagram, uint32_t number)
{
    check_begin(what);
    sample(datagram, number);
    check_end();
}

void check_readings(const char *what, const struct datagram *datagram, uint32_t live,
                    uint32_t archive)
{
    check_begin(what);
    sample_readings(datagram, live, archive);
    check_end();
}

void check_record(const char *what, const struct datagram *record, uint32_t number)
{
    check_begin(what);
    sample_record(record, number);
    check_end();
}

void check_bytes(const char *what, const uint8_t *bytes, size_t length, uint32_t number,
                 uint32_t size)
{
    check_begin(what);
    compare(DATAGRAM, bytes, length, number, size);
    compare(ARCHIVE, bytes, length, number, size);
    check_end();
}

void check_archive_bytes(const char *what, const uint8_t *bytes, size_t length, uint32_t number,
                         uint32_t size)
{
    check_begin(what);
    compare(ARCHIVE, bytes, length, number, size);
    check_end();
}

void check_record_bytes(const char *what, const uint8_t *bytes, size_t length, uint32_t number,
                        uint32_t size)
{
    check_begin(what);
    compare(RECORD, bytes, length, number, size);
    check_end();
}

void check_reason(const char *what, uint32_t number)
{
    check_that(what, has_reason(number));
}

int check_report(void)
{
    printf("self-checks: %u hold\n", own_held);
    printf("%u passed, %u failed\n", passed, failed);
    return failed == 0 ? EXIT_SUCCESS : EXIT_FAILURE;
}
