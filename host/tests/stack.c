/*
 * The stack of the small box: document 02, R-8. Every call that the archive exports is run on 8 KiB
 * of stack, over input of every kind; each other test of this program adds its own input (check.c).
 */
#include "../altuvrin.h"
#include "../records.h"
#include "check.h"
#include "small_stack.h"
#include "stack.h"
#include "tests.h"

#include <stdio.h>
#include <string.h>

/*
 * The numbers that both readings can give, of which live reading has one more, and those that the
 * check of a record can give. No call gives 51 or 52.
 */
#define BOTH_READINGS \
    ALTUVRIN_TAKEN, \
    ALTUVRIN_SHORT, \
    ALTUVRIN_VERSION, \
    ALTUVRIN_TYPE, \
    ALTUVRIN_LENGTH, \
    ALTUVRIN_RADIO, \
    ALTUVRIN_PATTERN_LENGTH, \
    ALTUVRIN_MODULATION_LENGTH, \
    ALTUVRIN_PARAMETER_RECORDS, \
    ALTUVRIN_PDU_SIZE, \
    ALTUVRIN_MODULATION, \
    ALTUVRIN_ENCODING, \
    ALTUVRIN_TDL_TYPE, \
    ALTUVRIN_DATA_LENGTH, \
    ALTUVRIN_NPG, \
    ALTUVRIN_NET, \
    ALTUVRIN_TSEC, \
    ALTUVRIN_MSEC, \
    ALTUVRIN_MESSAGE_TYPE, \
    ALTUVRIN_SLOT, \
    ALTUVRIN_EPOCH, \
    ALTUVRIN_LATE_SLOT, \
    ALTUVRIN_BODY_SIZE, \
    ALTUVRIN_BODY_LIMIT
static const uint32_t READING[] = {BOTH_READINGS, ALTUVRIN_RETIRED};
static const uint32_t ARCHIVE_READING[] = {BOTH_READINGS};
static const uint32_t RECORD[] = {
    ALTUVRIN_TAKEN,      ALTUVRIN_RECORD_KIND,   ALTUVRIN_RECORD_LENGTH,
    ALTUVRIN_RECORD_PDU, ALTUVRIN_RECORD_NUMBER,
};

/* A call of the archive, and the numbers that it can give. */
struct exported {
    const char *name;
    archive_call *call;
    const uint32_t *numbers;
    size_t count;
};

#define CALL(call, numbers) {#call, call, numbers, COUNT(numbers)}

/* Every export; one that is missing here fails test_exports. */
static const struct exported CALLS[] = {
    CALL(altuvrin_datagram, READING),
    CALL(altuvrin_archive, ARCHIVE_READING),
    CALL(altuvrin_record, RECORD),
};

/* The names of the archive's exports, one `EXPORT(name)` to a line: nm tells them (Makefile). */
#define EXPORT(name) #name,
static const char *const EXPORTS[] = {
#include "exports.h"
};

/* More than any number of an answer. */
enum { NUMBERS_END = 256 };

/* What the runs of each call have shown. */
static struct {
    size_t runs;
    size_t used;
    size_t overflows;
    bool given[NUMBERS_END];
} seen[COUNT(CALLS)];

/* The first input of a call that went past the end. */
static void print_overflow(const char *name, const uint8_t *bytes, size_t length)
{
    printf("stack: %s went past the end of %d bytes on these %zu bytes: ", name, SMALL_STACK,
           length);
    for (size_t i = 0; i < length; i++)
        printf("%02x", bytes[i]);
    printf("\n");
}

struct small_run try_small_stack(archive_call *call, const uint8_t *bytes, size_t length)
{
    struct small_run run = run_on_small_stack(call, bytes, length);
    for (size_t i = 0; i < COUNT(CALLS); i++) {
        if (CALLS[i].call != call)
            continue;
        seen[i].runs++;
        if (run.overflowed && seen[i].overflows++ == 0)
            print_overflow(CALLS[i].name, bytes, length);
        if (run.used > seen[i].used)
            seen[i].used = run.used;
        if (!run.overflowed && altuvrin_number(run.answer) < NUMBERS_END)
            seen[i].given[altuvrin_number(run.answer)] = true;
    }
    return run;
}

static bool is_covered(const char *name)
{
    for (size_t i = 0; i < COUNT(CALLS); i++) {
        if (strcmp(CALLS[i].name, name) == 0)
            return true;
    }
    return false;
}

static void test_exports(void)
{
    static char text[160];
    for (size_t i = 0; i < COUNT(EXPORTS); i++) {
        snprintf(text, sizeof text, "%s is run on the small stack", EXPORTS[i]);
        check_that(text, is_covered(EXPORTS[i]));
    }
    check_that("the archive has as many exports as calls are run", COUNT(EXPORTS) == COUNT(CALLS));
}

/* Every call with these bytes. */
static void try_all(const uint8_t *bytes, size_t length)
{
    for (size_t i = 0; i < COUNT(CALLS); i++)
        try_small_stack(CALLS[i].call, bytes, length);
}

/* As it is, cut to every length, and with every bit turned by itself. */
static void try_forms(struct datagram *datagram)
{
    for (size_t length = 0; length <= datagram->length; length++)
        try_all(datagram->bytes, length);
    for (size_t bit = 0; bit < 8 * datagram->length; bit++) {
        datagram->bytes[bit / 8] ^= (uint8_t)(1 << bit % 8);
        try_all(datagram->bytes, datagram->length);
        datagram->bytes[bit / 8] ^= (uint8_t)(1 << bit % 8);
    }
}

static struct datagram datagram;

/* The last slots, so that one bit leads past each of their rules. */
static void try_slots(void)
{
    make_words(&datagram, 1);
    put(&datagram, SLOT_ID, slot_id(0, LAST_SLOT));
    try_forms(&datagram);
    put(&datagram, SLOT_ID, slot_id(LAST_EPOCH, LAST_SLOT_OF_LAST_EPOCH));
    try_forms(&datagram);
}

/* PDUs of every size that can be taken, and of sizes past these. */
static void try_pdus(void)
{
    make_transmitter(&datagram);
    try_forms(&datagram);
    put(&datagram, VERSION, LAST_VERSION);
    try_forms(&datagram);
    for (size_t words = 0; words <= WORDS_MAX + 1; words++) {
        make_words(&datagram, words);
        try_forms(&datagram);
    }
    for (uint32_t type = 0; type <= LAST_MESSAGE_TYPE; type++) {
        for (size_t body = 0; body <= BODY_MAX + WORD_SIZE; body++) {
            make_signal(&datagram, type, body);
            try_all(datagram.bytes, datagram.length);
        }
    }
    make_signal(&datagram, LAST_MESSAGE_TYPE, BODY_MAX);
    try_forms(&datagram);
}

/* Datagrams of two PDUs: the second follows the first, whose length field may go past its end. */
static void try_bundles(void)
{
    static struct datagram bundle;
    make_transmitter(&bundle);
    make_words(&datagram, WORDS_MAX);
    append(&bundle, &datagram);
    try_forms(&bundle);
    make_timing(&bundle, RTT);
    make_transmitter(&datagram);
    append(&bundle, &datagram);
    try_forms(&bundle);
}

/* Records of every kind, and of kinds that are none; with a status too, in version 7. */
static void try_records(void)
{
    for (uint32_t kind = 0; kind <= REPLY_KIND; kind++) {
        if (WORDS_MAX + 1 < kind && kind < TRANSMITTER_KIND)
            continue;
        if (RTT_REPLY_KIND < kind && kind < REPLY_KIND)
            continue;
        make_record(&datagram, kind, NO_PDU_NUMBER - 1);
        try_forms(&datagram);
        if (kind == REPLY_KIND)
            continue;
        put(&datagram, carried(VERSION), LAST_VERSION);
        put(&datagram, carried(STATUS), 255);
        try_forms(&datagram);
    }
}

/* SplitMix64 (Steele, Lea and Flood, 2014). */
static uint64_t random_number(uint64_t *state)
{
    uint64_t mixed = *state += 0x9E3779B97F4A7C15;
    mixed = (mixed ^ mixed >> 30) * 0xBF58476D1CE4E5B9;
    mixed = (mixed ^ mixed >> 27) * 0x94D049BB133111EB;
    return mixed ^ mixed >> 31;
}

/* Random bytes; in three of four cases the first four are those of a PDU. */
static void try_random(uint64_t seed, size_t count)
{
    uint64_t state = seed;
    printf("stack: %zu inputs of random bytes, seed %llu\n", count, (unsigned long long)seed);
    for (size_t i = 0; i < count; i++) {
        size_t length = random_number(&state) % 400;
        for (size_t at = 0; at < length; at++)
            datagram.bytes[at] = (uint8_t)random_number(&state);
        datagram.length = length;
        if (i % 4 != 0 && length >= START_SIZE) {
            put(&datagram, VERSION, FIRST_VERSION + (uint32_t)(i % 3));
            put(&datagram, PDU_TYPE, i % 2 == 0 ? TRANSMITTER_TYPE : SIGNAL_TYPE);
            put(&datagram, FAMILY, RADIO_FAMILY);
            put(&datagram, LENGTH, (uint32_t)length);
        }
        try_all(datagram.bytes, length);
    }
}

/* Whether the call's numbers, and no others, were given; those that are wrong are told. */
static bool gave_its_numbers(size_t which)
{
    bool may_give[NUMBERS_END] = {false};
    bool right = true;
    for (size_t i = 0; i < CALLS[which].count; i++)
        may_give[CALLS[which].numbers[i]] = true;
    for (unsigned number = 0; number < NUMBERS_END; number++) {
        if (may_give[number] == seen[which].given[number])
            continue;
        right = false;
        printf("stack: %s %s %u\n", CALLS[which].name,
               may_give[number] ? "never gave" : "is not known to give", number);
    }
    return right;
}

static void report(size_t which)
{
    static char text[160];
    const char *name = CALLS[which].name;
    printf("stack: %s used at most %zu of %d bytes, %zu of these its own, in %zu runs\n", name,
           seen[which].used, SMALL_STACK, seen[which].used - small_stack_overhead(),
           seen[which].runs);
    snprintf(text, sizeof text, "%s gives every number of its own on the small stack", name);
    check_that(text, gave_its_numbers(which));
    snprintf(text, sizeof text, "%s stays on the small stack", name);
    check_that(text, seen[which].runs > 0 && seen[which].overflows == 0);
}

void test_stack(void)
{
    test_exports();
    try_all(NULL, 0);
    try_slots();
    try_pdus();
    try_bundles();
    try_records();
    try_random(1, 100000);
    printf("stack: to come to a call and back took %zu bytes\n", small_stack_overhead());
    for (size_t i = 0; i < COUNT(CALLS); i++)
        report(i);
}
