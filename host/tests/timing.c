/* Round-trip timing: document 02, R-1. The numbers are that request's own, or follow from it. */
#include "../altuvrin.h"
#include "../records.h"
#include "check.h"
#include "tests.h"

#include <stdio.h>

static struct datagram datagram;
static struct datagram record;

/* The body's bits, counted from its highest; the first so many are padding. */
enum { BODY_BITS = 48, PADDING_BITS = 13 };

/* The name of a check of one message type. */
static const char *name(const char *what, uint32_t type)
{
    static char text[80];
    snprintf(text, sizeof text, "%s, type %u", what, type);
    return text;
}

/* Flips one bit of the body that starts at this byte. */
static void flip(struct datagram *bytes, size_t body_start, size_t bit)
{
    bytes->bytes[body_start + bit / 8] ^= (uint8_t)(0x80 >> bit % 8);
}

static void check_sizes(uint32_t type, uint32_t kind)
{
    make_signal(&datagram, type, 6);
    check_bytes(name("body of 6 bytes", type), datagram.bytes, 60, ALTUVRIN_TAKEN, 60);
    make_record_of(&record, kind, 0, &datagram);
    check_record_bytes(name("record of 65 bytes", type), record.bytes, 65, ALTUVRIN_TAKEN, 65);
    make_signal(&datagram, type, 5);
    check_bytes(name("body of 5 bytes", type), datagram.bytes, 60, ALTUVRIN_BODY_SIZE, 0);
    make_signal(&datagram, type, 7);
    check_bytes(name("body of 7 bytes", type), datagram.bytes, 60, ALTUVRIN_BODY_SIZE, 0);
}

/* One check: in a datagram each bit of the body may be set, and all together. */
static void check_bits(uint32_t type)
{
    make_signal(&datagram, type, 6);
    check_begin(name("bits of the body", type));
    for (size_t bit = 0; bit < BODY_BITS; bit++) {
        flip(&datagram, 52, bit);
        sample(&datagram, ALTUVRIN_TAKEN);
    }
    check_end();
}

/* One check: in a record each bit of the body may be set, but none of its padding. */
static void check_record_bits(uint32_t type, uint32_t kind)
{
    make_record(&record, kind, 0);
    check_begin(name("bits of the body in a record", type));
    for (size_t bit = 0; bit < BODY_BITS; bit++) {
        flip(&record, 57, bit);
        sample_record(&record, bit < PADDING_BITS ? ALTUVRIN_RECORD_PDU : ALTUVRIN_TAKEN);
        flip(&record, 57, bit);
    }
    check_end();
}

/* Message type 1 is carried as kind 17, and type 2 as kind 18. */
void test_timing(void)
{
    for (uint32_t type = 1; type <= 2; type++) {
        check_sizes(type, 16 + type);
        check_bits(type);
        check_record_bits(type, 16 + type);
    }
}
