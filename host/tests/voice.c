/* Voice, message types 3 to 5: document 02, R-4. The numbers are that request's own, or follow from
 * it and from document 01. */
#include "../altuvrin.h"
#include "check.h"
#include "tests.h"

#include <stdio.h>

static struct datagram datagram;

/* The name of a check of one message type. */
static const char *name(const char *what, uint32_t type)
{
    static char text[80];
    snprintf(text, sizeof text, "%s, type %u", what, type);
    return text;
}

/* Live reading refuses each body with 50, before 15; archive reading takes up to 256 bytes. */
static void check_bodies(uint32_t type)
{
    make_signal(&datagram, type, 0);
    check_readings(name("voice of no bytes", type), &datagram, 50, 0);
    check_archive_bytes(name("its size", type), datagram.bytes, 52, 0, 52);
    make_signal(&datagram, type, 6);
    check_readings(name("voice of 6 bytes", type), &datagram, 50, 0);
    check_archive_bytes(name("its size", type), datagram.bytes, 60, 0, 60);
    make_signal(&datagram, type, 256);
    check_readings(name("voice of 256 bytes", type), &datagram, 50, 0);
    check_archive_bytes(name("its size", type), datagram.bytes, 308, 0, 308);
    make_signal(&datagram, type, 257);
    check_readings(name("voice of 257 bytes", type), &datagram, 50, 15);
    check_archive_bytes(name("it has no size", type), datagram.bytes, 312, 15, 0);
}

/* The network header's numbers come first. */
static void check_header(uint32_t type)
{
    make_signal(&datagram, type, 0);
    put(&datagram, SLOT_ID, 0x7000BFFF);
    check_readings(name("epoch 112, slot 49,151", type), &datagram, 50, 0);
    put(&datagram, SLOT_ID, 0x7000C000);
    check(name("epoch 112, slot 49,152", type), &datagram, 138);
    put(&datagram, NPG, 512);
    check(name("NPG 512", type), &datagram, 131);
}

/* Types 2 and 6, beside voice, are read alike by both. */
static void test_neighbours(void)
{
    make_signal(&datagram, 2, 6);
    check("type 2, 6 bytes", &datagram, 0);
    make_signal(&datagram, 2, 256);
    check("type 2, 256 bytes", &datagram, 14);
    make_signal(&datagram, 6, 256);
    check("type 6, 256 bytes", &datagram, 0);
    make_signal(&datagram, 6, 257);
    check("type 6, 257 bytes", &datagram, 15);
}

void test_voice(void)
{
    for (uint32_t type = 3; type <= 5; type++) {
        check_bodies(type);
        check_header(type);
    }
    test_neighbours();
    check_archive_bytes("archive reading of no bytes at NULL", NULL, 0, 1, 0);
}
