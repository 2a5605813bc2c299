/* The cases that document 01 lists under "Sizes and edges"; the numbers are that list's own, with
 * those that document 02, R-2, R-3 and R-9, puts in their place. */
#include "../altuvrin.h"
#include "check.h"
#include "tests.h"

static struct datagram datagram;

/* The first 12 bytes of a Signal, with a length field of 12. */
static void start(uint32_t version)
{
    make_words(&datagram, 0);
    put(&datagram, VERSION, version);
    resize(&datagram, 12);
}

static void test_starts(void)
{
    check_bytes("no bytes at NULL", NULL, 0, ALTUVRIN_SHORT, 0);
    start(6);
    datagram.length = 11;
    check("11 bytes", &datagram, ALTUVRIN_SHORT);
    start(8);
    check("12 bytes, version 8", &datagram, ALTUVRIN_VERSION);
    start(6);
    check("12 bytes, version 6, Signal, length 12", &datagram, ALTUVRIN_LENGTH);
}

static void check_words(const char *what, size_t words, uint32_t size)
{
    make_words(&datagram, words);
    check_bytes(what, datagram.bytes, datagram.length, ALTUVRIN_TAKEN, size);
}

static void test_bodies(void)
{
    check_words("Signal of no words", 0, 60);
    check_words("Signal of 1 word", 1, 68);
    check_words("Signal of 2 words", 2, 80);
    check_words("Signal of 12 words", 12, 180);
    make_words(&datagram, 13);
    check_bytes("188 bytes, 13 words", datagram.bytes, 188, ALTUVRIN_BODY_LIMIT, 0);
    make_signal(&datagram, 0, 5);
    check("type 0, 25 data bytes", &datagram, ALTUVRIN_BODY_SIZE);
}

static void check_signal(const char *what, struct field field, uint32_t value, uint32_t number)
{
    make_words(&datagram, 1);
    put(&datagram, field, value);
    check(what, &datagram, number);
}

static void test_network_header(void)
{
    check_signal("epoch 111, slot 98,303", SLOT_ID, 0x6F017FFF, ALTUVRIN_TAKEN);
    check_signal("epoch 111, slot 98,304", SLOT_ID, 0x6F018000, ALTUVRIN_SLOT);
    check_signal("epoch 0, slot 98,304", SLOT_ID, 98304, ALTUVRIN_SLOT);
    check_signal("epoch 112, slot 49,151", SLOT_ID, 0x7000BFFF, ALTUVRIN_TAKEN);
    check_signal("epoch 112, slot 49,152", SLOT_ID, 0x7000C000, ALTUVRIN_LATE_SLOT);
    check_signal("TSEC 127", TSEC, 127, ALTUVRIN_TAKEN);
    check_signal("TSEC 255", TSEC, 255, ALTUVRIN_TAKEN);
    check_signal("TSEC 128", TSEC, 128, ALTUVRIN_TSEC);
    check_signal("TSEC 254", TSEC, 254, ALTUVRIN_TSEC);
    check_signal("MSEC 127", MSEC, 127, ALTUVRIN_TAKEN);
    check_signal("MSEC 255", MSEC, 255, ALTUVRIN_TAKEN);
    check_signal("MSEC 128", MSEC, 128, ALTUVRIN_MSEC);
    check_signal("MSEC 254", MSEC, 254, ALTUVRIN_MSEC);
    check_signal("NPG 511", NPG, 511, ALTUVRIN_TAKEN);
    check_signal("NPG 512", NPG, 512, ALTUVRIN_NPG);
}

static void check_id(const char *what, uint32_t level, uint32_t id, uint32_t number)
{
    make_transmitter(&datagram);
    put(&datagram, TSA_LEVEL, level);
    put(&datagram, SYNC_ID, id);
    check(what, &datagram, number);
}

static void test_ids(void)
{
    check_id("ID 1 at level 2", 2, 1, ALTUVRIN_MODULATION);
    check_id("ID 1 at level 3", 3, 1, ALTUVRIN_TAKEN);
    check_id("ID 0 at level 3", 3, 0, ALTUVRIN_TAKEN);
}

void test_edges(void)
{
    test_starts();
    test_bodies();
    test_network_header();
    test_ids();
}
