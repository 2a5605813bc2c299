/* Protocol versions 5, 6 and 7: document 02, R-9. The numbers are that request's own, or follow
 * from it and from document 01. */
#include "../altuvrin.h"
#include "../records.h"
#include "check.h"
#include "tests.h"

#include <stdio.h>

static struct datagram datagram;

/* The versions tried, and the number of each. */
enum { FIRST_TRIED = 4, LAST_TRIED = 8 };

struct numbers {
    uint32_t of[LAST_TRIED - FIRST_TRIED + 1];
};

/* Taken in versions 5, 6 and 7. */
static const struct numbers TAKEN = {{2, 0, 0, 0, 2}};

/* The name of a check of one version. */
static const char *name(const char *what, uint32_t version)
{
    static char text[80];
    snprintf(text, sizeof text, "%s, version %u", what, version);
    return text;
}

/* Both readings answer the datagram in each version with its number. */
static void check_versions(const char *what, struct numbers numbers)
{
    for (uint32_t version = FIRST_TRIED; version <= LAST_TRIED; version++) {
        put(&datagram, VERSION, version);
        check(name(what, version), &datagram, numbers.of[version - FIRST_TRIED]);
    }
}

/* A Transmitter with this number in a field. */
static void check_transmitter(const char *what, struct field field, uint32_t value,
                              struct numbers numbers)
{
    make_transmitter(&datagram);
    put(&datagram, field, value);
    check_versions(what, numbers);
}

static void test_transmitters(void)
{
    const struct numbers refused_in_7 = {{2, 0, 0, 64, 2}};
    check_transmitter("Transmitter", STATUS, 0, TAKEN);
    check_transmitter("byte 10 is 1", STATUS, 1, TAKEN);
    check_transmitter("byte 10 is 255", STATUS, 255, TAKEN);
    check_transmitter("byte 11 is 255", PADDING, 255, TAKEN);
    check_transmitter("byte 31 is 1", PARAMETER_RECORDS, 1, refused_in_7);
    check_transmitter("byte 30 is 1", PARAMETER_RECORDS, 256, refused_in_7);
    check_transmitter("bytes 30 and 31 are 255", PARAMETER_RECORDS, 65535, refused_in_7);
}

/* A Transmitter with one parameter record, and this number in another field. */
static void check_record_and(const char *what, struct field field, uint32_t value,
                             struct numbers numbers)
{
    make_transmitter(&datagram);
    put(&datagram, PARAMETER_RECORDS, 1);
    put(&datagram, field, value);
    check_versions(what, numbers);
}

/* 64 comes after 3, 4, 5, 6 and 7, and before 8 and 9. */
static void test_order_of_64(void)
{
    const struct numbers of_3 = {{2, 3, 3, 3, 2}};
    const struct numbers of_4 = {{2, 4, 4, 4, 2}};
    const struct numbers of_5 = {{2, 5, 5, 5, 2}};
    const struct numbers of_6 = {{2, 6, 6, 6, 2}};
    const struct numbers of_7 = {{2, 7, 7, 7, 2}};
    const struct numbers of_8 = {{2, 8, 8, 64, 2}};
    const struct numbers of_9 = {{2, 9, 9, 64, 2}};
    check_record_and("a record, 3", FAMILY, 5, of_3);
    check_record_and("a record, 4", LENGTH, 113, of_4);
    check_record_and("a record, 5", SYSTEM, 9, of_5);
    check_record_and("a record, 6", MODULATION_LENGTH, 16, of_6);
    check_record_and("a record, 7", PATTERN_LENGTH, 1, of_7);
    check_record_and("a record, 9", TSA_LEVEL, 5, of_9);
    make_transmitter(&datagram);
    put(&datagram, PARAMETER_RECORDS, 1);
    resize(&datagram, 116);
    check_versions("a record, 8", of_8);
}

static void test_signals(void)
{
    const struct numbers cut = {{2, 4, 4, 4, 2}};
    make_words(&datagram, 1);
    check_versions("Signal", TAKEN);
    put(&datagram, STATUS, 255);
    put(&datagram, PADDING, 255);
    check_versions("Signal, bytes 10 and 11 are 255", TAKEN);
    /* Bytes 30 and 31 of a Signal are its samples. */
    put(&datagram, PARAMETER_RECORDS, 65535);
    check_versions("Signal, bytes 30 and 31 are 255", TAKEN);
    resize(&datagram, 12);
    check_versions("12 bytes", cut);
    make_signal(&datagram, FIRST_VOICE, 6);
    put(&datagram, VERSION, 7);
    check_readings("voice, version 7", &datagram, 50, 0);
}

/* A record of this kind with a number in a field of its PDU. */
static void check_carried(const char *what, uint32_t kind, struct field field, uint32_t value,
                          struct numbers numbers)
{
    make_record(&datagram, kind, 0);
    put(&datagram, carried(field), value);
    for (uint32_t version = FIRST_TRIED; version <= LAST_TRIED; version++) {
        put(&datagram, carried(VERSION), version);
        check_record(name(what, version), &datagram, numbers.of[version - FIRST_TRIED]);
    }
}

/* The status of version 7 is carried; byte 10 of the others and byte 11 of all are zero. */
static void test_records_of(uint32_t kind)
{
    const struct numbers taken = {{22, 0, 0, 0, 22}};
    const struct numbers taken_in_7 = {{22, 22, 22, 0, 22}};
    const struct numbers refused = {{22, 22, 22, 22, 22}};
    check_carried("carried", kind, STATUS, 0, taken);
    check_carried("carried, byte 10 is 1", kind, STATUS, 1, taken_in_7);
    check_carried("carried, byte 10 is 255", kind, STATUS, 255, taken_in_7);
    check_carried("carried, byte 11 is 1", kind, PADDING, 1, refused);
    check_carried("carried, byte 11 is 255", kind, PADDING, 255, refused);
    check_carried("carried, byte 31 is 1", kind, PARAMETER_RECORDS, 1,
                  kind == TRANSMITTER_KIND ? refused : taken);
}

void test_versions(void)
{
    test_transmitters();
    test_order_of_64();
    test_signals();
    test_records_of(0);
    test_records_of(WORDS_MAX);
    test_records_of(TRANSMITTER_KIND);
    test_records_of(RTT_KIND);
    test_records_of(RTT_REPLY_KIND);
    check_reason("reason of 52", 52);
    check_reason("reason of 64", 64);
}
