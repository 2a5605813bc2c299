/* Trunk records: document 01, "The trunk" and the numbers 20, 21, 22 and 25; document 02, R-1, R-4,
 * */
#include "../records.h"
#include "../altuvrin.h"
#include "check.h"
#include "tests.h"

#include <stdbool.h>
#include <stdio.h>
#include <string.h>

static struct datagram record;

/* A kind, and the length of its records. */
struct kind {
    uint32_t kind;
    size_t length;
};

static const struct kind KINDS[] = {
    {0, 65},   {1, 73},   {2, 85},   {3, 93},   {4, 105},  {5, 113},
    {6, 125},  {7, 133},  {8, 145},  {9, 153},  {10, 165}, {11, 173},
    {12, 185}, {16, 117}, {17, 65},  {18, 65},  {32, 5},
};

/* All kinds but the reply's, which is the last, carry a PDU. */
enum { PDU_KINDS = COUNT(KINDS) - 1 };

/* Longer than any record. */
enum { LENGTH_MAX = 300 };

/* The name of a check of one kind. */
static const char *name(const char *what, uint32_t kind)
{
    static char text[80];
    snprintf(text, sizeof text, "%s, kind %u", what, kind);
    return text;
}

static void test_kinds(void)
{
    for (size_t i = 0; i < COUNT(KINDS); i++) {
        make_record(&record, KINDS[i].kind, 5);
        check_record_bytes(name("record", KINDS[i].kind), record.bytes, record.length,
                           ALTUVRIN_TAKEN, (uint32_t)KINDS[i].length);
    }
}

/* Samples: this kind is unknown, whatever the length. */
static void sample_unknown(uint32_t kind)
{
    make_record(&record, WORDS_MAX, 0);
    put(&record, RECORD_KIND, kind);
    for (record.length = 1; record.length <= LENGTH_MAX; record.length++)
        sample_record(&record, ALTUVRIN_RECORD_KIND);
}

static bool is_known(uint32_t kind)
{
    for (size_t i = 0; i < COUNT(KINDS); i++) {
        if (KINDS[i].kind == kind)
            return true;
    }
    return false;
}

static void test_unknown_kinds(void)
{
    static const uint32_t beside_known[] = {13, 15, 19, 31, 33, 255};
    for (size_t i = 0; i < COUNT(beside_known); i++) {
        check_begin(name("unknown", beside_known[i]));
        sample_unknown(beside_known[i]);
        check_end();
    }
    check_begin("all unknown kinds");
    for (uint32_t kind = 0; kind < 256; kind++) {
        if (!is_known(kind))
            sample_unknown(kind);
    }
    check_end();
}

static void test_lengths(void)
{
    check_record_bytes("no record at NULL", NULL, 0, ALTUVRIN_RECORD_LENGTH, 0);
    for (size_t i = 0; i < COUNT(KINDS); i++) {
        make_record(&record, KINDS[i].kind, 0);
        check_begin(name("every other length", KINDS[i].kind));
        for (record.length = 0; record.length <= LENGTH_MAX; record.length++) {
            if (record.length != KINDS[i].length)
                sample_record(&record, ALTUVRIN_RECORD_LENGTH);
        }
        check_end();
    }
}

static void test_numbers(void)
{
    for (size_t i = 0; i < COUNT(KINDS); i++) {
        bool reply = KINDS[i].kind == REPLY_KIND;
        make_record(&record, KINDS[i].kind, NO_PDU_NUMBER);
        check_record(name("number 4,294,967,295", KINDS[i].kind), &record,
                     reply ? ALTUVRIN_TAKEN : ALTUVRIN_RECORD_NUMBER);
        check_begin(name("other numbers", KINDS[i].kind));
        for (uint32_t bit = 0; bit < 32; bit++) {
            put(&record, RECORD_NUMBER, (uint32_t)1 << bit);
            sample_record(&record, ALTUVRIN_TAKEN);
            put(&record, RECORD_NUMBER, NO_PDU_NUMBER - ((uint32_t)1 << bit));
            sample_record(&record, ALTUVRIN_TAKEN);
        }
        check_end();
    }
}

/* Samples: each of these bits of a carried field, flipped, gives this number. */
static void sample_bits(struct field field, uint32_t bits, uint32_t number)
{
    uint32_t before = get(&record, carried(field));
    for (uint32_t bit = 0; bit < 8 * field.width; bit++) {
        if ((bits >> bit & 1) == 0)
            continue;
        put(&record, carried(field), before ^ (uint32_t)1 << bit);
        sample_record(&record, number);
    }
    put(&record, carried(field), before);
}

/* Samples: each bit of a carried field that is padding. */
static void sample_padding(struct field field, uint32_t padding)
{
    sample_bits(field, padding, ALTUVRIN_RECORD_PDU);
}

static const uint32_t all = UINT32_MAX;

/* Gives the PDU this version. Samples: byte 10, padding or a status, and byte 11. */
static void sample_start(uint32_t version)
{
    bool status = version > LAST_VERSION_WITHOUT_STATUS;
    put(&record, carried(VERSION), version);
    sample_bits(STATUS, all, status ? ALTUVRIN_TAKEN : ALTUVRIN_RECORD_PDU);
    sample_padding(PADDING, all);
}

/* One check: a Signal's padding in each version, the fill behind its body, and what is padding
 * inside it. */
static void check_signal_padding(uint32_t kind, size_t body_end, uint32_t in_body)
{
    make_record(&record, kind, 0);
    check_begin(name("padding and fill", kind));
    for (uint32_t version = FIRST_VERSION; version <= LAST_VERSION; version++) {
        sample_start(version);
        sample_padding(MESSAGE_TYPE_PADDING, all);
        sample_padding(SLOT_ID, SLOT_ID_PADDING);
        sample_padding(BODY_START, in_body);
        for (size_t at = body_end; at < record.length - RECORD_HEAD_SIZE; at++)
            sample_padding((struct field){at, 1}, all);
        sample_record(&record, ALTUVRIN_TAKEN);
    }
    check_end();
}

/* One check: the same of a Transmitter. In version 7 the reader refuses parameter records. */
static void check_transmitter_padding(void)
{
    make_record(&record, TRANSMITTER_KIND, 0);
    check_begin(name("padding", TRANSMITTER_KIND));
    for (uint32_t version = FIRST_VERSION; version <= LAST_VERSION; version++) {
        sample_start(version);
        sample_padding(PARAMETER_RECORDS, all);
        sample_padding(MODULATION_PADDING, all);
        sample_record(&record, ALTUVRIN_TAKEN);
    }
    check_end();
}

static void test_padding(void)
{
    check_transmitter_padding();
    for (uint32_t words = 0; words <= WORDS_MAX; words++)
        check_signal_padding(words, 58 + WORD_SIZE * words, 0);
    check_signal_padding(RTT_KIND, 58, TIMING_PADDING);
    check_signal_padding(RTT_REPLY_KIND, 58, TIMING_PADDING);
}

/* What archive reading answers to a Signal of this type, from 1 to 7, with so many body bytes. */
static uint32_t archive_number(uint32_t type, size_t body)
{
    bool timing = type == RTT || type == RTT_REPLY;
    return timing && body != TIMING_SIZE ? ALTUVRIN_BODY_SIZE : ALTUVRIN_TAKEN;
}

/* Whether records of this kind carry Signals of this type, from 1 to 7. */
static bool carries(uint32_t kind, uint32_t type)
{
    return (kind == RTT_KIND && type == RTT) || (kind == RTT_REPLY_KIND && type == RTT_REPLY);
}

/* One check: Signals of types 1 to 7 that have the size of what this kind carries. */
static void check_types(const struct kind *kind)
{
    static struct datagram signal;
    size_t body = kind->length - RECORD_HEAD_SIZE - SIGNAL_FIXED_SIZE - NETWORK_HEADER_SIZE;
    check_begin(name("types 1 to 7", kind->kind));
    for (uint32_t type = 1; type <= LAST_MESSAGE_TYPE; type++) {
        for (size_t fill = 0; fill < FILL_MULTIPLE; fill++) {
            make_signal(&signal, type, body - fill);
            make_record_of(&record, kind->kind, 0, &signal);
            uint32_t archive = archive_number(type, body - fill);
            uint32_t live = is_voice(type) ? ALTUVRIN_RETIRED : archive;
            bool taken = live == ALTUVRIN_TAKEN && carries(kind->kind, type);
            sample_readings(&signal, live, archive);
            sample_record(&record, taken ? ALTUVRIN_TAKEN : ALTUVRIN_RECORD_PDU);
        }
    }
    check_end();
}

/* One check: the PDUs of all other kinds, at their own length and at that of this kind. */
static void check_other_kinds(const struct kind *kind)
{
    check_begin(name("another kind's PDU", kind->kind));
    for (size_t i = 0; i < COUNT(KINDS); i++) {
        if (KINDS[i].kind == kind->kind)
            continue;
        make_record(&record, KINDS[i].kind, 0);
        put(&record, RECORD_KIND, kind->kind);
        if (KINDS[i].length != kind->length)
            sample_record(&record, ALTUVRIN_RECORD_LENGTH);
        record.length = kind->length;
        sample_record(&record, kind->kind == REPLY_KIND ? ALTUVRIN_TAKEN : ALTUVRIN_RECORD_PDU);
    }
    check_end();
}

/* One check: a shorter PDU in a record of this kind, with zeros behind it, or with PDUs as far as the
 * record goes. The reader takes it; the record carries more than one PDU. */
static void check_more_behind(const struct kind *kind)
{
    size_t room = kind->length - RECORD_HEAD_SIZE;
    check_begin(name("more than its PDU", kind->kind));
    for (size_t i = 0; i < PDU_KINDS; i++) {
        size_t size = KINDS[i].length - RECORD_HEAD_SIZE;
        if (size >= room)
            continue;
        make_record(&record, KINDS[i].kind, 0);
        put(&record, RECORD_KIND, kind->kind);
        record.length = kind->length;
        uint8_t *pdu = record.bytes + RECORD_HEAD_SIZE;
        memset(pdu + size, 0, room - size);
        sample_record(&record, ALTUVRIN_RECORD_PDU);
        for (size_t at = size; at < room; at++)
            pdu[at] = pdu[at - size];
        sample_record(&record, ALTUVRIN_RECORD_PDU);
    }
    check_end();
}

/* One check: a Transmitter and a Signal of 1 word have the size of a Signal of 12 words. */
static void check_bundle_carried(void)
{
    static struct datagram bundle;
    static struct datagram signal;
    make_transmitter(&bundle);
    make_words(&signal, 1);
    append(&bundle, &signal);
    make_record_of(&record, WORDS_MAX, 0, &bundle);
    check_record_bytes("a bundle in a record", record.bytes, 185, ALTUVRIN_RECORD_PDU, 0);
}

/* One check: a value that the reader refuses in each of these fields. */
static void check_damaged(uint32_t kind, const struct field *fields, size_t count)
{
    make_record(&record, kind, 0);
    check_begin(name("damaged PDU", kind));
    for (size_t i = 0; i < count; i++) {
        uint32_t before = get(&record, carried(fields[i]));
        put(&record, carried(fields[i]), UINT32_MAX - 1);
        sample_record(&record, ALTUVRIN_RECORD_PDU);
        put(&record, carried(fields[i]), before);
    }
    sample_record(&record, ALTUVRIN_TAKEN);
    check_end();
}

static void test_damaged(void)
{
    const struct field transmitter[] = {
        VERSION,      PDU_TYPE,       FAMILY,     LENGTH,         CATEGORY,
        INPUT_SOURCE, PATTERN_LENGTH, MAJOR,      DETAIL,         SYSTEM,
        TSA_LEVEL,    PRIMARY_MODE,   SYNC_STATE, SECONDARY_MODE, MODULATION_LENGTH,
    };
    const struct field signal[] = {
        VERSION, PDU_TYPE, FAMILY, LENGTH, ENCODING, TDL_TYPE,     DATA_LENGTH,
        NPG,     NET,      TSEC,   MSEC,   SLOT_ID,  MESSAGE_TYPE,
    };
    check_damaged(TRANSMITTER_KIND, transmitter, COUNT(transmitter));
    for (uint32_t words = 0; words <= WORDS_MAX; words++)
        check_damaged(words, signal, COUNT(signal));
    check_damaged(RTT_KIND, signal, COUNT(signal));
    check_damaged(RTT_REPLY_KIND, signal, COUNT(signal));
}

/* One check: bytes that the reader keeps may hold anything. */
static void check_kept(uint32_t kind, size_t first, size_t last)
{
    make_record(&record, kind, 0);
    memset(record.bytes + RECORD_HEAD_SIZE + first, 0xFF, last - first + 1);
    check_record(name("kept bytes", kind), &record, ALTUVRIN_TAKEN);
}

void test_records(void)
{
    test_kinds();
    test_unknown_kinds();
    test_lengths();
    test_numbers();
    test_padding();
    for (size_t i = 0; i < PDU_KINDS; i++)
        check_types(&KINDS[i]);
    for (size_t i = 0; i < COUNT(KINDS); i++)
        check_other_kinds(&KINDS[i]);
    for (size_t i = 0; i < PDU_KINDS; i++)
        check_more_behind(&KINDS[i]);
    check_bundle_carried();
    test_damaged();
    check_kept(TRANSMITTER_KIND, 32, 69);
    check_kept(WORDS_MAX, 44, 177);
    check_kept(RTT_KIND, 54, 57);
    check_kept(RTT_REPLY_KIND, 54, 57);
}
