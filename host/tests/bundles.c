/* Datagrams of several PDUs: document 02, R-5. The numbers are that request's own, or follow from it
 * and from document 01. */
#include "../altuvrin.h"
#include "check.h"
#include "tests.h"

#include <string.h>

static struct datagram datagram;
static struct datagram pdu;

/* A PDU that archive reading takes; live reading takes it too, or answers 50. */
struct form {
    const char *name;
    uint32_t type;
    /* Of a Signal. */
    uint32_t message_type;
    size_t body;
    size_t size;
};

static const struct form FORMS[] = {
    {"Transmitter", TRANSMITTER_TYPE, 0, 0, 112},
    {"Signal of no words", SIGNAL_TYPE, 0, 6, 60},
    {"Signal of 1 word", SIGNAL_TYPE, 0, 16, 68},
    {"Signal of 2 words", SIGNAL_TYPE, 0, 26, 80},
    {"Signal of 3 words", SIGNAL_TYPE, 0, 36, 88},
    {"Signal of 4 words", SIGNAL_TYPE, 0, 46, 100},
    {"Signal of 5 words", SIGNAL_TYPE, 0, 56, 108},
    {"Signal of 6 words", SIGNAL_TYPE, 0, 66, 120},
    {"Signal of 7 words", SIGNAL_TYPE, 0, 76, 128},
    {"Signal of 8 words", SIGNAL_TYPE, 0, 86, 140},
    {"Signal of 9 words", SIGNAL_TYPE, 0, 96, 148},
    {"Signal of 10 words", SIGNAL_TYPE, 0, 106, 160},
    {"Signal of 11 words", SIGNAL_TYPE, 0, 116, 168},
    {"Signal of 12 words", SIGNAL_TYPE, 0, 126, 180},
    {"type 1", SIGNAL_TYPE, 1, 6, 60},
    {"type 2", SIGNAL_TYPE, 2, 6, 60},
    {"type 3", SIGNAL_TYPE, 3, 256, 308},
    {"type 4", SIGNAL_TYPE, 4, 1, 56},
    {"type 5", SIGNAL_TYPE, 5, 0, 52},
    {"type 6", SIGNAL_TYPE, 6, 0, 52},
    {"type 6, 13 bytes", SIGNAL_TYPE, 6, 13, 68},
    {"type 7, 256 bytes", SIGNAL_TYPE, 7, 256, 308},
};

static void make_form(struct datagram *made, const struct form *form)
{
    if (form->type == TRANSMITTER_TYPE)
        make_transmitter(made);
    else
        make_signal(made, form->message_type, form->body);
}

static uint32_t live_number(const struct form *form)
{
    bool voice = form->type == SIGNAL_TYPE && is_voice(form->message_type);
    return voice ? ALTUVRIN_RETIRED : ALTUVRIN_TAKEN;
}

/* What stands behind a PDU: a byte again and again, or the PDU itself again and again. */
enum behind { ZEROS, ONES, ITSELF, BEHINDS };

/* Puts so many bytes behind the first PDU, which has so many. */
static void put_behind(size_t size, size_t count, enum behind behind)
{
    if (behind != ITSELF)
        memset(datagram.bytes + size, behind == ZEROS ? 0 : 0xFF, count);
    for (size_t at = size; behind == ITSELF && at < size + count; at++)
        datagram.bytes[at] = datagram.bytes[at - size];
    datagram.length = size + count;
}

/* Tails of up to so many bytes: more than the longest PDU has. */
enum { TAIL_MAX = 320 };

/* Samples: a tail of every length changes nothing, neither these numbers nor the bytes used. */
static void sample_tails(size_t size, uint32_t live, uint32_t archive)
{
    for (enum behind behind = ZEROS; behind < BEHINDS; behind++) {
        for (size_t count = 0; count <= TAIL_MAX; count++) {
            put_behind(size, count, behind);
            sample_first(&datagram, size, live, archive);
        }
    }
}

/* One check for each form of PDU, in each version. */
static void test_tails(void)
{
    for (size_t i = 0; i < COUNT(FORMS); i++) {
        check_begin(FORMS[i].name);
        for (uint32_t version = FIRST_VERSION; version <= LAST_VERSION; version++) {
            make_form(&datagram, &FORMS[i]);
            put(&datagram, VERSION, version);
            sample_tails(FORMS[i].size, live_number(&FORMS[i]), ALTUVRIN_TAKEN);
        }
        check_end();
    }
}

/* One check: nor do they change the number of a PDU that is refused for this value of a field. */
static void check_refused(const char *what, const struct form *form, struct field field,
                          uint32_t value, uint32_t number)
{
    make_form(&datagram, form);
    put(&datagram, field, value);
    check_begin(what);
    sample_tails(form->size, number, number);
    check_end();
}

static void test_refused(void)
{
    const struct form *transmitter = &FORMS[0];
    const struct form *signal = &FORMS[1];
    check_refused("version 8, more behind", signal, VERSION, 8, ALTUVRIN_VERSION);
    check_refused("family 5, more behind", signal, FAMILY, 5, ALTUVRIN_TYPE);
    check_refused("length field 31, more behind", signal, LENGTH, 31, ALTUVRIN_LENGTH);
    check_refused("length field 32, more behind", signal, LENGTH, 32, ALTUVRIN_PDU_SIZE);
    check_refused("length field 59, more behind", signal, LENGTH, 59, ALTUVRIN_PDU_SIZE);
    check_refused("NPG 512, more behind", signal, NPG, 512, ALTUVRIN_NPG);
    check_refused("data length 200, more behind", signal, DATA_LENGTH, 200, ALTUVRIN_BODY_SIZE);
    check_refused("length field 103, more behind", transmitter, LENGTH, 103, ALTUVRIN_LENGTH);
    check_refused("length field 104, more behind", transmitter, LENGTH, 104, ALTUVRIN_PDU_SIZE);
    check_refused("length field 111, more behind", transmitter, LENGTH, 111, ALTUVRIN_PDU_SIZE);
    check_refused("system 9, more behind", transmitter, SYSTEM, 9, ALTUVRIN_RADIO);
    check_refused("level 5, more behind", transmitter, TSA_LEVEL, 5, ALTUVRIN_MODULATION);
}

/* One check: every length field where all of it lies in the slice, as far as it goes. Below the fixed
 * part it is 4; else it is 8, but for the PDU's own length. */
static void check_long_slice(const char *what, uint32_t fixed)
{
    size_t own = datagram.length;
    datagram.length = 65536;
    check_begin(what);
    for (uint32_t length = 0; length < 65536; length++) {
        uint32_t number = length < fixed   ? ALTUVRIN_LENGTH
                          : length == own  ? ALTUVRIN_TAKEN
                                           : ALTUVRIN_PDU_SIZE;
        put(&datagram, LENGTH, length);
        sample_first(&datagram, own, number, number);
    }
    check_end();
}

/* Samples: the length fields from first to last, in a slice of one byte less, and of just as many. */
static void sample_edges(size_t own, uint32_t first, uint32_t last)
{
    for (uint32_t length = first; length <= last; length++) {
        uint32_t number = length == own ? ALTUVRIN_TAKEN : ALTUVRIN_PDU_SIZE;
        put(&datagram, LENGTH, length);
        datagram.length = length - 1;
        sample(&datagram, ALTUVRIN_LENGTH);
        datagram.length = length;
        sample(&datagram, number);
    }
}

/* One check: from the fixed part on, and up to the largest. */
static void check_edges(const char *what, size_t own, uint32_t fixed)
{
    check_begin(what);
    sample_edges(own, fixed, 1000);
    sample_edges(own, 65500, 65535);
    check_end();
}

static void test_length_fields(void)
{
    make_transmitter(&datagram);
    check_long_slice("length fields of a Transmitter in 65,536 bytes", 104);
    make_transmitter(&datagram);
    check_edges("length fields of a Transmitter at the slice's end", 112, 104);
    make_words(&datagram, 0);
    check_long_slice("length fields of a Signal in 65,536 bytes", 32);
    make_words(&datagram, 0);
    check_edges("length fields of a Signal at the slice's end", 60, 32);
}

/* A bundle of several PDUs, and where each of them begins. */
static struct datagram bundle;
static const struct form *forms[10];
static size_t count;

static void start_bundle(void)
{
    bundle.length = 0;
    count = 0;
}

static void add(const struct form *form)
{
    make_form(&pdu, form);
    append(&bundle, &pdu);
    forms[count++] = form;
}

/* Samples: from the place of each PDU on both readings answer for it; where archive reading takes it,
 * the bytes used lead to the next. What is left at last gets this number. */
static void walk(uint32_t last)
{
    size_t at = 0;
    for (size_t i = 0; i <= count; i++) {
        uint32_t number = i < count ? ALTUVRIN_TAKEN : last;
        uint32_t live = i < count ? live_number(forms[i]) : last;
        datagram.length = bundle.length - at;
        memcpy(datagram.bytes, bundle.bytes + at, datagram.length);
        sample_first(&datagram, i < count ? forms[i]->size : 0, live, number);
        at += altuvrin_size(altuvrin_archive(datagram.bytes, datagram.length));
    }
}

/* One check: every form behind every form, and one more behind them. */
static void test_pairs(void)
{
    check_begin("every two PDUs, and a third");
    for (size_t i = 0; i < COUNT(FORMS); i++) {
        for (size_t j = 0; j < COUNT(FORMS); j++) {
            start_bundle();
            add(&FORMS[i]);
            add(&FORMS[j]);
            walk(ALTUVRIN_SHORT);
            add(&FORMS[(i + j) % COUNT(FORMS)]);
            walk(ALTUVRIN_SHORT);
        }
    }
    check_end();
}

/* One check: bundles of one to ten PDUs. The readings do not count them: 51 is no matter of theirs. */
static void test_counts(void)
{
    check_begin("one to ten PDUs");
    for (size_t first = 0; first < COUNT(FORMS); first++) {
        start_bundle();
        for (size_t i = 0; i < 10; i++) {
            add(&FORMS[(first + 7 * i) % COUNT(FORMS)]);
            walk(ALTUVRIN_SHORT);
        }
    }
    check_end();
}

/* Three PDUs, the last cut to so many bytes. */
static void make_cut(size_t left)
{
    start_bundle();
    add(&FORMS[0]);
    add(&FORMS[2]);
    size_t whole = bundle.length;
    add(&FORMS[0]);
    bundle.length = whole + left;
    count = 2;
}

static void test_ends(void)
{
    check_begin("a tail of 1 to 11 bytes is 1, a longer part of a PDU is 4");
    for (size_t left = 1; left < 112; left++) {
        make_cut(left);
        walk(left < 12 ? ALTUVRIN_SHORT : ALTUVRIN_LENGTH);
    }
    check_end();
    check_begin("a tail of zeros is 1 or 2");
    for (size_t left = 1; left < 112; left++) {
        make_cut(0);
        memset(bundle.bytes + bundle.length, 0, left);
        bundle.length += left;
        walk(left < 12 ? ALTUVRIN_SHORT : ALTUVRIN_VERSION);
    }
    check_end();
}

/* A damaged PDU in the middle does not change the answer to the one before it. */
static void test_damaged(void)
{
    start_bundle();
    add(&FORMS[0]);
    add(&FORMS[1]);
    add(&FORMS[2]);
    bundle.bytes[112 + VERSION.at] = 8;
    count = 1;
    check_begin("the second of three PDUs is damaged");
    walk(ALTUVRIN_VERSION);
    check_end();
}

void test_bundles(void)
{
    test_tails();
    test_refused();
    test_length_fields();
    test_pairs();
    test_counts();
    test_ends();
    test_damaged();
    check_reason("reason of 51", 51);
}
