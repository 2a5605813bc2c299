/*
 * The order of refusals: of the rules that a datagram or a record breaks, the first in the order
 * gives the number (document 01, "The numbers" and "Sizes and edges"; document 02, R-3, R-4, R-5 and
 * Rules are broken from the last to the first, because the later ones speak of what lies
 * deeper in the bytes.
 */
#include "../altuvrin.h"
#include "../records.h"
#include "check.h"
#include "tests.h"

#include <stdbool.h>
#include <stdio.h>

static struct datagram datagram;

/* Whether another PDU stands behind the one whose rules are broken. */
static bool more_behind;

static void make_signal_of_1_word(void)
{
    make_words(&datagram, 1);
}

static void make_voice_of_257_bytes(void)
{
    make_signal(&datagram, FIRST_VOICE, BODY_MAX + 1);
}

static void make_level_3_transmitter(void)
{
    make_transmitter(&datagram);
}

static void make_version_7_transmitter(void)
{
    make_transmitter(&datagram);
    put(&datagram, VERSION, LAST_VERSION);
}

static void cut_to_11_bytes(void)
{
    datagram.length = START_SIZE - 1;
}

/* Above the slice's length; where more stands behind, below the fixed part. */
static void break_length(void)
{
    bool transmitter = get(&datagram, PDU_TYPE) == TRANSMITTER_TYPE;
    uint32_t fixed = transmitter ? TRANSMITTER_FIXED_SIZE : SIGNAL_FIXED_SIZE;
    put(&datagram, LENGTH, more_behind ? fixed - 1 : get(&datagram, LENGTH) + 1);
}

static void break_data_length(void)
{
    put(&datagram, DATA_LENGTH, get(&datagram, DATA_LENGTH) + 1);
}

static void break_size(void)
{
    resize(&datagram, datagram.length + FILL_MULTIPLE);
}

static void break_words(void)
{
    resize_body(&datagram, body_size(&datagram) + 1);
}

static void make_13_words(void)
{
    make_words(&datagram, WORDS_MAX + 1);
}

static void make_transmitter_record(void)
{
    make_record(&datagram, TRANSMITTER_KIND, 0);
}

static void make_record_of_12_words(void)
{
    make_record(&datagram, WORDS_MAX, 0);
}

static void cut_1_byte(void)
{
    datagram.length -= 1;
}

/* Breaks the rule of one number: by a call, or by a value in a field where there is no call. */
struct breaker {
    uint32_t number;
    void (*call)(void);
    struct field field;
    uint32_t value;
};

/* A kind of PDU or record: its check, a valid one, and a breaker for each number in the order of
 * refusals. */
struct kind {
    const char *name;
    void (*check)(const char *what, const struct datagram *datagram, uint32_t number);
    void (*make)(void);
    const struct breaker *breakers;
    size_t count;
};

static void break_rule(const struct breaker *breaker)
{
    if (breaker->call != NULL)
        breaker->call();
    else
        put(&datagram, breaker->field, breaker->value);
}

/* One check: the rules of this set are broken; bit i stands for breaker i. */
static void check_set(const struct kind *kind, uint32_t set)
{
    char what[80];
    uint32_t first = ALTUVRIN_TAKEN;
    int length = snprintf(what, sizeof what, "%s that breaks", kind->name);
    kind->make();
    for (size_t i = kind->count; i-- > 0;) {
        if ((set >> i & 1) == 0)
            continue;
        break_rule(&kind->breakers[i]);
        first = kind->breakers[i].number;
        length += snprintf(what + length, sizeof what - (size_t)length, " %u", first);
    }
    kind->check(what, &datagram, first);
}

/* Each rule alone, with each one later rule, and with all later rules. */
static void check_order(const struct kind *kind)
{
    uint32_t end = (uint32_t)1 << kind->count;
    for (uint32_t first = 1; first < end; first <<= 1) {
        check_set(kind, first);
        for (uint32_t later = first << 1; later < end; later <<= 1)
            check_set(kind, first | later);
        check_set(kind, end - first);
    }
}

static void check_with_more(const char *what, const struct datagram *first, uint32_t number)
{
    static struct datagram bundle;
    static struct datagram behind;
    bundle = *first;
    make_transmitter(&behind);
    append(&bundle, &behind);
    check(what, &bundle, number);
}

/* The same rules and their order where another PDU stands behind. No bundle breaks 1 there, which is
 * the first. */
static void check_order_with_more(const struct kind *kind)
{
    const struct kind with_more = {"More behind what", check_with_more, kind->make,
                                   kind->breakers + 1, kind->count - 1};
    more_behind = true;
    check_order(&with_more);
    more_behind = false;
}

static void test_transmitter_order(void)
{
    const struct breaker breakers[] = {
        {ALTUVRIN_SHORT, cut_to_11_bytes, {0, 0}, 0},
        {ALTUVRIN_VERSION, NULL, VERSION, FIRST_VERSION - 1},
        {ALTUVRIN_TYPE, NULL, FAMILY, RADIO_FAMILY + 1},
        {ALTUVRIN_LENGTH, break_length, {0, 0}, 0},
        {ALTUVRIN_RADIO, NULL, SYSTEM, LINK_16_SYSTEM + 1},
        {ALTUVRIN_MODULATION_LENGTH, NULL, MODULATION_LENGTH, LINK_16_MODULATION_LENGTH + 8},
        {ALTUVRIN_PATTERN_LENGTH, NULL, PATTERN_LENGTH, NO_PATTERN + 1},
        {ALTUVRIN_PDU_SIZE, break_size, {0, 0}, 0},
        {ALTUVRIN_MODULATION, NULL, PRIMARY_MODE, LAST_PRIMARY_MODE + 1},
    };
    const struct kind kind = {"Transmitter", check, make_level_3_transmitter, breakers,
                              COUNT(breakers)};
    check_order(&kind);
}

static void test_version_7_order(void)
{
    const struct breaker breakers[] = {
        {ALTUVRIN_SHORT, cut_to_11_bytes, {0, 0}, 0},
        {ALTUVRIN_VERSION, NULL, VERSION, LAST_VERSION + 1},
        {ALTUVRIN_TYPE, NULL, PDU_TYPE, TRANSMITTER_TYPE - 1},
        {ALTUVRIN_LENGTH, break_length, {0, 0}, 0},
        {ALTUVRIN_RADIO, NULL, CATEGORY, LINK_16_CATEGORY + 1},
        {ALTUVRIN_MODULATION_LENGTH, NULL, MODULATION_LENGTH, 0},
        {ALTUVRIN_PATTERN_LENGTH, NULL, PATTERN_LENGTH, NO_PATTERN + 1},
        {ALTUVRIN_PARAMETER_RECORDS, NULL, PARAMETER_RECORDS, 1},
        {ALTUVRIN_PDU_SIZE, break_size, {0, 0}, 0},
        {ALTUVRIN_MODULATION, NULL, TSA_LEVEL, LAST_TSA_LEVEL + 1},
    };
    const struct kind kind = {"Transmitter of version 7", check, make_version_7_transmitter,
                              breakers, COUNT(breakers)};
    check_order(&kind);
    check_order_with_more(&kind);
}

static void test_signal_order(void)
{
    const struct breaker breakers[] = {
        {ALTUVRIN_SHORT, cut_to_11_bytes, {0, 0}, 0},
        {ALTUVRIN_VERSION, NULL, VERSION, LAST_VERSION + 1},
        {ALTUVRIN_TYPE, NULL, FAMILY, RADIO_FAMILY - 1},
        {ALTUVRIN_LENGTH, break_length, {0, 0}, 0},
        {ALTUVRIN_ENCODING, NULL, ENCODING, LAST_ENCODING + 1},
        {ALTUVRIN_TDL_TYPE, NULL, TDL_TYPE, LINK_16_TDL_TYPE + 1},
        {ALTUVRIN_DATA_LENGTH, break_data_length, {0, 0}, 0},
        {ALTUVRIN_PDU_SIZE, break_size, {0, 0}, 0},
        {ALTUVRIN_NPG, NULL, NPG, LAST_NPG + 1},
        {ALTUVRIN_NET, NULL, NET, LAST_NET + 1},
        {ALTUVRIN_TSEC, NULL, TSEC, LAST_SECURITY_SETTING + 1},
        {ALTUVRIN_MSEC, NULL, MSEC, LAST_SECURITY_SETTING + 1},
        {ALTUVRIN_MESSAGE_TYPE, NULL, MESSAGE_TYPE, LAST_MESSAGE_TYPE + 1},
        {ALTUVRIN_SLOT, NULL, SLOT_ID, LAST_SLOT + 1},
        {ALTUVRIN_EPOCH, NULL, SLOT_ID, slot_id(LAST_EPOCH + 1, 0)},
        {ALTUVRIN_LATE_SLOT, NULL, SLOT_ID, slot_id(LAST_EPOCH, LAST_SLOT_OF_LAST_EPOCH + 1)},
        {ALTUVRIN_BODY_SIZE, break_words, {0, 0}, 0},
        {ALTUVRIN_BODY_LIMIT, make_13_words, {0, 0}, 0},
    };
    const struct kind kind = {"Signal", check, make_signal_of_1_word, breakers, COUNT(breakers)};
    /* Voice breaks 50, and here 15 too: each rule before 14 comes before both. */
    const struct kind voice = {"Voice", check, make_voice_of_257_bytes, breakers,
                               COUNT(breakers) - 2};
    check_order(&kind);
    check_order(&voice);
    check_order_with_more(&kind);
    check_order_with_more(&voice);
    make_voice_of_257_bytes();
    check_readings("Voice that breaks 15", &datagram, ALTUVRIN_RETIRED, ALTUVRIN_BODY_LIMIT);
}

static void test_record_order(void)
{
    const struct breaker breakers[] = {
        {ALTUVRIN_RECORD_KIND, NULL, RECORD_KIND, REPLY_KIND + 1},
        {ALTUVRIN_RECORD_LENGTH, cut_1_byte, {0, 0}, 0},
        {ALTUVRIN_RECORD_NUMBER, NULL, RECORD_NUMBER, NO_PDU_NUMBER},
        {ALTUVRIN_RECORD_PDU, NULL, carried(PADDING), 1},
    };
    const struct kind transmitter = {"Transmitter record", check_record, make_transmitter_record,
                                     breakers, COUNT(breakers)};
    const struct kind signal = {"Signal record", check_record, make_record_of_12_words, breakers,
                                COUNT(breakers)};
    check_order(&transmitter);
    check_order(&signal);
}

void test_order(void)
{
    test_transmitter_order();
    test_version_7_order();
    test_signal_order();
    test_record_order();
}
