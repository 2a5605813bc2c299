/* Each rule of document 01 and of document 02, R-3, R-4, R-5 and R-9, on a field's value, by itself,
 * and the fields that have no rule. */
#include "../altuvrin.h"
#include "check.h"
#include "tests.h"

#include <stdbool.h>
#include <string.h>

static struct datagram datagram;

/* Both ends included. */
struct range {
    uint32_t first;
    uint32_t last;
};

static bool is_in(uint32_t value, struct range range)
{
    return range.first <= value && value <= range.last;
}

/* One check: of all values of the field, those in either range are taken. */
static void check_ranges(const char *what, struct field field, struct range taken,
                         struct range also, uint32_t number)
{
    uint32_t before = get(&datagram, field);
    check_begin(what);
    for (uint32_t value = 0; value < 1u << (8 * field.width); value++) {
        put(&datagram, field, value);
        sample(&datagram, is_in(value, taken) || is_in(value, also) ? ALTUVRIN_TAKEN : number);
    }
    check_end();
    put(&datagram, field, before);
}

static void check_range(const char *what, struct field field, uint32_t first, uint32_t last,
                        uint32_t number)
{
    const struct range taken = {first, last};
    check_ranges(what, field, taken, taken, number);
}

static void check_value(const char *what, struct field field, uint32_t value, uint32_t number)
{
    check_range(what, field, value, value, number);
}

/* One check: of all length fields of a PDU that stands alone, its own length is taken. Those below
 * the fixed part and those above the slice's length are 4, those between are 8. */
static void check_length_fields(const char *what, uint32_t fixed)
{
    check_begin(what);
    for (uint32_t length = 0; length < 65536; length++) {
        bool lies_in = fixed <= length && length <= datagram.length;
        put(&datagram, LENGTH, length);
        sample(&datagram, length == datagram.length ? ALTUVRIN_TAKEN
                          : lies_in                 ? ALTUVRIN_PDU_SIZE
                                                    : ALTUVRIN_LENGTH);
    }
    check_end();
    put(&datagram, LENGTH, (uint32_t)datagram.length);
}

/* TSEC and MSEC. */
static void check_security_setting(const char *what, struct field field, uint32_t number)
{
    const struct range set = {0, LAST_SECURITY_SETTING};
    const struct range none = {NO_SECURITY_SETTING, NO_SECURITY_SETTING};
    check_ranges(what, field, set, none, number);
}

/* Types 25 and 26 are left out: each makes the bytes a PDU of the other kind. */
static void check_types(const char *what)
{
    uint32_t before = get(&datagram, PDU_TYPE);
    check_begin(what);
    for (uint32_t type = 0; type < 256; type++) {
        put(&datagram, PDU_TYPE, type);
        if (type != TRANSMITTER_TYPE && type != SIGNAL_TYPE)
            sample(&datagram, ALTUVRIN_TYPE);
    }
    check_end();
    put(&datagram, PDU_TYPE, before);
}

static void test_transmitter_rules(void)
{
    make_transmitter(&datagram);
    check_range("Transmitter: version", VERSION, FIRST_VERSION, LAST_VERSION, ALTUVRIN_VERSION);
    check_types("Transmitter: type");
    check_value("Transmitter: family", FAMILY, RADIO_FAMILY, ALTUVRIN_TYPE);
    check_length_fields("Transmitter: length field", 104);
    check_value("category", CATEGORY, LINK_16_CATEGORY, ALTUVRIN_RADIO);
    check_value("input source", INPUT_SOURCE, LINK_16_INPUT_SOURCE, ALTUVRIN_RADIO);
    check_value("major", MAJOR, LINK_16_MAJOR, ALTUVRIN_RADIO);
    check_value("detail", DETAIL, LINK_16_DETAIL, ALTUVRIN_RADIO);
    check_value("system", SYSTEM, LINK_16_SYSTEM, ALTUVRIN_RADIO);
    check_value("modulation length", MODULATION_LENGTH, LINK_16_MODULATION_LENGTH,
                ALTUVRIN_MODULATION_LENGTH);
    check_value("pattern length", PATTERN_LENGTH, NO_PATTERN, ALTUVRIN_PATTERN_LENGTH);
    check_range("TSA level", TSA_LEVEL, 0, LAST_TSA_LEVEL, ALTUVRIN_MODULATION);
    check_range("primary mode", PRIMARY_MODE, FIRST_PRIMARY_MODE, LAST_PRIMARY_MODE,
                ALTUVRIN_MODULATION);
    check_range("secondary mode", SECONDARY_MODE, 0, LAST_SECONDARY_MODE, ALTUVRIN_MODULATION);
    check_range("synchronization state", SYNC_STATE, COARSE, FINE, ALTUVRIN_MODULATION);
}

/* Bytes 30 and 31 of a Transmitter: a count in version 7, padding before. */
static void test_parameter_records(void)
{
    make_transmitter(&datagram);
    put(&datagram, VERSION, FIRST_VERSION);
    check_range("parameter records, version 5", PARAMETER_RECORDS, 0, 65535, ALTUVRIN_TAKEN);
    put(&datagram, VERSION, LAST_VERSION_WITHOUT_STATUS);
    check_range("parameter records, version 6", PARAMETER_RECORDS, 0, 65535, ALTUVRIN_TAKEN);
    put(&datagram, VERSION, LAST_VERSION);
    check_value("parameter records, version 7", PARAMETER_RECORDS, 0, ALTUVRIN_PARAMETER_RECORDS);
}

/* One check: of all message types, 0 to 2, 6 and 7 are taken; archive reading takes 3 to 5 too. */
static void check_message_types(const char *what)
{
    check_begin(what);
    for (uint32_t type = 0; type < 256; type++) {
        uint32_t archive = type <= LAST_MESSAGE_TYPE ? ALTUVRIN_TAKEN : ALTUVRIN_MESSAGE_TYPE;
        put(&datagram, MESSAGE_TYPE, type);
        sample_readings(&datagram, is_voice(type) ? ALTUVRIN_RETIRED : archive, archive);
    }
    check_end();
}

static void test_signal_rules(void)
{
    make_words(&datagram, 0);
    check_range("Signal: version", VERSION, FIRST_VERSION, LAST_VERSION, ALTUVRIN_VERSION);
    check_types("Signal: type");
    check_value("Signal: family", FAMILY, RADIO_FAMILY, ALTUVRIN_TYPE);
    check_length_fields("Signal: length field", 32);
    check_range("encoding", ENCODING, FIRST_ENCODING, LAST_ENCODING, ALTUVRIN_ENCODING);
    check_value("TDL type", TDL_TYPE, LINK_16_TDL_TYPE, ALTUVRIN_TDL_TYPE);
    check_range("NPG", NPG, 0, LAST_NPG, ALTUVRIN_NPG);
    check_range("net", NET, 0, LAST_NET, ALTUVRIN_NET);
    check_security_setting("TSEC", TSEC, ALTUVRIN_TSEC);
    check_security_setting("MSEC", MSEC, ALTUVRIN_MSEC);
    check_message_types("message type");
}

/* One check: each single bit of the synchronization ID, and none, at this level. */
static void check_ids_at(const char *what, uint32_t level)
{
    uint32_t with_id = level <= LAST_LEVEL_WITHOUT_ID ? ALTUVRIN_MODULATION : ALTUVRIN_TAKEN;
    make_transmitter(&datagram);
    put(&datagram, TSA_LEVEL, level);
    check_begin(what);
    sample(&datagram, ALTUVRIN_TAKEN);
    for (uint32_t bit = 0; bit < 32; bit++) {
        put(&datagram, SYNC_ID, (uint32_t)1 << bit);
        sample(&datagram, with_id);
    }
    check_end();
}

static void test_ids(void)
{
    static const char *const what[LAST_TSA_LEVEL + 1] = {
        "ID at level 0", "ID at level 1", "ID at level 2", "ID at level 3", "ID at level 4",
    };
    for (uint32_t level = 0; level <= LAST_TSA_LEVEL; level++)
        check_ids_at(what[level], level);
}

/* One check: of all slots that 17 bits can tell, the first so many are taken in this epoch, and
 * those behind them that an epoch has are refused with this number. */
static void check_slots(const char *what, uint32_t epoch, uint32_t taken, uint32_t number)
{
    make_words(&datagram, 0);
    check_begin(what);
    for (uint32_t slot = 0; slot < 1u << 17; slot++) {
        put(&datagram, SLOT_ID, slot_id(epoch, slot));
        sample(&datagram, slot < taken        ? ALTUVRIN_TAKEN
                          : slot <= LAST_SLOT ? number
                                              : ALTUVRIN_SLOT);
    }
    check_end();
}

static void test_slots(void)
{
    check_slots("slots of epoch 0", 0, LAST_SLOT + 1, ALTUVRIN_TAKEN);
    check_slots("slots of epoch 111", LAST_EPOCH - 1, LAST_SLOT + 1, ALTUVRIN_TAKEN);
    check_slots("slots of epoch 112", LAST_EPOCH, LAST_SLOT_OF_LAST_EPOCH + 1, ALTUVRIN_LATE_SLOT);
    check_slots("slots of epoch 113", LAST_EPOCH + 1, 0, ALTUVRIN_EPOCH);
    check_begin("epochs");
    for (uint32_t epoch = 0; epoch < 256; epoch++) {
        put(&datagram, SLOT_ID, slot_id(epoch, 0));
        sample(&datagram, epoch <= LAST_EPOCH ? ALTUVRIN_TAKEN : ALTUVRIN_EPOCH);
    }
    check_end();
}

/* One check: these bytes may hold anything, one by one and all together. */
static void check_any(const char *what, const struct range *bytes, size_t count)
{
    check_begin(what);
    for (size_t i = 0; i < count; i++) {
        for (size_t at = bytes[i].first; at <= bytes[i].last; at++) {
            uint8_t before = datagram.bytes[at];
            datagram.bytes[at] = (uint8_t)~before;
            sample(&datagram, ALTUVRIN_TAKEN);
            datagram.bytes[at] = before;
        }
    }
    for (size_t i = 0; i < count; i++)
        memset(datagram.bytes + bytes[i].first, 0xFF, bytes[i].last - bytes[i].first + 1);
    sample(&datagram, ALTUVRIN_TAKEN);
    check_end();
}

/* In version 7 byte 10 is kept, and bytes 30 and 31 of a Transmitter have a rule. */
static void test_padding_of_version_7(void)
{
    static const struct range transmitter[] = {{10, 11}, {101, 103}};
    static const struct range signal[] = {{10, 11}, {38, 39}, {58, 59}};
    make_transmitter(&datagram);
    put(&datagram, VERSION, LAST_VERSION);
    check_any("status and padding of a Transmitter, version 7", transmitter, COUNT(transmitter));
    make_words(&datagram, 0);
    put(&datagram, VERSION, LAST_VERSION);
    check_any("status, padding and fill of a Signal, version 7", signal, COUNT(signal));
}

static void test_padding(void)
{
    static const struct range transmitter[] = {{10, 11}, {30, 31}, {101, 103}};
    static const struct range signal[] = {{10, 11}, {38, 39}, {58, 59}};
    make_transmitter(&datagram);
    check_any("padding of a Transmitter, version 6", transmitter, COUNT(transmitter));
    put(&datagram, VERSION, FIRST_VERSION);
    check_any("padding of a Transmitter, version 5", transmitter, COUNT(transmitter));
    make_words(&datagram, 0);
    put(&datagram, VERSION, FIRST_VERSION);
    check_any("padding and fill of a Signal, version 5", signal, COUNT(signal));
    make_words(&datagram, 0);
    check_any("padding and fill of a Signal, version 6", signal, COUNT(signal));
    put(&datagram, SLOT_ID, slot_id(LAST_EPOCH, LAST_SLOT_OF_LAST_EPOCH) | SLOT_ID_PADDING);
    check("padding of a slot ID taken", &datagram, ALTUVRIN_TAKEN);
    put(&datagram, SLOT_ID, slot_id(LAST_EPOCH, LAST_SLOT_OF_LAST_EPOCH + 1) | SLOT_ID_PADDING);
    check("padding of a slot ID refused", &datagram, ALTUVRIN_LATE_SLOT);
}

static void test_kept(void)
{
    static const struct range transmitter[] = {{1, 1},   {4, 7},   {12, 23}, {25, 28},
                                               {32, 69}, {72, 89}, {96, 99}, {108, 111}};
    static const struct range signal[] = {{1, 1},   {4, 7},   {12, 19}, {21, 21},
                                          {24, 27}, {30, 31}, {44, 51}, {52, 179}};
    make_transmitter(&datagram);
    check_any("kept bytes of a Transmitter", transmitter, COUNT(transmitter));
    make_words(&datagram, WORDS_MAX);
    check_any("kept bytes of a Signal", signal, COUNT(signal));
}

void test_fields(void)
{
    test_transmitter_rules();
    test_parameter_records();
    test_signal_rules();
    test_ids();
    test_slots();
    test_padding();
    test_padding_of_version_7();
    test_kept();
}
