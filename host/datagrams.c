#include "datagrams.h"

#include <string.h>

uint32_t get(const struct datagram *datagram, struct field field)
{
    uint32_t value = 0;
    for (size_t i = 0; i < field.width; i++)
        value = value << 8 | datagram->bytes[field.at + i];
    return value;
}

void put(struct datagram *datagram, struct field field, uint32_t value)
{
    for (size_t i = field.width; i-- > 0; value >>= 8)
        datagram->bytes[field.at + i] = (uint8_t)value;
}

void resize(struct datagram *datagram, size_t length)
{
    if (length > datagram->length)
        memset(datagram->bytes + datagram->length, 0, length - datagram->length);
    datagram->length = length;
    put(datagram, LENGTH, (uint32_t)length);
}

void append(struct datagram *datagram, const struct datagram *other)
{
    memcpy(datagram->bytes + datagram->length, other->bytes, other->length);
    datagram->length += other->length;
}

/* A field and the value that a valid PDU has there. */
struct setting {
    struct field field;
    uint32_t value;
};

static void make(struct datagram *datagram, size_t length, const struct setting *settings,
                 size_t count)
{
    datagram->length = 0;
    resize(datagram, length);
    for (size_t i = 0; i < count; i++)
        put(datagram, settings[i].field, settings[i].value);
}

void make_transmitter(struct datagram *datagram)
{
    const struct setting settings[] = {
        {VERSION, LAST_VERSION_WITHOUT_STATUS},
        {PDU_TYPE, TRANSMITTER_TYPE},
        {FAMILY, RADIO_FAMILY},
        {CATEGORY, LINK_16_CATEGORY},
        {INPUT_SOURCE, LINK_16_INPUT_SOURCE},
        {PATTERN_LENGTH, NO_PATTERN},
        {MAJOR, LINK_16_MAJOR},
        {DETAIL, LINK_16_DETAIL},
        {SYSTEM, LINK_16_SYSTEM},
        {MODULATION_LENGTH, LINK_16_MODULATION_LENGTH},
        {TSA_LEVEL, LAST_LEVEL_WITHOUT_ID + 1},
        {PRIMARY_MODE, FIRST_PRIMARY_MODE},
        {SYNC_STATE, FINE},
    };
    make(datagram, TRANSMITTER_SIZE, settings, COUNT(settings));
}

void make_signal(struct datagram *datagram, uint32_t message_type, size_t body_bytes)
{
    const struct setting settings[] = {
        {VERSION, LAST_VERSION_WITHOUT_STATUS},
        {PDU_TYPE, SIGNAL_TYPE},
        {FAMILY, RADIO_FAMILY},
        {ENCODING, FIRST_ENCODING},
        {TDL_TYPE, LINK_16_TDL_TYPE},
        {MESSAGE_TYPE, message_type},
    };
    make(datagram, SIGNAL_FIXED_SIZE + NETWORK_HEADER_SIZE, settings, COUNT(settings));
    resize_body(datagram, body_bytes);
}

void make_words(struct datagram *datagram, size_t words)
{
    make_signal(datagram, 0, WORDS_HEADER_SIZE + WORD_SIZE * words);
}

void make_timing(struct datagram *datagram, uint32_t message_type)
{
    make_signal(datagram, message_type, TIMING_SIZE);
}

bool is_voice(uint32_t message_type)
{
    return FIRST_VOICE <= message_type && message_type <= LAST_VOICE;
}

void resize_body(struct datagram *datagram, size_t body_bytes)
{
    size_t data_bytes = NETWORK_HEADER_SIZE + body_bytes;
    size_t size = SIGNAL_FIXED_SIZE + data_bytes;
    put(datagram, DATA_LENGTH, (uint32_t)(8 * data_bytes));
    resize(datagram, (size + FILL_MULTIPLE - 1) / FILL_MULTIPLE * FILL_MULTIPLE);
}

size_t body_size(const struct datagram *datagram)
{
    return get(datagram, DATA_LENGTH) / 8 - NETWORK_HEADER_SIZE;
}

uint32_t slot_id(uint32_t epoch, uint32_t slot)
{
    return epoch << 24 | slot;
}
