/*
 * Builds Link 16 datagrams for the example host and for the tests. Every number here stands in
 * document 01: "Bytes 0 to 19, both PDUs", "Transmitter, 112 bytes" and "Signal"; those of
 * round-trip timing in document 02, R-1, those of voice in R-4, and those of version 7 in R-9.
 */
#ifndef DATAGRAMS_H
#define DATAGRAMS_H

#include <stdbool.h>
#include <stddef.h>
#include <stdint.h>

#define COUNT(array) (sizeof(array) / sizeof((array)[0]))

/* A field: its first byte, and how many bytes it has. */
struct field {
    size_t at;
    size_t width;
};

/* Both PDUs. */
static const struct field VERSION = {0, 1};
static const struct field PDU_TYPE = {2, 1};
static const struct field FAMILY = {3, 1};
static const struct field LENGTH = {8, 2};
/* Padding before version 7. */
static const struct field STATUS = {10, 1};
static const struct field PADDING = {11, 1};

/* Transmitter. */
static const struct field CATEGORY = {24, 1};
static const struct field INPUT_SOURCE = {29, 1};
/* Padding before version 7. */
static const struct field PARAMETER_RECORDS = {30, 2};
static const struct field PATTERN_LENGTH = {70, 2};
static const struct field MAJOR = {90, 2};
static const struct field DETAIL = {92, 2};
static const struct field SYSTEM = {94, 2};
static const struct field MODULATION_LENGTH = {100, 1};
static const struct field MODULATION_PADDING = {101, 3};
static const struct field TSA_LEVEL = {104, 1};
static const struct field PRIMARY_MODE = {105, 1};
static const struct field SECONDARY_MODE = {106, 1};
static const struct field SYNC_STATE = {107, 1};
static const struct field SYNC_ID = {108, 4};

/* Signal. */
static const struct field ENCODING = {20, 2};
static const struct field TDL_TYPE = {22, 2};
static const struct field DATA_LENGTH = {28, 2};
static const struct field NPG = {32, 2};
static const struct field NET = {34, 1};
static const struct field TSEC = {35, 1};
static const struct field MSEC = {36, 1};
static const struct field MESSAGE_TYPE = {37, 1};
static const struct field MESSAGE_TYPE_PADDING = {38, 2};
static const struct field SLOT_ID = {40, 4};
/* The first bytes of a body; in round-trip timing they begin with its padding. */
static const struct field BODY_START = {52, 2};

/* The values that a rule names. */
enum {
    FIRST_VERSION = 5,
    LAST_VERSION_WITHOUT_STATUS = 6,
    LAST_VERSION = 7,
    TRANSMITTER_TYPE = 25,
    SIGNAL_TYPE = 26,
    RADIO_FAMILY = 4,
    LINK_16_CATEGORY = 21,
    LINK_16_INPUT_SOURCE = 8,
    LINK_16_MAJOR = 7,
    LINK_16_DETAIL = 0,
    LINK_16_SYSTEM = 8,
    LINK_16_MODULATION_LENGTH = 8,
    NO_PATTERN = 0,
    LAST_TSA_LEVEL = 4,
    LAST_LEVEL_WITHOUT_ID = 2,
    FIRST_PRIMARY_MODE = 1,
    LAST_PRIMARY_MODE = 2,
    LAST_SECONDARY_MODE = 3,
    COARSE = 2,
    FINE = 3,
    FIRST_ENCODING = 0x4000,
    LAST_ENCODING = 0x7FFF,
    LINK_16_TDL_TYPE = 100,
    LAST_NPG = 511,
    LAST_NET = 127,
    LAST_SECURITY_SETTING = 127,
    NO_SECURITY_SETTING = 255,
    RTT = 1,
    RTT_REPLY = 2,
    FIRST_VOICE = 3,
    LAST_VOICE = 5,
    LAST_MESSAGE_TYPE = 7,
    SLOT_ID_PADDING = 0x00FE0000,
    LAST_SLOT = 98303,
    LAST_EPOCH = 112,
    LAST_SLOT_OF_LAST_EPOCH = 49151,
    TIMING_PADDING = 0xFFF8
};

/* Sizes, in bytes unless the name says otherwise. */
enum {
    START_SIZE = 12,
    TRANSMITTER_FIXED_SIZE = 104,
    TRANSMITTER_SIZE = 112,
    SIGNAL_FIXED_SIZE = 32,
    NETWORK_HEADER_SIZE = 20,
    WORDS_HEADER_SIZE = 6,
    WORD_SIZE = 10,
    WORDS_MAX = 12,
    BODY_MAX = 256,
    TIMING_SIZE = 6,
    FILL_MULTIPLE = 4,
    DATAGRAM_ROOM = 70000
};

/* Bytes, of one PDU or of several, one behind the other. Large enough for a datagram whose length
 * does not fit the length field. */
struct datagram {
    size_t length;
    uint8_t bytes[DATAGRAM_ROOM];
};

/* The big-endian number in a field. */
uint32_t get(const struct datagram *datagram, struct field field);

/* Sets a field to a number, big-endian. */
void put(struct datagram *datagram, struct field field, uint32_t value);

/* Cuts the datagram, or lengthens it by zeros; the length field follows where it can. */
void resize(struct datagram *datagram, size_t length);

/* Puts another datagram behind this one; there is room for both. */
void append(struct datagram *datagram, const struct datagram *other);

/* A valid Transmitter of version 6 and TSA level 3. */
void make_transmitter(struct datagram *datagram);

/* A Signal of version 6 with a body of zeros; data length, fill and length field fit the body. */
void make_signal(struct datagram *datagram, uint32_t message_type, size_t body_bytes);

/* A Signal of message type 0 with this many words. */
void make_words(struct datagram *datagram, size_t words);

/* A Signal of round-trip timing: message type 1 or 2. */
void make_timing(struct datagram *datagram, uint32_t message_type);

/* Whether a message type is one of voice. */
bool is_voice(uint32_t message_type);

/* Gives a Signal another body size; data length, fill and length field follow. */
void resize_body(struct datagram *datagram, size_t body_bytes);

/* The size of the body that a Signal's data length gives. */
size_t body_size(const struct datagram *datagram);

/* A slot ID, its padding zero. */
uint32_t slot_id(uint32_t epoch, uint32_t slot);

#endif
