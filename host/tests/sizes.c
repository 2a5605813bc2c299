/* Lengths: document 01, "Signal" and the numbers 1, 4, 8, 12, 14 and 15; document 02, R-1, R-4 and
 * */
#include "../altuvrin.h"
#include "check.h"
#include "tests.h"

static struct datagram datagram;

/* One check: cut or lengthened to each length from first to last, the length field fitting. */
static void check_resized(const char *what, size_t first, size_t last, uint32_t number)
{
    static struct datagram resized;
    check_begin(what);
    for (size_t length = first; length <= last; length++) {
        resized = datagram;
        resize(&resized, length);
        sample(&resized, number);
    }
    check_end();
}

/* One check: cut to each length below its own, the length field as it was. */
static void check_cut(const char *what)
{
    size_t whole = datagram.length;
    check_begin(what);
    for (size_t length = 0; length < whole; length++) {
        datagram.length = length;
        sample(&datagram, length < START_SIZE ? ALTUVRIN_SHORT : ALTUVRIN_LENGTH);
    }
    check_end();
    datagram.length = whole;
}

/* The length field is right for the PDU, and has no room for the whole length. */
static void check_past_16_bits(const char *what)
{
    check_bytes(what, datagram.bytes, datagram.length + 65536, ALTUVRIN_TAKEN,
                (uint32_t)datagram.length);
}

static void test_lengths(void)
{
    make_transmitter(&datagram);
    check_cut("Transmitter cut");
    check_past_16_bits("Transmitter and 65,536 bytes more");
    check_resized("Transmitter of 12 to 103 bytes", 12, 103, ALTUVRIN_LENGTH);
    check_resized("Transmitter of 104 to 111 bytes", 104, 111, ALTUVRIN_PDU_SIZE);
    check_resized("Transmitter of 112 bytes", 112, 112, ALTUVRIN_TAKEN);
    check_resized("Transmitter of more bytes", 113, 200, ALTUVRIN_PDU_SIZE);
    make_words(&datagram, 0);
    check_cut("Signal cut");
    check_past_16_bits("Signal and 65,536 bytes more");
    check_resized("Signal of 12 to 31 bytes", 12, 31, ALTUVRIN_LENGTH);
    check_resized("Signal of 32 to 59 bytes", 32, 59, ALTUVRIN_PDU_SIZE);
    check_resized("Signal of 60 bytes", 60, 60, ALTUVRIN_TAKEN);
    check_resized("Signal of more bytes", 61, 100, ALTUVRIN_PDU_SIZE);
}

/* What a Signal of 60 bytes of type 0, 1 or 2 gets for this data length. */
static uint32_t number_of_data_length(uint32_t bits)
{
    if (bits % 8 != 0 || bits < 160)
        return ALTUVRIN_DATA_LENGTH;
    if (bits <= 8 * 24 || bits > 8 * 28)
        return ALTUVRIN_PDU_SIZE;
    return bits == 8 * 26 ? ALTUVRIN_TAKEN : ALTUVRIN_BODY_SIZE;
}

/* One check: this message type with each data length. */
static void check_data_lengths(const char *what, uint32_t message_type)
{
    make_signal(&datagram, message_type, 6);
    check_begin(what);
    for (uint32_t bits = 0; bits < 65536; bits++) {
        put(&datagram, DATA_LENGTH, bits);
        sample(&datagram, number_of_data_length(bits));
    }
    check_end();
}

static void test_data_lengths(void)
{
    check_data_lengths("every data length in 60 bytes, type 0", 0);
    check_data_lengths("every data length in 60 bytes, type 1", RTT);
    check_data_lengths("every data length in 60 bytes, type 2", RTT_REPLY);
}

static uint32_t number_of_words(size_t body_bytes)
{
    if (body_bytes < WORDS_HEADER_SIZE || (body_bytes - WORDS_HEADER_SIZE) % WORD_SIZE != 0)
        return ALTUVRIN_BODY_SIZE;
    return body_bytes > WORDS_HEADER_SIZE + WORD_SIZE * WORDS_MAX ? ALTUVRIN_BODY_LIMIT
                                                                  : ALTUVRIN_TAKEN;
}

/* What a body of this message type and size gets from archive reading, and from live reading where
 * the type is not retired. */
static uint32_t number_of_body(uint32_t message_type, size_t body_bytes)
{
    if (message_type == 0)
        return number_of_words(body_bytes);
    if (message_type == RTT || message_type == RTT_REPLY)
        return body_bytes == TIMING_SIZE ? ALTUVRIN_TAKEN : ALTUVRIN_BODY_SIZE;
    return body_bytes > BODY_MAX ? ALTUVRIN_BODY_LIMIT : ALTUVRIN_TAKEN;
}

/* The longest body that a data length of 16 bits can tell. */
enum { BODY_TOLD_MAX = 65535 / 8 - NETWORK_HEADER_SIZE };

/* One check: this message type with each body size that can be told. */
static void check_bodies(const char *what, uint32_t message_type)
{
    check_begin(what);
    for (size_t body = 0; body <= BODY_TOLD_MAX; body++) {
        uint32_t number = number_of_body(message_type, body);
        make_signal(&datagram, message_type, body);
        sample_readings(&datagram, is_voice(message_type) ? ALTUVRIN_RETIRED : number, number);
    }
    check_end();
}

static void test_bodies(void)
{
    static const char *const what[LAST_MESSAGE_TYPE + 1] = {
        "bodies of type 0", "bodies of type 1", "bodies of type 2", "bodies of type 3",
        "bodies of type 4", "bodies of type 5", "bodies of type 6", "bodies of type 7",
    };
    for (uint32_t type = 0; type <= LAST_MESSAGE_TYPE; type++)
        check_bodies(what[type], type);
}

void test_sizes(void)
{
    test_lengths();
    test_data_lengths();
    test_bodies();
}
