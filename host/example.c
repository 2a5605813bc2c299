/* An example host: hands a few datagrams and records, and a datagram of an old capture, to Altuvrin
 * and prints each answer; a datagram of several PDUs it walks from one to the next. */
#include "altuvrin.h"
#include "datagrams.h"
#include "records.h"

#include <stdio.h>

static void print(const char *what, uint64_t answer)
{
    uint32_t number = altuvrin_number(answer);

    printf("%-32s", what);
    if (number == ALTUVRIN_TAKEN)
        printf("taken, %u bytes\n", altuvrin_size(answer));
    else
        printf("refused %u: %s\n", number, altuvrin_reason(number));
}

static void show(const char *what, const struct datagram *datagram)
{
    print(what, altuvrin_datagram(datagram->bytes, datagram->length));
}

static void show_captured(const char *what, const struct datagram *datagram)
{
    print(what, altuvrin_archive(datagram->bytes, datagram->length));
}

static void show_record(const char *what, const struct datagram *record)
{
    print(what, altuvrin_record(record->bytes, record->length));
}

static struct datagram datagram;

static void show_transmitters(void)
{
    make_transmitter(&datagram);
    show("Transmitter", &datagram);
    put(&datagram, VERSION, LAST_VERSION);
    put(&datagram, STATUS, 1);
    show("Transmitter of version 7", &datagram);
    put(&datagram, PARAMETER_RECORDS, 1);
    show("The same, a parameter record", &datagram);
    make_transmitter(&datagram);
    put(&datagram, VERSION, LAST_VERSION + 1);
    show("Transmitter of version 8", &datagram);
    make_transmitter(&datagram);
    put(&datagram, TSA_LEVEL, LAST_LEVEL_WITHOUT_ID);
    put(&datagram, SYNC_ID, 1);
    show("Transmitter, ID 1 at level 2", &datagram);
}

static void show_signals(void)
{
    make_words(&datagram, 0);
    show("Signal of no words", &datagram);
    make_words(&datagram, WORDS_MAX);
    show("Signal of 12 words", &datagram);
    datagram.length -= WORD_SIZE;
    show("Signal of 12 words, cut", &datagram);
    make_words(&datagram, WORDS_MAX + 1);
    show("Signal of 13 words", &datagram);
    make_words(&datagram, 1);
    put(&datagram, SLOT_ID, slot_id(0, LAST_SLOT + 1));
    show("Signal in slot 98,304", &datagram);
    make_timing(&datagram, RTT);
    show("Signal of type 1, 6 bytes", &datagram);
    resize_body(&datagram, TIMING_SIZE + 1);
    show("Signal of type 1, 7 bytes", &datagram);
    make_signal(&datagram, FIRST_VOICE, BODY_MAX);
    show("Signal of type 3, 256 bytes", &datagram);
    show_captured("The same, of an old capture", &datagram);
    make_signal(&datagram, LAST_MESSAGE_TYPE, BODY_MAX);
    show("Signal of type 7, 256 bytes", &datagram);
    datagram.length = START_SIZE - 1;
    show("11 bytes", &datagram);
}

/* Walks a bundle: each answer tells how many bytes its PDU used, and there the next one begins. The
 * first that is refused ends the walk. */
static void walk(const char *what, const struct datagram *bundle)
{
    uint32_t number = ALTUVRIN_TAKEN;
    size_t at = 0;

    printf("%s, %zu bytes\n", what, bundle->length);
    while (number == ALTUVRIN_TAKEN && at < bundle->length) {
        uint64_t answer = altuvrin_datagram(bundle->bytes + at, bundle->length - at);
        char place[32];
        snprintf(place, sizeof place, "  at byte %zu", at);
        print(place, answer);
        number = altuvrin_number(answer);
        at += altuvrin_size(answer);
    }
}

static void show_bundle(void)
{
    static struct datagram bundle;

    make_transmitter(&bundle);
    make_words(&datagram, 1);
    append(&bundle, &datagram);
    make_timing(&datagram, RTT_REPLY);
    append(&bundle, &datagram);
    walk("Bundle of three PDUs", &bundle);
    bundle.length -= 1;
    walk("The same, cut by a byte", &bundle);
}

static void show_records(void)
{
    make_record(&datagram, WORDS_MAX, 5);
    show_record("Record 5, Signal of 12 words", &datagram);
    put(&datagram, carried(MESSAGE_TYPE), 1);
    show_record("Record 5, its Signal of type 1", &datagram);
    make_record(&datagram, RTT_REPLY_KIND, 5);
    show_record("Record 5, Signal of type 2", &datagram);
    put(&datagram, carried(BODY_START), TIMING_PADDING);
    show_record("Record 5, padding in its body", &datagram);
    make_record(&datagram, TRANSMITTER_KIND, 5);
    put(&datagram, carried(STATUS), 1);
    show_record("Record 5, version 6, byte 10", &datagram);
    put(&datagram, carried(VERSION), LAST_VERSION);
    show_record("Record 5, version 7, status", &datagram);
    make_record(&datagram, REPLY_KIND, 6);
    show_record("Reply 6", &datagram);
    datagram.length -= 1;
    show_record("Reply 6, cut", &datagram);
}

int main(void)
{
    show_transmitters();
    show_signals();
    show_bundle();
    show_records();
    return 0;
}
