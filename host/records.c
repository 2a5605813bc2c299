#include "records.h"

#include <string.h>

void make_record(struct datagram *record, uint32_t kind, uint32_t number)
{
    static struct datagram pdu;

    if (kind == REPLY_KIND)
        pdu.length = 0;
    else if (kind == TRANSMITTER_KIND)
        make_transmitter(&pdu);
    else if (kind == RTT_KIND)
        make_timing(&pdu, RTT);
    else if (kind == RTT_REPLY_KIND)
        make_timing(&pdu, RTT_REPLY);
    else
        make_words(&pdu, kind);
    make_record_of(record, kind, number, &pdu);
}

void make_record_of(struct datagram *record, uint32_t kind, uint32_t number,
                    const struct datagram *pdu)
{
    put(record, RECORD_KIND, kind);
    put(record, RECORD_NUMBER, number);
    memcpy(record->bytes + RECORD_HEAD_SIZE, pdu->bytes, pdu->length);
    record->length = RECORD_HEAD_SIZE + pdu->length;
}

struct field carried(struct field field)
{
    field.at += RECORD_HEAD_SIZE;
    return field;
}
