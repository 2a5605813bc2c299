/*
 * Builds trunk records for the example host and for the tests. Every number here stands in
 * document 01, "The trunk", or document 02, R-1. A record is built in a struct datagram: bytes and
 * their length.
 */
#ifndef RECORDS_H
#define RECORDS_H

#include "datagrams.h"

static const struct field RECORD_KIND = {0, 1};
static const struct field RECORD_NUMBER = {1, 4};

/* Kinds 0 to 12 are those of Signals with so many words. */
enum { TRANSMITTER_KIND = 16, RTT_KIND = 17, RTT_REPLY_KIND = 18, REPLY_KIND = 32 };

/* Kind and number; in a reply nothing follows. */
enum { RECORD_HEAD_SIZE = 5 };

/* The number that no PDU has. */
static const uint32_t NO_PDU_NUMBER = 4294967295;

/* A valid record of a known kind; a Signal or Transmitter in it is that of datagrams.h. */
void make_record(struct datagram *record, uint32_t kind, uint32_t number);

/* A record that carries these bytes. */
void make_record_of(struct datagram *record, uint32_t kind, uint32_t number,
                    const struct datagram *pdu);

/* The place of a PDU's field in a record that carries the PDU. */
struct field carried(struct field field);

#endif
