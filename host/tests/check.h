/* Counted checks on the archive's answers. */
#ifndef CHECK_H
#define CHECK_H

#include "../datagrams.h"

#include <stdbool.h>
#include <stddef.h>
#include <stdint.h>

/*
 * One check holds for all samples between its begin and its end; the first sample that fails is
 * printed, with what was expected and the datagram in hex.
 */
void check_begin(const char *what);
void check_end(void);

/*
 * A sample: live reading and archive reading both answer this number, and the datagram's length as
 * size where it is 0.
 */
void sample(const struct datagram *datagram, uint32_t number);

/* A sample to which live reading and archive reading answer each its own number. */
void sample_readings(const struct datagram *datagram, uint32_t live, uint32_t archive);

/* The same of a datagram that may hold more than its first PDU, which uses so many bytes. */
void sample_first(const struct datagram *datagram, size_t used, uint32_t live, uint32_t archive);

/* A check of one sample. */
void check(const char *what, const struct datagram *datagram, uint32_t number);
void check_readings(const char *what, const struct datagram *datagram, uint32_t live,
                    uint32_t archive);

/* A check of one answer to plain bytes, the same of both readings. */
void check_bytes(const char *what, const uint8_t *bytes, size_t length, uint32_t number,
                 uint32_t size);

/* A check of archive reading's answer alone. */
void check_archive_bytes(const char *what, const uint8_t *bytes, size_t length, uint32_t number,
                         uint32_t size);

/* The same for trunk records, of which there is one reading. */
void sample_record(const struct datagram *record, uint32_t number);
void check_record(const char *what, const struct datagram *record, uint32_t number);
void check_record_bytes(const char *what, const uint8_t *bytes, size_t length, uint32_t number,
                        uint32_t size);

/* A check that altuvrin_reason knows the number. */
void check_reason(const char *what, uint32_t number);

/* A check of anything else. */
void check_that(const char *what, bool holds);

/* A check of the tests themselves, which is not counted among those that pass. */
void check_own(const char *what, bool holds);

/* Prints the counts as the last line; the status to exit with. */
int check_report(void);

#endif
