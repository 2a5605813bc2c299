/*
 * Altuvrin: what the proved readers answer to the first PDU of a datagram, live or of an old
 * capture, and to a trunk record.
 *
 *     uint64_t answer = altuvrin_datagram(bytes, length);
 *     if (altuvrin_number(answer) == ALTUVRIN_TAKEN)
 *         forward(bytes, altuvrin_size(answer));
 *     else
 *         log_refusal(altuvrin_number(answer), altuvrin_reason(altuvrin_number(answer)));
 *
 * A datagram may hold several PDUs, one behind the other; each answer tells where the next begins:
 *
 *     for (size_t at = 0; at < length; at += altuvrin_size(answer)) {
 *         answer = altuvrin_datagram(bytes + at, length - at);
 *         if (altuvrin_number(answer) != ALTUVRIN_TAKEN)
 *             break;
 *         forward(bytes + at, altuvrin_size(answer));
 *     }
 *
 * Link with target/staticlib/libhost.a (x86-64, made by `make archive`); no further library is
 * needed. docs/PROTOCOL.md has the layouts and the rules.
 */
#ifndef ALTUVRIN_H
#define ALTUVRIN_H

#include <stddef.h>
#include <stdint.h>

#ifdef __cplusplus
extern "C" {
#endif

/*
 * The answer numbers of reading, and two more that the calls below do not give: 52, which is one of
 * writing, and 51, which is one of an offer at a near end. The first that applies is given, in this
 * order:
 *     Transmitter  1 2 3 4 5 6 7 64 8 9
 *     Signal       1 2 3 4 10 11 12 8 131 132 133 134 135 136 137 138 50 14 15
 *     record       20 21 25 22
 * altuvrin_archive never gives 50, and has the same order without it.
 */
enum altuvrin_answer {
    /* A Link 16 Transmitter or Signal PDU, the first of a datagram, or a trunk record; the size is
     * how many bytes the PDU used, or that of the whole record. */
    ALTUVRIN_TAKEN = 0,
    /* Fewer than 12 bytes. */
    ALTUVRIN_SHORT = 1,
    /* The protocol version is neither 5, 6 nor 7. */
    ALTUVRIN_VERSION = 2,
    /* In writing: a PDU status other than 0 with version 5 or 6, which have none. The calls below
     * read, and do not give it. */
    ALTUVRIN_STATUS = 52,
    /* The PDU type is neither 25 (Transmitter) nor 26 (Signal), or the family is not 4. */
    ALTUVRIN_TYPE = 3,
    /* The length field is above the datagram's length, or less than the fixed part: 104 bytes of a
     * Transmitter, 32 of a Signal. Bytes behind the PDU are no matter of it. */
    ALTUVRIN_LENGTH = 4,
    /* Category is not 21, input source not 8, major modulation not 7, detail not 0, or system
     * not 8. */
    ALTUVRIN_RADIO = 5,
    /* The length of the modulation parameters is not 8. */
    ALTUVRIN_MODULATION_LENGTH = 6,
    /* The length of the antenna pattern is not 0. */
    ALTUVRIN_PATTERN_LENGTH = 7,
    /* A Transmitter of version 7 has variable parameter records: their number, in bytes 30 and 31,
     * is not 0. In versions 5 and 6 these bytes are padding. */
    ALTUVRIN_PARAMETER_RECORDS = 64,
    /* By its length field a Transmitter is not 112 bytes, or a Signal is not 32 bytes and its data
     * bytes, filled to a multiple of 4. */
    ALTUVRIN_PDU_SIZE = 8,
    /* TSA level not 0 to 4, primary mode not 1 or 2, secondary mode not 0 to 3, synchronization
     * state not 2 or 3, or a synchronization ID other than zero at levels 0 to 2. */
    ALTUVRIN_MODULATION = 9,
    /* The top two bits of the encoding are not 1. */
    ALTUVRIN_ENCODING = 10,
    /* The TDL type is not 100. */
    ALTUVRIN_TDL_TYPE = 11,
    /* The data length, in bits, is not a multiple of 8, or under 160. */
    ALTUVRIN_DATA_LENGTH = 12,
    /* The NPG is above 511. */
    ALTUVRIN_NPG = 131,
    /* The net is above 127. */
    ALTUVRIN_NET = 132,
    /* The TSEC is neither 0 to 127 nor 255. */
    ALTUVRIN_TSEC = 133,
    /* The MSEC is neither 0 to 127 nor 255. */
    ALTUVRIN_MSEC = 134,
    /* The message type is above 7. */
    ALTUVRIN_MESSAGE_TYPE = 135,
    /* The slot is above 98,303. */
    ALTUVRIN_SLOT = 136,
    /* The epoch is above 112. */
    ALTUVRIN_EPOCH = 137,
    /* The slot is above 49,151 in epoch 112. */
    ALTUVRIN_LATE_SLOT = 138,
    /* The message type is 3, 4 or 5: voice, which is retired. altuvrin_archive still takes it. */
    ALTUVRIN_RETIRED = 50,
    /* The body of message type 0 is not 6 bytes and whole words of 10, or that of type 1 or 2
     * (round-trip timing) is not 6 bytes. */
    ALTUVRIN_BODY_SIZE = 14,
    /* More than 12 words in message type 0, or more than 256 bytes in types 6 and 7; in
     * altuvrin_archive also in types 3 to 5. */
    ALTUVRIN_BODY_LIMIT = 15,
    /* The first byte is no kind of trunk record: not 0 to 12, 16, 17, 18 or 32. */
    ALTUVRIN_RECORD_KIND = 20,
    /* A record is empty, or not the length of its kind. */
    ALTUVRIN_RECORD_LENGTH = 21,
    /* The bytes after a record's number are not one PDU of its kind, as the writer gives it, with
     * nothing behind it: a Signal of message type 0 with 0 to 12 words, a Transmitter (kind 16), or
     * a Signal of message type 1 (kind 17) or 2 (kind 18); its padding zero, in types 1 and 2 also
     * that inside the body, the upper 13 of its 48 bits. Byte 10 of the PDU is padding in versions
     * 5 and 6, and in version 7 the status, which may be any; byte 11 is padding in all. Types 3 to
     * 7 have no kind. */
    ALTUVRIN_RECORD_PDU = 22,
    /* A record with a PDU has the number 4,294,967,295; a reply may have it. */
    ALTUVRIN_RECORD_NUMBER = 25,
    /* In an offer: the datagram holds more than eight PDUs. A near end answers it; the calls below
     * read one PDU or one record, and do not give it. */
    ALTUVRIN_BUNDLE = 51
};

/*
 * Each call asks one thing of the caller: from `bytes` on, `length` bytes must be readable, and
 * nobody may write them during the call. NULL is allowed where `length` is 0; that is an empty
 * datagram or record. Whatever stands in the bytes, there is an answer.
 *
 * The calls change no memory, keep none of the bytes, allocate nothing and have no state of their
 * own: threads may make them at the same time.
 */

/*
 * Reads the first PDU of `length` bytes. The answer is of the first PDU, and how many bytes it used,
 * at most `length`; what stands behind it, other PDUs or anything else, is not looked at and changes
 * nothing. It is taken apart by altuvrin_number and altuvrin_size.
 */
uint64_t altuvrin_datagram(const uint8_t *bytes, size_t length);

/*
 * Reads a datagram of an old capture; the answer is of the first PDU, and how many bytes it used.
 * Takes voice (message types 3, 4 and 5) too, with a body of up to 256 bytes, as altuvrin_datagram
 * did until voice was retired. On every datagram that altuvrin_datagram does not refuse with 50 its
 * answer is the same. What it takes as voice is not for the line: no record carries it.
 */
uint64_t altuvrin_archive(const uint8_t *bytes, size_t length);

/*
 * Reads `length` bytes as one trunk record, whole: a kind, a number, and the one PDU that the kind
 * names. Where it is taken, the size is `length`. The answer is packed as that of
 * altuvrin_datagram.
 */
uint64_t altuvrin_record(const uint8_t *bytes, size_t length);

/* The number of an answer: one of altuvrin_answer. */
static inline uint32_t altuvrin_number(uint64_t answer)
{
    return (uint32_t)(answer >> 32);
}

/* The size of what was taken, in bytes: of the first PDU, or of the record; 0 where it was
 * refused. */
static inline uint32_t altuvrin_size(uint64_t answer)
{
    return (uint32_t)(answer & UINT32_MAX);
}

/* What a number says, in a few words for a log. The text is constant and is not freed. */
static inline const char *altuvrin_reason(uint32_t number)
{
    switch (number) {
    case ALTUVRIN_TAKEN: return "taken";
    case ALTUVRIN_SHORT: return "fewer than 12 bytes";
    case ALTUVRIN_VERSION: return "protocol version";
    case ALTUVRIN_STATUS: return "status in version 5 or 6";
    case ALTUVRIN_TYPE: return "PDU type or family";
    case ALTUVRIN_LENGTH: return "length field";
    case ALTUVRIN_RADIO: return "category, input source, major, detail or system";
    case ALTUVRIN_MODULATION_LENGTH: return "modulation length";
    case ALTUVRIN_PATTERN_LENGTH: return "pattern length";
    case ALTUVRIN_PARAMETER_RECORDS: return "variable parameter records";
    case ALTUVRIN_PDU_SIZE: return "size of the PDU";
    case ALTUVRIN_MODULATION: return "TSA level, modes, synchronization state or ID";
    case ALTUVRIN_ENCODING: return "encoding class";
    case ALTUVRIN_TDL_TYPE: return "TDL type";
    case ALTUVRIN_DATA_LENGTH: return "data length";
    case ALTUVRIN_NPG: return "NPG";
    case ALTUVRIN_NET: return "net";
    case ALTUVRIN_TSEC: return "TSEC";
    case ALTUVRIN_MSEC: return "MSEC";
    case ALTUVRIN_MESSAGE_TYPE: return "message type";
    case ALTUVRIN_SLOT: return "slot above 98,303";
    case ALTUVRIN_EPOCH: return "epoch above 112";
    case ALTUVRIN_LATE_SLOT: return "slot too late in epoch 112";
    case ALTUVRIN_RETIRED: return "retired message type";
    case ALTUVRIN_BODY_SIZE: return "size of the body";
    case ALTUVRIN_BODY_LIMIT: return "body too long";
    case ALTUVRIN_RECORD_KIND: return "kind of record";
    case ALTUVRIN_RECORD_LENGTH: return "length of the record";
    case ALTUVRIN_RECORD_PDU: return "carried bytes";
    case ALTUVRIN_RECORD_NUMBER: return "number of the record";
    case ALTUVRIN_BUNDLE: return "more than eight PDUs";
    default: return "unknown number";
    }
}

#ifdef __cplusplus
}
#endif

#endif
