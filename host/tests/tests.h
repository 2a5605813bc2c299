/* The groups of tests; each counts its own checks. */
#ifndef TESTS_H
#define TESTS_H

/* Document 01, "Sizes and edges", as far as it speaks of datagrams. */
void test_edges(void);

/* Each rule of each field by itself, over all values that the field can have. */
void test_fields(void);

/* Lengths: of the datagram, of the data and of the body. */
void test_sizes(void);

/* Which refusal comes first where a datagram or a record breaks several rules. */
void test_order(void);

/* Trunk records: kinds, lengths, numbers and what they carry. */
void test_records(void);

/* Round-trip timing, message types 1 and 2: their size, and their body bit by bit. */
void test_timing(void);

/* Voice, message types 3 to 5: refused by live reading, taken by archive reading. */
void test_voice(void);

/* Protocol versions 5, 6 and 7: the status, and the count of parameter records. */
void test_versions(void);

/* Datagrams of several PDUs: what stands behind the first, and the walk from one to the next. */
void test_bundles(void);

/* The small stack that the next one uses, by calls whose use of it is known. */
void test_measuring(void);

/* Every call on 8 KiB of stack. It comes last: it tells what the others have shown too. */
void test_stack(void);

#endif
