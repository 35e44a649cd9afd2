#ifndef RECORDS_H
#define RECORDS_H

/* What tables and streams are written with, byte behind byte, and an entry that is due of them. Numbers are little-endian where nothing
 * else is said. */
#include "trevoskel.h"

#include <stddef.h>
#include <stdint.h>

struct bytes {
    const uint8_t *from;
    size_t count;
};

#define BYTES(...) {(const uint8_t[]){__VA_ARGS__}, sizeof((const uint8_t[]){__VA_ARGS__})}
#define NONE {NULL, 0}

/* Numbers of one byte, in eight bytes; of two and of eight. */
#define WIDE(number) number, 0, 0, 0, 0, 0, 0, 0
#define TWO_BYTES(number) (number) % 256, (number) / 256
#define BYTE_OF(number, at) (uint8_t)((uint64_t)(number) >> 8 * (at))
#define EIGHT_BYTES(number) \
    BYTE_OF(number, 0), BYTE_OF(number, 1), BYTE_OF(number, 2), BYTE_OF(number, 3), \
    BYTE_OF(number, 4), BYTE_OF(number, 5), BYTE_OF(number, 6), BYTE_OF(number, 7)

/* Records of a table. */
enum { NO_SLOT = 255, NO_CLOCK = 255 };
enum { NO_ROLE, IS_MAGIC, STREAM_CLASS_ID, IS_UUID = 4, TOTAL, CONTENT, STAMP, END_STAMP, EVENT_CLASS_ID = 11 };
#define PREAMBLE 1, 2
#define TRACE_CLASS 2, 1, WIDE(0), WIDE(0)
#define CLOCK_CLASS 3, 0, WIDE(1)
#define STREAM_CLASS(id, clock) 4, WIDE(id), clock
#define EVENT_CLASS(stream, id) 5, WIDE(stream), WIDE(id)
#define HEADER(members) 6, 0, STRUCTURE(members)
#define CONTEXT(members) 6, 1, STRUCTURE(members)
#define EVENT_HEADER(members) 6, 2, STRUCTURE(members)
#define PAYLOAD(members) 6, 5, STRUCTURE(members)
#define BOOLEAN(slot) 17, 8, 0, 0, slot
#define NUMBER(bits) 18, bits, 0, 0, NO_SLOT, NO_ROLE
#define BIG_ENDIAN(bits) 18, bits, 1, 0, NO_SLOT, NO_ROLE
#define IN_SLOT(bits, slot) 18, bits, 0, 0, slot, NO_ROLE
#define WITH_ROLE(bits, role) 18, bits, 0, 0, NO_SLOT, role
#define LEB128 21, NO_SLOT, NO_ROLE
#define STRING 23
#define BLOB(bytes) 25, TWO_BYTES(bytes), NO_ROLE
#define UUID 25, 16, 0, IS_UUID
#define DYNAMIC_STRING(slot) 26, slot
#define STRUCTURE(members) ALIGNED(members, 0)
#define ALIGNED(members, exponent) 28, members, exponent
#define STATIC_ARRAY(elements) 29, elements, 0, 0
#define OPTIONAL(slot, ranges) 31, slot, ranges
#define VARIANT(slot, options) 32, slot, options
#define RANGE(low, high) 33, 0, WIDE(low), WIDE(high)
#define OPTION(ranges) 34, ranges
#define NO_RECORD 35

/* What most of the tables begin with: a stream class of id 0, which packets are of whose header does not say one. */
#define UNTIMED PREAMBLE, STREAM_CLASS(0, NO_CLOCK)
#define TIMED PREAMBLE, CLOCK_CLASS, STREAM_CLASS(0, 0)

/* The kinds of a field's entry that are named in answers. */
enum { UNSIGNED_FIELD = 18, STRUCTURE_FIELD = 28 };

/* An entry of the list, by the names of its words; of a field with its record's number. */
#define ENTRY(kind, place, bits, value) FIELD(kind, place, bits, value, 0)
#define FIELD(kind, place, bits, value, number) \
    {[TREVOSKEL_ENTRY_KIND] = kind, [TREVOSKEL_ENTRY_PLACE] = place, [TREVOSKEL_ENTRY_BITS] = bits, [TREVOSKEL_ENTRY_VALUE] = value, \
     [TREVOSKEL_ENTRY_NUMBER] = number}

#endif
